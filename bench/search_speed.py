#!/usr/bin/env python3
"""Times the search by solver beside the one that tries all, on the submissions of the examples.

    python3 bench/search_speed.py [PROGRAM]

Run it at the top of the repository, with `rt` on the path. The program of `searches/` is proved and built in a copy of the crates,
unless PROGRAM is one that was built already. Each search runs in a process of its own, as often as fits TARGET seconds, and
the time of one is told; reading isn't counted. Where trying all takes longer than SECONDS, it is stopped. For each
submission that isn't refused: the inputs, the selections, the answer, the seconds of both, and how many times as long trying all takes.
The exit status is 1 where the two differ.
"""
import os
import subprocess
import sys
import tempfile

from built import Built

sys.path.insert(0, os.path.join(os.path.dirname(os.path.realpath(__file__)), '../examples'))
from gradings import SMALL, assignments, inputs_count, submissions_in, text_of  # noqa: E402

USES = ['cegis_loop', 'choice_tree', 'input_space', 'list_questions', 'task_read', 'task_search']
SECONDS = 20
TARGET = 0.3
MOST = 1000


class Search:
    """What a search found, and its seconds; `found` is None where it was stopped or the task is refused."""

    def __init__(self, program, folder, way, submission):
        self.found = None
        first = self.ran(program, folder, way, 1, submission)
        if first is None or first == ['refused']:
            self.seconds = SECONDS
            return
        times = max(1, min(MOST, int(TARGET * 1e6 / (int(first[3]) + 1))))
        words = self.ran(program, folder, way, times, submission)
        self.selections, self.found, self.seconds = int(words[0]), words[1:3], int(words[3]) / times / 1e6

    @staticmethod
    def ran(program, folder, way, times, submission):
        words = [program, way, str(times), 'bounds.txt', 'reference.py', submission, 'rules.eml']
        try:
            ran = subprocess.run(words, cwd=folder, capture_output=True, text=True, check=True, timeout=SECONDS * 2)
        except subprocess.TimeoutExpired:
            return None
        return ran.stdout.split()


def main():
    with tempfile.TemporaryDirectory() as work:
        program = os.path.realpath(sys.argv[1]) if len(sys.argv) > 1 else Built(work, 'searches', USES).program
        sys.exit(compared(program))


def compared(program):
    """Prints the table, and returns whether some answers differ."""
    differ = False
    print('%-32s %8s %14s %-10s %10s %10s %10s' % ('', 'inputs', 'selections', 'found', 'solver s', 'all s', 'ratio'))
    for name in assignments('examples'):
        folder = os.path.join('examples', name)
        inputs = inputs_count(text_of(os.path.join(folder, SMALL)))
        for submission in submissions_in(folder):
            solved = Search(program, folder, 'solver', submission)
            if solved.found is None:
                continue
            listed = Search(program, folder, 'all', submission)
            differ |= listed.found not in (None, solved.found)
            print('%-32s %8d %14d %-10s %10.6f %10s %10.1f' % (
                name + '/' + submission, inputs, solved.selections, ' '.join(solved.found), solved.seconds,
                '%.6f' % listed.seconds if listed.found else 'stopped', listed.seconds / solved.seconds), flush=True)
    return differ


if __name__ == '__main__':
    main()
