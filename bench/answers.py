#!/usr/bin/env python3
"""Grades all submissions of the examples by whole processes, and measures the processes and the certificates.

    python3 bench/answers.py [PROGRAM] [--larger]

PROGRAM is crates/grader_cli/out/grader_cli unless it is given. With `--larger` the assignments have the bounds of their
`large.txt`. For each assignment: how many inputs there are within the bounds and how many submissions; how these are
answered (correct, corrected, no correction, spent, refused); the seconds of all and of the slowest; the greatest memory of a
process in MB; and of the certificates the greatest number of clauses of a formula, of logged clauses, of hints, and of bytes.
Below stands the one that took the most memory for each hint, of those with 100,000 hints and more.
"""
import collections
import os
import shutil
import sys
import tempfile

TOP = os.path.join(os.path.dirname(os.path.realpath(__file__)), '..')
EXAMPLES = os.path.join(TOP, 'examples')
sys.path.insert(0, EXAMPLES)
from gradings import LARGE, SMALL, Certificate, Process, assignments, inputs_count, submissions_in, text_of  # noqa: E402

STATUSES = ('correct', 'corrected', 'none', 'spent', 'refused')
MANY_HINTS = 100000


def graded(program, name, bounds):
    """The inputs within the bounds of an assignment, and the process and certificate of each submission."""
    with tempfile.TemporaryDirectory() as work:
        folder = os.path.join(work, 'files')
        shutil.copytree(os.path.join(EXAMPLES, name), folder)
        runs = []
        for submission in submissions_in(folder):
            process = Process(program, folder, bounds, submission)
            runs.append((submission, process, Certificate(folder)))
        return inputs_count(text_of(os.path.join(folder, bounds))), runs


def row(name, inputs, runs):
    answers = collections.Counter(process.status for _, process, _ in runs)
    counts = ', '.join(str(answers[status]) for status in range(len(STATUSES)))
    processes, certs = [process for _, process, _ in runs], [cert for *_, cert in runs]
    return '%-12s %8d %4d  %-26s %8.3f %8.3f %7.1f %8d %7d %9d %10d' % (
        name, inputs, len(runs), counts, sum(process.seconds for process in processes),
        max(process.seconds for process in processes), max(process.megabytes for process in processes),
        max(cert.clauses for cert in certs), max(cert.logged for cert in certs),
        max(cert.hints for cert in certs), max(cert.bytes for cert in certs))


def main():
    bounds = LARGE if '--larger' in sys.argv else SMALL
    paths = [word for word in sys.argv[1:] if not word.startswith('--')]
    program = os.path.realpath(paths[0] if paths else 'crates/grader_cli/out/grader_cli')
    print('%-12s %8s %4s  %-26s %8s %8s %7s %8s %7s %9s %10s' % (
        'assignment', 'inputs', 'subs', 'answers (c, +, -, s, r)', 'seconds', 'slowest', 'MB', 'clauses', 'logged', 'hints', 'bytes'))
    most = None
    for name in assignments(EXAMPLES):
        inputs, runs = graded(program, name, bounds)
        print(row(name, inputs, runs), flush=True)
        for submission, process, cert in runs:
            if cert.hints >= MANY_HINTS:
                per_hint = process.megabytes * 1048576 / cert.hints
                most = max(most or (0,), (per_hint, name, submission))
    if most:
        print('%.1f bytes a hint: %s/%s' % most)


if __name__ == '__main__':
    main()
