#!/usr/bin/env python3
"""Grades the submissions within large bounds, and compares the status and the first line of the answer with a table.

    examples/run --large [PROGRAM]

calls it. PROGRAM is crates/grader_cli/out/grader_cli unless it is given. The bounds of an assignment are in its `large.txt`,
and `large.out` has a line for each submission: its name, the exit status, and the first line of the output. Printed are of
each submission the first line, the seconds of a processor and the greatest memory; more than 10 seconds or 1,024 MB are an
error.
"""
import os
import shutil
import sys
import tempfile

from gradings import LARGE, Process, assignments, submissions_in, text_of

MOST_SECONDS = 10
MOST_MEGABYTES = 1024
EXAMPLES = os.path.dirname(os.path.realpath(__file__))
PROGRAM = os.path.join(EXAMPLES, '../crates/grader_cli/out/grader_cli')


def stored_answers(folder):
    """Of each submission the status and the first line, as one text."""
    lines = text_of(os.path.join(folder, 'large.out')).splitlines()
    return dict(line.split(' ', 1) for line in lines)


def faults_of(process, wanted):
    answer = '%d %s' % (process.status, process.first_line())
    if answer != wanted:
        yield 'wanted is %s, given %s' % (wanted, answer)
    if process.seconds > MOST_SECONDS:
        yield 'it took more than %d seconds' % MOST_SECONDS
    if process.megabytes > MOST_MEGABYTES:
        yield 'it took more than %d MB' % MOST_MEGABYTES


def compare(program, name):
    """Grades an assignment; how many submissions it has, how many were wrong, and their seconds."""
    with tempfile.TemporaryDirectory() as work:
        folder = os.path.join(work, 'files')
        shutil.copytree(os.path.join(EXAMPLES, name), folder)
        stored = stored_answers(folder)
        count = wrong = seconds = 0
        for submission in submissions_in(folder):
            process = Process(program, folder, LARGE, submission)
            print('%-36s %-44s %7.2f s %7.1f MB' % (
                name + '/' + submission, process.first_line(), process.seconds, process.megabytes), flush=True)
            faults = list(faults_of(process, stored.get(submission)))
            for fault in faults:
                print('    ' + fault, flush=True)
            count, wrong, seconds = count + 1, wrong + bool(faults), seconds + process.seconds
    return count, wrong, seconds


def main():
    program = os.path.realpath(sys.argv[1] if len(sys.argv) > 1 else PROGRAM)
    if not os.access(program, os.X_OK):
        sys.exit('no program at ' + program)
    compared = [compare(program, name) for name in assignments(EXAMPLES)]
    count, wrong, seconds = map(sum, zip(*compared))
    print('%d graded, %d wrong, in %.1f seconds' % (count, wrong, seconds))
    return 1 if wrong or not count else 0


if __name__ == '__main__':
    sys.exit(main())
