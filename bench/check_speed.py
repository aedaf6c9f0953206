#!/usr/bin/env python3
"""Times judging a stored certificate beside the grading that stored it, by whole processes.

    bench/check_speed.py [PROGRAM]

PROGRAM is crates/grader_cli/out/grader_cli unless it is given. Graded and checked are all submissions of the examples at
their bounds, and those of DEAR, whose gradings take longer. Times are those of the processor, since the machine may be
loaded; each is the least of RUNS runs, of a dear one of one. For each assignment: how many certificates; the seconds of all gradings and of all checks; the
greatest ratio of a check's time to its grading's; of the certificates of 1 MB and more the greatest ratio of the memory of
a check to the file; and how many were accepted, and how many questions were asked anew.
"""
import os
import shutil
import sys
import tempfile

sys.path.insert(0, os.path.join(os.path.dirname(os.path.realpath(__file__)), '../examples'))
from gradings import CERT, SMALL, Process, assignments, submissions_in  # noqa: E402

RUNS = 3
MEGABYTE = 2 ** 20

GCD = '''\
width 8
turns 8
depth 8
cap 8
entry gcd
param a int 0..%d
param b int 0..%d
'''
EVALUATE = '''\
width 9
turns 4
depth 3
cap 4
entry evaluate
param poly list 0..3 of -4..4
param x int -6..6
'''

# Assignments of the examples at bounds by which a grading takes over a second: the folder, the bounds, and the submissions.
DEAR = (
    ('gcd', GCD % (90, 90), ('sub-loop.py', 'sub-until.py', 'sub-one-line.py')),
    ('evaluate', EVALUATE, ('sub-horner.py',)),
)


class Pair:
    """A grading and the check of what it stored: their seconds, the memory of the check, and the certificate's bytes."""

    def __init__(self, program, folder, submission, runs):
        graded = [Process(program, folder, SMALL, submission) for _ in range(runs)]
        self.grade = min(run.seconds for run in graded)
        path = os.path.join(folder, CERT)
        self.bytes = os.path.getsize(path) if os.path.exists(path) else 0
        if self.bytes:
            checked = [Process(program, folder, SMALL, submission, 'check') for _ in range(runs)]
            self.check = min(run.seconds for run in checked)
            self.memory = checked[0].megabytes * MEGABYTE
            self.accepted = checked[0].status == 0
            self.anew = '\nasked anew ' in checked[0].output


def pairs(program, example, bounds, submissions, runs):
    """The pairs of an assignment's submissions that stored a certificate, within its own bounds or within these."""
    with tempfile.TemporaryDirectory() as work:
        files = os.path.join(work, 'files')
        shutil.copytree(example, files)
        if bounds:
            with open(os.path.join(files, SMALL), 'w') as file:
                file.write(bounds)
        found = [Pair(program, files, submission, runs) for submission in submissions]
        return [pair for pair in found if pair.bytes]


def row(name, found):
    """A line of the table."""
    large = [pair.memory / pair.bytes for pair in found if pair.bytes >= MEGABYTE]
    return '%-12s %4d %9.3f %9.3f %8.2f %10s %5d %5d' % (
        name, len(found), sum(pair.grade for pair in found), sum(pair.check for pair in found),
        max(pair.check / pair.grade for pair in found), '%.2f' % max(large) if large else '-',
        sum(pair.accepted for pair in found), sum(pair.anew for pair in found))


def main():
    program = os.path.realpath(sys.argv[1] if len(sys.argv) > 1 else 'crates/grader_cli/out/grader_cli')
    print('%-12s %4s %9s %9s %8s %10s %5s %5s' % ('', 'cert', 'grade s', 'check s', 'ratio', 'memory', 'acc', 'anew'))
    for name in assignments('examples'):
        folder = os.path.join('examples', name)
        print(row(name, pairs(program, folder, None, submissions_in(folder), RUNS)), flush=True)
    for name, bounds, submissions in DEAR:
        for submission in submissions:
            found = pairs(program, os.path.join('examples', name), bounds, (submission,), 1)
            if found:
                print(row(name + ' dear', found), flush=True)


main()
