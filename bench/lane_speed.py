#!/usr/bin/env python3
"""Running 64 inputs at once beside the interpreter, in instructions, which a busy machine repeats; and the picker, by time.

    python3 bench/lane_speed.py [--program PROGRAM] [NAME ..]

Run it at the top of the repository, with `rt` and `valgrind` on the path. The program of `lanes/` is proved and built, unless a
built one is named. The programs are the references of the examples within the bounds of `large.txt`, on all their inputs; those of
`every_second` are too many, so its elements are -2..2 here. Then come some small programs that compute on numbers.

Inputs are picked for each program beside itself, once and twice, over lanes and by the interpreter. What it costs more to have it
twice is one run over lanes for each 64 inputs, with a comparison; and by the interpreter what is left of the cost of once, without
that and without making the inputs, is one run on each input. Then inputs are picked for up to 16 submissions of an example that
are read to programs, and the least times of some runs are compared. Both ways must print the same cases and marks: the exit status
is 1 where they don't. Printed are how many inputs there are, the instructions of 64 runs of the interpreter and of one over lanes,
the ratio, and for how many submissions the picker takes how many milliseconds by the interpreter and over lanes.
"""
import argparse
import contextlib
import glob
import os
import re
import subprocess
import sys
import tempfile

sys.path.insert(0, os.path.dirname(os.path.realpath(__file__)))
from built import Built

USES = ['mpy_tree', 'mpy_interp', 'bounds_reader', 'input_space', 'task_read', 'test_picker']
RUNS = 7
# As many programs as a command picks for.
MOST = 16
FEWER = {'every_second': ('-4..4', '-2..2')}
SMALL = {
    'sum': ('width 12\nturns 1\ndepth 1\ncap 1\nentry f\nparam a int -63..64\nparam b int -63..64\n',
            'def f(a, b):\n    return a + b - 3\n'),
    'polynomial': ('width 16\nturns 1\ndepth 1\ncap 1\nentry f\nparam x int -20..20\nparam y int -120..120\n',
                   'def f(x, y):\n    return x * x + 3 * x * y - y\n'),
    'signs': ('width 12\nturns 1\ndepth 1\ncap 1\nentry f\nparam a int -63..64\nparam b int -63..64\n',
              'def f(a, b):\n    if a < b:\n        return b - a\n    elif a == b:\n        return 0\n    return a - b\n'),
    'triangle': ('width 12\nturns 8\ndepth 1\ncap 1\nentry f\nparam n int 0..8\nparam k int -500..500\n',
                 'def f(n, k):\n    total = k\n    while n > 0:\n        total = total + n\n        n = n - 1\n    return total\n'),
    'remainder': ('width 12\nturns 1\ndepth 1\ncap 1\nentry f\nparam a int 0..999\nparam b int 1..10\n',
                  'def f(a, b):\n    return a % b\n'),
    'fibonacci': ('width 12\nturns 1\ndepth 8\ncap 1\nentry f\nparam n int 0..5\nparam k int 0..1500\n',
                  'def f(n, k):\n    if n < 2:\n        return k\n    return f(n - 1, k) + f(n - 2, 1)\n'),
}


class Program:
    """The built program."""

    def __init__(self, path):
        self.path = path

    def instructions(self, *words):
        """How many it takes, and what it prints but for times."""
        words = ['valgrind', '--tool=callgrind', '--callgrind-out-file=/dev/null', self.path] + list(words)
        run = subprocess.run(words, stdout=subprocess.PIPE, stderr=subprocess.PIPE, text=True, check=True)
        lines = [line for line in run.stdout.splitlines() if not line.startswith('time ')]
        return int(re.search(r'Collected : (\d+)', run.stderr)[1]), lines

    def milliseconds(self, *words):
        """The least time of some runs, and what it prints but for times."""
        runs = [subprocess.run([self.path] + list(words), stdout=subprocess.PIPE, text=True, check=True).stdout for _ in range(RUNS)]
        least = min(int(re.search(r'^time (\d+)', it, re.MULTILINE)[1]) for it in runs)
        return least / 1000, [line for line in runs[0].splitlines() if not line.startswith('time ')]

    def reads(self, *words):
        words = [self.path, 'read'] + list(words)
        return subprocess.run(words, stdout=subprocess.DEVNULL, stderr=subprocess.DEVNULL).returncode == 0


class Measured:
    """What both ways take, and whether they print the same."""

    def __init__(self, measure, *files):
        (self.interpreter, told), (self.lanes, other) = (measure(way, *files) for way in ('interpreter', 'lanes'))
        self.alike = told == other


class Row:
    """An assignment or a small program."""

    def __init__(self, program, name, bounds, reference, submissions):
        self.name = name
        first, told = program.instructions('inputs', bounds, reference)
        self.inputs = int(told[0].split()[1])
        once = Measured(program.instructions, bounds, reference, reference)
        twice = Measured(program.instructions, bounds, reference, reference, reference)
        more = twice.interpreter - once.interpreter
        self.interpreter = (once.interpreter - more - first) * 64 // self.inputs
        self.lanes = (twice.lanes - once.lanes) // -(-self.inputs // 64)
        self.good = [it for it in submissions if program.reads(bounds, reference, it)][:MOST]
        self.picked = Measured(program.milliseconds, bounds, reference, *self.good) if self.good else None
        self.alike = once.alike and twice.alike and (not self.good or self.picked.alike)

    def ratio(self):
        return self.interpreter / self.lanes

    def cells(self):
        picked = '%d: %.1f, %.1f' % (len(self.good), self.picked.interpreter, self.picked.lanes) if self.good else ''
        return ['`%s`' % self.name] + ['{:,}'.format(it) for it in (self.inputs, self.interpreter, self.lanes)] + ['%.2f' % self.ratio(), picked]


def write(folder, name, text):
    path = os.path.join(folder, name)
    with open(path, 'w') as out:
        out.write(text)
    return path


def tasks(folder):
    """The name, bounds, reference and submissions of each."""
    for path in sorted(glob.glob('examples/*/large.txt')):
        home = os.path.dirname(path)
        name = os.path.basename(home)
        if name in FEWER:
            with open(path) as text:
                path = write(folder, name + '.txt', text.read().replace(*FEWER[name]))
        yield name, path, home + '/reference.py', sorted(glob.glob(home + '/sub-*.py'))
    for name, (bounds, text) in SMALL.items():
        yield name, write(folder, name + '.txt', bounds), write(folder, name + '.py', text), []


def mean(rows):
    return sum(it.ratio() for it in rows) / len(rows)


def main():
    words = argparse.ArgumentParser(description=__doc__, formatter_class=argparse.RawDescriptionHelpFormatter)
    words.add_argument('names', nargs='*')
    words.add_argument('--program')
    given = words.parse_args()
    rows = []
    with contextlib.ExitStack() as open_:
        work, texts = (open_.enter_context(tempfile.TemporaryDirectory()) for _ in range(2))
        program = Program(given.program or Built(work, 'lanes', USES).program)
        print('| program | inputs | 64 runs of the interpreter | a run over lanes | ratio | picking for submissions: ms |')
        print('|---|---|---|---|---|---|', flush=True)
        for task in tasks(texts):
            if not given.names or task[0] in given.names:
                rows.append(Row(program, *task))
                print('| %s |%s' % (' | '.join(rows[-1].cells()), '' if rows[-1].alike else '  the answers differ'), flush=True)
    if rows:
        print('in the mean %.2f' % mean(rows))
    return 0 if all(it.alike for it in rows) else 1


if __name__ == '__main__':
    sys.exit(main())
