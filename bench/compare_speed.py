#!/usr/bin/env python3
"""Times comparing two programs on all inputs by the built grader, beside the plain model and beside CPython.

    [MODEL=PATH] bench/compare_speed.py [PROGRAM]

PROGRAM is crates/grader_cli/out/grader_cli unless it is given. MODEL is the path of the model's command line; without
it the model isn't timed. Each pair agrees, so both programs are run on all inputs. Times are seconds, the least of
several runs. That of the grader is of the whole process; that of the model is of reading and grading, in this
process; that of CPython is of a plain loop over the same inputs, which calls the two functions and compares what they
give, in this process. CPython has no limits to keep, and the model does.
"""
import itertools
import os
import subprocess
import sys
import tempfile

from least_time import least_time

RUNS = 3

BOUNDS = 'width %d\nturns %d\ndepth %d\ncap %d\nentry f\n%s'


def lists(values, most):
    return [(list(items),) for n in range(most + 1) for items in itertools.product(values, repeat=n)]


def texts(letters, most):
    return [(''.join(items),) for n in range(most + 1) for items in itertools.product(letters, repeat=n)]


# Each pair: its name, the bounds, the two programs, and the inputs within the bounds.
PAIRS = (
    ('two sorts, lists of up to 6 of 5 numbers', BOUNDS % (6, 8, 1, 8, 'param v list 0..6 of 0..4\n'), '''\
def f(v):
    for i in range(len(v)):
        for j in range(len(v) - 1):
            if v[j] > v[j + 1]:
                x = v[j]
                v[j] = v[j + 1]
                v[j + 1] = x
    return v
''', '''\
def f(v):
    w = []
    for x in v:
        i = 0
        while i < len(w) and w[i] <= x:
            i += 1
        w = w[:i] + [x] + w[i:]
    return w
''', lists(range(5), 6)),
    ('two gcds, pairs of 100 numbers', BOUNDS % (8, 16, 8, 1, 'param a int 1..100\nparam b int 1..100\n'), '''\
def f(a, b):
    while b != 0:
        rest = a % b
        a = b
        b = rest
    return a
''', '''\
def f(a, b):
    if b == 0:
        return a
    rest = a % b
    if rest == 0:
        return b
    return f(rest, b % rest)
''', list(itertools.product(range(1, 101), repeat=2))),
    ('two palindrome tests, texts of up to 8 of 3 letters', BOUNDS % (8, 8, 1, 8, "param s text 0..8 of 'abc'\n"), '''\
def f(s):
    t = ''
    for c in s:
        t = c + t
    return s == t
''', '''\
def f(s):
    i = 0
    while i < len(s) // 2:
        if s[i] != s[-1 - i]:
            return False
        i += 1
    return True
''', texts('abc', 8)),
)


def by_program(program, folder, sources):
    for name, text in sources.items():
        with open(os.path.join(folder, name), 'w') as file:
            file.write(text)

    def run():
        ran = subprocess.run([program, 'grade'] + list(sources) + ['cert.txt', '200000'], cwd=folder, capture_output=True)
        if (ran.returncode, ran.stdout) != (0, b'correct\n'):
            sys.exit('%s ended with status %d and wrote %r' % (program, ran.returncode, ran.stdout[:300]))
    return least_time(run, RUNS)


def by_model(path, sources):
    sys.path.insert(0, os.path.dirname(os.path.realpath(path)))
    import grade
    raws = [text.encode() for text in sources.values()]

    def run():
        if grade.Grader(grade.read_task(raws, 4)).solve().cost != 0:
            sys.exit('the programs differ for the model')
    return least_time(run, RUNS)


def function(text):
    names = {}
    exec(text, names)
    return names['f']


def by_python(reference, submission, inputs):
    one, other = function(reference), function(submission)

    def run():
        for values in inputs:
            # A list that is changed in place is the caller's here.
            copies = [[it[:] if isinstance(it, list) else it for it in values] for _ in range(2)]
            if one(*copies[0]) != other(*copies[1]):
                sys.exit('the programs differ for CPython on %r' % (values,))
    return least_time(run, RUNS)


def main():
    program = os.path.realpath(sys.argv[1] if len(sys.argv) > 1 else 'crates/grader_cli/out/grader_cli')
    path = os.environ.get('MODEL')
    print('%-52s %8s %9s %9s %9s %15s %15s' % ('pair', 'inputs', 'grader', 'CPython', 'model', 'grader/CPython', 'model/grader'))
    with tempfile.TemporaryDirectory() as folder:
        for name, bounds, reference, submission, inputs in PAIRS:
            sources = {'b.txt': bounds, 'ref.py': reference, 'sub.py': submission, 'rules.eml': ''}
            took = by_program(program, folder, sources)
            python = by_python(reference, submission, inputs)
            model = by_model(path, sources) if path else None
            print('%-52s %8d %9.3f %9.3f %9s %15.1f %15s' % (
                name, len(inputs), took, python, '-' if model is None else '%.3f' % model, took / python,
                '-' if model is None else '%.1f' % (model / took)))


if __name__ == '__main__':
    main()
