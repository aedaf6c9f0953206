#!/usr/bin/env python3
"""Times reading programs to their typing, bounds and cases by the built grader, beside the plain model.

    [MODEL=PATH] bench/typing_speed.py [PROGRAM]

PROGRAM is crates/grader_cli/out/grader_cli unless it is given. MODEL is the path of the model's command line; without
it the model isn't timed. Each source grows up to 65,536 bytes, or to the most that the limits of programs let through.
The grader is called as `run` without the value that the bounds want, or with a value that isn't one of the inputs, so
it reads the sources and runs nothing. Times are milliseconds, the least of several runs. That of the grader is of the
whole process, with `least` that of the smallest sources beside it; that of the model is of reading the same sources,
in this process.
"""
import os
import subprocess
import sys
import tempfile
import time

RUNS = 7
BOUNDS = 'width 8\nturns 4\ndepth 4\ncap 4\nentry f\nparam n int 0..3\n'
SIZES = (4096, 16384, 65536)
STATEMENTS = 198


def name(number):
    """Names of two bytes that are no words of the language."""
    return 'abcdefg'[number // 36] + '0123456789ABCDEFGHIJKLMNOPQRSTUVWXYZ'[number % 36]


def sum_of(word, room):
    """A sum of about so many bytes, in groups that keep it shallow and within the tokens of a line."""
    count = max(1, min(180, int(room / (len(word) + 1.2))))
    groups = ['+'.join([word] * min(16, count - at)) for at in range(0, count, 16)]
    return '+'.join('(%s)' % group for group in groups)


def chain(size, word=name):
    """Each local takes its type from the next one, so each pass over the program gives one local its type."""
    room = size // (STATEMENTS + 1) - 6
    lines = ['def f(n):'] + [' %s=%s' % (word(at), sum_of(word(at + 1), room)) for at in range(STATEMENTS - 1)]
    return '\n'.join(lines + [' %s=n' % word(STATEMENTS - 1), ' return n', ''])


def chain_forth(size):
    """The same in the order that needs the fewest passes."""
    room = size // (STATEMENTS + 1) - 6
    lines = [' %s=%s' % (name(at + 1), sum_of(name(at), room)) for at in range(STATEMENTS - 1)]
    return '\n'.join(['def f(n):', ' %s=n' % name(0)] + lines + [' return n', ''])


def long_names(size):
    return chain(size, lambda at: 'n' * 37 + '%03d' % at)


def circle(size):
    """Eight functions that call each other in a circle, each with six parameters that go round."""
    params = ['p%d' % at for at in range(6)]
    turned = ', '.join(params[1:] + params[:1])
    texts = []
    for at in range(8):
        of, to = ('f' if it == 0 else 'g%d' % it for it in (at, (at + 1) % 8))
        room = size // 8
        lines = ['def %s(%s):' % (of, 'n' if at == 0 else ', '.join(params))]
        call = ' x=%s(%s)' % (to, 'p0' if to == 'f' else 'n, n, n, n, n, n' if at == 0 else turned)
        count = max(1, min(22, room // 300))
        lines += [call + ('+' + sum_of('n' if at == 0 else 'p0', room // count - len(call) - 4)) for _ in range(count)]
        texts.append('\n'.join(lines + [' return n' if at == 0 else ' return p0', '']))
    return ''.join(texts)


def undecided(size):
    """Six parameters that no call decides."""
    return chain(size // 2) + 'def g(a, b, c, d, e, x):\n return a\n'


def shares(size):
    """Loops in one another over lists, with changes of other lists inside."""
    lines = ['def f(n):'] + [' v%d=[%s]' % (at, ','.join(['n'] * 150)) for at in range(7)]
    lines += [' ' * (at + 1) + 'for i in v%d[:] if n else %s:' % (at, 'v%d' % at) for at in range(7)]
    room = (size - sum(map(len, lines))) // 170 - 14
    lines += [' ' * 8 + 'w=[%s]' % ','.join(['n'] * max(1, min(195, room // 2))) for _ in range(85)]
    lines += [' ' * 8 + 'w[len([%s])]=n' % ','.join(['n'] * max(1, min(190, room // 2 - 3))) for _ in range(85)]
    return '\n'.join(lines + [' return n', ''])


PROGRAMS = (('chain, most passes', chain), ('chain, fewest passes', chain_forth), ('names of 40 bytes', long_names),
            ('a circle of calls', circle), ('undecided parameters', undecided), ('loops over lists', shares))


def comments(size):
    return BOUNDS.replace('\n', '\n' + '# of a course\n' * ((size - len(BOUNDS)) // 84), 6)[:size]


def spaces(size):
    return BOUNDS.replace(' int ', ' ' * (size - len(BOUNDS)) + 'int ')


def params(size):
    return BOUNDS + 'param n int 0..3\n' * ((size - len(BOUNDS)) // 17)


def numbers(size):
    return '[%s]' % ', '.join(['-128'] * (size // 6))


def letters(size):
    return "'%s'" % ("\\'" * ((size - 2) // 2))


def least(call):
    times = []
    for _ in range(RUNS):
        before = time.perf_counter()
        call()
        times.append(time.perf_counter() - before)
    return 1000 * min(times)


class Grader:
    def __init__(self, program, folder):
        self.program, self.folder = program, folder

    def time(self, bounds, program, values=()):
        for file, text in (('b.txt', bounds), ('p.py', program)):
            with open(os.path.join(self.folder, file), 'w') as out:
                out.write(text)
        self.said = ''

        def call():
            ran = subprocess.run([self.program, 'run', 'b.txt', 'p.py', *values], cwd=self.folder, capture_output=True)
            self.said = ran.stdout.decode()
        return least(call)


class Model:
    def __init__(self, path):
        sys.dont_write_bytecode = True
        sys.path.insert(0, os.path.dirname(os.path.realpath(path)))
        sys.setrecursionlimit(100000)
        import bounds
        import cases
        import grade
        self.bounds, self.cases, self.grade = bounds, cases, grade

    def reads(self, bounds, program, values):
        import names_types
        import parser
        import share
        import tree
        try:
            b = self.bounds.read_bounds(bounds.encode())
            p = parser.read_prog(program.encode())
            share.unshared(p, names_types.check_types(p, b.entry, b.ptypes()))
            for value in values:
                self.cases.read_case(value)
        except tree.Fault:
            pass

    def time(self, bounds, program, values=()):
        before = time.perf_counter()
        self.reads(bounds, program, values)
        return 1000 * (time.perf_counter() - before)


def main():
    program = os.path.realpath(sys.argv[1] if len(sys.argv) > 1 else 'crates/grader_cli/out/grader_cli')
    path = os.environ.get('MODEL')
    model = Model(path) if path else None
    tiny = 'def f(n):\n return n\n'
    rows = [(what, BOUNDS, made(size), ()) for what, made in PROGRAMS for size in SIZES]
    for size in SIZES[1:]:
        rows += [('bounds, ' + made.__name__, made(size), tiny, ()) for made in (comments, spaces, params)]
        rows += [('a case, ' + made.__name__, BOUNDS, tiny, (made(size),)) for made in (numbers, letters)]
    print('%-24s %7s %9s %9s %9s %13s  %s' % ('sources', 'bytes', 'grader', 'least', 'model', 'model/grader', 'answer'))
    with tempfile.TemporaryDirectory() as folder:
        grader = Grader(program, folder)
        for what, bounds, text, values in rows:
            base = grader.time(BOUNDS, tiny)
            took = grader.time(bounds, text, values)
            modelled = model.time(bounds, text, values) if model else None
            size = max(map(len, (text, bounds) + values))
            print('%-24s %7d %9.1f %9.1f %9s %13s  %s' % (
                what, size, took, base, '-' if model is None else '%.0f' % modelled,
                '-' if model is None else '%.0f' % (modelled / took), grader.said.strip()))


if __name__ == '__main__':
    main()
