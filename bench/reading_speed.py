#!/usr/bin/env python3
"""Times reading a program and printing it again by the built `mpy_format`, beside Python's `ast` on the same text.

    bench/reading_speed.py [PROGRAM]

PROGRAM is crates/mpy_format/out/mpy_format unless it is given. The texts are programs within all limits, of 8,192 up
to 65,536 bytes, and texts of 65,536 bytes that are refused. Times are milliseconds, the least of several runs. Those
of `mpy_format` are of the whole process, and that of the empty program is printed first; those of Python are of
`ast.unparse(ast.parse(text))` alone, in this process.
"""
import ast
import os
import subprocess
import sys
import tempfile

from least_time import least_time

RUNS = 15
MOST = 65536


def a_program(size):
    """A program of about so many bytes, in 8 functions of up to 24 statements each."""
    lines, length = [], 0
    statements = 8 * 24
    wide = max(1, (size // statements - 30) // 12)
    for number in range(8):
        lines.append('def f%d(first, second):' % number)
        for at in range(23):
            items = ', '.join('%d * second' % (at + k % 10) for k in range(wide))
            lines.append('    first = [%s] + first[%d:]' % (items, at))
        lines.append('    return first if len(first) > 2 else [-second ** 2, (1 - second) * 3]')
        lines.append('')
    return '\n'.join(lines[:-1]) + '\n'


REFUSED = (
    ('brackets', '(' * MOST),
    ('not', 'not ' * (MOST // 4)),
    ('minus', '-' * MOST),
    ('quotes', '"' * MOST),
    ('line ends', '\r\n' * (MOST // 2)),
    ('returns', '\r' * MOST),
    ('comments', '#\n' * (MOST // 2)),
    ('ifs', ''.join('%sif x:\n' % (' ' * n) for n in range(360))[:MOST]),
    ('defs', 'def f(): pass\n' * (MOST // 14)),
    ('one long comment', '#' * MOST),
    ('pairs of brackets', '()' * (MOST // 2)),
    ('names', 'a ' * (MOST // 2)),
    ('long name', 'a' * MOST),
    ('long number', '1' * MOST),
    ('backslashes', "'" + '\\' * (MOST - 1)),
)


def milliseconds(call):
    return least_time(call, RUNS) * 1000


def timed(program, folder, text):
    path = os.path.join(folder, 'text.py')
    with open(path, 'wb') as file:
        file.write(text.encode())
    out = []

    def run():
        out[:] = [subprocess.run([program, 'text.py'], cwd=folder, stdout=subprocess.PIPE)]
    took = milliseconds(run)
    return took, out[0].stdout, out[0].returncode


def main():
    program = os.path.realpath(sys.argv[1] if len(sys.argv) > 1 else 'crates/mpy_format/out/mpy_format')
    with tempfile.TemporaryDirectory() as folder:
        start, _, _ = timed(program, folder, '')
        print('the empty program: %.2f ms' % start)
        print('%8s %12s %12s %8s' % ('bytes', 'mpy_format', 'ast', 'ratio'))
        for size in (8192, 16384, 32768, MOST):
            text = a_program(size)
            while len(text) > MOST:
                text = a_program(size := size - 256)
            took, out, status = timed(program, folder, text)
            if status != 0 or ast.dump(ast.parse(out)) != ast.dump(ast.parse(text)):
                sys.exit('%s printed another program, or none: status %d, %r' % (program, status, out[:200]))
            model = milliseconds(lambda: ast.unparse(ast.parse(text)))
            print('%8d %12.2f %12.2f %8.2f' % (len(text), took, model, took / model))
        for name, text in REFUSED:
            took, out, status = timed(program, folder, text)
            print('%-18s %8d bytes %8.2f ms  %s' % (name, len(text), took, out.decode()[:60].strip() or 'an empty program'))
            if status not in (0, 4):
                sys.exit('status %d' % status)


if __name__ == '__main__':
    main()
