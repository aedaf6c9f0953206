#!/usr/bin/env python3
"""Compares how programs are read and printed with a plain model, on random texts.

    MODEL=PATH tests/reading.py SEED COUNT [--program PROGRAM] [--first NUMBER]

MODEL is the path of the model's command line; its modules lie beside it. PROGRAM is the built `mpy_format`. Of the
texts half are random programs in a random layout; the others are such programs with a token, a byte, a column or a
line changed, dropped, doubled or swapped. Each text is made from the seed and its own number, so `--first NUMBER`
with COUNT 1 repeats one. A text is printed by both, or refused by both with one cause and line. Printed are the
counts of the answers, and each difference with its text; the exit status is 1 where there is one.
"""
import argparse
import collections
import os
import random
import subprocess
import sys
import tempfile

NAMES = ('f', 'g', 'x', 'y', 'n', 'total', '_', 'a1', 'len', 'range', 'items', 'If', 'append', 'print')
RESERVED = ('if', 'in', 'is', 'lambda', 'None', 'async', 'return', 'def', 'not', 'and', 'or', 'else', 'elif', 'True',
            'False', 'for', 'while', 'pass', 'break', 'continue')
MARKS = ('(', ')', '[', ']', ':', ',', '.', '=', '==', '!=', '<', '<=', '>', '>=', '+', '-', '*', '//', '%', '**',
         '+=', '-=', '*=', '//=', '%=', '**=', '=>', '/', ';', '!', '@', '$', '?', '{', '}', '~', '\\', '&')
NUMBERS = ('0', '1', '2', '10', '2147483647', '2147483648', '00', '007', '1.5', '0x1', '1_0', '1if', '99999999999')
BATCH = 400
# The stage of the model from which on `print` is a statement.
STAGE = 15


class Programs:
    """Random programs, as text in a random layout."""

    def __init__(self, rng):
        self.rng = rng

    def pick(self, *choices):
        return self.rng.choice(choices)

    def name(self):
        return self.rng.choice(NAMES)

    def literal(self):
        return self.pick('0', '1', '2', '7', '10', '305', '2147483647')

    def text(self):
        quote = self.pick("'", '"')
        inside = ''.join(self.pick('a', 'b', ' ', '#', '\\\\', "\\'", '\\"', 'x', '(', '\'' if quote == '"' else '"')
                         for _ in range(self.rng.randrange(4)))
        return quote + inside + quote

    def gap(self):
        """What may stand between two tokens that would else be one."""
        return self.pick(' ', ' ', ' ', '  ', '\t', ' \t')

    def room(self):
        """What may stand between two tokens."""
        return self.pick('', '', '', '', ' ', ' ', '  ', '\t')

    def join(self, *parts):
        """The parts with room between them, and a gap where two of them would be one."""
        out = ''
        for part in parts:
            if not part:
                continue
            if not out:
                out = part
            elif (out[-1].isalnum() or out[-1] == '_') and (part[0].isalnum() or part[0] in '_.\'"'):
                out += self.gap() + part
            elif out[-1] in '=!<>+-*/%' and part[0] in '=*/>':
                out += ' ' + part
            else:
                out += self.room() + part
        return out

    def expression(self, depth):
        if depth <= 0 or self.rng.random() < 0.25:
            return self.atom(0)
        less = lambda: self.expression(depth - 1 - self.rng.randrange(2))
        kind = self.rng.randrange(12)
        if kind == 0:
            return self.join(less(), 'if', less(), 'else', less())
        if kind == 1:
            return self.join(less(), self.pick('or', 'and'), less())
        if kind == 2:
            return self.join('not', less())
        if kind == 3:
            return self.join(self.closed(depth), self.pick('==', '!=', '<', '<=', '>', '>=', 'in', 'not  in'),
                             self.closed(depth))
        if kind in (4, 5, 6):
            return self.join(less(), self.pick('+', '-', '*', '//', '%', '**'), less())
        if kind == 7:
            return self.join('-', self.closed(depth))
        if kind == 8:
            return self.join(self.atom(depth), '[', less(), ']')
        if kind == 9:
            return self.join(self.atom(depth), '[', self.pick('', less()), ':', self.pick('', less()), ']')
        return self.atom(depth)

    def closed(self, depth):
        """An expression that is mostly an operand."""
        if self.rng.random() < 0.15:
            return self.expression(depth - 1)
        return self.atom(depth - 1)

    def several(self, depth):
        parts = []
        for number in range(self.rng.choice((0, 1, 1, 2, 3))):
            parts += ([','] if number else []) + [self.expression(depth - 1)]
        return self.join(*parts)

    def atom(self, depth):
        kind = self.rng.randrange(10) if depth > 0 else self.rng.randrange(6)
        if kind < 2:
            return self.name()
        if kind < 4:
            return self.literal()
        if kind == 4:
            return self.text()
        if kind == 5:
            return self.pick('True', 'False')
        if kind == 6:
            return self.join(self.name(), '(', self.several(depth), ')')
        if kind == 7:
            return self.join('[', self.several(depth), ']')
        broken = self.pick('', '', '', '\n   ', '\n\n  # inside\n ')
        return '(' + broken + self.expression(depth - 1) + ')'

    def simple(self, in_loop):
        e = lambda: self.expression(self.rng.choice((1, 2, 3, 4)))
        op = self.pick('+=', '-=', '*=', '//=', '%=')
        kind = self.rng.randrange(12)
        if kind < 3:
            return self.join(self.name(), '=', e())
        if kind == 3:
            return self.join(self.name(), op, e())
        if kind == 4:
            return self.join(self.name(), '[', e(), ']', '=', e())
        if kind == 5:
            return self.join(self.name(), '[', e(), ']', op, e())
        if kind == 6:
            return self.join(self.name(), '.', 'append', '(', e(), ')')
        if kind == 7:
            return 'return'
        if kind == 8:
            return self.join('return', e())
        if kind == 9:
            return self.join('print', '(', e(), ')')
        if kind == 10:
            return self.pick('break', 'continue') if in_loop else 'pass'
        return 'pass'

    def noise(self, lines):
        if self.rng.random() < 0.1:
            lines.append(self.pick('', '   ', '# a comment', '     # é', '\t', '  \t'))

    def line(self, column, text):
        return ' ' * column + text + self.pick('', '', '', '', ' ', ' # why', '#', '\t')

    def body(self, lines, column, header, in_loop, nesting):
        """A header with its body: behind its colon, or below it."""
        head = self.join(header, ':')
        if self.rng.random() < 0.2:
            lines.append(self.line(column, head + ' ' + self.simple(in_loop)))
            return
        lines.append(self.line(column, head))
        self.block(lines, column + self.pick(1, 2, 4, 4, 4, 7), in_loop, nesting - 1)

    def block(self, lines, column, in_loop, nesting):
        for _ in range(self.rng.choice((1, 1, 2, 2, 3, 4))):
            self.noise(lines)
            kind = self.rng.randrange(9) if nesting > 0 else 0
            test = lambda: self.expression(self.rng.choice((1, 2, 3)))
            if kind < 5:
                lines.append(self.line(column, self.simple(in_loop)))
            elif kind == 5:
                self.body(lines, column, self.join('while', test()), True, nesting)
            elif kind == 6:
                self.body(lines, column, self.join('for', self.name(), 'in', test()), True, nesting)
            else:
                self.body(lines, column, self.join('if', test()), in_loop, nesting)
                for _ in range(self.rng.choice((0, 0, 1, 2))):
                    self.body(lines, column, self.join('elif', test()), in_loop, nesting)
                if self.rng.random() < 0.5:
                    self.body(lines, column, 'else', in_loop, nesting)

    def program(self):
        lines = []
        for _ in range(self.rng.choice((0, 1, 1, 1, 2, 2, 3))):
            self.noise(lines)
            params = []
            for number in range(self.rng.choice((0, 1, 1, 2, 3, 6))):
                params += ([','] if number else []) + [self.name()]
            header = self.join('def', self.name(), '(', self.join(*params), ')')
            self.body(lines, 0, header, False, self.rng.choice((1, 2, 3, 4)))
        end = self.pick('\n', '\n', '\n', '\r\n')
        text = end.join(lines) + self.pick(end, end, end, '', end + end)
        return self.pick(b'', b'', b'', b'\xef\xbb\xbf') + text.encode()


def large(rng, programs):
    """A program at or just over one of the limits."""
    kind = rng.randrange(9)
    more = rng.choice((-1, 0, 0, 1, 1))
    if kind == 0:
        return ''.join('def f%d():\n  pass\n' % n for n in range(8 + more))
    if kind == 1:
        count = 200 + more
        return 'def f():\n' + ''.join(' x = %d\n' % n if n % 7 else ' if x: pass\n' for n in range(count))
    if kind == 2:
        return 'def f(%s):\n pass\n' % ', '.join('p%d' % n for n in range(6 + more))
    if kind == 3:
        depth = 32 + more
        form = rng.choice(('-' * (depth - 1) + 'x', 'not ' * (depth - 1) + 'x', '[' * (depth - 1) + 'x' + ']' * (depth - 1),
                           'x' + '[:]' * (depth - 1), '**'.join(['x'] * depth), '+'.join(['x'] * depth),
                           'f(' * (depth - 1) + 'x' + ')' * (depth - 1), '(' * 50 + 'x' + ')' * 50))
        return 'def f(x):\n  return %s\n' % form
    if kind == 4:
        depth = 8 + more
        return 'def f(x):\n' + ''.join('%sif x:\n' % (' ' * (n + 1)) for n in range(depth - 1)) + ' ' * depth + 'pass\n'
    if kind == 5:
        name = 'n' * (40 + more)
        return rng.choice(('def %s():\n pass\n', 'def f(%s):\n pass\n', 'def f():\n %s = 1\n', 'def f():\n return %s\n',
                           'def f():\n for %s in x:\n  pass\n', 'def f():\n %s.append(1)\n',
                           'def f():\n if x: pass\n elif %s(1): pass\n')) % name
    if kind == 6:
        count = 400 + more
        # return, the operands and the signs between them
        return 'def f(x):\n return ' + '*'.join(['x'] * (count // 2)) + ('' if count % 2 == 0 else ' -x'[1:]) + '\n'
    if kind == 7:
        return 'def f():\n return %d\n' % (2147483647 + more)
    return 'def f(x):\n return [%s]\n' % ', '.join(['1'] * (198 + more))


def tokens_of(line):
    """A line cut into words, runs of blanks and single marks."""
    out, kind = [], None
    for c in line:
        now = 'w' if c.isalnum() or c == '_' else 'b' if c in ' \t' else None
        if now and now == kind:
            out[-1] += c
        else:
            out.append(c)
        kind = now
    return out


def spoiled(rng, text):
    """A near miss: one token, byte, column or line changed, dropped, doubled or swapped."""
    lines = text.decode('latin-1').splitlines(keepends=True) or ['']
    at = rng.randrange(len(lines))
    what = rng.randrange(4)
    how = rng.randrange(4)
    if what == 0:
        units = tokens_of(lines[at])
        other = rng.choice((rng.choice(NAMES), rng.choice(RESERVED), rng.choice(MARKS), rng.choice(NUMBERS), "'a'", '"', "'"))
        lines[at] = ''.join(changed(rng, units, how, other))
    elif what == 1:
        whole = list(''.join(lines))
        other = chr(rng.choice((rng.randrange(256), rng.choice(b'\t\r\n #\'"\\()[]:=.,0aA_'))))
        return ''.join(changed(rng, whole, how, other)).encode('latin-1')
    elif what == 2:
        bare = lines[at].lstrip(' ')
        column = len(lines[at]) - len(bare)
        lines[at] = rng.choice((' ' * max(0, column + rng.choice((-4, -2, -1, 1, 2, 4))), '\t', ' ' * column + '\t', '')) + bare
    else:
        other = rng.choice(('else:\n', 'elif x:\n', 'break\n', '    break\n', 'x = 1\n', '  pass\n', 'def h():\n', '\n',
                            '    if x:\n', '# c\n', '    else: pass\n', '        x.append(1)\n', '    return\n'))
        lines = changed(rng, lines, how, other)
    return ''.join(lines).encode('latin-1')


def changed(rng, units, how, other):
    units = list(units) or ['']
    at = rng.randrange(len(units))
    if how == 0:
        units[at] = other
    elif how == 1:
        del units[at]
    elif how == 2:
        units.insert(at, rng.choice((units[at], other)))
    else:
        to = rng.randrange(len(units))
        units[at], units[to] = units[to], units[at]
    return units


def text_by(seed, number):
    rng = random.Random('%d %d' % (seed, number))
    programs = Programs(rng)
    if rng.random() < 0.1:
        text = large(rng, programs).encode()
    else:
        text = programs.program()
    if number % 2:
        for _ in range(rng.choice((1, 1, 1, 2))):
            text = spoiled(rng, text)
    return text[:65536]


def wanted(model, name, text):
    """What the model answers of the text."""
    parser, printer, tree = model
    try:
        return printer.prog(parser.read_prog(text, STAGE)).encode()
    except tree.Fault as fault:
        return b'refused %s line %d: %s\n' % (name.encode(), fault.line, fault.cause.encode())


def answers(program, folder, names):
    out = b''
    for name in names:
        ran = subprocess.run([program, name], cwd=folder, stdout=subprocess.PIPE, stdin=subprocess.DEVNULL)
        yield ran.stdout, ran.returncode


def main():
    words = argparse.ArgumentParser(description=__doc__, formatter_class=argparse.RawDescriptionHelpFormatter)
    words.add_argument('seed', type=int)
    words.add_argument('count', type=int)
    words.add_argument('--program', default='crates/mpy_format/out/mpy_format')
    words.add_argument('--first', type=int, default=0)
    given = words.parse_args()
    sys.dont_write_bytecode = True
    sys.path.insert(0, os.path.dirname(os.path.realpath(os.environ['MODEL'])))
    import parser
    import printer
    import tree
    program = os.path.realpath(given.program)
    counts, differences = collections.Counter(), 0
    with tempfile.TemporaryDirectory() as folder:
        for start in range(given.first, given.first + given.count, BATCH):
            numbers = range(start, min(start + BATCH, given.first + given.count))
            texts = [text_by(given.seed, number) for number in numbers]
            names = ['t%d.py' % number for number in numbers]
            for name, text in zip(names, texts):
                with open(os.path.join(folder, name), 'wb') as file:
                    file.write(text)
            for name, text, (out, status) in zip(names, texts, answers(program, folder, names)):
                due = wanted((parser, printer, tree), name, text)
                refused = due.startswith(b'refused ')
                counts[due.split()[-1].decode() if refused else 'printed'] += 1
                if out != due or status != (4 if refused else 0):
                    differences += 1
                    print('%s: %r\n  wanted %r\n  given  %r, status %d' % (name, text, due, out, status))
            for name in names:
                os.remove(os.path.join(folder, name))
    print(', '.join('%s %d' % pair for pair in sorted(counts.items())))
    print('%d texts, %d differences' % (given.count, differences))
    return 1 if differences else 0


if __name__ == '__main__':
    sys.exit(main())
