#!/usr/bin/env python3
"""Compares how the sides of rules are read with a plain model, on random ones, half of them spoiled.

    MODEL=PATH tests/sides.py SEED COUNT [--first NUMBER]

Run it at the top of the repository, with `rt` on the path; the reader is run unproved on a copy of the crates. MODEL is
the path of the model's command line; its modules lie beside it. Each side is made from the seed and its own number, so
`--first NUMBER` with COUNT 1 repeats one. Its tokens go to the reader without their text, so that brackets may stand
without partners. Compared are the place, its target and the expression, read as a left and as a right side. Printed are
the counts of the answers and each difference; the exit status is 1 where there is one.
"""
import collections
import os
import random
import sys
import tempfile

import random_sides
import unproved
from sides_try import Harness

BATCH = 20000


class Token:
    def __init__(self, word):
        self.kind, self.text = random_sides.kind(word), word


class Model:
    """The plain model, by its modules."""

    def __init__(self, path):
        sys.dont_write_bytecode = True
        sys.path.insert(0, os.path.dirname(os.path.realpath(path)))
        sys.setrecursionlimit(100000)
        import parser
        import rules
        self.parser, self.side = parser, rules.side

    def read(self, tokens, mode):
        reader = self.parser.Exprs(tokens, mode)
        try:
            place, target, e = self.side(reader, mode, None)
        except self.parser.Bad:
            return 'bad'
        if not reader.end():
            return 'bad'
        return ' '.join([place] + [shown_meta(*m[1:]) for m in [target] if m] + [shown(e)])

    def answer(self, words):
        tokens = [Token(word) for word in words]
        return self.read(tokens, 'left') + ' | ' + self.read(tokens, 'right')


def shown_meta(letter, digit, is_primed):
    return '$%s%s%s' % (letter, '' if digit is None else digit, "'" if is_primed else '')


def in_parens(*parts):
    return '(%s)' % ' '.join(parts)


def shown(e):
    """An expression, as the program writes it."""
    kind, parts = e[0], e[1:]
    if kind in ('Int', 'Bool'):
        return str(parts[0])
    if kind == 'Text':
        return in_parens('text', *(str(ord(c)) for c in parts[0]))
    if kind == 'Name':
        return ':' + parts[0]
    if kind in ('List', 'Set'):
        return in_parens(kind.lower(), *map(shown, parts[0]))
    if kind == 'Call':
        return in_parens('call', ':' + parts[0], *map(shown, parts[1]))
    if kind in ('Arith', 'Cmp'):
        return in_parens(kind.lower(), parts[0].replace(' ', '') + ',', *map(shown, parts[1:]))
    if kind in ('PArith', 'PCmp'):
        op = parts[0]
        said = shown_meta(*op[1:]) if op[0] == 'Meta' else ''.join(word + ',' for word in op[1])
        return in_parens(kind[1:].lower(), said, *map(shown, parts[1:]))
    if kind == 'Meta':
        return shown_meta(*parts)
    if kind == 'Local':
        return '?' + shown_meta(parts[0], parts[1], False)
    return in_parens(kind.lower(), *('_' if part is None else shown(part) for part in parts))


def words_of(seed, number):
    rng = random.Random('%d/%d' % (seed, number))
    words = random_sides.side(rng)
    return random_sides.spoiled(rng, words) if number % 2 else words


def compared(model, harness, seed, numbers, counts):
    """How many answers differ."""
    sides, differing = [words_of(seed, number) for number in numbers], 0
    given = harness.answers([[(random_sides.kind(word), word) for word in words] for words in sides])
    for number, words, answer in zip(numbers, sides, given):
        wanted = model.answer(words)
        left, right = wanted.split(' | ')
        counts['left ' + left.split(' ')[0]] += 1
        counts['right ' + right.split(' ')[0]] += 1
        if answer != wanted:
            differing += 1
            print('%d: %s\n  wanted %s\n  given  %s' % (number, ' '.join(words), wanted, answer))
    return differing


def main():
    words = unproved.arguments(__doc__)
    given = words.parse_args()
    if not os.environ.get('MODEL'):
        words.error('MODEL is not set')
    model, counts, differing = Model(os.environ['MODEL']), collections.Counter(), 0
    with tempfile.TemporaryDirectory() as folder:
        harness = Harness(folder)
        for batch in unproved.in_batches(given, BATCH):
            differing += compared(model, harness, given.seed, batch, counts)
    return unproved.told(counts, given, 'sides', differing)


if __name__ == '__main__':
    sys.exit(main())
