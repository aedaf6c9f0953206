#!/usr/bin/env python3
"""Compares how files of rules are read with a plain model, on random ones, half of them spoiled.

    MODEL=PATH tests/compare_rules.py SEED COUNT [--first NUMBER]

Run it at the top of the repository, with `rt` on the path; the reader is run unproved on a copy of the crates. MODEL is
the path of the model's command line; its modules lie beside it. Each file is made from the seed and its own number, so
`--first NUMBER` with COUNT 1 repeats one. Compared are the rules with every node of their sides, else the cause with its
line. Printed are the counts of the answers and each difference; the exit status is 1 where there is one.
"""
import collections
import os
import random
import sys
import tempfile

import random_rules
import unproved
from rules_try import Harness

BATCH = 4000
# The language of rules with neither guards nor deletions.
STAGE = 5


class Model:
    """The plain model, by its modules."""

    def __init__(self, path):
        sys.dont_write_bytecode = True
        sys.path.insert(0, os.path.dirname(os.path.realpath(path)))
        sys.setrecursionlimit(100000)
        import rules
        import tree
        self.read, self.fault = rules.read_rules, tree.Fault

    def answer(self, raw):
        try:
            rules = self.read(raw, STAGE)
        except self.fault as fault:
            return 'refused %s %d' % (fault.cause, fault.line)
        return ' '.join(['rules %d' % len(rules)] + [self.rule(rule) for rule in rules])

    def rule(self, rule):
        said = '-' if rule.say is None else 'say:' + rule.say.encode().hex()
        words = [str(rule.line), rule.name.encode().hex(), str(rule.cost), self.place(rule.place, rule.target),
                 self.term(rule.left), self.place(rule.rplace, rule.rtarget), self.term(rule.right), said]
        return '| ' + ' '.join(words)

    def place(self, place, target):
        return place + (self.meta(target[1:]) if target else '')

    def meta(self, meta):
        letter, digit, primed = meta
        return '$%s%s%s' % (letter, '' if digit is None else digit, "'" if primed else '')

    def operator(self, op):
        if isinstance(op, str):
            return op.replace(' ', '')
        return ','.join(op[1]) if op[0] == 'Ops' else self.meta(op[1:])

    def terms(self, terms):
        return ' '.join([str(len(terms))] + [self.term(term) for term in terms])

    def term(self, p):
        kind = p[0]
        if kind == 'Int':
            return 'Int %d' % p[1]
        if kind == 'Bool':
            return 'Bool %s' % str(p[1]).lower()
        if kind in ('Text', 'Name'):
            return '%s :%s' % (kind, p[1].encode().hex())
        if kind in ('List', 'Set'):
            return '%s %s' % (kind, self.terms(p[1]))
        if kind == 'Call':
            return 'Call :%s %s' % (p[1].encode().hex(), self.terms(p[2]))
        if kind == 'Meta':
            return self.meta(p[1:])
        if kind == 'Local':
            return '?' + self.meta((p[1], p[2], False))
        if kind == 'Slice':
            ends = ' '.join(str(int(end is not None)) for end in p[2:])
            return 'Slice %s %s' % (ends, ' '.join(self.term(part) for part in p[1:] if part is not None))
        if kind in ('Arith', 'Cmp', 'PArith', 'PCmp'):
            return '%s %s %s %s' % (kind.removeprefix('P'), self.operator(p[1]), self.term(p[2]), self.term(p[3]))
        return ' '.join([kind] + [self.term(part) for part in p[1:]])


def kind_of(answer):
    words = answer.split()
    return ' '.join(words[:2]) if words[0] == 'refused' else words[0]


def main():
    words = unproved.arguments(__doc__)
    given = words.parse_args()
    if not os.environ.get('MODEL'):
        words.error('MODEL is not set')
    model, counts, differing = Model(os.environ['MODEL']), collections.Counter(), 0
    with tempfile.TemporaryDirectory() as folder:
        harness = Harness(folder)
        for batch in unproved.in_batches(given, BATCH):
            files = []
            for number in batch:
                rng = random.Random('rules/%d/%d' % (given.seed, number))
                files.append((number, random_rules.a_file(rng, number % 2 == 1).encode()))
            wanted = [model.answer(raw) for _, raw in files]
            for (number, raw), want, got in zip(files, wanted, harness.answers([raw.hex() for _, raw in files])):
                counts[kind_of(want)] += 1
                if want != got:
                    differing += 1
                    print('%d: %r\n  wanted %s\n  given  %s' % (number, raw, want, got))
    return unproved.told(counts, given, 'files', differing)


if __name__ == '__main__':
    sys.exit(main())
