#!/usr/bin/env python3
"""Compares how bounds, programs and cases are read with a plain model, on random ones, half of them spoiled.

    MODEL=PATH tests/sources.py KIND SEED COUNT [--first NUMBER]

Run it at the top of the repository, with `rt` on the path; the readers are run unproved on a copy of the crates. KIND
is `programs`, `bounds` or `cases`. MODEL is the path of the model's command line; its modules lie beside it. Each
source is made from the kind, the seed and its own number, so `--first NUMBER` with COUNT 1 repeats one. Every other
one is spoiled: a program in one name, type, number of arguments, place where a list is shared, or result; bounds in a
word, a line or a byte; a case in a value or a byte. Compared are the typing with every fact, the bounds with the count
of the inputs and some inputs by their places, and the case with whether it is an input; else the cause with its line,
and both types of a conflict. Printed are the counts of the answers and each difference; the exit status is 1 where
there is one.
"""
import collections
import itertools
import os
import random
import sys
import tempfile

import random_sources
import unproved
from sources_try import Harness

BATCH = 20000
MOST_LISTED = 20000
# The stage of the model from which on `print` is a statement.
STAGE = 15


class Model:
    """The plain model, by its modules."""

    def __init__(self, path):
        sys.dont_write_bytecode = True
        sys.path.insert(0, os.path.dirname(os.path.realpath(path)))
        sys.setrecursionlimit(100000)
        import bounds
        import cases
        import names_types
        import parser
        import printer
        import share
        import tree
        self.read_bounds, self.read_prog, self.fault = bounds.read_bounds, parser.read_prog, tree.Fault
        self.cases, self.print_case = cases, printer.case
        self.typing, self.share = names_types, share

    def bounds(self, raw):
        try:
            b = self.read_bounds(raw)
        except self.fault as fault:
            return None, 'refused %s %d' % (fault.cause, fault.line)
        limits = b.limits
        said = ['bounds', limits.width, limits.turns, limits.depth, limits.cap, b.entry.encode().hex(), b.entry_line, b.count()]
        return b, ' '.join(map(str, said + [self.param(p) for p in b.params]))

    def param(self, param):
        return ','.join(it.encode().hex() if isinstance(it, str) and at else str(it) for at, it in enumerate(param))

    def conflict(self, p, b, fault):
        """The first two types of the first slot, where it has several."""
        facts = self.typing.least_facts(p, b.entry, b.ptypes()).facts
        first = next((types for types in facts.values() if len(types) != 1), None)
        if not first:
            return None
        one, other = sorted(first, key=('Int', 'Bool', 'List', 'Text').index)[:2]
        return 'conflict %d %s %s refused TypeFault %d' % (fault.line, one, other, fault.line)

    def program(self, raw, b):
        p = None
        try:
            p = self.read_prog(raw, STAGE)
            types = self.typing.check_types(p, b.entry, b.ptypes(), STAGE)
            self.share.unshared(p, types)
        except self.fault as fault:
            said = 'refused %s %d' % (fault.cause, fault.line)
            conflict = self.conflict(p, b, fault) if fault.cause == 'TypeFault' else None
            return conflict or '%s %s' % (said, said)
        numbers = {f[1]: at for at, f in enumerate(p)}
        slots = [(f, x, '' if x is None else '.' + x.encode().hex()) for f, x in types.facts]
        facts = ['%d%s.%s' % (numbers[f], shown, types.of(f, x)) for f, x, shown in slots]
        return ' '.join(['typed'] + facts + ['read', str(len(facts))])

    def case(self, raw, b):
        try:
            values = self.cases.read_case(raw)
        except self.cases.NoCase:
            return 'no case'
        return self.the_case(values, b)

    def the_case(self, values, b):
        said = 'case %s %s' % (str(b.in_bounds(values)).lower(), self.print_case(values).encode().hex())
        return said.strip()


def told(name):
    """The name of a cause, as the refusals print it."""
    return name.replace('TypeFault', 'Type')


class Asked:
    """Lines for the program, each with what the model answers, and the kind of answer that is counted."""

    def __init__(self, model):
        self.model = model
        self.lines, self.wanted, self.counted, self.numbers = [], [], [], []

    def ask(self, number, line, wanted, counted=True):
        self.lines.append(line)
        self.wanted.append(told(wanted))
        self.counted.append(counted)
        self.numbers.append(number)

    def bounds(self, number, raw, counted=True):
        b, wanted = self.model.bounds(raw)
        self.ask(number, 'b ' + raw.hex(), wanted, counted)
        return b

    def inputs(self, rng, number, b):
        if b and b.count() <= MOST_LISTED:
            place = rng.choice((0, b.count() - 1, rng.randrange(b.count())))
            values = next(itertools.islice(b.inputs(), place, None))
            self.ask(number, 'i %d' % place, self.model.the_case(values, b), False)


def ask_of(asked, kind, seed, number):
    rng = random.Random('%s/%d/%d' % (kind, seed, number))
    is_spoiled = number % 2 == 1
    if kind == 'bounds':
        raw = random_sources.near_bounds(rng) if is_spoiled else random_sources.whole_bounds(rng)
        b = asked.bounds(number, raw)
        if number % 10 == 0:
            asked.inputs(rng, number, b)
        return
    made = random_sources.some_bounds(rng)
    b = asked.bounds(number, made.text().encode(), False)
    if kind == 'cases':
        raw = random_sources.a_case(rng, made, is_spoiled)
        asked.ask(number, 'c ' + raw.hex(), asked.model.case(raw, b))
    else:
        raw = random_sources.a_program(rng, made, is_spoiled)
        asked.ask(number, 'p ' + raw.hex(), asked.model.program(raw, b))


def kind_of(answer):
    words = answer.split()
    return ' '.join(words[:2]) if words[0] in ('refused', 'no', 'case') else words[0]


def shown(line):
    kind, word = line.split(' ')
    return '%s %r' % (kind, bytes.fromhex(word) if kind != 'i' else word)


def compared(asked, harness, counts):
    """How many answers differ."""
    differing = 0
    for at, (given, wanted) in enumerate(zip(harness.answers(asked.lines), asked.wanted)):
        if asked.counted[at]:
            counts[kind_of(wanted)] += 1
        if given != wanted:
            differing += 1
            before = next((line for line in reversed(asked.lines[:at]) if line.startswith('b')), None)
            print('%d: %s' % (asked.numbers[at], shown(asked.lines[at])))
            if before and not asked.lines[at].startswith('b'):
                print('  within %s' % shown(before))
            print('  wanted %s\n  given  %s' % (wanted, given))
    return differing


def main():
    words = unproved.arguments(__doc__, ('programs', 'bounds', 'cases'))
    given = words.parse_args()
    if not os.environ.get('MODEL'):
        words.error('MODEL is not set')
    model, counts, differing = Model(os.environ['MODEL']), collections.Counter(), 0
    with tempfile.TemporaryDirectory() as folder:
        harness = Harness(folder)
        for batch in unproved.in_batches(given, BATCH):
            asked = Asked(model)
            for number in batch:
                ask_of(asked, given.kind, given.seed, number)
            differing += compared(asked, harness, counts)
    return unproved.told(counts, given, given.kind, differing)


if __name__ == '__main__':
    sys.exit(main())
