#!/usr/bin/env python3
"""Compares the operations on values as bits with a plain model.

    MODEL=PATH tests/values.py constant
    MODEL=PATH tests/values.py random SEED COUNT [--first NUMBER]
    MODEL=PATH tests/values.py free SEED COUNT

Run it at the top of the repository, with `rt` on the path; the operations are run unproved, on a copy of the crates, over
the graph of gates. MODEL is the path of the model's command line; its modules lie beside it.

`constant` takes all constants as operands at width 3 and cap 1 and 2 and at width 4 and cap 3, texts of three characters; at
cap 3 lists of four numbers where an operation takes two lists, or a list and two numbers. `random` takes random constants of
many widths and caps, one operation for each number; each is made from the seed and its own number, so `--first NUMBER` with
COUNT 1 repeats one. Of constants there must be no gates, and a value is to be known. `free` makes each circuit once over
variables and looks at the values of its gates: at width 3 and cap 2 for all truth values at which the operands' lengths are
right, with 8 characters where there are two texts; at width 4 and cap 3 for all numbers and lists and four characters, with
random items behind the ends; and for COUNT random operands at other limits.

A result is to be the model's value, or to be a fault where the model has one. Printed are the counts by operation and by what
the model gives, and each difference; the exit status is 1 where there is one.
"""
import argparse
import collections
import hashlib
import itertools
import os
import random
import sys
import tempfile

import unproved
import value_operations as values
from value_circuits import TOGETHER, Circuit, bits_of, operand_bits
from values_try import Harness

BATCH = 2000
# The first operands that one request takes together, the results of one run, and the most operands that are all taken.
ROW = 64
RUN = 100_000
MOST = 20_000_000
SMALL = ((3, 1), (3, 2), (4, 3))
RANDOM = ((8, 8), (16, 16), (8, 8), (16, 16), (3, 16), (5, 16), (16, 1), (4, 12))


class Comparison:
    """The counts of all that was compared, and of what differed."""

    def __init__(self, model):
        self.model, self.counts, self.differing, self.compared = model, collections.Counter(), 0, 0

    def count(self, what, wanted):
        for value in wanted:
            self.counts['%s: %s' % (what, values.outcome_of(value))] += 1
            self.compared += 1

    def differs(self, limits, what, operands, wanted, got):
        self.differing += 1
        if self.differing <= 100:
            print('width %d, cap %d, %s of %s: wanted %s, given %s' % (limits.width, limits.cap, what, operands, wanted, got))

    def told(self):
        for what, count in sorted(self.counts.items()):
            print('%9d  %s' % (count, what))
        print('%d results, %d differences' % (self.compared, self.differing))
        return 1 if self.differing else 0


# Constants, all of them

class Constants:
    """The values of a table, by their types, and where they stand in it."""

    def __init__(self, limits):
        few = [limits.low, -1, 0, limits.high]
        self.limits = limits
        self.sets = {
            'n': values.numbers(limits),
            'b': [False, True],
            'l': values.sequences(values.numbers(limits), limits.cap),
            't': values.texts('a~ ', limits.cap),
            'few': values.sequences(few, limits.cap) if limits.cap > 2 else [],
            'wide': list(range(4 * limits.low, 4 * limits.high + 5)) + [-2 ** 31, 2 ** 31 - 1],
            'long': values.texts('a~', limits.cap + 2),
        }
        self.starts = dict(zip(self.sets, itertools.accumulate([0] + [len(it) for it in self.sets.values()])))

    def line(self):
        listed = [values.text_of(value) for some in self.sets.values() for value in some]
        return 'table %d %d %s' % (self.limits.width, self.limits.cap, ' '.join(listed))

    def names(self, types):
        """The sets from which the operands are taken."""
        few = self.sets['few'] and ('ll' in types or types == 'lnn')
        return ['few' if kind == 'l' and few else kind for kind in types]

    def places(self, name, low=0, high=None):
        start, many = self.starts[name], len(self.sets[name])
        return '%d-%d' % (start + low, start + (many if high is None else min(high, many)))


def rows(constants, types):
    """For so many first operands together, the places of all operands and the operands."""
    first, *others = constants.names(types) or [None]
    if first is None:
        yield [], [()]
        return
    for low in range(0, len(constants.sets[first]), ROW):
        places = [constants.places(first, low, low + ROW)] + [constants.places(name) for name in others]
        some = constants.sets[first][low:low + ROW]
        yield places, list(itertools.product(some, *(constants.sets[name] for name in others)))


def each_result(harness, constants, name, places):
    answer = harness.answers([constants.line(), ' '.join(['each', name] + places)])[1]
    return answer.split()[1].split(';')


def compare_row(comparison, harness, constants, asked, answer):
    (name, types, tree), places, operands = asked
    what, meaning = values.label(name, types), comparison.model.meaning(constants.limits)
    wanted = [meaning(tree, it) for it in operands]
    comparison.count(what, wanted)
    texts = [values.text_of(it) for it in wanted]
    digest = hashlib.md5(''.join(it + ';' for it in texts).encode()).hexdigest()
    if answer == '%d %s 0' % (len(operands), digest):
        return
    given = each_result(harness, constants, name, places)
    for it, want, got in zip(operands, texts, given):
        if want != got:
            comparison.differs(constants.limits, what, it, want, got)
    if texts == given[:-1]:
        comparison.differs(constants.limits, what, ' '.join(places), 'no gates', answer)


def given_values(constants):
    """What is made of a given value: its set, the operation and the tree, which is of the value."""
    yield 'wide', 'literal', lambda value: ('Int', value)
    yield 'long', 'text_literal', lambda value: ('Text', value)
    for name in 'nblt':
        yield name, 'constant_value', lambda value: values.A
        yield name, 'zero_value', lambda value: values.B


def compare_given(comparison, harness, constants):
    meaning, asked = comparison.model.meaning(constants.limits), list(given_values(constants))
    lines = ['given %s %s' % (operation, constants.places(name)) for name, operation, _ in asked]
    for (name, operation, tree), answer in zip(asked, harness.answers([constants.line()] + lines)[1:]):
        kind = {'wide': 'n', 'long': 't'}.get(name, name)
        what, zero = values.label(operation, kind), {'n': 0, 'b': False, 'l': (), 't': ''}[kind]
        wanted = [meaning(tree(value), (value, zero)) for value in constants.sets[name]]
        comparison.count(what, wanted)
        for value, want, got in zip(constants.sets[name], map(values.text_of, wanted), answer.split(';')):
            if want != got:
                comparison.differs(constants.limits, what, value, want, got)


def runs(constants):
    """All requests for these constants, in lists that one run answers."""
    asked, results = [], 0
    for operation in values.operations(constants.limits):
        for places, operands in rows(constants, operation[1]):
            asked.append((operation, places, operands))
            results += len(operands)
            if results >= RUN:
                yield asked
                asked, results = [], 0
    yield asked


def compare_constants(comparison, harness):
    for width, cap in SMALL:
        constants = Constants(comparison.model.limits(width, cap))
        compare_given(comparison, harness, constants)
        for asked in runs(constants):
            lines = [' '.join(['all', operation[0]] + places) for operation, places, _ in asked]
            for it, answer in zip(asked, harness.answers([constants.line()] + lines)[1:]):
                compare_row(comparison, harness, constants, it, answer)
            print('width %d, cap %d: %d results' % (width, cap, comparison.compared), file=sys.stderr)


# Constants, at random

def a_case(model, seed, number):
    """The limits, an operation and its operands."""
    rng = random.Random('values/%d/%d' % (seed, number))
    limits = model.limits(*rng.choice(RANDOM))
    operation = rng.choice(list(values.operations(limits)) + list(values.literals(model.limits(3, 6))))
    return limits, operation, values.Maker(rng, limits).operands(operation[1])


def compare_random(comparison, harness, given):
    for batch in unproved.in_batches(given, BATCH):
        cases, lines = [a_case(comparison.model, given.seed, number) for number in batch], []
        for limits, (name, types, tree), operands in cases:
            places = ['%d-%d' % (at, at + 1) for at in range(len(operands))]
            lines += [' '.join(['table %d %d' % (limits.width, limits.cap)] + [values.text_of(it) for it in operands])]
            lines += [' '.join(['each', name] + places)]
        for (limits, (name, types, tree), operands), got in zip(cases, harness.answers(lines)[1::2]):
            wanted = comparison.model.meaning(limits)(tree, operands)
            what = values.label(name, types)
            comparison.count(what, [wanted])
            if got != '1 %s; 0' % values.text_of(wanted):
                comparison.differs(limits, what, operands, values.text_of(wanted), got)
        print('%d results' % comparison.compared, file=sys.stderr)


# Circuits over variables

def choices(limits, kind, many):
    """All values of a type, each with all bits that are looked at: also those of items behind the end."""
    if kind in 'nb':
        some = values.numbers(limits) if kind == 'n' else [False, True]
        return [(value, operand_bits(value, limits, '')) for value in some]
    characters = values.CHARACTERS if many else ''.join(map(chr, range(128)))
    items, width = (values.numbers(limits), limits.width) if kind == 'l' else (characters, 7)
    found = []
    for value in values.sequences(items, limits.cap):
        value = value if kind == 'l' else ''.join(value)
        for rest in itertools.product(items, repeat=limits.cap - len(value)):
            junk = ''.join(bits_of(it if kind == 'l' else ord(it), width) for it in rest)
            found.append((value, operand_bits(value, limits, junk)))
    return found


def random_junk(rng, limits):
    size = limits.cap * max(7, limits.width)
    return bits_of(rng.getrandbits(size), size)


def plain_choices(rng, limits, kind):
    """All values of a type, texts of four characters; random bits stand for items behind the end."""
    some = {'n': values.numbers(limits), 'b': [False, True], 't': values.texts('aA!~', limits.cap),
            'l': values.sequences(values.numbers(limits), limits.cap)}[kind]
    return [(value, operand_bits(value, limits, random_junk(rng, limits))) for value in some]


def all_operands(limits, types):
    return itertools.product(*(choices(limits, kind, types.count('t') > 1) for kind in types))


def plain_operands(rng, limits, types):
    """All values of these types, or a million where there are too many."""
    sets = [plain_choices(rng, limits, kind) for kind in types]
    count = 1
    for some in sets:
        count *= len(some)
    if count <= MOST:
        return itertools.product(*sets)
    return (tuple(rng.choice(some) for some in sets) for _ in range(1_000_000))


def random_operands(rng, limits, types, count):
    maker = values.Maker(rng, limits)
    for _ in range(count):
        yield [(it, operand_bits(it, limits, random_junk(rng, limits))) for it in maker.operands(types)]


def compare_circuit(comparison, limits, operation, circuit, operands):
    name, types, tree = operation
    what, meaning = values.label(name, types), comparison.model.meaning(limits)
    operands = iter(operands)
    while some := list(itertools.islice(operands, TOGETHER)):
        plain = [tuple(value for value, _ in it) for it in some]
        wanted = [meaning(tree, it) for it in plain]
        comparison.count(what, wanted)
        given = circuit.outcomes([''.join(bits for _, bits in it) for it in some])
        for it, want, got in zip(plain, wanted, given):
            same = type(want) is type(got) and (want == got or isinstance(want, list))
            if not same:
                comparison.differs(limits, what, it, want, got)


def circuits(harness, limits):
    """Each operation that has operands, with its circuit over variables."""
    asked = [it for it in values.operations(limits) if it[1]]
    lines = ['free %s %s' % (name, ' '.join('*' + kind for kind in types)) for name, types, _ in asked]
    answers = harness.answers(['table %d %d' % (limits.width, limits.cap)] + lines)[1:]
    return [(it, Circuit(answer)) for it, answer in zip(asked, answers)]


def compare_free(comparison, harness, given):
    for width, cap in ((3, 2), (4, 3)) + tuple(sorted(set(RANDOM))):
        limits, rng = comparison.model.limits(width, cap), random.Random('free/%d' % given.seed)
        for operation, circuit in circuits(harness, limits):
            types = operation[1]
            if cap == 2:
                operands = all_operands(limits, types)
            elif cap == 3:
                operands = plain_operands(rng, limits, types)
            else:
                operands = random_operands(rng, limits, types, given.count)
            compare_circuit(comparison, limits, operation, circuit, operands)
        print('width %d, cap %d: %d results' % (width, cap, comparison.compared), file=sys.stderr)


def main():
    words = argparse.ArgumentParser(description=__doc__, formatter_class=argparse.RawDescriptionHelpFormatter)
    words.add_argument('kind', choices=('constant', 'random', 'free'))
    words.add_argument('seed', type=int, nargs='?', default=1)
    words.add_argument('count', type=int, nargs='?', default=10000)
    words.add_argument('--first', type=int, default=0)
    given = words.parse_args()
    comparison = Comparison(values.Model(os.environ['MODEL']))
    with tempfile.TemporaryDirectory() as folder:
        harness = Harness(folder)
        if given.kind == 'constant':
            compare_constants(comparison, harness)
        elif given.kind == 'random':
            compare_random(comparison, harness, given)
        else:
            compare_free(comparison, harness, given)
    return comparison.told()


if __name__ == '__main__':
    sys.exit(main())
