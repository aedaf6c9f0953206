#!/usr/bin/env python3
"""Compares weighted expressions as bits with a plain model, on random ones.

    MODEL=PATH tests/expressions.py SEED [COUNT] [--first NUMBER]

Run it at the top of the repository, with `rt` on the path; the expressions are evaluated unproved, on a copy of the crates, over
the graph of gates. MODEL is the path of the model's command line; its modules lie beside it. COUNT is 5000 where it isn't given.
Each expression is made from the seed and its own number, so `--first NUMBER` with COUNT 1 repeats one.

An expression has each kind of node, but for calls of a program's functions, and picks of two to five members, also in one
another. It is evaluated with constants for its locals, for the bits that say whether these are set, and for the picks' members,
for several of them; there must be no gates, and the outcome must be the model's of the plain expression: the value, or a fault.
At small limits it is also evaluated with variables for some of these bits; the circuit's gates are then evaluated here, under
all truth values or many, and the outcome must be the model's for the locals and the members that these spell. Where the length
of a local that is set is above the cap nothing is claimed. Printed are the counts of what appeared and each difference; the exit
status is 1 where there is one.
"""
import collections
import itertools
import os
import random
import sys
import tempfile

import unproved
import value_operations as values
from expressions_try import Harness
from random_expressions import WHOLES, Expressions, Settings, filled, plain, renumbered, variables
from trees import TreeText
from value_circuits import Circuit

# So many expressions stand in one input of the program.
BATCH = 100
# Settings of constants, the most variables whose truth values are all taken, and how many are taken where there are more.
KNOWN = 6
FEW = 10
MANY = 200
# At these limits there are circuits, of expressions that aren't large.
SMALL = ((3, 1), (3, 2), (4, 1), (4, 2), (3, 3))


class Model(values.Model):
    """The plain model, with its trees."""

    def __init__(self, path):
        super().__init__(path)
        import printer
        import tree
        self.tree, self.printer, self.text = tree, printer, TreeText(tree.parts)

    def value(self, limits, e, state):
        """The value of a plain expression, or the name of the fault in a list."""
        try:
            return self.interp.Run((), limits, 'f').ev(e, state, 1)
        except self.stop as fault:
            return [fault.kind]

    def shown(self, e):
        """An expression in words, its picks as calls."""
        below = [self.named(part) for part in self.tree.parts(e)]
        return self.printer.expr(self.named(e)) if below else self.printer.expr(e)

    def named(self, e):
        below = tuple(map(self.named, self.tree.parts(e)))
        if e[0] == 'Pick':
            return ('Call', 'pick%d' % e[1], below)
        return self.tree.rebuild(e, below) if below else e


class Case:
    """A random expression with its settings."""

    def __init__(self, model, seed, number):
        rng = random.Random('expressions/%d/%d' % (seed, number))
        self.rng, self.model, self.number = rng, model, number
        small = rng.random() < 0.4
        self.limits = model.limits(*(rng.choice(SMALL) if small else (rng.randint(3, 8), rng.randint(1, 5))))
        maker = Expressions(rng, self.limits, rng.choice((4, 10, 20, 30) if small else (8, 15, 30, 45)))
        made = maker.of(rng.choice(WHOLES), rng.randint(2, 6))
        numbers = rng.sample(range(len(maker.members) + 1), len(maker.members))
        self.e = renumbered(model.tree, made, numbers)
        members = dict(zip(numbers, maker.members))
        self.settings = Settings(rng, self.limits, [members.get(at, 0) for at in range(len(members) + 1)])
        self.known = [self.settings.a_setting() for _ in range(KNOWN)]
        used = {part[1] for part in model.tree.expr_walk(self.e) if part[0] == 'Name'}
        free = self.settings.freed(self.settings.a_setting(), used)
        self.free = free if small and '*' in free else None
        self.plains = {}

    def line(self, asked, settings):
        limits = ['%d' % self.limits.width, '%d' % self.limits.cap]
        return '\t'.join([asked] + limits + [','.join(self.settings.names), self.model.text.term(self.e)] + settings)

    def lines(self):
        asked = [self.line('known', self.known)]
        return asked if self.free is None else asked + [self.line('free', [self.free])]

    def plain(self, members):
        if members not in self.plains:
            self.plains[members] = plain(self.model.tree, self.e, members)
        return self.plains[members]

    def truth_values(self):
        """Truth values of the variables: all, or those of random settings."""
        count = self.free.count('*')
        if count <= FEW:
            return [''.join(bits) for bits in itertools.product('01', repeat=count)]
        return [variables(self.free, self.settings.a_setting(0.15)) for _ in range(MANY)]


class Comparison:
    """The counts of all that was compared, and of what differed."""

    def __init__(self, model):
        self.model, self.counts, self.differing, self.compared = model, collections.Counter(), 0, 0

    def differs(self, case, setting, wanted, got):
        self.differing += 1
        if self.differing <= 100:
            print('%d: width %d, cap %d, %s\n  names %s\n  at %s\n  wanted %s, given %s' % (
                case.number, case.limits.width, case.limits.cap, self.model.shown(case.e), ','.join(case.settings.names),
                setting, wanted, got), flush=True)

    def count_nodes(self, e, picks=0):
        """Counts each node by its kind, and the picks that stand in others."""
        kind = e[0]
        if kind == 'Slice':
            kind = 'Slice [%s:%s]' % tuple('' if end is None else 'a' for end in e[2:])
        elif kind == 'Pick':
            self.counts['pick in %d others' % picks] += 1
            kind, picks = 'Pick of %d' % len(self.model.tree.parts(e)), picks + 1
        elif kind in ('Arith', 'Cmp', 'Call'):
            kind = '%s %s' % (kind, e[1])
        self.counts['node %s' % kind] += 1
        for part in self.model.tree.parts(e):
            self.count_nodes(part, picks)

    def count_hidden(self, case, state, members):
        """Counts a value whose expression has a part that has a fault by itself: one that isn't evaluated, or isn't chosen."""
        def faulty(e):
            return isinstance(self.model.value(case.limits, e, state), list)
        tree = self.model.tree
        if any(faulty(part) for part in tree.expr_walk(case.plain(members))):
            self.counts['fault hidden where nothing is evaluated'] += 1
        elif any(faulty(plain(tree, part, members)) for part in tree.expr_walk(case.e)):
            self.counts['fault hidden in a member that is not chosen'] += 1

    def wanted(self, case, state, members):
        self.compared += 1
        return self.model.value(case.limits, case.plain(members), state)

    def compare_known(self, case, answer):
        given, gates = answer.split()
        if gates != '0':
            self.differs(case, case.known, 'no gates', gates)
        for setting, got in zip(case.known, given.split(';')):
            state, members = case.settings.read(setting)
            want = self.wanted(case, state, members)
            self.counts['constants: %s' % values.outcome_of(want)] += 1
            if values.text_of(want) != got:
                self.differs(case, setting, values.text_of(want), got)
            if not isinstance(want, list):
                self.count_hidden(case, state, members)

    def compare_free(self, case, answer):
        if answer == 'many':
            self.counts['circuit too large'] += 1
            return
        circuit, taken = Circuit(answer), case.truth_values()
        few = circuit.variables <= FEW
        self.counts['circuit, all truth values' if few else 'circuit, %d truth values' % MANY] += 1
        self.counts['circuit without gates' if not circuit.gates else 'circuit with gates'] += 1
        for bits, got in zip(taken, circuit.outcomes(taken)):
            setting = filled(case.free, bits)
            read = case.settings.read(setting)
            if read is None:
                self.counts['variables: nothing claimed'] += 1
                continue
            want = self.wanted(case, *read)
            self.counts['variables: %s' % values.outcome_of(want)] += 1
            if type(want) is not type(got) or (want != got and not isinstance(want, list)):
                self.differs(case, setting, want, got)

    def compare(self, case, answers):
        self.count_nodes(case.e)
        self.counts['depth %d' % self.model.tree.depth(case.e)] += 1
        self.compare_known(case, answers[0])
        if case.free is not None:
            self.compare_free(case, answers[1])


def main():
    words = unproved.arguments(__doc__, count=5000)
    given = words.parse_args()
    if not os.environ.get('MODEL'):
        words.error('MODEL is not set')
    model = Model(os.environ['MODEL'])
    comparison = Comparison(model)
    with tempfile.TemporaryDirectory() as folder:
        unproved.compare_cases(given, BATCH, lambda number: Case(model, given.seed, number), Harness(folder), comparison)
    print('%d outcomes' % comparison.compared)
    return unproved.told(comparison.counts, given, 'expressions', comparison.differing)


if __name__ == '__main__':
    sys.exit(main())
