#!/usr/bin/env python3
"""Compares weighted programs as bits with a plain model, on random tasks.

    MODEL=PATH tests/programs.py SEED [COUNT] [--first NUMBER]

Run it at the top of the repository, with `rt` on the path; the programs are evaluated unproved, on a copy of the crates, over the
graph of gates. MODEL is the path of the model's command line; its modules lie beside it. COUNT is 3000 where it isn't given. Each
task is made from the seed and its own number, so `--first NUMBER` with COUNT 1 repeats one.

The weighted program of a task is evaluated with constants for the arguments and for the picks' members, for several random inputs
and selections; there must be no gates, and the outcome must be the one of the model's run of the chosen program: the value, or a
fault. Such a program is run on values, so it is also evaluated with one bit that is a variable among the constants, which takes the
walk over bits; and at small bounds with variables for all bits of the arguments and members. The circuit's gates are then evaluated
here under many truth values, and the outcome must be the model's for the input and the members that these spell. Where a length is
above the cap, or a number isn't one of a member, nothing is claimed. Printed are the counts of what appeared and each difference; the
exit status is 1 where there is one.
"""
import collections
import itertools
import os
import random
import sys
import tempfile

import program_requests
import rule_requests
import unproved
import value_operations as values
from programs_try import Harness
from random_expressions import filled
from random_programs import TYPES, Bounds, changed
from value_circuits import Circuit, bits_of, number_of, operand_bits, parts, spelled

# So many tasks stand in one input of the program.
BATCH = 50
# Settings of constants, in how many of them one bit is made a variable, and how many truth values are taken of a circuit.
KNOWN = 8
MIXED = 3
MANY = 200
# There are circuits where the product of turns, cap and width is no more.
SMALL = 60
# The language of rules with neither guards nor deletions, and the limit by tries.
STAGE = 15
LETTERS = {'Int': 'n', 'Bool': 'b', 'List': 'l', 'Text': 't'}


class Model:
    """The plain model, by its modules. The stage is how much of the grader is there."""

    def __init__(self, path, stage=STAGE):
        sys.dont_write_bytecode = True
        sys.path.insert(0, os.path.dirname(os.path.realpath(path)))
        sys.setrecursionlimit(100000)
        import grade
        import interp
        import report
        import rewrite
        import tree
        self.grade, self.interp, self.report, self.rewrite, self.tree = grade, interp, report, rewrite, tree
        self.stage = stage

    def task(self, sources):
        """The task that these sources spell, or None."""
        try:
            return self.grade.read_task(sources, self.stage)
        except self.grade.Refused:
            return None

    def outcome(self, task, members, given):
        """How the chosen program ends on an input: its value, or the name of the fault in a list."""
        program = self.rewrite.Walk(task.tree, members).prog
        ended = self.interp.run(program, task.bounds.limits, task.bounds.entry, given)
        return ended[1] if ended[0] == 'Done' else [ended[1]]


def some_sources(rng):
    """Bounds, a reference, a submission with loops, calls and faults, and a few rules that match much."""
    if rng.random() < 0.4:
        request = rule_requests.a_request(rng)
        return [request.files[name] for name in request.words[1:5]]
    bounds, result = Bounds(rng, rule_requests.MOST_INPUTS), rng.choice(TYPES)
    reference = program_requests.a_program(rng, bounds, result, rng.random() < 0.5)
    submission = changed(rng, reference) if rng.random() < 0.7 else program_requests.a_program(rng, bounds, result)
    some = ''.join(rule_requests.a_rule(rng, number) for number in range(rng.randint(1, 3)))
    return [text.encode() for text in (bounds.text(), reference, submission, some if rng.random() < 0.9 else '')]


class Case:
    """A random task with its settings."""

    def __init__(self, model, seed, number):
        self.number = number
        self.rng = rng = random.Random('programs/%d/%d' % (seed, number))
        self.sources = some_sources(rng)
        self.task = model.task(self.sources)
        self.known, self.free = [], []
        if self.task is None:
            return
        bounds = self.task.bounds
        self.limits, self.maker = bounds.limits, values.Maker(rng, bounds.limits)
        self.types = [LETTERS[it] for it in bounds.ptypes()]
        found = model.rewrite.members(self.task.tree)
        self.members = [found[pick] for pick in range(len(found))]
        self.known = [self.a_setting() for _ in range(KNOWN)]
        if self.limits.turns * self.limits.cap * self.limits.width <= SMALL and rng.random() < 0.5:
            self.free.append(','.join(word[0] + '*' * len(word[1:]) for word in self.known[0].split(',') if word))
        self.free += [self.with_variable(setting) for setting in self.known[:MIXED] if '0' in setting or '1' in setting]

    def size(self, members):
        return members.bit_length()

    def with_variable(self, setting):
        """The setting with a variable in the place of one of its bits."""
        place = self.rng.choice([place for place, mark in enumerate(setting) if mark in '01'])
        return setting[:place] + '*' + setting[place + 1:]

    def argument(self, kind):
        """An argument as it is written: mostly a small one, and always one that fits."""
        size = sum(self.words(kind))
        value = self.maker.value(kind)
        if kind == 'n' and self.rng.random() < 0.5:
            value = self.maker.clamped(self.rng.randint(-2, 4))
        return kind + operand_bits(value, self.limits, bits_of(self.rng.getrandbits(size), size))

    def words(self, kind):
        """The sizes of the words of a value."""
        if kind in 'nb':
            return [self.limits.width if kind == 'n' else 1]
        return [5] + [self.limits.width if kind == 'l' else 7] * self.limits.cap

    def a_setting(self):
        often = self.rng.choice((0, 0.3, 0.7, 1))
        chosen = [self.rng.randint(0, most) if self.rng.random() < often else 0 for most in self.members]
        return ','.join([self.argument(kind) for kind in self.types]
                        + ['/' + bits_of(member, self.size(most)) for member, most in zip(chosen, self.members)])

    def read(self, setting):
        """The members and the input of a setting without variables, or None where nothing is claimed."""
        words = [word for word in setting.split(',') if word]
        given = [spelled(word[0], parts(word[1:], self.words(word[0]))) for word in words[:len(self.types)]]
        chosen = [number_of(word[1:]) if word[1:] else 0 for word in words[len(self.types):]]
        if None in given or any(member > most for member, most in zip(chosen, self.members)):
            return None
        return dict(enumerate(chosen)), given

    def line(self, asked, settings):
        return '\t'.join([asked] + [text.hex() for text in self.sources] + settings)

    def lines(self):
        if self.task is None:
            return []
        return [self.line('known', self.known)] + [self.line('free', [setting]) for setting in self.free]


class Comparison:
    """The counts of all that was compared, and of what differed."""

    def __init__(self, model):
        self.model, self.counts, self.differing, self.compared = model, collections.Counter(), 0, 0

    def differs(self, case, setting, wanted, got):
        self.differing += 1
        if self.differing <= 20:
            print('%d: %r\n  at %s\n  wanted %s, given %s' % (case.number, case.sources, setting, wanted, got), flush=True)

    def wanted(self, case, read):
        self.compared += 1
        return self.model.outcome(case.task, *read)

    def compare_known(self, case, answer):
        if answer == 'refused':
            self.differs(case, case.known, 'a task', answer)
            return
        given, gates = answer.split()
        if gates != '0':
            self.differs(case, case.known, 'no gates', gates)
        for setting, got in zip(case.known, given.split(';')):
            want = self.wanted(case, case.read(setting))
            self.counts['constants: %s' % values.outcome_of(want)] += 1
            if values.text_of(want) != got:
                self.differs(case, setting, want, got)

    def compare_free(self, case, free, answer):
        if answer == 'many':
            self.counts['circuit too large'] += 1
            return
        circuit = Circuit(answer)
        count = free.count('*')
        self.counts['circuit with gates' if circuit.gates else 'circuit without gates'] += 1
        if count <= 8:
            taken = [''.join(bits) for bits in itertools.product('01', repeat=count)]
        else:
            taken = [bits_of(case.rng.getrandbits(count), count) for _ in range(MANY // 2)]
            for _ in range(MANY // 2):
                taken.append(''.join(bit for bit in case.a_setting() if bit in '01'))
        for bits, got in zip(taken, circuit.outcomes(taken)):
            read = case.read(filled(free, bits))
            if read is None:
                self.counts['variables: nothing claimed'] += 1
                continue
            want = self.wanted(case, read)
            self.counts['variables: %s' % values.outcome_of(want)] += 1
            if type(want) is not type(got) or (want != got and not isinstance(want, list)):
                self.differs(case, bits, want, got)

    def compare(self, case, answers):
        if case.task is None:
            self.counts['no task'] += 1
            return
        self.counts['tree with picks' if case.members else 'tree without picks'] += 1
        self.compare_known(case, answers[0])
        for free, answer in zip(case.free, answers[1:]):
            self.compare_free(case, free, answer)


def main():
    words = unproved.arguments(__doc__, count=3000)
    given = words.parse_args()
    if not os.environ.get('MODEL'):
        words.error('MODEL is not set')
    model = Model(os.environ['MODEL'])
    comparison = Comparison(model)
    with tempfile.TemporaryDirectory() as folder:
        unproved.compare_cases(given, BATCH, lambda number: Case(model, given.seed, number), Harness(folder), comparison)
    print('%d outcomes' % comparison.compared)
    return unproved.told(comparison.counts, given, 'tasks', comparison.differing)


if __name__ == '__main__':
    sys.exit(main())
