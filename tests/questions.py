#!/usr/bin/env python3
"""Compares the search by solver with the one by trying all and with a plain model, on random tasks.

    MODEL=PATH tests/questions.py SEED [COUNT] [--first NUMBER]

Run it at the top of the repository, with `rt` on the path; the searches run unproved, on a copy of the crates. MODEL is the path of
the model's command line; its modules lie beside it. COUNT is 3000 where it isn't given. Each task is made from the seed and its own
number, so `--first NUMBER` with COUNT 1 repeats one; some have a small budget.

Both searches must answer as the model does, the one by solver by a selection that agrees at its cost. Its questions must come in their
order, with the cases and the selections that they name, and the closing one where it is needed. Each log is judged here by the rule
of hints, and must be fresh and narrow. Each formula must be made of gates, each forced by the variables before it, and hold exactly
where the question's own variables spell something of which the question holds by the model's runs. It is tried under all their truth
values where they are at most 14, and else under some. Printed are the counts and each difference; the exit status is 1 where there is
one.
"""
import collections
import os
import random
import sys
import tempfile

import cert_reader
import unproved
from programs import Model, some_sources
from questions_try import Harness
from session_rules import faults_of_session
from task_questions import Judge, least_left

# So many tasks stand in one input of the program, and so many clauses of a task's formulas are printed: a run may write 2^20 bytes.
BATCH = 8
CLAUSES = 6000
# The stage from which on the model refuses a task by its weight.
BY_WEIGHT = 11
BUDGETS = (200000,) * 6 + (0, 1, 2, 7)


class Case:
    """A random task and a budget. The task has few selections and inputs, and by its weight it isn't too large."""

    def __init__(self, models, seed, number):
        self.number = number
        rng = random.Random('questions/%d/%d' % (seed, number))
        self.sources = some_sources(rng)
        tasks = [model.task(self.sources) for model in models]
        self.task = None if None in tasks else tasks[0]
        self.budget = rng.choice(BUDGETS)

    def lines(self):
        if self.task is None:
            return []
        return ['\t'.join(['both', str(self.budget), str(CLAUSES)] + [text.hex() for text in self.sources])]


def told(answer):
    """The kind of an answer, its number and its selection."""
    words = answer.split()
    if words[0] == 'cost':
        return 'cost', int(words[1]), {int(a): int(b) for a, b in (word.split(':') for word in words[2:])}
    if words[0] == 'spent':
        return 'spent', int(words[1]), None
    return answer, None, None


class Comparison:
    """The counts of all that was compared, and of what differed."""

    def __init__(self, model):
        self.model, self.counts, self.differing = model, collections.Counter(), 0

    def compare(self, case, answers):
        if case.task is None:
            self.counts['no task'] += 1
            return
        found = list(self.faults(case, answers[0]))
        self.differing += len(found)
        for fault in found[:3]:
            print('%d, budget %d: %r\n  %s' % (case.number, case.budget, case.sources, fault), flush=True)

    def faults(self, case, answer):
        if answer == 'refused':
            yield 'refused'
            return
        given, listed, shapes, text = answer.split('|')
        self.counts['questions'] += shapes.count(';')
        judge = Judge(self.model, case.task)
        kind, number, chosen = told(given)
        self.counts[kind] += 1
        wanted = judge.least()
        if told(listed)[:2] != wanted:
            yield 'trying all: wanted %s, given %s' % (wanted, listed)
        if kind == 'spent':
            if sum(int(shape.split()[3]) for shape in shapes.split(';') if shape) != case.budget:
                yield 'spent with a part of the budget'
        elif (kind, number) != wanted:
            yield 'by solver: wanted %s, given %s' % (wanted, given)
        if kind == 'cost' and (judge.cost(chosen) != number or not judge.agrees(chosen)):
            yield 'the selection is none at that cost: %s' % given
        if text == 'many':
            self.counts['tasks of large formulas'] += 1
            return
        read = cert_reader.read(bytes.fromhex(text))
        if isinstance(read, int):
            yield 'line %d of the certificate' % read
            return
        yield from self.faults_of_trail(case, judge, (kind, number, chosen), read)

    def faults_of_trail(self, case, judge, answer, read):
        _, _, cases, sessions = read
        inputs = [judge.input_of(values) for values in cases]
        ended = judge.trail(inputs, sessions)
        if ended[0] == 'unfinished':
            ended = 'spent', least_left(sessions), None
        if ended != answer:
            yield 'the questions end with %s, the answer is %s' % (ended, answer)
        near = [dict(session[0][1]) for session in sessions if session[0][0] == 'fail']
        for session in sessions:
            yield from faults_of_session(judge, inputs, session, self.counts, near)


def main():
    words = unproved.arguments(__doc__, count=3000)
    given = words.parse_args()
    if not os.environ.get('MODEL'):
        words.error('MODEL is not set')
    models = [Model(os.environ['MODEL']), Model(os.environ['MODEL'], BY_WEIGHT)]
    comparison = Comparison(models[0])
    with tempfile.TemporaryDirectory() as folder:
        unproved.compare_cases(given, BATCH, lambda number: Case(models, given.seed, number), Harness(folder), comparison)
    return unproved.told(comparison.counts, given, 'tasks', comparison.differing)


if __name__ == '__main__':
    sys.exit(main())
