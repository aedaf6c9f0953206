#!/usr/bin/env python3
"""Judges the certificates that the grader stores, by rules written apart from it and by a plain model.

    MODEL=PATH tests/certificates.py [SEED COUNT] [--examples] [--first NUMBER] [--program PROGRAM] [--unproved]

Run it at the top of the repository. `--examples` grades every submission of the examples, and SEED and COUNT so many random requests:
tasks with rules, some of which compare printed values, with a budget of 2000 or less, and submissions of the examples with a small one. Either may stand alone. MODEL is the path of the
model's command line; its modules lie beside it. PROGRAM is crates/grader_cli/out/grader_cli unless it is given; a request is one
process of it. With `--unproved`, which needs `rt` on the path, its sources are run instead, unproved and over files in memory. Each
random request is made from the seed and its own number, so `--first NUMBER` with COUNT 1 repeats one.

A refused request must be answered as the model does, and nothing be stored. Else the certificate must be of its form; its claim must
be that of the status and of the output, which is compared word by word: with the program and the edits of the certificate's selection
and its first case on which the submission fails. The cases must be inputs within the bounds on which the reference ends, and the
sessions those for which the claim asks, in order; where the budget is spent, those of a search that stopped there. Each log must
follow by the rule of hints, and be fresh and narrow; each formula must be made of gates and state its question: under all truth
values of the question's own variables where these are at most 14, else under some. Where few selections and inputs are to be tried,
the cost must be the least by trying all. Printed are the counts and each difference; the exit status is 1 where there is one.
"""
import argparse
import collections
import glob
import os
import random
import sys
import tempfile

import print_requests
from certificate_rules import REFUSED, SPENT, Certificate
from graders import Built, Unproved
from programs import Model, some_sources
from request import SOURCES
from task_questions import Judge

PROGRAM = 'crates/grader_cli/out/grader_cli'
BUDGET = 200000
# Some random rules may be used nearly anywhere, and then a search takes minutes to spend more.
BUDGETS = (2000,) * 6 + (1, 2, 7, 30, 100)
# One random request in so many is of an example, with a budget up to SMALL.
EXAMPLES = 12
SMALL = 40
# One in so many has printed values that are compared.
PRINTED = 3
# The language of rules with neither guards nor deletions, and printed values that are compared.
STAGE = 16
# The sources as the model calls them.
KINDS = ('bounds', 'reference', 'submission', 'rules')


class Case:
    """A request: what it is called, its sources and its budget."""

    def __init__(self, name, sources, budget):
        self.name, self.sources, self.budget = name, sources, budget


def examples():
    """Every submission of the examples: its path and its sources."""
    for path in sorted(glob.glob('examples/*/sub-*.py')):
        folder = os.path.dirname(path)
        names = [os.path.join(folder, name) for name in ('bounds.txt', 'reference.py')] + [path, os.path.join(folder, 'rules.eml')]
        yield path, [read(name) for name in names]


def read(path):
    with open(path, 'rb') as file:
        return file.read()


def random_case(seed, number):
    rng = random.Random('certificates/%d/%d' % (seed, number))
    if rng.randrange(EXAMPLES) == 0:
        path, sources = rng.choice(list(examples()))
        return Case('task %d, %s' % (number, path), sources, rng.randint(1, SMALL))
    if rng.randrange(PRINTED) == 0:
        request = print_requests.a_grading(rng)
        return Case('task %d' % number, [request.files[name] for name in request.words[1:5]], rng.choice(BUDGETS))
    return Case('task %d' % number, some_sources(rng), rng.choice(BUDGETS))


class Comparison:
    """The counts of all that was judged, and of what differed."""

    def __init__(self, model):
        self.model, self.counts, self.differing = model, collections.Counter(), 0

    def compare(self, case, answer):
        found = list(self.faults(case, answer))
        self.differing += bool(found)
        for fault in found[:3]:
            print('%s, budget %d: %r\n  %s' % (case.name, case.budget, case.sources, fault), flush=True)

    def faults(self, case, answer):
        """What is wrong with the answer to a request."""
        if answer.status is None:
            yield 'the run stopped'
            return
        try:
            judge = Judge(self.model, self.model.grade.read_task(case.sources, STAGE))
        except self.model.grade.Refused as refused:
            yield from self.faults_of_refusal(answer, SOURCES[KINDS.index(refused.source)], refused.line, refused.cause)
            return
        if not judge.wanted and answer.status != SPENT:
            yield from self.faults_of_refusal(answer, SOURCES[1], judge.task.ref_line, 'EmptyReference')
        elif answer.cert is None:
            yield 'nothing is stored, the answer is %r' % (answer,)
        else:
            yield from Certificate(judge, case.budget, answer).faults(self.counts)

    def faults_of_refusal(self, answer, name, line, cause):
        """A refusal must be written, and nothing be stored."""
        self.counts['refused, ' + cause] += 1
        wanted = REFUSED, self.model.report.refusal(name, line, cause).encode(), None
        if answer != wanted:
            yield 'wanted is %r, given %r' % (wanted, answer)


def main():
    words = argparse.ArgumentParser(description=__doc__, formatter_class=argparse.RawDescriptionHelpFormatter)
    words.add_argument('seed', type=int, nargs='?')
    words.add_argument('count', type=int, nargs='?', default=0)
    words.add_argument('--examples', action='store_true')
    words.add_argument('--first', type=int, default=0)
    words.add_argument('--program', default=PROGRAM)
    words.add_argument('--unproved', action='store_true')
    given = words.parse_args()
    if not os.environ.get('MODEL'):
        words.error('MODEL is not set')
    if not given.examples and not given.count:
        words.error('nothing is asked: --examples, or SEED and COUNT')
    model = Model(os.environ['MODEL'], STAGE)
    cases = [Case(path, sources, BUDGET) for path, sources in examples()] if given.examples else []
    cases += [random_case(given.seed, number) for number in range(given.first, given.first + given.count)]
    comparison = Comparison(model)
    with tempfile.TemporaryDirectory() as folder:
        grader = Unproved(folder) if given.unproved else Built(given.program)
        answers = grader.answers([(case.sources, case.budget) for case in cases])
        for number, (case, answer) in enumerate(zip(cases, answers), 1):
            comparison.compare(case, answer)
            if number % 20 == 0:
                print('%d judged' % number, file=sys.stderr)
    for kind, count in sorted(comparison.counts.items()):
        print('%7d  %s' % (count, kind))
    print('%d requests, %d differences' % (len(cases), comparison.differing))
    return 1 if comparison.differing else 0


if __name__ == '__main__':
    sys.exit(main())
