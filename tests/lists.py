#!/usr/bin/env python3
"""Compares the lists that `all` prints with those of a plain lister over the plain model.

    MODEL=PATH tests/lists.py [SEED COUNT] [--first NUMBER] [--examples] [--edges] [--budgets] [--seconds SECONDS] [--program PROGRAM]

Run it at the top of the repository. MODEL is the path of the model's command line; its modules lie beside it. PROGRAM is
crates/grader_cli/out/grader_cli unless it is given.

With SEED and COUNT: random requests, each made from the seed and its own number. With `--examples`: of each submission of the
examples within the small bounds the lists of at most MOSTS corrections. With `--edges`: the requests of `list_edges.py`. With
`--budgets`: of the submissions of the examples, or of so many random tasks where SEED and COUNT are given, with budgets that grow
until one suffices. Where the first search spends it, what is written must be what `grade` writes and stores; where the list does,
what `spent_lists.py` asks for.

SECONDS of the processor are spent by the lister on one task, 20 unless they are given; where they don't suffice, or a request at an
edge takes longer than LONGEST seconds, it can't be told.
Printed are the counts of the answers, what couldn't be told, and each difference with its files; the exit status is 1 where there
is one.
"""
import argparse
import collections
import os
import random
import subprocess
import sys
import tempfile
import time

import list_requests
from certificates import PROGRAM, examples
from compare import Program, kind_of, show
from graders import Built
from list_edges import edges
from plain_lists import SPENT, Lists, Untold, has_form
from programs import Model
from request import SOURCES, Request
from spent_lists import SpentList
from task_questions import Judge

# The language of rules with neither guards nor deletions, and the limit by weights.
STAGE = 15
MOSTS = (1, 100)
BUDGETS = (1, 2, 4, 8, 16, 32, 64, 128, 256)
# So many seconds one run of the program may take.
LONGEST = 600


def requests_of_examples():
    """Of each submission, each list."""
    for path, sources in examples():
        for most in MOSTS:
            yield '%s, at most %d' % (path, most), request(sources, most, 200000)


def request(sources, most, budget):
    return Request(('all',) + SOURCES + (str(most), str(budget)), dict(zip(SOURCES, sources)))


def random_requests(seed, first, count):
    for number in range(first, first + count):
        yield 'request %d' % number, list_requests.a_request(random.Random('all/%d/%d' % (seed, number)))


class Comparison:
    """The counts of all that was compared, and of what differed."""

    def __init__(self, program, grader, lists):
        self.program, self.grader, self.lists = program, grader, lists
        self.counts, self.differing, self.untold, self.made = collections.Counter(), 0, 0, 0

    def compare(self, name, request):
        """One request, by the lister."""
        if request.words[:1] != ['all']:
            self.counts['requests of another command, passed over'] += 1
            return
        _, status, output, fault = self.program.answer(request)
        self.counts[kind_of_list(status, output)] += 1
        self.judge(name, request, status, output, fault)

    def judge(self, name, request, status, output, fault):
        self.made += 1
        try:
            fault = fault or self.lists.fault_of(request.words, request.files, status, output)
            if not fault and status == SPENT:
                fault = self.fault_of_spent(request, output)
        except Untold as cause:
            self.untold += 1
            print('%s: %s' % (name, cause), flush=True)
        if fault:
            self.differing += 1
            show(name, request, status, output, fault)

    def fault_of_spent(self, request, output):
        """What is wrong with the text of a spent budget: of the first search, or of the list."""
        sources, budget = [request.files[name] for name in request.words[1:5]], int(request.words[6])
        graded = self.grader.grade(sources, budget)
        if graded.status == SPENT:
            self.counts['spent by the first search'] += 1
            return None if graded.output + graded.cert == output else '`grade` writes and stores %r' % (graded,)
        self.counts['spent by the list'] += 1
        lister = self.lists.lister(sources)
        found = SpentList(Judge(self.lists.model, lister.task), lister, budget, output).faults(self.counts)
        return next(found, None)

    def compare_edge(self, edge):
        """One request at an edge: how its answer must begin, without the lister."""
        began = time.monotonic()
        self.made += 1
        try:
            _, status, output, fault = self.program.answer(edge.request)
        except subprocess.TimeoutExpired:
            self.untold += 1
            print('%s: not ended after %d seconds' % (edge.name, LONGEST), flush=True)
            return
        self.counts[kind_of_list(status, output)] += 1
        if not fault and not any(status == wanted and output.startswith(text) for wanted, text in edge.answers):
            fault = 'wanted is one of %r' % (edge.answers,)
        if fault:
            self.differing += 1
            show(edge.name, edge.request, status, output[:300], fault)
        elif has_form(edge.request.words):
            print('%s: %.1f seconds, %s' % (edge.name, time.monotonic() - began, output[:60]), flush=True)

    def compare_budgets(self, name, sources):
        """The lists of one task with growing budgets, up to one that suffices."""
        for budget in BUDGETS:
            asked = request(sources, MOSTS[-1], budget)
            _, status, output, fault = self.program.answer(asked)
            if status != SPENT:
                break
            self.judge('%s, budget %d' % (name, budget), asked, status, output, fault)


def kind_of_list(status, output):
    """The kind of an answer; of a list how many there are, and whether that is the whole."""
    lines = output.decode('latin-1').split('\n')
    if status in (0, 1) and len(lines) > 1:
        count, ending = lines[1].removeprefix('found ').split(', ')
        return 'status %d, %s, %s' % (status, 'one' if count == '1' else 'several', ending)
    return kind_of(status, output)


def run(given, comparison):
    """All that is asked for."""
    if given.edges:
        for edge in edges():
            comparison.compare_edge(edge)
    asked = list(random_requests(given.seed, given.first, given.count)) if given.count else []
    if given.budgets:
        tasks = [(name, [it.files[word] for word in SOURCES]) for name, it in asked if has_form(it.words)] if asked else examples()
        for name, sources in tasks:
            comparison.compare_budgets(name, sources)
        return
    for place, (name, it) in enumerate(asked + (list(requests_of_examples()) if given.examples else []), 1):
        comparison.compare(name, it)
        if place % 50 == 0:
            print('%d compared' % place, file=sys.stderr, flush=True)


def main():
    words = argparse.ArgumentParser(description=__doc__, formatter_class=argparse.RawDescriptionHelpFormatter)
    words.add_argument('seed', type=int, nargs='?')
    words.add_argument('count', type=int, nargs='?', default=0)
    words.add_argument('--first', type=int, default=0)
    for kind in ('examples', 'edges', 'budgets'):
        words.add_argument('--' + kind, action='store_true')
    words.add_argument('--seconds', type=float, default=20)
    words.add_argument('--program', default=PROGRAM)
    given = words.parse_args()
    if not os.environ.get('MODEL'):
        words.error('MODEL is not set')
    if not (given.count or given.examples or given.edges or given.budgets):
        words.error('nothing is asked')
    with tempfile.TemporaryDirectory() as folder:
        lists = Lists(Model(os.environ['MODEL']), STAGE, given.seconds)
        comparison = Comparison(Program(given.program, folder, LONGEST), Built(given.program), lists)
        run(given, comparison)
    for kind, count in sorted(comparison.counts.items()):
        print('%7d  %s' % (count, kind))
    print('%d compared, %d of which cannot be told, %d differ' % (comparison.made, comparison.untold, comparison.differing))
    return 1 if comparison.differing else 0


if __name__ == '__main__':
    sys.exit(main())
