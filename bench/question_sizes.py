#!/usr/bin/env python3
"""How large the questions of a search by solver are on the submissions of the examples, and how many clauses are logged.

    python3 bench/question_sizes.py [--larger] [ASSIGNMENT ..]

Run it at the top of the repository, with `rt` on the path; the search runs unproved, on a copy of the crates, so no times are taken.
With `--larger` the bounds are those of `large.txt`.
For each assignment, and for all that are named together, printed are how many runs and questions there were, the least, median and
greatest number of clauses of a formula, how many clauses the questions logged by their kind and answer, and the median and the
greatest number of logged clauses of a run, beside the number of inputs.
"""
import argparse
import glob
import os
import statistics
import sys
import tempfile

sys.path.insert(0, os.path.join(os.path.dirname(os.path.realpath(__file__)), '..', 'tests'))
from questions_try import Harness

BUDGET = 200000
# So many runs stand in one input of the program.
BATCH = 10
KINDS = ('first', 'low', 'low refuted', 'fail', 'fail refuted')


class Question:
    """A question by the words in which the program tells it."""

    def __init__(self, told):
        words = told.split()
        self.kind = ' '.join([words[0]] + words[4:])
        self.clauses, self.logged = int(words[2]), int(words[3])


def read(path):
    with open(path, 'rb') as source:
        return source.read()


def line_of(submission, bounds):
    folder = os.path.dirname(submission)
    sources = [os.path.join(folder, bounds), os.path.join(folder, 'reference.py'), submission, os.path.join(folder, 'rules.eml')]
    return '\t'.join(['solver', str(BUDGET), '0'] + [read(path).hex() for path in sources])


def questions_in(answer):
    return [Question(told) for told in answer.split('|')[2].split(';') if told]


def runs_of(harness, submissions, bounds):
    """The questions of the runs of each assignment's submissions that aren't refused, by one build of the program."""
    every = [(name, path) for name in submissions for path in submissions[name]]
    batches = [every[at:at + BATCH] for at in range(0, len(every), BATCH)]
    answers = harness.answers_to_each([[line_of(path, bounds) for _, path in batch] for batch in batches])
    runs = {name: [] for name in submissions}
    for (name, _), answer in zip(every, [it for batch in answers for it in batch]):
        if answer != 'refused':
            runs[name].append(questions_in(answer))
    return {name: runs[name] for name in runs if runs[name]}


def row(name, runs):
    """A line of the table."""
    questions = [it for run in runs for it in run]
    clauses = sorted(it.clauses for it in questions)
    logged = [sum(it.logged for it in run) for run in runs]
    kinds = ' '.join('%d:%d' % (len([1 for it in questions if it.kind == kind]), sum(it.logged for it in questions if it.kind == kind))
                     for kind in KINDS)
    return '| %s | %d | %d | %d, %d, %d | %s | %g, %d |' % (
        name, len(runs), len(questions), clauses[0], clauses[len(clauses) // 2], clauses[-1], kinds, statistics.median(logged), max(logged))


def main():
    words = argparse.ArgumentParser(description=__doc__, formatter_class=argparse.RawDescriptionHelpFormatter)
    words.add_argument('names', nargs='*')
    words.add_argument('--larger', action='store_true')
    given = words.parse_args()
    names = given.names or sorted(os.path.dirname(path)[len('examples/'):] for path in glob.glob('examples/*/rules.eml'))
    submissions = {name: sorted(glob.glob('examples/%s/sub-*.py' % name)) for name in names}
    with tempfile.TemporaryDirectory() as folder:
        runs = runs_of(Harness(folder), submissions, 'large.txt' if given.larger else 'bounds.txt')
    print('| assignment | runs | questions | clauses of a formula: least, median, greatest | questions and logged clauses: %s '
          '| logged clauses of a run: median, greatest |' % ', '.join(KINDS))
    print('|---|---|---|---|---|---|')
    for name in runs:
        print(row(name, runs[name]))
    print(row('all', [run for name in runs for run in runs[name]]))


if __name__ == '__main__':
    sys.exit(main())
