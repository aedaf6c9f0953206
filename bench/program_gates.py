#!/usr/bin/env python3
"""Prints the gates of the programs of the examples as bits, at their bounds.

    MODEL=PATH python3 bench/program_gates.py [ASSIGNMENT ..]

Run it at the top of the repository, with `rt` on the path; the programs are evaluated unproved, on a copy of the crates, by the
program of `tests/programs_try.py`. MODEL is the path of the model's command line; its modules lie beside it, and it counts picks and
weights. For each assignment: the weight of the
reference and its gates with variables for all bits of the arguments; and over the submissions that are read to a task and weigh no
more than 1,000,000 the most picks, the greatest weight of a weighted program, and the most gates, with variables for all bits of
the arguments and of the picks' members; and that weight and those gates of one submission in the mean.
"""
import os
import sys
import tempfile

HERE = os.path.dirname(os.path.realpath(__file__))
sys.path.insert(0, os.path.join(HERE, '..', 'tests'))
from programs import LETTERS, Model
from programs_try import Harness

MOST = 1_000_000
SOURCES = ('bounds.txt', 'reference.py', None, 'rules.eml')


def read(folder, name):
    with open(os.path.join(folder, name), 'rb') as file:
        return file.read()


def variables(kind, limits):
    """An argument whose bits are all variables."""
    count = {'n': limits.width, 'b': 1, 'l': 5 + limits.cap * limits.width, 't': 5 + limits.cap * 7}[kind]
    return kind + '*' * count


class Submission:
    """A submission that is read to a task."""

    def __init__(self, model, weight, sources):
        self.sources = sources
        self.task = task = model.task(sources)
        if task is None:
            return
        limits, entry = task.bounds.limits, task.bounds.entry
        members = model.rewrite.members(task.tree)
        self.picks = len(members)
        self.arguments = [variables(LETTERS[it], limits) for it in task.bounds.ptypes()]
        self.members = ['/' + '*' * members[pick].bit_length() for pick in range(len(members))]
        self.weight = weight(task.tree, task.sub_types, limits, entry)
        self.reference = weight(model.rewrite.lift(task.ref), task.ref_types, limits, entry)

    def line(self, asked, setting):
        return '\t'.join([asked] + [it.hex() for it in self.sources] + [','.join(setting)])


def submissions(model, weight, folder):
    names = sorted(it for it in os.listdir(folder) if it.startswith('sub-') and it.endswith('.py'))
    all_ = [Submission(model, weight, [read(folder, it or name) for it in SOURCES]) for name in names]
    return [it for it in all_ if it.task is not None and it.weight <= MOST]


def main():
    if not os.environ.get('MODEL'):
        sys.exit('MODEL is not set')
    model = Model(os.environ['MODEL'])
    from weights import weight
    examples = os.path.join(HERE, '..', 'examples')
    names = sys.argv[1:] or sorted(it for it in os.listdir(examples) if os.path.exists(os.path.join(examples, it, 'bounds.txt')))
    found = [submissions(model, weight, os.path.join(examples, it)) for it in names]
    inputs = [[it[0].line('reference', it[0].arguments)] + [s.line('gates', s.arguments + s.members) for s in it] for it in found]
    print('| assignment | weight | gates | submissions | picks | weight | gates | weight in the mean | gates in the mean |')
    print('|---|---|---|---|---|---|---|---|---|')
    with tempfile.TemporaryDirectory() as work:
        for name, all_, answers in zip(names, found, Harness(work).answers_to_each(inputs)):
            gates = [int(it) for it in answers]
            cells = [all_[0].reference, gates[0], len(all_), max(it.picks for it in all_), max(it.weight for it in all_),
                     max(gates[1:]), sum(it.weight for it in all_) // len(all_), sum(gates[1:]) // len(all_)]
            print('| `%s` | %s |' % (name, ' | '.join('{:,}'.format(it) for it in cells)), flush=True)


if __name__ == '__main__':
    main()
