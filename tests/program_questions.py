"""Small questions about the programs of random tasks, with their formulas; nothing by itself."""
import random
import sys
import tempfile

import programs
from program_formulas import Harness, formula_of
from random_formulas import reads_true_for_some

# Tasks are made until enough questions have gates, at most so many for each that is wanted, so many in one input.
TASKS = 12
BATCH = 20
# At most so many bits are variables, and so many gates are made.
VARIABLES = 8
GATES = 300


def freed(rng, text, most):
    """The bits with variables in the places of some."""
    places = [place for place, mark in enumerate(text) if mark in '01']
    free = set(rng.sample(places, min(len(places), rng.randint(1, most))))
    return ''.join('*' if place in free else mark for place, mark in enumerate(text))


def parts_of(setting):
    """The members' bits and the arguments of a setting."""
    words = [word for word in setting.split(',') if word]
    members = ','.join(word for word in words if word[0] == '/')
    return members, ','.join(word for word in words if word[0] != '/')


def questions_of(case):
    """The lines of some questions about the task."""
    if case.task is None:
        return []
    rng, asked = case.rng, []
    for setting in case.known[:2]:
        members, arguments = parts_of(setting)
        asked.append(('fail', [members, freed(rng, arguments, VARIABLES)]))
        if members:
            inputs = [parts_of(it)[1] for it in rng.sample(case.known, rng.randint(1, 3))]
            asked.append(('meets', [freed(rng, members, VARIABLES)] + inputs))
    return [case.line(kind, words) for kind, words in asked]


class Questions:
    """The questions, by the plain model of this path, which says how many members a pick has."""

    def __init__(self, path):
        self.model = programs.Model(path)

    def lines(self, seed, count):
        for number in range(count):
            yield from questions_of(programs.Case(self.model, seed, number))

    def formulas(self, seed, count):
        """So many formulas, each with the number of variables by which it is led, and whether values satisfy it."""
        lines = list(self.lines(seed, TASKS * count))
        with tempfile.TemporaryDirectory() as folder:
            batches = [lines[first:first + BATCH] for first in range(0, len(lines), BATCH)]
            answers = [it for batch in Harness(folder).answers_to_each(batches) for it in batch]
        fitting = [it for it in answers if it.count('|') == 2 and 0 < len(it.split('|')[1].split()) <= GATES]
        print('%d of %d questions have from 1 to %d gates' % (len(fitting), len(answers), GATES), file=sys.stderr)
        random.Random(seed).shuffle(fitting)
        return [(formula_of(it), int(it.split('|')[0]) + 1, reads_true_for_some(it)) for it in fitting[:count]]
