#!/usr/bin/env python3
"""Races the solver that learns against `minisat`, `cadical` and the plain solver on the same formulas, and the checker against it.

    python3 bench/solver_race.py [--program PATH] [--formulas FOLDER] [--grader GRADER] [PART ..]

Run it at the top of the repository, with `rt` on the path. The program of `race/` is proved and built by `rt run` in a copy of the
crates, unless PATH is one that was built already; nothing is left behind. The formulas of programs are made unproved; FOLDER keeps
them for another run. The parts are, and all are run where none is named:

- `programs`: formulas of programs from 900 gates on, with the checker's time;
- `random`: random clauses of three literals near the threshold;
- `plain`: the plain solver, on small formulas of programs and random ones;
- `stored`: the plain solver, on the formulas of certificates that GRADER, crates/grader_cli/out/grader_cli unless it is given,
  stores for the examples;
- `memory`: the formula of a graph of 1,000,000 gates;
- `limits`: few clauses over 2147483647 variables.

Each formula is solved by one after the other three times, and the least time of each stands. Times are those of the processor,
since the machine may be loaded: of the call alone for the crates, of the process for the others, with reading the file. Calls that
take less than 20 milliseconds are timed by the clock, and so are all against the plain solver. `minisat` and `cadical` are left out where they aren't installed. A log ends after 20,000 clauses.
"""
import argparse
import json
import os
import re
import shutil
import subprocess
import sys
import tempfile
import time

from built import Built
from race_formulas import (QUESTIONS, SMALL_QUESTIONS, chain_formula, dimacs, program_formulas, random_formula, stored_formulas,
                           text_of)

SOLVER = ['clause_base', 'derivation_check', 'sat_core', 'sat_plain', 'step_lines']
BUDGET = 20000
RUNS = 3
# Nanoseconds up to which a time by the clock counts: the system tells the processor's only from time to time.
SHORT = 20_000_000
GATES = 1_000_000
RATIO = 4.26
PARTS = ('programs', 'random', 'plain', 'stored', 'memory', 'limits')
GRADER = 'crates/grader_cli/out/grader_cli'
# The budget of the gradings whose formulas are solved.
GRADING = 2000


def seconds_of(by_clock, by_processor):
    """The time of a call, by the processor where it is long enough for the system to tell it."""
    return (by_clock if by_clock < SHORT else by_processor) / 1e9


class Ended:
    """What a run of the program says of one formula; times are in seconds, memory in MB."""

    def __init__(self, text):
        words = dict(re.findall(r'(?m)^(\w+ (?:time|VmHWM|VmRSS)):?\s+(\d+)', text))
        self.answer, clauses, solving = re.search(r'answer (\S+) (\d+) (\d+)', text).groups()
        good, hints, checking = re.search(r'good (\d+) (\d+) (\d+)', text).groups()
        self.clauses, self.good, self.hints = int(clauses), int(good), int(hints)
        at = {name: int(words[name + ' time']) for name in ('read', 'solved', 'checked')}
        self.solving = seconds_of(int(solving), at['solved'] - at['read'])
        self.checking = seconds_of(int(checking), at['checked'] - at['solved'])
        self.nanoseconds = int(solving)
        self.memory = {name: int(words[name]) / 1024 for name in words if ' Vm' in name}


class Formula:
    """A formula in files for each program."""

    def __init__(self, folder, name, gates, formula):
        self.name, self.gates, self.variables, self.count = name, gates, formula[0], len(formula[1])
        stem = os.path.join(folder, re.sub(r'\W+', '-', name))
        self.files = {'ours': stem + '.txt', 'dimacs': stem + '.cnf'}
        for kind, lines in (('ours', text_of(formula)), ('dimacs', dimacs(formula))):
            with open(self.files[kind], 'w') as out:
                out.writelines(lines)


class Race:
    def __init__(self, program):
        self.program = program

    def ours(self, formulas, solver='learning', budget=BUDGET):
        words = [self.program, solver, str(budget)] + [it.files['ours'] for it in formulas]
        done = subprocess.run(words, stdout=subprocess.PIPE, text=True)
        if done.returncode != 0:
            sys.exit('%s failed with status %d' % (' '.join(words[:4]), done.returncode))
        found = [Ended(part) for part in re.split(r'(?m)^(?=read time)', done.stdout)[1:]]
        for it in found:
            if it.good != it.clauses:
                sys.exit('a step of %s is not good' % words[3])
        return found

    def other(self, words, pattern):
        """The seconds and the conflicts of another solver, or None where it isn't installed."""
        if shutil.which(words[0]) is None:
            return None
        before = os.times()
        text = subprocess.run(words, stdout=subprocess.PIPE, stderr=subprocess.STDOUT, text=True).stdout
        after = os.times()
        seconds = after.children_user + after.children_system - before.children_user - before.children_system
        return seconds, int(re.search(pattern, text)[1]), 'UNSAT' in text

    def minisat(self, formula):
        return self.other(['minisat', '-verb=1', formula.files['dimacs']], r'conflicts\s*:\s*(\d+)')

    def cadical(self, formula):
        return self.other(['cadical', formula.files['dimacs']], r'(?m)^c conflicts:\s*(\d+)')


def milliseconds(seconds, count):
    return '%.3f' % (seconds * 1000 / max(count, 1))


def row(cells):
    print('| %s |' % ' | '.join(map(str, cells)), flush=True)


def head(cells):
    row(cells)
    print('|%s' % ('---|' * len(cells)), flush=True)


def thousands(number):
    return format(number, ',')


def raced(race, formula):
    """The least times of the solver, of the checker, and of the others."""
    ours, others = [], {'minisat': [], 'cadical': []}
    for _ in range(RUNS):
        ours += race.ours([formula])
        others['minisat'].append(race.minisat(formula))
        others['cadical'].append(race.cadical(formula))
    for name, runs in others.items():
        answers = {run[2] for run in runs if run}
        if ours[0].answer in ('holds', 'refuted') and answers - {ours[0].answer == 'refuted'}:
            sys.exit('%s answers otherwise on %s' % (name, formula.name))
    least = {name: None if None in runs else min(runs)[:2] for name, runs in others.items()}
    return min(it.solving for it in ours), min(it.checking for it in ours), ours[0], least


def times(ours, other, whole):
    """How many times another's time ours is, where the other's whole time is told from that of reading the file."""
    return '%.1f' % (ours / other) if whole > 0.002 else '-'


def show_against_others(race, formulas):
    head(('formula', 'gates', 'clauses logged', 'ms a clause', 'minisat: conflicts', 'ms a conflict', 'ratio a conflict',
          'ratio of the whole', 'cadical: conflicts', 'ratio a conflict', 'hints', 'checking to solving'))
    for formula in formulas:
        solving, checking, ended, least = raced(race, formula)
        each = solving / max(ended.clauses, 1)
        cells = [formula.name, thousands(formula.gates) if formula.gates else '', thousands(ended.clauses), milliseconds(each, 1)]
        for name in ('minisat', 'cadical'):
            if least[name] is None:
                cells += ['', '', ''] + [''] * (name == 'minisat')
                continue
            seconds, conflicts = least[name]
            one = seconds / max(conflicts, 1)
            cells += [thousands(conflicts)] + [milliseconds(one, 1)] * (name == 'minisat') + [times(each, one, seconds)]
            if name == 'minisat':
                cells.append(times(solving, seconds, seconds) if ended.answer != 'spent' else 'spent')
        row(cells + [thousands(ended.hints), '%.2f' % (checking / solving)])


def show_against_plain(race, formulas):
    """The plain solver on the same formulas; the least times of the calls."""
    head(('formulas', 'count', 'clauses: plain', 'learning', 'ms: plain', 'learning', 'more clauses', 'slower'))
    for name, some in formulas:
        found = {solver: [race.ours(some, solver) for _ in range(RUNS)] for solver in ('plain', 'learning')}
        least = {solver: [min(run[k].nanoseconds for run in runs) for k in range(len(some))] for solver, runs in found.items()}
        clauses = {solver: [it.clauses for it in runs[0]] for solver, runs in found.items()}
        if [it.answer for it in found['plain'][0]] != [it.answer for it in found['learning'][0]]:
            print('the answers differ on some of %s' % name)
        more = sum(b > a for a, b in zip(clauses['plain'], clauses['learning']))
        slower = sum(b > a for a, b in zip(least['plain'], least['learning']))
        row([name, len(some)] + [thousands(sum(clauses[solver])) for solver in least]
            + ['%.3f' % (sum(least[solver]) / 1e6) for solver in least] + [more, slower])


def show_memory(race, folder):
    formula = Formula(folder, 'a graph of %s gates' % thousands(GATES), GATES, chain_formula(GATES))
    ended = race.ours([formula])[0]
    memory = ended.memory
    print('%s: %s variables, %s clauses; answer %s after %d clauses, %.2f s' % (
        formula.name, thousands(formula.variables), thousands(formula.count), ended.answer, ended.clauses, ended.solving))
    print('the formula %d MB, the solver beside it %d MB; most memory while reading %d MB, while solving %d MB' % (
        memory['read VmRSS'], memory['solved VmHWM'] - memory['read VmRSS'], memory['read VmHWM'], memory['solved VmHWM']))
    os.remove(formula.files['ours'])
    os.remove(formula.files['dimacs'])


def show_limits(race, folder):
    last = 2147483647
    for name, clauses in (('no clause', []), ('two clauses', [[last, -1], [1]]), ('both signs', [[last], [-last]])):
        formula, before = Formula(folder, 'limits', 0, (last, clauses)), time.perf_counter()
        words = [race.program, 'learning', str(BUDGET), formula.files['ours']]
        done = subprocess.run(words, stdout=subprocess.PIPE, stderr=subprocess.STDOUT, text=True)
        told = re.search(r'answer (\S+) (\d+)', done.stdout)
        failed = 'status %d, %s' % (done.returncode, done.stdout[-200:].strip())
        said = 'answer %s after %s clauses' % told.groups() if told else failed
        most = re.findall(r'(?m)^solved VmHWM:\s+(\d+)', done.stdout)
        print('%s variables, %s: %s, %.2f s, at most %s MB' % (
            thousands(last), name, said, time.perf_counter() - before, int(most[0]) // 1024 if most else '?'), flush=True)


def kept(folder, name, make):
    """The formulas of this name in the folder, made where they aren't there."""
    path = os.path.join(folder, name + '.json')
    if not os.path.exists(path):
        with open(path, 'w') as out:
            json.dump(list(make()), out)
    with open(path) as made:
        return json.load(made)


def run_part(part, race, work, folder, grader):
    if part == 'programs':
        made = kept(folder, part, lambda: program_formulas(QUESTIONS))
        show_against_others(race, [Formula(work, name, gates, it) for name, gates, it in made])
    elif part == 'random':
        sizes = ((60, 1), (60, 2), (80, 1), (80, 2), (100, 1), (100, 2), (125, 1))
        made = [('random, %d variables, seed %d' % it, random_formula(it[0], RATIO, it[1])) for it in sizes]
        show_against_others(race, [Formula(work, name, 0, it) for name, it in made])
    elif part == 'plain':
        made = kept(folder, part, lambda: program_formulas(SMALL_QUESTIONS))
        groups = [('%s, %d gates' % (name, gates), [Formula(work, name, gates, it)]) for name, gates, it in made]
        for variables in (10, 20, 30, 40):
            made = [random_formula(variables, RATIO, seed) for seed in range(100)]
            some = [Formula(work, 'random %d %d' % (variables, seed), 0, it) for seed, it in enumerate(made)]
            groups.append(('random, %d variables' % variables, some))
        show_against_plain(race, groups)
    elif part == 'stored':
        groups = [(name, [Formula(work, '%s %d' % (name, number), 0, it) for number, it in enumerate(made)])
                  for name, made in stored_formulas(grader, GRADING) if made]
        show_against_plain(race, groups)
    elif part == 'memory':
        show_memory(race, work)
    else:
        show_limits(race, work)


def main():
    words = argparse.ArgumentParser(description=__doc__, formatter_class=argparse.RawDescriptionHelpFormatter)
    words.add_argument('parts', nargs='*', metavar='PART')
    words.add_argument('--program')
    words.add_argument('--formulas')
    words.add_argument('--grader', default=GRADER)
    given = words.parse_args()
    if set(given.parts) - set(PARTS):
        words.error('the parts are %s' % ', '.join(PARTS))
    print('load %s' % os.getloadavg()[0])
    with tempfile.TemporaryDirectory() as work:
        folder = given.formulas or work
        os.makedirs(folder, exist_ok=True)
        race = Race(os.path.abspath(given.program) if given.program else Built(work, 'race', SOLVER).program)
        for part in given.parts or PARTS:
            print('\n%s' % part)
            run_part(part, race, work, folder, given.grader)
    print('load %s' % os.getloadavg()[0])


if __name__ == '__main__':
    main()
