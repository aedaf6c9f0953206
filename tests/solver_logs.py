#!/usr/bin/env python3
"""Compares the solvers and the checker of derivations with models of their own, on random small formulas and formulas of programs.

    tests/solver_logs.py SEED COUNT
    MODEL=PATH tests/solver_logs.py --programs SEED COUNT

Run it at the top of the repository, with `rt` on the path. It writes a program over the solvers and `derivation_check` into a copy
of the crates and runs that unproved, so nothing is left behind. Each formula is decided by the plain solver, by the one that learns,
and here by trying all values. A third of the random formulas is of any clauses, of at most 12 variables; a third has variables whose
values are forced by those before them; and a third is what `cnf_build` makes of a random graph. Those of programs ask whether a
program of a random task ends otherwise than the reference on some input, or whether one of its programs ends alike on some; MODEL is
the path of the model's command line, whose modules lie beside it.

Each log is judged here by the rule of hints; it must be fresh where no clause of the formula is empty, and, of the solver that
learns, narrow where the formula is led. That solver may not log more clauses than the plain one. Then `derivation_check` judges each
step of the logs, and of each log with one literal, hint or step changed. Printed are the counts, and each difference; the exit
status is 1 where there is one.
"""
import argparse
import collections
import os
import random
import sys
import tempfile

import random_formulas as formulas
from log_rules import altered, is_fresh, is_narrow, judged_log
from program_questions import Questions
from solver_try import Harness

# So many formulas stand in one input of the program, whose run may write no more than 2^20 bytes.
BATCH = 100
BATCH_OF_PROGRAMS = 1
SOLVERS = ('plain', 'learning')


class Case:
    """A formula, or a circuit of which one is made, a budget, and what is known of the formula."""

    def __init__(self, budget, formula=None, circuit=None, led=None, holds=None):
        self.budget, self.formula, self.circuit, self.led, self.holds = budget, formula, circuit, led, holds

    def text(self):
        lines = circuit_lines(self.circuit) if self.circuit else formula_lines(self.formula)
        return ''.join(line + '\n' for line in lines + ['s %d' % self.budget])

    def take_formula(self, made):
        """Takes the formula that was made of the circuit."""
        self.formula, self.led = made, int(self.circuit.split('|')[0]) + 1


def formula_lines(formula):
    return ['p %d' % formula[0]] + ['c %s' % ' '.join(map(str, clause)) for clause in formula[1]]


def circuit_lines(circuit):
    variables, gates, goal = circuit.split('|')
    return ['v ' + variables] + ['g ' + gate.replace('.', ' ') for gate in gates.split()] + ['o ' + goal]


def a_case(rng):
    budget = rng.choice((10000,) * 9 + (0, 1, 2, 5))
    kind = rng.randrange(3)
    if kind == 0:
        return Case(budget, formula=formulas.a_plain_formula(rng))
    if kind == 1:
        led, formula = formulas.a_led_formula(rng)
        return Case(budget, formula=formula, led=led)
    circuit = formulas.a_graph(rng)
    return Case(budget, circuit=circuit, holds=formulas.reads_true_for_some(circuit))


class Answers:
    """The answers in the lines that the program writes."""

    def __init__(self, lines):
        self.lines, self.place = lines, 0

    def next_is(self, mark):
        return self.place < len(self.lines) and self.lines[self.place].startswith(mark)

    def take(self):
        self.place += 1
        return self.lines[self.place - 1].split()

    def formula(self):
        variables, clauses = int(self.take()[1]), []
        while self.next_is('clause'):
            clauses.append([int(word) for word in self.take()[1:]])
        return variables, clauses

    def solved(self):
        words, log = self.take(), []
        while self.next_is('l '):
            step = self.take()
            cut = step.index('0')
            log.append(([int(w) for w in step[1:cut]], [int(w) for w in step[cut + 1:]]))
        return words[0], [int(w) for w in words[1:]] if words[0] == 'holds' else [], log


def faults_of_log(case, solver, log):
    variables, clauses = case.formula
    if len(log) > case.budget:
        yield 'the log is longer than the budget'
    if any(answer != 'good' for answer in judged_log(clauses, log)):
        yield 'a step does not follow'
    if not is_narrow(variables, log):
        yield 'a variable is out of range'
    if all(clauses) and not is_fresh(clauses, log):
        yield 'a clause is not new'
    if solver == 'learning' and case.led is not None and not is_narrow(case.led, log):
        yield 'a clause is not narrow'


def faults(case, solver, answer):
    """What is wrong with an answer of a solver."""
    (variables, clauses), (kind, values, log) = case.formula, answer
    yield from faults_of_log(case, solver, log)
    if kind == 'holds':
        if len(values) != variables or not all(any((lit > 0) == (values[abs(lit) - 1] == 1) for lit in c) for c in clauses):
            yield 'the values do not satisfy the formula'
        if not case.holds:
            yield 'holds, and should not'
    elif kind == 'refuted':
        if case.holds or log == [] or log[-1][0] != []:
            yield 'refuted, and should not be'
    elif kind == 'spent':
        if len(log) != case.budget or any(clause == [] for clause, _ in log):
            yield 'spent, and should not be'
    else:
        yield 'no memory'


def faults_of_both(plain, learning):
    if len(learning[2]) > len(plain[2]):
        yield 'more clauses than the plain solver logs'
    if learning[0] == 'spent' and plain[0] != 'spent':
        yield 'spent where the plain solver is not'


class Comparison:
    def __init__(self, rng):
        self.rng, self.counts, self.differences = rng, collections.Counter(), 0

    def differs(self, what, case, *found):
        self.differences += 1
        if self.differences <= 20:
            print('%s: %s, budget %d, %s' % (what, case.formula, case.budget, found), flush=True)

    def take(self, case, answers):
        """Compares the answers of both solvers on a case; gives what the checker is to judge."""
        if case.circuit:
            case.take_formula(answers.formula())
        if case.holds is None:
            case.holds = formulas.holds_for_some(*case.formula)
        given = [answers.solved() for _ in SOLVERS]
        for solver, answer in zip(SOLVERS, given):
            self.counts['%s: %s' % (solver, answer[0])] += 1
            self.counts['%s: steps' % solver] += len(answer[2])
            for fault in faults(case, solver, answer):
                self.differs('%s: %s' % (solver, fault), case, answer)
        for fault in faults_of_both(*given):
            self.differs(fault, case, *given)
        self.counts['led' if case.led is not None else 'not led'] += 1
        return [log for _, _, log in given if log]

    def with_changes(self, case, logs):
        for log in logs:
            yield 'as it is', log
            kind, changed = altered(self.rng, case.formula[0], len(case.formula[1]), log)
            yield kind, changed

    def judge(self, case, kind, log, lines):
        model = judged_log(case.formula[1], log)
        if model != lines:
            self.differs('judged %s, and should be %s' % (lines, model), case, log)
        good = all(answer == 'good' for answer in model)
        self.counts['%s: every step %s' % (kind, 'good' if good else 'is not good')] += 1


def judging_text(case, log):
    lines = formula_lines(case.formula)
    for clause, hints in log:
        lines += ['l %s' % ' '.join(map(str, clause)), 'h %s' % ' '.join(map(str, hints))]
    return ''.join(line + '\n' for line in lines)


def in_pieces(items, size):
    return [items[first:first + size] for first in range(0, len(items), size)]


def compare(harness, comparison, cases, batch):
    batches, judged = in_pieces(cases, batch), []
    for group, lines in zip(batches, harness.lines_of_each([''.join(case.text() for case in group) for group in batches])):
        answers = Answers(lines)
        for case in group:
            logs = comparison.take(case, answers)
            judged += [(case, kind, log) for kind, log in comparison.with_changes(case, logs)]
        if answers.place != len(lines):
            sys.exit('%d lines too many' % (len(lines) - answers.place))
    print('%d formulas decided' % len(cases), file=sys.stderr)
    groups = in_pieces(judged, batch)
    texts = [''.join(judging_text(case, log) for case, _, log in group) for group in groups]
    for group, lines in zip(groups, harness.lines_of_each(texts)):
        rest = iter(lines)
        for case, kind, log in group:
            comparison.judge(case, kind, log, [next(rest) for _ in log])
    print('%d logs judged' % len(judged), file=sys.stderr)


def main():
    parser = argparse.ArgumentParser(description=__doc__, formatter_class=argparse.RawDescriptionHelpFormatter)
    parser.add_argument('seed', type=int)
    parser.add_argument('count', type=int)
    parser.add_argument('--programs', action='store_true')
    options = parser.parse_args()
    if options.programs and not os.environ.get('MODEL'):
        parser.error('MODEL is not set')
    rng = random.Random(options.seed)
    comparison = Comparison(rng)
    with tempfile.TemporaryDirectory() as folder:
        if options.programs:
            asked = Questions(os.environ['MODEL']).formulas(options.seed, options.count)
            cases = [Case(10000, formula=formula, led=led, holds=holds) for formula, led, holds in asked]
        else:
            cases = [a_case(rng) for _ in range(options.count)]
        compare(Harness(folder), comparison, cases, BATCH_OF_PROGRAMS if options.programs else BATCH)
    for name in sorted(comparison.counts):
        print('%s: %d' % (name, comparison.counts[name]))
    print('differences: %d' % comparison.differences)
    sys.exit(1 if comparison.differences else 0)


if __name__ == '__main__':
    main()
