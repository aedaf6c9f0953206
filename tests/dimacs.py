#!/usr/bin/env python3
"""Compares `sat` and `unsat` with minisat and with readers and rules written apart, on random and structured formulas.

    tests/dimacs.py PROGRAM [SEED [COUNT]] [--spoiled COUNT] [--certificates FILE..]

PROGRAM is the built `mpygrade`, or another program with these two commands; `minisat` is on the path. COUNT random formulas (2000)
stand in texts with comments, blanks, repeats and clauses that are always true; fifty others are pigeonholes, parities, and, where
certificates are given, the formulas of their sessions. Of each the verdict is compared with minisat's. Values that are printed must
make each clause of the text true. The proof that is stored is read here and judged by the rule of hints, which must be fresh where no
clause of the formula is empty; then `unsat` must accept it, and refuse it, at the step that is meant, once a step of it is changed.
So many spoiled texts and proofs (5000) must be refused at the line that the reader here finds, or be taken where it takes them.
Printed are the counts, and each difference; the exit status is 1 where there is one.
"""
import argparse
import collections
import itertools
import os
import random
import subprocess
import sys
import tempfile

import random_formulas as formulas
from dimacs_reader import read_formula, read_proof, tidied
from log_rules import altered, is_fresh, judged_log

BUDGET = 200000
SPENT = 3
VERDICTS = {10: 'satisfiable', 20: 'unsatisfiable'}


class Programs:
    """The program and minisat, over files in a folder."""

    def __init__(self, program, folder):
        self.program, self.folder = os.path.abspath(program), folder

    def write(self, name, text):
        with open(os.path.join(self.folder, name), 'wb') as out:
            out.write(text)

    def read(self, name):
        with open(os.path.join(self.folder, name), 'rb') as given:
            return given.read()

    def run(self, *words):
        run = subprocess.run([self.program, *words], cwd=self.folder, capture_output=True, text=True)
        return run.returncode, run.stdout

    def sat(self, text, budget=BUDGET):
        self.write('c.cnf', text)
        self.write('log', b'old')
        return self.run('sat', 'c.cnf', 'log', str(budget))

    def unsat(self, text, proof):
        self.write('c.cnf', text)
        self.write('log', proof)
        return self.run('unsat', 'c.cnf', 'log')

    def minisat(self, variables, clauses):
        self.write('m.cnf', plain_text(variables, clauses))
        run = subprocess.run(['minisat', '-verb=0', 'm.cnf', '/dev/null'], cwd=self.folder, capture_output=True)
        return VERDICTS[run.returncode]


# FORMULAS AND THEIR TEXTS

def plain_text(variables, clauses):
    lines = ['p cnf %d %d' % (variables, len(clauses))] + [' '.join(map(str, clause + [0])) for clause in clauses]
    return ''.join(line + '\n' for line in lines).encode()


def loosened(rng, variables, clause):
    """The clause with repeats, or one that is always true."""
    clause = clause + [rng.choice(clause) for _ in range(rng.choice((0, 0, 1, 3))) if clause]
    if rng.random() < 0.03 and clause:
        clause.append(-clause[0])
    return clause


def loose_text(rng, variables, clauses):
    """A text of the form, with blanks, comments and line ends where it may have them."""
    out = ''.join(rng.choice(('c\n', 'c p cnf 1 1\n', '\n', ' \t\r\n')) for _ in range(rng.randint(0, 2)))
    out += 'p%scnf %d\t%d%s\n' % (rng.choice((' ', '\t ')), variables, len(clauses), rng.choice(('', ' \r')))
    for clause in clauses:
        for literal in clause + [0]:
            out += str(literal) + rng.choice((' ', ' ', ' ', '  ', '\t', '\n', '\r\n', ' \nc 7 0\n'))
    return (out.rstrip() + rng.choice(('', '\n', '\n%\n0\n', '\nc end\n\n'))).encode()


def a_formula(rng):
    """Up to 60 variables; some have so many clauses of three literals that their proofs are long."""
    kind = rng.random()
    if kind < 0.3:
        return formulas.a_plain_formula(rng)
    if kind < 0.4:
        return formulas.a_led_formula(rng)[1]
    variables = rng.randint(10, 60)
    count = round(variables * rng.choice((3, 4, 4.3, 5)))
    return variables, [formulas.signed(rng, rng.sample(range(1, variables + 1), 3)) for _ in range(count)]


def pigeonholes(holes, more):
    """So many holes, and so many pigeons more; each pigeon has a hole, and no hole has two pigeons."""
    at = lambda pigeon, hole: pigeon * holes + hole + 1
    pigeons = range(holes + more)
    clauses = [[at(p, hole) for hole in range(holes)] for p in pigeons]
    for hole in range(holes):
        clauses += [[-at(p, hole), -at(q, hole)] for p, q in itertools.combinations(pigeons, 2)]
    return holes * len(pigeons), clauses


def parity(rng, length, is_odd):
    """Two sums of the same bits, in another order, whose parities differ exactly where `is_odd`."""
    clauses, count = [], length
    ends = []
    for _ in range(2):
        bits = rng.sample(range(1, length + 1), length)
        sum_so_far = bits[0]
        for bit in bits[1:]:
            count += 1
            a, b, c = sum_so_far, bit, count
            clauses += [[-c, a, b], [-c, -a, -b], [c, -a, b], [c, a, -b]]
            sum_so_far = count
        ends.append(sum_so_far)
    a, b = ends
    clauses += [[a, b], [-a, -b]] if is_odd else [[-a, b], [a, -b]]
    return count, clauses


def of_certificate(path):
    """The formulas of the sessions of a certificate."""
    variables, clauses, found = 0, [], []
    with open(path) as given:
        for line in given:
            words = line.split()
            if words[:1] == ['vars']:
                variables, clauses = int(words[1]), []
                found.append((variables, clauses))
            elif words[:1] == ['f']:
                clauses.append([int(word) for word in words[1:-1]])
    return found


def structured(rng, certificates):
    given = [pigeonholes(holes, more) for holes in range(1, 7) for more in (0, 1)]
    given += [parity(rng, length, is_odd) for length in range(3, 13) for is_odd in (False, True)]
    for path in certificates:
        given += of_certificate(path)
    return given


# WHAT IS COMPARED

class Comparison:
    def __init__(self, programs):
        self.programs, self.counts, self.differing = programs, collections.Counter(), 0

    def differ(self, what, text):
        self.differing += 1
        print('%s\n%s' % (what, text[:2000].decode(errors='replace')))

    def formula(self, rng, formula):
        """A formula in a text, against minisat; a third of them with a small budget besides."""
        variables, clauses = formula
        clauses = [loosened(rng, variables, clause) for clause in clauses]
        text = loose_text(rng, variables, clauses)
        wanted = self.programs.minisat(variables, clauses)
        self.solved(rng, text, variables, clauses, BUDGET, wanted)
        if rng.random() < 0.3:
            self.solved(rng, text, variables, clauses, rng.choice((1, 2, 5, 20)), wanted)

    def solved(self, rng, text, variables, clauses, budget, wanted):
        status, said = self.programs.sat(text, budget)
        log = self.programs.read('log')
        if said == 'unsatisfiable\n' and status == 2 and wanted == 'unsatisfiable':
            self.counts['unsatisfiable'] += 1
            return self.proof(rng, text, variables, clauses, budget, log)
        if said.startswith('satisfiable\nv ') and status == 0 and wanted == 'satisfiable' and log == b'old':
            self.counts['satisfiable'] += 1
            return self.values(text, variables, clauses, said)
        if said == 'budget spent %d\n' % budget and status == SPENT and budget < BUDGET:
            self.counts['budget spent'] += 1
            return self.spent(text, variables, clauses, budget, log)
        return self.differ('sat ended with %d, %r; minisat says %s' % (status, said[:80], wanted), text)

    def values(self, text, variables, clauses, said):
        values = [int(word) for word in said.split()[2:]]
        if list(map(abs, values[:-1])) != list(range(1, variables + 1)) or values[-1] != 0:
            return self.differ('the values are %r' % values, text)
        if not all(set(clause) & set(values) for clause in clauses):
            return self.differ('a clause is false', text)
        return None

    def steps(self, text, variables, clauses, log):
        """The steps of a log that is stored, and whether they follow and are fresh."""
        known = tidied(clauses)
        line, steps = read_proof(log, len(known), variables)
        if line or any(answer != 'good' for answer in judged_log(known, steps)):
            self.differ('the log does not follow, or has no form at line %d' % line, text)
        elif all(known) and not is_fresh(known, steps):
            self.differ('the log is not fresh', text)
        return known, steps

    def spent(self, text, variables, clauses, budget, log):
        _, steps = self.steps(text, variables, clauses, log)
        if len(steps) != budget or not all(clause for clause, _ in steps):
            self.differ('a spent log of %d steps' % len(steps), text)

    def proof(self, rng, text, variables, clauses, budget, log):
        known, steps = self.steps(text, variables, clauses, log)
        if not steps or steps[-1][0] or len(steps) > budget:
            self.differ('the proof has no empty clause', text)
        if self.programs.unsat(text, log) != (0, 'unsatisfiable\n'):
            self.differ('unsat does not take a proof of sat', text)
        if steps:
            self.judged(text, known, altered(rng, variables, len(known), steps)[1])

    def judged(self, text, known, steps):
        """A proof that may not follow, by the rule of hints."""
        proof = proof_text(steps)
        wanted = 0, 'unsatisfiable\n'
        if not steps or steps[-1][0]:
            wanted = 10, 'rejected WrongClaim\n'
        else:
            answers = judged_log(known, steps)
            bad = next((n for n, answer in enumerate(answers, 1) if answer != 'good'), 0)
            if bad:
                wanted = 10, 'rejected BadStep step %d\n' % bad
        self.counts[wanted[1].split(' step ')[0].strip()] += 1
        found = self.programs.unsat(text, proof)
        if found != wanted:
            self.differ('unsat ended with %r, not %r' % (found, wanted), text + proof)

    def spoiled_text(self, rng, text):
        text = spoiled(rng, text)
        line, _, _ = read_formula(text)
        status, said = self.programs.sat(text, 1)
        self.counts['spoiled formula, %s' % ('refused' if line else 'read')] += 1
        if (status, said) != (4, 'refused c.cnf line %d: Cnf\n' % line) if line else status not in (0, 2, SPENT):
            self.differ('sat ended with %d, %r, not at line %d' % (status, said[:80], line), text)

    def spoiled_proof(self, rng, formula, text, log):
        log = spoiled(rng, log)
        variables, clauses = formula
        known = tidied(clauses)
        line, steps = read_proof(log, len(known), variables)
        self.counts['spoiled proof, %s' % ('refused' if line else 'read')] += 1
        if not line:
            return self.judged(text, known, steps)
        found = self.programs.unsat(text, log)
        if found != (4, 'refused log line %d: Proof\n' % line):
            self.differ('unsat ended with %r, not at line %d' % (found, line), text + log)
        return None


def proof_text(steps):
    lines = ['l %s 0 %s 0' % (' '.join(map(str, clause)), ' '.join(map(str, hints))) for clause, hints in steps]
    return ''.join(' '.join(line.split()) + '\n' for line in lines + ['end']).encode()


def spoiled(rng, text):
    """The text with one change, of a byte, a word or a line, or cut."""
    kind = rng.randrange(6)
    at = rng.randrange(len(text) + 1)
    if kind == 0:
        return text[:at] + bytes([rng.choice(b'0123456789 -+\t\r\n%pcle\x00')]) + text[at + rng.randrange(2):]
    if kind == 1:
        return text[:at] + text[at + rng.randint(1, 3):]
    if kind == 2:
        return text[:at]
    lines = text.split(b'\n')
    place = rng.randrange(len(lines))
    if kind == 3:
        return b'\n'.join(lines[:place] + lines[place + 1:])
    if kind == 4:
        return b'\n'.join(lines[:place + 1] + lines[place:])
    words = lines[place].split(b' ')
    words[rng.randrange(len(words))] = rng.choice((b'0', b'1', b'-1', b'00', b'01', b'', b'61', b'-0', b'end', b'2147483648', b'%'))
    return b'\n'.join(lines[:place] + [b' '.join(words)] + lines[place + 1:])


def spoil_all(rng, comparison, count):
    """Half the spoiled texts are formulas, and half proofs of formulas that a solver refutes."""
    programs = comparison.programs
    proved = []
    for number in range(count // 2):
        variables, clauses = formulas.a_plain_formula(rng)
        text = loose_text(rng, variables, clauses) if number % 2 else plain_text(variables, clauses)
        comparison.spoiled_text(rng, text)
        plain = plain_text(variables, clauses)
        if len(proved) < 100 and programs.sat(plain)[0] == 2:
            proved.append(((variables, clauses), plain, programs.read('log')))
    for _ in range(count - count // 2):
        comparison.spoiled_proof(rng, *rng.choice(proved))


def main():
    words = argparse.ArgumentParser(description=__doc__, formatter_class=argparse.RawDescriptionHelpFormatter)
    words.add_argument('program')
    words.add_argument('seed', type=int, nargs='?', default=1)
    words.add_argument('count', type=int, nargs='?', default=2000)
    words.add_argument('--spoiled', type=int, default=5000)
    words.add_argument('--certificates', nargs='*', default=[])
    given = words.parse_args()
    rng = random.Random(given.seed)
    with tempfile.TemporaryDirectory() as folder:
        comparison = Comparison(Programs(given.program, folder))
        for _ in range(given.count):
            comparison.formula(rng, a_formula(rng))
        for formula in structured(rng, given.certificates):
            comparison.formula(rng, formula)
        spoil_all(rng, comparison, given.spoiled)
    for kind, count in sorted(comparison.counts.items()):
        print('%7d  %s' % (count, kind))
    print('%d differences' % comparison.differing)
    return 1 if comparison.differing else 0


if __name__ == '__main__':
    sys.exit(main())
