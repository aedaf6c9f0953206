#!/usr/bin/env python3
"""Times the formula of a large graph, the checker on a long log over it, the plain solver on it and beside `minisat`.

    python3 bench/solver_speed.py [GATES] [STEPS]

Run it at the top of the repository, with `rt` on the path. GATES is 1,000,000 and STEPS 200,000 unless they are
given. The program is proved and built by `rt run` in a copy of the crates; nothing is left behind. A step of the log
says of a gate that it implies the tenth before it, with ten hints; its time has the making of the step too. The
formulas for the solver are made here once more, by the same generator, and written as DIMACS for `minisat`, where
that is installed. Its time is that of the process, with reading the file; the solver's is that of the call alone.
"""
import os
import shutil
import subprocess
import sys
import tempfile
import time

from built import Built

MASK = 0xFFFFFFFF


def random_formula(variables, draws, seed):
    """Clauses of three different variables each, of so many draws those that have three."""
    clauses, state = [], seed
    for _ in range(draws):
        lits = []
        for _ in range(3):
            state = (state * 1664525 + 1013904223) & MASK
            var = (state >> 8) % variables + 1
            lits.append(var if state >= 0x80000000 else -var)
        if len({abs(lit) for lit in lits}) == 3:
            clauses.append(lits)
    return variables, clauses


def implications(variables):
    """Variable 1, and that each variable implies the next."""
    return variables, [[1]] + [[-v, v + 1] for v in range(1, variables)]


def dimacs(formula):
    variables, clauses = formula
    lines = ['p cnf %d %d' % (variables, len(clauses))]
    return '\n'.join(lines + [' '.join(map(str, clause)) + ' 0' for clause in clauses]) + '\n'


def minisat_time(formula):
    """Microseconds, and whether it found values; none where minisat isn't installed."""
    if shutil.which('minisat') is None:
        return None
    with tempfile.NamedTemporaryFile('w', suffix='.cnf') as out:
        out.write(dimacs(formula))
        out.flush()
        before = time.time()
        done = subprocess.run(['minisat', '-verb=0', out.name], stdout=subprocess.DEVNULL, stderr=subprocess.DEVNULL)
        return (time.time() - before) * 1e6, done.returncode == 10


def compared(built, name, formula, numbers):
    times, _ = built.run(*numbers)
    microseconds, (answer, steps) = int(times['solve'][0]), times['answer']
    line = '%s, %d clauses: %s after %s steps, %.2f ms' % (name, len(formula[1]), answer, steps, microseconds / 1000)
    other = minisat_time(formula)
    if other is not None:
        line += '; minisat %.1f ms, ratio %.2f' % (other[0] / 1000, microseconds / other[0])
        if other[1] != (answer == 'holds'):
            line += '; THE ANSWERS DIFFER'
    print(line, flush=True)


def main():
    gates = int(sys.argv[1].replace(',', '')) if len(sys.argv) > 1 else 1_000_000
    steps = int(sys.argv[2].replace(',', '')) if len(sys.argv) > 2 else 200_000
    print('load %s' % os.getloadavg()[0])
    with tempfile.TemporaryDirectory() as work:
        built = Built(work)
        times, most = built.run(0, gates)
        print('graph of %s gates: %.2f s, at most %d MB' % (format(gates, ','), int(times['graph'][0]) / 1e6, most))
        times, most = built.run(1, gates)
        print('its formula: %.2f s, with the graph at most %d MB' % (int(times['formula'][0]) / 1e6, most))
        for count in (steps // 10, steps):
            times, most = built.run(2, gates, count)
            print('log of %s steps with ten hints each: %.2f s, %s of them good, at most %d MB in all' % (format(count, ','), int(times['log'][0]) / 1e6, times['good'][0], most))
        times, most = built.run(5, gates)
        print('the plain solver on the formula, with the graph: %.2f s, answer %s, at most %d MB in all' % (int(times['solve'][0]) / 1e6, times['answer'][0], most))
        for variables in (50, 75, 100):
            for seed in (1, 2):
                draws = round(4.3 * variables / ((1 - 1 / variables) * (1 - 2 / variables)))
                compared(built, 'random, %d variables' % variables, random_formula(variables, draws, seed), (3, variables, draws, seed))
        for variables in (10_000, 1_000_000):
            compared(built, 'chain of %s variables' % format(variables, ','), implications(variables), (4, variables))
    print('load %s' % os.getloadavg()[0])


main()
