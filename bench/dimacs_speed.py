#!/usr/bin/env python3
"""Times reading a long formula beside minisat and cadical, and judging proofs beside drat-trim, by whole processes.

    bench/dimacs_speed.py [PROGRAM] [--megabytes N] [--clause N]

PROGRAM is crates/grader_cli/out/grader_cli unless it is given. `minisat` and `cadical`, and `drat-trim` where there is one, are on the
path. A text of N megabytes (64) has random clauses of three literals over 100,000 variables, some of 20 literals where there would be
too many. `unsat` reads it and rejects a proof without steps; cadical reads it and decides nothing; minisat tells the seconds of its own
reading. Then each of some formulas without values is solved by `sat`, and its proof is judged by `unsat`, and by drat-trim without its
hints. Then one clause of so many literals (500,000) is read by `unsat` and solved by `sat`, with the memory of the process: with each
variable once, and twice in three orders. Times are those of the processor, each the least of RUNS runs.
"""
import argparse
import multiprocessing
import os
import random
import re
import resource
import shutil
import subprocess
import sys
import tempfile

sys.path.insert(0, os.path.join(os.path.dirname(os.path.realpath(__file__)), '../tests'))
from dimacs import parity, pigeonholes, plain_text  # noqa: E402

RUNS = 3
MEGABYTE = 2 ** 20
VARIABLES = 100000


class Run:
    """A process: its seconds of the processor, its memory in megabytes, and what it wrote."""

    def __init__(self, words, folder):
        with tempfile.TemporaryFile() as out:
            child = subprocess.Popen(words, cwd=folder, stdout=out, stderr=subprocess.DEVNULL)
            _, self.status, used = os.wait4(child.pid, 0)
            out.seek(0)
            self.output = out.read().decode()
        self.seconds, self.megabytes = used.ru_utime + used.ru_stime, used.ru_maxrss / 1024


def least(words, folder):
    return min((Run(words, folder) for _ in range(RUNS)), key=lambda run: run.seconds)


def a_long_text(rng, megabytes):
    """Clauses of three literals, and of twenty where those would be more than the form has."""
    wide = 20 if megabytes > 40 else 3
    lines, size = [], 0
    while size < megabytes * MEGABYTE - 200:
        width = wide if rng.random() < 0.3 else 3
        line = ' '.join(str(rng.choice((v, -v))) for v in rng.sample(range(1, VARIABLES + 1), width)) + ' 0\n'
        lines.append(line)
        size += len(line)
    return 'p cnf %d %d\n' % (VARIABLES, len(lines)) + ''.join(lines)


def write_long_text(path, megabytes):
    with open(path, 'w') as out:
        out.write(a_long_text(random.Random(1), megabytes))


def reading(program, folder, megabytes):
    path = os.path.join(folder, 'long.cnf')
    # In a process of its own: the most that this one held would count as memory of each that it starts.
    writer = multiprocessing.Process(target=write_long_text, args=(path, megabytes))
    writer.start()
    writer.join()
    size = os.path.getsize(path) / MEGABYTE
    with open(os.path.join(folder, 'none'), 'w') as out:
        out.write('end\n')
    ours = least([program, 'unsat', 'long.cnf', 'none'], folder)
    print('%.1f MB: unsat %.2f s, %.0f MB of memory; it says %r' % (size, ours.seconds, ours.megabytes, ours.output))
    if shutil.which('minisat'):
        told = Run(['minisat', '-cpu-lim=1', 'long.cnf'], folder).output
        parsed = re.search(r'Parse time: *([0-9.]+)', told)
        print('minisat parses in %s s' % (parsed[1] if parsed else 'an untold time'))
    if shutil.which('cadical'):
        other = least(['cadical', '-q', '-n', '-c', '0', '-d', '0', 'long.cnf'], folder)
        print('cadical reads it, and decides nothing, in %.2f s, %.0f MB of memory' % (other.seconds, other.megabytes))


def drup(log):
    """The clauses of a log without their hints."""
    return ''.join(line[2:line.index(' 0') + 2].strip() + '\n' for line in log.splitlines() if line.startswith('l '))


def judging(program, folder, name, formula):
    with open(os.path.join(folder, 'c.cnf'), 'wb') as out:
        out.write(plain_text(*formula))
    solved = Run([program, 'sat', 'c.cnf', 'log', '200000'], folder)
    size = os.path.getsize(os.path.join(folder, 'log')) / MEGABYTE
    ours = least([program, 'unsat', 'c.cnf', 'log'], folder)
    print('%s: sat %.2f s, %r, a proof of %.2f MB; unsat %.2f s, %r' %
          (name, solved.seconds, solved.output, size, ours.seconds, ours.output))
    if shutil.which('drat-trim'):
        with open(os.path.join(folder, 'log')) as given, open(os.path.join(folder, 'drup'), 'w') as out:
            out.write(drup(given.read()))
        other = least(['drat-trim', 'c.cnf', 'drup'], folder)
        print('%s: drat-trim %.2f s' % (name, other.seconds))


# Clauses of so many literals.
ORDERS = {
    'each once': lambda count: list(range(1, count + 1)),
    'each twice, together': lambda count: [1 + place // 2 for place in range(count)],
    'each twice, rising and again': lambda count: [1 + place % (count // 2) for place in range(count)],
    'each twice, rising and falling': lambda count: [min(place, count - 1 - place) + 1 for place in range(count)],
}


def write_clause(path, count, order):
    with open(path, 'wb') as out:
        out.write(plain_text(count, [ORDERS[order](count)]))


def long_clause(program, folder, count):
    path = os.path.join(folder, 'wide.cnf')
    for order in ORDERS:
        # In a process of its own, as above.
        writer = multiprocessing.Process(target=write_clause, args=(path, count, order))
        writer.start()
        writer.join()
        for words in (['unsat', 'wide.cnf', 'none'], ['sat', 'wide.cnf', 'log', '1']):
            run = Run([program] + words, folder)
            print('a clause of %d literals, %s, %.1f MB: %s %.2f s, %.1f MB of memory, %r' % (
                count, order, os.path.getsize(path) / MEGABYTE, words[0], run.seconds, run.megabytes, run.output[:20]))


def main():
    words = argparse.ArgumentParser(description=__doc__, formatter_class=argparse.RawDescriptionHelpFormatter)
    words.add_argument('program', nargs='?', default='crates/grader_cli/out/grader_cli')
    words.add_argument('--megabytes', type=float, default=63.9)
    words.add_argument('--clause', type=int, default=500000)
    given = words.parse_args()
    program = os.path.abspath(given.program)
    resource.setrlimit(resource.RLIMIT_STACK, (resource.RLIM_INFINITY, resource.RLIM_INFINITY))
    with tempfile.TemporaryDirectory() as folder:
        reading(program, folder, given.megabytes)
        rng = random.Random(2)
        for name, formula in [('7 pigeons', pigeonholes(6, 1)), ('8 pigeons', pigeonholes(7, 1)),
                              ('parity of 11', parity(rng, 11, True)), ('parity of 13', parity(rng, 13, True))]:
            judging(program, folder, name, formula)
        long_clause(program, folder, given.clause)


if __name__ == '__main__':
    main()
