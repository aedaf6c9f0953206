#!/usr/bin/env python3
"""Times reading and writing certificates of growing length, beside `cadical`'s reading of the same clauses as DIMACS text.

    python3 bench/cert_speed.py [LINES] [BYTES]

Run it at the top of the repository, with `rt` on the path. The program is proved and built by `rt run` in a copy of the
crates; nothing is left behind. LINES is 3,000,000 clause lines unless it is given: two thirds of them a formula of three
literals each over as many variables as it has clauses, one third a log, each step with two literals and three hints.
Memory is the most that a process had, without the text that it reads where `less the text` is said. `cadical`'s seconds
are of a process that stops before its first conflict; it is left out where it isn't installed. Then wrong texts of BYTES
bytes, 100,000,000 unless they are given: one line, blanks, and lines `f 1 0` that have no end.
"""
import os
import random
import shutil
import subprocess
import sys
import tempfile
import time

from built import Built


def literal_lists(rng, count, width, variables):
    """The literals of so many clauses, none with a variable twice."""
    for _ in range(count):
        some = rng.sample(range(1, variables + 1), width)
        yield ' '.join(str(it if rng.random() < 0.5 else -it) for it in some)


def write_texts(folder, lines):
    """Writes a certificate of so many clause lines, and its clauses as DIMACS text; the names of the two files."""
    rng, names = random.Random(1), (os.path.join(folder, 'cert.txt'), os.path.join(folder, 'clauses.cnf'))
    known = lines * 2 // 3
    with open(names[0], 'w') as cert, open(names[1], 'w') as dimacs:
        cert.write('mpycert 1\nclaim none\nsession first\nvars %d\n' % known)
        dimacs.write('p cnf %d %d\n' % (known, lines))
        for lits in literal_lists(rng, known, 3, known):
            cert.write('f %s 0\n' % lits)
            dimacs.write('%s 0\n' % lits)
        for step, lits in enumerate(literal_lists(rng, lines - known, 2, known)):
            hints = ' '.join(str(rng.randrange(1, known + step + 1)) for _ in range(3))
            cert.write('l %s 0 %s 0\n' % (lits, hints))
            dimacs.write('%s 0\n' % lits)
        cert.write('end\n')
    return names


def cadical_seconds(name):
    """The seconds of a process that reads the clauses, or none where there is no `cadical`."""
    if shutil.which('cadical') is None:
        return None
    before = time.perf_counter()
    subprocess.run(['cadical', '-q', '-c', '0', '--lucky=0', name], stdout=subprocess.DEVNULL)
    return time.perf_counter() - before


def timed(built, folder, lines):
    cert, dimacs = write_texts(folder, lines)
    size = os.path.getsize(cert)
    _, loaded = built.run(cert, 'load')
    reading, read_most = built.run(cert, 'read')
    writing, write_most = built.run(cert, 'write')
    if writing.get('same') != ['true']:
        sys.exit('the text was not written as it was')
    read, write = int(reading['read'][0]) / 1e6, int(writing['write'][0]) / 1e6
    line = '%10s lines, %6.1f MB: read %.2f s, written %.2f s; less the text %d MB to read, %d MB with the text that is written' % (
        format(lines, ','), size / 1e6, read, write, read_most - loaded, write_most - loaded)
    other = cadical_seconds(dimacs)
    if other is not None:
        line += '; cadical %.2f s, ratio %.2f' % (other, other / read)
    print(line, flush=True)


def refused(built, folder, what, pieces):
    name = os.path.join(folder, 'wrong.txt')
    with open(name, 'w') as out:
        for piece in pieces:
            out.write(piece)
    _, loaded = built.run(name, 'load')
    told, most = built.run(name, 'read')
    print('%-24s %6.1f MB: refused at line %s after %.2f s, less the text %d MB' % (
        what, os.path.getsize(name) / 1e6, told['refused'][0], int(told['read'][0]) / 1e6, most - loaded), flush=True)


def main():
    lines = int(sys.argv[1].replace(',', '')) if len(sys.argv) > 1 else 3_000_000
    size = int(sys.argv[2].replace(',', '')) if len(sys.argv) > 2 else 100_000_000
    print('load %s' % os.getloadavg()[0])
    front = 'mpycert 1\nclaim none\nsession first\nvars 1\n'
    with tempfile.TemporaryDirectory() as folder:
        built = Built(folder, 'certs', ['cert_text'])
        for count in (lines // 4, lines // 2, lines):
            timed(built, folder, count)
        refused(built, folder, 'one line', ('x' * 1_000_000 for _ in range(size // 1_000_000)))
        refused(built, folder, 'blanks', (' ' * 1_000_000 for _ in range(size // 1_000_000)))
        refused(built, folder, 'one clause of one line', [front + 'f'] + [' 1' * 500_000] * (size // 1_000_000))
        refused(built, folder, 'lines `f 1 0`', [front] + ['f 1 0\n' * 100_000] * (size // 600_000))
    print('load %s' % os.getloadavg()[0])


main()
