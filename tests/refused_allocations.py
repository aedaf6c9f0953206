#!/usr/bin/env python3
"""Refuses each allocation of a few requests in turn, by the built grader.

    tests/refused_allocations.py [PROGRAM] [STEP]

PROGRAM is crates/grader_cli/out/grader_cli unless it is given. It needs a C compiler, `cc`, for a library that stands
between the program and the C library's allocation. Of a request every allocation is refused, and with STEP every STEPth.
Where one is refused the program may answer as it does with all of them, or end with status 7; then what it wrote is a
front of the text that was due, the sources are as before, and `cert.txt` is as before or, behind a grading, has
what is stored with all of them. The exit status is 1 where anything else happened.
"""
import collections
import os
import subprocess
import sys
import tempfile

NO_MEMORY = 7
SECONDS = 60

LIBRARY = r'''
#include <errno.h>
#include <stddef.h>
#include <stdio.h>
#include <stdlib.h>

extern void *__libc_malloc(size_t);
extern void *__libc_realloc(void *, size_t);
extern void *__libc_calloc(size_t, size_t);
extern void *__libc_memalign(size_t, size_t);

static long number, refused;

__attribute__((constructor)) static void begin(void) {
    const char *word = getenv("REFUSED");
    refused = word ? atol(word) : 0;
}

__attribute__((destructor)) static void end(void) {
    const char *name = getenv("COUNTED");
    FILE *file = name ? fopen(name, "w") : NULL;
    if (file) {
        fprintf(file, "%ld\n", number);
        fclose(file);
    }
}

static int refuses(void) {
    number += 1;
    if (number != refused) return 0;
    errno = ENOMEM;
    return 1;
}

void *malloc(size_t size) { return refuses() ? NULL : __libc_malloc(size); }
void *realloc(void *old, size_t size) { return refuses() ? NULL : __libc_realloc(old, size); }
void *calloc(size_t count, size_t size) { return refuses() ? NULL : __libc_calloc(count, size); }
void *aligned_alloc(size_t align, size_t size) { return refuses() ? NULL : __libc_memalign(align, size); }
int posix_memalign(void **to, size_t align, size_t size) {
    if (refuses()) return ENOMEM;
    *to = __libc_memalign(align, size);
    return *to ? 0 : ENOMEM;
}
'''

DERIVATIVE = '''\
def computeDeriv(poly):
    deriv = []
    for i in range(1, len(poly)):
        deriv.append(i * poly[i])
    if len(deriv) == 0:
        return [0]
    return deriv
'''
BOUNDS = 'width 6\nturns 4\ndepth 1\ncap 4\nentry computeDeriv\nparam poly list %s\n'
START = 'rule start: range($a0, $a1) => range($a0 + 1, $a1)\n    say "start the range one later: {new}"\n'
ZERO = 'rule zero: $a0 == $n => $a0 == 0\n'
EARLY = DERIVATIVE.replace('range(1,', 'range(0,')

# The four sources: of a correction with one replacement, and of one with two on more inputs.
ONE_EDIT = (BOUNDS % '0..2 of 1..1', DERIVATIVE, EARLY, START)
TWO_EDITS = (BOUNDS % '0..3 of -3..3', DERIVATIVE, EARLY.replace('== 0', '== 5'), START + ZERO)

SOURCES = ('b.txt', 'ref.py', 'sub.py', 'rules.eml')
GRADE = ('grade',) + SOURCES + ('cert.txt', '200000')
CHECK = ('check',) + SOURCES + ('cert.txt',)

# What came of a run: its status, what it wrote, and what the files have then.
Ending = collections.namedtuple('Ending', 'status output files')


class Grader:
    """The program with the library between, in a folder of its own."""

    def __init__(self, program, folder):
        self.program = os.path.realpath(program)
        self.folder = folder
        self.library = os.path.join(folder, 'refuse.so')
        self.counted = os.path.join(folder, 'counted')
        source = os.path.join(folder, 'refuse.c')
        with open(source, 'w') as file:
            file.write(LIBRARY)
        subprocess.run(['cc', '-O1', '-fPIC', '-shared', '-fno-builtin', '-o', self.library, source], check=True)

    def ended(self, words, files, refused=0):
        """What comes of a command on these files where the allocation of this number is refused (0: none)."""
        work = os.path.join(self.folder, 'work')
        os.makedirs(work, exist_ok=True)
        for name in os.listdir(work):
            os.remove(os.path.join(work, name))
        for name, text in files.items():
            with open(os.path.join(work, name), 'wb') as file:
                file.write(text)
        env = {'LD_PRELOAD': self.library, 'REFUSED': str(refused), 'COUNTED': self.counted}
        ran = subprocess.run([self.program, *words], cwd=work, env=env, capture_output=True, timeout=SECONDS)
        after = {}
        for name in os.listdir(work):
            with open(os.path.join(work, name), 'rb') as file:
                after[name] = file.read()
        return Ending(ran.returncode, ran.stdout, after)

    def allocations(self):
        """How many allocations the last run asked for."""
        with open(self.counted) as file:
            return int(file.read())


def fault(got, due, files):
    """What is wrong with how a run ended, where one with all allocations ends as is due, or None."""
    if got == due:
        return None
    if got.status != NO_MEMORY:
        return 'status %d' % got.status
    if not due.output.startswith(got.output):
        return 'output %r' % got.output
    for name, text in files.items():
        if name != 'cert.txt' and got.files.get(name) != text:
            return 'the file %s has changed' % name
    if got.files.get('cert.txt') not in (files.get('cert.txt'), due.files.get('cert.txt')):
        return 'cert.txt has %r' % got.files.get('cert.txt')
    return None


def tried(grader, name, words, files, step):
    """Tries a request, prints a line of it, and returns how it ends with all allocations and how many endings are wrong."""
    due = grader.ended(words, files)
    count = grader.allocations()
    refusals = range(1, count + 1, step)
    lacked = wrong = 0
    for number in refusals:
        got = grader.ended(words, files, number)
        lacked += got.status == NO_MEMORY
        found = fault(got, due, files)
        if found:
            wrong += 1
            print('%s, allocation %d: %s' % (name, number, found))
    print('%s: %d allocations, %d refused in turn, %d times status 7, %d wrong' % (name, count, len(refusals), lacked, wrong))
    return due, wrong + (lacked == 0)


def main():
    program = sys.argv[1] if len(sys.argv) > 1 else 'crates/grader_cli/out/grader_cli'
    step = int(sys.argv[2]) if len(sys.argv) > 2 else 1
    wrong = 0
    with tempfile.TemporaryDirectory() as folder:
        grader = Grader(program, folder)
        for name, sources in (('one edit', ONE_EDIT), ('two edits', TWO_EDITS)):
            files = {source: text.encode() for source, text in zip(SOURCES, sources)}
            due, bad = tried(grader, 'grade, ' + name, GRADE, {**files, 'cert.txt': b'old'}, step)
            wrong += bad
            cert = due.files['cert.txt']
            wrong += tried(grader, 'check, ' + name, CHECK, {**files, 'cert.txt': cert}, step)[1]
            if name == 'one edit':
                wrong += tried(grader, 'check, asked anew', CHECK, {**files, 'cert.txt': asked_anew(cert)}, step)[1]
    sys.exit(1 if wrong else 0)


def asked_anew(cert):
    """The certificate with a formula of one empty clause, and a log of it, in its first session."""
    lines = cert.decode().splitlines()
    first = lines.index(next(line for line in lines if line.startswith('f ')))
    end = next(number for number in range(first, len(lines)) if not lines[number].startswith(('f ', 'l ')))
    return '\n'.join(lines[:first] + ['f 0', 'l 0 1 0'] + lines[end:] + ['']).encode()


main()
