#!/usr/bin/env python3
"""Counts what listing all corrections takes beside solving its questions, in instructions, by callgrind.

    bench/list_speed.py [PROGRAM] [--all]

PROGRAM is crates/grader_cli/out/grader_cli unless it is given; `valgrind`, `gdb` and `nm` are on the path. `all` is run, with MOST 100, on
one mended submission of each assignment of the examples within the small bounds, and with `--all` on each of them. Counted are the
instructions within `list_best`, and of these the ones within `solve` of `sat_core`, each with all that it calls: neither what the search before
takes nor the time of the machine has a part in it. For each assignment: the submissions, the questions, those of the search
before among them, the thousands of instructions of both, how many times those of `solve` all of the listing takes, and the greatest such ratio of a submission.

Below stand the milliseconds of the processor of `list_best` on a tree with 1,041 picks at cost 40, where it counts the live selections
and stops, since they are too many: `gdb` stops the program where that call begins and ends, and reads its time from /proc.
"""
import argparse
import os
import re
import subprocess
import sys
import tempfile

sys.path.insert(0, os.path.join(os.path.dirname(os.path.realpath(__file__)), '../examples'))
from gradings import SMALL, assignments, submissions_in, text_of  # noqa: E402

SOURCES = [SMALL, 'reference.py', 'sub.py', 'rules.eml']
CORRECTED = 'status 1\n'
# The functions by their names in the program. Where a compiler made one a part of its caller or calls none but its inner one, the
# other is counted: `list_report` also writes the list, and `search` is all of `solve` but for the form of its answer.
LISTING = 'least_all::walk::list_best', 'list_command::listing::list_report'
SOLVE = 'sat_core::solver::solve', 'sat_core::solver::search'

# Zeros that don't matter, and five numbers that do, for 9, 9, 9, 9 and 4.
PICKS = (
    'width 8\nturns 1\ndepth 1\ncap 1\nentry f\nparam x int 0..0\n',
    'def f(x):\n    return 40\n',
    'def f(x):\n%s    return 2 + 2 + 2 + 2 + 3\n' % ('    z = %s\n' % ' + '.join(['0'] * 28) * 37),
    'rule zero: 0 => 1\nrule nine cost 9: 2 => 9\nrule four cost 4: 3 => 4\n',
)


# What gdb does, from a program's name and the place of a function in it.
STOPS = '''
import gdb
def run_time():
    with open('/proc/%d/schedstat' % gdb.selected_inferior().pid) as told:
        return int(told.read().split()[0])
gdb.execute('set startup-with-shell off')
gdb.execute('starti', to_string=True)
with open('/proc/%d/maps' % gdb.selected_inferior().pid) as maps:
    first = next(line for line in maps if line.rstrip().endswith({program!r}))
gdb.execute('break *%d' % (int(first.split('-')[0], 16) + {place}))
gdb.execute('continue', to_string=True)
began = run_time()
gdb.execute('finish', to_string=True)
print('nanoseconds', run_time() - began)
gdb.execute('kill')
'''


class Profile:
    """The instructions within the listing of one request, those within the calls of `solve` in it, and how many these are."""

    def __init__(self, program, functions, folder):
        out = os.path.join(folder, 'callgrind.out')
        words = ['valgrind', '--tool=callgrind', '--collect-atstart=no', '--toggle-collect=' + functions[0],
                 '--callgrind-out-file=' + out, program, 'all', *SOURCES, '100', '200000']
        ran = subprocess.run(words, cwd=folder, capture_output=True, text=True)
        if not ran.stdout.startswith('cost '):
            sys.exit('not listed: %r' % ran.stdout)
        lines = text_of(out).splitlines()
        self.listing = sum(int(line.split()[1]) for line in lines if re.match(r'(totals|summary): ', line)) // 2
        self.questions, self.solve = calls_of(functions[1], lines)


def calls_of(name, lines):
    """How often a function is called in a profile, and the instructions within these calls. A name stands with its number where it
    comes first; the line behind that of a call has the instructions."""
    numbers = {re.match(r'c?fn=(\(\d+\))', line)[1] for line in lines if re.fullmatch(r'c?fn=\(\d+\) ' + re.escape(name), line)}
    calls = instructions = 0
    for place, line in enumerate(lines):
        if line.startswith('cfn=') and line[4:].split(' ')[0] in numbers:
            calls += int(lines[place + 1].removeprefix('calls=').split()[0])
            instructions += int(lines[place + 2].split()[1])
    return calls, instructions


def functions_in(program):
    """Which two functions are counted."""
    named = {line.split(' ', 2)[-1] for line in subprocess.run(['nm', program], capture_output=True, text=True).stdout.splitlines()}
    found = [next((name for name in names if name in named), None) for names in (LISTING, SOLVE)]
    return found if all(found) else sys.exit('the program has no names of functions')


def profile_of(program, functions, texts):
    """The profile of one request."""
    with tempfile.TemporaryDirectory() as folder:
        put(folder, texts)
        return Profile(program, functions, folder)


def milliseconds_of(program, function, texts):
    """The time of a function in one request."""
    listed = subprocess.run(['nm', program], capture_output=True, text=True, check=True).stdout.splitlines()
    place = next(int(line.split()[0], 16) for line in listed if line.endswith(' ' + function))
    with tempfile.TemporaryDirectory() as folder:
        put(folder, texts)
        with open(os.path.join(folder, 'stops.py'), 'w') as out:
            out.write(STOPS.format(program=os.path.realpath(program), place=place))
        words = ['gdb', '-batch', '-x', 'stops.py', '--args', program, 'all', *SOURCES, '100', '200000']
        told = subprocess.run(words, cwd=folder, capture_output=True, text=True).stdout
        return int(re.search(r'^nanoseconds (\d+)$', told, re.M)[1]) / 1e6


def put(folder, texts):
    for name, text in zip(SOURCES, texts):
        with open(os.path.join(folder, name), 'w') as out:
            out.write(text)


def mended(folder):
    """The submissions of an assignment that are mended within the small bounds, by their stored answers."""
    answers = {name: text_of(os.path.join(folder, name.removesuffix('.py') + '.out')) for name in submissions_in(folder)}
    return [name for name, answer in answers.items() if answer.startswith(CORRECTED)]


def row(name, profiles):
    """A line of the table."""
    listing, solve = (sum(getattr(it, part) for it in profiles) for part in ('listing', 'solve'))
    most = max(it.listing / max(1, it.solve) for it in profiles)
    print('%-14s %4d %6d %12.1f %12.1f %8.2f %8.2f' % (
        name, len(profiles), sum(it.questions for it in profiles), listing / 1000, solve / 1000, listing / max(1, solve), most),
        flush=True)


def main():
    words = argparse.ArgumentParser(description=__doc__, formatter_class=argparse.RawDescriptionHelpFormatter)
    words.add_argument('program', nargs='?', default='crates/grader_cli/out/grader_cli')
    words.add_argument('--all', action='store_true', dest='whole')
    given = words.parse_args()
    program = os.path.abspath(given.program)
    functions = functions_in(program)
    print('counted are %s and %s' % tuple(functions))
    print('%-14s %4s %6s %12s %12s %8s %8s' % ('', 'subs', 'asked', 'listing', 'solve', 'ratio', 'most'))
    found = []
    for name in assignments('examples'):
        folder = os.path.join('examples', name)
        submissions = mended(folder) if given.whole else mended(folder)[:1]
        profiles = []
        for submission in submissions:
            texts = [text_of(os.path.join(folder, it)) for it in (SMALL, 'reference.py', submission, 'rules.eml')]
            profiles.append(profile_of(program, functions, texts))
        row(name, profiles)
        found += profiles
    row('all', found)
    print('1,041 picks at cost 40: %.2f ms' % milliseconds_of(program, functions[0], PICKS))


if __name__ == '__main__':
    sys.exit(main())
