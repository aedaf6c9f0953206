#!/usr/bin/env python3
"""Tries `check` with certificates that are meant to deceive or to exhaust it.

    tests/hostile_certificates.py [--program PROGRAM] [--large] [--only WORDS]

Run it at the top of the repository. PROGRAM is crates/grader_cli/out/grader_cli unless it is given. The trials stand in
`hostile_trials.py`, made by hand or from certificates that the program stores, and in `hostile_texts.py`, which has long ones;
`--large` adds those of up to a gigabyte and a byte, which are written to a temporary file. `--only` takes the trials whose name
has WORDS. Each has the status and the output that are wanted, and bounds on the processor time and the greatest memory of its
run; no run gets more than four gigabytes of addresses. Told are a count, the longest run, the greatest memory, and each
difference; the exit status is 1 where there is one.
"""
import argparse
import itertools
import os
import resource
import subprocess
import sys
import tempfile
import time

import cert_reader
from hostile_texts import large_trials, long_trials
from hostile_trials import ADDRESSES, Stored, stored_trials
from request import SOURCES

PROGRAM = 'crates/grader_cli/out/grader_cli'
CERT = 'cert.txt'
# Told are the figures of each trial that may take longer than this.
TOLD = 20
# A run is stopped where it isn't through after so many times the processor time that it may take.
PATIENCE = 10
BUDGET = 200000
BUDGETS = (5, 10, 20, 40, 80, 160, 320, 640)


class Desk:
    """A folder in which the program is run."""

    def __init__(self, program, folder):
        self.program, self.folder = os.path.realpath(program), folder
        self.cert = os.path.join(folder, CERT)

    def put(self, name, pieces):
        with open(os.path.join(self.folder, name), 'wb') as file:
            file.writelines([pieces] if isinstance(pieces, bytes) else pieces)

    def run(self, words, sources, seconds, addresses=ADDRESSES):
        """The status and the output, None where it was stopped, the seconds of a processor, and the greatest memory in
        megabytes."""
        for name, text in zip(SOURCES, sources):
            self.put(name, text)
        def limited():
            resource.setrlimit(resource.RLIMIT_AS, (addresses << 20, addresses << 20))

        with open(os.path.join(self.folder, 'out.txt'), 'w+b') as out:
            running = subprocess.Popen([self.program] + words, cwd=self.folder, stdout=out, stderr=out, preexec_fn=limited)
            status, used = self.ended(running, time.monotonic() + PATIENCE * seconds)
            out.seek(0)
            text = out.read().decode('latin-1')
        return status, None if status is None else text, used.ru_utime + used.ru_stime, used.ru_maxrss // 1024

    def ended(self, running, until):
        """The status of a run, None where it had to be stopped, and what it used."""
        was_stopped = False
        while True:
            found, status, used = os.wait4(running.pid, os.WNOHANG)
            if found:
                running.returncode = os.waitstatus_to_exitcode(status)
                return None if was_stopped else running.returncode, used
            if time.monotonic() > until and not was_stopped:
                running.kill()
                was_stopped = True
            time.sleep(0.002)

    def grade(self, sources, budget):
        self.run(['grade', *SOURCES, CERT, str(budget)], sources, 60)
        with open(self.cert, 'rb') as file:
            return file.read()

    def check(self, sources, seconds, addresses=ADDRESSES):
        return self.run(['check', *SOURCES, CERT], sources, seconds, addresses)

    def stored(self, sources):
        """The certificate that is stored for a task."""
        text = self.grade(sources, BUDGET)
        return Stored(sources, text, self.check(sources, 60)[:2])

    def failing(self, sources):
        """Of a task the sources, a session that found its selection to fail, the cost of that, and the cases."""
        for budget in BUDGETS:
            _, _, cases, sessions = cert_reader.read(self.grade(sources, budget))
            for before, session in zip(sessions[:-1], sessions[1:-1]):
                if session[0][0] == 'fail':
                    return sources, session, before[0][1], cases
        return sys.exit('no session finds that a selection fails')


def faults(trial, found):
    """What is wrong with a run."""
    status, text, seconds, megabytes = found
    if status is None:
        yield 'it was stopped'
    elif (status, text) not in trial.allowed:
        yield 'wanted %s, said %r' % (', or '.join('%d %r' % it for it in trial.allowed), (status, text[:300]))
    if seconds > trial.seconds:
        yield '%.1f seconds' % seconds
    if megabytes > trial.megabytes:
        yield '%d megabytes' % megabytes


def tried(desk, trials):
    """Runs the trials; how many there were, how many differ, and the most that was used."""
    count, differing, longest, greatest = 0, 0, (0, ''), (0, '')
    for trial in trials:
        desk.put(CERT, trial.pieces)
        found = desk.check(trial.sources, trial.seconds, trial.addresses)
        os.remove(desk.cert)
        wrong = list(faults(trial, found))
        count, differing = count + 1, differing + bool(wrong)
        longest, greatest = max(longest, (found[2], trial.name)), max(greatest, (found[3], trial.name))
        for fault in wrong:
            print('%s: %s' % (trial.name, fault), flush=True)
        if trial.seconds > TOLD:
            print('%s: %.1f seconds, %d megabytes' % (trial.name, found[2], found[3]), flush=True)
    return count, differing, longest, greatest


def main():
    words = argparse.ArgumentParser(description=__doc__, formatter_class=argparse.RawDescriptionHelpFormatter)
    words.add_argument('--program', default=PROGRAM)
    words.add_argument('--large', action='store_true')
    words.add_argument('--only', default='')
    given = words.parse_args()
    with tempfile.TemporaryDirectory() as folder:
        desk = Desk(given.program, folder)
        trials = itertools.chain(stored_trials(desk), long_trials(), large_trials() if given.large else ())
        count, differing, longest, greatest = tried(desk, (trial for trial in trials if given.only in trial.name))
    print('longest: %.2f seconds, %s' % longest)
    print('greatest: %d megabytes, %s' % greatest)
    print('%d trials, %d differences' % (count, differing))
    return 1 if differing else 0


if __name__ == '__main__':
    sys.exit(main())
