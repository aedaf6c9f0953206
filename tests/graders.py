"""The grader as a built program, or run unproved, and its answers to requests; nothing by itself.

Both have `answers`, which takes requests, each the four sources and a budget, and gives the answers in their order.
"""
import collections
import os
import subprocess
import tempfile

from certificates_try import Harness
from request import SOURCES

CERT = 'cert.txt'
SECONDS = 600
# A run that is unproved may write 2^20 bytes. So it gets so many requests at once, of whose stored texts it prints no more than SHORT
# bytes each; what is longer is printed by runs of its own, LONG bytes in each.
BATCH = 20
SHORT = 45000
LONG = 1000000

# The exit status, what was written, and the stored text, or None where nothing is stored. The status is None where a run that is
# unproved stopped before its end.
Answer = collections.namedtuple('Answer', 'status output cert')


class Built:
    """A built program. Each request is one process of it, in a folder of its own."""

    def __init__(self, path):
        self.path = os.path.realpath(path)

    def answers(self, requests):
        return (self.grade(*request) for request in requests)

    def grade(self, sources, budget):
        with tempfile.TemporaryDirectory() as folder:
            for name, text in zip(SOURCES, sources):
                with open(os.path.join(folder, name), 'wb') as file:
                    file.write(text)
            words = [self.path, 'grade'] + list(SOURCES) + [CERT, str(budget)]
            ran = subprocess.run(words, cwd=folder, capture_output=True, timeout=SECONDS)
            return Answer(ran.returncode, ran.stdout + ran.stderr, stored(os.path.join(folder, CERT)))


def stored(path):
    """The bytes of a file, or None where there is none."""
    if not os.path.exists(path):
        return None
    with open(path, 'rb') as file:
        return file.read()


class Unproved:
    """The sources of the grader over files in memory: one build for all requests, and one more where stored texts are long."""

    def __init__(self, folder):
        self.harness = Harness(folder)

    def answers(self, requests):
        found = self.runs([(request, 0, SHORT) for request in requests], BATCH)
        rest = [(place, first) for place, run in enumerate(found) if run for first in range(SHORT, run.length, LONG)]
        more = collections.defaultdict(bytes)
        for (place, _), run in zip(rest, self.runs([(requests[place], first, LONG) for place, first in rest], 1)):
            more[place] += run.part
        for place, run in enumerate(found):
            yield run.answer(more[place]) if run else Answer(None, b'', None)

    def runs(self, asked, size):
        """The runs of these requests, so many at once, each with the part of its stored text that is to be printed; None for those
        that didn't come to their end."""
        if not asked:
            return []
        lines = [line_of(*it) for it in asked]
        batches = [lines[first:first + size] for first in range(0, len(lines), size)]
        found = []
        for batch, printed in zip(batches, self.harness.printed_for_each([''.join(batch) for batch in batches])):
            told = [Run(line[1:]) for line in printed if line.startswith('=')]
            found += told + [None] * (len(batch) - len(told))
        return found


def line_of(request, first, most):
    """The line by which the program is asked."""
    sources, budget = request
    return '\t'.join([str(budget), str(first), str(most)] + [text.hex() for text in sources]) + '\n'


class Run:
    """A run that is unproved, by its line: how it ended, and a part of what it stored."""

    def __init__(self, line):
        words, part = line.split('|', 1)
        status, output, length = words.split(' ')
        self.status, self.output = int(status), bytes.fromhex(output)
        self.is_stored, self.length = length != 'none', 0 if length == 'none' else int(length)
        self.part = part[:-1].replace('\t', '\n').encode('latin-1')

    def answer(self, rest):
        return Answer(self.status, self.output, self.part + rest if self.is_stored else None)

