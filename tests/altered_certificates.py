#!/usr/bin/env python3
"""Compares what `check` says of altered certificates with a judge written apart from it.

    MODEL=PATH tests/altered_certificates.py SEED COUNT [--first TASK] [--program PROGRAM] [--keep FOLDER]

Run it at the top of the repository. MODEL is the path of the plain model's command line; its modules lie beside it. PROGRAM is
crates/grader_cli/out/grader_cli unless it is given. Tasks are taken one after the other, random ones with rules and submissions
of the examples, each made from the seed and its own number. Each is graded with the whole budget and with small ones; the
certificates that are stored are checked as they are, and then with one change each, some changes for a task, until COUNT were
checked. `--first TASK` begins at a task, to repeat one. FOLDER gets the sources and the certificate of each difference.

The change is of what the certificate says (the claim, the selection, the cases, the sessions, their questions, formulas and
logs) or of its text: words, lines, bytes. Status and output must be allowed by `certificate_judge.py`, which says where more
than one verdict is, and why. Printed are the counts by change and by verdict, how many certificates were judged exactly and how
many loosely, and each difference; the exit status is 1 where there is one.
"""
import argparse
import collections
import functools
import os
import random
import re
import subprocess
import sys
import tempfile

import cert_reader
import rule_requests
from certificate_changes import Changes
from certificate_judge import CertificateJudge
from certificates import BUDGET, PROGRAM, STAGE, examples
from graders import CERT, stored
from programs import Model, some_sources
from request import SOURCES
from task_questions import Judge

# Changes for a task whose submission is mended, and for another one; the small budgets by which it is graded too, and the
# longest certificate that is changed.
MENDED, CHANGES = 50, 6
SMALL = (1, 3, 8, 20, 60)
LONGEST = 10000
# One task in so many is of an example.
EXAMPLES = 3
# What a shell does with the program, in which no run takes more than these seconds of a processor: it grades with each budget
# that is given, as long as certificates are stored, and checks the certificates by their numbers.
WORDS = ' '.join(SOURCES)
GRADE = 'ulimit -t 3; for b in "$@"; do "$0" grade %s $b.stored $b > said; [ -e $b.stored ] || exit 0; done' % WORDS
ONE_CHECK = '"$0" check %s $n.cert > $n.out 2>&1; echo $? > $n.status; n=$((n + 1))' % WORDS
CHECK = 'ulimit -t 20; n=0; while [ -e $n.cert ]; do %s; done' % ONE_CHECK


class Desk:
    """A folder with the sources of a task, in which the program is run, many times by one shell."""

    def __init__(self, program, folder, sources):
        self.program, self.folder = os.path.realpath(program), folder
        for name, text in zip(SOURCES, sources):
            self.put(name, text)

    def put(self, name, text):
        with open(os.path.join(self.folder, name), 'wb') as file:
            file.write(text)

    def get(self, name):
        return stored(os.path.join(self.folder, name))

    def shell(self, script, *words):
        subprocess.run(['sh', '-c', script, self.program, *words], cwd=self.folder, stderr=subprocess.DEVNULL, check=True)

    def grade(self, budgets):
        """The certificates that are stored for these budgets, up to the first for which none is or one that is long."""
        self.shell(GRADE, *map(str, budgets))
        for budget in budgets:
            text = self.get('%d.stored' % budget)
            if text is None or len(text) > LONGEST:
                return
            yield text

    def check(self, texts):
        """The status and the output for each text."""
        for number, text in enumerate(texts):
            self.put('%d.cert' % number, text)
        self.shell(CHECK)
        return [(int(self.get('%d.status' % number)), self.get('%d.out' % number)) for number in range(len(texts))]


class Task:
    """The sources of a task, and what is stored for them: each text, and what is read from it."""

    def __init__(self, number, program, sources):
        self.number, self.sources, self.certificates = number, sources, []
        with tempfile.TemporaryDirectory() as folder:
            for text in Desk(program, folder, sources).grade((BUDGET,) + SMALL):
                self.add(text)

    def add(self, text):
        read = cert_reader.read(text)
        if isinstance(read, int):
            sys.exit('task %d: line %d of the stored certificate' % (self.number, read))
        if text not in [known for known, _ in self.certificates]:
            self.certificates.append((text, read))

    def changes(self):
        """How many changes are made."""
        kind, cost = self.certificates[0][1][0]
        return MENDED if kind == 'cost' and cost else CHANGES

    def sessions(self):
        return [session for _, read in self.certificates for session in read[3]]


def random_sources(rng):
    if rng.randrange(EXAMPLES) == 0:
        return rng.choice(all_examples())[1]
    if rng.random() < 0.75:
        request = rule_requests.of_a_course(rng)
        return [request.files[name] for name in request.words[1:5]]
    return some_sources(rng)


@functools.cache
def all_examples():
    return list(examples())


class Comparison:
    """The tasks and their changes, and the counts of all that was compared."""

    def __init__(self, model, given):
        self.model, self.given = model, given
        self.counts, self.changes, self.differing, self.checked = collections.Counter(), collections.Counter(), 0, 0

    @functools.lru_cache(2)
    def task(self, number):
        rng = random.Random('altered/%d/%d/task' % (self.given.seed, number))
        return Task(number, self.given.program, random_sources(rng))

    def compare(self, number):
        """Compares the changes of a task's certificates."""
        task = self.task(number)
        if not task.certificates:
            self.counts['tasks without a certificate, or with one that is long or takes long'] += 1
            return
        judge = Judge(self.model, self.model.grade.read_task(task.sources, STAGE))
        known = CertificateJudge(judge)
        for _, read in task.certificates:
            if not known.learn(read):
                self.differ(task, 'no change', b'', ['one formula for a question'], (None, b''))
        self.counts['tasks'] += 1
        rng = random.Random('altered/%d/%d' % (self.given.seed, number))
        changes = Changes(rng, judge, task.certificates, self.task(number + 1).sessions())
        count = min(task.changes(), self.given.count - self.checked)
        made = [('no change', text) for text, _ in task.certificates] + [changes.one() for _ in range(count)]
        with tempfile.TemporaryDirectory() as folder:
            found = Desk(self.given.program, folder, task.sources).check([text for _, text in made])
        for (kind, text), said in zip(made, found):
            self.judge(task, known, kind, text, said)
        self.checked += count

    def judge(self, task, known, kind, text, said):
        """Compares the verdict on a text with those that are allowed."""
        allowed = known.verdicts(text)
        exact = len(allowed) == 1 and allowed[0].is_exact
        line = said[1].decode('latin-1').split('\n', 2)
        anew = line[1:2] and line[1].startswith('asked anew')
        verdict = re.sub(r'[0-9]+', 'N', line[0] + (', ' + line[1] if anew else ''))
        if kind == 'no change':
            self.counts['unchanged: ' + verdict] += 1
        else:
            self.counts[('exactly: ' if exact else 'loosely: ') + verdict] += 1
            self.changes[kind] += 1
        if not any(it.allows(*said) for it in allowed):
            self.differ(task, kind, text, allowed, said)

    def differ(self, task, kind, text, allowed, said):
        self.differing += 1
        if self.differing <= 20:
            wanted = ', or '.join(map(str, allowed))
            print('task %d, %s: wanted %s, said %r' % (task.number, kind, wanted, said), flush=True)
        if self.given.keep:
            folder = os.path.join(self.given.keep, '%d-%d' % (task.number, self.differing))
            os.makedirs(folder)
            Desk(self.given.program, folder, task.sources).put(CERT, text)


def main():
    words = argparse.ArgumentParser(description=__doc__, formatter_class=argparse.RawDescriptionHelpFormatter)
    words.add_argument('seed', type=int)
    words.add_argument('count', type=int)
    words.add_argument('--first', type=int, default=0)
    words.add_argument('--program', default=PROGRAM)
    words.add_argument('--keep')
    given = words.parse_args()
    if not os.environ.get('MODEL'):
        words.error('MODEL is not set')
    comparison = Comparison(Model(os.environ['MODEL'], STAGE), given)
    number = given.first
    while comparison.checked < given.count:
        comparison.compare(number)
        number += 1
        if number % 50 == 0:
            print('%d checked, of %d tasks' % (comparison.checked, number - given.first), file=sys.stderr)
    for kind, count in sorted(comparison.changes.items()) + sorted(comparison.counts.items()):
        print('%7d  %s' % (count, kind))
    loosely = sum(count for kind, count in comparison.counts.items() if kind.startswith('loosely'))
    print('%d altered certificates, %d of them judged loosely, %d differences' % (given.count, loosely, comparison.differing))
    return 1 if comparison.differing else 0


if __name__ == '__main__':
    sys.exit(main())
