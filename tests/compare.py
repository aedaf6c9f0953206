#!/usr/bin/env python3
"""Compares the grader with a plain model of it on random small requests.

    MODEL=PATH tests/compare.py KIND SEED COUNT [--program PROGRAM] [--try] [--first NUMBER] [--stage STAGE]

KIND is `run` for random programs of every form on random inputs, `grade` for random pairs of such programs, `rules`
for such pairs with rules by which the submission may be mended, `formulas` for formulas that are corrected by rules,
and for words and files with something wrong, `printed` for runs and gradings with what is printed compared, `all` for
such requests with every cheapest correction listed, or `picks` for inputs on which wrong programs fail. MODEL is the
path of the model's command line; its modules lie beside it. Each request is made from the kind, the seed and its own
number, so `--first NUMBER` with COUNT 1 repeats one. The model says of each answer whether it is one of those that are
allowed, since which failing input is shown, and which of several cheapest corrections, is open. Some requests stand at
the edge of a limit, and are also to be answered as their side is made for. Printed are the counts of the answers and
of both sides of each limit, and each difference with its files; the exit status is 1 where there is one. With `--try`
the program isn't a built one: `rt try` runs its sources, which is slow and serves a few requests.
"""
import argparse
import collections
import os
import random
import re
import subprocess
import sys
import tempfile

import formula_requests
import list_requests
import pick_requests
import plain_lists
import print_requests
import program_requests
import programs
import rule_requests
from edge_requests import EdgeRequest

KINDS = {'run': program_requests.a_run, 'grade': program_requests.a_pair, 'formulas': formula_requests.a_request,
         'rules': rule_requests.a_request, 'printed': print_requests.a_request, 'all': list_requests.a_request,
         'picks': pick_requests.a_request}
TOP = os.path.join(os.path.dirname(os.path.realpath(__file__)), '..')
CRATE = os.path.join(TOP, 'crates/grader_cli')
BATCH = 100
# So many seconds of the processor has the lister for one request of `all`.
SECONDS = 20


def the_request(kind, seed, number):
    return KINDS[kind](random.Random('%s/%d/%d' % (kind, seed, number)))


class Program:
    """The built program, run in a folder of its own."""

    def __init__(self, path, folder, seconds=600):
        self.path = os.path.realpath(path)
        self.folder, self.seconds = folder, seconds

    def answers(self, requests):
        return map(self.answer, requests)

    def answer(self, request):
        """The request, the status, the output, and what else was seen that isn't allowed."""
        for name in os.listdir(self.folder):
            os.remove(os.path.join(self.folder, name))
        for name, text in request.files.items():
            with open(os.path.join(self.folder, name), 'wb') as file:
                file.write(text)
        ran = subprocess.run([self.path] + request.words, cwd=self.folder, capture_output=True, timeout=self.seconds)
        fault = None
        if ran.stderr:
            fault = 'standard error has %r' % ran.stderr
        for name, text in request.files.items():
            with open(os.path.join(self.folder, name), 'rb') as file:
                if file.read() != text and name not in request.words[5:6]:
                    fault = '%s was changed' % name
        return request, ran.returncode, ran.stdout, fault


class Tried:
    """The sources of the program, run unproved, some requests at once. Each has files of its own names."""

    def __init__(self, folder):
        self.folder = folder

    def answers(self, requests):
        requests = [request.renamed('q%d_' % number) for number, request in enumerate(requests)]
        for first in range(0, len(requests), BATCH):
            yield from self.batch(requests[first:first + BATCH])

    def batch(self, requests):
        with tempfile.TemporaryDirectory(dir=self.folder) as folder:
            cases, command = os.path.join(folder, 'cases'), ['rt', 'try', '--seconds', '60', '--cases']
            os.mkdir(cases)
            command.append(cases)
            for number, request in enumerate(requests):
                with open(os.path.join(cases, 'c%03d' % number), 'w'):
                    pass
                with open(os.path.join(cases, 'c%03d.args' % number), 'w', encoding='utf-8') as file:
                    file.write(''.join(word + '\n' for word in request.words))
                for name, text in request.files.items():
                    with open(os.path.join(folder, name), 'wb') as file:
                        file.write(text)
                    command += ['--data', '%s=%s' % (name, os.path.join(folder, name))]
            ran = subprocess.run(command, cwd=CRATE, capture_output=True)
        told = ran.stdout + b'\n' + ran.stderr
        for number, request in enumerate(requests):
            name = b'c%03d' % number
            ended = re.search(rb'^case=' + name + rb' run=(\w+)(?: status=(\d+))?', told, re.M)
            wrote = re.search(rb'^== ' + name + rb'\n(.*?)(?=^== c\d|^case=|\Z)', ran.stdout, re.M | re.S)
            if not ended:
                sys.exit('rt try told nothing of a request:\n' + told.decode('latin-1')[-2000:])
            fault = None if ended[1] == b'ended' else 'the run is told as ' + ended[1].decode()
            yield request, int(ended[2] or 0), wrote[1] if wrote else b'', fault


class Model:
    """The plain model, by its modules."""

    def __init__(self, path, stage):
        sys.path.insert(0, os.path.dirname(os.path.realpath(path)))
        sys.setrecursionlimit(100000)
        import grade
        import top
        self.grade, self.top, self.stage = grade, top, stage
        self.lists = plain_lists.Lists(programs.Model(path), stage, SECONDS)
        self.usage = stated_usage()

    def fault_of(self, request, status, output):
        """None where the answer is allowed, and else what is wrong with it."""
        words = request.words
        graded = (words[:1] == ['grade'] and len(words) == 7 and self.top.budget_ok(words[6])
                  and all(word in request.files for word in words[1:5]))
        if graded:
            raws = [request.files[word] for word in words[1:5]]
            said = self.grade.accept(raws, status, output, self.stage, words[1:5], int(words[6]))
            if said.startswith('cannot tell'):
                raise self.grade.CannotTell(said)
            return None if said == 'ok' else said
        if plain_lists.has_form(words):
            return self.fault_of_list(request, status, output)
        try:
            wanted, text, _ = self.top.top(words, request.files, self.stage)
        except self.grade.Refused as refused:
            return 'the model refuses it: %s' % refused
        text = self.usage if wanted == plain_lists.USAGE else text
        if (status, output) == (wanted, text.encode()):
            return None
        return 'expected status %d and %r, got %d and %r' % (wanted, text, status, output)

    def fault_of_list(self, request, status, output):
        try:
            return self.lists.fault_of(request.words, request.files, status, output)
        except plain_lists.Untold as cause:
            raise self.grade.CannotTell(str(cause)) from cause


def stated_usage():
    """The usage as the document states it."""
    with open(os.path.join(TOP, 'docs/formats.md')) as document:
        stated = re.search(r'^    usage: .*\n(?:    .*\n)+', document.read(), re.M)[0]
    return re.sub('^    ', '', stated, flags=re.M)


def kind_of(status, output):
    if status == 0 and output.startswith((b'value', b'fault')):
        return 'status 0, ' + ' '.join(output.decode('latin-1').split()[:2] if output.startswith(b'fault') else ['value'])
    if status == 4:
        return 'status 4, ' + output.decode('latin-1').rsplit(' ', 1)[-1].strip()
    return 'status %d' % status


def told_otherwise(request, output):
    """What is wrong with the answer to a request at an edge, if it isn't the one of its side."""
    if not isinstance(request, EdgeRequest) or request.is_met(output):
        return None
    return '%s, %s the limit: wanted %s' % (request.limit, 'past' if request.is_past else 'within', request.wanted)


def show_sides(sides):
    """Both sides of each limit."""
    for limit in sorted({limit for limit, _ in sides}):
        print('%7d within and %d past the limit: %s' % (sides[limit, False], sides[limit, True], limit.replace('_', ' ')))


def show(case, request, status, output, fault):
    print('%s: %s' % (case, fault))
    print('  words: %s' % ' '.join(map(repr, request.words)))
    for name, text in request.files.items():
        shown = repr(text) if len(text) <= 3000 else '%r and so on, %d bytes' % (text[:300], len(text))
        print('  %s: %s' % (name, shown))
    print('  status %d, output %r' % (status, output))


def compare(program, model, asked):
    """How many answers differ."""
    kinds, sides, untold, differing = collections.Counter(), collections.Counter(), 0, 0
    numbers = range(asked.first, asked.first + asked.count)
    requests = [the_request(asked.kind, asked.seed, number) for number in numbers]
    for number, (request, status, output, fault) in zip(numbers, program.answers(requests)):
        kinds[kind_of(status, output)] += 1
        if isinstance(request, EdgeRequest):
            sides[request.limit, request.is_past] += 1
        try:
            fault = fault or told_otherwise(request, output) or model.fault_of(request, status, output)
        except model.grade.CannotTell:
            untold += 1
        if fault:
            differing += 1
            show('request %d' % number, request, status, output, fault)
    for kind, count in sorted(kinds.items()):
        print('%7d  %s' % (count, kind))
    show_sides(sides)
    print('%d requests, %d of which the model cannot tell, %d differ' % (len(numbers), untold, differing))
    return differing


def main():
    parser = argparse.ArgumentParser(description='Compares the grader with a plain model of it.')
    parser.add_argument('kind', choices=sorted(KINDS))
    parser.add_argument('seed', type=int)
    parser.add_argument('count', type=int)
    parser.add_argument('--program', default=os.path.join(CRATE, 'out/grader_cli'))
    parser.add_argument('--try', action='store_true', dest='tried', help='run the sources by `rt try` instead')
    parser.add_argument('--first', type=int, default=0)
    parser.add_argument('--stage', type=int, default=15, help='how far the program is built, as the model counts it')
    asked = parser.parse_args()
    path = os.environ.get('MODEL')
    if not path:
        parser.error('MODEL is not set')
    with tempfile.TemporaryDirectory() as folder:
        program = Tried(folder) if asked.tried else Program(asked.program, folder)
        return 1 if compare(program, Model(path, asked.stage), asked) else 0


if __name__ == '__main__':
    sys.exit(main())
