#!/usr/bin/env python3
"""Tries `tools/class_page`: pages of the examples' submissions, and of a class with every answer and odd names and messages.

    tests/class_pages.py

Run it at the top of the repository; no grader is needed: the reports are the answers stored with the examples. A page has
every entry once, its counts are those of the reports, it names nothing outside of itself, its tags are closed, and what
stands in names and messages is text. The page of the reports file by file is that of the class. Printed are the counts and
what is wrong; the exit status is 1 where something is.
"""
import html.parser
import json
import os
import pathlib
import re
import subprocess
import sys
import tempfile

TOP = pathlib.Path(__file__).resolve().parent.parent
TOOL = TOP / 'tools' / 'class_page'
SOURCES = ['bounds.txt', 'reference.py', 'rules.eml']
KEYS = ['correct', 'corrected', 'none', 'spent', 'refused', 'unread']
ODD = '<b>&"q\'.py'
ODD_TEXT = "def f(v):\n    return 'a' == v  # <script>alert(1)</script> &amp; \"\n"
ODD_REPORT = ("cost 1\nfails f('<&>'): gives False, wanted True\nline 2 [r, 1]: <i>\"turn\"</i> & look: v == '<&>'\nprogram\n"
              "def f(v):\n    return v == '<&>'\n")
VOID = {'meta', 'input'}
wrong = []


def check(holds, *what):
    if not holds:
        wrong.append(' '.join(map(str, what)))


class Page(html.parser.HTMLParser):
    """The tags that are open, the entries with their kinds, and the text of a page."""

    def __init__(self, text):
        super().__init__()
        self.open, self.kinds, self.text, self.tags = [], [], [], set()
        self.feed(text)

    def handle_starttag(self, tag, found):
        attributes = dict(found)
        self.tags.add(tag)
        if tag not in VOID:
            self.open.append(tag)
        if attributes.get('class', '').startswith('entry'):
            self.kinds.append(attributes['data-kind'])
        check(not {'src', 'srcset', 'action', 'onclick'} & set(attributes), 'the page has', attributes)
        check(attributes.get('href', '#').startswith('#'), 'the page leads to', attributes)

    def handle_endtag(self, tag):
        check(self.open and self.open[-1] == tag, 'the page closes', tag, 'within', self.open[-1:])
        self.open = self.open[:-1]

    def handle_data(self, data):
        self.text.append(data)


def made(folder, *words):
    return subprocess.run([TOOL, *words], cwd=folder, stdout=subprocess.PIPE, stderr=subprocess.PIPE, text=True)


def page_of(folder, name, reports):
    """The page of a class of reports, by their files and statuses, which is looked at."""
    entries = [{'file': file, 'report': report, 'status': status} for file, status, report in reports]
    counts = {key: sum(entry['status'] == status for entry in entries) for status, key in enumerate(KEYS)}
    (folder / 'class.json').write_text(json.dumps({**counts, 'entries': entries}, sort_keys=True), encoding='utf-8')
    run = made(folder, *SOURCES, 'class.json')
    check(run.returncode == 0, name, run.stderr)
    page = Page(run.stdout)
    check(not page.open, name, 'leaves open', page.open)
    check({key: page.kinds.count(key) for key in KEYS} == counts, name, 'has', page.kinds, 'for', counts)
    text = ''.join(page.text)
    for file, _, report in reports:
        check(file in text and report in text, name, 'lacks', file)
    return run.stdout, page


def stored(example):
    """The answers that are stored with the submissions of an example."""
    for path in sorted(example.glob('sub-*.out')):
        status, report = path.read_text(encoding='utf-8').split('\n', 1)
        yield path.stem + '.py', int(re.fullmatch(r'status (\d)', status)[1]), report


def beside(folder, example):
    for path in example.iterdir():
        if path.suffix in ('.py', '.txt', '.eml'):
            (folder / path.name).write_bytes(path.read_bytes())


def of_example(example):
    with tempfile.TemporaryDirectory() as name:
        folder = pathlib.Path(name)
        beside(folder, example)
        reports = list(stored(example))
        whole, _ = page_of(folder, example.name, reports)
        (folder / 'out').mkdir()
        files = ['out/%s.txt' % file for file, _, _ in reports]
        for file, (_, _, report) in zip(files, reports):
            (folder / file).write_text(report, encoding='utf-8')
        apart = made(folder, *SOURCES, *files)
        check(apart.stdout == whole, example.name, 'differs file by file', apart.stderr)
        return len(reports)


def of_odd_class():
    with tempfile.TemporaryDirectory() as name:
        folder = pathlib.Path(name)
        for file in SOURCES:
            (folder / file).write_text('width 6\nturns 4\ndepth 2\ncap 4\nentry f\nparam v text 0..3 of \'<&>\'\n'
                                       if file == 'bounds.txt' else '', encoding='utf-8')
        (folder / ODD).write_text(ODD_TEXT, encoding='utf-8')
        (folder / 'byte.py').write_bytes(b'def f(v):\n    return \xff\n')
        _, page = page_of(folder, 'the odd class', [
            (ODD, 1, ODD_REPORT), ('lost.py', 5, ''), ('hard.py', 3, 'budget spent 7\nat least cost 1\n'),
            ('byte.py', 4, 'refused byte.py line 2: Byte\n'), ('right.py', 0, 'correct\n'),
            ('sub.py', 4, 'refused rules.eml line 1: Syntax\n')])
        check('i' in page.tags and page.text.count('<i>"turn"</i> & look: v == \'<&>\'') == 1, 'a message is no text')
        check(ODD_TEXT.split('\n')[1] in page.text, 'a submission is no text')
        page_of(folder, 'an empty class', [])
        for words, what in [([], 'usage: '), ([*SOURCES, 'none.txt'], 'none.txt cannot be read'),
                            ([*SOURCES, 'bounds.txt'], 'the report of bounds: '), ([*SOURCES, ODD], 'has no name')]:
            run = made(folder, *words)
            check(run.returncode == 2 and not run.stdout and run.stderr.count('\n') == 1 and what in run.stderr,
                  'the words', words, 'give', run.returncode, run.stderr)


def main():
    os.chdir(TOP)
    examples = sorted(path.parent for path in TOP.glob('examples/*/rules.eml') if any(stored(path.parent)))
    count = sum(map(of_example, examples))
    of_odd_class()
    print('%d pages with %d entries' % (len(examples), count))
    print('\n'.join(wrong) if wrong else 'all as they should be')
    sys.exit(1 if wrong else 0)


main()
