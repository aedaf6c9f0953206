#!/usr/bin/env python3
"""Tries `docs/teachers.md`: makes its files, runs its commands as typed, and compares what they write.

    tests/teachers.py PROGRAM CLASS [--write]

PROGRAM is a built grader, the `mpygrade` of the commands, and CLASS the program `mpyclass`; `mpyexplain` and
`mpyclasspage` are those of `tools`. A block below a name with a colon
is a file, or is added to it where the line says `Added to`. A block that begins with `$ ` has commands, on lines with `> ` as
they go on, with what they write below. With --write the outputs in the document are replaced by those that were seen. Run it
at the top of the repository. Printed are the counts and what differs; the exit status is 1 where something does.
"""
import difflib
import os
import pathlib
import re
import subprocess
import sys
import tempfile

TOP = pathlib.Path(__file__).resolve().parent.parent
DOCUMENT = TOP / 'docs' / 'teachers.md'
BLOCK = re.compile(r'^(?P<head>(?:.*\n\n)?)```\n(?P<text>(?:.*\n)*?)```$', re.MULTILINE)
FILE = re.compile(r'`([\w.-]+)`:\n\n\Z')
COMMAND = re.compile(r'^\$ (.*\n(?:> .*\n)*)', re.MULTILINE)
MOST_SECONDS = 60


class Session:
    """A shell in a folder of its own, which keeps its variables from one command to the next."""

    def __init__(self, program, of_class, folder):
        self.folder, self.said, self.count = folder, '', 0
        names = folder / 'bin'
        names.mkdir()
        (names / 'mpygrade').symlink_to(program)
        (names / 'mpyclass').symlink_to(of_class)
        (names / 'mpyexplain').symlink_to(TOP / 'tools' / 'explain')
        (names / 'mpyclasspage').symlink_to(TOP / 'tools' / 'class_page')
        self.environment = {**os.environ, 'PATH': '%s:%s' % (names, os.environ['PATH'])}

    def output(self, command):
        self.count += 1
        settings = re.findall(r"^\w+='.*'$", command, re.MULTILINE)
        self.said = '\n'.join(settings) or self.said
        run = subprocess.run(['sh', '-c', self.said + '\n' + command], cwd=self.folder, env=self.environment, text=True,
                             stdout=subprocess.PIPE, stderr=subprocess.STDOUT, timeout=MOST_SECONDS)
        return run.stdout

    def block(self, head, text):
        """What the block should be."""
        name = FILE.search(head)
        if name:
            with open(self.folder / name[1], 'a' if 'Added to' in head else 'w', encoding='utf-8') as file:
                file.write(text)
        if name or not text.startswith('$ '):
            return text
        return ''.join('$ ' + typed + self.output(typed.replace('\n> ', '\n')) for typed in COMMAND.findall(text))


def renewed(document, session):
    return BLOCK.sub(lambda found: '%s```\n%s```' % (found['head'], session.block(found['head'], found['text'])), document)


def main():
    if len(sys.argv) < 3 or sys.argv[3:] not in ([], ['--write']):
        sys.exit(__doc__)
    document = DOCUMENT.read_text(encoding='utf-8')
    with tempfile.TemporaryDirectory() as folder:
        session = Session(*(pathlib.Path(word).resolve() for word in sys.argv[1:3]), pathlib.Path(folder))
        new = renewed(document, session)
    rows = list(difflib.unified_diff(document.splitlines(), new.splitlines(), 'stored', 'seen', lineterm=''))
    if sys.argv[3:]:
        DOCUMENT.write_text(new, encoding='utf-8')
    print('\n'.join(rows) if rows else '%d commands write what the document shows' % session.count)
    sys.exit(1 if rows else 0)


main()
