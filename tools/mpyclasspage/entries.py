"""The entries of a class: their reports, taken apart, and their submissions."""
import json
import os
from dataclasses import dataclass, field

from mpyexplain import command as explain
from mpyexplain.answers import Answer, NoAnswer, read_answer
from mpyexplain.syntax import Unreadable

KINDS = {'correct': 0, 'cost': 1, 'none': 2, 'budget': 3, 'file': 4, 'unread': 5}
KEYS = {'correct', 'corrected', 'entries', 'none', 'refused', 'spent', 'unread'}
MOST_BYTES = 65536


class NoClass(Exception):
    """Words that ask for no page, told on one line."""


@dataclass
class Entry:
    file: str
    status: int
    report: str
    answer: Answer                  # what the report says; None of a file that wasn't read
    rows: list                      # the lines of the submission, where it can be read
    told: list = field(default_factory=list)        # the lines for the student, where they can be had

    @property
    def cause(self):
        return self.answer.parts['cause'] if self.status == KINDS['file'] else ''

    @property
    def is_own(self):
        """Whether the submission is refused, and no file of the teacher's."""
        return bool(self.cause) and self.answer.parts['file'] == self.file

    @property
    def cost(self):
        return int(self.answer.parts['cost']) if self.status == KINDS['cost'] else 0


def read_entries(sources, reports):
    """The entries of a class, by the words of its bounds, its reference and its rules."""
    data = read(reports[0])
    found = class_entries(data) if len(reports) == 1 else None
    if found is None:
        found = [(submission_of(name), read(name)) for name in reports]
    return [entry_of(sources, file, text(report)) for file, report in found]


def read(name):
    try:
        with open(name, 'rb') as file:
            return file.read()
    except OSError as error:
        raise NoClass('%s cannot be read: %s' % (name, error.strerror)) from None


def text(data):
    return data.decode('utf-8', 'surrogateescape') if isinstance(data, bytes) else data


def submission_of(name):
    """The submission that a report is of, by the name of its file."""
    base = os.path.basename(name)
    if not base.endswith('.txt'):
        raise NoClass('%s has no name of a submission with .txt behind it' % name)
    return base[:-len('.txt')]


def class_entries(data):
    """The names and reports of a class, or None where the bytes are no output of mpyclass."""
    try:
        value = json.loads(data)
    except ValueError:
        return None
    if not isinstance(value, dict) or set(value) != KEYS:
        return None
    return [(entry['file'], entry['report']) for entry in value['entries']]


def entry_of(sources, file, report):
    answer = None
    if report:
        try:
            answer = read_answer(report)
        except NoAnswer as wrong:
            raise NoClass('the report of %s: %s' % (file, wrong)) from None
    status = KINDS[answer.kind if answer else 'unread']
    entry = Entry(file, status, report, answer, rows_of(file))
    if answer and entry.rows is not None:
        entry.told = told(sources, entry)
    return entry


def rows_of(file):
    """The lines of a submission, or None where it can't be read."""
    try:
        with open(file, 'rb') as submission:
            data = submission.read(MOST_BYTES + 1)
    except OSError:
        return None
    return data.decode('utf-8', 'replace').replace('\r\n', '\n').split('\n')


def told(sources, entry):
    """What is told to the student, as far as the submission is the one that was graded."""
    bounds, reference, rules = sources
    words = ['grade', bounds, reference, entry.file, rules, '-', '200000']
    try:
        return explain.explained(words, entry.report)
    except (explain.Trouble, Unreadable):
        return []
