"""The command: its words, its files, and what it writes of each answer."""
import os
import re
import sys

from . import texts
from .answers import NoAnswer, read_answer
from .bounds import NoBounds, read_bounds
from .change import NotAligned, corrected
from .kinds import NO_VALUE, RESULT, TEXTS, Kinds
from .place import Task
from .places import find
from .program import Program
from .shown import kept, numbered, paragraph, shown
from .source import Source
from .syntax import Unreadable

USAGE = 'usage: mpygrade grade BOUNDS REF SUB RULES CERT BUDGET | mpyexplain grade BOUNDS REF SUB RULES CERT BUDGET'
BUDGET = re.compile(r'[1-9][0-9]{0,5}\Z')
MOST_BUDGET = 200000
MOST_BYTES = 65536
MOST_SHOWN = 40         # characters of what is marked, within a sentence
DEEPEST = 10000         # calls in one another: a line has up to 400 tokens, each in the brackets of another


class Trouble(Exception):
    """An error of use, which is told on one line."""


class Grading:
    """The words of a grading, and its files as far as they are asked for."""

    def __init__(self, words):
        if len(words) != 7 or words[0] != 'grade' or not BUDGET.match(words[6]) or int(words[6]) > MOST_BUDGET:
            raise Trouble(USAGE)
        self.bounds_file, self.reference_file, self.file, self.rules_file = words[1:5]
        self.bounds_bytes, self.bytes = self.read(self.bounds_file), self.read(self.file)

    @staticmethod
    def read(name):
        try:
            with open(name, 'rb') as file:
                return file.read(MOST_BYTES + 1)
        except OSError as error:
            raise Trouble('%s cannot be read: %s' % (name, error.strerror)) from None

    def source(self):
        if len(self.bytes) > MOST_BYTES:
            raise Trouble('%s is too long to be the file that was graded' % self.file)
        return Source(self.bytes)

    def bounds(self):
        try:
            return read_bounds(self.bounds_bytes)
        except NoBounds:
            raise Trouble('%s is no bounds file that was accepted' % self.bounds_file) from None

    def refused(self, name, cause):
        """Which of the files was refused: the name of a teacher's file, or '' for the submission."""
        files = [(self.bounds_file, texts.OF_BOUNDS, 'the bounds file'),
                 (self.reference_file, texts.OF_REFERENCE, 'the reference'),
                 (self.file, texts.CAUSES, ''),
                 (self.rules_file, texts.OF_RULES, 'the rules file')]
        for file, causes, what in files:
            if os.fsencode(file) == os.fsencode(name) and cause in causes:
                return what
        raise Trouble('the output refuses %s: %s, which none of the files can be' % (name, cause))

    def wanted_type(self):
        """The type that the reference gives, where it can be found."""
        try:
            program = Program(Source(self.read(self.reference_file)))
            facts = Kinds(program, self.bounds()).facts[self.bounds().entry, RESULT]
        except (Unreadable, LookupError):
            return ''
        if not facts and self.bounds().prints:
            return NO_VALUE
        return TEXTS[next(iter(facts))] if len(facts) == 1 else ''


def explained(words, output):
    """The lines that explain the output of a grading."""
    grading = Grading(words)
    try:
        answer = read_answer(output)
    except NoAnswer as wrong:
        raise Trouble(str(wrong)) from None
    return ANSWERS[answer.kind](grading, answer)


# Refusals


def of_refusal(grading, answer):
    name, cause, line = answer.parts['file'], answer.parts['cause'], int(answer.parts['line'])
    what = grading.refused(name, cause)
    if what:
        place = 'line %d: %s' % (line, cause) if line else cause
        return paragraph(texts.TEACHERS.format(what=what, name=name, place=place))
    place = ' at line %d' % line if line else ''
    out = ['%s is refused%s: %s' % (name, place, cause), '']
    out += of_line(grading, cause, line) if cause != 'Long' else paragraph(texts.CAUSES[cause])
    return out + [''] + paragraph(texts.FIRST) if cause != 'TooLarge' else out


def of_line(grading, cause, line):
    source = grading.source()
    wanted = grading.wanted_type() if cause == 'ResultType' else ''
    is_there = 1 <= line <= len(source.rows)
    if not is_there and cause != 'Entry':
        raise Trouble('%s has no line %d, so it is not the file that was graded' % (grading.file, line))
    place = find(cause, line, Task(source, grading.bounds(), wanted))
    out = []
    if place.start is not None or is_there and cause != 'Entry':        # without a function no line is at fault
        out = numbered(source, line, place.start, place.end) + ['']
    out += paragraph(texts.CAUSES[cause])
    row = next((row for row in texts.TABLE[cause] if row.fits(place)), None)
    return out + [''] + told(row, place) if row else out


def told(row, place):
    """What a row of the table says of a place."""
    values = {**place.values, 'word': short(place.word), 'before': short(place.before)}
    write = row.write(place) if callable(row.write) else filled(row.write, values)
    return [line for text in (filled(row.says, values), write) for line in paragraph(text)]


def short(text):
    return text if len(text) <= MOST_SHOWN else text[:MOST_SHOWN] + '..'


def filled(text, values):
    return re.sub(r'\{(\w+)\}', lambda hole: kept(shown(str(values[hole[1]]))) if hole[1] in values else hole[0], text)


# The other answers


def of_failure(grading, answer):
    """What the failing input shows."""
    parts = {name: kept(part) for name, part in answer.parts.items()}
    fault = answer.parts.get('fault')
    if not fault:
        return paragraph(texts.FAILS.format(**parts))
    text = texts.FAULTS[fault]
    if fault in texts.BY_LIMITS:
        bounds = grading.bounds()
        least, greatest = bounds.range
        text = text.format(least=least, greatest=greatest, **bounds.limits)
    return paragraph(texts.FAULT.format(text=text, **parts))


def of_correction(grading, answer):
    text = texts.CORRECTIONS if len(answer.edits) > 1 else texts.CORRECTION
    edits = ['  line %d: %s' % (edit.line, edit.message) for edit in answer.edits]
    out = of_failure(grading, answer) + ['']
    out += paragraph(text.format(number=len(answer.edits), **answer.parts)) + [''] + edits + ['']
    return out + of_program(grading.source(), answer)


def of_program(source, answer):
    try:
        pairs = corrected(source, answer.parts['program'], [edit.line for edit in answer.edits])
    except NotAligned:
        return [texts.PROGRAM, ''] + ['  ' + row for row in answer.parts['program'].split('\n')[:-1]]
    out = [texts.CHANGED, '']
    for old, new in pairs:
        if old == new:
            out += ['  ' + shown(row) for row in old]
        else:
            out += ['- ' + shown(row) for row in old] + ['+ ' + shown(row) for row in new]
    return [line.rstrip() for line in out]


def of_none(grading, answer):
    return of_failure(grading, answer) + [''] + paragraph(texts.NONE)


def of_correct(grading, answer):
    return paragraph(texts.CORRECT_PRINTED if grading.bounds().prints else texts.CORRECT)


def of_spent(grading, answer):
    more = texts.SPENT_WRONG if int(answer.parts['at_least']) else texts.SPENT_OPEN
    return paragraph((texts.SPENT + ' ' + more).format(**answer.parts))


ANSWERS = {'correct': of_correct, 'cost': of_correction, 'none': of_none, 'budget': of_spent, 'file': of_refusal}


def main():
    sys.setrecursionlimit(DEEPEST)
    try:
        output = sys.stdin.buffer.read() if sys.stdin else b''
        lines = explained(sys.argv[1:], output.decode('utf-8', 'surrogateescape'))
        write(''.join(line + '\n' for line in lines).encode('utf-8', 'surrogateescape'))
    except Trouble as trouble:
        print('mpyexplain: %s' % trouble, file=sys.stderr)
        return 2
    return 0


def write(data):
    try:
        sys.stdout.buffer.write(data)
        sys.stdout.buffer.flush()
    except OSError as error:
        os.dup2(os.open(os.devnull, os.O_WRONLY), sys.stdout.fileno())      # or it is tried again at the end
        raise Trouble('the output cannot be written: %s' % error.strerror) from None
