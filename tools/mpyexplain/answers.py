"""The output of `mpygrade grade`, taken apart. `docs/formats.md` has its form."""
import re
from dataclasses import dataclass

VALUE = r"""(?:-?[0-9]+|True|False|\[(?:-?[0-9]+(?:, -?[0-9]+)*)?\]|'(?:[^'\\\n]|\\[\\'])*')"""
FAULT = r'(?:Overflow|Divisor|Index|Unset|Turns|Depth|Length|Power|Step|NoValue)'
CALL = r'(?P<call>\w+\((?:%s(?:, %s)*)?\))' % (VALUE, VALUE)
END = r'(?:%s|None)(?: printing (?:nothing|%s(?:, %s)*))?' % (VALUE, VALUE, VALUE)
FAILS = r'fails %s: gives (?:fault (?P<fault>%s)|(?P<gives>%s)), wanted (?P<wanted>%s)\n' % (CALL, FAULT, END, END)
EDIT = re.compile(r'line ([0-9]{1,9}) \[(\w+), ([1-9])\]: (.*)\n', re.ASCII)
EDITS = r'(?P<edits>(?:line [0-9]{1,9} \[\w+, [1-9]\]: .*\n)+)'
FORMS = [re.compile(form, re.ASCII) for form in (
    r'(?P<correct>correct)\n',
    r'cost (?P<cost>[0-9]{1,9})\n' + FAILS + EDITS + r'program\n(?P<program>(?:.*\n)+)',
    r'(?P<none>no correction)\n' + FAILS,
    r'budget spent (?P<budget>[0-9]{1,9})\nat least cost (?P<at_least>[0-9]{1,9})\n',
    r'refused (?P<file>(?:.|\n)*) line (?P<line>[0-9]{1,9}): (?P<cause>[A-Za-z]+)\n',
)]


class NoAnswer(Exception):
    """What was read isn't the output of a grading."""


@dataclass
class Edit:
    line: int
    rule: str
    cost: int
    message: str


@dataclass
class Answer:
    kind: str                   # correct, cost, none, budget, file
    parts: dict                 # what stands in it, by name
    edits: list


def read_answer(text):
    if not text:
        raise NoAnswer('there is no output: a file could not be read, or the grading did not end')
    if text.startswith('usage: '):
        raise NoAnswer('the output is the usage of mpygrade: its words were wrong')
    for form in FORMS:
        found = form.fullmatch(text)
        if found:
            parts = {name: part for name, part in found.groupdict().items() if part is not None}
            kind = next(name for name in ('correct', 'cost', 'none', 'budget', 'file') if name in parts)
            edits = [Edit(int(line), rule, int(cost), message)
                     for line, rule, cost, message in EDIT.findall(parts.get('edits', ''))]
            return Answer(kind, parts, edits)
    raise NoAnswer('the output is no answer of mpygrade grade')
