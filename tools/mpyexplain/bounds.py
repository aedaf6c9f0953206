"""What the bounds file says of limits, of the entry and of the types of its parameters."""
import re
from dataclasses import dataclass

LIMITS = ('width', 'turns', 'depth', 'cap')
KINDS = {'int': 'Int', 'bool': 'Bool', 'list': 'List', 'text': 'Text'}
WORDS = re.compile(r'#.*|\'(?:\\.|[^\'\\])*\'|"(?:\\.|[^"\\])*"|[^\s#\'"]+')
NUMBER = re.compile(r'[0-9]{1,9}\Z')


class NoBounds(Exception):
    pass


@dataclass
class Bounds:
    limits: dict
    entry: str
    kinds: list             # the types of the parameters
    prints: int             # how many printed values are compared; 0 where none are

    @property
    def range(self):
        """The least and the greatest number."""
        half = 2 ** (self.limits['width'] - 1)
        return -half, half - 1


def read_bounds(data):
    """The bounds of a file that the grader has accepted; else NoBounds."""
    text = data.decode('utf-8-sig', 'replace')
    rows = [[word for word in WORDS.findall(row) if word[0] != '#'] for row in text.split('\n')]
    rows = [row for row in rows if row]
    if [row[0] for row in rows[:5]] != [*LIMITS, 'entry'] or any(len(row) != 2 for row in rows[:5]):
        raise NoBounds()
    compares = [row for row in rows[5:] if row[:2] == ['compare', 'printed'] and len(row) == 3]
    params = [row for row in rows[5:] if row not in compares]
    kinds = [row[2] if row[0] == 'param' and len(row) > 2 else '' for row in params]
    if len(compares) > 1 or not all(re.match('[1-8]\\Z', row[2]) for row in compares):
        raise NoBounds()
    if not all(NUMBER.match(row[1]) for row in rows[:4]) or not set(kinds) <= set(KINDS):
        raise NoBounds()
    limits = {row[0]: int(row[1]) for row in rows[:4]}
    if limits['width'] not in range(3, 17):
        raise NoBounds()
    prints = int(compares[0][2]) if compares else 0
    return Bounds(limits, rows[4][1], [KINDS[kind] for kind in kinds], prints)
