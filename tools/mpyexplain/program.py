"""A program as the functions and items of its lines, and what stands round each of them."""
from dataclasses import dataclass, field

from .syntax import Unreadable, flat, read_item

BUILTINS = {'len': (1, 1), 'abs': (1, 1), 'min': (2, 2), 'max': (2, 2), 'range': (1, 3)}
ASSIGNS = ('set', 'change', 'for')
CHANGES_IN_PLACE = ('put', 'change at', 'append')


@dataclass(eq=False)
class Function:
    item: object                                # its `def`
    items: list = field(default_factory=list)   # all that stands in it, without its `def`

    @property
    def name(self):
        return self.item.words[0]

    @property
    def parameters(self):
        return self.item.words[1:]

    def locals(self):
        """The names that it sets, parameters first, each with the first line on which it is set."""
        found = {name: self.item.line for name in self.parameters}
        for item in self.items:
            if item.kind in ASSIGNS:
                found.setdefault(item.words[0], item.line)
        return found


class Program:
    """Of a source whose lines can all be read; else Unreadable."""

    def __init__(self, source):
        if source.faults:
            raise Unreadable(0, 0, 'tokens', 'tokens')
        self.source = source
        self.headers = [read_item(line) for line in source.lines]       # one item of each line
        self.items = list(flat(self.headers))
        self.functions = []
        for item in self.items:
            if item.kind == 'def':
                self.functions.append(Function(item))
            elif self.functions:
                self.functions[-1].items.append(item)

    def on(self, line):
        return [item for item in self.items if item.line == line]

    def function_of(self, item):
        return next(function for function in self.functions if item is function.item or item in function.items)

    def nearest(self, item):
        """The header or statement of the nearest line above that isn't deeper."""
        at = next(at for at, other in enumerate(self.headers) if other.line == item.line)
        return next((other for other in reversed(self.headers[:at]) if other.column <= item.column), None)

    def around(self, item):
        """The headers round an item, the innermost first."""
        at = next(at for at, other in enumerate(self.headers) if other.line == item.line)
        found = [self.headers[at]] if self.headers[at].body is item else []
        column = item.column
        for other in reversed(self.headers[:at]):
            if other.column < column:
                column = other.column
                found.append(other)
        return found
