"""The corrected program as changes of the submission's own text.

A correction replaces expressions and single operators, so that the statements of both are the same in number and order.
Each is compared with its partner, and what differs is replaced where it stands.
"""
import re

from .program import Program
from .source import Source
from .syntax import Unreadable

WORD = re.compile('[A-Za-z0-9_]')


class NotAligned(Exception):
    """The two programs aren't one another's corrections."""


def same(old, new):
    if old is None or new is None:
        return old is new
    return ((old.form, old.word, len(old.parts)) == (new.form, new.word, len(new.parts))
            and all(map(same, old.parts, new.parts)))


def goes_inside(old, new):
    """Whether the parts are compared with one another, so that as little as possible is replaced."""
    if old.form != new.form or [part is None for part in old.parts] != [part is None for part in new.parts]:
        return False
    return bool(old.parts) and (old.word == new.word or any(part and same(part, other)
                                                             for part, other in zip(old.parts, new.parts)))


def changes(old, new, text):
    """The replacements (start, end, text) that make the old expression the new one, whose places are in `text`."""
    if goes_inside(old, new):
        if old.word != new.word:
            yield old.place + (text[slice(*new.place)],)
        for part, other in zip(old.parts, new.parts):
            if part:
                yield from changes(part, other, text)
    elif not same(old, new):
        yield old.start, old.end, text[new.start:new.end]
    if new.is_enclosed and not old.is_enclosed:
        yield old.start, old.start, '('
        yield old.end, old.end, ')'


def outline(program):
    """All of a program but its expressions."""
    return [(item.kind, item.words, len(item.exprs), len(program.around(item))) for item in program.items]


def of_programs(old, new):
    """The replacements of each statement that changes."""
    if outline(old) != outline(new):
        raise NotAligned()
    for item, other in zip(old.items, new.items):
        found = [change for pair in zip(item.exprs, other.exprs) for change in changes(*pair, new.source.text)]
        if found:
            yield item, found


def replaced(text, start, found):
    """A text that begins at the place `start`, with its replacements."""
    at, out = start, ''
    for begin, end, new in sorted(found, key=lambda change: change[:2]):
        if begin < at:
            raise NotAligned()
        out, at = apart(out + text[at - start:begin - start], new), end
    return apart(out, text[at - start:])


def apart(left, right):
    """Two texts one behind the other, with a space where two words would else be one."""
    return left + (' ' if WORD.match(left[-1:]) and WORD.match(right) else '') + right


def corrected(source, printed, lines):
    """The rows of the submission and of its correction: a list of pairs, of old rows with the new ones in their place.

    `printed` is the text of the corrected program, `lines` are the numbers of the lines with edits. NotAligned where
    the texts can't be compared, or where what comes out isn't the corrected program.
    """
    try:
        old, new = Program(source), Program(Source(printed.encode('latin-1')))
        found = list(of_programs(old, new))
        if not {item.line for item, _ in found} <= set(lines):
            raise NotAligned()
        pairs = rows_of(source, [change for _, of_item in found for change in of_item])
        text = '\n'.join(row for pair in pairs for row in pair[1])
        if list(of_programs(Program(Source(text.encode('latin-1'))), new)):
            raise NotAligned()
    except (Unreadable, UnicodeEncodeError, LookupError):
        raise NotAligned() from None
    return pairs


def rows_of(source, found):
    """The pairs of rows: one for each row without a change, and one for all rows that changes have in common."""
    blocks = []
    for change in sorted(found, key=lambda change: change[:2]):
        first, last = source.row_of(change[0]), source.row_of(change[1])
        if blocks and first <= blocks[-1][1]:
            blocks[-1][1] = max(last, blocks[-1][1])
            blocks[-1][2].append(change)
        else:
            blocks.append([first, last, [change]])
    pairs, at = [], 1
    for first, last, own in blocks:
        pairs += [([row], [row]) for row in source.rows[at - 1:first - 1]]
        rows = source.rows[first - 1:last]
        pairs.append((rows, replaced('\n'.join(rows), source.starts[first - 1], own).split('\n')))
        at = last + 1
    return pairs + [([row], [row]) for row in source.rows[at - 1:]]
