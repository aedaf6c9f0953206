"""A row of the table, and the conditions on the place that was found."""
import re
from dataclasses import dataclass

from ..syntax import COMPARISONS


@dataclass
class Row:
    key: str
    holds: object               # the kind of a place, or a condition on one
    says: str
    write: object               # a text, or a function of the place that gives one

    def fits(self, place):
        if isinstance(self.holds, str):
            return place.kind == self.holds
        return bool(place.kind) and bool(self.holds(place))


# Conditions

OPERATORS = ('+', '-', '*', '//', '%', '**', 'and', 'or', 'if', 'not', *COMPARISONS)
STATEMENT_WORDS = 'return if elif else for while def pass break continue import class'


def sign(*signs):
    """One of these is what is no token."""
    return lambda p: p.kind == 'other' and p.word in signs


def last(*signs):
    """So, and nothing stands behind it on its line."""
    return lambda p: p.kind == 'other' and p.word in signs and not p.rest.strip()


def number(form):
    """What is no number is of this form."""
    return lambda p: p.kind == 'number' and bool(re.fullmatch(form, p.word))


def characters(among):
    return lambda p: p.character != '' and p.character in among


def begins(*words):
    """A statement begins with one of these."""
    return lambda p: p.wants == 'statement' and p.word in words


def here(word, inside='', wants='', then=None):
    """One of these words can't stand where it is, in one of these parts, in place of what is wanted."""
    words, parts, wanted = word.split(), inside.split(), wants.split()
    return lambda p: (p.word in words and (not parts or p.inside in parts) and (not wanted or p.wants in wanted)
                      and (then is None or p.next == then))


def goes_on(*words):
    """A statement goes on by one of these words behind its first name or element."""
    return lambda p: p.wants == '=' and p.word in words


def joined(before, *words):
    """One of these stands directly behind one of those."""
    return lambda p: p.word in words and p.before in before and p.is_joined(p.at)


def method(*names):
    """Behind a point stands something else than `append` where it may stand: one of these names, if there are any."""
    def holds(p):
        is_point = p.word == '.' and p.inside not in ('def', 'parameters') and behind_operand(p)
        name = p.word if p.wants == 'append' else p.next if is_point else ''
        return name and (not names or name in names)
    return holds


def misspelled(*words):
    """A line begins with one of these, as if it were a statement of its own kind."""
    return lambda p: p.wants == '=' and p.kind_here == 'name' and p.first in words


def prefixed(*letters):
    return lambda p: p.kind_here == 'text' and p.is_joined(p.at) and p.before.lower() in letters


def missing(*words):
    """One of these functions of Python is called, and the program has none of that name."""
    return lambda p: p.kind == 'no function' and p.word in words


def of(kind, *types):
    """A place of a kind where just these types meet."""
    return lambda p: p.kind == kind and p.values['types'] == set(types)


def joins(*types):
    """A name or a result would get both of these types by + or +=."""
    return lambda p: (p.kind in ('local', 'parameter', 'result') and p.values['types'] == set(types)
                      and p.values['by'] in ('+', '+='))


def behind_operand(p):
    token = p.tokens[p.at - 1] if p.at else None
    return bool(token) and (token.kind in ('name', 'number', 'text') or token.text in (')', ']', 'True', 'False'))


def is_operand(p):
    return p.kind_here in ('name', 'number', 'text') or p.word in ('True', 'False', '(', '[', 'not')


def is_chain(p):
    is_comparison = p.word in COMPARISONS or p.word == 'not' and p.next == 'in'
    return (is_comparison and p.wants in ('end', 'colon', ')', ']', 'else of a choice')
            and p.inside not in ('append', 'def', 'parameters', 'else', 'pass', 'break', 'continue'))


def is_test_by_equals(p):
    return p.word == '=' and (p.inside in ('if', 'elif', 'while') and p.wants == 'colon'
                              or p.inside == 'parentheses' and p.token(0) in ('if', 'elif', 'while'))


def is_star(p):
    return p.word in ('*', '**') and p.wants == 'operand' and p.inside in ('arguments', 'list', 'value', 'return')


def is_annotation(p):
    is_of_name = p.word == ':' and (p.inside == 'parameters' or p.wants == '=')
    return is_of_name or p.inside == 'def' and p.word == '-' and p.next == '>'


def is_of_module(p):
    name = p.before if p.word == '.' else p.token(p.at - 2)
    return method()(p) and name in ('math', 'random', 'sys', 'np', 'itertools', 'functools')


def is_expression_first(p):
    return p.wants == 'statement' and (p.kind_here == 'number' or p.word in ('(', '[', '-', 'not', 'True', 'False'))


def is_reserved(p):
    is_set = p.wants == 'statement' and p.next in ('=', '+=', '-=', '*=', '//=', '%=')
    return p.kind_here == 'word' and (p.wants == 'name' or is_set)
