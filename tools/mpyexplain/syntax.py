"""Statements and headers from the tokens of a logical line, with the place of each part.

Where the tokens spell none, `Unreadable` has the first token that can't stand where it is.
"""
import re
from dataclasses import dataclass, field

from .source import Line, Source

COMPARISONS = ('==', '!=', '<', '<=', '>', '>=', 'in', 'not in')
CHANGES = {'+=': '+', '-=': '-', '*=': '*', '//=': '//', '%=': '%'}
LEVELS = {'or': 1, 'and': 2, '+': 5, '-': 5, '*': 6, '//': 6, '%': 6, **dict.fromkeys(COMPARISONS, 4)}
HEADERS = ('def', 'if', 'elif', 'else', 'while', 'for')
MOST_TOKENS = 400
ESCAPED = re.compile(r'\\(.)')


class Unreadable(Exception):
    """`begin` is the first token of the statement, `at` the one at fault, `inside` the part of a statement or the
    bracket where it stands, and `wants` what could stand there instead."""

    def __init__(self, begin, at, inside, wants):
        super().__init__(begin, at, inside, wants)
        self.begin, self.at, self.inside, self.wants = begin, at, inside, wants


@dataclass(eq=False)
class Node:
    """An expression. Its places are those without and with its own parentheses, and that of its operator or name."""
    form: str               # number, text, truth, name, list, call, index, slice, minus, not, binary, choice
    word: str
    parts: list
    start: int
    end: int
    place: tuple
    outer: tuple = None

    def __post_init__(self):
        self.outer = self.outer or (self.start, self.end)

    @property
    def is_enclosed(self):
        return self.outer != (self.start, self.end)

    def nodes(self):
        """Its nodes in the order of evaluation, itself last."""
        for part in self.parts:
            if part:
                yield from part.nodes()
        yield self


@dataclass(eq=False)
class Item:
    """A simple statement or a header; `body` is the statement behind the colon of a header."""
    kind: str               # a header's word, set, change, put, change at, append, print, return, pass, break, continue
    line: int
    column: int
    tokens: list
    words: tuple = ()       # names, and the operator of a change
    exprs: list = field(default_factory=list)
    body: 'Item' = None

    @property
    def is_open(self):
        return self.kind in HEADERS and self.body is None


class Reader:
    def __init__(self, line):
        self.line, self.tokens, self.begin, self.at, self.inside = line, line.tokens, 0, 0, ['statement']

    def fail(self, wants):
        raise Unreadable(self.begin, self.at, self.inside[-1], wants)

    def here(self, ahead=0):
        at = self.at + ahead
        return self.tokens[at] if at < len(self.tokens) else None

    def word(self, ahead=0):
        """The mark or the reserved word here."""
        token = self.here(ahead)
        return token.text if token and token.kind in ('mark', 'word') else ''

    def take(self, word, wants=None):
        if self.word() != word:
            self.fail(wants or word)
        self.at += 1

    def name(self):
        if not self.here() or self.here().kind != 'name':
            self.fail('name')
        self.at += 1
        return self.tokens[self.at - 1].text

    def bracket(self, inside, read):
        """What `read` gives of a bracket that is open, with the place behind its partner."""
        self.inside.append(inside)
        found = read()
        self.inside.pop()
        return found

    def node(self, form, word, parts, start, place=None):
        end = self.tokens[self.at - 1].end
        return Node(form, word, parts, start, end, place or (start, end))

    # Expressions

    def expression(self):
        start, yes = self.here().start if self.here() else None, self.climb(1)
        if self.word() != 'if':
            return yes
        place = (self.here().start, self.here().end)
        self.at += 1
        test = self.climb(1)
        self.take('else', 'else of a choice')
        other = self.expression()
        return self.node('choice', 'if', [yes, test, other], start, place)

    def operator(self):
        if self.word() == 'not' and self.word(1) == 'in':
            return 'not in', (self.here().start, self.here(1).end)
        return self.word(), self.here() and (self.here().start, self.here().end)

    def climb(self, least):
        """An expression of operators of this level at least."""
        left = self.negation(least)
        most = 2 if left.form == 'not' and not left.is_enclosed else 9
        while True:
            word, place = self.operator()
            level = LEVELS.get(word, 0)
            if not least <= level <= most:
                return left
            self.at += len(word.split())
            right = self.climb(level + 1)
            left = self.node('binary', word, [left, right], left.outer[0], place)
            most = 3 if level == 4 else level

    def negation(self, least):
        token = self.here()
        if least > 3 or self.word() != 'not':
            return self.signed()
        self.at += 1
        return self.node('not', 'not', [self.climb(3)], token.start, (token.start, token.end))

    def signed(self):
        token = self.here()
        if self.word() == '-':
            self.at += 1
            return self.node('minus', '-', [self.signed()], token.start, (token.start, token.end))
        base = self.indexed()
        if self.word() != '**':
            return base
        place = (self.here().start, self.here().end)
        self.at += 1
        return self.node('binary', '**', [base, self.signed()], base.outer[0], place)

    def indexed(self):
        base = self.atom()
        while self.word() == '[':
            self.at += 1
            form, parts = self.bracket('index', self.ends)
            base = self.node(form, '[', [base] + parts, base.outer[0])
        return base

    def ends(self):
        low = self.expression() if self.word() != ':' else None
        if low and self.word() == ']':
            self.at += 1
            return 'index', [low]
        self.take(':', ']')
        self.inside[-1] = 'slice'
        high = self.expression() if self.word() != ']' else None
        self.take(']')
        return 'slice', [low, high]

    def many(self, close):
        found = []
        if self.word() != close:
            found.append(self.expression())
            while self.word() == ',':
                self.at += 1
                found.append(self.expression())
        self.take(close)
        return found

    def atom(self):
        token = self.here()
        word = self.word()
        if token and token.kind in ('number', 'text') or word in ('True', 'False'):
            self.at += 1
            value = ESCAPED.sub(r'\1', token.text[1:-1]) if token.kind == 'text' else token.text
            return self.node('truth' if word else token.kind, value, [], token.start)
        if token and token.kind == 'name':
            self.at += 1
            if self.word() != '(':
                return self.node('name', token.text, [], token.start)
            self.at += 1
            arguments = self.bracket('arguments', lambda: self.many(')'))
            return self.node('call', token.text, arguments, token.start, (token.start, token.end))
        if word == '[':
            self.at += 1
            return self.node('list', '[', self.bracket('list', lambda: self.many(']')), token.start)
        if word != '(':
            self.fail('operand')
        self.at += 1
        inner = self.bracket('parentheses', self.enclosed)
        inner.outer = (token.start, self.tokens[self.at - 1].end)
        return inner

    def enclosed(self):
        inner = self.expression()
        self.take(')')
        return inner

    # Statements and headers

    def item(self):
        if len(self.tokens) > MOST_TOKENS:
            self.fail('fewer tokens')
        found = self.header() if self.word() in HEADERS else self.simple()
        if self.here():
            self.fail('end')
        return found

    def made(self, kind, first, words=(), exprs=(), body=None):
        return Item(kind, self.line.number, self.line.column, self.tokens[first:self.at], words, list(exprs), body)

    def header(self):
        first, kind, words, exprs = self.at, self.word(), (), []
        self.inside, self.at = [kind], self.at + 1
        if kind == 'def':
            words = (self.name(),)
            self.take('(')
            words += tuple(self.bracket('parameters', self.names))
        elif kind == 'for':
            words = (self.name(),)
            self.take('in')
        if kind not in ('def', 'else'):
            exprs = [self.expression()]
        self.take(':', 'colon')
        found = self.made(kind, first, words, exprs)
        if self.here():
            self.inside, self.begin = ['statement'], self.at
            found.body = self.simple()
        return found

    def names(self):
        found = []
        if self.word() != ')':
            found.append(self.name())
            while self.word() == ',':
                self.at += 1
                found.append(self.name())
        self.take(')')
        return found

    def simple(self):
        first, word = self.at, self.word()
        if word in ('pass', 'break', 'continue', 'return'):
            self.inside, self.at = [word], self.at + 1
            exprs = [self.expression()] if word == 'return' and self.here() else []
            return self.made(word, first, (), exprs)
        if not self.here() or self.here().kind != 'name':
            self.fail('statement')
        name, word = self.name(), self.word()
        if word == '.':
            return self.append(first, name)
        if word == '(' and name == 'print':
            return self.printed(first)
        at = []
        if word == '[':
            self.at += 1
            at = [self.bracket('target', self.target)]
            word = self.word()
        if word != '=' and word not in CHANGES:
            self.fail('=')
        self.inside, self.at = ['value'], self.at + 1
        value = self.expression()
        if word == '=':
            return self.made('put' if at else 'set', first, (name,), at + [value])
        return self.made('change at' if at else 'change', first, (name, CHANGES[word]), at + [value])

    def target(self):
        place = self.expression()
        self.take(']')
        return place

    def append(self, first, name):
        self.at += 1
        if not self.here() or self.here().text != 'append':
            self.fail('append')
        self.at += 1
        self.inside = ['append']
        self.take('(')
        value = self.expression()
        self.take(')')
        return self.made('append', first, (name,), [value])

    def printed(self, first):
        self.inside, self.at = ['print'], self.at + 1
        value = self.expression()
        self.take(')')
        return self.made('print', first, (), [value])


def read_item(line):
    """The statement or the header of a logical line; else Unreadable."""
    return Reader(line).item()


def spells(tokens):
    """Whether tokens spell an expression."""
    reader = Reader(Line(0, 0, tokens))
    try:
        reader.expression()
    except Unreadable:
        return False
    return not reader.here()


def is_code(text):
    """Whether each line of a text is a statement or a header."""
    source = Source(text.encode('latin-1'))
    try:
        return all(map(read_item, source.lines)) and not source.faults
    except Unreadable:
        return False


def flat(items):
    """The items, each body behind a colon as one of its own, with its line and the column of its header."""
    for item in items:
        yield item
        if item.body:
            yield item.body
