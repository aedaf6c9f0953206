"""The place of a fault: what is marked of a text, of which kind it is, and what is known of it."""
from dataclasses import dataclass, field

from .syntax import spells


@dataclass
class Place:
    kind: str = ''
    start: int = None           # the mark
    end: int = None
    word: str = ''              # what is marked
    values: dict = field(default_factory=dict)      # what its text may mention
    tokens: list = ()           # of a line that spells nothing: its tokens,
    begin: int = 0              # the first of its statement,
    at: int = 0                 # the one that can't stand where it is,
    inside: str = ''            # and as in Unreadable
    wants: str = ''
    rest: str = ''              # what stands behind the mark on its physical line
    source: object = None

    def __post_init__(self):
        self.values.setdefault('word', self.word)

    def token(self, at):
        return self.tokens[at].text if 0 <= at < len(self.tokens) else ''

    def is_joined(self, at):
        """Whether nothing stands between a token and the one before it."""
        return 0 < at < len(self.tokens) and self.tokens[at - 1].end == self.tokens[at].start

    @property
    def character(self):
        """What is marked, of a byte that may not stand there; '' where it is no character."""
        try:
            return self.word.encode('latin-1').decode('utf-8')
        except UnicodeDecodeError:
            return ''

    @property
    def kind_here(self):
        return self.tokens[self.at].kind if self.at < len(self.tokens) else ''

    @property
    def before(self):
        return self.token(self.at - 1)

    @property
    def next(self):
        return self.token(self.at + 1)

    @property
    def first(self):
        return self.token(self.begin)

    @property
    def is_at_edge(self):
        """Whether the line begins in the first column."""
        return bool(self.tokens) and self.tokens[0].start in self.source.starts

    def has(self, *words):
        return any(token.text in words for token in self.tokens)

    def expression(self, first, end):
        """The text of these tokens, where they spell an expression on one physical line; else ''."""
        tokens = self.tokens[first:end]
        text = self.source.text[tokens[0].start:tokens[-1].end] if tokens else ''
        return text if spells(tokens) and '\n' not in text else ''


@dataclass
class Task:
    """What is known of a grading: the submission, the bounds, and of the reference its result's type, if asked for."""
    source: object
    bounds: object
    wanted: str = ''


def marked(source, kind, start, end, **values):
    rest = source.rows[source.row_of(start) - 1][end - source.starts[source.row_of(start) - 1]:]
    return Place(kind, start, end, source.text[start:end], values, rest=rest)


def on_word(source, kind, item, word, count=1, **values):
    """The place of a word in an item: of the one that stands there as often as `count` says."""
    found = [token for token in item.tokens if token.text == word]
    token = found[count - 1] if len(found) >= count else item.tokens[0]
    return marked(source, kind, token.start, token.end, **values)


def on_node(source, kind, node, **values):
    if hasattr(node, 'tokens'):
        return marked(source, kind, node.tokens[0].start, node.tokens[0].end, **values)
    start, end = node.place if node.form == 'binary' else (node.start, node.end)
    return marked(source, kind, start, end, **values)


def counted(number, word):
    return '%s %s%s' % (number or 'no', word, '' if number == 1 else 's')
