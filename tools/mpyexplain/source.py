"""The text of a program: its physical lines, its tokens and what is no token, and its logical lines.

`docs/language.md` has the rules. Bytes are kept as the characters 0 to 255 of a string, so that places are those of
bytes.
"""
import bisect
import re
from dataclasses import dataclass

BYTE_ORDER_MARK = '\xef\xbb\xbf'
RESERVED = frozenset('''and as assert async await break class continue def del elif else except finally for from global
    if import in is lambda None nonlocal not or pass raise return True False try while with yield'''.split())
NUMBER = re.compile(r'(?:0|[1-9][0-9]{0,9})\Z')
GREATEST = 2147483647
PARTNERS = {')': '(', ']': '['}
PIECE = re.compile(r'''
    (?P<line>\n) | (?P<blank>[ \t\r]+) | (?P<comment>\#[^\n]*)
  | (?P<name>[A-Za-z_][A-Za-z0-9_]*)
  | (?P<number>[0-9][0-9A-Za-z_.]*)
  | (?P<text>(?P<quote>['"])(?:\\(?!\r?\n|\Z)[^\n]|(?!(?P=quote))[^\n])*(?P<end>(?P=quote)?))
  | (?P<mark>//=|[=!<>+\-*%]=|//|\*\*|[()\[\]:,.=<>+\-*%])
  | (?P<other>.)
''', re.VERBOSE | re.DOTALL)
ESCAPE = re.compile(r'\\(.)', re.DOTALL)


@dataclass
class Token:
    kind: str               # name, word (a reserved one), number, text, mark
    text: str
    line: int
    start: int
    end: int


@dataclass
class Fault:
    kind: str               # number, open text, escape, other, closing, opening; or byte, tab
    line: int
    start: int
    end: int


@dataclass
class Line:
    """A logical line."""
    number: int
    column: int
    tokens: list


class Source:
    def __init__(self, data):
        text = data.decode('latin-1')
        self.text = text[len(BYTE_ORDER_MARK):] if text.startswith(BYTE_ORDER_MARK) else text
        self.rows = self.text.split('\n')
        self.starts = [0]
        for row in self.rows:
            self.starts.append(self.starts[-1] + len(row) + 1)
        if not self.rows[-1]:
            self.rows.pop()
        self.tokens, self.faults = [], []
        for piece in PIECE.finditer(self.text):
            if piece.lastgroup not in ('line', 'blank', 'comment'):
                self._take(piece)
        self._match_brackets()
        self.faults.sort(key=lambda fault: fault.start)
        self.lines = self._logical_lines()

    def row_of(self, place):
        """The number of the physical line with this place."""
        return bisect.bisect_right(self.starts, place)

    def line_at(self, number):
        """The logical line that begins on this physical line."""
        return next((line for line in self.lines if line.number == number), None)

    def _take(self, piece):
        kind, text, start, end = piece.lastgroup, piece[0], piece.start(), piece.end()
        line, wrong = self.row_of(start), None
        if kind == 'other':
            wrong = 'other'
        elif kind == 'number' and (not NUMBER.match(text) or int(text) > GREATEST):
            wrong = 'number'
        elif kind == 'text' and not piece['end']:
            wrong = 'open text'
        elif kind == 'text':
            escapes = [escape for escape in ESCAPE.finditer(text) if escape[1] not in '\\\'"']
            if escapes:
                wrong, start, end = 'escape', start + escapes[0].start(), start + escapes[0].end()
        if wrong:
            self.faults.append(Fault(wrong, line, start, end))
        else:
            self.tokens.append(Token('word' if text in RESERVED else kind, text, line, start, end))

    def _match_brackets(self):
        still_open = []
        for token in self.tokens:
            if token.text in ('(', '['):
                still_open.append(token)
            elif still_open and PARTNERS.get(token.text) == still_open[-1].text:
                still_open.pop()
            elif token.text in PARTNERS:
                self.faults.append(Fault('closing', token.line, token.start, token.end))
        self.faults += [Fault('opening', token.line, token.start, token.end) for token in still_open]

    def _logical_lines(self):
        lines, depth, last = [], 0, 0
        for token in self.tokens:
            if depth <= 0 and token.line > last:
                front = self.text[self.starts[token.line - 1]:token.start]
                lines.append(Line(token.line, front.count(' '), []))
            lines[-1].tokens.append(token)
            depth += (token.text in ('(', '[')) - (token.text in PARTNERS)
            last = token.line
        return lines

    def byte_faults(self, number):
        """The bytes of a physical line that no program may have, and the tabs at its front."""
        row, start = self.rows[number - 1], self.starts[number - 1]
        pieces = list(PIECE.finditer(row))
        code = next((row[:piece.start()] for piece in pieces if piece.lastgroup == 'comment'), row)
        in_text = {at for piece in pieces if piece.lastgroup == 'text' for at in range(piece.start(), piece.end())}
        front = len(code) - len(code.lstrip(' \t')) if code.strip(' \t\r') else 0
        has_end = start + len(row) < len(self.text)

        def fault(at):
            if code[at] == '\t' and at < front:
                return 'tab'
            if ' ' <= code[at] <= '~' or code[at] == '\t' and at not in in_text:
                return None
            return None if code[at] == '\r' and at == len(row) - 1 and has_end else 'byte'

        return [Fault(fault(at), number, start + at, start + at + 1) for at in range(len(code)) if fault(at)]
