"""Reads a certificate's text, or refuses it with the line, by the form of docs/formats.md alone; nothing by itself.

A reader apart from the one that is proved, to compare the two.
"""
import re

NUMBER = re.compile(rb'(0|[1-9][0-9]*)\Z')
GREATEST = 2147483647
GREATEST_COST = 4096
GREATEST_BUDGET = 200000


class Refused(Exception):
    """The text isn't of the form; the argument is the line."""


def number(word, least=0, most=GREATEST):
    """The number that a word spells, or None."""
    if not NUMBER.match(word) or len(word) > 10:
        return None
    value = int(word)
    return value if least <= value <= most else None


def pairs(words):
    """The pairs of a selection, or None."""
    found = []
    for word in words:
        parts = word.split(b':')
        if len(parts) != 2:
            return None
        pick, member = number(parts[0]), number(parts[1], least=1)
        if pick is None or member is None or (found and pick <= found[-1][0]):
            return None
        found.append((pick, member))
    return found


def values(text):
    """The values of a case, or None."""
    found = []
    at = 0
    while True:
        value, at = one_value(text, at)
        if value is None:
            return None
        found.append(value)
        if at == len(text):
            return found
        if text[at:at + 2] != b', ':
            return None
        at += 2


WORD = re.compile(rb'True|False|-?[0-9]+')


def one_value(text, at):
    """The value at a place and the place behind it."""
    if text[at:at + 1] in (b"'", b'"'):
        return one_text(text, at)
    if text[at:at + 1] == b'[':
        return one_list(text, at)
    match = WORD.match(text, at)
    if not match:
        return None, at
    word = match.group()
    if word in (b'True', b'False'):
        return word == b'True', match.end()
    return integer(word), match.end()


def integer(word):
    """A number of 32 bits, without a leading zero and without a sign at zero, or None."""
    if not re.match(rb'(0|-?[1-9][0-9]*)\Z', word) or len(word) > 11:
        return None
    value = int(word)
    return value if -2147483648 <= value <= 2147483647 else None


def one_list(text, at):
    """The list at a place and the place behind it."""
    end = text.find(b']', at)
    if end < 0:
        return None, at
    inner = text[at + 1:end]
    numbers = [integer(word) for word in inner.split(b', ')] if inner else []
    return (None if None in numbers else numbers), end + 1


def one_text(text, at):
    """The text between quotes at a place and the place behind it."""
    quote = text[at]
    found = []
    at += 1
    while at < len(text):
        byte = text[at]
        if byte == quote:
            return ('text', bytes(found)), at + 1
        if byte == 92:
            at += 1
            if at == len(text) or text[at] not in b'\\\'"':
                return None, at
            byte = text[at]
        elif not 32 <= byte <= 126:
            return None, at
        found.append(byte)
        at += 1
    return None, at


def literals(words, variables):
    """The literals of a clause and the words behind its 0, or None."""
    found = []
    for place, word in enumerate(words):
        if word == b'0':
            if len({abs(lit) for lit in found}) < len(found):
                return None
            return found, words[place + 1:]
        digits = word[1:] if word[:1] == b'-' else word
        variable = number(digits, least=1, most=min(variables, GREATEST))
        if variable is None:
            return None
        found.append(-variable if digits != word else variable)
    return None


class Reader:
    """A text's lines, and the place of the next one."""

    def __init__(self, text):
        self.lines = text.split(b'\n')
        self.tail = self.lines.pop()
        self.at = 0

    def refuse(self):
        raise Refused(self.at + 1)

    def words(self):
        """The words of the next line; where it is missing, the text is refused."""
        if self.at == len(self.lines):
            self.refuse()
        return self.lines[self.at].split(b' ')

    def take(self, found):
        """Goes on behind a line that told something; one that told nothing is refused."""
        if found is None:
            self.refuse()
        self.at += 1
        return found

    def claim(self):
        """The claim, as a kind and a number."""
        words = self.words()
        if words == [b'claim', b'none']:
            return self.take(('none', 0))
        if len(words) != 3 or words[0] != b'claim':
            self.refuse()
        if words[1] == b'cost':
            cost = number(words[2], most=GREATEST_COST)
            return self.take(None if cost is None else ('cost', cost))
        if words[1] == b'spent':
            budget = number(words[2], least=1, most=GREATEST_BUDGET)
            return self.take(None if budget is None else ('spent', budget))
        return self.refuse()

    def selection(self):
        """The selection that stands with a cost."""
        words = self.words()
        return self.take(pairs(words[1:]) if words[0] == b'selection' else None)

    def cases(self):
        """The cases."""
        found = []
        while self.words()[0] == b'case':
            line = self.lines[self.at]
            found.append(self.take([] if line == b'case' else values(line[len(b'case '):])))
        return found

    def query(self, count):
        """The question of a session."""
        words = self.words()
        if words[0] != b'session':
            self.refuse()
        if words[1:] == [b'first']:
            return self.take(('first',))
        if words[1:2] == [b'fail']:
            found = pairs(words[2:])
            return self.take(None if found is None else ('fail', found))
        if len(words) != 4 or words[1] != b'low':
            self.refuse()
        most = 'any' if words[2] == b'any' else number(words[2], most=GREATEST_COST)
        cases = number(words[3], most=min(count, GREATEST))
        return self.take(None if most is None or cases is None else ('low', most, cases))

    def variables(self):
        """The number of variables of a session."""
        words = self.words()
        good = len(words) == 2 and words[0] == b'vars'
        return self.take(number(words[1]) if good else None)

    def clauses(self, variables):
        """The clauses of a formula."""
        found = []
        while not found or self.words()[0] == b'f':
            words = self.words()
            read = literals(words[1:], variables) if words[0] == b'f' else None
            found.append(self.take(None if read is None or read[1] else read[0]))
        return found

    def steps(self, variables, known):
        """The clauses of a log, each with its hints."""
        found = []
        while self.words()[0] == b'l':
            read = literals(self.words()[1:], variables)
            if read is None or read[1][-1:] != [b'0']:
                self.refuse()
            own = known + len(found) + 1
            hints = [number(word, least=1, most=min(own - 1, GREATEST)) for word in read[1][:-1]]
            found.append(self.take(None if None in hints else (read[0], hints)))
        return found

    def session(self, count):
        """A session."""
        query = self.query(count)
        variables = self.variables()
        clauses = self.clauses(variables)
        return query, variables, clauses, self.steps(variables, len(clauses))

    def certificate(self):
        """The certificate: claim, selection, cases and sessions."""
        self.take(1 if self.words() == [b'mpycert', b'1'] else None)
        claim = self.claim()
        selection = self.selection() if claim[0] == 'cost' else []
        cases = self.cases()
        sessions = []
        while self.words() != [b'end']:
            sessions.append(self.session(len(cases)))
        self.at += 1
        if self.at < len(self.lines) or self.tail:
            self.refuse()
        return claim, selection, cases, sessions


def read(text):
    """The certificate, or the line at which the text is refused."""
    try:
        return Reader(text).certificate()
    except Refused as refused:
        return refused.args[0]


def printed(value):
    """A value of a case as it is written."""
    if isinstance(value, tuple):
        return "'" + value[1].decode().replace('\\', '\\\\').replace("'", "\\'") + "'"
    return str(value)


def pairs_written(selection):
    return ''.join(' %d:%d' % pair for pair in selection)


def literals_written(lits):
    return ''.join(' %d' % lit for lit in lits) + ' 0'


def written(cert):
    """The text of a certificate that was read."""
    claim, selection, cases, sessions = cert
    lines = ['mpycert 1', 'claim none' if claim[0] == 'none' else 'claim %s %d' % claim]
    if claim[0] == 'cost':
        lines.append('selection' + pairs_written(selection))
    lines += ['case' + ' ' * bool(values) + ', '.join(map(printed, values)) for values in cases]
    for query, variables, clauses, steps in sessions:
        more = pairs_written(query[1]) if query[0] == 'fail' else ''.join(' %s' % it for it in query[1:])
        lines += ['session ' + query[0] + more, 'vars %d' % variables]
        lines += ['f' + literals_written(lits) for lits in clauses]
        lines += ['l' + literals_written(lits) + literals_written(hints) for lits, hints in steps]
    return ''.join(line + '\n' for line in lines + ['end']).encode()
