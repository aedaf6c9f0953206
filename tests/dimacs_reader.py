"""Readers of formulas and of proofs as texts, written apart from the crates; nothing by itself.

Each answers the least line at which no text of the form goes on so, or 0 for a text of the form; texts are bytes.
"""
import re

NUMBER = rb'(?:0|[1-9][0-9]*)'
HEADER = re.compile(rb'p[ \t]+cnf[ \t]+(%s)[ \t]+(%s)[ \t\r]*' % (NUMBER, NUMBER))
WORD = re.compile(rb'-?[1-9][0-9]*')
MOST_VARIABLES, MOST_CLAUSES, MOST_NUMBER = 1000000, 3000000, 2147483647


def split_lines(text):
    """The lines, the last of which may lack its end."""
    lines = text.split(b'\n')
    return lines if lines[-1] else lines[:-1]


class Body:
    """The clauses so far."""

    def __init__(self, variables, count):
        self.variables, self.count, self.clauses, self.open = variables, count, [], []

    def takes(self, word):
        """Whether some text goes on with this word; it is taken."""
        if len(self.clauses) == self.count:
            return False
        if word == b'0':
            self.clauses.append(self.open)
            self.open = []
            return True
        if not WORD.fullmatch(word) or abs(int(word)) > self.variables:
            return False
        self.open.append(int(word))
        return True

    def is_whole(self):
        return len(self.clauses) == self.count and not self.open


def read_formula(text):
    """The line, the number of variables, and the clauses as they stand there."""
    body = None
    lines = split_lines(text)
    for number, line in enumerate(lines, 1):
        if line.startswith(b'c') or (body is None and not line.strip(b' \t\r')):
            continue
        if body is None:
            header = HEADER.fullmatch(line)
            if not header or int(header[1]) > MOST_VARIABLES or int(header[2]) > MOST_CLAUSES:
                return number, 0, []
            body = Body(int(header[1]), int(header[2]))
        elif line.startswith(b'%'):
            return 0 if body.is_whole() else number, body.variables, body.clauses
        elif not all(body.takes(word) for word in re.split(rb'[ \t\r]+', line) if word):
            return number, 0, []
    if body is None or not body.is_whole():
        return len(lines) + 1, 0, []
    return 0, body.variables, body.clauses


def tidied(clauses):
    """What a formula keeps of clauses: a literal once, and no clause with a variable in both signs."""
    return [list(dict.fromkeys(clause)) for clause in clauses if not any(-literal in clause for literal in clause)]


def numbers(words, least, most):
    """The numbers that the words spell, if each is one of these."""
    if not all(re.fullmatch(NUMBER, word) and least <= int(word) <= most for word in words):
        return None
    return [int(word) for word in words]


def read_step(line, variables, number):
    """The clause and the hints of a step, if the line is one; `number` is its own."""
    words = line.split(b' ')
    if words[0] != b'l' or words.count(b'0') != 2 or words[-1] != b'0':
        return None
    cut = words.index(b'0')
    literals, hints = words[1:cut], numbers(words[cut + 1:-1], 1, min(number - 1, MOST_NUMBER))
    if hints is None or not all(WORD.fullmatch(word) and abs(int(word)) <= variables for word in literals):
        return None
    clause = [int(word) for word in literals]
    return (clause, hints) if len(set(map(abs, clause))) == len(clause) else None


def read_proof(text, known, variables):
    """The line, and the steps."""
    *lines, rest = text.split(b'\n')
    steps = []
    for number, line in enumerate(lines, 1):
        if line == b'end':
            return (0, steps) if number == len(lines) and not rest else (number + 1, [])
        step = read_step(line, variables, known + number)
        if step is None:
            return number, []
        steps.append(step)
    return len(lines) + 1, []
