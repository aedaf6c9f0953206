"""Random certificates as texts, and spoiled ones; nothing by itself."""

NUMBERS = ('0', '1', '2', '9', '10', '4096', '4097', '200000', '200001', '2147483647', '2147483648', '00', '01', '-1', '')
WORDS = ('any', 'none', 'cost', 'first', 'low', 'fail', 'f', 'l', 'end', 'vars', 'session', 'selection', '1:1', '0:2', ':')
VALUES = ('0', '-7', 'True', "'a b'", '"it\'s"', '[]', '[1, -2]', "'it\\'s'", '[1,2]', '-0', '04')


class Maker:
    """Makes certificates with the help of a source of random numbers."""

    def __init__(self, rng):
        self.rng = rng

    def choices(self):
        """A selection's words, each behind a space."""
        picks = sorted(self.rng.sample(range(6), self.rng.randrange(4)))
        return ''.join(f' {pick}:{self.rng.randrange(1, 4)}' for pick in picks)

    def claim(self):
        kind = self.rng.randrange(3)
        if kind == 0:
            return ['claim none']
        if kind == 1:
            return [f'claim spent {self.rng.choice((1, 77, 200000))}']
        return [f'claim cost {self.rng.choice((0, 3, 4096))}', 'selection' + self.choices()]

    def cases(self):
        rows = [self.rng.sample(VALUES[:8], self.rng.randrange(3)) for _ in range(self.rng.randrange(3))]
        return ['case' + (' ' + ', '.join(row) if row else '') for row in rows]

    def query(self, count):
        kind = self.rng.randrange(3)
        if kind == 0:
            return 'session first'
        if kind == 1:
            return f'session low {self.rng.choice(("any", 0, 4096))} {self.rng.randrange(count + 1)}'
        return 'session fail' + self.choices()

    def literals(self, variables):
        """The words of a clause up to its 0."""
        some = self.rng.sample(range(1, variables + 1), min(variables, self.rng.choice((0, 1, 2, 3, 4, 11))))
        return ''.join(f' {self.rng.choice((1, -1)) * variable}' for variable in some) + ' 0'

    def session(self, count):
        variables = self.rng.choice((0, 1, 4, 12))
        known = self.rng.randrange(1, 4)
        lines = [self.query(count), f'vars {variables}']
        lines += ['f' + self.literals(variables) for _ in range(known)]
        for step in range(self.rng.randrange(3)):
            hints = [self.rng.randrange(1, known + step + 1) for _ in range(self.rng.randrange(4))]
            lines.append('l' + self.literals(variables) + ''.join(f' {hint}' for hint in hints) + ' 0')
        return lines

    def certificate(self):
        """The lines of a certificate."""
        cases = self.cases()
        lines = ['mpycert 1'] + self.claim() + cases
        for _ in range(self.rng.randrange(3)):
            lines += self.session(len(cases))
        return lines + ['end']

    def spoiled(self, lines):
        """Other lines, that differ in a word, a byte or a line."""
        lines, at, kind = list(lines), self.rng.randrange(len(lines)), self.rng.randrange(5)
        words = lines[at].split(' ')
        if kind == 0:
            words[self.rng.randrange(len(words))] = self.rng.choice(NUMBERS + WORDS)
        elif kind == 1:
            words.insert(self.rng.randrange(len(words) + 1), self.rng.choice(NUMBERS + WORDS))
        elif kind == 2:
            words.pop(self.rng.randrange(len(words)))
        lines[at] = ' '.join(words)
        if kind == 3:
            lines.insert(self.rng.randrange(len(lines) + 1), self.rng.choice(lines))
        elif kind == 4:
            lines.pop(at)
        return lines

    def whole(self):
        """The text of a certificate."""
        return ''.join(line + '\n' for line in self.certificate()).encode()

    def near(self):
        """The text of a certificate of which some words, lines or a byte are others, or whose end is cut off."""
        lines = self.certificate()
        kind = self.rng.randrange(8)
        for _ in range(self.rng.choice((1, 1, 2)) if kind < 6 else 0):
            lines = self.spoiled(lines) if lines else lines
        text = bytearray(''.join(line + '\n' for line in lines).encode())
        if kind == 6:
            text[self.rng.randrange(len(text))] = self.rng.choice((0, 9, 10, 13, 32, 45, 48, 49, 58, 101, 127, 255))
        elif kind == 7:
            del text[self.rng.randrange(len(text)):]
        return bytes(text)
