"""Circuits as the program over values writes them, and what they give for operands; nothing by itself."""

# How many operands are looked at together.
TOGETHER = 1 << 16


def bits_of(number, width):
    """The lowest bits of a number, the lowest first."""
    return ''.join('1' if number >> k & 1 else '0' for k in range(width))


def number_of(bits):
    """The number of some bits without a sign."""
    return int(bits[::-1], 2)


def signed(bits):
    return number_of(bits) - (1 << len(bits) if bits[-1] == '1' else 0)


def operand_bits(value, limits, junk):
    """The bits of a value in the order of the program's variables; `junk` stands for the items behind the end."""
    if isinstance(value, bool):
        return '1' if value else '0'
    if isinstance(value, int):
        return bits_of(value, limits.width)
    if isinstance(value, str):
        items = ''.join(bits_of(ord(it), 7) for it in value)
        return bits_of(len(value), 5) + items + junk[:7 * limits.cap - len(items)]
    items = ''.join(bits_of(it, limits.width) for it in value)
    return bits_of(len(value), 5) + items + junk[:limits.width * limits.cap - len(items)]


def parts(bits, sizes):
    """The words of these sizes that stand one behind another."""
    words, at = [], 0
    for size in sizes:
        words.append(bits[at:at + size])
        at += size
    return words


def spelled(kind, words):
    """The value of a type that these words spell, or None for a length that is too great."""
    if kind == 'b':
        return words[0] == '1'
    if kind == 'n':
        return signed(words[0])
    count = number_of(words[0])
    if count > len(words) - 1:
        return None
    if kind == 'l':
        return tuple(map(signed, words[1:count + 1]))
    return ''.join(chr(number_of(it)) for it in words[1:count + 1])


class Circuit:
    """A circuit, by the program's answer."""

    def __init__(self, answer):
        variables, gates, fault, value = answer.split('|')
        self.variables = int(variables)
        self.gates = [tuple(map(int, gate.split('.'))) for gate in gates.split()]
        self.kind, *words = value.split()
        self.words = [[int(bit) for bit in word.split('.')] for word in words]
        self.fault = int(fault)

    def results(self):
        """The bits of what the circuit gives, the fault first."""
        return [self.fault] + [bit for word in self.words for bit in word]

    def rows(self, operands):
        """What each of those bits is for these operands, each a text of the variables' bits."""
        count = len(operands)
        every = (1 << count) - 1
        known = [every] + [int(''.join(column), 2) for column in zip(*operands)]
        for left, right in self.gates:
            first, second = known[left >> 1], known[right >> 1]
            known.append((first ^ every if left & 1 else first) & (second ^ every if right & 1 else second))
        for bit in self.results():
            column = known[bit >> 1] ^ every if bit & 1 else known[bit >> 1]
            yield format(column, '0%db' % count)

    def decoded(self, bits):
        """The outcome that these bits spell: a value, a list for a fault, or None for a length that is too great."""
        if bits[0] == '1':
            return ['fault']
        return spelled(self.kind, parts(bits[1:], map(len, self.words)))

    def outcomes(self, operands):
        """What the circuit gives for each of these operands."""
        seen = {}
        for bits in zip(*self.rows(operands)):
            if bits not in seen:
                seen[bits] = self.decoded(''.join(bits))
            yield seen[bits]

    def cone(self):
        """How many gates the results stand on, and the most of them in a row."""
        used, depths = set(), [0] * (self.variables + 1)
        for left, right in self.gates:
            depths.append(1 + max(depths[left >> 1], depths[right >> 1]))
        left = [bit >> 1 for bit in self.results()]
        while left:
            source = left.pop()
            if source > self.variables and source not in used:
                used.add(source)
                left += [bit >> 1 for bit in self.gates[source - self.variables - 1]]
        return len(used), max((depths[it] for it in used), default=0)
