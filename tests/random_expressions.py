"""Random weighted expressions as the plain model's trees, and settings in which they are evaluated; nothing by itself.

A type is a letter, as in `value_operations.py`, and a name has the letter of its type. A setting is a text as the program of
`expressions_try.py` reads it.
"""
from value_circuits import bits_of, number_of, operand_bits, parts, spelled
from value_operations import Maker

NAMES = ('n', 'n2', 'm', 'b', 'b2', 'l', 'l2', 't', 't2')
TYPES = 'nblt'
# Of a whole expression, and of a test.
WHOLES = 'nbbblt'
TESTS = 'bbbnlt'
ORDERS = ('<', '<=', '>', '>=')
ARITH = ('+', '+', '+', '-', '-', '-', '*', '*', '//', '%', '**')
LETTERS = ('a', 'b', 'ab', 'ba', 'abc', ' ', '~')


def type_of(name):
    return 'n' if name == 'm' else name[0]


class Expressions:
    """Makes expressions of a type, up to a depth, of about so many nodes at most."""

    def __init__(self, rng, limits, left):
        self.rng, self.limits, self.left = rng, limits, left
        self.calm, self.picky = rng.random() < 0.6, rng.choice((0.05, 0.15, 0.3))
        self.members = []

    def of(self, kind, depth):
        self.left -= 1
        if depth <= 1 or self.left <= 0 or self.rng.random() < 0.1:
            return self.leaf(kind)
        if self.rng.random() < self.picky:
            return self.a_pick(kind, depth - 1)
        if self.rng.random() < 0.1:
            return ('Cond', *self.all_of(self.rng.choice(TESTS) + kind * 2, depth - 1))
        return {'n': self.a_number, 'b': self.a_truth, 'l': self.a_list, 't': self.a_text}[kind](depth - 1)

    def all_of(self, kinds, depth):
        return tuple(self.of(kind, depth) for kind in kinds)

    def leaf(self, kind):
        rng, cap = self.rng, self.limits.cap
        if rng.random() < 0.6:
            return ('Name', rng.choice([name for name in NAMES if type_of(name) == kind]))
        if kind == 'n':
            return ('Int', self.number())
        if kind == 'b':
            return ('Bool', rng.random() < 0.5)
        if kind == 't':
            return ('Text', rng.choice(LETTERS)[:cap] if self.calm else ''.join(rng.choice('ab ~') for _ in range(self.count())))
        return ('List', tuple(('Int', self.number()) for _ in range(self.count())))

    def number(self):
        high = self.limits.high
        if self.calm or self.rng.random() < 0.7:
            return self.rng.choice((0, 0, 1, 1, 1, 2, 2, 3))
        return self.rng.choice((high - 1, high, high, high + 1, 2 * high + 2, 65535, 65536, 2 ** 31 + 1, 2 ** 32 - 1))

    def count(self):
        cap = self.limits.cap
        return self.rng.randint(0, cap if self.calm else cap + 1)

    def place(self, depth):
        """An index, mostly a small one."""
        if self.rng.random() < 0.4:
            return self.of('n', depth)
        return self.rng.choice((('Int', 0), ('Int', 1), ('Neg', ('Int', 1)), ('Int', self.limits.cap)))

    def a_pick(self, kind, depth):
        """A pick, whose number another one has only now and then."""
        number = len(self.members)
        if number and self.rng.random() < 0.05:
            number = self.rng.randrange(number)
        else:
            self.members.append(0)
        trees = [self.of(kind, depth) for _ in range(self.rng.choice((2, 2, 3, 3, 4, 5)))]
        self.members[number] = max(self.members[number], len(trees))
        rest = tuple((self.rng.randrange(9), self.rng.randrange(9), tree) for tree in trees[1:])
        return ('Pick', number, trees[0], rest)

    def a_number(self, depth):
        kind = self.rng.randrange(12)
        if kind < 5:
            return ('Arith', self.rng.choice(ARITH)) + self.all_of('nn', depth)
        if kind == 5:
            return ('Neg', self.of('n', depth))
        if kind == 6:
            return ('Call', 'abs', self.all_of('n', depth))
        if kind == 7:
            return ('Call', self.rng.choice(('min', 'max')), self.all_of('nn', depth))
        if kind < 10:
            return ('Call', 'len', self.all_of(self.rng.choice('lt'), depth))
        return ('Index', self.of('l', depth), self.place(depth))

    def a_truth(self, depth):
        kind = self.rng.randrange(10)
        if kind < 2:
            return ('Not', self.of(self.rng.choice(TYPES), depth))
        if kind < 5:
            return (self.rng.choice(('And', 'Or')),) + self.all_of('bb', depth)
        if kind < 7:
            return ('Cmp', self.rng.choice(ORDERS)) + self.all_of('nn', depth)
        if kind == 7:
            return ('Cmp', self.rng.choice(('in', 'not in'))) + self.all_of(self.rng.choice(('nl', 'tt')), depth)
        return ('Cmp', self.rng.choice(('==', '!='))) + self.all_of(self.rng.choice(TYPES) * 2, depth)

    def a_list(self, depth):
        kind = self.rng.randrange(6)
        if kind == 0:
            return ('Call', 'range', self.all_of('n' * self.rng.randint(1, 3), depth))
        if kind == 1:
            return ('List', self.all_of('n' * self.count(), depth))
        return self.a_sequence('l', depth)

    def a_text(self, depth):
        if self.rng.random() < 0.25:
            return ('Index', self.of('t', depth), self.place(depth))
        return self.a_sequence('t', depth)

    def a_sequence(self, kind, depth):
        draw = self.rng.randrange(8)
        if draw < 2:
            return ('Arith', '+') + self.all_of(kind * 2, depth)
        if draw == 2:
            return ('Arith', '*', self.of(kind, depth), self.place(depth))
        ends = [self.place(depth) if self.rng.random() < 0.6 else None for _ in range(2)]
        return ('Slice', self.of(kind, depth), *ends)


def renumbered(tree, e, numbers):
    """An expression with other numbers of picks."""
    below = [renumbered(tree, part, numbers) for part in tree.parts(e)]
    e = tree.rebuild(e, below) if below else e
    return ('Pick', numbers[e[1]]) + e[2:] if e[0] == 'Pick' else e


def plain(tree, e, members):
    """The expression that is left when each pick is the member of its number, or its base where there is none."""
    if e[0] == 'Pick':
        some = tree.parts(e)
        return plain(tree, some[members[e[1]] if members[e[1]] < len(some) else 0], members)
    below = [plain(tree, part, members) for part in tree.parts(e)]
    return tree.rebuild(e, below) if below else e


class Settings:
    """Random settings for one expression: the names in an order, and how many bits each pick's member has."""

    def __init__(self, rng, limits, members):
        self.rng, self.limits, self.maker = rng, limits, Maker(rng, limits)
        self.names = rng.sample(NAMES, len(NAMES))
        self.unset = rng.choice((0, 0, 0.1, 0.3))
        self.small = rng.random() < 0.5
        self.sizes = [self.size_of(count) for count in members]

    def size_of(self, count):
        """Mostly as many bits as the members' numbers take, and none where a pick has no members."""
        least = max(count - 1, 0).bit_length()
        return max(0, least + self.rng.choice((0, 0, 0, 0, 0, 1, 2, -1)))

    def words(self, kind):
        """The sizes of the words of a value."""
        if kind in 'nb':
            return [self.limits.width if kind == 'n' else 1]
        return [5] + [self.limits.width if kind == 'l' else 7] * self.limits.cap

    def junk(self, size):
        return bits_of(self.rng.getrandbits(size), size) if size else ''

    def value(self, kind):
        value = self.maker.value(kind)
        if self.small and kind == 'n':
            return self.maker.clamped(self.rng.randint(-1, 3))
        if self.small and kind in 'lt':
            return value[:self.rng.randint(0, self.limits.cap)]
        return value

    def local(self, kind, unset):
        """A local as it is written, with any bits where nothing looks at them."""
        size = sum(self.words(kind))
        if self.rng.random() < unset:
            return '0%s%s' % (kind, self.junk(size))
        return '1%s%s' % (kind, operand_bits(self.value(kind), self.limits, self.junk(size)))

    def a_setting(self, least=0):
        """A setting without variables, in which at least about such a part of the locals is unset."""
        unset = max(self.unset, least)
        locals_ = [self.local(type_of(name), unset) for name in self.names]
        return ','.join(locals_ + ['/' + self.junk(size) for size in self.sizes])

    def freed(self, setting, used):
        """A setting with variables for some bits: of some locals that are used the bit that says whether it is set, the length,
        the items or all, and of some picks the number."""
        words, rate = setting.split(','), self.rng.choice((0.3, 0.6, 1))
        free = [name in used and self.rng.random() < rate for name in self.names]
        locals_ = [self.freed_local(word) if it else word for it, word in zip(free, words)]
        return ','.join(locals_ + [self.freed_member(word) for word in words[len(free):]])

    def freed_member(self, word):
        return '/' + '*' * len(word[1:]) if self.rng.random() < 0.75 else word

    def freed_local(self, word):
        draw, mark, kind, bits = self.rng.random(), word[0], word[1], word[2:]
        length = 5 if kind in 'lt' else len(bits)
        if draw < 0.6:
            bits = '*' * len(bits)
        elif draw < 0.75:
            bits = '*' * length + bits[length:]
        elif draw < 0.9:
            bits = bits[:length] + '*' * len(bits[length:])
        return ('*' if draw >= 0.9 or self.rng.random() < 0.25 else mark) + kind + bits

    def read(self, setting):
        """The state and the members of a setting without variables, or None where a length that is looked at is too great."""
        words = setting.split(',')
        state = {}
        for name, word in zip(self.names, words):
            if word[0] == '1':
                state[name] = spelled(word[1], parts(word[2:], self.words(word[1])))
        members = tuple(number_of(word[1:]) if word[1:] else 0 for word in words[len(self.names):])
        return None if None in state.values() else (state, members)


def variables(setting, truth_values):
    """The bits of a setting without variables that stand where another has variables."""
    return ''.join(bit for mark, bit in zip(setting, truth_values) if mark == '*')


def filled(setting, bits):
    """A setting with bits in place of its variables."""
    bits = iter(bits)
    return ''.join(next(bits) if mark == '*' else mark for mark in setting)
