"""The operations on values, each with what the plain model evaluates for it, and operands for them; nothing by itself.

A number is an `int`, a truth value a `bool`, a list a `tuple` and a text a `str`; their types have the letters `n`, `b`, `l`
and `t`. MODEL is the path of the model's command line; its modules lie beside it.
"""
import itertools
import os
import sys

A, B, C = ('Name', 'a'), ('Name', 'b'), ('Name', 'c')
NAMES = 'abcdefgh'
WORDS = {'n': 'number', 'b': 'truth value', 'l': 'list', 't': 'text'}
# Characters of which each bit is looked at somewhere.
CHARACTERS = ''.join(chr(65 ^ (1 << k)) for k in range(7)) + 'A'


def arith(op):
    return ('Arith', op, A, B)


def compared(op):
    return ('Cmp', op, A, B)


def call(name, *args):
    return ('Call', name, args)


# The crates' name of an operation, the types of its operands, and the tree that means it.
OPERATIONS = [
    ('sum', ('nn',), arith('+')),
    ('difference', ('nn',), arith('-')),
    ('product', ('nn',), arith('*')),
    ('quotient', ('nn',), arith('//')),
    ('remainder', ('nn',), arith('%')),
    ('raised', ('nn',), arith('**')),
    ('negated', ('n',), ('Neg', A)),
    ('absolute_value', ('n',), call('abs', A)),
    ('least', ('nn',), call('min', A, B)),
    ('greatest', ('nn',), call('max', A, B)),
    ('less_than', ('nn',), compared('<')),
    ('at_most', ('nn',), compared('<=')),
    ('above', ('nn',), compared('>')),
    ('at_least', ('nn',), compared('>=')),
    ('equality', ('nn', 'bb', 'll', 'tt'), compared('==')),
    ('inequality', ('nn', 'bb', 'll', 'tt'), compared('!=')),
    ('negation', ('n', 'b', 'l', 't'), ('Not', A)),
    ('test_bit', ('n', 'b', 'l', 't'), ('Cond', A, ('Bool', True), ('Bool', False))),
    ('length_value', ('l', 't'), call('len', A)),
    ('choose_value', ('bnn', 'bbb', 'bll', 'btt'), ('Cond', A, B, C)),
    ('item', ('ln', 'tn'), ('Index', A, B)),
    ('replacement', ('lnn',), ('Put', 'a', B, C)),
    ('part', ('l', 't'), ('Slice', A, None, None)),
    ('part_from', ('ln', 'tn'), ('Slice', A, B, None)),
    ('part_to', ('ln', 'tn'), ('Slice', A, None, B)),
    ('part_between', ('lnn', 'tnn'), ('Slice', A, B, C)),
    ('concatenation', ('ll', 'tt'), arith('+')),
    ('extension', ('ln',), ('Append', 'a', B)),
    ('repetition', ('ln', 'tn'), arith('*')),
    ('membership', ('nl', 'tt'), compared('in')),
    ('absence', ('nl', 'tt'), compared('not in')),
    ('range_value', ('n',), call('range', A)),
    ('range_value', ('nn',), call('range', A, B)),
    ('range_value', ('nnn',), call('range', A, B, C)),
]


def literals(limits):
    """The same for lists that are written, from the empty one to one more number than there may be."""
    for count in range(limits.cap + 2):
        yield 'list_literal', 'n' * count, ('List', tuple(('Name', NAMES[k]) for k in range(count)))


def operations(limits):
    """Each operation with the types of its operands and its tree; of written lists those of few numbers."""
    for name, many, tree in OPERATIONS:
        for types in many:
            yield name, types, tree
    if limits.cap < 4:
        yield from literals(limits)


def label(name, types):
    """An operation on these types, in words."""
    if name == 'list_literal':
        return '%s (numbers)' % name
    return '%s (%s)' % (name, ', '.join(WORDS[it] for it in types))


class Model:
    """The plain model, by its modules."""

    def __init__(self, path):
        sys.dont_write_bytecode = True
        sys.path.insert(0, os.path.dirname(os.path.realpath(path)))
        import interp
        self.interp, self.stop = interp, interp.Stop

    def limits(self, width, cap):
        return self.interp.Limits(width, 1, 1, cap)

    def meaning(self, limits):
        """A function from a tree and its operands to the value, or the name of the fault in a list."""
        run, stop = self.interp.Run((), limits, 'f'), self.stop

        def evaluated(tree, values):
            state = dict(zip(NAMES, values))
            try:
                if tree[0] in ('Put', 'Append'):
                    run.act(tree, state, 1, 1)
                    return state['a']
                return run.ev(tree, state, 1)
            except stop as fault:
                return [fault.kind]
        return evaluated


def text_of(value):
    """A value as the program writes it; a fault is a list."""
    if isinstance(value, list):
        return '!'
    if isinstance(value, bool):
        return 'b%d' % value
    if isinstance(value, int):
        return 'n%d' % value
    if isinstance(value, tuple):
        return 'l' + ','.join(map(str, value))
    return 't' + value.encode().hex()


def outcome_of(value):
    """What a result is counted as: the name of its fault, its truth, or a value."""
    if isinstance(value, bool):
        return str(value)
    return value[0] if isinstance(value, list) else 'value'


# Operands

def numbers(limits):
    return list(range(limits.low, limits.high + 1))


def sequences(items, cap):
    """All tuples of these items of up to so many."""
    return [it for count in range(cap + 1) for it in itertools.product(items, repeat=count)]


def texts(characters, cap):
    return [''.join(it) for it in sequences(characters, cap)]


class Maker:
    """Random operands. Those of one operation often have to do with one another."""

    def __init__(self, rng, limits):
        self.rng, self.limits = rng, limits

    def clamped(self, number):
        return max(self.limits.low, min(self.limits.high, number))

    def number(self):
        low, high, draw = self.limits.low, self.limits.high, self.rng.random()
        if draw < 0.3:
            return self.rng.randint(low, high)
        if draw < 0.5:
            return self.rng.choice((low, low + 1, high - 1, high))
        within = self.rng.choice((3, self.limits.cap, 2 * self.limits.cap))
        return self.clamped(self.rng.randint(-within, within))

    def count(self):
        cap = self.limits.cap
        return self.rng.choice((cap, self.rng.randint(0, cap), self.rng.randint(0, cap), self.rng.randint(0, min(3, cap))))

    def list(self):
        some = [self.number() for _ in range(self.rng.choice((2, 20)))]
        return tuple(self.rng.choice(some) for _ in range(self.count()))

    def text(self):
        some = self.rng.choice(('ab', CHARACTERS, ''.join(map(chr, range(32, 127)))))
        return ''.join(self.rng.choice(some) for _ in range(self.count()))

    def value(self, kind):
        return {'n': self.number, 'l': self.list, 't': self.text, 'b': lambda: self.rng.random() < 0.5}[kind]()

    def part(self, sequence):
        low = self.rng.randint(0, len(sequence))
        return sequence[low:self.rng.randint(low, len(sequence))]

    def changed(self, sequence):
        """An equal one, one that differs at one place, or a part."""
        at, draw = self.rng.randrange(len(sequence) + 1), self.rng.random()
        if draw < 0.4 or at == len(sequence):
            return sequence
        if draw < 0.6:
            return self.part(sequence)
        other = chr(ord(sequence[at]) ^ 1) if isinstance(sequence, str) else (self.number(),)
        return sequence[:at] + other + sequence[at + 1:]

    def operands(self, types):
        values = [self.value(kind) for kind in types]
        related = self.rng.random() < 0.5
        if related and types in ('ll', 'tt', 'bll', 'btt'):
            values[-2] = self.changed(values[-1])
        elif related and types == 'nl' and values[1]:
            values[0] = self.rng.choice(values[1])
        elif related and types == 'nnn':
            values[1] = self.clamped(values[0] + values[2] * self.rng.randint(0, self.limits.cap + 2))
        return tuple(values)
