"""A model of the graph and of the word calls, to see what each rule of the graph saves.

A bit is (source, positive); source 0 is the constant, a negative one a variable, a positive one a gate.
Run it anywhere: python3 bench/graph_rules.py
"""

NO, YES = (0, False), (0, True)


class Graph:
    def __init__(self, parts=True, shorten=True, choices=True, positive=False):
        self.gates, self.numbers, self.variables = [], {}, 0
        self.use_parts, self.use_shorten, self.use_choices, self.positive = parts, shorten, choices, positive

    def variable(self):
        self.variables += 1
        return (-self.variables, True)

    def parts(self, a):
        return self.gates[a[0] - 1] if a[0] > 0 else None

    def simplify(self, a, b):
        if a[0] == 0:
            return b if a[1] else a
        if b[0] == 0:
            return a if b[1] else b
        if a[0] == b[0]:
            return a if a == b else NO
        if not self.use_parts:
            return None
        x, y = self.parts(a), self.parts(b)
        for one, gate, other in ((a, x, b), (b, y, a)):
            if gate:
                if flip(other) in gate:
                    return NO if one[1] else other
                if one[1] and other in gate:
                    return one
        if x and y and any(flip(p) in x for p in y):
            if a[1] and b[1]:
                return NO
            if a[1] or b[1]:
                return a if a[1] else b
        return None

    def shorten(self, a, b):
        if not self.use_shorten or b[1] or b[0] <= 0:
            return b
        left, right = (flip(p) for p in self.parts(b))
        if self.simplify(a, left) == NO:
            return right
        if self.simplify(a, right) == NO:
            return left
        return b

    def reduced(self, a, b):
        """The bit that two bits both are, or none and the parts of the gate that it needs."""
        bit = self.simplify(a, b)
        if bit is not None:
            return bit, None
        right = self.shorten(a, b)
        left = self.shorten(right, a)
        return self.simplify(left, right), tuple(sorted((left, right)))

    def find(self, a, b):
        bit, gate = self.reduced(a, b)
        if bit is None and gate in self.numbers:
            return (self.numbers[gate], True)
        return bit

    def land(self, a, b):
        bit, gate = self.reduced(a, b)
        if bit is not None:
            return bit
        if gate not in self.numbers:
            self.gates.append(gate)
            self.numbers[gate] = len(self.gates)
        return (self.numbers[gate], True)

    def lor(self, a, b):
        return flip(self.land(flip(a), flip(b)))

    def choose(self, c, yes, no):
        if self.use_choices:
            if not c[1]:
                c, yes, no = flip(c), no, yes
            if c[0] == 0:
                return yes
            if yes == no:
                return yes
            if yes == flip(no):
                return flip(self.xor(c, yes))
            for arm, other, sign in ((yes, no, True), (no, yes, False)):
                if arm[0] in (0, c[0]):
                    value = arm[1] if arm[0] == 0 else arm[1] == sign
                    test = (c[0], c[1] == sign)
                    return self.lor(test, other) if value else self.land(flip(test), other)
        return self.lor(self.land(c, yes), self.land(flip(c), no))

    def find_xor(self, a, b):
        both = self.find(a, b)
        neither = self.find(flip(a), flip(b))
        return None if both is None or neither is None else self.find(flip(both), flip(neither))

    def xor(self, a, b):
        if self.positive:
            bit = self.land(flip(self.land((a[0], True), (b[0], True))), self.lor((a[0], True), (b[0], True)))
            return bit if a[1] == b[1] else flip(bit)
        if self.use_choices:
            for second, turned in ((True, False), (False, True)):
                bit = self.find_xor((a[0], True), (b[0], second))
                if bit is not None:
                    return bit if (a[1] != b[1]) == turned else flip(bit)
        return self.land(flip(self.land(a, b)), self.lor(a, b))

    def half(self, a, b):
        both = self.land(a, b)
        return both, self.xor(a, b)

    def full(self, a, b, c):
        both, one = self.half(a, b)
        return self.xor(one, c), self.choose(one, c, both)


def flip(a):
    return (a[0], not a[1])


def carry_sum(g, a, b, c):
    out = []
    for x, y in zip(a, b):
        s, c = g.full(x, y, c)
        out.append(s)
    return out, c


def signed_sum(g, a, b, c):
    out, into = carry_sum(g, a[:-1], b[:-1], c)
    s, c = g.full(a[-1], b[-1], into)
    return out + [s], g.xor(into, c)


def flip_where(g, t, a):
    return [g.xor(t, x) for x in a]


def zeros(n):
    return [NO] * n


def magnitude(g, a):
    return carry_sum(g, flip_where(g, a[-1], a), zeros(len(a)), a[-1])[0]


def negate_where(g, t, a):
    wide = a + [a[-1]]
    return signed_sum(g, flip_where(g, t, wide), zeros(len(wide)), t)[0]


def signed_result(g, sign, size, over):
    wide = size + [NO]
    wide = signed_sum(g, flip_where(g, sign, wide), zeros(len(wide)), sign)[0]
    return wide[:-1], g.lor(over, g.xor(wide[-2], wide[-1]))


def product(g, a, b):
    out, over, some = [], NO, NO
    for k, d in enumerate(reversed(b)):
        out, carry = carry_sum(g, [g.land(d, x) for x in a[:k + 1]], [NO] + out, NO)
        over = g.lor(g.lor(over, carry), g.land(some, a[k]))
        some = g.lor(some, d)
    return out, over


def is_zero(g, b):
    return carry_sum(g, zeros(len(b)), [flip(x) for x in b], YES)[1]


def divide(g, a, b):
    some, rest, out = flip(is_zero(g, b)), zeros(len(a)), []
    for d in reversed(a):
        shifted = [d] + rest[:-1]
        difference, carry = carry_sum(g, shifted, [flip(x) for x in b], YES)
        q = g.land(carry, some)
        rest = [g.choose(q, x, y) for x, y in zip(difference, shifted)]
        out = [q] + out
    return out, rest


def divide_folded(g, a, b):
    size = magnitude(g, b)
    turned = negate_where(g, b[-1], a)
    number = flip_where(g, turned[-1], turned)[:len(a)]
    none = is_zero(g, size)
    return *divide(g, number, size), turned[-1], none


def floor(g, a, b):
    q, _, sign, none = divide_folded(g, a, b)
    wide = flip_where(g, sign, q + [NO])
    return wide[:-1] + [g.xor(wide[-2], wide[-1]), none]


def rem(g, a, b):
    _, rest, sign, none = divide_folded(g, a, b)
    turn = g.xor(sign, b[-1])
    return signed_sum(g, [g.land(sign, x) for x in b], flip_where(g, turn, rest), b[-1])[0] + [none]


def power(g, a, b):
    size, exponent = magnitude(g, a), [g.land(flip(b[-1]), x) for x in b]
    out, over = [YES] + zeros(len(a) - 1), NO
    for d in reversed(exponent):
        square, left = product(g, out, out)
        times, spilled = product(g, square, size)
        over = g.lor(over, g.lor(left, g.land(d, spilled)))
        out = [g.choose(d, x, y) for x, y in zip(times, square)]
    out, over = signed_result(g, g.land(a[-1], exponent[0]), out, over)
    return out + [over]


def mul(g, a, b):
    size, over = product(g, magnitude(g, a), magnitude(g, b))
    out, over = signed_result(g, g.xor(a[-1], b[-1]), size, over)
    return out + [over]


def less(g, a, b):
    below = NO
    for k in range(len(a)):
        x, y = (a[k], b[k]) if k < len(a) - 1 else (b[k], a[k])
        below = g.lor(g.land(flip(x), y), g.land(flip(g.land(x, flip(y))), below))
    return [below]


def equal(g, a, b):
    alike = YES
    for x, y in zip(a, b):
        alike = g.land(alike, flip(g.xor(x, y)))
    return [alike]


def pack(result):
    return result[0] + [result[1]]


CALLS = {
    "add": lambda g, a, b: pack(signed_sum(g, a, b, NO)),
    "sub": lambda g, a, b: pack(signed_sum(g, a, [flip(x) for x in b], YES)),
    "neg": lambda g, a, b: pack(signed_sum(g, zeros(len(a)), [flip(x) for x in a], YES)),
    "less": less, "equal": equal, "mul": mul, "floor": floor, "rem": rem, "power": power,
}


def measure(call, width, free, constant, **rules):
    g = Graph(**rules)
    a = [g.variable() for _ in range(free)]
    a += [a[-1]] * (width - free)
    if constant < 0:
        b = [g.variable() for _ in range(free)]
        b += [b[-1]] * (width - free)
    else:
        b = [(0, constant >> i & 1 == 1) for i in range(width)]
    out = CALLS[call](g, a, b)
    depth = {}
    for k, (x, y) in enumerate(g.gates, 1):
        depth[k] = 1 + max(depth.get(x[0], 0), depth.get(y[0], 0))
    cone, todo = set(), [o[0] for o in out if o[0] > 0]
    while todo:
        k = todo.pop()
        if k not in cone:
            cone.add(k)
            todo += [p[0] for p in g.gates[k - 1] if p[0] > 0]
    return len(cone), max((depth[k] for k in cone), default=0)


CELLS = ((4, 4, -1), (8, 8, -1), (16, 16, -1), (16, 4, -1), (16, 16, 3))
RULES = {"all rules": {}, "exclusive ors of positive bits": {"positive": True}, "without the rules of choices": {"choices": False}, "without the replaced part": {"shorten": False}, "without parts": {"parts": False, "shorten": False}}


def rows(**rules):
    """Gates of five choices that leave 8 bits alone, and of `equal` after `sub` and `sub` after `equal` on 8 bits."""
    g = Graph(**rules)
    local = [g.variable() for _ in range(8)]
    for _ in range(5):
        test = g.variable()
        local = [g.choose(test, x, x) for x in local]
    counts = [len(g.gates)]
    for calls in (("sub", "equal"), ("equal", "sub")):
        g = Graph(**rules)
        a, b = ([g.variable() for _ in range(8)] for _ in range(2))
        for call in calls:
            before = len(g.gates)
            CALLS[call](g, a, b)
        counts.append(len(g.gates) - before)
    return counts


def main():
    for title, rules in RULES.items():
        print(title)
        for call in CALLS:
            print("| " + " | ".join([call] + ["%d (%d)" % measure(call, *cell, **rules) for cell in CELLS]) + " |")
        print("five choices, equal after sub, sub after equal:", *rows(**rules))


main()
