"""Random files of rules, and spoiled ones; `compare_rules.py` takes them from here."""
LETTERS = 'avn'
CMPS = ('==', '!=', '<', '<=', '>', '>=')
OPS = ('+', '-', '*', '//', '%')
NAMES = ('x', 'y', 'total', 'rule', 'cost', 'say', 'n' * 40, 'n' * 41)
CALLS = ('len', 'range', 'abs', 'min', 'max', 'f')
WORDS = ('rule', 'cost', 'say', ':', '=>', '=', '{', '}', '?', '(', ')', '[', ']', ',', '$a', "$a'", '$v', "$v1'", '$n0',
         '$c', "$c'", '$o', "$o'", 'return', 'if', 'else', 'while', 'for', 'in', 'not', 'pass', '7', "'t'", 'x', '+', '<',
         '**', '-', '//', 'True', '#', '\n', '$', '@', '==>', "'", '\t')


class Sides:
    """A left side with its metavariables, and right sides over them."""

    def __init__(self, rng):
        self.rng, self.used = rng, []

    def meta(self, letters):
        digit = self.rng.choice(('', '', '0', '1', '2', '7'))
        for _ in range(9):
            made = self.rng.choice(letters) + digit
            if made not in self.used:
                break
            digit = str(self.rng.randrange(10))
        self.used.append(made)
        return '$' + made

    def bound(self, letters):
        among = [made for made in self.used if made[0] in letters]
        if not among or self.rng.random() < 0.02:
            return None
        made = '$' + self.rng.choice(among)
        if self.rng.random() < 0.25 and (made[1] in LETTERS or self.rng.random() < 0.1):
            made += "'"
        return made

    def atom(self, is_left):
        rng = self.rng
        kind = rng.randrange(12)
        if kind < 6:
            made = self.meta(LETTERS) if is_left else self.bound(LETTERS)
            if made:
                return made
        if kind == 6:
            return rng.choice(NAMES)
        if kind == 7:
            return rng.choice(("'t'", '"it\\\'s"', 'True', 'False', '[]'))
        if kind == 8 and not is_left:
            made = self.bound(LETTERS)
            if made:
                return '?' + made.rstrip("'")
        return str(rng.choice((0, 1, 2, 13)))

    def operator(self, is_left, ops, letter, power):
        rng = self.rng
        kind = rng.randrange(8)
        if kind == 0 and power:
            return rng.choice(power)
        if kind < 3:
            made = self.meta(letter) if is_left else self.bound(letter)
            if made:
                return made
        if kind == 3 and not is_left:
            return '{%s}' % ', '.join(rng.choice(ops) for _ in range(rng.choice((1, 2, 2, 3))))
        return rng.choice(ops)

    def expr(self, depth, is_left):
        rng = self.rng
        if depth == 0 or rng.random() < 0.2:
            return self.atom(is_left)
        part = lambda: self.expr(depth - 1, is_left)
        kind = rng.randrange(13)
        if kind < 3:
            left, right = part(), part()
            return '(%s %s %s)' % (left, self.operator(is_left, OPS, 'o', ('**',)), right)
        if kind == 3:
            left, right = part(), part()
            return '(%s %s %s)' % (left, self.operator(is_left, CMPS, 'c', ('in', 'not in')), right)
        if kind == 4:
            return '(%s %s %s)' % (part(), rng.choice(('and', 'or')), part())
        if kind == 5:
            return '(%s %s)' % (rng.choice(('-', 'not')), part())
        if kind == 6:
            return '(%s if %s else %s)' % (part(), part(), part())
        if kind == 7:
            return '%s[%s]' % (self.atom(is_left), part())
        if kind == 8:
            ends = [part() if rng.random() < 0.5 else '' for _ in range(2)]
            return '%s[%s:%s]' % (self.atom(is_left), ends[0], ends[1])
        if kind == 9:
            call = rng.choice(CALLS if rng.random() < 0.2 else CALLS[:-1])
            usual = {'min': 2, 'max': 2, 'range': rng.choice((1, 2, 3))}.get(call, 1)
            count = usual if rng.random() < 0.9 else rng.randrange(5)
            return '%s(%s)' % (call, ', '.join(part() for _ in range(count)))
        if kind == 10:
            return '[%s]' % ', '.join(part() for _ in range(rng.randrange(3)))
        if is_left:
            return part()
        return '{%s}' % ', '.join(part() for _ in range(rng.choice((1, 2, 2, 3, 4))))

    def placed(self, place, target, term):
        return {'return': 'return %s', 'if': 'if %s:', 'while': 'while %s:', '': '%s', '=': target + ' = %s',
                'for': 'for ' + target + ' in %s:'}[place] % term

    def both(self):
        rng = self.rng
        place = rng.choice(('', '', '', 'return', 'if', 'while', '=', 'for'))
        target = self.meta('v') if place in ('=', 'for') else '$v'
        left = self.placed(place, target, self.expr(rng.choice((0, 1, 2)), True))
        if rng.random() < 0.03:
            place = rng.choice(('', 'return', 'if', 'while', '=', 'for'))
        if rng.random() < 0.03:
            target += "'"
        return left, self.placed(place, target, self.expr(rng.choice((0, 1, 2, 3)), False))


def a_rule(rng, number):
    left, right = Sides(rng).both()
    name = rng.choice(('r', 'r', 'if', 'cost', 'n' * 39)) + str(number if rng.random() < 0.97 else 0)
    if rng.random() < 0.05:
        name = rng.choice(('del', 'cost', 'n' * 41, 'x'))
    cost = '' if rng.random() < 0.3 else ' cost %d' % rng.choice((1, 2, 9) if rng.random() < 0.95 else (0, 10))
    lines = ['rule %s%s: %s => %s' % (name, cost, left, right)]
    if rng.random() < 0.2:
        lines.append(rng.choice(("say 'try {new}'", '  say "it\'s"', "say 'a' # why")))
    if rng.random() < 0.1:
        lines.insert(rng.randrange(len(lines) + 1), rng.choice(('', '# a comment', '   ')))
    return lines


def whole(rng):
    count = rng.choice((0, 1, 1, 2, 2, 3, 5)) if rng.random() < 0.99 else rng.choice((64, 65))
    return '\n'.join(line for number in range(count) for line in a_rule(rng, number)) + rng.choice(('\n', '\n', ''))


def deep(rng):
    depth = rng.choice((31, 32, 33))
    return 'rule deep: %s$a%s => 1\n' % ('[' * (depth - 1), ']' * (depth - 1))


def spoiled(rng):
    """A file in which a word is lost, put in or changed."""
    words = whole(rng).replace('\n', ' \n ').split(' ')
    for _ in range(rng.choice((1, 1, 1, 2))):
        at = rng.randrange(len(words))
        kind = rng.randrange(5)
        if kind == 0:
            del words[at]
            words = words or ['']
        elif kind == 1:
            words.insert(at, rng.choice(WORDS))
        elif kind == 2:
            words[at] = rng.choice(WORDS)
        elif kind == 3:
            words.insert(at, words[rng.randrange(len(words))])
        else:
            word = words[at]
            cut = rng.randrange(len(word) + 1)
            words[at] = word[:cut] + rng.choice(("'", '$', '{', '}', '?', '\r', '\x01', ':', ',', '1', '')) + word[cut + 1:]
    return ' '.join(words)


def a_file(rng, is_spoiled):
    if rng.random() < 0.02:
        return deep(rng)
    return spoiled(rng) if is_spoiled else whole(rng)
