"""Random bounds, and random programs within them, made by their types; `compare.py` takes them from here.

Most programs are typed and share no list, so that they are run; a few break a rule by chance. Each name of a function
has one type, and an expression is made for the type that is wanted.
"""
import re

TYPES = ('int', 'int', 'int', 'bool', 'list', 'list', 'text', 'text')
NAMES = {'int': ('i', 'n', 'total', 'x'), 'bool': ('ok', 'found'), 'list': ('v', 'w', 'items'), 'text': ('s', 't', 'word')}
HELPERS = ('g', 'h')
ALPHABETS = ("'ab'", "'ab'", '"xyz"', "' '", "'a\\'\\\\'", "'()#'")


class Bounds:
    """A bounds file: its numbers, the entry's name and its parameters, each the words behind `param NAME`."""

    def __init__(self, rng, most):
        pick = rng.choice
        self.rng = rng
        self.width = pick((3, 4, 5, 6, 6, 8, 8, 8, 12, 16))
        self.turns, self.depth, self.cap = pick((1, 3, 4, 4, 6)), pick((1, 3, 4, 4, 8)), pick((1, 2, 4, 4, 6, 6, 8, 16))
        self.entry = pick(('f', 'f', 'f', 'main', 'count'))
        self.params, inputs = [], 1
        for _ in range(pick((0, 1, 1, 1, 2, 2, 3, 4))):
            param, count = self.a_param(pick(TYPES), most // inputs)
            if count * inputs <= most:
                self.params.append(param)
                inputs *= count

    def a_param(self, form, most):
        """A form with its values' ends, and how many values it has."""
        if form == 'bool':
            return ('bool',), 2
        if form == 'int':
            low, high = self.interval(max(1, min(most, self.rng.choice((1, 2, 5, 9, 17, 300)))))
            return ('int', low, high), high - low + 1
        least = self.rng.randint(0, min(self.cap, 2))
        longest = self.rng.randint(least, min(self.cap, 4))
        if form == 'list':
            low, high = self.interval(self.rng.choice((1, 2, 3, 5)))
            size = high - low + 1
            return ('list', least, longest, low, high), sum(size ** n for n in range(least, longest + 1))
        alphabet = self.rng.choice(ALPHABETS)
        size = len(re.sub(r'\\(.)', r'\1', alphabet)) - 2
        return ('text', least, longest, alphabet), sum(size ** n for n in range(least, longest + 1))

    def interval(self, size):
        least, most = -2 ** (self.width - 1), 2 ** (self.width - 1) - 1
        size = min(size, most - least + 1)
        low = self.rng.choice((0, 0, 1, -(size // 2), least, self.rng.randint(least, most)))
        low = max(least, min(low, most - size + 1))
        return low, low + size - 1

    def types(self):
        return [param[0] for param in self.params]

    def text(self):
        lines = ['width %d' % self.width, 'turns %d' % self.turns, 'depth %d' % self.depth, 'cap %d' % self.cap,
                 'entry ' + self.entry]
        for number, param in enumerate(self.params):
            form = {'bool': 'bool', 'int': 'int %d..%d', 'list': 'list %d..%d of %d..%d', 'text': 'text %d..%d of %s'}
            lines.append('param p%d ' % number + form[param[0]] % param[1:])
        room = self.rng.random()
        if room < 0.1:
            lines.insert(self.rng.randrange(len(lines) + 1), self.rng.choice(('', '# of the course', '  \t', '#')))
        if room > 0.9:
            lines = [self.rng.choice((' ', '')) + line.replace(' ', '  ', 1) + self.rng.choice(('', ' # so')) for line in lines]
        return '\n'.join(lines) + '\n'

    def value(self, param):
        """The text of a value within the bounds."""
        rng = self.rng
        if param[0] == 'bool':
            return rng.choice(('True', 'False'))
        if param[0] == 'int':
            return str(rng.choice((param[1], param[2], rng.randint(param[1], param[2]))))
        length = rng.randint(param[1], param[2])
        if param[0] == 'list':
            return '[' + ', '.join(str(rng.randint(param[3], param[4])) for _ in range(length)) + ']'
        letters = re.findall(r'\\.|.', param[3][1:-1])
        return param[3][0] + ''.join(rng.choice(letters) for _ in range(length)) + param[3][0]


class Function:
    """A function that is being made: the types of its names, and which of them may not be changed in place."""

    def __init__(self, name, params, result, is_called):
        self.name, self.params, self.result, self.is_called = name, params, result, is_called
        self.types = dict(params)
        self.walked = []

    def names(self, of_type):
        return [name for name, its in self.types.items() if its == of_type]

    def may_change(self, name):
        return name not in self.walked and not (self.is_called and name in dict(self.params))


class Programs:
    """Makes the text of a program for an entry of these types, which faults less where it is to be calm."""

    def __init__(self, rng, entry, types, result, calm=False):
        self.rng, self.entry, self.types, self.result, self.calm = rng, entry, types, result, calm
        self.helpers, self.wanted = {}, []

    def program(self):
        params = [(self.rng.choice('abcd') + str(number), its) for number, its in enumerate(self.types)]
        recursive = self.rng.random() < (0.03 if self.calm else 0.15)
        self.helpers = {self.entry: ([its for _, its in params], self.result)} if recursive else {}
        self.recursive = recursive
        texts = [self.function(Function(self.entry, params, self.result, recursive), 0)]
        while self.wanted:
            name = self.wanted.pop()
            types, result = self.helpers[name]
            params = [('e%d' % number, its) for number, its in enumerate(types)]
            texts.append(self.function(Function(name, params, result, True), 1))
        self.rng.shuffle(texts)
        return '\n'.join(texts)

    def function(self, made, least):
        self.made = made
        lines = self.block(1, self.rng.choice((0, 0, 0, 1, 1, 2) if self.calm else (0, 1, 1, 2, 2, 3)), False)
        end = '' if self.rng.random() < 0.05 and least == 0 and len(lines) > 1 else self.returned(1)
        head = 'def %s(%s):' % (made.name, ', '.join(name for name, _ in made.params))
        return '\n'.join([head] + lines + ([end] if end else [])) + '\n'

    # Statements, each a list of lines.

    def block(self, level, size, in_loop):
        return [line for _ in range(size) for line in self.statement(level, in_loop)]

    def statement(self, level, in_loop):
        kind = self.rng.randrange(20)
        if level < 4 and kind < 4:
            return self.a_choice(level, in_loop)
        if level < 3 and kind < 7:
            return self.a_loop(level)
        if kind == 7 and in_loop:
            return [self.indent(level) + self.rng.choice(('break', 'continue'))]
        if kind == 8:
            return [self.returned(level) if level > 1 else self.indent(level) + 'pass']
        if kind < 12 and self.made.names('list'):
            return [self.indent(level) + self.a_change(self.rng.choice(self.made.names('list')))]
        if kind in (12, 19):
            return [self.indent(level) + 'print(%s)' % self.of(self.rng.choice(TYPES), 2)]
        if kind < 15 and self.made.types:
            return [self.indent(level) + self.an_augment(self.rng.choice(list(self.made.types)))]
        return [self.indent(level) + self.an_assignment()]

    def indent(self, level):
        return '    ' * level

    def returned(self, level):
        return self.indent(level) + 'return ' + self.apart(self.made.result, 2)

    def an_assignment(self):
        its = self.rng.choice(TYPES)
        name = self.rng.choice(NAMES[its])
        value = self.apart(its, 3)
        self.made.types[name] = its
        return '%s = %s' % (name, value)

    def an_augment(self, name):
        its = self.made.types[name]
        if its == 'int':
            return '%s %s= %s' % (name, self.rng.choice(('+', '+', '-', '*', '//', '%')), self.of('int', 2))
        if its == 'bool' or (its == 'list' and not self.made.may_change(name)):
            return 'pass'
        if self.rng.random() < 0.2:
            return '%s *= %s' % (name, self.of('int', 1))
        return '%s += %s' % (name, self.of(its, 2))

    def a_change(self, name):
        if not self.made.may_change(name) and self.rng.random() < 0.98:
            return 'pass'
        kind = self.rng.randrange(3)
        if kind == 0:
            return '%s.append(%s)' % (name, self.of('int', 2))
        if kind == 1:
            return '%s[%s] = %s' % (name, self.place(), self.of('int', 2))
        return '%s[%s] %s= %s' % (name, self.place(), self.rng.choice(('+', '-', '*', '//', '%')), self.of('int', 1))

    def a_choice(self, level, in_loop):
        lines = [self.indent(level) + 'if %s:' % self.test()] + self.block(level + 1, 1, in_loop)
        if self.rng.random() < 0.25:
            lines += [self.indent(level) + 'elif %s:' % self.test()] + self.block(level + 1, 1, in_loop)
        if self.rng.random() < 0.4:
            lines += [self.indent(level) + 'else:'] + self.block(level + 1, 1, in_loop)
        return lines

    def a_loop(self, level):
        size = self.rng.choice((1, 1, 2))
        if self.rng.random() < 0.3:
            return [self.indent(level) + 'while %s:' % self.test()] + self.block(level + 1, size, True)
        its = self.rng.choice(('list', 'list', 'list', 'text'))
        walked = self.rng.choice(self.made.names(its)) if self.made.names(its) and self.rng.random() < 0.5 else None
        over = walked or (self.a_range() if its == 'list' and self.rng.random() < 0.6 else self.apart(its, 2))
        element = 'int' if its == 'list' else 'text'
        name = self.rng.choice(NAMES[element])
        self.made.types[name] = element
        self.made.walked.append(walked)
        lines = [self.indent(level) + 'for %s in %s:' % (name, over)] + self.block(level + 1, size, True)
        self.made.walked.pop()
        return lines

    # Expressions.

    def test(self):
        return self.of(self.rng.choice(('bool', 'bool', 'bool', 'int', 'list', 'text')), 2)

    def place(self):
        return self.of('int', 1) if self.rng.random() < 0.25 else self.rng.choice(('0', '-1', '1'))

    def apart(self, its, depth):
        """An expression whose value no name has, where it is a list."""
        made = self.of(its, depth)
        if its != 'list' or self.rng.random() < 0.01:
            return made
        return '(%s)[:]' % made if ' if ' in made else (made + '[:]' if re.fullmatch(r'\w+', made) else made)

    def of(self, its, depth):
        if depth <= 0 or self.rng.random() < (0.4 if self.calm else 0.2):
            return self.leaf(its)
        if self.rng.random() < (0.05 if self.calm else 0.1):
            return self.a_call(its, depth)
        if self.rng.random() < 0.08:
            return '%s if %s else %s' % (self.part(its, depth), self.part('bool', depth), self.part(its, depth))
        return getattr(self, 'a_' + its)(depth)

    def part(self, its, depth):
        made = self.of(its, depth - 1)
        whole = re.fullmatch(r"\w+|'[^']*'|\w*\([^()]*\)|\[[^\[\]]*\]|\w+\[[^\[\]]*\]", made)
        return made if whole or self.rng.random() < 0.02 else '(%s)' % made

    def leaf(self, its):
        names = self.made.names(its)
        if names and self.rng.random() < 0.75:
            return self.rng.choice(names)
        if its == 'int':
            return self.rng.choice(('0', '0', '1', '1', '1', '2', '2', '2', '3', '3', '4', '5', '7', '31', '100'))
        if its == 'bool':
            return self.rng.choice(('True', 'False'))
        if its == 'list':
            return '[%s]' % ', '.join(self.rng.choice('01235') for _ in range(self.rng.choice((0, 1, 2, 2, 3))))
        return self.rng.choice(("''", "'a'", "'b'", "'ab'", "'x'", '"ba"', "'\\''", "' '"))

    def a_call(self, its, depth):
        """A call of a function with this result, which is made later."""
        fitting = [name for name, (_, result) in self.helpers.items()
                   if result == its and (name != self.made.name or self.rng.random() < 0.3)]
        free = [name for name in HELPERS if name not in self.helpers]
        if fitting and (self.rng.random() < 0.7 or not free):
            name = self.rng.choice(fitting)
        elif free:
            name = free[0]
            self.helpers[name] = ([self.rng.choice(TYPES) for _ in range(self.rng.choice((0, 1, 1, 2)))], its)
            self.wanted.append(name)
        else:
            return self.leaf(its)
        return '%s(%s)' % (name, ', '.join(self.of(it, depth - 1) for it in self.helpers[name][0]))

    def a_int(self, depth):
        kind = self.rng.randrange(12)
        if kind < 6:
            op = self.rng.choice(('+', '+', '+', '-', '-', '-', '*', '*', '//', '%', '**'))
            return '%s %s %s' % (self.part('int', depth), op, self.part('int', depth))
        if kind == 6:
            return '-' + self.part('int', depth)
        if kind == 7:
            return 'len(%s)' % self.of(self.rng.choice(('list', 'text')), depth - 1)
        if kind == 8:
            return 'abs(%s)' % self.of('int', depth - 1)
        if kind == 9:
            return '%s(%s, %s)' % (self.rng.choice(('min', 'max')), self.of('int', depth - 1), self.of('int', depth - 1))
        names = self.made.names('list')
        return '%s[%s]' % (self.rng.choice(names) if names else self.part('list', depth), self.place())

    def a_bool(self, depth):
        kind = self.rng.randrange(8)
        if kind == 0:
            return 'not ' + self.part(self.rng.choice(TYPES), depth)
        if kind < 3:
            return '%s %s %s' % (self.part('bool', depth), self.rng.choice(('and', 'or')), self.part('bool', depth))
        if kind < 5:
            op = self.rng.choice(('<', '<=', '>', '>='))
            return '%s %s %s' % (self.part('int', depth), op, self.part('int', depth))
        if kind == 5:
            pair = self.rng.choice((('int', 'list'), ('text', 'text')))
            return '%s %s %s' % (self.part(pair[0], depth), self.rng.choice(('in', 'not in')), self.part(pair[1], depth))
        its = self.rng.choice(TYPES)
        return '%s %s %s' % (self.part(its, depth), self.rng.choice(('==', '!=')), self.part(its, depth))

    def a_range(self):
        return 'range(%s)' % ', '.join(self.of('int', 1) for _ in range(self.rng.choice((1, 1, 2, 2, 3))))

    def a_list(self, depth):
        kind = self.rng.randrange(6)
        if kind == 0:
            return self.a_range()
        if kind == 1:
            return '[%s]' % ', '.join(self.of('int', depth - 1) for _ in range(self.rng.randrange(4)))
        return self.a_sequence('list', depth)

    def a_text(self, depth):
        if self.rng.random() < 0.25:
            return '%s[%s]' % (self.part('text', depth), self.place())
        return self.a_sequence('text', depth)

    def a_sequence(self, its, depth):
        kind = self.rng.randrange(6)
        if kind < 2:
            return '%s + %s' % (self.part(its, depth), self.part(its, depth))
        if kind == 2:
            return '%s * %s' % (self.part(its, depth), self.rng.choice(('0', '1', '2', self.leaf('int'))))
        ends = [self.place() if self.rng.random() < 0.5 else '' for _ in range(2)]
        return '%s[%s:%s]' % (self.part(its, depth), ends[0], ends[1])


SWAPS = (('+', '-', '*'), ('//', '%'), ('<', '<=', '>', '>=', '==', '!='), ('and', 'or'), ('True', 'False'),
         ('break', 'continue', 'pass'), ('min', 'max'), ('+=', '-='))


def changed(rng, text):
    """A program with up to three small changes, of which some mean nothing."""
    for _ in range(rng.choice((0, 1, 1, 1, 2, 3))):
        text = changed_once(rng, text)
    return text


def changed_once(rng, text):
    lines = text.split('\n')
    place = rng.randrange(len(lines))
    kind = rng.randrange(10)
    if kind == 0 and lines[place].startswith('    '):
        lines[place] = re.match(' *', lines[place])[0] + 'pass' if not lines[place].endswith(':') else lines[place]
        return '\n'.join(lines)
    if kind == 1 and lines[place].startswith('    '):
        lines.insert(place, re.match(' *', lines[place])[0] + rng.choice(('pass', 'if 1 > 2: pass')))
        return '\n'.join(lines)
    if kind == 2:
        return re.sub(r'\b(\d+)\b', lambda number: '(%s %s)' % (number[0], rng.choice(('+ 0', '* 1', '- 0'))), text, count=1)
    tokens = list(re.finditer(r"'[^']*'|\w+|[=<>!*/+-]=|\*\*|//|[-+*%<>]", text))
    if not tokens:
        return text
    found = rng.choice(tokens)
    word = found[0]
    others = [word] + [other for row in SWAPS if word in row for other in row]
    if word.isdigit():
        others = [str(max(0, int(word) + rng.choice((-1, 1, 2))))]
    elif word.isidentifier() and len(others) == 1:
        alike = {one[0] for one in tokens if one[0].isidentifier() and one[0][0] == word[0]}
        others = sorted(alike)
    return text[:found.start()] + rng.choice(others) + text[found.end():]
