"""Random requests at the edge of a limit, each just within it or just past it; `compare.py` takes them from here.

A request has the name of its limit, the side, and how the answer's line begins or ends that the side is made for.
"""
from request import WORDS, Request

MOST_BYTES = 65536
DEAD = 'def f():\n    if 0 > 1:\n        x = %s\n    return 7\n'


class EdgeRequest(Request):
    """A request at the edge of a limit."""

    def __init__(self, words, files, limit, is_past, wanted):
        super().__init__(words, files)
        self.limit, self.is_past, self.wanted = limit, is_past, wanted

    def renamed(self, front):
        made = super().renamed(front)
        return EdgeRequest(made.words, made.files, self.limit, self.is_past, self.wanted)

    def is_met(self, output):
        line = output.decode('latin-1').split('\n')[0]
        return line.startswith(self.wanted) or line.endswith(': ' + self.wanted)


class Edge:
    """What is asked at one edge: the numbers of the bounds, the entry, its parameters, the program and the values."""

    def __init__(self, rng, past):
        self.rng, self.past = rng, past
        self.numbers = {'width': 8, 'turns': 4, 'depth': 4, 'cap': 4}
        self.entry, self.params, self.values = 'f', [], []
        self.program, self.wanted = 'def f():\n    return 7\n', 'value'
        self.bounds_end = ''

    def bounds(self):
        lines = ['%s %d' % pair for pair in self.numbers.items()] + ['entry ' + self.entry]
        lines += ['param %s %s' % pair for pair in self.params]
        return '\n'.join(lines) + '\n' + self.bounds_end

    def wants(self, past):
        self.wanted = past if self.past else 'value'


def width(edge):
    edge.numbers['width'] = bits = edge.rng.randint(3, 16)
    most = 2 ** (bits - 1) - 1
    within = (most, '%d + 1' % (most - 1), '-%d - 1' % most, '-(-%d)' % most, '%d * 1' % most, '(-%d - 1) // 1' % most)
    past = (most + 1, '%d + 1' % most, '-%d - 2' % most, 'abs(-%d - 1)' % most, '-(-%d - 1)' % most,
            '(-%d - 1) // -1' % most, '(-%d - 1) * -1' % most, '2 ** %d' % (bits - 1))
    edge.program = 'def f():\n    return %s\n' % edge.rng.choice(past if edge.past else within)
    edge.wants('fault Overflow line 2')


def turns(edge):
    edge.numbers['turns'] = most = edge.rng.randint(1, 32)
    count = most + edge.past
    if count <= 16 and edge.rng.random() < 0.5:
        edge.numbers['cap'] = 16
        loop = 'for i in %s:\n        n += 1\n' % edge.rng.choice(('range(%d)' % count, repr('a' * count)))
    else:
        loop = 'while n < %d:\n        n += 1\n' % count
    edge.program = 'def f():\n    n = 0\n    %s    return n\n' % loop
    edge.wants('fault Turns line 3')


def depth(edge):
    edge.numbers['depth'] = most = edge.rng.randint(1, 8)
    edge.params, edge.values = [('n', 'int 0..9')], [str(most + edge.past)]
    edge.program = 'def f(n):\n    if n < 2:\n        return 0\n    return %s\n' % edge.rng.choice(('f(n - 1)', '1 + f(n - 1)'))
    edge.wants('fault Depth line 4')


def cap(edge):
    edge.numbers['cap'] = most = edge.rng.randint(1, 16)
    count = most + edge.past
    edge.program = 'def f():\n    v = []\n    s = \'\'\n    %s\n    return %s\n' % edge.rng.choice((
        ('v = range(%d)' % count, 'v'), ('v = [%s]' % ', '.join(['1'] * count), 'v'), ('v = [1] * %d' % count, 'v'),
        ('s = %r' % ('a' * count), 's'), ('s = %r + \'b\'' % ('a' * (count - 1)), 's'), ('s = \'a\' * %d' % count, 's'),
        ('v = [1] * %d + [2]' % (count - 1), 'v'), ('v = [1] * %d; v.append(1)'.replace('; ', '\n    ') % (count - 1), 'v')))
    edge.wants('fault Length line ')


def filled(edge, text):
    """The text with a comment behind it that makes it as long as a source may be, or longer by one byte."""
    room = MOST_BYTES + edge.past - len(text)
    line = '#' * edge.rng.randint(1, 200) + '\n'
    text += line * (room // len(line))
    return text + '#' * (MOST_BYTES + edge.past - len(text))


def source_bytes(edge):
    if edge.rng.random() < 0.5:
        edge.program = filled(edge, edge.program)
    else:
        edge.bounds_end = filled(edge, edge.bounds())[len(edge.bounds()):]
    edge.wants('Long')


def tokens(edge):
    edge.program = DEAD % ('[%s]' % ', '.join(['1'] * 199) if edge.past else '[-1, %s]' % ', '.join(['1'] * 197))
    edge.wants('Limit')


def functions(edge):
    edge.program += ''.join('def g%d():\n    return %d\n' % (n, n) for n in range(7 + edge.past))
    edge.wants('Limit')


def statements(edge):
    line = edge.rng.choice(('    pass\n', '    x = 1\n'))
    edge.program = 'def f():\n' + line * (199 + edge.past) + '    return 7\n'
    edge.wants('Limit')


def parameters(edge):
    count = 6 + edge.past
    edge.program = 'def g(%s):\n    return a0\ndef f():\n    return g(%s)\n' % (
        ', '.join('a%d' % n for n in range(count)), ', '.join(['1'] * count))
    edge.wants('Limit')


def expression_depth(edge):
    count = 31 + edge.past
    edge.program = 'def f():\n    return %s\n' % edge.rng.choice((
        '-' * count + '1', 'not ' * count + 'True', 'abs(' * count + '1' + ')' * count, '1' + ' - 0' * count,
        '(' * 40 + '1' + ')' * 40 + ' + 0' * count))
    edge.wants('Limit')


def block_nesting(edge):
    heads = [edge.rng.choice(('if True:', 'while True:', 'for i in [1]:')) for _ in range(7 + edge.past)]
    lines = ['    ' * (n + 1) + head for n, head in enumerate(heads)]
    edge.program = 'def f():\n' + '\n'.join(lines) + '\n' + '    ' * (len(heads) + 1) + 'return 7\n'
    edge.wants('Limit')


def name_bytes(edge):
    name = 'n' * (40 + edge.past)
    kind = edge.rng.randrange(3)
    if kind == 0:
        edge.entry, edge.program = name, 'def %s():\n    return 7\n' % name
    elif kind == 1:
        edge.program = 'def f():\n    %s = 7\n    return %s\n' % (name, name)
    else:
        edge.params, edge.values, edge.program = [(name, 'bool')], ['True'], 'def f(x):\n    return x\n'
    edge.wants('Limit')


def number_literal(edge):
    edge.program = DEAD % (2147483647 + edge.past)
    edge.wants('Token')


def param_lines(edge):
    edge.params = [('p%d' % n, 'bool') for n in range(4 + edge.past)]
    edge.values, edge.program = ['True'] * 4, 'def f(a, b, c, d):\n    return d\n'
    edge.wants('Limit')


def values_of_run(edge):
    edge.params = [('p%d' % n, 'bool') for n in range(4)]
    edge.values, edge.program = ['True'] * (4 + edge.past), 'def f(a, b, c, d):\n    return d\n'
    edge.wants('usage')


def number_of_a_value(edge):
    edge.params, edge.values = [('n', 'int 0..9')], [edge.rng.choice(('2147483648', '-2147483649'))]
    edge.program, edge.wanted = 'def f(n):\n    return n\n', 'Syntax'
    if not edge.past:
        edge.values, edge.wanted = [edge.rng.choice(('2147483647', '-2147483648'))], 'BoundRange'


def range_of_a_value(edge):
    form, within, past = edge.rng.choice((
        ('int -3..5', ('-3', '5'), ('-4', '6')), ('list 1..2 of 0..1', ('[0]', '[1, 1]'), ('[]', '[0, 0, 0]', '[2]', '[0, -1]')),
        ("text 1..2 of 'ab'", ("'a'", "'bb'"), ("''", "'aaa'", "'c'"))))
    edge.params, edge.values = [('p', form)], [edge.rng.choice(past if edge.past else within)]
    edge.program = 'def f(p):\n    return p\n'
    edge.wants('BoundRange')


def numbers_of_bounds(edge):
    name, least, most = edge.rng.choice((('width', 3, 16), ('turns', 1, 32), ('depth', 1, 8), ('cap', 1, 16)))
    edge.numbers[name] = edge.rng.choice((least - 1, most + 1) if edge.past else (least, most))
    edge.program = 'def f():\n    return 1\n'
    edge.wants('BoundRange')


LIMITS = (width, turns, depth, cap, source_bytes, tokens, functions, statements, parameters, expression_depth, block_nesting,
          name_bytes, number_literal, param_lines, values_of_run, number_of_a_value, range_of_a_value, numbers_of_bounds)


def an_edge_of_run(rng):
    limit, past = rng.choice(LIMITS), rng.random() < 0.5
    edge = Edge(rng, past)
    limit(edge)
    files = {'b.txt': edge.bounds().encode(), 'p.py': edge.program.encode()}
    words = ['run', 'b.txt', 'p.py'] + edge.values
    return EdgeRequest(words, files, limit.__name__, past, edge.wanted)


def weight(past):
    """Sources that weigh 1,000,000 together, or one more. The reference has seven powers and weighs 458,760; the submission has eight,
    and weighs 541,137 and what its test weighs, in which a `True` weighs 1, a `not` 4, and an `and` 4."""
    powers = '1' + ' ** 1' * 7
    test = 'not not True' + ' and True' * 19 if past else 'not not not True' + ' and True' * 18
    submission = '\ndef f():\n    return %s ** 1%s%s if %s else 1\n' % (powers, ' // 1' * 4, ' - 1' * 3, test)
    return 'width 16\nturns 1\ndepth 1\ncap 1\nentry f\n', 'def f():\n    return %s\n' % powers, submission, ''


def an_edge_of_grade(rng):
    """A pair that weighs as much as is allowed, or one more; or a file of as many bytes as are allowed, or of one more."""
    edge = Edge(rng, rng.random() < 0.5)
    if rng.random() < 0.5:
        source_bytes(edge)
        limit = 'source_bytes'
        texts = (edge.bounds(), edge.program, edge.program, '')
    else:
        limit = 'weight'
        edge.wants('TooLarge')
        texts = weight(edge.past)
    wanted = 'correct' if edge.wanted == 'value' else edge.wanted
    return EdgeRequest(WORDS, dict(zip(WORDS[1:5], (text.encode() for text in texts))), limit, edge.past, wanted)
