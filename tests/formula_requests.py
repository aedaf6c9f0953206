"""Random requests of `grade` for formulas of one number, corrected by rules, some of them with one thing wrong;
`compare.py` takes them from here.
"""
import random

from request import MOST_TRIES, SOURCES, WORDS, Request

RESERVED = ('if', 'lambda', 'None', 'async', 'return', 'def')
BUILTINS = ('len', 'range', 'abs', 'min', 'max')
NAMES = ('f', 'x', 'y', 'n', 'total', '_', 'a1', 'grade', 'rule', 'int')
MOST_LITERAL = 2147483647


def an_expression(rng, parameter, operands):
    parts = [an_operand(rng, parameter)]
    for _ in range(operands - 1):
        parts += [rng.choice('++--*'), an_operand(rng, parameter)]
    return parts


def an_operand(rng, parameter):
    return parameter if rng.random() < 0.4 else str(rng.choice((0, 1, 1, 2, 2, 3, 4, 5, 7, 9)))


def literals_of(parts):
    return [p for p in parts[::2] if p.isdigit()]


def changed(rng, parts, parameter):
    """A copy with some operands or operators changed."""
    parts = list(parts)
    for _ in range(rng.choice((0, 1, 1, 1, 2, 2, 3))):
        place = rng.randrange(len(parts))
        if place % 2:
            parts[place] = rng.choice('+-*')
        elif parts[place].isdigit():
            parts[place] = str(max(0, int(parts[place]) + rng.choice((-2, -1, 1, 1, 2, 3))))
        else:
            parts[place] = an_operand(rng, parameter)
    return parts


def a_program(entry, parameter, parts):
    return 'def %s(%s):\n    return %s\n' % (entry, parameter, ' '.join(parts))


def a_bounds_file(numbers, entry, name, low, high):
    return 'width %s\nturns %s\ndepth %s\ncap %s\nentry %s\nparam %s int %s..%s\n' % (
        tuple(numbers) + (entry, name, low, high))


def an_interval(rng, width, most):
    low_end, high_end = -2 ** (width - 1), 2 ** (width - 1) - 1
    size = min(rng.choice((1, 1, 2, 3, 5, 8, most)), most, high_end - low_end + 1)
    middle = rng.choice((0, 0, rng.randint(low_end, high_end)))
    low = max(low_end, min(middle - rng.randrange(size), high_end - size + 1))
    return low, low + size - 1


def some_rules(rng, wanted, most):
    """Rules with at most `most` literals together; some of them are literals that are wanted."""
    lines, left = [], most
    for number in range(rng.choice((0, 1, 1, 1, 2, 2, 3))):
        count = min(left, rng.choice((1, 1, 2, 2, 3, 4)))
        if count == 0:
            break
        left -= count
        pool = list(wanted) + [str(v) for v in range(8)]
        chosen = [rng.choice(pool) for _ in range(count)]
        lines.append('rule %s cost %d: $n => {%s}\n' % (
            'r%d' % number, rng.choice((1, 1, 1, 2, 2, 3, 9)), ', '.join(chosen)))
    return ''.join(lines)


def alternatives_allowed(literals, inputs, tries):
    """How many literals the rules may hold together, so that there are at most `tries` runs."""
    most = 8
    while most and (1 + most) ** literals * inputs > tries:
        most -= 1
    return most


def a_small_request(rng, tries=2000):
    width = rng.choice((3, 4, 4, 5, 5, 6, 6, 7, 8, 8, 12, 16))
    numbers = [width, rng.randint(1, 32), rng.randint(1, 8), rng.randint(1, 16)]
    entry, parameter = rng.choice(NAMES), rng.choice(NAMES + BUILTINS)
    low, high = an_interval(rng, width, 12)
    wanted = an_expression(rng, parameter, rng.choice((1, 1, 2, 2, 3, 3, 4, 5, 8)))
    given = changed(rng, wanted, parameter)
    if rng.random() < 0.2:
        given = an_expression(rng, parameter, rng.choice((1, 2, 3, 4)))
    other = rng.choice((parameter, parameter, parameter, 'z'))
    given = [other if p == parameter else p for p in given]
    allowed = alternatives_allowed(len(literals_of(given)), high - low + 1, tries)
    texts = (
        a_bounds_file(numbers, entry, rng.choice(NAMES), low, high),
        a_program(entry, parameter, wanted),
        a_program(entry, other, given),
        some_rules(rng, literals_of(wanted), allowed),
    )
    return Request(WORDS, zip(SOURCES, (t.encode() for t in texts)))


def a_request_at_a_limit(rng):
    """A small request with one number, name or length at the edge of what is allowed."""
    request = a_small_request(rng)
    edit = rng.choice((edge_of_bounds, edge_of_interval, edge_of_program, edge_of_rules, edge_of_names))
    edit(rng, request)
    return request


def edge_of_bounds(rng, request):
    lines = request.files['b.txt'].decode().split('\n')
    place = rng.randrange(4)
    edges = ((2, 3, 16, 17), (0, 1, 32, 33), (0, 1, 8, 9), (0, 1, 16, 17))[place]
    number = rng.choice(tuple(map(str, edges)) + ('-1', '00', '-0', '07', '999999999', '1000000000', ''))
    lines[place] = lines[place].split(' ')[0] + ' ' + number
    request.files['b.txt'] = '\n'.join(lines).encode()


def edge_of_interval(rng, request):
    lines = request.files['b.txt'].decode().split('\n')
    width = int(lines[0].split(' ')[1])
    low, high = -2 ** (width - 1), 2 ** (width - 1) - 1
    ends = rng.choice((
        (low, low), (high, high), (low - 1, low), (high, high + 1), (1, 0), (0, -1), (low, low + 3),
        (high - 3, high), ('-0', 0), (0, '00'), (0, ''), ('', 0), ('+0', 1), (-999999999, 0), (0, 1000000000)))
    lines[5] = ' '.join(lines[5].split(' ')[:3]) + ' %s..%s' % ends
    request.files['b.txt'] = '\n'.join(lines).encode()


def edge_of_program(rng, request):
    name = rng.choice(('ref.py', 'sub.py'))
    head, body, _ = request.files[name].decode().split('\n')
    kind = rng.randrange(4)
    if kind == 0:
        number = rng.choice((MOST_LITERAL, MOST_LITERAL + 1, 10 ** 10, '00', '01', '007', '-1', '0x1', '1_0'))
        body += ' + %s' % number
    elif kind == 1:
        parameter = head[head.index('(') + 1:head.index(')')]
        parts = [rng.choice((parameter, '0', parameter))] * rng.choice((31, 32, 33, 34, 60))
        body = '    return ' + rng.choice((' + ', ' - ', ' * ')).join(parts)
    elif kind == 2:
        body = body.replace(rng.choice('+-* '), rng.choice(('//', '%', '**', '/', ' + ', '  ', '(', '')), 1)
    else:
        body += rng.choice((' ', '\r', ' # a comment', ' + y', ' + True', ' + (1)', ' + -1', '\n', '\n\n', ';'))
    request.files[name] = (head + '\n' + body + '\n').encode()


def edge_of_rules(rng, request):
    literals = lambda count: ', '.join(['1'] * count)
    line = lambda name, cost, inside: 'rule %s cost %s: $n => {%s}\n' % (name, cost, inside)
    kinds = (
        lambda: line('r', rng.choice(('0', '1', '9', '10', '01', '-1', '')), '1'),
        lambda: line('r', 1, literals(rng.choice((0, 1, 2)))),
        lambda: line('r', 1, rng.choice((MOST_LITERAL, MOST_LITERAL + 1, '00', '01', '-1', 'x', '1,2', '1, ', ''))),
        lambda: line('r', 1, '1') + line(rng.choice('rs'), 2, '2'),
        lambda: line(rng.choice(RESERVED + BUILTINS), 1, '3'),
        lambda: rng.choice(('rule r: $n => {1}\n', 'rule r cost 1: $n => 1\n', 'rule r cost 1: $a => {1}\n',
                            '\n', '# a comment\n', 'rule r cost 1: $n => {1}', 'rule r cost 1: $n=>{1}\n')),
        lambda: ''.join(line('r%d' % n, 1, '1') for n in range(rng.choice((63, 64, 65)))),
        lambda: line('r', 1, literals(rng.choice((63, 64, 65)))),
    )
    request.files['rules.eml'] = rng.choice(kinds)().encode()
    # Many alternatives for many literals would be too much for the model.
    if len(request.files['rules.eml']) > 150:
        head = request.files['sub.py'].split(b'\n')[0]
        request.files['sub.py'] = head + b'\n    return 1\n'


def edge_of_names(rng, request):
    name = rng.choice(RESERVED + BUILTINS + ('g' * 40, 'g' * 41, '_', '1f', 'f-', ''))
    kind = rng.randrange(4)
    bounds = request.files['b.txt'].decode().split('\n')
    if kind == 0:
        bounds[5] = bounds[5].replace(bounds[5].split(' ')[1], name, 1)
    elif kind == 1:
        bounds[4] = 'entry ' + name
        for program in ('ref.py', 'sub.py'):
            text = request.files[program].decode()
            request.files[program] = ('def ' + name + text[text.index('('):]).encode()
    elif kind == 2:
        program = rng.choice(('ref.py', 'sub.py'))
        text = request.files[program].decode()
        request.files[program] = ('def ' + name + text[text.index('('):]).encode()
    else:
        program = rng.choice(('ref.py', 'sub.py'))
        text = request.files[program].decode()
        function = text[4:text.index('(')]
        request.files[program] = ('def %s(%s):\n    return %s + 1\n' % (function, name, name)).encode()
    request.files['b.txt'] = '\n'.join(bounds).encode()
    if kind == 0 or rng.random() < 0.2:
        request.files['rules.eml'] = ('rule %s cost 1: $n => {1}\n' % name).encode()


def a_spoiled_request(rng):
    """A small request with a byte or a line of one of its files changed."""
    request = a_small_request(rng)
    for _ in range(rng.choice((1, 1, 1, 2))):
        name = rng.choice(SOURCES)
        request.files[name] = spoiled(rng, request.files[name])
    return request


def spoiled(rng, text):
    if not text:
        return bytes((rng.randrange(256),))
    place = rng.randrange(len(text))
    lines = text.splitlines(keepends=True)
    line = rng.randrange(len(lines))
    kind = rng.randrange(8)
    if kind == 0:
        return text[:place] + text[place + 1:]
    if kind == 1:
        return text[:place] + text[place:place + 1] + text[place:]
    if kind == 2:
        byte = rng.choice((rng.randrange(256), rng.choice(b' \t\r\n0123456789+-*(){}:,.#$n\xef')))
        return text[:place] + bytes((byte,)) + text[place + 1:]
    if kind == 3:
        return text[:place] + text[place + 1:place + 2] + text[place:place + 1] + text[place + 2:]
    if kind == 4:
        return b''.join(lines[:line] + lines[line + 1:])
    if kind == 5:
        return b''.join(lines[:line] + [lines[line]] + lines[line:])
    if kind == 6:
        byte = rng.choice(b' \t\r\n019+-*(){}:,.#$\x00\xff')
        return text[:place] + bytes((byte,)) + text[place:]
    return rng.choice((b'\xef\xbb\xbf' + text, text[:-1], text + b'\n', text.replace(b'\n', b'\r\n'), b''))


def a_request_in_another_layout(rng):
    """A small request whose programs are written in other ways: one that is graded, or sometimes another."""
    request = a_small_request(rng)
    for name in rng.choice((('ref.py', 'sub.py'), ('sub.py',))):
        request.files[name] = laid_out(rng, request.files[name].decode()).encode()
    return request


def laid_out(rng, text):
    head, body, _ = text.split('\n')
    parts = body[len('    return '):].split(' ')
    for place in range(0, len(parts), 2):
        if rng.random() < 0.2:
            parts[place] = '(' + parts[place] + ')'
    if rng.random() < 0.3:
        first = rng.randrange(0, len(parts), 2)
        last = rng.randrange(first, len(parts), 2)
        parts[first] = '(' + parts[first]
        parts[last] += ')'
    if rng.random() < 0.08:
        place = rng.randrange(len(parts))
        parts[place] = rng.choice(('//', '%', '**', '<')) if place % 2 else rng.choice(('-', '+', 'not ', '[')) + parts[place]
    gap = lambda: rng.choice((' ', ' ', '', '  ', '\t', ' \t '))
    expression = parts[0] + ''.join(gap() + part for part in parts[1:])
    end = rng.choice(('\n', '\n', '\r\n'))
    other = lambda: rng.choice(('', '', '', '# of the course' + end, end, '   ' + end, '\t# é' + end))
    column = ' ' * rng.choice((1, 2, 4, 4, 8))
    head = head.replace('(', gap() + '(' + gap()).replace('):', gap() + ')' + gap() + ':')
    between = gap() if rng.random() < 0.2 else gap() + rng.choice(('', '# a formula')) + end + other() + column
    return other() + head + between + 'return ' + expression + gap() + rng.choice(('', '#')) + rng.choice((end, end, '')) + other()


def a_large_request(rng):
    """About as many runs as are allowed. Both programs are one, so that the model needs few of them."""
    literals = rng.choice((1, 2, 3, 4, 5, 6, 8, 10, 13, 16, 20, 31))
    inputs = rng.choice((1, 2, 3, 7, 11, 16, 100, 1000, 4096, 65536))
    width = 16 if inputs > 16 else rng.choice((5, 8))
    selections = MOST_TRIES / inputs
    alternatives = max(0, round(selections ** (1 / literals)) - 1 + rng.choice((-1, 0, 0, 1)))
    if inputs * (1 + alternatives) ** literals <= MOST_TRIES and inputs > 4096:
        inputs = 4096
    lines, number = [], 0
    while alternatives > 0 and number < 64:
        count = min(alternatives, rng.choice((64, 64, rng.randint(1, 64))))
        lines.append('rule r%d cost %d: $n => {%s}\n' % (number, rng.randint(1, 9), ', '.join(['1'] * count)))
        alternatives -= count
        number += 1
    low = -2 ** (width - 1) if inputs > 16 else 0
    program = a_program('f', 'x', ' + '.join(['0'] * literals).split(' '))
    texts = (a_bounds_file((width, 4, 2, 4), 'f', 'x', low, low + inputs - 1), program, program, ''.join(lines))
    return Request(WORDS, zip(SOURCES, (t.encode() for t in texts)))


def a_long_request(rng):
    """A file of about as many bytes as are allowed."""
    request = a_small_request(rng)
    for name in rng.sample(SOURCES, rng.choice((1, 1, 2))):
        text = request.files[name]
        size = rng.choice((65535, 65536, 65537, 70000))
        request.files[name] = text + rng.choice((b' ', b'\n', b'#')) * (size - len(text))
    return request


def a_request_of_other_words(rng):
    request = a_small_request(rng)
    words = request.words
    kind = rng.randrange(6)
    if kind == 0:
        words[6] = rng.choice(('0', '1', '200000', '200001', '007', '+5', '-5', '5 ', '', 'x', '1e3', '9' * 30))
    elif kind == 1:
        words[0] = rng.choice(('check', 'run', 'sample', 'Grade', '', 'all'))
    elif kind == 2:
        request.words = words[:rng.randrange(7)]
    elif kind == 3:
        words.append(rng.choice(('', 'x', '200000')))
    elif kind == 4:
        words[rng.randint(1, 4)] = rng.choice(('absent', 'no/file', '.'))
    else:
        # One file under several words; the certificate may be named as a source too.
        words[rng.randint(1, 5)] = rng.choice(SOURCES)
    return request


KINDS = (
    (47, a_small_request),
    (15, a_request_in_another_layout),
    (14, a_request_at_a_limit),
    (16, a_spoiled_request),
    (3, a_large_request),
    (1, a_long_request),
    (4, a_request_of_other_words),
)


def a_request(rng):
    return rng.choices([make for _, make in KINDS], [weight for weight, _ in KINDS])[0](rng)
