"""Random bounds files, programs and cases, and spoiled ones; `sources.py` takes them from here."""
import re

from formula_requests import spoiled as spoiled_bytes
from random_programs import TYPES, Bounds, Programs

KEYWORDS = ('def', 'if', 'elif', 'else', 'while', 'for', 'in', 'not', 'and', 'or', 'return', 'pass', 'break', 'continue',
            'append', 'print', 'True', 'False')
BUILTINS = ('len', 'range', 'abs', 'min', 'max')
ATOMS = ('3', "'a'", 'True', '[1]', '[]', 'range(2)', 'len([1])', '-1', 'not 1', "'a' * 2", '[1] + [2]', "'ab'[0]", "[1][0]")
OPERATORS = ('+', '-', '*', '//', '%', '**', '<', '<=', '==', '!=', 'in', 'not in', 'and', 'or')
LONG = 'n' * 40


def words_of(text):
    """The places of the names in a program."""
    return [found for found in re.finditer(r"'[^']*'|\b[A-Za-z_]\w*", text)
            if found[0][0] != "'" and found[0] not in KEYWORDS]


def put(text, found, new):
    return text[:found.start()] + new + text[found.end():]


def with_another_name(rng, text):
    names = words_of(text)
    if not names:
        return text
    kind = rng.randrange(8)
    if kind == 0:
        return text + '\n' + rng.choice(text.split('\n\n')).strip('\n') + '\n'
    if kind == 1:
        heads = list(re.finditer(r'def \w+\(([^()]+)\)', text))
        if heads:
            head = rng.choice(heads)
            params = head[1].split(', ')
            params[rng.randrange(len(params))] = rng.choice(params)
            return text[:head.start(1)] + ', '.join(params) + text[head.end(1):]
    if kind == 2:
        heads = [found for found in names if text[:found.start()].endswith('def ')]
        return put(text, rng.choice(heads), rng.choice(BUILTINS + ('f', 'g', 'main', 'print', LONG)))
    new = rng.choice(('zz', LONG, 'print', rng.choice(BUILTINS), rng.choice(names)[0], rng.choice(names)[0], rng.choice(names)[0]))
    return put(text, rng.choice(names), new)


def with_another_type(rng, text):
    kind = rng.randrange(4)
    if kind == 3:
        name = rng.choice(words_of(text))[0]
        return inserted(rng, text, [rng.choice(('%s = ', '%s = ', '%s += ', '%s *= ')) % name + rng.choice(ATOMS)])
    if kind == 0:
        signs = list(re.finditer(r"(?<= )(//|\*\*|<=|>=|==|!=|not in|in|and|or|[-+*%<>])(?= )", text))
        if signs:
            return put(text, rng.choice(signs), rng.choice(OPERATORS))
    if kind == 1:
        signs = list(re.finditer(r'(//|[-+*%])=', text))
        if signs:
            return put(text, rng.choice(signs), rng.choice(('+=', '-=', '*=', '//=', '%=')))
    atoms = list(re.finditer(r"'(?:\\.|[^'\\])*'|\b\d+\b|\bTrue\b|\bFalse\b|\[[\d, ]*\]", text)) + words_of(text)
    return put(text, rng.choice(atoms), rng.choice(ATOMS)) if atoms else text


def with_another_arity(rng, text):
    calls = list(re.finditer(r'\w+\(([^()]*)\)', text))
    if not calls:
        return text
    call = rng.choice(calls)
    arguments = [it for it in call[1].split(', ') if it]
    if arguments and rng.random() < 0.5:
        del arguments[rng.randrange(len(arguments))]
    else:
        is_head = text[:call.start()].endswith('def ')
        arguments.insert(rng.randint(0, len(arguments)), 'q' if is_head else rng.choice(ATOMS))
    return text[:call.start(1)] + ', '.join(arguments) + text[call.end(1):]


def inserted(rng, text, made):
    """The program with lines before one of its statements."""
    lines = text.split('\n')
    places = [at for at, line in enumerate(lines) if re.match(r' +(?!elif|else)', line)]
    if not places:
        return text
    at = rng.choice(places)
    column = re.match(' *', lines[at])[0]
    return '\n'.join(lines[:at] + [column + line for line in made] + lines[at:])


def a_change(rng, name):
    return rng.choice(('%s.append(1)', '%s[0] = 1', '%s[0] += 1', '%s += [1]', '%s *= 2')) % name


def with_sharing(rng, text):
    names = sorted({found[0] for found in words_of(text)} - set(BUILTINS)) or ['v']
    lists = [name for name in names if name in ('v', 'w', 'items')] or names
    one = rng.choice(lists if rng.random() < 0.8 else names)
    other = rng.choice(lists + ['fresh'])
    kind = rng.randrange(6)
    if kind == 0:
        return inserted(rng, text, ['%s = %s' % (other, one)])
    if kind == 1:
        arms = [one, rng.choice(('[]', '[1]', other))]
        rng.shuffle(arms)
        return inserted(rng, text, ['%s = %s if True else %s' % (rng.choice(lists), arms[0], arms[1])])
    if kind == 2:
        return inserted(rng, text, [a_change(rng, one)])
    if kind == 3:
        return inserted(rng, text, ['return %s' % rng.choice((one, one, '%s if True else []' % one, one + '[:]'))])
    over = rng.choice((one, one, '%s if True else []' % one, '[1] if True else %s' % one, one + '[:]'))
    inside = ['    ' + a_change(rng, one)] if kind == 4 else ['    if True:', '        ' + a_change(rng, one)]
    return inserted(rng, text, ['for %s in %s:' % (rng.choice(('i', 'k')), over)] + inside)


def with_another_result(rng, text):
    returns = list(re.finditer(r'return\b.*', text))
    if not returns:
        return inserted(rng, text, ['return ' + rng.choice(ATOMS)])
    found = rng.choice(returns)
    calls = sorted(set(re.findall(r'def (\w+\([^()]*\))', text)))
    return put(text, found, rng.choice(('pass', 'return', 'return ' + rng.choice(ATOMS), 'return ' + rng.choice(ATOMS),
                                        'return ' + rng.choice(calls or ['1']))))


def with_prints(rng, text):
    """The program with up to two prints, of values and of names, which may be unknown where they stand."""
    for _ in range(rng.choice((0, 0, 1, 2))):
        names = [found[0] for found in words_of(text)]
        text = inserted(rng, text, ['print(%s)' % rng.choice((rng.choice(ATOMS), rng.choice(names)))])
    return text


SPOILERS = (with_another_name, with_another_type, with_another_arity, with_sharing, with_another_result)


def a_program(rng, bounds, is_spoiled):
    text = Programs(rng, bounds.entry, bounds.types(), rng.choice(TYPES)).program()
    text = with_prints(rng, text)
    if is_spoiled:
        text = rng.choice(SPOILERS)(rng, text)
    return text.encode()


# Bounds.

def a_number(rng, least, most):
    return rng.choice((least, most, rng.randint(least, most), rng.randint(least, most)))


def a_range(rng, least, most):
    low = a_number(rng, least, most)
    return low, rng.choice((low, most, rng.randint(low, most)))


def an_alphabet(rng):
    letters = rng.sample([chr(c) for c in range(32, 127)], rng.choice((1, 1, 2, 3, 8, 95)))
    quote = rng.choice('\'"')
    return quote + ''.join('\\' + c if c in '\\\'"' else c for c in letters) + quote


def some_params(rng, width, cap):
    least, most = -2 ** (width - 1), 2 ** (width - 1) - 1
    for _ in range(rng.choice((0, 1, 1, 2, 3, 4))):
        form = rng.choice(('int', 'bool', 'list', 'text'))
        if form == 'int':
            yield 'int %d..%d' % a_range(rng, least, most)
        elif form == 'bool':
            yield form
        elif form == 'list':
            yield 'list %d..%d of %d..%d' % (a_range(rng, 0, cap) + a_range(rng, least, most))
        else:
            yield 'text %d..%d of %s' % (a_range(rng, 0, cap) + (an_alphabet(rng),))


def a_name(rng):
    return rng.choice(('f', 'f', 'g', 'x', '_', 'If', 'n1', LONG, 'print', 'entry', 'param', 'int'))


def bounds_lines(rng):
    width, cap = a_number(rng, 3, 16), a_number(rng, 1, 16)
    yield 'width %d' % width
    yield 'turns %d' % a_number(rng, 1, 32)
    yield 'depth %d' % a_number(rng, 1, 8)
    yield 'cap %d' % cap
    yield 'entry ' + a_name(rng)
    for form in some_params(rng, width, cap):
        yield 'param %s %s' % (a_name(rng), form)


def spaced(rng, line):
    words = re.sub(' ', lambda _: rng.choice((' ', ' ', '  ', '\t')), line)
    return rng.choice(('', '', ' ', '\t')) + words + rng.choice(('', '', ' ', ' # so', '#'))


def in_a_layout(rng, lines):
    if rng.random() < 0.5:
        for _ in range(rng.randrange(4)):
            lines.insert(rng.randint(0, len(lines)), rng.choice(('', ' ', '\t', '# so', '  # of')))
        lines = [line if "'" in line or '"' in line else spaced(rng, line) for line in lines]
    end = rng.choice(('\n', '\n', '\n', '\r\n'))
    return (end.join(lines) + rng.choice((end, end, '', end * 2))).encode()


OTHER_WORDS = ('0', '1', '2', '3', '8', '9', '16', '17', '32', '33', '-1', '-0', '00', '007', '+1', '999999999', '1000000000',
               '0..0', '0..1', '1..0', '-1..1', '0..17', '0..16', '-4..3', '-5..3', '-4..4', '-32768..32767', '-32769..0',
               '0..32768', '0...1', '0..', '..1', '0.1', "''", "'aa'", "'ab'", "'aba'", '"', "'", "'a\\'", '"\\x"', 'of',
               'int', 'bool', 'list', 'text', 'param', 'width', 'turns', 'depth', 'cap', 'entry', 'if', 'None', 'f', LONG + 'n',
               '#', '\u00e9', '1x', 'x1', '')


def whole_bounds(rng):
    return in_a_layout(rng, list(bounds_lines(rng)))


EDGES = (0, 1, 2, 3, 8, 9, 16, 17, 32, 33, -1, -4, -5, 127, 128, -128, -129, 32767, 32768, -32768, -32769)


def at_an_edge(rng, number):
    return str(rng.choice(EDGES + (int(number) + 1, int(number) - 1)))


def near_bounds(rng):
    """Bounds with a word, a line or a byte that is another."""
    lines = list(bounds_lines(rng))
    kind = rng.randrange(8)
    at = rng.randrange(len(lines))
    if kind > 5:
        lines[at] = re.sub(r'-?\d+', lambda number: at_an_edge(rng, number[0]), lines[at], count=rng.choice((0, 1)))
    elif kind < 3:
        words = lines[at].split(' ')
        words[rng.randrange(1, len(words)) if rng.random() < 0.9 else 0] = rng.choice(OTHER_WORDS)
        lines[at] = ' '.join(words)
    elif kind == 3:
        other = rng.randrange(len(lines))
        lines[at], lines[other] = lines[other], lines[at]
        if rng.random() < 0.5:
            del lines[rng.randrange(len(lines))]
    elif kind == 4:
        forms = ('bool', 'bool', 'int 0..1', 'int 2..1')
        lines += ['param %s %s' % (a_name(rng), rng.choice(forms)) for _ in range(rng.choice((1, 4, 5)))]
    text = in_a_layout(rng, lines)
    return spoiled_bytes(rng, text) if kind == 5 else text


def some_bounds(rng):
    """Bounds for programs and cases, of few inputs or of many."""
    return Bounds(rng, rng.choice((10 ** 3, 10 ** 6, 10 ** 13)))


# Cases.

OTHER_VALUES = ('0', '-0', '00', '-00', '01', '+1', '1.0', '-', '2147483647', '2147483648', '-2147483648', '-2147483649',
                '99999999999', 'True', 'False', 'true', 'None', '[]', '[ ]', '[1]', '[1, 2]', '[1,2]', '[1 , 2]', '[1, ]', '[',
                ']', '[-0]', '[True]', '[[]]', "''", '""', "'a'", '"a"', "'ab'", "'\\''", "'\\\\'", "'\\n'", "'\"'", '"\\""',
                "'", '"', "'a\"", "'~'", "' '", "'\x7f'", "'\x1f'", "'\u00e9'", '1 ', ' 1', '')


def a_case(rng, bounds, is_spoiled):
    values = [bounds.value(param) for param in bounds.params]
    if rng.random() < 0.3:
        values.insert(rng.randint(0, len(values)), rng.choice(OTHER_VALUES[:2] + ('[3, -4]', 'True', "'x'", '-2147483648')))
    if not is_spoiled:
        return ', '.join(values).encode()
    if values and rng.random() < 0.6:
        values[rng.randrange(len(values))] = rng.choice(OTHER_VALUES)
        return ', '.join(values).encode()
    if rng.random() < 0.3:
        return rng.choice((',', ', ', ' , ', ',  ')).join(values + [rng.choice(OTHER_VALUES)]).encode()
    return spoiled_bytes(rng, ', '.join(values).encode())
