"""The texts by which `explain.py` tries the table of the tool: for each row a submission to which the row applies.

A text stands below a line with the row's key, the parameters of the assignment, the number of the refused line, and
what is marked on it, with ~ for a space. The entry is `f`. A parameter's type goes by its letter: x and y are whole
numbers, b a truth value, v and w lists, s a text. Those with other bytes, and those that are made, stand in MADE.
"""
from . import blocks, characters, names, parts, statements, values

WRITTEN = ''.join(part.WRITTEN for part in (characters, blocks, statements, parts, names, values))


def of_expression(text):
    """A program that returns an expression."""
    return 'def f(x):\n    return %s\n' % text


def of_functions(count):
    return ''.join('def %s(x):\n    return x\n' % name for name in ['f'] + ['g%d' % at for at in range(1, count)])


# Each has the key, the parameters, the line, the mark, and the text.
MADE = [
    ('wide characters', 'x', 1, b'\xff', b'\xff\xfe' + of_expression('x').encode('utf-16-le')),
    ('quote', 's', 2, '\u2019', of_expression('s == \u2019a\u2019').replace('(x)', '(s)')),
    ('dash', 'x', 2, '\u2212', of_expression('x \u2212 1')),
    ('space', 'x', 2, '\u00a0', of_expression('x\u00a0+ 1')),
    ('printed sign', 'x', 2, '\u2264', of_expression('x \u2264 1')),
    ('letter', 'x', 2, '\u00f6', of_expression('gr\u00f6\u00dfe')),
    ('other encoding', 'x', 2, b'\xf6', of_expression('gr\u00f6\u00dfe').encode('latin-1')),
    ('tab in a text', 's', 2, '\t', of_expression("s + 'a\tb'").replace('(x)', '(s)')),
    ('carriage return', 'x', 1, '\r', of_expression('x').replace('\n', '\r')),
    ('other character', 'x', 2, '\x0c', of_expression('x\x0c')),
    ('tab', 'x', 2, '\t', 'def f(x):\n\treturn x\n'),
    ('documentation over lines', 'x', 2, '\'', 'def f(x):\n    \'\'\'It\'s one more.\'\'\'\n    return x + 1\n'),
    ('long line', 'x', 2, '', of_expression(' + '.join(['x'] * 201))),
    ('functions', 'x', 17, 'def', of_functions(9)),
    ('statements', 'x', 202, 'x', 'def f(x):\n' + '    x = x\n' * 200 + '    x = 0\n    return x\n'),
    ('deep expression', 'x', 2, '', of_expression('-' * 32 + 'x')),
]
