"""Random sides of rules as lists of words, and spoiled ones; `sides.py` takes them from here."""

METAS = ['$%s%s%s' % (letter, digit, prime) for letter in 'avnco' for digit in ('', '0', '7') for prime in ('', "'")]
MARKS = ['(', ')', '[', ']', ':', ',', '.', '=', '==', '!=', '<', '<=', '>', '>=', '+', '-', '*', '//', '%', '**', '+=',
         '-=', '*=', '//=', '%=', '{', '}', '?', '=>']
RESERVED = ['and', 'break', 'continue', 'def', 'elif', 'else', 'False', 'for', 'if', 'in', 'not', 'or', 'pass', 'return',
            'True', 'while']
COMPARISONS = ['==', '!=', '<', '<=', '>', '>=']
OPERATORS = ['+', '-', '*', '//', '%']
ATOMS = ['0', '3', '17', '2147483647', "'a'", '"x\\\\"', "''", 'True', 'False', 'x', 'len']
# What looks like a part of a side, and may be none.
NEAR = [['{', '<', ',', '+', '}'], ['{', 'in', ',', '<', '}'], ['{', '**', ',', '+', '}'], ['{', '}'], ['{', '<', '}'],
        ['{', '+', ',', '}'], ['{', '-', '1', '}'], ['?', "$a'"], ['?', '$c'], ['?', '$o'], ['?', '?', '$a'], ['?', '$v'],
        ['$v', '='], ['$a', '=']]


def kind(word):
    """What the word is as a token."""
    if word[0] == '$':
        return 'Meta'
    if word[0] in '\'"':
        return 'Text'
    if word[0].isdigit():
        return 'Number'
    if word in RESERVED:
        return 'Reserved'
    return 'Name' if word[0].isalpha() or word[0] == '_' else 'Mark'


def meta(rng, letters):
    return '$' + rng.choice(letters) + rng.choice(['', '', '0', '5', '9']) + rng.choice(['', '', "'"])


def joined(parts):
    """The words of the parts, with commas between them."""
    return [word for at, part in enumerate(parts) for word in ([','] if at else []) + part]


def atom(rng, is_right):
    if is_right and rng.random() < .2:
        return ['?', '$' + rng.choice('avn') + rng.choice(['', '2'])]
    return [rng.choice(ATOMS)] if rng.random() < .4 else [meta(rng, 'avn')]


def operator(rng, is_right):
    """What stands between two operands."""
    made = rng.randrange(8)
    if made < 3:
        return rng.choice([['or'], ['and'], ['not', 'in'], ['in'], ['**']])
    if made < 5:
        return [rng.choice(COMPARISONS + OPERATORS)]
    if made == 5 or not is_right:
        return [meta(rng, 'co')]
    among = rng.choice([COMPARISONS, OPERATORS])
    return ['{'] + joined([[rng.choice(among)] for _ in range(rng.randrange(1, 4))]) + ['}']


def in_brackets(rng, depth, is_right):
    items = [expression(rng, depth - 1, is_right) for _ in range(rng.randrange(3))]
    made = rng.randrange(5)
    if made == 0:
        return ['len', '('] + joined(items) + [')']
    if made == 1:
        return ['('] + expression(rng, depth - 1, is_right) + [')']
    if made == 2 or not is_right:
        return ['['] + joined(items) + [']']
    return ['{'] + joined(items or [atom(rng, is_right)]) + ['}']


def expression(rng, depth, is_right):
    made = rng.randrange(12)
    if depth <= 0 or made < 2:
        return atom(rng, is_right)
    one, other = expression(rng, depth - 1, is_right), expression(rng, depth - 1, is_right)
    if made == 2:
        return one + ['if'] + other + ['else'] + expression(rng, depth - 1, is_right)
    if made == 3:
        return [rng.choice(['not', '-'])] + one
    if made == 4:
        return one + ['['] + other + [']']
    if made == 5:
        return one + ['['] + rng.choice([other, []]) + [':'] + rng.choice([other, []]) + [']']
    if made < 8:
        return in_brackets(rng, depth, is_right)
    return one + operator(rng, is_right) + other


def side(rng):
    """The words of a side, left or right."""
    e = expression(rng, rng.randrange(4), rng.random() < .6)
    return rng.choice([e, e, e, ['return'] + e, [meta(rng, 'v'), '='] + e, ['if'] + e + [':'], ['while'] + e + [':'],
                       ['for', meta(rng, 'v'), 'in'] + e + [':']])


def spoiled_once(rng, words):
    words, at = list(words), rng.randrange(len(words) + 1)
    word = rng.choice([rng.choice(MARKS), rng.choice(METAS), rng.choice(RESERVED), 'x', '3', "'a'"])
    made = rng.randrange(7)
    if made == 0:
        return words[:at] + [word] + words[at:]
    if made == 1:
        return words[:at] + words[at + 1:]
    if made == 2:
        return words[:at] + [word] + words[at + 1:]
    if made == 3:
        return words[:at] + words[at + 1:at + 2] + words[at:at + 1] + words[at + 2:]
    if made == 4:
        return words[:at] + rng.choice(NEAR) + words[at:]
    return words[:at] if made == 5 else words + [rng.choice([':', '=', ')', '}', '?'])]


def spoiled(rng, words):
    for _ in range(rng.choice((1, 1, 1, 2))):
        words = spoiled_once(rng, words)
    return words
