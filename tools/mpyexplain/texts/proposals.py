"""What to write instead, where several rows say it, or where it is made of the text itself."""
from ..syntax import is_code


def in_turn(p):
    """Several targets, one after the other: `A, B = X, Y`."""
    equals = next((at for at in range(p.begin, len(p.tokens)) if p.token(at) == '='), p.begin)
    sides = [[p.expression(*part) for part in parted(p, *side)]
             for side in ((p.begin, equals), (equals + 1, len(p.tokens)))]
    if is_apart(p, equals, sides):
        code = '\n'.join('    %s = %s' % pair for pair in zip(*sides))
        if is_code(code):
            return 'Write a line for each:\n' + code
    if [len(side) for side in sides] == [2, 2] and not p.has('new'):
        (first, second), (value, last_value) = sides
        code = '    new = %s\n    %s = %s\n    %s = new' % (last_value, first, value, second)
        if is_code(code):
            return 'Write three lines, so that each value is still made of the old ones:\n' + code
    return IN_TURN


def is_apart(p, equals, sides):
    """Whether there is a value for each target, and no name stands on both sides."""
    names = [{token.text for token in tokens if token.kind == 'name'}
             for tokens in (p.tokens[p.begin:equals], p.tokens[equals:])]
    return len(sides[0]) == len(sides[1]) and not names[0] & names[1]


def parted(p, first, end):
    """The tokens from one place to another, parted at the commas outside of brackets."""
    depth, begin = 0, first
    for at in range(first, end):
        depth += (p.token(at) in ('(', '[')) - (p.token(at) in (')', ']'))
        if p.token(at) == ',' and depth == 0:
            yield begin, at
            begin = at + 1
    yield begin, end


def by_place(p):
    """`for I, X in enumerate(V)` by places."""
    at, element, values = p.token(p.begin + 1), p.token(p.begin + 3), p.token(p.begin + 7)
    code = '    for %s in range(len(%s)):\n        %s = %s[%s]' % (at, values, element, values, at)
    is_plain = [p.token(p.begin + step) for step in (4, 5, 6, 8)] == ['in', 'enumerate', '(', ')']
    return 'Go through the places, and take the element at each:\n' + code if is_plain and is_code(code) else PLACES


BACKWARDS = 'To turn a list or a text round, put each element in front of those before it:\n' \
            '    w = []\n    for x in v:\n        w = [x] + w\n' \
            '    t = \'\'\n    for c in s:\n        t = c + t'
IN_STEPS = 'Go through the places by range, which has a step:\n' \
           '    w = []\n    for i in range(0, len(v), 2):\n        w.append(v[i])'
SIDE_BY_SIDE = 'Go through the places, and take the elements at each:\n' \
               '    for i in range(min(len(v), len(w))):\n        x = v[i]\n        y = w[i]'
PLACES = 'Go through the places, and take the element at each:\n    for i in range(len(v)):\n        x = v[i]'
LARGEST = 'For the largest number, go through the list and keep the largest so far:\n' \
          '    best = v[0]\n    for x in v:\n        best = max(best, x)'
TOTAL = 'Add up in a loop:\n    total = 0\n    for x in v:\n        total += x'
DIGITS = 'The digits of a number come by // and %, the last one first:\n' \
         '    while n > 0:\n        digit = n % 10\n        n = n // 10'
COLLECT = 'Collect the elements in a loop:\n    w = []\n    for x in v:\n        if x > 0:\n            w.append(2 * x)'
COMMENT = 'Write it as a comment, with # in front of it, or leave it out:\n    # what the function does'
GRID = 'Keep rows of numbers in one list: the element in row i and column j is v[i * width + j].'
ONE_TARGET = 'A statement gives a value to one name, not to several at once.'
IN_TURN = 'Write a line for each. A value that is needed later gets a name before it is replaced:\n' \
          '    old = a\n    a = b\n    b = old'
ONE_TYPE = 'Give values of one type by every return.'
APPEND_ALONE = 'Lists have the method append alone.'
