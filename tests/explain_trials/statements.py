"""Of lines that spell no statement: words, targets, slices, comparisons and signs."""

WRITTEN = r'''
-- reserved word | x | 2 | lambda
def f(x):
    lambda = 3
    return lambda * x
-- documentation string | x | 2 | ""
def f(x):
    """Gives the number."""
    return x
-- documentation string | x | 1 | ""
"""My homework."""
def f(x):
    return x
-- import | x | 2 | import
def f(x):
    import math
    return x
-- assert | x | 3 | assert
def f(x):
    return x
assert f(1) == 1
-- exceptions | x | 2 | try
def f(x):
    try:
        return 1 // x
    except ZeroDivisionError:
        return 0
-- with | x | 2 | with
def f(x):
    with x:
        return 1
-- global | x | 2 | global
def f(x):
    global total
    total = x
    return total
-- class | x | 1 | class
class Solution:
    def f(self, x):
        return x
-- del | v | 2 | del
def f(v):
    del v[0]
    return v
-- yield | x | 2 | yield
def f(x):
    yield x
-- lambda | x | 2 | lambda
def f(x):
    g = lambda y: y + 1
    return g(x)
-- is None | x | 2 | is
def f(x):
    if x is None:
        return 0
    return x
-- is None | x | 2 | is
def f(x):
    if x is not None:
        return x
    return 0
-- is None | x | 2 | None
def f(x):
    if x == None:
        return 0
    return x
-- is | x | 2 | is
def f(x):
    if x is 3:
        return 0
    return x
-- None | x | 2 | None
def f(x):
    y = None
    return y
-- block behind a colon | x | 2 | while
def f(x):
    if x > 3: while x > 2: x -= 1
    return x
-- statement inside | x | 2 | return
def f(x):
    y = return x
-- print of several | x | 3 | ,
def f(x):
    y = x + 1
    print('y', y)
    return y
-- print of several | s | 3 | ,
def f(s):
    for c in s:
        print(c, end='')
    return s
-- print of nothing | x | 2 | )
def f(x):
    print()
    return x
-- print without parentheses | x | 2 | x
def f(x):
    print x
    return x
-- f-string | s | 2 | '{s}!'
def f(s):
    print(f'{s}!')
    return s
-- other word for elif | x | 4 | if
def f(x):
    if x > 0:
        return 1
    else if x < 0:
        return 2
    return 0
-- other word for def | x | 1 | function
function f(x):
    return x
-- other header | x | 2 | whlie
def f(x):
    whlie x > 3:
        x -= 1
    return x
-- declaration | x | 2 | y
def f(x):
    int y = x
    return y
-- two targets | x y | 2 | ,
def f(x, y):
    x, y = y, x % (y + 1)
    return x
-- two targets | v | 4 | ,
def f(v):
    for i in range(len(v) - 1):
        if v[i] > v[i + 1]:
            v[i], v[i + 1] = v[i + 1], v[i]
    return v
-- two targets | x y | 2 | ,
def f(x, y):
    x, y = g(x, y)
    return x
-- two targets | v | 2 | ,
def f(v):
    low, high = 0, len(v) - 1
    return low + high
-- two targets | x | 2 | ,
def f(x):
    a, b, c = 0, 1, x
    return a + b + c
-- two targets | x | 3 | ,
def f(x):
    a = 0
    a, b, c = b, c, a
    return a
-- targets in brackets | x y | 2 | (
def f(x, y):
    (x, y) = (y, x)
    return x
-- enumerate | v | 3 | ,
def f(v):
    n = 0
    for place, number in enumerate(v):
        n += place * number
    return n
-- enumerate | v | 3 | ,
def f(v):
    n = 0
    for i, x in enumerate(v, 1):
        n += i * x
    return n
-- zip | v w | 3 | ,
def f(v, w):
    n = 0
    for x, y in zip(v, w):
        n += x * y
    return n
-- for with two names | v | 2 | ,
def f(v):
    for x, y in v:
        return x
    return 0
-- backwards | s | 2 | :
def f(s):
    return s[::-1]
-- backwards | v | 3 | :
def f(v):
    n = 0
    for x in v[::-1]:
        n = 2 * n + x
    return n
-- step | v | 2 | :
def f(v):
    return v[1:4:2]
-- part of a list set | v | 2 | :
def f(v):
    v[1:2] = [7]
    return v
-- list of lists set | v | 2 | [
def f(v):
    v[0][1] = 3
    return v
-- => or =< | x | 2 | =
def f(x):
    if x => 3:
        return 1
    return 0
-- <> | x | 2 | >
def f(x):
    if x <> 3:
        return 1
    return 0
-- === | x | 2 | =
def f(x):
    if x === 3:
        return 1
    return 0
-- shift | x | 2 | <
def f(x):
    return x << 2
-- chain | x | 2 | <
def f(x):
    return 0 < x < 3
-- chain | x y | 2 | ==
def f(x, y):
    if x == y == 1:
        return 1
    return 0
-- = in a test | x | 2 | =
def f(x):
    if x = 3:
        return 1
    return 0
-- several = in a row | x | 2 | =
def f(x):
    a = b = x
    return a + b
-- named argument | x | 2 | =
def f(x):
    return abs(x=x)
-- default parameter | x | 1 | =
def f(x=0):
    return x
-- := | x | 2 | :
def f(x):
    y := x
    return y
-- star of a parameter | x | 1 | *
def f(*x):
    return x
-- star of an argument | v | 2 | *
def f(v):
    return max(*v)
-- annotation | x | 1 | :
def f(x: int):
    return x
-- f-string | s | 2 | '{s}!'
def f(s):
    return f'{s}!'
-- f-string | s | 2 | .format
def f(s):
    return '{}!'.format(s)
-- letter before a text | s | 2 | 'a'
def f(s):
    return s + r'a'
-- append to an element | v | 2 | .append
def f(v):
    v[0].append(1)
    return v
-- append gives nothing | v | 2 | .append
def f(v):
    w = v.append(1)
    return w
-- append of several | v | 2 | ,
def f(v):
    v.append(1, 2)
    return v
'''
