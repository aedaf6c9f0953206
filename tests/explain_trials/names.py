"""Of names, arguments and the function that is asked for."""

WRITTEN = r'''
-- print in a value | x | 2 | print
def f(x):
    y = print(x)
    return x
-- print in a value | x | 2 | print
def f(x):
    print(print(x))
    return x
-- input | x | 2 | input
def f(x):
    y = input()
    return x
-- infinity | v | 2 | float
def f(v):
    best = -float('inf')
    for x in v:
        best = max(best, x)
    return best
-- sum | v | 2 | sum
def f(v):
    return sum(v)
-- sorted | v | 2 | sorted
def f(v):
    return sorted(v)[-1]
-- enumerate alone | v | 2 | enumerate
def f(v):
    for x in enumerate(v):
        return x
    return 0
-- zip alone | v w | 2 | zip
def f(v, w):
    for x in zip(v, w):
        return x
    return 0
-- reversed | v | 3 | reversed
def f(v):
    w = []
    for x in reversed(v):
        w.append(x)
    return w
-- str | x | 2 | str
def f(x):
    return len(str(x))
-- int | x | 2 | int
def f(x):
    return int(x)
-- int | x | 2 | float
def f(x):
    return float(x)
-- list | v | 2 | list
def f(v):
    w = list(v)
    return w
-- list | v | 2 | list
def f(v):
    w = list()
    return w
-- set | v | 2 | set
def f(v):
    return len(set(v))
-- bool | x | 2 | bool
def f(x):
    return bool(x)
-- ord | s | 2 | ord
def f(s):
    return ord(s)
-- any | v | 2 | any
def f(v):
    return any(v)
-- map | v | 2 | map
def f(v):
    return map(abs, v)
-- pow | x | 2 | pow
def f(x):
    return pow(x, 2)
-- type | x | 2 | isinstance
def f(x):
    if isinstance(x, 3):
        return 1
    return 0
-- unknown function | x | 2 | square
def f(x):
    return square(x)
-- local is called | v | 3 | max
def f(v):
    max = v[0]
    return max(max, v[1])
-- local is called | x | 3 | print
def f(x):
    print = x
    print(x)
    return x
-- true and false | x | 2 | true
def f(x):
    return true
-- null | x | 2 | null
def f(x):
    return null
-- name of another function | x | 5 | total
def g(y):
    total = y
    return total
def f(x):
    return total + g(x)
-- function as a value | x | 4 | g
def g(y):
    return y
def f(x):
    h = g
    return x
-- unknown name | x | 3 | siz
def f(x):
    size = x * x
    return siz
-- changed before it is set | x | 2 | w
def f(x):
    w.append(x)
    return x
-- second function | x | 3 | f
def f(x):
    return x
def f(x):
    return x + 1
-- name of a builtin | x | 3 | max
def f(x):
    return x
def max(a, b):
    return a
-- function named print | x | 3 | print
def f(x):
    return x
def print(a):
    return a
-- second parameter | x | 3 | y
def f(x):
    return g(x, x)
def g(y, y):
    return y
-- max of a list | v | 2 | max(v)
def f(v):
    return max(v)
-- max of many | x | 2 | min(x, 1, 2)
def f(x):
    return min(x, 1, 2)
-- other arguments | x | 2 | g(x, 1)
def f(x):
    return g(x, 1)
def g(y):
    return y
-- no function | x | 1 |
# nothing yet
-- other functions | x | 1 | sqare
def sqare(x):
    return x * x
-- number of parameters | x | 1 | f
def f(x, y):
    return x + y
'''
