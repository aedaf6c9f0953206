"""Of lines that spell no statement: methods, brackets, calls and what is missing."""

WRITTEN = r'''
-- module | x | 2 | .sqrt
def f(x):
    return math.sqrt(x)
-- sort | v | 2 | sort
def f(v):
    v.sort()
    return v[-1]
-- pop or remove | v | 2 | pop
def f(v):
    v.pop()
    return v
-- insert | v | 2 | insert
def f(v):
    v.insert(0, 1)
    return v
-- extend | v w | 2 | extend
def f(v, w):
    v.extend(w)
    return v
-- reverse | v | 2 | reverse
def f(v):
    v.reverse()
    return v
-- copy | v | 2 | .copy
def f(v):
    w = v.copy()
    return w
-- count | s | 2 | .count
def f(s):
    return s.count('a')
-- index or find | s | 2 | .find
def f(s):
    return s.find('a')
-- join | s | 2 | .join
def f(s):
    return ''.join(s)
-- lower or upper | s | 2 | .lower
def f(s):
    return s.lower()
-- kind of character | s | 4 | .isdigit
def f(s):
    n = 0
    for c in s:
        if c.isdigit():
            n += 1
    return n
-- beginning or end | s | 2 | .startswith
def f(s):
    return s.startswith('a')
-- replace | s | 2 | .replace
def f(s):
    return s.replace('a', 'b')
-- split | s | 2 | .split
def f(s):
    return len(s.split(' '))
-- number behind a point | x | 2 | .5
def f(x):
    return x * .5
-- method | s | 2 | .strip
def f(s):
    return s.strip()
-- comprehension | v | 2 | for
def f(v):
    return [2 * x for x in v]
-- choice without else | x | 2 |
def f(x):
    y = 1 if x > 0
    return y
-- two indices | v | 2 | ,
def f(v):
    return v[0, 1]
-- comma in a test | x | 2 | ,
def f(x):
    if x > 0, x < 3:
        return 1
    return 0
-- comma at the end | x | 2 | )
def f(x):
    return abs(x,)
-- tuple returned | x y | 2 | ,
def f(x, y):
    return y, x
-- tuple | x y | 2 | ,
def f(x, y):
    p = (x, y)
    return p[0]
-- ++ or -- | x | 2 | +
def f(x):
    x++
    return x
-- sign before = | x | 2 | +
def f(x):
    x =+ 1
    return x
-- plus in front | x | 2 | +
def f(x):
    return x * +1
-- **= | x | 2 | **
def f(x):
    x **= 2
    return x
-- not behind an operator | b | 2 | not
def f(b):
    return True == not b
-- reserved word as a value | x | 2 | global
def f(x):
    return x + global
-- call | x y | 4 | f
def f(x, y):
    if y == 0:
        return x
    f(y, x % y)
-- call at the left edge | x | 3 | f
def f(x):
    return x
f(3)
-- top level | x | 3 | print
def f(x):
    return x
print(f(3))
-- == for = | v | 5 | ==
def f(v):
    best = v[0]
    for x in v:
        if x > best:
            best == x
    return best
-- expression | x | 2 | +
def f(x):
    x + 1
    return x
-- expression first | x | 2 | 1
def f(x):
    1 + x
    return x
-- colon at the end | x | 2 |
def f(x):
    if x > 0
        return 1
    return 0
-- parentheses of def | | 1 | :
def f:
    return 1
-- form of for | x | 2 | range
def f(x):
    for i range(3):
        x += i
    return x
-- name missing | x | 1 | (
def (x):
    return x
-- line ends too early | x | 2 |
def f(x):
    return x +
-- no colon | x | 2 | then
def f(x):
    if x > 0 then:
        return 1
    return 0
-- no operator | x | 2 | x
def f(x):
    return 2 x
-- word by itself | x | 3 | x
def f(x):
    while x > 0:
        break x
    return x
-- value missing | x | 2 | )
def f(x):
    return (x + )
-- other statement | x | 2 | .x
def f(x):
    .x = 3
    return x
'''
