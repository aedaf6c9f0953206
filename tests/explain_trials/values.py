"""Of types, of lists with two names, of results and of what is too large."""

WRITTEN = r'''
-- truth value added | v | 2 | n
def f(v):
    n = 0
    for x in v:
        n += x > 0
    return n
-- list and number | x v | 1 | v
def f(x, v):
    v += x
    return len(v)
-- list and number | v | 2 | w
def f(v):
    w = []
    for x in v:
        w += x
    return w
-- list and number | v | 1 | v
def f(v):
    v = v[1:] + v[0]
    return v
-- list and number | v | 1 | f
def f(v):
    return v + 1
-- text and number | x | 2 | t
def f(x):
    t = ''
    for i in range(x):
        t += i
    return t
-- list and number | v | 2 | n
def f(v):
    n = 0
    n += v
    return n
-- calculated in a change | v | 1 | v
def f(v):
    v -= 1
    return len(v)
-- name of two types | x | 2 | y
def f(x):
    y = 0
    y = [x]
    return y
-- parameter of two types | x | 1 | x
def f(x):
    x = 'a'
    return x
-- result of two types | x | 1 | f
def f(x):
    if x > 0:
        return True
    return 0
-- result of several types | x | 1 | f
def f(x):
    if x > 0:
        return [x]
    return ''
-- or of a value | x | 2 | or
def f(x):
    if x == 1 or 2:
        return 1
    return 0
-- and, or | x | 2 | and
def f(x):
    if x and x > 1:
        return 1
    return 0
-- truth value compared | x | 3 | ==
def f(x):
    found = x > 1
    if found == 1:
        return 1
    return 0
-- text compared with a number | x | 2 | ==
def f(x):
    if x == '1':
        return 1
    return 0
-- types compared | v | 2 | ==
def f(v):
    if v == 0:
        return 1
    return 0
-- texts in order | s | 2 | <
def f(s):
    return s[0] < 'b'
-- order | v | 2 | >
def f(v):
    return v > 3
-- in | x s | 2 | in
def f(x, s):
    return x in s
-- text and number added | x s | 2 | +
def f(x, s):
    if s + x == '1':
        return 1
    return 0
-- list and number added | x v | 2 | +
def f(x, v):
    return len(v + x)
-- added | b | 2 | +
def f(b):
    return len([1] + b)
-- list behind the star | x | 2 | *
def f(x):
    return len(x * [0])
-- calculated | b | 2 | b
def f(b):
    b -= b
    return b
-- repeated | b x | 2 | *
def f(b, x):
    return b * x
-- text formatted | s | 2 | %
def f(s):
    return s % 3
-- calculated | v | 2 | -
def f(v):
    return v - 1
-- minus in front | v | 2 | -v
def f(v):
    return -v
-- choice of two types | x | 2 | 1 if x > 0 else '1'
def f(x):
    if (1 if x > 0 else '1') == 1:
        return x
    return 0
-- element of a number | x | 2 | x[0]
def f(x):
    return 1 + x[0]
-- element | b | 2 | b[0]
def f(b):
    return 1 + b[0]
-- index | v s | 2 | v[s]
def f(v, s):
    return v[s]
-- slice | x | 2 | x[1:]
def f(x):
    return len(x[1:])
-- ends of a slice | v s | 2 | v[s:]
def f(v, s):
    return v[s:]
-- list of texts | s | 2 | ['a', 'b']
def f(s):
    return s in ['a', 'b']
-- list of lists | x | 2 | [[x], [x]]
def f(x):
    return [[x], [x]]
-- list of truth values | x | 2 | [x > 0]
def f(x):
    return [x > 0]
-- length | x | 2 | len(x)
def f(x):
    return len(x)
-- arguments | v | 3 | range(v)
def f(v):
    n = 0
    for i in range(v):
        n += i
    return n
-- loop over a number | x | 3 | x
def f(x):
    i = 0
    for i in x:
        x += i
    return x
-- change of a text | s | 2 | s
def f(s):
    s[0] = 'b'
    return s
-- change of no list | x | 3 | y
def f(x):
    y = x
    y.append(3)
    return y
-- list put into a list | x | 3 | [x]
def f(x):
    w = []
    w.append([x])
    return w
-- list put into a list | v | 2 | [1, 2]
def f(v):
    v[0] = [1, 2]
    return v
-- element set | v | 2 | 'a'
def f(v):
    v[0] = 'a'
    return v
-- helper never called | x | 3 | y
def f(x):
    return x
def g(y):
    return y + 1
-- parameter | x | 3 | y
def f(x):
    return x
def g(y):
    return g(y)
-- print for return | x | 1 | f
def f(x):
    y = x + 1
    print(y)
-- no return | x | 1 | f
def f(x):
    y = x + 1
-- no return | x | 1 | f
def f(x):
    if x > 1:
        return
-- no return | x | 1 | f
def f(x):
    pass
-- element of an element | v | 1 | f
def f(v):
    return v[0][1]
-- element of no list | x | 2 | last
def f(x):
    last = x[-1]
    return last
-- return of itself | x | 1 | f
def f(x):
    return f(x)
-- loop over no list | v | 3 | len(v)
def f(v):
    n = 0
    for i in len(v):
        n += v[i]
    return n
-- product alone | x | 3 | y
def f(x):
    while x > 0:
        y *= x
        x -= 1
    return y
-- value of no return | x | 2 | y
def f(x):
    y = g(x)
    return x
def g(z):
    z = z + 1
-- no first value | x | 2 | y
def f(x):
    y = y
    return x
-- second name | v | 2 | v
def f(v):
    w = v
    w.append(1)
    return w
-- returned parameter | v | 4 | w
def f(v):
    return g(v)
def g(w):
    return w
-- changed in its loop | v | 3 | v
def f(v):
    for x in v:
        v.append(x)
    return v
-- changed in its loop | v | 3 | v
def f(v):
    for x in v:
        v += [x]
    return v
-- second name | v | 2 | v
def f(v):
    w = v
    w += [1]
    return w
-- changed by += | v | 4 | w
def f(v):
    return len(g(v))
def g(w):
    w += [1]
    return w[:]
-- changed parameter | v | 4 | w
def f(v):
    return len(g(v))
def g(w):
    w[0] = 1
    return w[:]
-- other type | x | 1 | f
def f(x):
    return x > 0
-- value given | x nothing | 1 | f
def f(x):
    print(0)
    return x
-- no value given | x printed | 1 | f
def f(x):
    print(x)
-- too large | x | 1 | f
def f(x):
    while x > 1:
        while x > 2:
            while x > 3:
                while x > 4:
                    while x > 5:
                        while x > 6:
                            while x > 7:
                                x -= 1
    return x
'''
