"""Of columns, blocks and limits."""

WRITTEN = r'''
-- deeper | x | 3 | return
def f(x):
    y = x
        return y
-- deeper behind a body | x | 3 | return
def f(x):
    if x > 0: y = 1
        return y
    return x
-- no body | x | 2 | if
def f(x):
    if x > 0:
        # nothing yet
    return x
-- else of a loop | x | 4 | else
def f(x):
    while x > 3:
        x -= 1
    else:
        x = 0
    return x
-- else of a loop | v | 5 | else
def f(v):
    for x in v:
        if x > 1:
            return x
    else:
        return 0
-- behind else | x | 6 | elif
def f(x):
    if x > 3:
        return 1
    else:
        return 2
    elif x > 2:
        return 3
    return 0
-- no if | x | 3 | else
def f(x):
    y = x
    else:
        y = 0
    return y
-- nested def | x | 2 | def
def f(x):
    def g(y):
        return y + 1
    return g(x)
-- main | x | 4 | if
def f(x):
    return x

if __name__ == '__main__':
    x = f(3)
-- top level | x | 1 | total
total = 0
def f(x):
    return total + x
-- outside a loop | x | 3 | break
def f(x):
    if x > 3:
        break
    return x
-- parameters | x | 3 | h7
def f(x):
    return x
def g(h1, h2, h3, h4, h5, h6, h7):
    return h1
-- long name | x | 2 | a23456789_123456789_123456789_123456789_1
def f(x):
    a23456789_123456789_123456789_123456789_1 = x
    return x
-- deep block | x | 10 | x
def f(x):
    while x > 0:
        while x > 1:
            while x > 2:
                while x > 3:
                    while x > 4:
                        while x > 5:
                            while x > 6:
                                while x > 7:
                                    x -= 1
    return x
'''
