"""Of what is no token."""

WRITTEN = r'''
-- division | x | 2 | /
def f(x):
    return x / 2
-- division | x | 2 | /
def f(x):
    x /= 2
    return x
-- float | x | 2 | 1.5
def f(x):
    return x * 1.5
-- zero in front | x | 2 | 007
def f(x):
    return x + 007
-- large number | x | 2 | 2147483648
def f(x):
    return x + 2147483648
-- number | x | 2 | 2x
def f(x):
    return 2x
-- braces round a block | x | 1 | {
def f(x) {
    return x
-- dictionary or set | x | 2 | {
def f(x):
    d = {1: 2}
    return d[x]
-- semicolon at the end | x | 2 | ;
def f(x):
    return x;
-- semicolon | x | 2 | ;
def f(x):
    y = x; return y
-- joined lines | x | 2 | \
def f(x):
    return x + \
        1
-- signs for and, or | x y | 2 | &
def f(x, y):
    if x > 0 && y > 0:
        return x
    return y
-- sign for not | x | 2 | !
def f(x):
    return !x
-- sign for a power | x | 2 | ^
def f(x):
    return x ^ 2
-- other sign | x | 2 | @
def f(x):
    return x @ 2
-- documentation over lines | x | 2 | "Adds one.
def f(x):
    """Adds one.

    Gives a number."""
    return x + 1
-- documentation over lines | x | 2 | "
def f(x):
    """
    Adds one.
    """
    return x + 1
-- open text | s | 2 | 'a
def f(s):
    return s + 'a
-- line end in a text | s | 2 | \n
def f(s):
    return s + 'a\n'
-- escape | s | 2 | \d
def f(s):
    return s + '\d'
-- closing bracket | x | 2 | )
def f(x):
    return x + 1)
-- open bracket | x | 2 | (
def f(x):
    y = abs(x + 1
    return y
-- first line | x | 1 | ~~
  def f(x):
    return x
-- column | x | 4 | ~~~~~~
def f(x):
    if x > 0:
            x = 1
      x = 2
    return x
'''
