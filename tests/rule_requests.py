"""Random requests of `grade` whose submission may be mended by rules; `compare.py` takes them from here."""
import random_rules
from formula_requests import spoiled
from program_requests import a_program
from random_programs import TYPES, Bounds, changed
from request import WORDS, Request

MOST_INPUTS = 40
# Some rules may be used nearly anywhere, and then a search takes minutes to spend more.
BUDGET = '2000'

# Rules in the manner of error models, each a left side and a right side.
RULES = (
    ('$n', '{0, 1, 2}'), ('$n', '$n + 1'), ('$n', '$n - 1'), ('$n', '{$n + 1, $n - 1}'), ('$n', '-$n'),
    ('$a0 < $a1', "$a0' {<=, >} $a1'"), ('$a0 $c $a1', "$a0' {<, <=, ==, !=} $a1'"), ('$a0 $c $a1', "$a1' $c $a0'"),
    ('$a0 + $a1', "$a0' {-, *} $a1'"), ('$a0 $o $a1', "$a0' {+, -} $a1'"), ('$a0 $o $a1', "$a1' $o $a0'"),
    ('$v', '?$v'), ('$v', '{?$v, 0}'), ('$a0[$a1]', "$a0'[{$a1', $a1' + 1, $a1' - 1}]"), ('$a[0]', "$a'[-1]"),
    ('range($a)', "range({1, 2}, $a')"), ('range($a)', "range($a' + 1)"), ('len($a)', "len($a') - 1"),
    ('not $a', "$a'"), ('$a0 and $a1', "$a0' or $a1'"), ('$a0 or $a1', "$a0' and $a1'"), ('True', 'False'), ('False', 'True'),
    ('$a0 if $a1 else $a2', "$a2' if $a1' else $a0'"), ('$a0 in $a1', "$a0' not in $a1'"), ('$a', '$a'), ('[]', '[0]'),
    ('return $a', 'return ?$a'), ('return $a', 'return not $a'), ('return $a0 + $a1', 'return $a0'), ('return $a', "return $a' + 1"),
    ('$v = $a', '$v = $a + 1'), ('$v = $n', '$v = {0, 1}'), ('$v = $a', "$v = ?$a"), ('$v0 = $a[:]', '$v0 = $a'),
    ('if $a:', "if not $a':"), ('if $a0 $c $a1:', "if $a0 {<, <=, >, >=} $a1:"), ('while $a:', 'while not $a:'),
    ('for $v in $a:', 'for $v in $a[1:]:'), ('for $v in range($a):', "for $v in range(1, $a'):"), ('for $v in $a:', 'for $v in ?$a:'),
)
# Rules that take back what `mistaken` does.
FIXES = (('$n', '{0, 1, 2, 3, 4}'), ('$n', '{$n + 1, $n - 1}'), ('$a0 $c $a1', "$a0' {<, <=, >, >=, ==, !=} $a1'"),
         ('$a0 $o $a1', "$a0' {+, -, *} $a1'"), ('$v', '?$v'), ('$a0 and $a1', "$a0' or $a1'"), ('$a0 or $a1', "$a0' and $a1'"),
         ('True', 'False'), ('False', 'True'))
SWAPS = (('<=', '<'), ('<', '<='), ('>', '>='), ('==', '!='), (' + ', ' - '), (' - ', ' + '), (' * ', ' + '), (' and ', ' or '),
         (' or ', ' and '), ('True', 'False'), ('False', 'True'), ('0', '1'), ('1', '0'), ('2', '1'), ('1', '2'), ('3', '4'))
MESSAGES = ("'{line}: {old}, {new}'", "'{cost}'", "'{new'", "'{{old}} at {line}'", '"it\'s {old}"')

# Small programs of a first course, each with the parameters of its bounds.
HEAD = 'width 7\nturns 6\ndepth 4\ncap 4\nentry f\n'
COURSE = (
    ('param n int 0..5\n', 'def f(n):\n    t = 0\n    i = 1\n    while i <= n:\n        t = t + i\n        i = i + 1\n    return t\n'),
    ('param n int -4..4\n', 'def f(n):\n    if n < 0:\n        return 0 - n\n    return n\n'),
    ('param v list 1..3 of 0..2\n', 'def f(v):\n    m = v[0]\n    for x in v:\n        if x > m:\n            m = x\n    return m\n'),
    ('param v list 0..3 of 0..1\nparam x int 0..1\n',
     'def f(v, x):\n    n = 0\n    for y in v:\n        if y == x:\n            n = n + 1\n    return n\n'),
    ('param s text 0..3 of \'ab\'\n',
     'def f(s):\n    for i in range(len(s)):\n        if s[i] != s[len(s) - 1 - i]:\n            return False\n    return True\n'),
    ('param a bool\nparam b bool\nparam c bool\n', 'def f(a, b, c):\n    return a and b or c\n'),
    ('param a int 0..3\nparam b int 0..3\n', 'def f(a, b):\n    return a * 2 + b if a < b else a - b\n'),
    ('param n int 0..4\n', 'def f(n):\n    return 1 if n <= 1 else n * f(n - 1)\n'),
    ('param v list 0..3 of -1..1\n',
     'def f(v):\n    w = []\n    for x in v:\n        if x >= 0:\n            w.append(x + 1)\n    return w\n'),
    ('param a int 1..4\nparam b int 1..4\n',
     'def f(a, b):\n    while a != b:\n        if a > b:\n            a = a - b\n        else:\n            b = b - a\n    return a\n'),
    ('param v list 1..3 of 0..2\n', 'def f(v):\n    t = 0\n    for i in range(1, len(v)):\n        t = t + v[i] * i\n    return t\n'),
)


def of_a_course(rng):
    """A submission with mistakes beside a program of a first course."""
    params, reference = rng.choice(COURSE)
    rules = ''.join(a_rule(rng, number, FIXES if rng.random() < 0.8 else RULES) for number in range(rng.choice((1, 2, 2, 3))))
    texts = HEAD + params, reference, mistaken(rng, reference), rules
    return Request(WORDS, dict(zip(WORDS[1:5], (text.encode() for text in texts))))


def mistaken(rng, text):
    """A program with one to three small mistakes."""
    for _ in range(rng.choice((1, 1, 2, 3))):
        old, new = rng.choice(SWAPS)
        places = [place for place in range(text.find(':'), len(text)) if text.startswith(old, place)]
        if places:
            place = rng.choice(places)
            text = text[:place] + new + text[place + len(old):]
    return text


def a_rule(rng, number, among=RULES):
    left, right = rng.choice(among)
    cost = rng.choice(('', '', ' cost 1', ' cost 2', ' cost 3'))
    text = 'rule r%d%s: %s => %s\n' % (number, cost, left, right)
    if rng.random() < 0.3:
        text += 'say %s\n' % rng.choice(MESSAGES)
    return text


def some_rules(rng):
    if rng.random() < 0.06:
        return random_rules.a_file(rng, rng.random() < 0.5)
    return ''.join(a_rule(rng, number) for number in range(rng.choice((1, 1, 2, 2, 3, 4))))


def a_request(rng):
    """A reference, a submission that is mostly a change of it, and a few rules."""
    if rng.random() < 0.6:
        return of_a_course(rng)
    mends = rng.random() < 0.6
    bounds = Bounds(rng, MOST_INPUTS)
    result = rng.choice(TYPES)
    reference = a_program(rng, bounds, result, rng.random() < 0.97)
    if mends:
        submission = mistaken(rng, reference)
        rules = ''.join(a_rule(rng, number, FIXES) for number in range(rng.choice((1, 2, 3))))
    else:
        submission = changed(rng, reference) if rng.random() < 0.8 else a_program(rng, bounds, result, True)
        rules = some_rules(rng)
    files = dict(zip(WORDS[1:5], (text if isinstance(text, bytes) else text.encode()
                                  for text in (bounds.text(), reference, submission, rules))))
    if rng.random() < 0.02:
        name = rng.choice(('sub.py', 'rules.eml'))
        files[name] = spoiled(rng, files[name])
    return Request(WORDS[:6] + (BUDGET,), files)
