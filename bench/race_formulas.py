"""Formulas for the race of the solvers: questions about programs, those of stored certificates, random ones, and the formula of a
large graph; nothing by itself.

A formula is the number of variables, and the clauses as lists of literals. A question about a program is whether it ends otherwise
than another on some input; both are equal, so the answer is that it doesn't.
"""
import glob
import os
import random
import subprocess
import sys
import tempfile

sys.path.insert(0, os.path.join(os.path.dirname(os.path.realpath(__file__)), '..', 'tests'))
from program_formulas import Harness, formula_of

DIGITS = ('''def f(n):
    s = 0
    while n > 0:
        s = s + n % 10
        n = n // 10
    return s
''', '''def f(n):
    s = n
    while n > 0:
        n = n // 10
        s = s - 9 * n
    return s
''')
SQUARE = ('''def f(a, b):
    return (a + b) * (a + b)
''', '''def f(a, b):
    return a * a + 2 * a * b + b * b
''')
CUBE = ('''def f(a, b):
    return (a + b) ** 3
''', '''def f(a, b):
    return a * a * a + 3 * a * a * b + 3 * a * b * b + b * b * b
''')
HORNER = ('''def f(a, b, x):
    return a * x ** 2 + b * x + 3
''', '''def f(a, b, x):
    return (a * x + b) * x + 3
''')
POWER = ('''def f(a, n):
    r = 1
    for i in range(n):
        r = r * a
    return r
''', '''def f(a, n):
    if n == 0:
        return 1
    h = f(a, n // 2)
    if n % 2 == 0:
        return h * h
    return h * h * a
''')
GCD = ('''def f(a, b):
    if b == 0:
        return a
    return f(b, a % b)
''', '''def f(a, b):
    while b > 0:
        r = a - a // b * b
        a = b
        b = r
    return a
''')
DISTRIBUTE = ('''def f(a, b, c):
    return a * (b + c)
''', '''def f(a, b, c):
    return a * b + a * c
''')
# The name, the two programs, the width of numbers, how many turns a loop may take, and the free bits of each number.
QUESTIONS = (
    ('square', SQUARE, 16, 4, (6, 6)),
    ('sum of digits', DIGITS, 16, 6, (10,)),
    ('sum of digits', DIGITS, 16, 6, (12,)),
    ('polynomial', HORNER, 16, 4, (4, 4, 4)),
    ('cube', CUBE, 16, 4, (4, 4)),
    ('cube', CUBE, 16, 4, (5, 5)),
    ('power', POWER, 16, 8, (4, 3)),
    ('gcd', GCD, 8, 8, (4, 4)),
    ('gcd', GCD, 12, 8, (5, 5)),
    ('gcd', GCD, 16, 8, (5, 5)),
)
SMALL_QUESTIONS = (
    ('distributed', DISTRIBUTE, 8, 4, (2, 2, 2)),
    ('distributed', DISTRIBUTE, 8, 4, (3, 3, 3)),
    ('square', SQUARE, 8, 4, (3, 3)),
    ('sum of digits', DIGITS, 8, 4, (6,)),
    ('sum of digits', DIGITS, 12, 4, (8,)),
    ('power', POWER, 12, 4, (3, 2)),
)


def number(bits, width):
    """An argument of so many free bits that isn't negative."""
    return 'n' + '*' * bits + '0' * (width - bits)


def line_of(question):
    _, programs, width, turns, free = question
    names = programs[0][len('def f('):programs[0].index(')')].split(', ')
    bounds = 'width %d\nturns %d\ndepth 8\ncap 4\nentry f\n' % (width, turns)
    bounds += ''.join('param %s int 0..3\n' % name for name in names)
    sources = [text.encode().hex() for text in (bounds, *programs, '')]
    return '\t'.join(['fail'] + sources + ['', ','.join(number(bits, width) for bits in free)])


def program_formulas(questions):
    """For each question its name, the number of gates and the formula."""
    lines = [line_of(question) for question in questions]
    with tempfile.TemporaryDirectory() as folder:
        answers = [answer for one in Harness(folder).answers_to_each([[line] for line in lines]) for answer in one]
    for question, answer in zip(questions, answers):
        if answer == 'refused':
            sys.exit('%s is refused' % question[0])
        gates = len(answer.split('|')[1].split())
        yield '%s, %s free bits' % (question[0], '+'.join(map(str, question[4]))), gates, formula_of(answer)


def formulas_in(certificate):
    """The formulas of a certificate's sessions."""
    found = []
    for line in certificate:
        words = line.split()
        if words[0] == 'vars':
            found.append((int(words[1]), []))
        elif words[0] == 'f':
            found[-1][1].append([int(word) for word in words[1:-1]])
    return found


def stored_formulas(grader, budget):
    """For each assignment of the examples the formulas of the certificates that a built grader stores for six submissions."""
    words = [os.path.abspath(grader), 'grade', 'bounds.txt', 'reference.py']
    for rules in sorted(glob.glob('examples/*/rules.eml')):
        folder, found = os.path.dirname(rules), []
        for submission in sorted(glob.glob(folder + '/sub-*.py'))[:6]:
            with tempfile.NamedTemporaryFile('r') as stored:
                ran = words + [os.path.basename(submission), 'rules.eml', stored.name, str(budget)]
                subprocess.run(ran, cwd=folder, stdout=subprocess.DEVNULL)
                found += formulas_in(stored)
        yield os.path.basename(folder), found


def random_formula(variables, ratio, seed):
    """Clauses of three different variables each, so many for each variable."""
    rng = random.Random(seed)
    signed = lambda chosen: [v if rng.random() < 0.5 else -v for v in chosen]
    return variables, [signed(rng.sample(range(1, variables + 1), 3)) for _ in range(round(variables * ratio))]


def chain_formula(gates):
    """The formula of a graph in which each gate joins the one before it and a new variable."""
    first, last, clauses = gates + 3, 2, [[1]]
    for k in range(gates):
        x = first + k
        clauses += [[-x, last], [-x, k + 3], [x, -last, -(k + 3)]]
        last = x
    return 2 * gates + 2, clauses + [[last]]


def dimacs(formula):
    variables, clauses = formula
    yield 'p cnf %d %d\n' % (variables, len(clauses))
    for clause in clauses:
        yield ' '.join(map(str, clause)) + ' 0\n'


def text_of(formula):
    """The formula as the program of `race/` reads it: each literal is twice its variable, and one more where it is negative."""
    variables, clauses = formula
    yield '%d\n' % variables
    for clause in clauses:
        yield ' '.join(str(2 * abs(lit) + (lit < 0)) for lit in clause) + '\n'
