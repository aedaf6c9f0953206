"""Random requests of `run` and of `grade` in which what the entry prints is compared; `compare.py` takes them from here."""
import re

from program_requests import MOST_INPUTS, a_program
from random_programs import TYPES, Bounds, changed
from request import WORDS, Request
from rule_requests import BUDGET, COURSE, FIXES, HEAD, a_rule, mistaken, some_rules

# Values of each type, some of which are equal in Python and not here.
PRINTED = ('0', '1', '2', '-1', 'True', 'False', '[]', '[0]', '[1, 2]', "''", "'a'", "'ab'")
ASSIGNED = re.compile(r'^ *(?:for (\w+) in|(\w+) =)', re.MULTILINE)


def compared(rng, text):
    """Bounds with the line behind the parameters, one time in thirty with something wrong."""
    line = 'compare printed %s\n' % rng.choice(('1', '2', '3', '4', '6', '8', '8'))
    if rng.random() < 1 / 30:
        line = rng.choice(('compare printed 0\n', 'compare printed 9\n', 'compare printed -1\n', 'compare printed\n', line * 2,
                           line + 'param z int 0..1\n', 'compare printed 1 2\n', 'compare values 2\n', line.upper()))
    if not text.endswith('\n'):
        text += '\n'
    return line + text if rng.random() < 0.005 else text + line


def a_print(rng, lines, place):
    """A print of a value, or of a name that the function has before this line."""
    head = max((at for at in range(place + 1) if lines[at].startswith('def ')), default=0)
    above = '\n'.join(lines[head:place])
    names = [name for found in ASSIGNED.finditer(above) for name in found.groups() if name]
    params = re.match(r'def \w+\(([^()]*)\)', lines[head])
    names += re.findall(r'\w+', params[1]) if params else []
    return 'print(%s)' % (rng.choice(names) if names and rng.random() < 0.8 else rng.choice(PRINTED))


def printing(rng, text, most=2):
    """The program with prints of its names and of values, at random places and depths."""
    for _ in range(rng.randint(0 if rng.random() < 0.1 else 1, most)):
        lines = text.split('\n')
        places = [place for place, line in enumerate(lines) if re.match(r' +(?!elif|else)', line)]
        if not places:
            return text
        place = rng.choice(places)
        lines.insert(place, re.match(' *', lines[place])[0] + a_print(rng, lines, place))
        text = '\n'.join(lines)
    return text


def without_value(rng, text):
    """The program with each `return` with a value, or one of them, as one without, as a print, or as both."""
    found = list(re.finditer(r'^( *)return (.+)$', text, re.MULTILINE))
    every = rng.random() < 0.7
    for place in reversed(found if every else rng.sample(found, min(1, len(found)))):
        spaces, value = place.groups()
        row = rng.choice(('%sreturn' % spaces, '%sprint(%s)' % (spaces, value),
                          '%sprint(%s)\n%sreturn' % (spaces, value, spaces)))
        text = text[:place.start()] + row + text[place.end():]
    return text


def as_printing(rng, text, gives):
    text = printing(rng, text)
    return text if gives else without_value(rng, text)


def changed_prints(rng, text):
    """The program with a print left out, made twice, of something else, or one that is new."""
    found = list(re.finditer(r'^( *)print\((.*)\)\n', text, re.MULTILINE))
    if not found or rng.random() < 0.3:
        return printing(rng, text, 1)
    place = rng.choice(found)
    row, line = place[0], text[:place.start()].count('\n')
    new = place[1] + a_print(rng, text.split('\n'), line) + '\n'
    other = rng.choice(('%spass\n' % place[1], row * 2, new, row))
    return text[:place.start()] + other + text[place.end():]


def a_run(rng):
    """A program that prints, on one input."""
    bounds = Bounds(rng, 10 ** 6)
    values = [bounds.value(param) for param in bounds.params]
    program = as_printing(rng, a_program(rng, bounds, rng.choice(TYPES)), rng.random() < 0.6)
    files = {'b.txt': compared(rng, bounds.text()).encode(), 'p.py': program.encode()}
    return Request(['run', 'b.txt', 'p.py'] + values, files)


def a_grading(rng):
    """A submission beside a reference that prints, mostly a change of it, with a few rules."""
    gives = rng.random() < 0.5
    if rng.random() < 0.7:
        params, reference = rng.choice(COURSE)
        text = HEAD + params
    else:
        bounds = Bounds(rng, MOST_INPUTS if rng.random() < 0.3 else 40)
        text, reference = bounds.text(), a_program(rng, bounds, rng.choice(TYPES), rng.random() < 0.9)
    reference = as_printing(rng, reference, gives)
    submission = rng.choice((mistaken, changed_prints, changed_prints, changed))(rng, reference)
    if rng.random() < 0.2:
        submission = rng.choice((mistaken, changed_prints))(rng, submission)
    if rng.random() < 0.05:
        submission = without_value(rng, submission)
    rules = ''.join(a_rule(rng, number, FIXES) for number in range(rng.choice((0, 1, 2, 3))))
    if rng.random() < 0.2:
        rules = some_rules(rng)
    texts = compared(rng, text), reference, submission, rules
    files = {name: part if isinstance(part, bytes) else part.encode() for name, part in zip(WORDS[1:5], texts)}
    return Request(WORDS[:6] + (BUDGET,), files)


def a_request(rng):
    return a_run(rng) if rng.random() < 0.4 else a_grading(rng)
