"""Random requests of `run` and of `grade` for programs of every form; `compare.py` takes them from here."""
from edge_requests import an_edge_of_grade, an_edge_of_run
from formula_requests import spoiled
from random_programs import TYPES, Bounds, Programs, changed
from request import WORDS, Request

MOST_INPUTS = 250


def a_program(rng, bounds, result, calm=False):
    return Programs(rng, bounds.entry, bounds.types(), result, calm).program()


def a_foreign_value(rng):
    return rng.choice(('', ' ', '0', '1', '-1', '-0', '00', '+1', '1, 2', '7', '-8', '9999', '2147483648', 'True', 'False', 'true',
                       '[]', '[ ]', '[1]', '[1,2]', '[1, 2]', '[1, 2', '[-1]', '[True]', "''", '""', "'a'", '"b"', "'ab", "'c'",
                       "'\\''", "'\\n'", "['a']", '\u00e9', 'None'))


def a_run(rng):
    """A program on one input, or one time in ten an edge of a limit."""
    if rng.random() < 0.1:
        return an_edge_of_run(rng)
    bounds = Bounds(rng, 10 ** 6)
    values = [bounds.value(param) for param in bounds.params]
    files = {'b.txt': bounds.text().encode(), 'p.py': a_program(rng, bounds, rng.choice(TYPES)).encode()}
    for place in range(len(values)):
        if rng.random() < 0.04:
            values[place] = a_foreign_value(rng)
    if rng.random() < 0.02:
        values = rng.choice((values[:-1], values + [a_foreign_value(rng)], values + ['1'] * (5 - len(values))))
    if rng.random() < 0.04:
        name = rng.choice(('b.txt', 'b.txt', 'p.py'))
        files[name] = spoiled(rng, files[name])
    words = ['run', 'b.txt', 'p.py'] + values
    if rng.random() < 0.005:
        words[rng.randint(1, 2)] = 'absent'
    return Request(words, files)


def some_rules(rng):
    return rng.choice(('rule r cost 1: $n => {1, 2}\n', '\n', '# none\n', 'rule r: $a => $a\n', 'rule r cost 2: $n => {0}\n'))


def a_submission(rng, bounds, result, reference):
    kind = rng.random()
    if kind < 0.55:
        return changed(rng, reference)
    if kind < 0.6:
        return reference
    if kind < 0.65:
        return a_program(rng, bounds, rng.choice(TYPES))
    return a_program(rng, bounds, result, True)


def a_pair(rng):
    """A submission beside a reference; more than half are changes of the reference. A few are at the edge of a limit."""
    if rng.random() < 0.004:
        return an_edge_of_grade(rng)
    bounds = Bounds(rng, MOST_INPUTS if rng.random() < 0.99 else 10 ** 9)
    result = rng.choice(TYPES)
    reference = a_program(rng, bounds, result, rng.random() < 0.8)
    submission = a_submission(rng, bounds, result, reference)
    rules = some_rules(rng) if rng.random() < 0.03 else ''
    files = dict(zip(WORDS[1:5], (text.encode() for text in (bounds.text(), reference, submission, rules))))
    if rng.random() < 0.03:
        name = rng.choice(('b.txt', 'ref.py', 'sub.py'))
        files[name] = spoiled(rng, files[name])
    return Request(WORDS, files)
