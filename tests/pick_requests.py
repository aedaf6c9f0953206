"""Random requests of `pick`, which finds few inputs on which wrong programs fail; `compare.py` takes them from here."""
import rule_requests
from formula_requests import spoiled
from print_requests import as_printing, changed_prints, compared
from program_requests import a_program
from random_programs import TYPES, Bounds, changed
from request import Request

# Around the 64 inputs that are run at once, and far beyond.
MOSTS = (1, 2, 63, 64, 65, 128, 200, 1000)


def of_a_course(rng):
    """A program of a first course beside ones with mistakes."""
    params, reference = rng.choice(rule_requests.COURSE)
    count = rng.choice((1, 2, 3, 4, 8, 16))
    others = [reference if rng.random() < 0.15 else rule_requests.mistaken(rng, reference) for _ in range(count)]
    return rule_requests.HEAD + params, reference, others


def of_random_programs(rng):
    """Changes of a random program, and others."""
    bounds = Bounds(rng, rng.choice(MOSTS))
    result = rng.choice(TYPES)
    reference = a_program(rng, bounds, result, rng.random() < 0.8)
    others = []
    for _ in range(rng.choice((1, 2, 3, 4, 6))):
        kind = rng.random()
        if kind < 0.75:
            others.append(changed(rng, reference))
        elif kind < 0.85:
            others.append(reference)
        else:
            others.append(a_program(rng, bounds, result if rng.random() < 0.9 else rng.choice(TYPES), True))
    return bounds.text(), reference, others


def printing(rng, bounds, reference, others):
    """The same where what is printed is compared."""
    gives = rng.random() < 0.5
    reference = as_printing(rng, reference, gives)
    others = [changed_prints(rng, reference) if rng.random() < 0.5 else as_printing(rng, other, gives) for other in others]
    return compared(rng, bounds), reference, others


def a_request(rng):
    """A reference and some submissions; of some what they print is compared; a few have a spoiled source, too many words, or a file that is absent."""
    bounds, reference, others = (of_a_course if rng.random() < 0.4 else of_random_programs)(rng)
    if rng.random() < 0.25:
        bounds, reference, others = printing(rng, bounds, reference, others)
    names = ['s%d.py' % number for number in range(1, len(others) + 1)]
    files = {'b.txt': bounds.encode(), 'ref.py': reference.encode()}
    files.update(zip(names, (text.encode() for text in others)))
    if rng.random() < 0.04:
        name = rng.choice(sorted(files))
        files[name] = spoiled(rng, files[name])
    words = ['pick', 'b.txt', 'ref.py'] + names
    if rng.random() < 0.01:
        words = rng.choice((words[:3], words[:3] + (names * 17)[:17], words + ['absent.py'][:max(0, 19 - len(words))]))
    return Request(words, files)
