"""Prints the gates of each operation on values over the graph at width 8 and cap 8, beside the weight of its node, and compares
them with the table of docs/bits.md.

    python3 bench/value_gates.py
    python3 bench/value_gates.py limits
    python3 bench/value_gates.py time

Run it at the top of the repository, with `rt` on the path; the operations are run unproved, on a copy of the crates, by the
program of `tests/values_try.py`. Counted are all gates that a call makes: with free operands, with one constant operand, and
with free items but constant lengths. The exit status is 1 where a row isn't the document's.

`limits` prints for each node how many gates a unit of its weight has at most, at some widths and caps with free operands, and at
which of them there are more gates than it weighs. `time` prints the microseconds of making a constant number of 8 bits, of some
nodes of such numbers, of making a constant list of three of them, and of some nodes of such lists; there must be no gates. For
that the program of `values/` is proved and built.
"""
import collections
import os
import sys
import tempfile

sys.path.insert(0, os.path.join(os.path.dirname(os.path.realpath(__file__)), '..', 'tests'))
from built import Built
from values_try import Harness

Limits = collections.namedtuple('Limits', ('width', 'cap'))
Row = collections.namedtuple('Row', ('node', 'weight', 'call', 'free', 'constant', 'lengths'))

ITEMS, CHARACTERS = 'l3,-1,0,3', 't6162'
# What `values` makes, in the order of its numbers, and how often.
NUMBERS = ('a number', '+', '-', '*', '//', '%', '**', 'opposite', '<')
LISTS = ('a list', '==', '+', '*', 'index', 'slice', 'not')
USES = ['mpy_tree', 'bit_words', 'sym_values', 'choice_tree', 'sym_nodes', 'bit_graph']
ROUNDS, RUNS = 10_000, 5
# The limits that `limits` goes through.
WIDTHS, CAPS = (3, 5, 8, 16), (1, 4, 8, 16)


def list_bits(limits):
    """A list has as many numbers as the cap says, and a length of 5 bits."""
    return limits.cap * limits.width + 5


def text_bits(limits):
    """A text has as many characters of 7 bits as the cap says, and a length of 5 bits."""
    return limits.cap * 7 + 5


# The weights of nodes: in the document's words, and as numbers.
WEIGHTS = {
    '1': lambda limits: 1,
    '4': lambda limits: 4,
    '8 W': lambda limits: 8 * limits.width,
    '8 W W': lambda limits: 8 * limits.width ** 2,
    '16 W W': lambda limits: 16 * limits.width ** 2,
    '16 W W W': lambda limits: 16 * limits.width ** 3,
    '16 cap W': lambda limits: 16 * limits.cap * limits.width,
    '4 W': lambda limits: 4 * limits.width,
    '8': lambda limits: 8,
    'list': list_bits,
    '4 list': lambda limits: 4 * list_bits(limits),
    '8 list': lambda limits: 8 * list_bits(limits),
    '4 cap list': lambda limits: 4 * limits.cap * list_bits(limits),
    '4 text': lambda limits: 4 * text_bits(limits),
    '8 text': lambda limits: 8 * text_bits(limits),
    '4 cap text': lambda limits: 4 * limits.cap * text_bits(limits),
    '8 cap text': lambda limits: 8 * limits.cap * text_bits(limits),
    # A statement weighs 2 for each bit of the function's locals, and 2 for each local: here a list and a number, and a list and
    # two numbers.
    '2 list + 2 W + 4': lambda limits: 2 * (list_bits(limits) + 1 + limits.width + 1),
    '2 list + 4 W + 6': lambda limits: 2 * (list_bits(limits) + 1 + 2 * (limits.width + 1)),
}


def numbers(node, weight, call):
    return Row(node, weight, call, '*n *n', '*n n3', None)


ROWS = [
    numbers('`a + b`', '8 W', 'sum'),
    numbers('`a - b`', '8 W', 'difference'),
    numbers('`a * b`', '8 W W', 'product'),
    numbers('`a // b`', '16 W W', 'quotient'),
    numbers('`a % b`', '16 W W', 'remainder'),
    numbers('`a ** b`', '16 W W W', 'raised'),
    Row('`-a`', '8 W', 'negated', '*n', None, None),
    Row('`abs(a)`', '8 W', 'absolute_value', '*n', None, None),
    numbers('`min(a, b)`', '8 W', 'least'),
    numbers('`max(a, b)`', '8 W', 'greatest'),
    numbers('`a < b`', '8 W', 'less_than'),
    numbers('`a <= b`', '8 W', 'at_most'),
    numbers('`a == b`, numbers', '8 W', 'equality'),
    Row('`a == b`, truth values', '8', 'equality', '*b *b', '*b b1', None),
    Row('`a == b`, lists', '8 list', 'equality', '*l *l', '*l ' + ITEMS, '*l5 *l5'),
    Row('`a == b`, texts', '8 text', 'equality', '*t *t', '*t ' + CHARACTERS, '*t5 *t5'),
    Row('`not a`, number', '4', 'negation', '*n', None, None),
    Row('`not a`, truth value', '4', 'negation', '*b', None, None),
    Row('`not a`, list or text', '4', 'negation', '*l', None, '*l5'),
    Row('`len(v)`', '1', 'length_value', '*l', None, '*l5'),
    Row('`a if t else b`, numbers', '4 W', 'choose_value', '*b *n *n', '*b *n n3', None),
    Row('`a if t else b`, truth values', '4', 'choose_value', '*b *b *b', '*b *b b1', None),
    Row('`a if t else b`, lists', '4 list', 'choose_value', '*b *l *l', '*b *l ' + ITEMS, '*b *l5 *l5'),
    Row('`a if t else b`, texts', '4 text', 'choose_value', '*b *t *t', '*b *t ' + CHARACTERS, '*b *t5 *t5'),
    Row('`v[i]`, list', '4 list', 'item', '*l *n', '*l n3', '*l5 *n'),
    Row('`v[i]`, text', '4 text', 'item', '*t *n', '*t n3', '*t5 *n'),
    Row('`v[a:]`, list', '4 cap list', 'part_from', '*l *n', '*l n3', '*l5 *n'),
    Row('`v[:b]`, list', '4 cap list', 'part_to', '*l *n', '*l n3', '*l5 *n'),
    Row('`v[a:b]`, list', '4 cap list', 'part_between', '*l *n *n', '*l *n n3', '*l5 *n *n'),
    Row('`v[a:b]`, text', '4 cap text', 'part_between', '*t *n *n', '*t *n n3', '*t5 *n *n'),
    Row('`a + b`, lists', '4 cap list', 'concatenation', '*l *l', '*l ' + ITEMS, '*l4 *l3'),
    Row('`a + b`, texts', '4 cap text', 'concatenation', '*t *t', '*t ' + CHARACTERS, '*t4 *t3'),
    Row('`v * n`, list', '4 cap list', 'repetition', '*l *n', '*l n3', '*l3 *n'),
    Row('`v * n`, text', '4 cap text', 'repetition', '*t *n', '*t n3', '*t3 *n'),
    Row('`n in v`, list', '8 list', 'membership', '*n *l', 'n3 *l', '*n *l5'),
    Row('`a in b`, texts', '8 cap text', 'membership', '*t *t', CHARACTERS + ' *t', '*t2 *t5'),
    Row('`range(a)`', '16 cap W', 'range_value', '*n', None, None),
    Row('`range(a, b)`', '16 cap W', 'range_value', '*n *n', 'n3 *n', None),
    Row('`range(a, b, c)`', '16 cap W', 'range_value', '*n *n *n', '*n *n n3', None),
    Row('`[a, b, c]`', 'list', 'list_literal', '*n *n *n', '*n *n n3', None),
    Row('`v[i] = n`', '2 list + 4 W + 6', 'replacement', '*l *n *n', '*l n3 *n', '*l5 *n *n'),
    Row('`v.append(n)`', '2 list + 2 W + 4', 'extension', '*l *n', '*l n3', '*l5 *n'),
]


def gates(harness, asked):
    """How many gates calls make, each of limits, a name and operands; none where there are no operands."""
    lines = []
    for limits, call, operands in asked:
        if operands:
            lines += ['table %d %d' % limits, 'gates %s %s' % (call, operands)]
    answers = iter(harness.answers(lines)[1::2])
    return [int(next(answers)) if operands else None for _, _, operands in asked]


def table(harness):
    """The cells of each row."""
    limits = Limits(8, 8)
    asked = [(limits, row.call, operands) for row in ROWS for operands in (row.free, row.constant, row.lengths)]
    counts = gates(harness, asked)
    for at, row in enumerate(ROWS):
        weight = str(WEIGHTS[row.weight](limits))
        yield [row.node, row.weight, weight] + ['' if it is None else str(it) for it in counts[3 * at:3 * at + 3]]


def compare_table(harness):
    with open('docs/bits.md') as document:
        stated = [[cell.strip() for cell in line.strip().strip('|').split('|')] for line in document if line.startswith('| ')]
    differ = 0
    for cells in table(harness):
        alike = cells in stated
        differ += not alike
        print('| ' + ' | '.join(cells) + ' |' + ('' if alike else '  is not in the document'))
    return 1 if differ else 0


def caps(row):
    """The caps at which a node is looked at: one, where nothing depends on it."""
    return CAPS if '*l' in row.free or '*t' in row.free or 'range' in row.call else CAPS[:1]


def print_limits(harness):
    above, most = collections.defaultdict(list), collections.Counter()
    for width in WIDTHS:
        asked = [(Limits(width, cap), row) for row in ROWS for cap in caps(row)]
        for (limits, row), count in zip(asked, gates(harness, [(limits, row.call, row.free) for limits, row in asked])):
            weight = WEIGHTS[row.weight](limits)
            most[row.node] = max(most[row.node], count / weight)
            if count > weight:
                above[row.node].append('%d and %d (%d gates, weight %d)' % (*limits, count, weight))
    for row in ROWS:
        print('%-32s at most %.2f gates for each unit of %s' % (row.node, most[row.node], row.weight))
        if above[row.node]:
            print('    above at widths and caps ' + ', '.join(above[row.node]))
    return 0


def print_times():
    """The shortest of some runs of each node."""
    with tempfile.TemporaryDirectory() as work:
        built = Built(work, 'values', USES)
        for names, first in ((NUMBERS, 0), (LISTS, len(NUMBERS))):
            for at, name in enumerate(names, first):
                runs = [built.run(at, ROUNDS)[0] for _ in range(RUNS)]
                if any(run['gates'] != ['0'] for run in runs):
                    sys.exit('%s makes gates' % name)
                print('%-28s %8.2f microseconds' % (name, min(int(run['time'][0]) for run in runs) / ROUNDS), flush=True)
    return 0


def main():
    kind = sys.argv[1] if len(sys.argv) > 1 else 'table'
    if kind == 'time':
        return print_times()
    with tempfile.TemporaryDirectory() as folder:
        return {'table': compare_table, 'limits': print_limits}[kind](Harness(folder))


if __name__ == '__main__':
    sys.exit(main())
