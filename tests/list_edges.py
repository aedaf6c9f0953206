"""Requests of `all` at its edges, each with what must be answered; `lists.py` takes them from here.

Words that aren't of the form; as many live selections of the least cost as are listed, and one more; hundreds of thousands of
cheaper selections before those that are listed.
"""
import collections

from request import SOURCES, Request

Edge = collections.namedtuple('Edge', 'name request answers')
# What is answered: the status, and how the output begins.
USAGE, MANY = (8, b'usage: mpygrade grade'), (4, b'refused sub.py line 1: Many\n')

BOUNDS = 'width %d\nturns 1\ndepth 1\ncap 1\nentry f\nparam x int 0..0\n'
FORMS = ('', '0', '00', '01', '007', '101', '1000', '-1', '+1', '1.', ' 1', '1 ', '1e1', '0x1', 'all', '\u0661')
BUDGETS = ('', '0', '01', '200001', '1000000', '-1', '+1', ' 1')


def asked(texts, most='5', budget='200000'):
    return Request(('all',) + SOURCES + (most, budget), dict(zip(SOURCES, (text.encode() for text in texts))))


def words_of_no_form():
    texts = BOUNDS % 6, 'def f(x):\n    return 1\n', 'def f(x):\n    return 0\n', 'rule one: 0 => 1\n'
    for word in FORMS:
        yield Edge('MOST is %r' % word, asked(texts, most=word), (USAGE,))
    for word in BUDGETS:
        yield Edge('BUDGET is %r' % word, asked(texts, budget=word), (USAGE,))
    whole = asked(texts)
    for words in (whole.words[:6], whole.words + ['1'], ['All'] + whole.words[1:]):
        yield Edge('the words are %s' % words, Request(words, whole.files), (USAGE,))


def listed(cost, lines, program):
    """The list of one correction."""
    return 1, ('cost %d\nfound 1, whole\ncorrection 1\n%sprogram\n%s' % (cost, lines, program)).encode()


def as_many(more):
    """There are nine places with 46 numbers, one with 16 and one with 40. Two of these numbers are chosen in
    36 * 46 * 46 + 9 * 46 * (16 + 40) + 16 * 40 ways, which are 100,000. One more is a rule of cost 2."""
    sets = (range(11, 57), [*range(100, 115), 3000], [*range(200, 239), 7000])
    rules = ''.join('rule r%d: %d => {%s}\n' % (place, place, ', '.join(map(str, them))) for place, them in enumerate(sets))
    submission = 'def f(x):\n    return %s + 1 + 2 + 3\n' % ' + '.join(['0'] * 9)
    texts = BOUNDS % 16, 'def f(x):\n    return 10003\n', submission, rules + 'rule last cost 2: 3 => 4\n' * more
    lines = 'line 2 [r1, 1]: replace 1 by 3000\nline 2 [r2, 1]: replace 2 by 7000\n'
    answer = MANY if more else listed(2, lines, submission.replace('+ 1 + 2', '+ 3000 + 7000'))
    return Edge('100,00%d live selections' % more, asked(texts), (answer,))


def many_cheaper():
    """Two changes of cost 9 are needed beside eighteen of cost 1 that aren't: 572,907 selections are cheaper, and 97,242 cost 18."""
    zeros = ' + '.join(['0'] * 18)
    program = 'def f(x):\n    a = %d\n    b = %d\n    return ' + zeros + ' + a + b\n'
    texts = BOUNDS % 8, 'def f(x):\n    return 80\n', program % (7, 7), 'rule one: 0 => 1\nrule nine cost 9: 7 => 40\n'
    lines = 'line 2 [nine, 9]: replace 7 by 40\nline 3 [nine, 9]: replace 7 by 40\n'
    return Edge('572,907 cheaper selections', asked(texts), (listed(18, lines, program % (40, 40)),))


def half_of_many():
    """Ten of twenty zeros: 184,756 selections of the least cost, which may be too hard to find."""
    texts = (BOUNDS % 6, 'def f(x):\n    return 10\n', 'def f(x):\n    return %s\n' % ' + '.join(['0'] * 20),
             'rule one: $n => 1\n')
    return Edge('184,756 live selections', asked(texts), (MANY, (3, b'budget spent 200000\nat least cost ')))


def edges():
    yield from words_of_no_form()
    yield as_many(0)
    yield as_many(1)
    yield many_cheaper()
    yield half_of_many()
