"""Certificates made by hand or by a change of a stored one, each with the verdict that is wanted; nothing by itself."""
import collections
import itertools
import os

import cert_reader
from cert_reader import written
from certificate_judge import difference, first_bad

ACCEPTED, REFUSED, REJECTED = 0, 4, 10
# So many seconds of a processor and megabytes may a run take.
SECONDS, MEGABYTES = 10, 64
# At so many places a certificate is cut.
CUTS = 40

# So many megabytes of addresses it gets. A buffer that grows is for a while there twice, of which not all is touched.
ADDRESSES = 3800
# What it is called, the sources, the text or its pieces, the allowed answers, each the status and the output, and the bounds.
Trial = collections.namedtuple('Trial', 'name sources pieces allowed seconds megabytes addresses',
                               defaults=(SECONDS, MEGABYTES, ADDRESSES))

NO_PARAMETER = b'width 3\nturns 1\ndepth 1\ncap 1\nentry f\n'
RETURNS = b'def f():\n    return %d\n'
# The reference returns 1, and 0 is mended at the cost 1; in the second task also at the cost 2.
BY_HAND = (NO_PARAMETER, RETURNS % 1, RETURNS % 0, b'rule one: 0 => 1\n')
DEAR = BY_HAND[:3] + (b'rule one: 0 => 1\nrule dear cost 2: 0 => 1\n',)
# A formula that can't be satisfied; the questions over no bits, and over the bit of the pick.
NEVER = [[1], [-1]]
SHOWN = [([], [1, 2])]
FAIL, LOW = (('fail', [(0, 1)]), 1, NEVER, SHOWN), (('low', 0, 1), 2, NEVER, SHOWN)
MENDED = ('cost', 1), [(0, 1)], [[]], [FAIL, LOW]
IS_MENDED = 'accepted cost 1\n%sprogram\ndef f():\n    return 1\n'
# A sum in a sum that is chosen for another one has picks of its own.
NESTED = (b'width 5\nturns 1\ndepth 1\ncap 1\nentry f\nparam x int 0..3\n', b'def f(x):\n    return x + 1\n',
          b'def f(x):\n    return x + 1\n', b"rule minus: $a0 + $a1 => $a0' - $a1'\nrule number: $n => {2, 3}\n")


def example(folder, submission):
    """The sources of a submission of the examples."""
    names = 'bounds.txt', 'reference.py', submission, 'rules.eml'
    return tuple(read(os.path.join('examples', folder, name)) for name in names)


def read(path):
    with open(path, 'rb') as file:
        return file.read()


def rejected(verdict):
    return [(REJECTED, 'rejected %s\n' % verdict)]


def syntax(line):
    return rejected('CertSyntax line %d' % line)


def accepted(text):
    return [(ACCEPTED, text)]


# The first word of a line, the place of a word in it, and what may not stand there.
WORDS = ((b'mpycert', 1, b'2'), (b'mpycert', 0, b'Mpycert'), (b'claim', 1, b'costs'), (b'claim', 2, b'4097'),
         (b'claim', 2, b'01'), (b'selection', 1, b'0:0'), (b'selection', 1, b'0'), (b'selection', 1, b'1:1:1'),
         (b'selection', 1, b'-1:1'), (b'selection', 0, b'Selection'), (b'case', 0, b'cases'), (b'case', 1, b''),
         (b'session', 1, b'lows'), (b'session', 0, b'sessions'), (b'vars', 1, b'0'), (b'vars', 1, b'x'),
         (b'vars', 1, b'2147483648'), (b'vars', 0, b'var'),
         (b'f', 1, b'-0'), (b'f', 1, b'+1'), (b'f', -1, b'1'), (b'f', 0, b'g'), (b'l', -1, b'1'), (b'l', -2, b'2147483647'),
         (b'l', -2, b'-1'), (b'l', 0, b'L'), (b'end', 0, b'ende'), (b'end', 0, b'end '))


class Stored:
    """A stored certificate: its text, what was read, and what is to be said of it."""

    def __init__(self, sources, text, said):
        """`said` is the answer to the certificate as it is."""
        self.sources, self.text, self.said = sources, text, said[1]
        self.read = cert_reader.read(text)
        self.sessions = self.read[3]

    def anew(self, count):
        """The answer where so many sessions are asked anew."""
        first, rest = self.said.split('\n', 1)
        return accepted('%s\nasked anew %d\n%s' % (first, count, rest))

    def with_sessions(self, sessions):
        claim, selection, cases, _ = self.read
        return written((claim, selection, cases, sessions))

    def with_session(self, place, session):
        return self.with_sessions([session if at == place else old for at, old in enumerate(self.sessions)])


def other_formulas(session):
    """The name of a change of a session's formula, and the session with it."""
    query, variables, clauses, log = session
    yield 'without its last clause', (query, variables, clauses[:-1], renumbered(log, len(clauses), -1))
    yield 'with one clause more', (query, variables, clauses + [[1]], renumbered(log, len(clauses) + 1, 1))
    yield 'with its negated goal', (query, variables, clauses[:-1] + [[-clauses[-1][0]]], log)
    yield 'with a contradiction', (query, variables, clauses + [[-1]], [([], [1, len(clauses) + 1])])
    yield 'alone with a contradiction', (query, variables, NEVER, SHOWN)
    yield 'with gates exchanged', (query, variables, with_gates_exchanged(clauses), log)
    yield 'with one variable more', (query, variables + 1, clauses, log)
    yield 'with literals exchanged', (query, variables, [clause[::-1] for clause in clauses], log)


def renumbered(log, place, by):
    """The log with other numbers of the clauses from a place on."""
    return [(lits, [max(1, hint + by) if hint >= place else hint for hint in hints]) for lits, hints in log]


def with_gates_exchanged(clauses):
    return clauses[:1] + clauses[4:7] + clauses[1:4] + clauses[7:]


def formula_trials(stored):
    """A right claim whose formulas are others, so that its questions are asked anew."""
    for place, session in enumerate(stored.sessions):
        for name, other in other_formulas(session):
            if other[1:3] != session[1:3]:
                yield Trial('session %d, formula %s' % (place + 1, name), stored.sources,
                            stored.with_session(place, other), stored.anew(1))
    both = [(query, variables + 1, clauses, log) for query, variables, clauses, log in stored.sessions]
    yield Trial('one variable more in each session', stored.sources, stored.with_sessions(both), stored.anew(len(both)))


def false_trials(sources, failing, cost, cases):
    """A claim of a program that fails: `failing` is the session of that question with the formula that is built for it."""
    query, variables, clauses, _ = failing
    log = [([], [1])]
    lows = [(('low', cost - 1, len(cases)), 1, NEVER, SHOWN)] * (cost > 0)

    def trial(name, session, allowed):
        cert = ('cost', cost), query[1], cases, [session] + lows
        return Trial('a program that fails: ' + name, sources, written(cert), allowed)

    yield trial('a step that does not follow', (query, variables, clauses, log), rejected('BadStep session 1 step 1'))
    for name, other in other_formulas((query, variables, clauses, log)):
        if other[1:3] != (variables, clauses):
            place = difference(other[1:3], (variables, clauses))
            yield trial('formula ' + name, other, rejected('OtherFormula session 1 clause %d' % place))


def hand_trials():
    """Certificates for a function without parameters."""
    def trial(name, cert, allowed, sources=BY_HAND):
        return Trial('by hand: ' + name, sources, written(cert), allowed)

    claim, selection, cases, _ = MENDED
    yield trial('right', MENDED, accepted(IS_MENDED % ''))
    dear = ('cost', 2), [(0, 2)], cases, [(('fail', [(0, 2)]), 1, NEVER, SHOWN), (('low', 1, 1), 3, NEVER, SHOWN)]
    yield trial('a dearer program', dear, rejected('OtherFormula session 2 clause 2'), DEAR)
    none = ('none', 0), [], cases, [(('low', 'any', 1), 2, NEVER, SHOWN)]
    yield trial('none is claimed where one agrees', none, rejected('OtherFormula session 1 clause 2'))
    wrong = ('cost', 0), [], cases, [(('fail', []), 1, NEVER, SHOWN)]
    yield trial('the wrong program', wrong, rejected('OtherFormula session 1 clause 2'))
    for name, log, verdict in logs():
        cert = claim, selection, cases, [FAIL[:3] + (log,), LOW]
        yield trial(name, cert, rejected(verdict) if verdict else accepted(IS_MENDED % ''))


def logs():
    """Logs for the formula of the two clauses 1 and -1, with the verdict, or None where the certificate is accepted."""
    yield 'no step', [], 'WrongClaim'
    yield 'a step without hints', [([], [])], 'BadStep session 1 step 1'
    yield 'a step with a hint that leaves it open', [([], [1])], 'BadStep session 1 step 1'
    yield 'a clause behind the empty one', [([], [1, 2]), ([1], [1])], 'WrongClaim'
    yield 'the empty clause twice', [([], [1, 2]), ([], [3])], None
    yield 'the empty clause from itself by a step that does not follow', [([], [1]), ([], [3])], 'BadStep session 1 step 1'
    yield 'the second step does not follow', [([1], [1]), ([], [1])], 'BadStep session 1 step 2'
    yield 'hints behind the end of a step', [([], [1, 2, 1, 2, 2])], None
    yield 'a thousand steps', [([-1], [2])] * 1000 + [([], [1, 1002])], None


def log_trials(stored):
    """Logs that are right for another session, or in another order."""
    first, second = stored.sessions
    for place, session, other in ((0, first, second), (1, second, first)):
        log = [(lits, [min(hint, len(session[2])) for hint in hints]) for lits, hints in other[3]]
        fitting = [it for it in log if all(abs(lit) <= session[1] for lit in it[0])]
        bad = first_bad(session[2], fitting)
        allowed = rejected('BadStep session %d step %d' % (place + 1, bad)) if bad else accepted(stored.said)
        yield Trial('session %d, the log of the other session' % (place + 1), stored.sources,
                    stored.with_session(place, session[:3] + (fitting,)), allowed)
        yield Trial('session %d, the log without its end' % (place + 1), stored.sources,
                    stored.with_session(place, session[:3] + (session[3][:-1],)), rejected('WrongClaim'))
        yield Trial('session %d, the last step without hints' % (place + 1), stored.sources,
                    stored.with_session(place, session[:3] + (session[3][:-1] + [([], [])],)),
                    rejected('BadStep session %d step %d' % (place + 1, len(session[3]))))


def claim_trials(stored, none):
    """Claims, sessions and cases that aren't those of the certificate; `none` is a stored one whose claim is none."""
    claim, selection, cases, (fail, low) = stored.read

    def trial(name, allowed, claim=claim, selection=selection, cases=cases, sessions=(fail, low)):
        return Trial(name, stored.sources, written((claim, selection, cases, sessions)), allowed)

    yield trial('a greater cost is claimed', rejected('WrongCost'), ('cost', claim[1] + 1))
    yield trial('a smaller cost is claimed', rejected('WrongCost'), ('cost', claim[1] - 1))
    yield trial('none is claimed with the sessions of a cost', rejected('WrongClaim'), ('none', 0))
    yield trial('a spent budget is claimed with right sessions', rejected('WrongClaim'), ('spent', 200000))
    with_cost = ('cost', 0), [], none.read[2], none.sessions
    yield Trial('a cost is claimed with the session of none', none.sources, written(with_cost), rejected('WrongClaim'))
    yield trial('the sessions exchanged', rejected('WrongClaim'), sessions=(low, fail))
    yield trial('a session missing', rejected('WrongClaim'), sessions=(fail,))
    yield trial('a session twice', rejected('WrongClaim'), sessions=(fail, low, low))
    yield trial('no session', rejected('WrongClaim'), sessions=())
    yield trial('200 sessions', rejected('WrongClaim'), sessions=(fail, low) * 100)
    yield trial('a selection of the sessions alone', rejected('WrongCost'), selection=selection[1:])
    yield trial('a pick that there is not', rejected('WrongCost'), selection=selection + [(2147483647, 1)])
    yield trial('a member that there is not', rejected('WrongCost'),
                selection=selection[:-1] + [(selection[-1][0], 2147483647)])
    yield trial('no case', rejected('WrongClaim'), cases=[], sessions=(fail, over(low, 0)))
    yield trial('a case left out', rejected('WrongClaim'), cases=cases + cases[:1])
    # Which formula is built over a case twice is open.
    yield trial('a case twice', accepted(stored.said) + stored.anew(1), cases=cases + cases[:1],
                sessions=(fail, over(low, len(cases) + 1)))
    yield trial('a case without its values', rejected('WrongCase line 4'), cases=[[]] + cases[1:])
    yield trial('a case of another type', rejected('WrongCase line %d' % (len(cases) + 4)), cases=cases + [[True]])


def over(session, count):
    """The session over so many cases."""
    query = session[0]
    return ((query[0], query[1], count),) + session[1:]


def pick_trials(stored):
    """Picks within members that weren't chosen: the program is the same, whichever formula is built for them."""
    claim, _, cases, (fail,) = stored.read
    for member in (1, 2):
        selection = [(2, member)]
        text = written((claim, selection, cases, [(('fail', selection),) + fail[1:]]))
        yield Trial('member %d of a pick in a member that was not chosen' % member, stored.sources, text,
                    accepted(stored.said) + stored.anew(1))


def cut_trials(stored):
    """A certificate that is cut off."""
    text = stored.text
    for place in [len(text) * part // CUTS for part in range(CUTS)] + [len(text) - 1, len(text) - 4]:
        yield Trial('cut behind %d bytes' % place, stored.sources, text[:place], syntax(text.count(b'\n', 0, place) + 1))


def word_trials(stored):
    """One word of each kind of line altered."""
    lines = stored.text.split(b'\n')[:-1]
    for kind, place, word in WORDS:
        at = next(at for at, line in enumerate(lines) if line.split(b' ')[0] == kind)
        words = lines[at].split(b' ')
        words[place] = word
        text = b''.join(line + b'\n' for line in lines[:at] + [b' '.join(words)] + lines[at + 1:])
        # Without variables the first line that names one is the first that can't be.
        wrong = at + 2 if (kind, word) == (b'vars', b'0') else at + 1
        name = '%r in the place of word %d of a line %s' % (word.decode(), place, kind.decode())
        yield Trial(name, stored.sources, text, syntax(wrong))


def byte_trials(stored):
    """Other bytes than those of the form."""
    text = stored.text
    lines = text.count(b'\n')
    for name, other, line in (
            ('ends of lines with byte 13', text.replace(b'\n', b'\r\n'), 1),
            ('a byte order mark', b'\xef\xbb\xbf' + text, 1),
            ('tabs', text.replace(b' ', b'\t'), 1), ('two blanks', text.replace(b' ', b'  '), 1), ('no byte', b'', 1),
            ('bytes that are no text', b'\xff\0' * 99, 1), ('no end of the last line', text[:-1], lines),
            ('an empty line behind', text + b'\n', lines + 1), ('the same again behind', text + text, lines + 1)):
        yield Trial(name, stored.sources, other, syntax(line))


def stored_trials(desk):
    """All trials of this module; `desk` stores certificates."""
    cost, small = desk.stored(example('largest', 'sub-hurried.py')), desk.stored(example('perimeter', 'sub-triangle.py'))
    none, nested = desk.stored(example('count', 'sub-early.py')), desk.stored(NESTED)
    failing = desk.failing(example('largest', 'sub-hurried.py'))
    return itertools.chain(hand_trials(), formula_trials(cost), formula_trials(none), false_trials(*failing), log_trials(cost),
                           claim_trials(cost, none), pick_trials(nested), cut_trials(cost), word_trials(cost),
                           word_trials(small), byte_trials(small))
