"""Certificates of great lengths, in pieces, each with the verdict that is wanted; nothing by itself."""
from hostile_trials import ADDRESSES, BY_HAND, IS_MENDED, REFUSED, Trial, accepted, rejected, syntax

MILLION, GIGABYTE = 1000000, 1 << 30
PIECE = 1 << 20
SECONDS = 10
NO_MEMORY = 7
HEAD = b'mpycert 1\nclaim cost 1\nselection 0:1\ncase\n'
FAIL = b'session fail 0:1\nvars 1\nf 1 0\nf -1 0\n'
LOW = b'session low 0 1\nvars 2\nf 1 0\nf -1 0\n'
SHOWN = b'l 0 1 2 0\n'
END = b'end\n'
# What is to come behind the first session.
BEHIND = LOW + SHOWN + END


def repeated(piece, count):
    """A piece so many times, in pieces of some length."""
    at_once = PIECE // len(piece)
    for _ in range(count // at_once):
        yield piece * at_once
    yield piece * (count % at_once)


def joined(*parts):
    """Pieces, each a text or pieces."""
    for part in parts:
        if isinstance(part, bytes):
            yield part
        else:
            yield from part


def trial(name, pieces, allowed, seconds=SECONDS, megabytes=64, addresses=ADDRESSES):
    return Trial('long: ' + name, BY_HAND, pieces, allowed, seconds, megabytes, addresses)


def number_trials():
    """A number of a million digits in each place of a number."""
    digits = b'7' * MILLION
    end = b' 0\n'
    start, line = b'mpycert 1\nclaim ', b'\n'
    for name, front, behind, number in (
            ('cost', start + b'cost ', line, 2), ('budget', start + b'spent ', line, 2),
            ('pick', start + b'cost 1\nselection ', b':1\n', 3), ('member', start + b'cost 1\nselection 0:', line, 3),
            ('case', start + b'none\ncase ', line, 3), ('list', start + b'none\ncase [', b']\n', 3),
            ('bound', HEAD + b'session low ', b' 1\n', 5), ('count of cases', HEAD + b'session low 0 ', line, 5),
            ('count of variables', HEAD + b'session first\nvars ', line, 6),
            ('literal', HEAD + b'session first\nvars 1\nf -', end, 7), ('hint', HEAD + FAIL + b'l 0 ', end, 9)):
        yield trial('a million digits, ' + name, [front, digits, behind], syntax(number))


def numbers(first, last):
    """The numbers from one to another, in pieces, each behind a blank."""
    for start in range(first, last + 1, 10000):
        yield b''.join(b' %d' % number for number in range(start, min(last + 1, start + 10000)))


def long_trials():
    """Texts of some megabytes."""
    yield from number_trials()
    anew, mended = accepted(IS_MENDED % 'asked anew 1\n'), accepted(IS_MENDED % '')
    many, rest = b'session fail 0:1\nvars 1000000\nf', b' 0\nf 0\nl 0 2 0\n' + BEHIND
    yield trial('a clause of a million literals', joined(HEAD, many, numbers(1, MILLION), rest), anew)
    yield trial('a clause of a million literals and the last one again',
                joined(HEAD, many, numbers(1, MILLION), b' -1000000', rest), syntax(7))
    yield trial('as many variables as there may be',
                [HEAD, FAIL.replace(b'vars 1', b'vars 2147483647'), SHOWN, BEHIND], anew)
    yield trial('100,000 sessions', joined(HEAD, repeated(FAIL + SHOWN, 100000), END), rejected('WrongClaim'),
                megabytes=128)
    yield trial('100,000 cases', joined(HEAD, repeated(b'case\n', 100000), FAIL, SHOWN, BEHIND), rejected('WrongClaim'))
    start = b'mpycert 1\nclaim none\ncase '
    yield trial('a list of a million numbers', joined(start, b'[0', repeated(b', 0', MILLION), b']\nend\n'),
                rejected('WrongCase line 3'))
    yield trial('a text of a million characters', joined(start, b"'", repeated(b'a', MILLION), b"'\nend\n"),
                rejected('WrongCase line 3'))
    yield trial('a million values', joined(start, b'0', repeated(b', 0', MILLION), b'\nend\n'), rejected('WrongCase line 3'))
    picks = (b' %d:1' % pick for pick in range(MILLION))
    yield trial('a selection of a million picks', joined(b'mpycert 1\nclaim cost 1\nselection', picks, b'\nend\n'),
                rejected('WrongCost'))
    yield trial('a million hints', joined(HEAD, FAIL, b'l 0', repeated(b' 1', MILLION), b' 2 0\n', BEHIND), mended)
    yield trial('a hundred thousand steps that follow',
                joined(HEAD, FAIL, repeated(b'l 1 0 1 0\n', 100000), SHOWN, BEHIND), mended)


def large_trials():
    """Texts up to a gigabyte and a byte more."""
    def large(name, pieces, allowed, megabytes=GIGABYTE // MILLION + 80, addresses=ADDRESSES):
        return trial(name, pieces, allowed, 60, megabytes, addresses)

    mended, start, number = accepted(IS_MENDED % ''), b'mpycert 1\nclaim none\n', b'mpycert 1\nclaim cost '
    yield large('a gigabyte of one line', repeated(b'm', GIGABYTE), syntax(1))
    yield large('a gigabyte and a byte', repeated(b'm', GIGABYTE + 1), [(REFUSED, 'refused cert.txt line 0: Long\n')])
    yield large('a gigabyte of empty lines', repeated(b'\n', GIGABYTE), syntax(1))
    yield large('a gigabyte of empty lines behind a start', joined(start, repeated(b'\n', GIGABYTE - len(start))), syntax(3))
    yield large('a number of a gigabyte', joined(number, repeated(b'7', GIGABYTE - len(number) - 1), b'\n'), syntax(2))
    yield large('fifty million hints',
                joined(HEAD, FAIL, b'l 0', repeated(b' 1', 50 * MILLION), b' 2 0\n', BEHIND), mended, 1000)
    yield large('five million steps that follow',
                joined(HEAD, FAIL, repeated(b'l 1 0 1 0\n', 5 * MILLION), SHOWN, BEHIND), mended, 1000)
    yield large('two million sessions', joined(HEAD, repeated(FAIL + SHOWN, 2 * MILLION), END), rejected('WrongClaim'), 1900)
    yield large('a gigabyte of clauses, for which memory lacks', joined(HEAD, FAIL, repeated(b'f 1 0\n', 170 * MILLION), END),
                [(NO_MEMORY, '')], 1900, 1900)
