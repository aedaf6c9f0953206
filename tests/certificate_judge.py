"""What `check` may say of a certificate, written apart from the crates; nothing by itself.

The text is read by `cert_reader`, programs are run by the plain model, and steps are judged by `log_rules`. Which formula is
built for a question is learned from certificates that the grader stored for the same task; an unknown one can't be the stored
one where that isn't made of gates or states another question.

Mostly one verdict is allowed. More are where

- the formula of a question isn't known. A stored one may be the built one, and its steps decide; or it is another, and the
  question is asked anew. Then the place at which they differ isn't known.
- it isn't known whether a question that is asked anew holds of something, since there is too much to try. If it does the
  session is rejected, else it passes.
- asking anew may spend the budget. A log has at most 3^(m + 1) clauses for a question of m bits, so it may where these are as
  many as the budget, but not for a question that the grader ended: the same solver is asked the same. Then the session is
  rejected, with the text of the question behind the verdict.
"""
import collections
import itertools
import math
import re

import cert_reader
from formula_rules import is_made_of_gates, unforced
from log_rules import is_fresh, is_narrow, judged
from session_rules import faults_of_formula
from task_questions import refuted

ACCEPTED, REJECTED = 0, 10
BUDGET = 200000
# So many runs at most tell whether a question holds of something. Whether a formula states a question is tried for so many own
# variables.
RUNS = 20000
VARIABLES = 8
FOLLOWS, ANEW = 'follows', 'anew'

# The formula that is built for a question, where it is known; whether the question holds of something, or None; whether asking
# it anew may spend the budget; and how many variables are its own.
Question = collections.namedtuple('Question', 'query built holds may_be_spent own')


class Exact:
    """One verdict, word for word."""
    is_exact = True

    def __init__(self, status, text):
        self.status, self.text = status, text.encode()

    def allows(self, status, text):
        return (status, text) == (self.status, self.text)

    def __str__(self):
        return '%d %r' % (self.status, self.text)


class Other:
    """The rejection of a session for another formula than the built one, which isn't refuted."""

    def __init__(self, number, clause, question, cases):
        """`clause` is None where the place isn't known."""
        self.number, self.clause, self.question, self.cases = number, clause, question, cases
        self.is_exact = clause is not None and question.holds is True and not question.may_be_spent

    def allows(self, status, text):
        found = re.match(rb'rejected OtherFormula session %d clause (0|[1-9][0-9]*)\n' % self.number, text)
        if status != REJECTED or not found or self.clause not in (None, int(found[1])):
            return False
        behind = text[found.end():]
        return self.question.may_be_spent and self.is_left_open(behind) if behind else self.question.holds is not False

    def is_left_open(self, text):
        """Whether this is the text of the question that was asked anew, with a log that spends the budget."""
        read = cert_reader.read(text)
        if isinstance(read, int) or read[0] != ('spent', BUDGET) or read[2] != self.cases or len(read[3]) != 1:
            return False
        query, variables, clauses, log = read[3][0]
        return (query == self.question.query and self.question.built in (None, (variables, clauses)) and len(log) == BUDGET
                and first_bad(clauses, log) is None and all(clause for clause, _ in log) and is_fresh(clauses, log)
                and is_narrow(self.question.own + 1, log))

    def __str__(self):
        behind = ', a text may be behind' if self.question.may_be_spent else ''
        return '%d OtherFormula session %d clause %s%s' % (REJECTED, self.number, self.clause, behind)


def first_bad(clauses, log):
    """The number of the first step that doesn't follow, or None."""
    known = list(clauses)
    for number, (clause, hints) in enumerate(log, 1):
        if judged(known, clause, hints) != 'good':
            return number
        known.append(clause)
    return None


def difference(stored, built):
    """The first place at which two formulas differ, each a number of variables and clauses."""
    for place, (one, other) in enumerate(itertools.zip_longest(stored[1], built[1]), 1):
        if one != other:
            return place
    return 0


class CertificateJudge:
    """The judge of the certificates for one task."""

    def __init__(self, judge):
        """`judge` has the task and its runs by the plain model."""
        self.judge = judge
        self.built, self.ended, self.held = {}, {}, {}

    def learn(self, read):
        """Takes the formulas of a stored certificate, and how its questions ended; whether they are those that are known."""
        claim, _, cases, sessions = read
        agrees = True
        for place, session in enumerate(sessions, 1):
            key = self.key_of(session[0], cases)
            agrees &= self.built.setdefault(key, session[1:3]) == session[1:3]
            if refuted(session):
                self.ended[key] = False
            elif claim[0] != 'spent' or place < len(sessions):
                self.ended[key] = True
        return agrees

    def key_of(self, query, cases):
        """A question with what its formula rests on."""
        inputs = self.judge.input_of
        if query[0] == 'low':
            return query + tuple(map(repr, (inputs(values) for values in cases[:query[2]])))
        return query[0], repr(query[1:])

    def verdicts(self, text):
        """The verdicts that are allowed."""
        read = cert_reader.read(text)
        if isinstance(read, int):
            return [Exact(REJECTED, 'rejected CertSyntax line %d\n' % read)]
        fault = self.fault_of_form(*read)
        return [Exact(REJECTED, 'rejected %s\n' % fault)] if fault else self.of_sessions(*read)

    def fault_of_form(self, claim, selection, cases, sessions):
        """The first of the verdicts that don't need a formula."""
        for place, values in enumerate(cases):
            if not self.is_wanted(self.judge.input_of(values)):
                return 'WrongCase line %d' % (place + 3 + (claim[0] == 'cost'))
        chosen = dict(selection)
        if claim[0] == 'cost' and not (self.judge.fits(chosen) and self.judge.cost(chosen) == claim[1]):
            return 'WrongCost'
        asked = [session[0] for session in sessions]
        shown = claim[0] != 'spent' and cases and asked == self.wanted_questions(claim, selection, len(cases))
        return None if shown and all(map(refuted, sessions)) else 'WrongClaim'

    def is_wanted(self, given):
        """Whether a case is an input within the bounds on which the reference ends."""
        task = self.judge.task
        return task.bounds.in_bounds(given) and self.judge.value(task.ref, given) is not None

    def wanted_questions(self, claim, selection, count):
        if claim[0] == 'none':
            return [('low', 'any', count)]
        return [('fail', selection)] + [('low', claim[1] - 1, count)] * (claim[1] > 0)

    def of_sessions(self, claim, selection, cases, sessions):
        """The verdicts that the sessions allow: the first one that is rejected decides."""
        anew, found = {0}, []
        for number, session in enumerate(sessions, 1):
            ways = list(self.ways(number, session, cases))
            found += [way for way in ways if way not in (FOLLOWS, ANEW)]
            more = [count for way, count in ((FOLLOWS, 0), (ANEW, 1)) if way in ways]
            anew = {count + one for count in anew for one in more}
        return found + [Exact(ACCEPTED, self.accepted(claim, selection, count)) for count in sorted(anew)]

    def accepted(self, claim, selection, anew):
        line = 'asked anew %d\n' % anew if anew else ''
        if claim[0] == 'none':
            return 'accepted none\n' + line
        program = self.judge.walk(self.judge.of_pairs(dict(selection)))[0]
        return 'accepted cost %d\n%sprogram\n%s' % (claim[1], line, self.judge.model.report.printer.prog(program))

    def ways(self, number, session, cases):
        """How a session may be judged."""
        question = self.question(session[0], cases)
        stored = session[1:3]
        if question.built == stored or (question.built is None and self.may_be_built(session, cases, question.own)):
            step = first_bad(session[2], session[3])
            yield FOLLOWS if step is None else Exact(REJECTED, 'rejected BadStep session %d step %d\n' % (number, step))
        if question.built != stored:
            clause = difference(stored, question.built) if question.built else None
            if question.holds is not True:
                yield ANEW
            if question.holds is not False or question.may_be_spent:
                yield Other(number, clause, question, cases)

    def may_be_built(self, session, cases, own):
        """Whether a formula has the form of one that is built and, as far as that is tried, states its question."""
        query, variables, clauses, _ = session
        if not all(clauses) or not is_made_of_gates(clauses) or unforced(own + 1, variables, clauses) is not None:
            return False
        inputs = [self.judge.input_of(values) for values in cases]
        return own > VARIABLES or not list(faults_of_formula(self.judge, inputs, session, collections.Counter()))

    def question(self, query, cases):
        key, own = self.key_of(query, cases), self.judge.own_bits(query)
        may_be_spent = key not in self.ended and 3 ** (own + 1) >= BUDGET
        if key not in self.held:
            self.held[key] = self.holds(query, cases)
        holds = self.ended.get(key) if self.held[key] is None else self.held[key]
        return Question(query, self.built.get(key), holds, may_be_spent, own)

    def holds(self, query, cases):
        """Whether a question holds of something, by trying all; None where that is too much."""
        if query[0] == 'fail':
            return not self.judge.agrees(dict(query[1]))
        members = self.judge.decoder.members
        if math.prod(most + 1 for most in members) * len(cases) > RUNS:
            return None
        inputs = [self.judge.input_of(values) for values in cases[:query[2]]]
        every = itertools.product(*(range(most + 1) for most in members))
        return any(self.is_low(chosen, query[1], inputs) for chosen in every)

    def is_low(self, members, most, inputs):
        program, cost = self.judge.walk(members)
        return (most == 'any' or cost <= most) and all(self.judge.meets(program, given) for given in inputs)
