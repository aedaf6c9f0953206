"""What `all` writes where the budget is spent, judged by rules written apart from it and the plain model; nothing by itself.

The budget is had twice. Where the first search spends it, `all` writes what `grade` writes, and behind it what `grade` stores. Else
a certificate follows that claims the budget spent and has no cases, with the questions where live selections of the least cost fail.
"""
import cert_reader
from plain_lists import SPENT_LINES
from session_rules import faults_of_session


def cert_of(output):
    """The certificate behind the two lines."""
    return output[SPENT_LINES.match(output.decode('latin-1')).end() - len('mpycert 1\n'):]


class SpentList:
    """An answer that spent the budget in the list; `judge` is of the task, and `lister` knows the least cost."""

    def __init__(self, judge, lister, budget, output):
        self.judge, self.lister, self.budget, self.output = judge, lister, budget, output

    def faults(self, counts):
        read = cert_reader.read(cert_of(self.output))
        if isinstance(read, int):
            yield 'the certificate is of no form, at line %d' % read
            return
        claim, _, cases, self.sessions = read
        if claim != ('spent', self.budget) or cases:
            yield 'the claim is %s, with %d cases' % (claim, len(cases))
        if 'at least cost %d\n' % self.lister.cost not in self.output.decode('latin-1'):
            yield 'the least cost is %d' % self.lister.cost
        yield from self.faults_of_questions()
        near = [dict(session[0][1]) for session in self.sessions if session[0][0] == 'fail']
        for session in self.sessions:
            yield from faults_of_session(self.judge, [], session, counts, near)

    def faults_of_questions(self):
        """Of live selections of the least cost, in their order, each once; so many clauses are logged as the budget allows."""
        logged = sum(len(session[3]) for session in self.sessions)
        if logged != self.budget:
            yield '%d clauses are logged' % logged
        places = {tuple(sorted(selection)): place for place, selection in enumerate(self.lister.level)}
        asked = [places.get(tuple(sorted(session[0][1]))) if session[0][0] == 'fail' else None for session in self.sessions]
        if None in asked:
            yield 'a question is not of a live selection of the least cost'
        elif asked != sorted(set(asked)):
            yield 'the selections are not in their order: %s' % asked
