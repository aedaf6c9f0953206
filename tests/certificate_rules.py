"""What the answer to a task and the certificate stored with it must be, written apart from the crates; nothing by itself.

The programs' runs and the rewritings are the plain model's, the rules of logs and formulas those of the modules beside this one.
"""
import cert_reader
from session_rules import faults_of_session
from task_questions import least_left, refuted

# All selections are tried on all inputs where these are together no more.
TRIES = 20000
CORRECT, CORRECTED, NO_CORRECTION, SPENT, REFUSED = range(5)


class Certificate:
    """The answer to a task, and the certificate that was stored with it."""

    def __init__(self, judge, budget, answer):
        self.judge, self.budget, self.answer = judge, budget, answer

    def faults(self, counts):
        """What is wrong. Where a part has a fault, the parts that rest on it aren't looked at."""
        read = cert_reader.read(self.answer.cert)
        if isinstance(read, int):
            yield 'the certificate is of no form, at line %d' % read
            return
        self.claim, self.selection, self.cases, self.sessions = read
        counts['claim ' + self.claim[0]] += 1
        counts['sessions'] += len(self.sessions)
        for part in (self.faults_of_claim, self.faults_of_cases, self.faults_of_selections, self.faults_of_questions,
                     self.faults_of_output):
            found = list(part())
            yield from found
            if found:
                return
        for session in self.sessions:
            yield from faults_of_session(self.judge, self.inputs, session, counts, self.chosen())
        if self.judge.is_small(TRIES):
            yield from self.faults_of_cost()
        else:
            counts['claims not compared with trying all'] += 1

    def faults_of_claim(self):
        """The claim must be that of the status."""
        kind, number = self.claim
        claimed = {CORRECT: kind == 'cost' and number == 0, CORRECTED: kind == 'cost' and number > 0, NO_CORRECTION: kind == 'none',
                   SPENT: self.claim == ('spent', self.budget)}
        if not claimed.get(self.answer.status):
            yield 'the claim %s %d with status %d' % (kind, number, self.answer.status)

    def faults_of_cases(self):
        """Each case must be an input within the bounds on which the reference ends, and a new one."""
        judge = self.judge
        self.inputs = [judge.input_of(values) for values in self.cases]
        for place, given in enumerate(self.inputs):
            if not judge.task.bounds.in_bounds(given):
                yield 'case %d is not within the bounds' % (place + 1)
            elif judge.value(judge.task.ref, given) is None:
                yield 'case %d is one on which the reference faults' % (place + 1)
            elif given in self.inputs[:place]:
                yield 'case %d is kept twice' % (place + 1)

    def faults_of_selections(self):
        """Each selection must fit the tree, and that of the claim must have the cost."""
        fail = [session[0][1] for session in self.sessions if session[0][0] == 'fail']
        for pairs in [self.selection] + fail:
            if not self.judge.fits(dict(pairs)):
                yield 'the selection %s does not fit' % pairs
                return
        if self.claim[0] == 'cost' and self.judge.cost(dict(self.selection)) != self.claim[1]:
            yield 'the selection has the cost %d' % self.judge.cost(dict(self.selection))

    def faults_of_questions(self):
        """The sessions must be those for which the claim asks."""
        if self.claim[0] == 'spent':
            yield from self.faults_of_search()
            return
        if not self.cases:
            yield 'there is no case'
        asked = [session[0] for session in self.sessions]
        if asked != self.wanted_questions():
            yield 'the sessions are of %s' % asked
        if not all(map(refuted, self.sessions)):
            yield 'a session is not refuted'

    def wanted_questions(self):
        kind, cost = self.claim
        if kind == 'none':
            return [('low', 'any', len(self.cases))]
        return [('fail', self.selection)] + [('low', cost - 1, len(self.cases))] * (cost > 0)

    def faults_of_search(self):
        """The sessions must be those of a search that stopped with so many clauses."""
        logged = sum(len(session[3]) for session in self.sessions)
        if logged != self.budget:
            yield '%d clauses are logged' % logged
        ended = self.judge.trail(self.inputs, self.sessions)
        if ended[0] != 'unfinished':
            yield 'the questions end with %s' % (ended,)

    def faults_of_output(self):
        """What is written must be what the certificate shows."""
        wanted = self.wanted_output()
        if self.answer.output != wanted:
            yield 'written is %r, the certificate shows %r' % (self.answer.output, wanted)

    def wanted_output(self):
        kind, number = self.claim
        if kind == 'spent':
            return b'budget spent %d\nat least cost %d\n' % (number, least_left(self.sessions))
        if kind == 'none':
            return b'no correction\n' + self.fails_line().encode()
        return self.corrected().encode() if number else b'correct\n'

    def corrected(self):
        task, model = self.judge.task, self.judge.model
        walk = model.rewrite.Walk(task.tree, dict(self.selection))
        return model.report.corrected(walk.cost, self.fails_line(), walk.edits, task.rules, walk.prog)

    def fails_line(self):
        """The line of the first case on which the submission fails."""
        judge, task = self.judge, self.judge.task
        for given in self.inputs:
            if not judge.meets(task.sub, given):
                ended = [judge.outcome(program, given) for program in (task.sub, task.ref)]
                return judge.model.report.fails(judge.entry, given, ended[0], ended[1], judge.limits.prints)
        return ''

    def faults_of_cost(self):
        """The cost must be the least one by trying all."""
        kind, cost = self.judge.least()
        if self.claim[0] != 'spent':
            if self.claim != (kind, cost or 0):
                yield 'trying all gives %s %s' % (kind, cost)
        elif kind == 'cost' and least_left(self.sessions) > cost:
            yield 'the least cost is %d' % cost

    def chosen(self):
        """The selections that are named."""
        return [dict(session[0][1]) for session in self.sessions if session[0][0] == 'fail']
