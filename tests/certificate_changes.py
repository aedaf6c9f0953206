"""Stored certificates with one change; nothing by itself.

Some changes are of what a certificate says, so that it mostly stays of its form, and some of its text.
"""
from cert_reader import written
from log_rules import altered
from random_certs import NUMBERS, WORDS
from task_questions import refuted

# A session that stands in no certificate of the grader's.
STRANGE = (('low', 'any', 1), 2, [[1], [2], [-2]], [([], [2, 3])])
BYTES = (b'\r', b'\t', b'  ', b'\n', b'\0', b'\xc3\xa9', b'\xff', b'-', b'0', b'+', b'\xef\xbb\xbf', b'\x0b', b',', b' 0')
VALUES = (0, 1, -1, 7, 40, True, False, [], [0], [1, 1], [9, 9, 9, 9, 9], ('text', b''), ('text', b'a'), ('text', b"a'\\"))


class Changes:
    """Makes changes of the certificates for one task."""

    def __init__(self, rng, judge, certificates, others):
        """`judge` has the task, `certificates` are those for it, each its text and what was read, and `others` are sessions for
        other tasks."""
        self.rng, self.judge, self.certificates, self.others = rng, judge, certificates, others or [STRANGE]

    def one(self):
        """The kind of a change, and the changed text."""
        rng = self.rng
        text, read = self.certificates[0] if rng.random() < 0.8 else rng.choice(self.certificates)
        kinds = OF_TEXT if rng.random() < 0.35 else OF_SESSIONS if read[3] and rng.random() < 0.7 else OF_FRAME
        kind = rng.choice(kinds)
        change = getattr(self, kind)
        if kinds is OF_TEXT:
            return kind, change(text)
        claim, selection, cases, sessions = read
        read = change(claim, list(selection), list(cases), list(sessions))
        return kind, written(read)

    def near(self, number):
        """Another number."""
        return max(0, number + self.rng.choice((-2, -1, -1, 1, 1, 2, 40)))

    # What is claimed.

    def claim(self, claim, selection, cases, sessions):
        claimed = [('none', 0), ('spent', self.rng.choice((1, 40, 200000))), ('cost', self.near(claim[1])), ('cost', 0)]
        return self.rng.choice([it for it in claimed if it != claim]), selection, cases, sessions

    def budget(self, claim, selection, cases, sessions):
        """A claim of a spent budget, of the clauses that are logged or one more."""
        return ('spent', sum(len(session[3]) for session in sessions) + self.rng.randrange(2) or 1), selection, cases, sessions

    def claim_and_questions(self, claim, selection, cases, sessions):
        """The claim of another cost with the sessions for it, as far as there are any."""
        cost = self.near(claim[1])
        lows = [(('low', cost - 1, len(cases)),) + session[1:] for session in sessions if session[0][0] == 'low'][:cost]
        fails = [session for session in sessions if session[0][0] == 'fail'][:1]
        return ('cost', cost), selection, cases, fails + lows

    def selection(self, claim, selection, cases, sessions):
        return claim, self.other_selection(selection), cases, sessions

    def selection_and_question(self, claim, selection, cases, sessions):
        """Another selection, of which the sessions ask, and mostly its own cost."""
        chosen = self.other_selection(selection)
        sessions = [(('fail', chosen),) + session[1:] if session[0][0] == 'fail' else session for session in sessions]
        cost = self.judge.cost(dict(chosen)) if self.judge.fits(dict(chosen)) else claim[1]
        if claim[0] == 'cost' and self.rng.random() < 0.8:
            claim = 'cost', cost
        return claim, chosen, cases, [self.with_bound(session, claim[1] - 1) for session in sessions]

    def with_bound(self, session, bound):
        """The session of a bound, where it asks for one."""
        query = session[0]
        return (('low', max(0, bound), query[2]),) + session[1:] if query[0] == 'low' and query[1] != 'any' else session

    def other_selection(self, selection):
        """A selection with another pick, mostly one that fits."""
        rng, chosen, members = self.rng, dict(selection), self.judge.decoder.members
        if chosen and rng.random() < 0.4:
            del chosen[rng.choice(sorted(chosen))]
        elif members and rng.random() < 0.9:
            pick = rng.randrange(len(members))
            chosen[pick] = rng.randint(1, members[pick])
        else:
            chosen[rng.choice((0, len(members), 2147483647))] = rng.choice((1, 9, 2147483647))
        return sorted(chosen.items())

    # The cases.

    def case(self, claim, selection, cases, sessions):
        """Another value in a case."""
        place = self.rng.randrange(len(cases)) if cases else 0
        if not cases or not cases[place]:
            return claim, selection, cases + [[self.rng.choice(VALUES)]], sessions
        values = list(cases[place])
        at = self.rng.randrange(len(values))
        alike = [it for it in VALUES if type(it) is type(values[at])]
        values[at] = self.rng.choice(alike if self.rng.random() < 0.8 else VALUES)
        cases[place] = values
        return claim, selection, cases, sessions

    def case_of_the_task(self, claim, selection, cases, sessions):
        """A case that is left out, or an input within the bounds in the place of one or as one more."""
        kind = self.rng.randrange(4)
        if kind < 2 and cases:
            cases.pop(self.rng.randrange(len(cases)))
        if kind and self.judge.within:
            given = self.rng.choice(self.judge.within)
            cases.insert(self.rng.randint(0, len(cases)), self.values_of(given))
        return claim, selection, cases, [self.over(session, len(cases)) for session in sessions]

    def values_of(self, given):
        shown = {tuple: list, str: lambda text: ('text', text.encode())}
        return [shown.get(type(value), lambda it: it)(value) for value in given]

    def over(self, session, count):
        """The session over so many cases, where it asks for a selection."""
        query = session[0]
        return (query[:2] + (count,),) + session[1:] if query[0] == 'low' else session

    def cases_moved(self, claim, selection, cases, sessions):
        """The cases in another order, or one of them twice."""
        if self.rng.random() < 0.5 and len(cases) > 1:
            self.rng.shuffle(cases)
        elif cases:
            cases.append(self.rng.choice(cases))
        return claim, selection, cases, [self.over(session, len(cases)) for session in sessions]

    # The sessions.

    def sessions_moved(self, claim, selection, cases, sessions):
        place, kind = self.rng.randrange(len(sessions) + 1), self.rng.randrange(4)
        if kind == 0:
            sessions.reverse()
        elif kind == 1:
            del sessions[place:place + 1]
        else:
            strangers = [session for _, read in self.certificates for session in read[3]] + self.others
            sessions[place:place + kind - 2] = [self.rng.choice(strangers)]
        return claim, selection, cases, sessions

    def question(self, claim, selection, cases, sessions):
        """A session with another question."""
        place = self.rng.randrange(len(sessions))
        asked = [('first',), ('low', 'any', len(cases)), ('low', self.near(claim[1]), self.rng.randint(0, len(cases))),
                 ('fail', self.other_selection(selection))]
        sessions[place] = (self.rng.choice(asked),) + sessions[place][1:]
        return claim, selection, cases, sessions

    def body(self, claim, selection, cases, sessions):
        """A session with the formula or the log of another one, or with both."""
        place = self.rng.randrange(len(sessions))
        strangers = [session for _, read in self.certificates for session in read[3]] + self.others
        query, variables, clauses, log = sessions[place]
        other = self.rng.choice(strangers)
        kind = self.rng.randrange(3)
        if kind:
            variables, clauses = other[1:3]
        sessions[place] = query, variables, clauses, log if kind == 1 else other[3]
        return claim, selection, cases, sessions

    def false(self, claim, selection, cases, sessions):
        """The claim of a question of a search, mostly of one that wasn't refuted, with another formula or log."""
        asked = [(read[2], session) for _, read in self.certificates for session in read[3]
                 if session[0][0] == 'fail' or session[0][1:2] == ('any',)]
        left = [it for it in asked if not refuted(it[1])]
        if not asked:
            return self.question(claim, selection, cases, sessions)
        cases, (query, variables, clauses, log) = self.rng.choice(left if left and self.rng.random() < 0.8 else asked)
        log = log + [([], [self.rng.randint(1, len(clauses))])]
        change = self.rng.choice((self.other_vars, self.other_literal, self.other_clauses, self.other_gates, self.other_steps))
        session = (query,) + change(variables, list(clauses), [(list(lits), list(hints)) for lits, hints in log])
        if query[0] == 'low':
            return ('none', 0), [], cases[:query[2]], [session]
        cost = self.judge.cost(dict(query[1]))
        low = (('low', cost - 1, len(cases)),) + self.rng.choice(asked)[1][1:]
        return ('cost', cost), query[1], cases, [session] + [low] * (cost > 0)

    def within_session(self, change, claim, selection, cases, sessions):
        """The certificate with a change of one session's variables, clauses and log."""
        place = self.rng.randrange(len(sessions))
        query, variables, clauses, log = sessions[place]
        sessions[place] = (query,) + change(variables, list(clauses), [(list(lits), list(hints)) for lits, hints in log])
        return claim, selection, cases, sessions

    def vars(self, *read):
        return self.within_session(self.other_vars, *read)

    def other_vars(self, variables, clauses, log):
        return max(0, self.rng.choice((variables + 1, variables - 1, variables + 9, 0, 2147483647))), clauses, log

    def literal(self, *read):
        return self.within_session(self.other_literal, *read)

    def other_literal(self, variables, clauses, log):
        """A clause of the formula with another literal, one more or less, or in another order."""
        place = self.rng.randrange(len(clauses))
        clause, kind = list(clauses[place]), self.rng.randrange(5)
        at = self.rng.randrange(len(clause)) if clause else 0
        if kind == 0 and clause:
            clause[at] = -clause[at]
        elif kind == 1 and clause:
            clause[at] = self.rng.choice((1, -1)) * self.rng.randint(1, max(1, variables))
        elif kind == 2 and clause:
            del clause[at]
        elif kind == 3 and len(clause) > 1:
            clause.reverse()
        else:
            clause.insert(at, self.rng.choice((1, -1)) * self.rng.randint(1, max(1, variables)))
        clauses[place] = clause
        return variables, clauses, log

    def clause(self, *read):
        return self.within_session(self.other_clauses, *read)

    def other_clauses(self, variables, clauses, log):
        """A clause of the formula more or less, with hints that name the same clauses as before; or two exchanged."""
        place, kind = self.rng.randrange(len(clauses)), self.rng.randrange(4)
        if kind == 0 and len(clauses) > 1:
            del clauses[place]
            log = [(lits, [max(1, hint - (hint > place)) for hint in hints]) for lits, hints in log]
        elif kind == 1:
            other = self.rng.randrange(len(clauses))
            clauses[place], clauses[other] = clauses[other], clauses[place]
        else:
            clauses.insert(place, self.rng.choice((clauses[place], [1], [-1], [], [self.rng.randint(1, max(1, variables))])))
            log = [(lits, [hint + (hint > place) for hint in hints]) for lits, hints in log]
        return variables, clauses, log

    def exchanged_gates(self, *read):
        return self.within_session(self.other_gates, *read)

    def other_gates(self, variables, clauses, log):
        """Two gates, each of three clauses, in each other's place."""
        gates = [clauses[1:-1][first:first + 3] for first in range(0, len(clauses) - 2, 3)]
        self.rng.shuffle(gates)
        return variables, clauses[:1] + [clause for gate in gates for clause in gate] + clauses[1:][-1:], log

    def step(self, *read):
        return self.within_session(self.other_steps, *read)

    def other_steps(self, variables, clauses, log):
        """Another literal, hint or step in the log."""
        if not log:
            return variables, clauses, [([], [1])]
        return variables, clauses, altered(self.rng, variables, len(clauses), log)[1]

    def steps_moved(self, *read):
        return self.within_session(self.moved_steps, *read)

    def moved_steps(self, variables, clauses, log):
        """Two steps exchanged, one twice, one more at the end, or hints in another number."""
        place, kind = self.rng.randrange(len(log) + 1), self.rng.randrange(4)
        some = log[place:place + 1]
        if kind == 0:
            log.insert(place, ([], [self.rng.randint(1, len(clauses) + place)]))
        elif kind == 1:
            log[place:place] = some
        elif kind == 2:
            log[place:place + 2] = reversed(log[place:place + 2])
        elif some:
            lits, hints = some[0]
            log[place] = lits, hints + hints if self.rng.random() < 0.5 else [self.rng.randint(1, len(clauses) + place)] + hints
        return variables, clauses, log

    # The text.

    def word(self, text):
        """A word in the place of another, one more or one less."""
        lines = text.split(b'\n')[:-1]
        at, kind = self.place_of_line(lines), self.rng.randrange(5)
        words = lines[at].split(b' ')
        place = self.rng.randrange(len(words))
        some = self.rng.choice(NUMBERS + WORDS).encode()
        if kind < 2:
            words[place] = self.near_word(words[place], some)
        elif kind == 2:
            words[place] = some
        elif kind == 3:
            words.insert(place, some)
        else:
            words.pop(place)
        lines[at] = b' '.join(words)
        return b''.join(line + b'\n' for line in lines)

    def place_of_line(self, lines):
        """The place of a line, of each kind with the same chance."""
        kind = self.rng.choice(sorted({line[:1] for line in lines}))
        return self.rng.choice([place for place, line in enumerate(lines) if line[:1] == kind])

    def near_word(self, word, other):
        if word.isdigit():
            return b'%d' % self.near(int(word))
        return word[1:] if word[:1] == b'-' else b'-' + word if self.rng.random() < 0.3 else other

    def line(self, text):
        """A line left out, doubled or exchanged with another one."""
        lines = text.split(b'\n')[:-1]
        place, other, kind = self.place_of_line(lines), self.place_of_line(lines), self.rng.randrange(4)
        if kind == 0:
            del lines[place]
        elif kind == 1:
            lines.insert(place, lines[place])
        elif kind == 2:
            lines[place], lines[other] = lines[other], lines[place]
        else:
            lines.insert(other, lines.pop(place))
        return b''.join(line + b'\n' for line in lines)

    def bytes(self, text):
        """Other bytes at a place, or in the place of one."""
        lines = text.split(b'\n')
        line = self.place_of_line(lines[:-1])
        at = sum(len(one) + 1 for one in lines[:line]) + self.rng.randint(0, len(lines[line]))
        return text[:at] + self.rng.choice(BYTES) + text[at + self.rng.randrange(2):]

    def ends(self, text):
        """The text without its end, with more behind it, or with other ends of lines."""
        kind = self.rng.randrange(5)
        if kind < 2:
            return text[:self.rng.randrange(len(text))]
        if kind == 2:
            return text[:-1]
        return text.replace(b'\n', b'\r\n') if kind == 3 else text + self.rng.choice((b'\n', b'end\n', b' ', b'\0', text))

    def quotes(self, text):
        """The cases with the other quotes, or the first line again."""
        return text.replace(b"'", b'"') if b"'" in text else text.replace(b'\n', b'\nmpycert 1\n', 1)


OF_FRAME = ('claim', 'budget', 'claim_and_questions', 'selection', 'selection_and_question', 'case', 'case', 'case_of_the_task',
            'case_of_the_task', 'cases_moved')
OF_SESSIONS = ('sessions_moved', 'question', 'body', 'vars', 'literal', 'literal', 'clause', 'clause', 'exchanged_gates',
               'step', 'step', 'step', 'steps_moved', 'false', 'false', 'false')
OF_TEXT = ('word', 'word', 'word', 'line', 'bytes', 'bytes', 'ends', 'quotes')
