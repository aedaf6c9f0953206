"""The rules of logs, written apart from the crates; nothing by itself.

A log is a list of steps, each a list of literals and a list of the numbers of the clauses from which it follows.
"""
import collections


def judged(known, clause, hints):
    """The rule of hints: what the checker is to answer."""
    true = {-lit for lit in clause}
    for place, hint in enumerate(hints, 1):
        left = [lit for lit in known[hint - 1] if -lit not in true]
        if not left:
            return 'good'
        if len(left) > 1:
            return 'not unit %d' % place
        true.add(left[0])
    return 'no end'


def judged_log(clauses, log):
    known, answers = list(clauses), []
    for clause, hints in log:
        answers.append(judged(known, clause, hints))
        known.append(clause)
    return answers


def is_fresh(clauses, log):
    """Whether no clause of the log contains a clause of the formula or an earlier one of the log."""
    known = collections.defaultdict(list)
    for clause in clauses:
        known[last(clause)].append(frozenset(clause))
    for clause, _ in log:
        wide = frozenset(clause)
        if any(narrow <= wide for literal in [0] + clause for narrow in known.get(literal, ())):
            return False
        known[last(clause)].append(wide)
    return True


def last(clause):
    """The literal of the greatest variable, or 0."""
    return max(clause, key=abs, default=0)


def is_narrow(d, log):
    return all(1 <= abs(lit) <= d for clause, _ in log for lit in clause)


def altered(rng, variables, count, log):
    """The log with one literal, hint or step changed, in form still, and what was changed."""
    log = [(list(clause), list(hints)) for clause, hints in log]
    at = rng.randrange(len(log))
    clause, hints = log[at]
    kind = rng.choice(('literal', 'hint', 'step'))
    if kind == 'literal':
        free = [v for v in range(1, variables + 1) if v not in map(abs, clause)]
        if clause and rng.random() < 0.7:
            place = rng.randrange(len(clause))
            if rng.random() < 0.5:
                clause[place] = -clause[place]
            else:
                del clause[place]
        elif free:
            clause.append(rng.choice((1, -1)) * rng.choice(free))
    elif kind == 'hint':
        place = rng.randrange(len(hints))
        choice = rng.randrange(3)
        if choice == 0:
            hints[place] = rng.randint(1, count + at)
        elif choice == 1:
            del hints[place]
        else:
            other = rng.randrange(len(hints))
            hints[place], hints[other] = hints[other], hints[place]
    else:
        del log[at]
        for later in range(at, len(log)):
            renamed = [h - 1 if h > count + at + 1 else max(1, min(h, count + later)) for h in log[later][1]]
            log[later] = (log[later][0], renamed)
    return kind, log
