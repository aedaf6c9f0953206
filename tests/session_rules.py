"""What must hold of the session of a question about a task: its log and its formula, by the plain model; nothing by itself.

Where a question's own variables are at most VARIABLES, its formula is tried under all their truth values, and else under some: those
that spell inputs within the bounds, or selections with few corrections, then the same with a bit turned, and random ones.
"""
import random

from formula_rules import holding, is_made_of_gates, unforced
from log_rules import is_fresh, is_narrow, judged_log

VARIABLES = 14
# So many inputs or selections are taken as samples, and so many random numbers.
SAMPLES = 300
RANDOM = 100


def turned(rng, number, bits):
    return number ^ 1 << rng.randrange(bits)


def some_inputs(rng, judge):
    """Numbers that spell inputs within the bounds."""
    within = judge.within if len(judge.within) <= SAMPLES else rng.sample(judge.within, SAMPLES)
    return [judge.decoder.number_of_input(given, rng.getrandbits(judge.decoder.input_bits)) for given in within]


def some_choices(rng, judge, near):
    """Numbers that spell selections: these, and some with few corrections, a part of them near these."""
    found = [judge.of_pairs(chosen) for chosen in near] + [judge.of_pairs({})]
    for number in range(SAMPLES):
        members = list(rng.choice(found[:len(near) + 1]) if number % 2 else judge.of_pairs({}))
        for _ in range(rng.randint(1, 3)):
            pick = rng.randrange(len(members))
            members[pick] = rng.randint(0, judge.decoder.members[pick])
        found.append(tuple(members))
    return [judge.decoder.number_of_choice(members) for members in found]


def numbers_to_try(judge, query, near):
    """Numbers whose bits are truth values of the own variables of a question; `near` are selections near which it may turn."""
    own = judge.own_bits(query)
    if own <= VARIABLES:
        return range(1 << own)
    rng = random.Random(repr(query))
    told = some_choices(rng, judge, near) if query[0] == 'low' else some_inputs(rng, judge)
    changed = [turned(rng, number, own) for number in told]
    return told + changed + [rng.getrandbits(own) for _ in range(RANDOM)]


def faults_of_log(judge, session):
    """What is wrong with the log of a session."""
    query, _, clauses, log = session
    if any(answer != 'good' for answer in judged_log(clauses, log)):
        yield '%s: a step does not follow' % (query,)
    if not is_fresh(clauses, log) or not is_narrow(judge.own_bits(query) + 1, log):
        yield '%s: a log is not fresh and narrow' % (query,)


def faults_of_formula(judge, inputs, session, counts, near=()):
    """What is wrong with the formula of a session; `inputs` are the kept ones."""
    query, variables, clauses, _ = session
    own = judge.own_bits(query)
    if not all(clauses) or not is_made_of_gates(clauses):
        yield '%s: the formula is not made of gates' % (query,)
        return
    free = unforced(own + 1, variables, clauses)
    if free is not None:
        yield '%s: variable %d is not forced' % (query, free)
        return
    numbers = numbers_to_try(judge, query, near)
    counts['formulas tried whole' if own <= VARIABLES else 'formulas tried by samples'] += 1
    differing = holding(own, variables, clauses, numbers) ^ judge.mask(query, inputs, numbers)
    if differing:
        yield '%s: the formula states another question, at %d' % (query, numbers[differing.bit_length() - 1])


def faults_of_session(judge, inputs, session, counts, near=()):
    """What is wrong with a session."""
    counts['clauses of formulas'] += len(session[2])
    counts['logged clauses'] += len(session[3])
    yield from faults_of_log(judge, session)
    yield from faults_of_formula(judge, inputs, session, counts, near)
