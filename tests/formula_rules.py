"""The rules of formulas, written apart from the crates; nothing by itself.

A formula is a number of variables and a list of clauses, each a list of literals. Variable 1 stands for true. The variables of a
question's own are the next ones; those behind them are gates, each of which is forced by variables before it.
"""
import collections
import itertools

# So many truth values of the own variables are tried at once.
AT_ONCE = 4096


def by_last(clauses):
    """The clauses by the greatest variable of each."""
    last = collections.defaultdict(list)
    for clause in clauses:
        last[max(map(abs, clause))].append(clause)
    return last


def is_forced(v, clauses):
    """Whether under all truth values of the variables below v some of these clauses has no true literal but that of v."""
    rests = [[literal for literal in clause if abs(literal) != v] for clause in clauses]
    names = sorted({abs(literal) for rest in rests for literal in rest})
    for signs in itertools.product((1, -1), repeat=len(names)):
        false = {sign * name for sign, name in zip(signs, names)}
        if not any(false.issuperset(rest) for rest in rests):
            return False
    return True


def unforced(d, variables, clauses):
    """The first variable above d that isn't forced by those before it, or None: the formula is led by d."""
    last = by_last(clauses)
    return next((v for v in range(d + 1, variables + 1) if not is_forced(v, last[v])), None)


def is_gate(triple):
    """Whether three clauses say of a variable that two others, which aren't the variable 1, are both true."""
    if [len(clause) for clause in triple] != [2, 2, 3]:
        return False
    (x, a), (y, b) = (sorted(clause, key=abs, reverse=True) for clause in triple[:2])
    names = {abs(literal) for literal in (x, a, b)}
    return x == y < 0 and len(names) == 3 and 1 not in names and set(triple[2]) == {-x, -a, -b}


def is_made_of_gates(clauses):
    """Whether a formula says that variable 1 is true, then what its gates are, and at last that its goal is true."""
    middle = clauses[1:-1]
    triples = [middle[place:place + 3] for place in range(0, len(middle), 3)]
    return len(clauses) > 1 and clauses[0] == [1] and len(clauses[-1]) == 1 and all(map(is_gate, triples))


def holding(own, variables, clauses, numbers):
    """For which of these numbers a led formula holds where its own variables are the bits of the number, the lowest first: the
    bits of the answer, one for each number in its place."""
    last, found = by_last(clauses), 0
    for first in range(0, len(numbers), AT_ONCE):
        found |= Evaluation(own, numbers[first:first + AT_ONCE]).holding(variables, last) << first
    return found


class Evaluation:
    """The values of variables under several truth values of the own ones, as the bits of a number for each variable."""

    def __init__(self, own, numbers):
        self.every = (1 << len(numbers)) - 1
        rows = [format(number, '0%db' % max(own, 1))[::-1] for number in reversed(numbers)]
        self.known = [0, self.every] + [int(''.join(row[bit] for row in rows), 2) for bit in range(own)]

    def of(self, literal):
        return self.known[literal] if literal > 0 else self.known[-literal] ^ self.every

    def force(self, v, clauses):
        """The values of the next variable: it is true where a clause has no other true literal."""
        found = 0
        for clause in clauses:
            if v in clause:
                alone = self.every
                for literal in clause:
                    if literal != v:
                        alone &= self.of(-literal)
                found |= alone
        self.known.append(found)

    def holding(self, variables, last):
        holds = self.every
        for v in range(1, variables + 1):
            if v == len(self.known):
                self.force(v, last[v])
            for clause in last[v]:
                one = 0
                for literal in clause:
                    one |= self.of(literal)
                holds &= one
        return holds
