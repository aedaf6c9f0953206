"""Random small formulas, and graphs of gates whose formulas the crates make; nothing by itself.

A literal is a variable, from 1 on, or its negative. A formula that is led by d has variables above d, each with clauses that force
its value from those below it.
"""


def signed(rng, variables):
    return [v if rng.random() < 0.5 else -v for v in variables]


def a_clause(rng, variables):
    width = rng.choice((1, 2, 2, 3, 3, 3, 3, 4)) if rng.random() > 0.004 else 0
    return signed(rng, rng.sample(range(1, variables + 1), min(width, variables)))


def a_plain_formula(rng):
    """Every other one has three literals a clause, and so many clauses that its log is likely to be long."""
    if rng.random() < 0.5:
        variables = rng.randint(5, 12)
        count = round(variables * rng.choice((4, 5, 6, 7)))
        return variables, [signed(rng, rng.sample(range(1, variables + 1), 3)) for _ in range(count)]
    variables = rng.randint(1, 12)
    count = max(1, round(variables * rng.choice((1, 2, 3, 3.5, 4, 5))))
    return variables, [a_clause(rng, variables) for _ in range(count)]


def defining(rng, v):
    """Clauses that make a variable a function of some below it, or a constant."""
    kind = rng.choice(('and', 'and', 'xor', 'choice', 'majority', 'copy', 'constant'))
    wanted = {'and': 2, 'xor': 2, 'choice': 3, 'majority': 3, 'copy': 1, 'constant': 0}[kind]
    if wanted > v - 1:
        kind, wanted = 'constant', 0
    a, b, c = (signed(rng, rng.sample(range(1, v), wanted)) + [0, 0, 0])[:3]
    return {
        'and': [[-v, a], [-v, b], [v, -a, -b]],
        'xor': [[-v, a, b], [-v, -a, -b], [v, -a, b], [v, a, -b]],
        'choice': [[-v, -a, b], [v, -a, -b], [-v, a, c], [v, a, -c]],
        'majority': [[-v, a, b], [-v, a, c], [-v, b, c], [v, -a, -b], [v, -a, -c], [v, -b, -c]],
        'copy': [[-v, a], [v, -a]],
        'constant': [[rng.choice((v, -v))]],
    }[kind]


def a_led_formula(rng):
    """A formula, and the number of variables by which it is led."""
    led = rng.randint(0, 8)
    variables = led + rng.randint(1, 12 - led)
    clauses = [clause for v in range(led + 1, variables + 1) for clause in defining(rng, v)]
    clauses += [a_clause(rng, variables) for _ in range(rng.randint(0, 3 * led + 3))]
    if rng.random() < 0.5:
        rng.shuffle(clauses)
    return led, (variables, [rng.sample(clause, len(clause)) for clause in clauses])


def a_graph(rng):
    """A circuit of at most 8 variables: the variables, the gates and the goal, as `value_texts.py` says."""
    variables, count = rng.randint(1, 8), rng.randint(1, 40)
    pick = lambda count: 2 * rng.randrange(max(0, count - rng.choice((4, 10, count))), count) + rng.randrange(2)
    gates = ['%d.%d' % (pick(1 + variables + made), pick(1 + variables + made)) for made in range(count)]
    goal = 2 * rng.randrange(1 + variables, 1 + variables + count) + rng.randrange(2)
    for made in range(rng.choice((0, 1, 2, 4))):
        gates.append('%d.%d' % (goal, pick(1 + variables + count)))
        goal = 2 * (variables + len(gates))
    return '%d|%s|%d' % (variables, ' '.join(gates), goal)


def columns_of(variables):
    """For each variable the values that it has among all choices of values, as the bits of a number; and all ones."""
    size = 1 << variables
    columns = []
    for v in range(variables):
        block = ((1 << (1 << v)) - 1) << (1 << v)
        column = 0
        for start in range(0, size, 2 << v):
            column |= block << start
        columns.append(column)
    return columns, (1 << size) - 1


def holds_for_some(variables, clauses):
    """Whether values satisfy the clauses, by trying all."""
    columns, every = columns_of(variables)
    all_true = every
    for clause in clauses:
        some = 0
        for lit in clause:
            some |= columns[lit - 1] if lit > 0 else every ^ columns[-lit - 1]
        all_true &= some
    return all_true != 0


def reads_true_for_some(circuit):
    """Whether values of its variables make the goal of a circuit true, by trying all."""
    variables, gates, goal = circuit.split('|')
    columns, every = columns_of(int(variables))
    columns = [every] + columns
    value = lambda word: columns[int(word) // 2] ^ (every if int(word) % 2 else 0)
    for gate in gates.split():
        left, right = gate.split('.')
        columns.append(value(left) & value(right))
    return value(goal) != 0
