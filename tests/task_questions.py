"""The questions of a search about a task, by the plain model; nothing by itself."""
import itertools
import math


def refuted(session):
    """Whether the log of a session ends with the empty clause."""
    log = session[3]
    return bool(log) and not log[-1][0]


def least_left(sessions):
    """The least number such that no question with a bound of it or more was refuted."""
    return max([s[0][1] + 1 for s in sessions if s[0][0] == 'low' and s[0][1] != 'any' and refuted(s)], default=0)


class Decoder:
    """What the bits of inputs and of selections spell, the lowest bit of a word first."""

    def __init__(self, task, members):
        self.limits, self.types = task.bounds.limits, task.bounds.ptypes()
        self.sizes = [members[pick].bit_length() for pick in range(len(members))]
        self.members = [members[pick] for pick in range(len(members))]
        self.input_bits = sum(map(self.bits_of, self.types))
        self.choice_bits = sum(self.sizes)

    def bits_of(self, kind):
        words = {'Int': self.limits.width, 'Bool': 1, 'List': 5 + self.limits.cap * self.limits.width, 'Text': 5 + self.limits.cap * 7}
        return words[kind]

    def input(self, number):
        """The input that the bits of a number spell, or None."""
        found = []
        for kind in self.types:
            value = self.value(kind, number & (1 << self.bits_of(kind)) - 1)
            if value is None:
                return None
            found.append(value)
            number >>= self.bits_of(kind)
        return tuple(found)

    def value(self, kind, bits):
        width = self.limits.width
        if kind == 'Bool':
            return bits == 1
        if kind == 'Int':
            return signed(bits, width)
        count, bits = bits & 31, bits >> 5
        if count > self.limits.cap:
            return None
        size = width if kind == 'List' else 7
        items = [bits >> size * place & (1 << size) - 1 for place in range(count)]
        if kind == 'List':
            return tuple(signed(item, width) for item in items)
        if any(not 32 <= item <= 126 for item in items):
            return None
        return ''.join(map(chr, items))

    def number_of_input(self, given, rest=0):
        """The number whose bits spell an input; those that spell nothing are taken from `rest`."""
        number, place = 0, 0
        for kind, value in zip(self.types, given):
            size = self.bits_of(kind)
            bits, told = self.bits_of_value(kind, value)
            number |= (bits | (rest >> place & (1 << size) - 1 & -1 << told)) << place
            place += size
        return number

    def bits_of_value(self, kind, value):
        """The bits of a value, and how many of them there are."""
        width = self.limits.width
        if kind in ('Bool', 'Int'):
            size = self.bits_of(kind)
            return int(value) & (1 << size) - 1, size
        size = width if kind == 'List' else 7
        items = value if kind == 'List' else map(ord, value)
        bits = sum((item & (1 << size) - 1) << size * place for place, item in enumerate(items))
        return len(value) | bits << 5, 5 + size * len(value)

    def number_of_choice(self, members):
        """The number whose bits spell these members."""
        number, place = 0, 0
        for size, member in zip(self.sizes, members):
            number |= member << place
            place += size
        return number

    def choice(self, number):
        """The member of each pick that the bits of a number spell, or None."""
        found = []
        for size, most in zip(self.sizes, self.members):
            member = number & (1 << size) - 1
            if member > most:
                return None
            found.append(member)
            number >>= size
        return tuple(found)


def signed(bits, width):
    return bits - (1 << width) if bits >> width - 1 else bits


def typed(value):
    return type(value).__name__, value


class Judge:
    """A task, with the runs of its programs by the model."""

    def __init__(self, model, task):
        self.model, self.task = model, task
        self.limits, self.entry = task.bounds.limits, task.bounds.entry
        self.decoder = Decoder(task, model.rewrite.members(task.tree))
        self.most_cost = model.rewrite.most_cost(task.tree)
        self.ended, self.walked, self.made = {}, {}, {}
        self.within = [tuple(given) for given in task.bounds.inputs()]
        self.wanted = [given for given in self.within if self.value(task.ref, given) is not None]

    def outcome(self, program, given):
        return self.model.interp.run(program, self.limits, self.entry, list(given))

    def value(self, program, given):
        """The value that a program gives and what it prints where that is compared, with their types, or None for a fault."""
        key = id(program), given
        if key not in self.ended:
            ended = self.outcome(program, given)
            self.ended[key] = [typed(value) for value in (ended[1], *ended[2])] if ended[0] == 'Done' else None
        return self.ended[key]

    def walk(self, members):
        """The program and the cost of a selection, given by the member of each pick."""
        if members not in self.walked:
            walk = self.model.rewrite.Walk(self.task.tree, {pick: member for pick, member in enumerate(members) if member})
            stripped = repr(walk.prog)
            self.walked[members] = self.made.setdefault(stripped, walk.prog), walk.cost
        return self.walked[members]

    def of_pairs(self, chosen):
        return tuple(chosen.get(pick, 0) for pick in range(len(self.decoder.sizes)))

    def fits(self, chosen):
        """Whether a selection names picks and their members."""
        return all(pick < len(self.decoder.members) and member <= self.decoder.members[pick] for pick, member in chosen.items())

    def cost(self, chosen):
        return self.walk(self.of_pairs(chosen))[1]

    def meets(self, program, given):
        return self.value(program, given) == self.value(self.task.ref, given)

    def agrees(self, chosen):
        program = self.walk(self.of_pairs(chosen))[0]
        return all(self.meets(program, given) for given in self.wanted)

    def is_small(self, tries):
        """Whether the members of all picks, in each combination, times the inputs are no more than this."""
        return math.prod(most + 1 for most in self.decoder.members) * len(self.wanted) <= tries

    def least(self):
        """The kind and the cost of the right answer."""
        if not self.wanted:
            return 'no case', None
        costs = []
        for members in itertools.product(*(range(most + 1) for most in self.decoder.members)):
            program, cost = self.walk(members)
            if (not costs or cost < min(costs)) and all(self.meets(program, given) for given in self.wanted):
                costs.append(cost)
                if cost == 0:
                    break
        return ('cost', min(costs)) if costs else ('none', None)

    def input_of(self, values):
        """The values of a case of a certificate."""
        shown = {bool: bool, int: int, list: tuple, tuple: lambda it: it[1].decode()}
        return tuple(shown[type(value)](value) for value in values)

    def own_bits(self, query):
        """How many variables are a question's own."""
        return self.decoder.choice_bits if query[0] == 'low' else self.decoder.input_bits

    def mask(self, query, cases, numbers):
        """For which of these numbers a question holds of what the own bits spell, where they are those of the number: the bits
        of the answer, one for each number in its place."""
        holds = self.low(query[1], cases[:query[2]]) if query[0] == 'low' else self.failing(query)
        return int('0' + ''.join('01'[holds(number)] for number in reversed(numbers)), 2)

    def low(self, most, cases):
        def holds(number):
            members = self.decoder.choice(number)
            if members is None:
                return False
            program, cost = self.walk(members)
            return (most == 'any' or cost <= most) and all(self.meets(program, given) for given in cases)
        return holds

    def failing(self, query):
        program = self.walk(self.of_pairs(dict(query[1])))[0] if query[0] == 'fail' else None
        wanted = {given for given in self.wanted if program is None or not self.meets(program, given)}
        return lambda number: self.decoder.input(number) in wanted

    def trail(self, cases, sessions):
        """How the questions end, where they come in their order; else what is wrong with them."""
        return Trail(self, cases).end(sessions)


class Trail:
    """The order of the questions of a search with its closing one."""

    def __init__(self, judge, cases):
        self.judge, self.cases = judge, cases
        self.due, self.kept, self.bound, self.ruled, self.chosen = 'first', 0, 0, 0, None

    def end(self, sessions):
        for place, session in enumerate(sessions):
            ended = self.ask(session[0], refuted(session), place == len(sessions) - 1)
            if ended is not None:
                rest = len(sessions) - 1 - place
                return ended if rest == 0 and self.kept == len(self.cases) else ('questions or cases too many', rest, self.kept)
        return 'no end', None, None

    def ask(self, query, was_refuted, last):
        if query[0] != ('low' if self.due == 'closing' else self.due):
            return 'another question is due', query, self.due
        return getattr(self, self.due)(query, was_refuted, last)

    def first(self, query, was_refuted, last):
        if was_refuted:
            return 'no case', None, None
        return self.unfinished(last) or self.keep('low')

    def low(self, query, was_refuted, last):
        most = self.bound if self.bound < self.judge.most_cost else 'any'
        if query[1:] != (most, self.kept):
            return 'another bound or other cases are due', query, most
        if not was_refuted:
            self.due = 'fail'
            return self.unfinished(last)
        if most == 'any':
            return 'none', None, None
        self.bound, self.ruled = self.bound + 1, self.kept
        return None

    def fail(self, query, was_refuted, last):
        self.chosen = dict(query[1])
        program, cost = self.judge.walk(self.judge.of_pairs(self.chosen))
        if not all(self.judge.meets(program, given) for given in self.cases[:self.kept]) or cost > self.bound:
            return 'the selection is none of those asked for', query, None
        if was_refuted:
            if cost == 0 or self.kept <= self.ruled:
                return 'cost', cost, self.chosen
            self.due, self.bound = 'closing', cost - 1
            return None
        if not last and self.kept < len(self.cases) and self.judge.meets(program, self.cases[self.kept]):
            return 'the selection does not fail there', query, None
        return self.unfinished(last) or self.keep('low')

    def closing(self, query, was_refuted, last):
        if query[1:] != (self.bound, self.kept):
            return 'another closing question is due', query, None
        return ('cost', self.bound + 1, self.chosen) if was_refuted else self.unfinished(last)

    def unfinished(self, last):
        return ('unfinished', None, None) if last else None

    def keep(self, due):
        """Keeps the next case, which must be an input on which the reference ends."""
        self.due = due
        if self.kept == len(self.cases) or self.cases[self.kept] not in self.judge.wanted:
            return 'no such case is kept', self.kept, None
        self.kept += 1
        return None
