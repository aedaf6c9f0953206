"""What `all` must print, by a plain lister over the plain model; nothing by itself.

The lister tries all: it goes through the live selections of each cost, runs their programs on every input, and of the first cost at
which one agrees it lists the programs in the order of the selections, each once. How sources are read and refused, how a selection
makes a program and how a program runs is the model's. Of an answer that the budget is spent the two lines must be true; what follows
them is judged by `spent_lists.py`.
"""
import collections
import contextlib
import re
import signal

MOST = re.compile(r'[1-9][0-9]?|100')
BUDGET = re.compile(r'[1-9][0-9]{0,4}|1[0-9]{5}|200000')
MANY = 100000
CORRECT, CORRECTED, NO_CORRECTION, SPENT, REFUSED, UNREAD, _, _, USAGE = range(9)
# The sources as the model calls them.
KINDS = ('bounds', 'reference', 'submission', 'rules')
SPENT_LINES = re.compile(r'budget spent (\d+)\nat least cost (0|[1-9]\d*)\nmpycert 1\n')

Answer = collections.namedtuple('Answer', 'status output')


class Untold(Exception):
    """The lister would take too long."""


@contextlib.contextmanager
def within(seconds):
    """Stops what takes more seconds of the processor."""
    def stop(*_):
        raise Untold('more than %g seconds' % seconds)
    before = signal.signal(signal.SIGPROF, stop)
    signal.setitimer(signal.ITIMER_PROF, seconds)
    try:
        yield
    finally:
        signal.setitimer(signal.ITIMER_PROF, 0)
        signal.signal(signal.SIGPROF, before)


def has_form(words):
    return len(words) == 7 and words[0] == 'all' and bool(MOST.fullmatch(words[5])) and bool(BUDGET.fullmatch(words[6]))


class Lister:
    """A task, with its least cost and the live selections of that cost in their order."""

    def __init__(self, model, task):
        self.model, self.task = model, task
        self.grader = model.grade.Grader(task)
        self.cost = self.grader.solve(1).cost
        self.level = [()] if self.cost == 0 else self.in_order() if self.cost else []

    def in_order(self):
        """By the member of each pick, which is 0 where a selection doesn't name it."""
        rewrite, tree = self.model.rewrite, self.task.tree
        picks = range(len(rewrite.members(tree)))
        return sorted(rewrite.Live(tree).of_cost(self.cost), key=lambda it: [dict(it).get(pick, 0) for pick in picks])

    def best(self, most):
        """The first programs of the best list, and one more where there is one."""
        found = {}
        for selection in self.level:
            walk = self.model.rewrite.Walk(self.task.tree, dict(selection))
            program = self.model.tree.strip_lines(walk.prog)
            if program not in found and self.grader.agrees_cached(walk.prog):
                found[program] = walk
                if len(found) > most:
                    break
        return list(found.values())

    def answer(self, word, most):
        """The list; `word` names the submission."""
        report = self.model.report
        if len(self.level) > MANY:
            return Answer(REFUSED, report.refusal(word, self.task.sub_line, 'Many'))
        best = self.best(most)
        shown, ending = best[:most], 'more' if len(best) > most else 'whole'
        texts = ['cost %d\nfound %d, %s\n' % (self.cost, len(shown), ending)]
        for number, walk in enumerate(shown, 1):
            texts.append('correction %d\n' % number)
            texts += [report.edit_line(edit, self.task.rules) for edit in walk.edits]
            texts.append('program\n' + report.printer.prog(walk.prog))
        return Answer(CORRECTED if self.cost else CORRECT, ''.join(texts))

    def fault_of_none(self, status, output):
        """What is wrong where no correction agrees. Which failing input is shown is open."""
        first, _, line = output.decode('latin-1').partition('\n')
        if (status, first) != (NO_CORRECTION, 'no correction') or not line.endswith('\n'):
            return 'no correction agrees, and the answer is %d and %r' % (status, output)
        return self.model.grade.accept_fails(self.grader, line[:-1])


class Lists:
    """What `all` must print of tasks that are read at this stage, where the lister takes no more than these seconds."""

    def __init__(self, model, stage, seconds):
        self.model, self.stage, self.seconds = model, stage, seconds
        self.last = None, None

    def fault_of(self, words, files, status, output):
        """None where the answer is allowed, and else what is wrong with it. Untold is raised where the lister takes too long."""
        if not has_form(words):
            return None if status == USAGE and output.startswith(b'usage: ') else 'the words are of no form: %d' % status
        if any(word not in files for word in words[1:5]):
            return fault_of_text(Answer(UNREAD, ''), status, output)
        try:
            lister = self.lister([files[word] for word in words[1:5]])
            if status == SPENT:
                return fault_of_spent(output, words[6], lister.cost)
            if lister.cost is None:
                return lister.fault_of_none(status, output)
            with within(self.seconds):
                return fault_of_text(lister.answer(words[3], int(words[5])), status, output)
        except self.model.grade.Refused as refused:
            if status == SPENT and refused.cause == 'EmptyReference':
                return fault_of_spent(output, words[6], None)
            word = words[1 + KINDS.index(refused.source)]
            wanted = self.model.report.refusal(word, refused.line, refused.cause)
            return fault_of_text(Answer(REFUSED, wanted), status, output)

    def lister(self, sources):
        """The lister of a task; that of the last one is kept, also where it takes too long."""
        if self.last[0] != sources:
            self.last = sources, Untold('again')
            self.last = sources, self.new_lister(sources)
        if isinstance(self.last[1], Exception):
            raise self.last[1]
        return self.last[1]

    def new_lister(self, sources):
        grade = self.model.grade
        try:
            with within(self.seconds):
                return Lister(self.model, grade.read_task(sources, self.stage))
        except (Untold, grade.Refused) as cause:
            return cause
        except (grade.CannotTell, self.model.rewrite.TooMany) as cause:
            return Untold(repr(cause))


def fault_of_text(wanted, status, output):
    if (status, output) == (wanted.status, wanted.output.encode()):
        return None
    return 'expected status %d and %r, got %d and %r' % (wanted.status, wanted.output, status, output)


def fault_of_spent(output, budget, cost):
    """What is wrong with the lines: the cost that is still possible is no more than the least one, which may be none."""
    read = SPENT_LINES.match(output.decode('latin-1'))
    if not read or read[1] != budget:
        return 'no answer of a spent budget: %r' % output[:100]
    return 'the least cost is %d: %r' % (cost, output[:60]) if cost is not None and int(read[2]) > cost else None
