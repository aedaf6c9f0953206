#!/usr/bin/env python3
"""Compares weighted trees, and all their rewritings, with a plain model, on random tasks.

    MODEL=PATH tests/trees.py SEED COUNT [--first NUMBER] [--text]

Run it at the top of the repository, with `rt` on the path; the code is run unproved on a copy of the crates. MODEL is the
path of the model's command line; its modules lie beside it. Each task is made from the seed and its own number, so
`--first NUMBER` with COUNT 1 repeats one, and `--text` then prints the trees. Compared are the refusal, or the tree with
its picks, members, rules, costs and numbers, its greatest cost, the number of its selections, its weight and that of the
reference, and of trees of few selections the set of all costs, programs and edits. That set is made here by the relation
of rewriting, without a tree. Printed are the counts of the answers and each difference; the exit status is 1 where there
is one.
"""
import collections
import hashlib
import itertools
import os
import random
import sys
import tempfile

import rule_requests
import unproved
from trees_try import MOST, Harness

BATCH = 500
# The stage of the model whose language has the statement `print`, and whose rules neither insert guards nor delete statements.
STAGE = 15
ONE = {'Neg': '-', 'Not': '!', 'And': '&', 'Or': '|', 'Index': 'I'}


def digest(text):
    return hashlib.md5(text.encode()).hexdigest()


def name(mark, text):
    return '%s%s;' % (mark, text.encode().hex())


class TreeText:
    """A weighted tree as a text."""

    def __init__(self, written_parts):
        self.parts = written_parts

    def terms(self, terms):
        return '%d;' % len(terms) + ''.join(map(self.term, terms))

    def term(self, e):
        kind = e[0]
        if kind == 'Pick':
            others = ''.join('o%d;%d;%s' % (rule, cost, self.term(tree)) for rule, cost, tree in e[3])
            return 'P%d;%d;%s%s' % (e[1], len(e[3]), self.term(e[2]), others)
        if kind == 'Int':
            return 'i%d;' % e[1]
        if kind == 'Bool':
            return '%s;' % e[1]
        if kind in ('Text', 'Name'):
            return name(kind[0].lower(), e[1])
        if kind == 'List':
            return 'L' + self.terms(e[1])
        if kind == 'Call':
            return name('c', e[1]) + self.terms(e[2])
        if kind == 'Slice':
            return 'S' + self.term(e[1]) + ''.join('0' if end is None else self.term(end) for end in e[2:])
        mark = ONE.get(kind) or '?' if kind not in ('Arith', 'Cmp') else kind[0] + e[1]
        return mark + ''.join(map(self.term, self.parts(e)))

    def body(self, body):
        return '0' if body is None else '{%d;' % len(body) + ''.join('l%d;' % line + self.act(act) for line, act in body)

    def act(self, a):
        kind = a[0]
        if kind == 'Assign':
            return name('=', a[1]) + self.term(a[2])
        if kind == 'Augment':
            return name('=', a[1]) + 'A' + a[2] + self.term(a[3])
        if kind == 'Put':
            return name('[', a[1]) + self.term(a[2]) + self.term(a[3])
        if kind == 'AugmentAt':
            return name('[', a[1]) + self.term(a[2]) + 'A' + a[3] + self.term(a[4])
        if kind == 'Append':
            return name('append', a[1]) + self.term(a[2])
        if kind == 'Print':
            return 'print' + self.term(a[1])
        if kind == 'Return':
            return 'return' + (';' if a[1] is None else self.term(a[1]))
        if kind == 'If':
            arms = ''.join('l%d;' % line + self.term(test) + self.body(body) for line, test, body in a[1])
            return 'if%d;' % len(a[1]) + arms + self.body(a[2])
        if kind == 'While':
            return 'while' + self.term(a[1]) + self.body(a[2])
        if kind == 'For':
            return name('for', a[1]) + self.term(a[2]) + self.body(a[3])
        return kind.lower() + ';'

    def program(self, funcs):
        return ''.join('def%d;' % line + name('', f) + ''.join(name(',', x) for x in params) + self.body(body)
                       for line, f, params, body, _ in funcs)


class Relation:
    """All rewritings of a program by the relation: kept, replaced, replaced by a rule with a place."""

    def __init__(self, rewriter, rebuild):
        self.rewriter, self.rebuild = rewriter, rebuild

    def joined(self, parts):
        """Every way through parts that each have ways: the terms, the sum of the costs, the edits in order."""
        for ways in itertools.product(*parts):
            yield [way[0] for way in ways], sum(way[1] for way in ways), sum((way[2] for way in ways), ())

    def copied(self, e, at_share):
        return ('Slice', e, None, None) if at_share and self.rewriter.is_list_name(e) else e

    def kept(self, e, at_share, primed):
        if primed and at_share and self.rewriter.is_list_name(e):
            return [(self.copied(e, True), 0, ())]
        parts = [self.term(part, share, primed) for part, share in self.rewriter.kids(e, at_share)]
        return [(self.rebuild(e, made) if made else e, cost, edits) for made, cost, edits in self.joined(parts)]

    def replaced(self, e, place, target, at_share, primed):
        for rule, cost, instance, bound in self.rewriter.alternatives(e, place, target):
            for new, inner, edits in self.filled(instance, bound, at_share):
                old = self.all_copied(e, at_share) if primed else e
                yield new, cost + inner, ((self.line, rule, old, new),) + edits

    def filled(self, instance, bound, at_share):
        if instance[0] == 'Primed':
            return self.term(bound[instance[1]], at_share, True)
        if at_share and self.rewriter.is_list_name(instance):
            return [(self.copied(instance, True), 0, ())]
        parts = [self.filled(part, bound, share) for part, share in self.rewriter.kids(instance, at_share)]
        return [(self.rebuild(instance, made) if made else instance, cost, edits) for made, cost, edits in self.joined(parts)]

    def all_copied(self, e, at_share):
        """The term with each list's name at a sharing place copied."""
        if at_share and self.rewriter.is_list_name(e):
            return self.copied(e, True)
        parts = [self.all_copied(part, share) for part, share in self.rewriter.kids(e, at_share)]
        return self.rebuild(e, parts) if parts else e

    def term(self, e, at_share, primed):
        return self.kept(e, at_share, primed) + list(self.replaced(e, 'Anywhere', None, at_share, primed))

    def whole(self, e, place, target, at_share):
        return self.term(e, at_share, False) + list(self.replaced(e, place, target, at_share, False))

    def body(self, body):
        if body is None:
            return [(None, 0, ())]
        parts = []
        for line, act in body:
            self.line = line
            parts.append([((line, made), cost, edits) for made, cost, edits in self.act(act)])
        return [(tuple(made), cost, edits) for made, cost, edits in self.joined(parts)]

    def act(self, a):
        kind, line = a[0], self.line
        if kind == 'Assign':
            parts, make = [self.whole(a[2], kind, a[1], True)], lambda e: (kind, a[1], e)
        elif kind == 'Augment':
            parts, make = [self.term(a[3], False, False)], lambda e: (kind, a[1], a[2], e)
        elif kind == 'Put':
            parts, make = [self.term(e, False, False) for e in a[2:]], lambda i, e: (kind, a[1], i, e)
        elif kind == 'AugmentAt':
            parts, make = [self.term(e, False, False) for e in (a[2], a[4])], lambda i, e: (kind, a[1], i, a[3], e)
        elif kind == 'Append':
            parts, make = [self.term(a[2], False, False)], lambda e: (kind, a[1], e)
        elif kind == 'Print':
            parts, make = [self.term(a[1], False, False)], lambda e: (kind, e)
        elif kind == 'Return' and a[1] is not None:
            parts, make = [self.whole(a[1], kind, None, True)], lambda e: (kind, e)
        elif kind == 'If':
            parts = []
            for arm, test, body in a[1]:
                self.line = arm
                parts += [self.whole(test, kind, None, False), self.body(body)]
            parts.append(self.body(a[2]))
            lines = [arm[0] for arm in a[1]]

            def make(*made):
                return kind, tuple((at, made[2 * i], made[2 * i + 1]) for i, at in enumerate(lines)), made[-1]
        elif kind == 'While':
            parts, make = [self.whole(a[1], kind, None, False), self.body(a[2])], lambda e, body: (kind, e, body)
        elif kind == 'For':
            parts, make = [self.whole(a[2], kind, a[1], True), self.body(a[3])], lambda e, body: (kind, a[1], e, body)
        else:
            parts, make = [], lambda: a
        self.line = line
        return [(make(*made), cost, edits) for made, cost, edits in self.joined(parts)]

    def program(self, funcs):
        parts = []
        for f in funcs:
            self.rewriter.start(f)
            parts.append([((f[0], f[1], f[2], made), cost, edits) for made, cost, edits in self.body(f[3])])
        return [(tuple(made), cost, edits) for made, cost, edits in self.joined(parts)]


class Model:
    """The plain model, by its modules."""

    def __init__(self, path):
        sys.dont_write_bytecode = True
        sys.path.insert(0, os.path.dirname(os.path.realpath(path)))
        sys.setrecursionlimit(100000)
        import grade
        import printer
        import rewrite
        import tree
        import weights
        self.grade, self.printer, self.rewrite, self.tree, self.weights = grade, printer, rewrite, tree, weights
        self.text = TreeText(self.written)

    def written(self, e):
        parts = list(self.tree.parts(e))
        return [e[2], e[1], e[3]] if e[0] == 'Cond' else parts

    def answer(self, sources, whole):
        try:
            task = self.grade.read_task(sources, STAGE)
        except self.grade.Refused as refused:
            cause = refused.cause.replace('TypeFault', 'Type')
            return 'refused %s %s %d;' % (refused.source, cause, refused.line)
        text, count = self.text.program(task.tree), self.rewrite.choices(task.tree)
        words = ['tree', text if whole else digest(text), 'cost', '%d;' % self.rewrite.most_cost(task.tree),
                 'choices', '%d;' % count]
        limits, entry = task.bounds.limits, task.bounds.entry
        words += ['weight', '%d;' % self.weights.weight(task.tree, task.sub_types, limits, entry)]
        lifted = self.rewrite.lift(task.ref)
        words += ['reference', '%d;' % self.weights.weight(lifted, task.ref_types, limits, entry)]
        return ' '.join(words + [self.rewritings(task) if count <= MOST else '-'])

    def rewritings(self, task):
        rewriter = self.rewrite.Rewriter(task.sub, task.sub_types, task.rules, task.bounds.entry)
        made = Relation(rewriter, self.tree.rebuild).program(task.sub)
        return digest(''.join(sorted({digest(self.triple(*it)) for it in made})))

    def triple(self, program, cost, edits):
        words = ['%d;' % cost, self.printer.prog(program).encode().hex()]
        for line, rule, old, new in edits:
            words.append('e%d;%d;' % (line, rule) + name('', self.printer.expr(old)) + name('', self.printer.expr(new)))
        return ''.join(words)


def kind_of(answer):
    words = answer.split()
    if words[0] == 'refused':
        return ' '.join(words[:3])
    return 'tree with one selection' if words[5] == '1;' else 'tree, all rewritings' if words[-1] != '-' else 'larger tree'


class Case:
    """A random task, and whether its tree is to be told as a text."""

    def __init__(self, seed, number, whole):
        request = rule_requests.a_request(random.Random('trees/%d/%d' % (seed, number)))
        self.number, self.whole = number, whole
        self.sources = [request.files[it] for it in request.words[1:5]]

    def lines(self):
        return ['\t'.join(['text' if self.whole else 'digest'] + [it.hex() for it in self.sources])]


class Comparison:
    """The counts of all that was compared, and of what differed."""

    def __init__(self, model):
        self.model, self.counts, self.differing = model, collections.Counter(), 0

    def compare(self, case, answers):
        want, got = self.model.answer(case.sources, case.whole), answers[0]
        self.counts[kind_of(want)] += 1
        if want != got:
            self.differing += 1
            print('%d: %r\n  wanted %s\n  given  %s' % (case.number, case.sources, want, got), flush=True)
        elif case.whole:
            print(got)


def main():
    words = unproved.arguments(__doc__)
    words.add_argument('--text', action='store_true')
    given = words.parse_args()
    if not os.environ.get('MODEL'):
        words.error('MODEL is not set')
    comparison = Comparison(Model(os.environ['MODEL']))
    with tempfile.TemporaryDirectory() as folder:
        unproved.compare_cases(given, BATCH, lambda number: Case(given.seed, number, given.text), Harness(folder), comparison)
    return unproved.told(comparison.counts, given, 'tasks', comparison.differing)


if __name__ == '__main__':
    sys.exit(main())
