"""The types of names and results, each with the lines from which it comes, and the node that breaks a rule of types.

`docs/language.md` has the rules.
"""
from .program import BUILTINS

NO_VALUE = 'no value'
TEXTS = {'Int': 'a whole number', 'Bool': 'a truth value', 'List': 'a list', 'Text': 'a text'}
ELEMENTS = {'List': 'Int', 'Text': 'Text'}
MANY = ('List', 'Text')
BY_BOUNDS = 0               # the line of a type that the bounds give
RESULT = 'return'           # the slot of a result; no name is a reserved word


class Broken(Exception):
    """A node that breaks its rule, with the types of its parts."""

    def __init__(self, kind, node, *types):
        super().__init__(kind)
        self.kind, self.node, self.types = kind, node, types


class Kinds:
    def __init__(self, program, bounds):
        self.program = program
        self.by_name = {function.name: function for function in program.functions}
        self.facts = {(function.name, slot): {} for function in program.functions for slot in self.slots(function)}
        entry = self.by_name.get(bounds.entry)
        for name, kind in zip(entry.parameters if entry else (), bounds.kinds):
            self.facts[entry.name, name][kind] = BY_BOUNDS
        while any([self._add_of(function) for function in program.functions]):
            pass

    @staticmethod
    def slots(function):
        return [*function.locals(), RESULT]

    def _add(self, slot, kinds, line):
        facts, grown = self.facts[slot], False
        for kind in kinds:
            if line < facts.get(kind, line + 1):
                facts[kind], grown = line, True
        return grown

    def _add_of(self, function):
        grown = False
        for item in function.items:
            slot = (function.name, item.words[0] if item.words else RESULT)
            given = self.possible(function, item.exprs[-1]) if item.exprs else ()
            if item.kind == 'for':
                given = {ELEMENTS[kind] for kind in given if kind in ELEMENTS}
            if item.kind in ('set', 'for', 'return') or item.kind == 'change' and item.words[1] != '*':
                grown |= self._add(slot, given, item.line)
            for node in (node for expr in item.exprs for node in expr.nodes()):
                called = self.by_name.get(node.word) if node.form == 'call' else None
                for name, argument in zip(called.parameters if called else (), node.parts):
                    grown |= self._add((called.name, name), self.possible(function, argument), item.line)
        return grown

    def possible(self, function, node):
        """The types that a node can have by those of the slots."""
        parts = node.parts
        if node.form in ('truth', 'not') or node.form == 'binary' and not node.word[0] in '+-*/%':
            return {'Bool'}
        if node.form == 'text':
            return {'Text'}
        if node.form == 'list' or node.form == 'call' and node.word == 'range':
            return {'List'}
        if node.form == 'name':
            return set(self.facts.get((function.name, node.word), ()))
        if node.form == 'call' and node.word not in BUILTINS:
            return set(self.facts.get((node.word, RESULT), ()))
        if node.form == 'choice' or node.word == '+' and node.form == 'binary':
            return self.possible(function, parts[0]) | self.possible(function, parts[-1])
        if node.form == 'slice' or node.word == '*' and node.form == 'binary':
            return self.possible(function, parts[0])
        if node.form == 'index':
            return {ELEMENTS[kind] for kind in self.possible(function, parts[0]) if kind in ELEMENTS}
        return {'Int'}

    def type_of(self, function, node):
        """The type of a node whose slots have one type each; else Broken, of the first node that breaks its rule."""
        types = [self.type_of(function, part) if part else 'Int' for part in node.parts]
        if node.form == 'binary':
            return binary(node, *types)
        if node.form == 'choice' and types[0] != types[2]:
            raise Broken('choice', node, types[0], types[2])
        if node.form in ('index', 'slice'):
            require(types[0] in MANY, 'of ' + node.form, node, types[0])
            require(all(kind == 'Int' for kind in types[1:]), 'in ' + node.form, node, *types[1:])
        if node.form in ('list', 'minus'):
            odd = [kind for kind in types if kind != 'Int']
            require(not odd, node.form, node, *odd)
        if node.form == 'call' and node.word in BUILTINS:
            odd = [kind for kind in types if (kind not in MANY if node.word == 'len' else kind != 'Int')]
            require(not odd, 'len' if node.word == 'len' else 'arguments', node, *odd)
        return next(iter(self.possible(function, node)))

    def fault_of(self, function, item):
        """What breaks a rule in an item, if something does."""
        try:
            types = [self.type_of(function, expr) for expr in item.exprs]
            place = item.exprs[0] if item.exprs else None
            own = next(iter(self.facts[function.name, item.words[0]])) if item.words and item.kind != 'def' else None
            if item.kind == 'for':
                require(types[0] in MANY, 'for over', place, types[0])
            elif item.kind == 'change':
                binary(item, own, types[0])
            elif item.kind in ('put', 'change at', 'append'):
                require(own == 'List', item.kind, item, own)
                require(types == ['Int'] * len(types), 'element', item.exprs[-1], *types)
        except Broken as broken:
            return broken
        return None


def require(holds, kind, node, *types):
    if not holds:
        raise Broken(kind, node, *types)


def binary(node, left, right):
    """The type of an operator on two types; `node` is the operation, or the item of a change."""
    word = node.words[1] if hasattr(node, 'words') else node.word
    if word in ('and', 'or'):
        require(left == right == 'Bool', 'and or', node, left, right)
    elif word in ('==', '!='):
        require(left == right, 'equal', node, left, right)
    elif word in ('<', '<=', '>', '>='):
        require(left == right == 'Int', 'order', node, left, right)
    elif word in ('in', 'not in'):
        require((left, right) in (('Int', 'List'), ('Text', 'Text')), 'in', node, left, right)
    elif word == '+':
        require(left == right != 'Bool', '+', node, left, right)
        return left
    elif word == '*':
        require(left != 'Bool' and right == 'Int', '*', node, left, right)
        return left
    else:
        require(left == right == 'Int', 'arithmetic', node, left, right)
        return 'Int'
    return 'Bool'
