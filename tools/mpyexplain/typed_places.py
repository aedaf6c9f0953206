"""The places of faults of types, of results and of lists with two names."""
from .kinds import BY_BOUNDS, NO_VALUE, RESULT, TEXTS, Kinds
from .place import marked, on_node, on_word
from .program import ASSIGNS, CHANGES_IN_PLACE, Program


def of_undetermined(task, line):
    kinds = Kinds(Program(task.source), task.bounds)
    return slot_fault(kinds, line, is_open=True)


def of_type(task, line):
    program = Program(task.source)
    kinds = Kinds(program, task.bounds)
    if any(len(facts) != 1 for facts in kinds.facts.values()):
        return slot_fault(kinds, line, is_open=False)
    for item in program.on(line):
        broken = kinds.fault_of(program.function_of(item), item)
        if broken:
            left, right = (broken.types + ('Int', 'Int'))[:2]
            return on_node(task.source, broken.kind, broken.node, left=TEXTS[left], right=TEXTS[right],
                           types={left, right}, name=item.words[0] if item.words else '',
                           operator=operator_of(broken.node))
    return None


def operator_of(node):
    """The operator of an expression or of a change."""
    return node.words[-1] if hasattr(node, 'words') else node.word


def slot_line(function, slot):
    return function.item.line if slot == RESULT else function.locals()[slot]


def slot_fault(kinds, line, is_open):
    """The first name or result with this line that has no type, or else several."""
    for function in kinds.program.functions:
        for slot in kinds.slots(function):
            count = len(kinds.facts[function.name, slot])
            if slot_line(function, slot) == line and (count == 0 if is_open else count > 1):
                return slot_place(kinds.program, kinds, function, slot)
    return None


def slot_place(program, kinds, function, slot):
    """Where a name or a result has no type or several."""
    facts = kinds.facts[function.name, slot]
    what = 'result' if slot == RESULT else 'parameter' if slot in function.parameters else 'local'
    item = function.item
    if what == 'local':
        line = slot_line(function, slot)
        item = next(item for item in program.on(line) if item.kind in ASSIGNS and item.words[0] == slot)
    types = sorted(facts, key=lambda kind: facts[kind])
    where = {kind: 'by the assignment' if line == BY_BOUNDS else 'on line %d' % line for kind, line in facts.items()}
    told = ' and '.join('%s %s' % (TEXTS[kind], where[kind]) for kind in types)
    kind = what if facts else none_kind(program, kinds, function, item, what)
    word = function.name if slot == RESULT else slot
    values = {'types': set(types), 'told': told, 'name': word, 'function': function.name}
    values.update(second_type(kinds, function, slot, facts, types) if facts else element_of_number(kinds, function, slot))
    if 'base' in values:
        kind = 'no elements'
    if kind == 'for over no list':
        return on_node(program.source, kind, item.exprs[0], **values)
    return on_word(program.source, kind, item, word, **values)


def sources(function, slot):
    """The items from which a name or a result gets its value."""
    return [item for item in function.items
            if item.exprs and (item.kind == 'return' if slot == RESULT else item.words[:1] == (slot,))]


def second_type(kinds, function, slot, facts, types):
    """The operator that gives the second type to a name or a result, '' if none does, with its line and the types."""
    line = facts[types[1]]
    item = next((item for item in sources(function, slot) if item.line == line), None)
    return {'by': mixing(kinds, function, item) if item else '', 'at': line, 'first': TEXTS[types[0]],
            'other': TEXTS[types[1]]}


def mixing(kinds, function, item):
    """The operator of a change, or of a sum of parts of different types."""
    value = item.exprs[-1]
    if item.kind == 'change':
        return item.words[1] + '='
    if value.form != 'binary' or value.word != '+':
        return ''
    left, right = [kinds.possible(function, part) for part in value.parts]
    return '+' if left != right else ''


def element_of_number(kinds, function, slot):
    """The number of which an element is taken where a name or a result gets its value, if there is one."""
    for item in sources(function, slot):
        for node in item.exprs[-1].nodes():
            if node.form == 'index' and kinds.possible(function, node.parts[0]) == {'Int'}:
                base = node.parts[0]
                return {'base': kinds.program.source.text[slice(*base.outer)], 'at': item.line}
    return {}


def none_kind(program, kinds, function, item, what):
    """Why nothing says the type of a name or a result."""
    calls = {node.word for item in program.items for expr in item.exprs for node in expr.nodes() if node.form == 'call'}
    if what == 'parameter':
        return 'never called' if function.name not in calls else 'parameter'
    if what == 'result':
        if any(item.kind == 'return' and item.exprs for item in function.items):
            return 'result'
        return 'print for return' if any(item.kind == 'print' for item in function.items) else 'no return'
    if item.kind == 'for':
        return 'for over no list' if kinds.possible(function, item.exprs[0]) else 'local'
    if item.kind == 'change':
        return 'product alone' if item.words[1] == '*' else 'local'
    called = item.exprs[-1].word if item.exprs[-1].form == 'call' else None
    empty = [other.name for other in program.functions
             if not any(inner.kind == 'return' and inner.exprs for inner in other.items)]
    return 'of no return' if called in empty else 'local'


def of_result(task, line):
    program = Program(task.source)
    facts = Kinds(program, task.bounds).facts
    function = next(function for function in program.functions if function.name == task.bounds.entry)
    given = [TEXTS[kind] for kind in facts[function.name, RESULT]]
    if not given and task.bounds.prints:
        given = [NO_VALUE]
    if len(given) != 1 or not task.wanted or given[0] == task.wanted:
        return None
    kind = 'no value wanted' if task.wanted == NO_VALUE else 'no value' if given[0] == NO_VALUE else 'result'
    return on_word(task.source, kind, function.item, function.name, given=given[0], wanted=task.wanted)


# Sharing


def of_shared(task, line):
    program = Program(task.source)
    for item in program.on(line):
        function, name = program.function_of(item), item.words[0] if item.words else ''
        if item.kind == 'set' and open_names(item.exprs[0]):
            values = {'name': name, 'list': open_names(item.exprs[0])[0].word}
            return on_node(task.source, 'second name', open_names(item.exprs[0])[0], **values)
        if item.kind == 'return' and item.exprs and open_names(item.exprs[0]):
            node = next((node for node in open_names(item.exprs[0]) if node.word in function.parameters), None)
            if node:
                return on_node(task.source, 'returned parameter', node, name=node.word)
        if item.kind in CHANGES_IN_PLACE or item.kind == 'change':
            loops = [other for other in program.around(item) if other.kind == 'for']
            in_loop = any(node.word == name for other in loops for node in open_names(other.exprs[0]))
            if in_loop or name in function.parameters:
                kind = 'changed in its loop' if in_loop else 'changed parameter'
                return on_word(task.source, kind, item, name, name=name, function=function.name)
    return None


def open_names(node):
    """The names one of which an expression is, by itself or as an arm of a choice."""
    if node.form == 'choice':
        return open_names(node.parts[0]) + open_names(node.parts[2])
    return [node] if node.form == 'name' else []
