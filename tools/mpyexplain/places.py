"""Where on a refused line the fault is, and of which kind.

The cause and the line are the grader's. What is found here only says more of them: where nothing is found, the place
has no mark and no kind, and only what holds of every refusal with that cause is told.
"""
from .place import Place, counted, marked, on_node, on_word
from .program import BUILTINS, CHANGES_IN_PLACE, Program
from .syntax import MOST_TOKENS, Unreadable, read_item
from .typed_places import of_result, of_shared, of_type, of_undetermined

MOST_FUNCTIONS, MOST_STATEMENTS, MOST_PARAMETERS, MOST_DEPTH, MOST_BLOCKS, MOST_NAME = 8, 200, 6, 32, 8, 40


# Bytes and tokens


def of_byte(task, line, cause='byte'):
    faults, text = task.source.byte_faults(line), task.source.text
    if not faults or faults[0].kind != cause:
        return None
    start, end = faults[0].start, faults[0].end
    while text[start] >= '\x80' and '\x80' <= text[end:end + 1] <= '\xbf':
        end += 1                # the further bytes of one character
    return marked(task.source, cause, start, end, is_wide='\0' in text)


def of_tab(task, line):
    return of_byte(task, line, 'tab')


def of_token(task, line):
    fault = next((fault for fault in task.source.faults if fault.line == line), None)
    if not fault:
        return None
    is_document = fault.kind == 'open text' and task.source.text[fault.start - 2:fault.start + 1] in ('"""', "'''")
    return marked(task.source, 'document' if is_document else fault.kind, fault.start, fault.end)


# Columns, lines and blocks


def of_indent(task, line):
    columns = [0]
    for logical in task.source.lines:
        if logical.number == line:
            start = task.source.starts[line - 1]
            kind = 'first' if logical is task.source.lines[0] else 'column'
            listed = ' or '.join([', '.join(map(str, columns[:-1])), str(columns[-1])] if len(columns) > 1 else ['0'])
            return marked(task.source, kind, start, start + logical.column, column=counted(logical.column, 'space'),
                          columns=listed + ' spaces')
        while columns[-1] > logical.column:
            columns.pop()
        if columns[-1] < logical.column:
            columns.append(logical.column)
    return None


def of_syntax(task, line):
    logical = task.source.line_at(line)
    if not logical or len(logical.tokens) > MOST_TOKENS:
        return None
    try:
        read_item(logical)
    except Unreadable as stop:
        return unreadable(task.source, logical.tokens, stop)
    return None


def unreadable(source, tokens, stop):
    """The place at which a line that spells nothing can't go on."""
    here = tokens[stop.at] if stop.at < len(tokens) else None
    start, end = (here.start, here.end) if here else (tokens[-1].end, tokens[-1].end + 1)
    values = {'name': tokens[stop.begin].text}
    place = Place('syntax', start, end, here.text if here else '', values, tokens, stop.begin, stop.at, stop.inside,
                  stop.wants, source=source)
    if place.word == '.' and place.is_joined(stop.at + 1):
        place.end = tokens[stop.at + 1].end                                     # a method with its point
    if stop.wants == '=' and (place.word == '(' or tokens[-1].text == ':'):
        place.start, place.end = tokens[stop.begin].start, tokens[stop.begin].end       # what is called, or no header
    return place


def of_block(task, line):
    program = Program(task.source)
    for item in program.on(line):
        kind = block_kind(program, item)
        if kind:
            return on_word(task.source, kind, item, item.tokens[0].text, header=item.kind)
    return None


def block_kind(program, item):
    at = next(at for at, other in enumerate(program.headers) if other.line == item.line)
    is_body = program.headers[at].body is item
    if not is_body:
        above = program.headers[at - 1] if at else None
        below = program.headers[at + 1] if at + 1 < len(program.headers) else None
        if above and item.column > above.column and not above.is_open:
            return 'deeper behind a body' if above.body else 'deeper'
        if item.is_open and not (below and below.column > item.column):
            return 'no body'
        if item.kind in ('elif', 'else'):
            return arm_kind(program, item)
        if item.kind == 'def' and item.column > 0:
            return 'nested def'
        if item.kind != 'def' and item.column == 0:
            return 'main' if item.kind == 'if' and item.tokens[1].text == '__name__' else 'top level'
    if item.kind in ('break', 'continue') and not any(other.kind in ('for', 'while') for other in program.around(item)):
        return 'outside a loop'
    return None


def arm_kind(program, item):
    other = program.nearest(item)
    kind = other.kind if other and other.column == item.column else None
    if kind in ('if', 'elif'):
        return None
    if kind in ('for', 'while'):
        return 'else of a loop' if item.kind == 'else' else 'no if'
    return 'behind else' if kind == 'else' else 'no if'


def of_limit(task, line):
    logical = task.source.line_at(line)
    if logical and len(logical.tokens) > MOST_TOKENS:
        return Place('tokens')
    program = Program(task.source)
    functions = [function.item for function in program.functions]
    statements = [item for item in program.items if item.kind not in ('def', 'elif', 'else')]
    for item in program.on(line):
        if item in functions[MOST_FUNCTIONS:MOST_FUNCTIONS + 1]:
            return on_word(task.source, 'functions', item, 'def')
        if item.kind == 'def' and len(item.words) - 1 > MOST_PARAMETERS:
            return on_word(task.source, 'parameters', item, item.words[MOST_PARAMETERS + 1])
        if item in statements[MOST_STATEMENTS:MOST_STATEMENTS + 1]:
            return on_word(task.source, 'statements', item, item.tokens[0].text)
        long = next((token for token in item.tokens if token.kind == 'name' and len(token.text) > MOST_NAME), None)
        if long:
            return marked(task.source, 'name', long.start, long.end)
        if any(depth(expr) > MOST_DEPTH for expr in item.exprs):
            return Place('depth')
        if len(program.around(item)) > MOST_BLOCKS:
            return on_word(task.source, 'blocks', item, item.tokens[0].text)
    return None


def depth(node):
    return 1 + max((depth(part) for part in node.parts if part), default=0)


# Names and arguments


def of_name(task, line):
    program = Program(task.source)
    found = [place for item in program.on(line) for place in name_faults(program, item)]
    return min(found, key=lambda place: place.start, default=None)


def name_faults(program, item):
    source, function = program.source, program.function_of(item)
    names, functions = function.locals(), [other.name for other in program.functions]
    if item.kind == 'def':
        earlier = [other.name for other in program.functions if other.item.line < item.line]
        if item.words[0] in earlier:
            yield on_word(source, 'second function', item, item.words[0])
        if item.words[0] in BUILTINS:
            yield on_word(source, 'builtin function', item, item.words[0])
        if item.words[0] == 'print':
            yield on_word(source, 'print function', item, 'print')
        for at, name in enumerate(item.words[1:], 1):
            if name in item.words[1:at]:
                yield on_word(source, 'second parameter', item, name, item.words[:at + 1].count(name))
    if item.kind == 'print' and 'print' in names:
        yield on_word(source, 'local is called', item, 'print', first=names['print'])
    if item.kind in CHANGES_IN_PLACE and item.words[0] not in names:
        yield on_word(source, 'changed', item, item.words[0])
    for node in (node for expr in item.exprs for node in expr.nodes()):
        if node.form == 'name' and node.word not in names:
            others = [other.name for other in program.functions if node.word in other.locals()]
            kind = ('function as a value' if node.word in functions or node.word in BUILTINS else
                    'of another function' if others else 'unknown')
            yield on_node(source, kind, node, other=''.join(others[:1]), function=function.name)
        if node.form == 'call' and (node.word in names or node.word not in BUILTINS and node.word not in functions):
            kind = 'local is called' if node.word in names else 'no function'
            yield marked(source, kind, *node.place, first=names.get(node.word))


def of_arity(task, line):
    program = Program(task.source)
    takes = {function.name: (len(function.parameters),) * 2 for function in program.functions}
    takes.update(BUILTINS)
    for item in program.on(line):
        for node in (node for expr in item.exprs for node in expr.nodes()):
            least, most = takes.get(node.word, (0, 0)) if node.form == 'call' else (0, 0)
            if node.form == 'call' and not least <= len(node.parts) <= most:
                kind = 'own' if node.word not in BUILTINS else node.word
                return on_node(task.source, kind, node, name=node.word, given=counted(len(node.parts), 'argument'),
                               takes=counted(most, 'argument') if least == most else '1 to 3 arguments',
                               count=len(node.parts))
    return None


def of_entry(task, line):
    entry, program = task.bounds.entry, Program(task.source)
    values = {'entry': entry, 'wanted': counted(len(task.bounds.kinds), 'parameter')}
    for function in program.functions:
        if function.name == entry:
            has = counted(len(function.parameters), 'parameter')
            return on_word(task.source, 'parameters', function.item, entry, has=has, **values)
    names = [function.name for function in program.functions]
    if len(names) == 1:
        return on_word(task.source, 'others', program.functions[0].item, names[0], names=names[0], **values)
    return Place('others' if names else 'none', values={**values, 'names': ' and '.join(names)})


def of_def(task, line):
    logical = task.source.line_at(line)
    return marked(task.source, 'entry', logical.tokens[1].start, logical.tokens[1].end) if logical else None


FINDERS = {'Byte': of_byte, 'Tab': of_tab, 'Token': of_token, 'Indent': of_indent, 'Syntax': of_syntax,
           'Block': of_block, 'Limit': of_limit, 'Name': of_name, 'Arity': of_arity, 'Entry': of_entry,
           'Type': of_type, 'Undetermined': of_undetermined, 'Shared': of_shared, 'ResultType': of_result,
           'TooLarge': of_def}


def find(cause, line, task):
    """The place of a refusal. It is without a mark where the line hasn't such a fault: the file was changed then."""
    try:
        found = FINDERS[cause](task, line) if cause in FINDERS else None
    except (Unreadable, LookupError, StopIteration):
        found = None
    return found or Place()
