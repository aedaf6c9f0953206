#!/usr/bin/env python3
"""Tries `tools/explain`: each row of its table by a submission, all kinds of answers, corrections, and errors of use.

    tests/explain.py
    MODEL=PATH tests/explain.py

Run it at the top of the repository; no grader is needed. The answers are those stored with the examples, and those of
the texts of `explain_trials`. With MODEL, the path of the model's command line, the model must besides refuse each
of these texts with the row's cause and on its line. Printed are the counts and what is wrong; the exit status is 1
where something is.
"""
import os
import pathlib
import re
import subprocess
import sys
import tempfile

import explain_trials

TOP = pathlib.Path(__file__).resolve().parent.parent
sys.path.insert(0, str(TOP / 'tools'))
from mpyexplain import command, texts                                   # noqa: E402
from mpyexplain.bounds import read_bounds                               # noqa: E402
from mpyexplain.kinds import NO_VALUE                                   # noqa: E402
from mpyexplain.place import Task                                       # noqa: E402
from mpyexplain.places import find                                      # noqa: E402
from mpyexplain.source import Source                                    # noqa: E402
from mpyexplain.syntax import is_code                                   # noqa: E402

WORDS = ['grade', 'bounds.txt', 'reference.py', 'sub.py', 'rules.eml', 'cert.txt', '200000']
FORMS = {'x': 'int 0..3', 'y': 'int 0..3', 'b': 'bool', 'v': 'list 0..2 of 0..2', 'w': 'list 0..2 of 0..2',
         's': "text 0..2 of 'ab'"}
BOUNDS = 'width 6\nturns 4\ndepth 3\ncap 5\nentry f\n'
PRINTED = {'printed': '    return 0\n', 'nothing': '    print(0)\n'}       # with printed values compared, by references
wrong = []


def check(holds, *what):
    if not holds:
        wrong.append(' '.join(map(str, what)))


def bounds_of(parameters):
    params = ['param %s %s\n' % (name, FORMS[name]) for name in parameters if name in FORMS]
    compare = ['compare printed 4\n' for name in parameters if name in PRINTED]
    return (BOUNDS + ''.join(params + compare)).encode()


def reference_of(parameters):
    """A reference that gives a number, or with `nothing` among the parameters one that prints it."""
    body = next((PRINTED[name] for name in parameters if name in PRINTED), '    return 0\n')
    return 'def f(%s):\n%s' % (', '.join(name for name in parameters if name in FORMS), body)


# The table


def trials():
    """All texts: the row's key, the parameters, the line, the mark and the text, both as bytes."""
    for block in re.split('^-- ', explain_trials.WRITTEN, flags=re.MULTILINE)[1:]:
        head, _, text = block.partition('\n')
        key, parameters, line, mark = [part.strip() for part in head.split('|')]
        yield key, parameters.split(), int(line), mark.replace('~', ' ').encode(), text.encode()
    for key, parameters, line, mark, text in explain_trials.MADE:
        as_bytes = [part if isinstance(part, bytes) else part.encode() for part in (mark, text)]
        yield (key, parameters.split(), line, *as_bytes)


def check_row(cause, key, parameters, line, mark, text):
    """That the row with the key is told of the text, with the mark; gives what it proposes to write."""
    source = Source(text)
    wanted = NO_VALUE if 'nothing' in parameters else 'a whole number'
    place = find(cause, line, Task(source, read_bounds(bounds_of(parameters)), wanted))
    row = next((row for row in texts.TABLE[cause] if row.fits(place)), None)
    shown = source.text[place.start:place.end].strip('\n') if place.start is not None else ''
    check(row and row.key == key, key, 'is told as', row and row.key)
    check(shown == mark.decode('latin-1'), key, 'marks', repr(shown))
    told = '\n'.join(command.told(row, place)) if row else ''
    check(told and not re.search(r'\{\w+\}', told), key, 'has a hole')
    return told


def check_code(key, told):
    """That what a row proposes can be read."""
    code = '\n'.join(line for line in told.split('\n') if line.startswith('    '))
    check(is_code(code), key, 'proposes what cannot be read:', code)


def check_table():
    causes = {row.key: cause for cause, rows in texts.TABLE.items() for row in rows}
    check(len(causes) == sum(map(len, texts.TABLE.values())), 'a key stands twice')
    check(set(texts.TABLE) | {'Long'} == set(texts.CAUSES), 'a cause has no rows or no text')
    seen = set()
    for trial in trials():
        seen.add(trial[0])
        check(trial[0] in causes, trial[0], 'is no row')
        if trial[0] in causes:
            check_code(trial[0], check_row(causes[trial[0]], *trial))
    check(seen == set(causes), 'no text for', sorted(set(causes) - seen))
    return '%d rows' % len(seen)


def check_model(path):
    """That the model refuses each text with the row's cause and on its line."""
    sys.path.insert(0, os.path.dirname(os.path.realpath(path)))
    from top import top
    causes = {row.key: cause for cause, rows in texts.TABLE.items() for row in rows}
    count = 0
    for count, (key, parameters, line, _, text) in enumerate(trials(), 1):
        sources = bounds_of(parameters), reference_of(parameters).encode(), text, b''
        answer = top(WORDS, dict(zip(WORDS[1:5], sources)), 16)[1]
        check(answer == 'refused sub.py line %d: %s\n' % (line, causes[key]), key, 'is answered', answer)
    return '%d answers of the model' % count


# The examples and the documents

REFUSED = {
    'balance/sub-float': 'float', 'balance/sub-print': 'print of several', 'balance/sub-slash': 'division',
    'count/sub-documented': 'documentation over lines', 'count/sub-method': 'count',
    'count/sub-one-equals': '= in a test', 'countdown/sub-list': 'value given',
    'derivative/sub-documented': 'documentation string', 'derivative/sub-floats': 'float', 'derivative/sub-shared': 'second name', 'digits/sub-slash': 'division',
    'digits/sub-text': 'str', 'evaluate/sub-caret': 'sign for a power', 'evaluate/sub-enumerate': 'enumerate',
    'evaluate/sub-none': 'is None', 'every_second/sub-number-added': 'list and number',
    'every_second/sub-stepped': 'step', 'fare/sub-slash': 'division', 'gcd/sub-both-at-once': 'two targets',
    'gcd/sub-missing-return': 'call', 'gcd/sub-no-end': 'return of itself', 'hangman/sub-all-of': 'comprehension',
    'hangman/sub-list': 'element set', 'hangman/sub-no-colon': 'colon at the end', 'in_order/sub-chained': 'chain',
    'in_order/sub-pairs': 'zip', 'in_order/sub-sorted': 'sorted', 'largest/sub-builtin': 'max of a list',
    'largest/sub-compares': '== for =', 'largest/sub-none': 'None', 'largest/sub-sorted': 'sorted',
    'palindrome/sub-number': 'other type', 'palindrome/sub-reversed': 'join', 'palindrome/sub-stepped': 'backwards',
    'power/sub-calls': 'too large', 'power/sub-float': 'float', 'power/sub-print': 'print for return',
    'recur_power/sub-documented': 'documentation over lines', 'recur_power/sub-forgotten-return': 'expression',
    'recur_power/sub-other-name': 'unknown function', 'remove/sub-comprehension': 'comprehension',
    'remove/sub-method': 'pop or remove', 'running_sums/sub-no-value': 'no value given',
    'running_sums/sub-words': 'print of several', 'second/sub-at-once': 'two targets', 'second/sub-sort': 'sort',
    'second/sub-sorted': 'sorted', 'square/sub-misspelt': 'other functions', 'vowels/sub-list': 'list of texts',
    'vowels/sub-or-letters': 'or of a value',
}


def explained(folder, name):
    """What is told of an example: its stored output, and the lines."""
    _, _, output = (folder / (name + '.out')).read_text().partition('\n')
    words = ['grade', *(str(folder / file) for file in ('bounds.txt', 'reference.py', name + '.py', 'rules.eml')),
             'cert.txt', '200000']
    output = output.replace('refused ' + name, 'refused ' + str(folder / name))
    return output, command.explained(words, output)


def form_of(says):
    """The texts that a row may tell."""
    return re.sub(r'\\\{\w+\\\}', '.+', re.escape(says))


def check_examples():
    refused, mended, count = set(), 0, 0
    says = {row.key: row.says for rows in texts.TABLE.values() for row in rows}
    for path in sorted(TOP.glob('examples/*/sub-*.out')):
        folder, name, count = path.parent, path.stem, count + 1
        example = '%s/%s' % (folder.name, name)
        output, lines = explained(folder, name)
        if output.startswith('refused'):
            refused.add(example)
            key = REFUSED.get(example, 'method')
            check(re.search(form_of(says[key]), ' '.join(lines)), example, 'is not told as', key)
        if output.startswith('cost'):
            mended += 1
            check_changed(example, output, lines)
    check(refused == set(REFUSED), 'other examples are refused than', sorted(REFUSED))
    return '%d examples, %d of them refused and %d mended' % (count, len(refused), mended)


def check_changed(example, output, lines):
    """That the corrected program is shown as changes of lines that have an edit."""
    edits = {int(line) for line in re.findall(r'^line ([0-9]+) ', output, re.MULTILINE)}
    check(texts.CHANGED in lines, example, 'is not shown as changes')
    rows = lines[lines.index(texts.CHANGED) + 2:] if texts.CHANGED in lines else []
    old = [row for row in rows if not row.startswith('+ ')]
    changed = {number for number, row in enumerate(old, 1) if row.startswith('- ')}
    check(changed <= edits | {line + 1 for line in edits}, example, 'changes lines', changed, 'with edits on', edits)


DOCUMENT_EXAMPLE = re.compile(r'`examples/(\w+)/([\w-]+)\.py`:\n\n```\n(.*?)```', re.DOTALL)
DOCUMENT_SENTENCE = re.compile(r'^\| .* \| `([A-Z]\w+)` \| (\S.*\.) \|$', re.MULTILINE)


def check_documents():
    """That `docs/explain.md` shows what is told of the examples that it names."""
    document = (TOP / 'docs' / 'explain.md').read_text()
    for cause, told in DOCUMENT_SENTENCE.findall(document):
        check(any(re.fullmatch(form_of(row.says), told) for row in texts.TABLE[cause]), 'no row of', cause, 'says', told)
    found = DOCUMENT_EXAMPLE.findall(document)
    for folder, name, shown in found:
        _, lines = explained(TOP / 'examples' / folder, name)
        told = '\n'.join(lines).replace(str(TOP / 'examples' / folder) + '/', '') + '\n'
        check(told == shown, 'a document shows of', name, 'another text than\n' + told)
    return '%d examples of the documents' % len(found)


# The other answers

FAULTS = {'Divisor': '0', 'Index': 'place', 'Unset': 'before', 'Power': 'negative', 'Step': 'step', 'NoValue': 'return',
          'Overflow': '6 bits, so they go from -32 to 31', 'Turns': 'at most 4 turns', 'Depth': 'at most 3 calls',
          'Length': 'at most 5 elements'}
ANSWERS = [
    ('correct\n', 'Other inputs were not tried'),
    ("no correction\nfails f(1): gives 'a  b', wanted ''\n", "f(1) gives 'a  b', and '' is wanted."),
    ('budget spent 200000\nat least cost 0\n', 'may be right, and it may be wrong'),
    ('budget spent 200000\nat least cost 2\n', 'corrections of a cost below 2 do not mend it'),
    ('refused bounds.txt line 3: BoundRange\n', 's: the bounds file is refused (bounds.txt, line 3: BoundRange)'),
    ('refused reference.py line 1: EmptyReference\n',
     's: the reference is refused (reference.py, line 1: EmptyReference)'),
    ('refused rules.eml line 7: RuleTwice\n', 's: the rules file is refused (rules.eml, line 7: RuleTwice)'),
    ('refused rules.eml line 0: Long\n', 'the rules file is refused (rules.eml, Long)'),
    ('refused sub.py line 0: Long\n', 'sub.py is refused: Long'),
    ('refused sub.py line 2: Shared\n', 'This is the first fault'),     # of a line without that fault
]
ANSWERS += [('no correction\nfails f(1): gives fault %s, wanted 1\n' % kind, says) for kind, says in FAULTS.items()]
NO_ANSWERS = [
    '', 'correct', 'value 3\n', 'usage: mpygrade grade BOUNDS REF SUB RULES CERT BUDGET\n', 'correct\ncorrect\n',
    'no correction\nfails f(1): gives fault Bug, wanted 1\n', 'cost 1\nfails f(1): gives 0, wanted 1\nprogram\n',
    'refused other.py line 1: Syntax\n', 'refused sub.py line 1: Other\n', 'refused sub.py line 9: Syntax\n',
    'refused rules.eml line 1: Block\n', 'refused value 2: Type\n',
]
# The submission, the printed program, the lines with edits, and what is shown.
CORRECTIONS = [
    ('# a remark\n\ndef f( x ):\n  return (5 +   # the start\n     2*x)       # and more\n',
     'def f(x):\n    return 5 + 3 * x\n', [4],
     ['  # a remark', '', '  def f( x ):', '    return (5 +   # the start', '-      2*x)       # and more',
      '+      3*x)       # and more']),
    ('def f(x):\r\n    if x<1: return(x)\r\n    return "it\'s"\t# text\r\n',
     "def f(x):\n    if x >= 1:\n        return -x\n    return 'a'\n", [2, 3],
     ['  def f(x):', '-     if x<1: return(x)', '+     if x>=1: return(-x)', '-     return "it\'s"    # text',
      "+     return 'a'    # text"]),
    ('\ufeffdef f(x):\n    return(x+1)*2 if(x)else 0\n', 'def f(x):\n    return x if x + 1 else 0\n', [2],
     ['  def f(x):', '-     return(x+1)*2 if(x)else 0', '+     return x if(x + 1)else 0']),
    ('def f(x):\n    return x-1+x\n', 'def f(x):\n    return (x - 1) * x\n', [2],
     ['  def f(x):', '-     return x-1+x', '+     return (x-1)*x']),
    ('def f(x):\n    y = [1,\n         2]  # two\n    return y[x]\n', 'def f(x):\n    y = [1]\n    return y[x]\n', [2],
     ['  def f(x):', '-     y = [1,', '-          2]  # two', '+     y = [1]  # two', '      return y[x]']),
    ('def f(x):\n    return x\n', 'def f(x):\n    x = 1\n    return x\n', [2],
     ['  def f(x):', '      x = 1', '      return x']),
    ('def f(x):\n    return x\n', 'def f(x):\n    return 1\n', [1], ['  def f(x):', '      return 1']),
    ('def f(x):\n    while x: x = 1\n    return x\n', 'def f(x):\n    while x:\n        x = 1\n        return 2\n', [3],
     ['  def f(x):', '      while x:', '          x = 1', '          return 2']),
]


def check_answers():
    for output, says in ANSWERS:
        told = ' '.join(command.explained(WORDS, output))
        check(says in told, repr(output), 'is told as', told)
    for submission, printed, lines, shown in CORRECTIONS:
        pathlib.Path('sub.py').write_bytes(submission.encode())
        edits = ''.join('line %d [r, 1]: m\n' % line for line in lines)
        told = command.explained(WORDS, 'cost 1\nfails f(1): gives 0, wanted 1\n%sprogram\n%s' % (edits, printed))
        check(told[-len(shown):] == shown and told[-len(shown) - 1] == '', repr(submission), 'is shown as', told)
    return '%d answers' % (len(ANSWERS) + len(CORRECTIONS))


def check_use():
    for output in NO_ANSWERS:
        check(is_trouble(WORDS, output), repr(output), 'is taken for an answer')
    for words in ([], WORDS[1:], WORDS + ['more'], ['run', *WORDS[1:]], WORDS[:6] + ['0'], WORDS[:6] + ['200001'],
                  [*WORDS[:3], 'missing.py', *WORDS[4:]], [*WORDS[:1], '.', *WORDS[2:]]):
        check(is_trouble(words, 'correct\n'), words, 'are taken')
    for words, output, status in ((WORDS, b'correct\n', 0), (WORDS, b'\xff', 2), (WORDS[:6], b'correct\n', 2)):
        run = subprocess.run([sys.executable, TOP / 'tools' / 'explain', *words], input=output, capture_output=True)
        check(run.returncode == status, words, 'end with', run.returncode)
        check(run.stderr.count(b'\n') == (status == 2), words, 'give the errors', run.stderr)
        check(bool(run.stdout) == (status == 0), words, 'give', run.stdout)
    return '%d errors of use' % (len(NO_ANSWERS) + 8)


def is_trouble(words, output):
    try:
        command.explained(words, output)
    except command.Trouble as trouble:
        return '\n' not in str(trouble)
    return False


def main():
    sys.setrecursionlimit(command.DEEPEST)
    told = [check_table(), check_examples(), check_documents()]
    with tempfile.TemporaryDirectory() as folder:
        os.chdir(folder)
        for name, text in (('bounds.txt', bounds_of(['x'])), ('reference.py', b'def f(x):\n    return x\n'),
                           ('sub.py', b'def f(x):\n    return x\n'), ('rules.eml', b'')):
            pathlib.Path(name).write_bytes(text)
        told += [check_use(), check_answers()]
        os.chdir(TOP)
    if os.environ.get('MODEL'):
        told.append(check_model(os.environ['MODEL']))
    print(', '.join(told))
    print('\n'.join(wrong) if wrong else 'nothing is wrong')
    sys.exit(1 if wrong else 0)


main()
