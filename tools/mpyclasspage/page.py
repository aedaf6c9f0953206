"""The page: what is counted, and the entries with their submissions."""
from collections import Counter
from html import escape

from mpyexplain import texts

from .style import SCRIPT, STYLE

# By the number of the status, and the order in which they are shown.
LABELS = ['correct', 'corrected', 'without correction', 'spent', 'refused', 'unread']
CLASSES = ['correct', 'corrected', 'none', 'spent', 'refused', 'unread']
ORDER = [0, 1, 2, 4, 3, 5]
MOST_MESSAGES = 5           # of one rule, before the others are folded


def page(entries):
    return '\n'.join([
        '<!DOCTYPE html>',
        '<html lang="en">',
        '<meta charset="utf-8">',
        '<meta name="viewport" content="width=device-width">',
        '<meta http-equiv="Content-Security-Policy" '
        'content="default-src \'none\'; style-src \'unsafe-inline\'; script-src \'unsafe-inline\'">',
        '<title>A class of %d submissions</title>' % len(entries),
        '<style>%s</style>' % STYLE,
        '<h1>A class of %s</h1>' % number(len(entries), 'submission'),
        bar(entries),
        corrections(entries),
        refusals(entries),
        table(entries),
        '<script>%s</script>' % SCRIPT,
        '</html>',
        ''])


def number(count, what):
    return '%d %s%s' % (count, what, '' if count == 1 else 's')


def bar(entries):
    counts = Counter(entry.status for entry in entries)
    parts = ['<div class="part %s" style="flex-grow:%d" title="%d %s">%d</div>'
             % (CLASSES[status], counts[status], counts[status], LABELS[status], counts[status])
             for status in ORDER if counts[status]]
    keys = ['<span class="key"><span class="dot %s"></span>%d %s</span>' % (CLASSES[status], counts[status], LABELS[status])
            for status in ORDER]
    return '<div class="bar">%s</div>\n<p class="keys">%s</p>' % (''.join(parts), '\n'.join(keys))


# What is counted over the class


def corrections(entries):
    """The rules that corrections are by, with the number of their students, the most frequent first."""
    rules = {}
    for entry in entries:
        for edit in entry.answer.edits if entry.answer else []:
            files, messages = rules.setdefault(edit.rule, (set(), {}))
            files.add(entry.file)
            messages.setdefault(edit.message, set()).add(entry.file)
    if not rules:
        return ''
    rows = []
    for rule, (files, messages) in sorted(rules.items(), key=lambda item: (-len(item[1][0]), item[0])):
        by_number = sorted(messages.items(), key=lambda item: (-len(item[1]), item[0]))
        shown = ['<li>%s%s</li>' % (escape(message), of_students(students, len(by_number)))
                 for message, students in by_number]
        rows.append('<tr><td class="count">%d</td><td><code>%s</code></td><td>%s</td><td>%s</td></tr>'
                    % (len(files), escape(rule), folded(shown), links(files)))
    return section('What was corrected', ['students', 'rule', 'message', 'submissions'], rows)


def folded(items):
    text = '<ul>%s</ul>' % ''.join(items[:MOST_MESSAGES])
    rest = items[MOST_MESSAGES:]
    return text + ('<details><summary>%d more</summary><ul>%s</ul></details>' % (len(rest), ''.join(rest)) if rest else '')


def of_students(files, kinds):
    return ' <span class="of">(%s)</span>' % number(len(files), 'student') if kinds > 1 else ''


def refusals(entries):
    """The causes of refusals, with what the student may do; and the teacher's own files."""
    own, others = {}, {}
    for entry in entries:
        if entry.cause and entry.is_own:
            own.setdefault(entry.cause, []).append(entry)
        elif entry.cause:
            others.setdefault((entry.answer.parts['file'], entry.answer.parts['line'], entry.cause), []).append(entry)
    rows = ['<tr><td class="count">%d</td><td class="cause">%s</td><td>%s</td><td>%s</td></tr>'
            % (len(found), escape(cause), instead(cause, found), links(entry.file for entry in found))
            for cause, found in sorted(own.items(), key=lambda item: (-len(item[1]), item[0]))]
    rows += ['<tr><td class="count">%d</td><td class="cause">%s</td><td>%s</td><td>%s</td></tr>'
             % (len(found), escape(cause), escape('%s is refused at line %s: that is the teacher\'s matter' % (file, line)),
                links(entry.file for entry in found))
             for (file, line, cause), found in sorted(others.items())]
    return section('What was refused', ['students', 'cause', 'what it means, and what to write', 'submissions'],
                   rows) if rows else ''


def instead(cause, found):
    """What the cause means, and what these students may write instead."""
    parts = ['<p>%s</p>' % escape(texts.CAUSES[cause])] if cause in texts.CAUSES else []
    said = Counter(advice(entry) for entry in found)
    parts += ['<pre>%s</pre>%s' % (escape(text), '<span class="of">(%s)</span>' % number(count, 'student')
                                   if count > 1 else '')
              for text, count in said.most_common() if text]
    return ''.join(parts)


def advice(entry):
    """The part of what is told to the student that says what to write."""
    parts = '\n'.join(entry.told).split('\n\n')
    meaning = ' '.join(texts.CAUSES.get(entry.cause, '').split())
    flat = [' '.join(part.split()) for part in parts]
    if meaning not in flat:
        return ''
    first = ' '.join(texts.FIRST.split())
    behind = [part for part, line in zip(parts, flat) if flat.index(line) > flat.index(meaning) and line != first]
    return '\n\n'.join(behind)


def links(files):
    return ', '.join('<a href="#%s">%s</a>' % (anchor(file), escape(file)) for file in sorted(files))


def anchor(file):
    return 'of-' + ''.join(c if c.isascii() and c.isalnum() else '-%x-' % ord(c) for c in file)


def section(title, heads, rows):
    return '<h2>%s</h2>\n<table class="counted"><thead><tr>%s</tr></thead>\n<tbody>%s</tbody></table>' % (
        escape(title), ''.join('<th>%s</th>' % escape(head) for head in heads), '\n'.join(rows))


# The entries


def table(entries):
    boxes = ''.join('<label><input type="checkbox" checked value="%s"> %s</label>' % (CLASSES[status], LABELS[status])
                    for status in ORDER)
    heads = ''.join('<th><button data-key="%s">%s</button></th>' % key for key in
                    [('file', 'submission'), ('status', 'answer'), ('cost', 'cost'), ('line', 'first line')])
    rows = '\n'.join(rows_of(place, entry) for place, entry in enumerate(entries))
    return ('<h2>The submissions</h2>\n<p class="filter"><input id="find" type="search" '
            'placeholder="part of a name or a report"> %s <span id="shown"></span></p>\n'
            '<table id="entries"><thead><tr>%s</tr></thead>\n%s</table>' % (boxes, heads, rows))


def rows_of(place, entry):
    """The two rows of an entry, in a body of their own: what is told, and what it is told of."""
    first = entry.report.split('\n')[0]
    return ('<tbody id="%s" class="entry" data-kind="%s" data-place="%d" data-file="%s" data-status="%d" data-cost="%d">'
            '<tr class="head" tabindex="0"><td>%s</td><td><span class="dot %s"></span>%s</td><td>%s</td><td>%s</td></tr>'
            '<tr class="body"><td colspan="4"><div class="beside">%s%s</div>%s</td></tr></tbody>' % (
                anchor(entry.file), CLASSES[entry.status], place, escape(entry.file), entry.status, entry.cost,
                escape(entry.file), CLASSES[entry.status], LABELS[entry.status], entry.cost or '', escape(first),
                submission(entry), report(entry), student(entry)))


def marked(entry):
    """The lines of the submission that the report names."""
    if not entry.answer:
        return set()
    if entry.cause:
        return {int(entry.answer.parts['line'])} if entry.is_own else set()
    return {edit.line for edit in entry.answer.edits}


def submission(entry):
    if entry.rows is None:
        return '<div><h3>%s</h3><p>It could not be read.</p></div>' % escape(entry.file)
    rows = entry.rows[:-1] if entry.rows and entry.rows[-1] == '' else entry.rows
    lines = ['<span class="%s"><i>%d</i>%s</span>' % ('row marked' if line in marked(entry) else 'row', line, escape(row))
             for line, row in enumerate(rows, 1)]
    return '<div><h3>%s</h3><pre class="source">%s</pre></div>' % (escape(entry.file), ''.join(lines))


def report(entry):
    text = entry.report or 'The file could not be read.'
    return '<div><h3>report</h3><pre>%s</pre></div>' % escape(text)


def student(entry):
    if not entry.told:
        return ''
    return '<details><summary>for the student</summary><pre>%s</pre></details>' % escape('\n'.join(entry.told))
