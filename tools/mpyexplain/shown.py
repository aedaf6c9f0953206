"""How lines are shown: their characters in columns, and a mark below a place."""
import textwrap
import unicodedata

COLUMNS = 100           # as many columns of a line are shown
BEFORE = 60             # and as many of them before its mark, where it is longer
MOST_ROWS = 6           # of the rows of one statement
WIDTH = 88              # of paragraphs
KEPT = '\0'             # a space at which no line ends


def shown(row, tab='    '):
    """The characters of a row of bytes, as they are printed."""
    text = row.encode('latin-1').decode('utf-8', 'backslashreplace').replace('\t', tab)
    return ''.join(character if character.isprintable() else escaped(character) for character in text.rstrip('\r'))


def escaped(character):
    return character.encode('unicode-escape').decode('ascii')


def columns(text):
    """How many columns a text takes."""
    return sum(0 if unicodedata.combining(character) else 2 if unicodedata.east_asian_width(character) in 'WF' else 1
               for character in text)


def marked_row(row, start, end):
    """A row, and the line below it with a mark from one place to another; of a long row the part round the mark."""
    front, middle, rest = (shown(part, '<tab>') for part in (row[:start], row[start:end], row[end:]))
    if columns(front + middle + rest) > COLUMNS:
        cut = len(front) > BEFORE
        front = ('.. ' if cut else '') + (front[-BEFORE:] if cut else front)
        room = max(COLUMNS - len(front) - len(middle), 10)
        middle, rest = middle[:COLUMNS], rest[:room] + (' ..' if len(rest) > room else '')
    return front + middle + rest, ' ' * columns(front) + '^' * max(columns(middle), 1)


def numbered(source, first, start=None, end=None):
    """The rows of a statement from its first one to that of the mark, with their numbers."""
    last = source.row_of(start) if start is not None else first
    rows = list(range(first, last + 1))
    width = len(str(last))
    out = []
    for number in rows if len(rows) <= MOST_ROWS else [first, 0, last]:
        if number == 0:
            out.append(' ' * (width + 2) + ' | ..')
        elif number == last and start is not None:
            at = source.starts[number - 1]
            row, mark = marked_row(source.rows[number - 1], start - at, end - at)
            out += ['  %*d | %s' % (width, number, row), ('  %s | %s' % (' ' * width, mark)).rstrip()]
        else:
            out.append(('  %*d | %s' % (width, number, cut(source.rows[number - 1]))).rstrip())
    return out


def cut(row):
    text = shown(row, '<tab>')
    return text if len(text) <= COLUMNS else text[:COLUMNS] + ' ..'


def kept(text):
    """A text that paragraphs don't break."""
    return text.replace(' ', KEPT)


def paragraph(text):
    """The lines of a text: sentences are filled, and lines that begin with four spaces stay as they are."""
    out = []
    for line in text.split('\n'):
        is_code = line.startswith('    ')
        out += [line] if is_code else textwrap.wrap(line, WIDTH, break_long_words=False, break_on_hyphens=False)
    return [line.replace(KEPT, ' ') for line in out]
