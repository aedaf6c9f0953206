#!/usr/bin/env python3
"""Draws the layers of the crates, from `crates.txt`, as `docs/layers.svg`.

    tests/layers.py             writes the picture
    tests/layers.py --check     fails where the picture isn't that of crates.txt

Run it at the top of the repository. A crate's layer is one above the highest crate on which it stands, and its colour
that of its family, which is the comment above it in crates.txt. A line leads up from a crate to one that stands on it,
but not where another crate between them says so already; lines from one crate run together as far as they can. Crates
of tests stand on top, without lines.
"""
import html
import pathlib
import sys

SOURCE, PICTURE = pathlib.Path('crates.txt'), pathlib.Path('docs/layers.svg')
MOST = 5                                    # boxes in a row; a layer with more has several rows
BOX, HIGH = 114, 22                         # the size of a box
SPACE, LINE, GAP = 10, 9, 34                # between boxes, between lines, between rows
LEFT, FOOT = 34, 20                         # left of the boxes, and for a row of the legend
SORTS, SHIFTS = 40, 400                     # how often rows are sorted, and how often they are shifted
COLOURS = ['#1f6fb4', '#2e8b3d', '#8a6d00', '#b3541e', '#b02a52', '#7a3fb0', '#0f8585', '#666666']


def families(text):
    """The families in order, each with its name and its crates, and what each crate stands on."""
    found, uses = [], {}
    for line in filter(None, map(str.strip, text.splitlines())):
        if line.startswith('#'):
            found.append((line.lstrip('# ').rstrip('.'), []))
        else:
            crate, _, libraries = line.partition(':')
            found[-1][1].append(crate)
            uses[crate] = libraries.split()
    below = {crate: [other for other in uses[crate] if other in uses] for crate in uses}
    return [family for family in found if family[1]], below


def all_below(below):
    """What each crate stands on, at any depth."""
    found = {}

    def look(crate):
        if crate not in found:
            found[crate] = set(below[crate]).union(*map(look, below[crate]))
        return found[crate]

    for crate in below:
        look(crate)
    return found


def rows_of(below):
    """The rows from the bottom up, each with the number of its layer and its crates in the order of crates.txt."""
    layers = {}

    def layer(crate):
        if crate not in layers:
            layers[crate] = 1 + max(map(layer, below[crate]), default=0)
        return layers[crate]

    rows = []
    for number in range(1, 1 + max(map(layer, below))):
        crates = [crate for crate in below if layers[crate] == number]
        size = -(-len(crates) // -(-len(crates) // MOST))
        rows += [(number, crates[at:at + size]) for at in range(0, len(crates), size)]
    return rows


def is_box(item):
    """What stands in a row is a crate, which has a box, or a crate with a row, where its line passes through."""
    return isinstance(item, str)


def wide(item):
    return BOX + SPACE if is_box(item) else LINE


def weight(item):
    return 1 if is_box(item) else 4


class Layout:
    """What stands in the rows, and how it is linked: `up` has what each item leads to in the next row, `down` the
    opposite."""

    def __init__(self, below):
        self.layers, crates = zip(*rows_of(below))
        self.rows = [list(row) for row in crates]
        self.row = {crate: at for at, row in enumerate(crates) for crate in row}
        self.up, self.down = {}, {}
        deep = all_below(below)
        for upper in below:
            for lower in below[upper]:
                if not any(lower in deep[other] for other in below[upper]):
                    self.draw(lower, upper)

    def draw(self, lower, upper):
        """Adds the line from a crate up to another, through the rows between them."""
        here = lower
        for at in range(self.row[lower] + 1, self.row[upper] + 1):
            there = upper if at == self.row[upper] else (lower, at)
            if there not in self.rows[at]:
                self.rows[at].append(there)
            if there not in self.up.setdefault(here, []):
                self.up[here].append(there)
                self.down.setdefault(there, []).append(here)
            here = there

    def linked(self, item):
        return self.down.get(item, []) + self.up.get(item, [])

    def crossings(self, at):
        """How many lines cross between a row and the next."""
        place = {item: number for number, item in enumerate(self.rows[at + 1])}
        seen, count = [], 0
        for item in self.rows[at]:
            ends = [place[upper] for upper in self.up.get(item, [])]
            count += sum(1 for end in ends for other in seen if other > end)
            seen += ends
        return count

    def sort(self):
        """Sorts the rows so that few lines cross."""
        best = None
        for turn in range(SORTS):
            for at in range(1, len(self.rows)) if turn % 2 == 0 else range(len(self.rows) - 2, -1, -1):
                self.sort_row(at, at - 1 if turn % 2 == 0 else at + 1)
            for at in range(len(self.rows)):
                self.exchange(at)
            count = sum(map(self.crossings, range(len(self.rows) - 1)))
            if best is None or count < best[0]:
                best = count, [list(row) for row in self.rows]
        self.rows = best[1]

    def sort_row(self, at, other):
        """Sorts a row by where the items stand to which it is linked in a row beside it."""
        place = {item: (number + 0.5) / len(row) for row in (self.rows[at], self.rows[other])
                 for number, item in enumerate(row)}
        links = self.down if other < at else self.up
        self.rows[at].sort(key=lambda item: mean([place[end] for end in links.get(item, [item])]))

    def exchange(self, at):
        """Exchanges neighbours in a row where fewer lines cross by it."""
        row, near = self.rows[at], [other for other in (at - 1, at) if 0 <= other < len(self.rows) - 1]
        for left in range(len(row) - 1):
            before = sum(map(self.crossings, near))
            row[left], row[left + 1] = row[left + 1], row[left]
            if sum(map(self.crossings, near)) >= before:
                row[left], row[left + 1] = row[left + 1], row[left]

    def places(self):
        """Where the middle of each item is, counted from the left: below and above those to which it is linked."""
        most = max(sum(map(wide, row)) for row in self.rows)
        x = {item: place for row in self.rows for item, place in zip(row, spaced(row, [0] * len(row)))}
        for turn in range(SHIFTS):
            for row in self.rows if turn % 2 else self.rows[::-1]:
                x.update(zip(row, spaced(row, [min(max(self.wanted(item, x), 0), most) for item in row])))
        least = min(x[item] - wide(item) / 2 for item in x)
        return {item: LEFT + round(x[item] - least) for item in x}

    def wanted(self, item, x):
        """The mean place of what an item is linked to. Lines count more than boxes, so that they are straight."""
        pulls = {other: weight(item) * weight(other) for other in self.linked(item)}
        return sum(pulls[other] * x[other] for other in pulls) / sum(pulls.values()) if pulls else x[item]


def mean(numbers):
    return sum(numbers) / len(numbers)


def spaced(row, wanted):
    """The places in the order of a row that are nearest to the wanted ones, and at which nothing overlaps."""
    offsets = [sum(map(wide, row[:at])) + wide(item) / 2 for at, item in enumerate(row)]
    blocks = []                             # items side by side: where the first begins, their weight, how many
    for item, want, offset in zip(row, wanted, offsets):
        blocks.append((want - offset, weight(item), 1))
        while len(blocks) > 1 and blocks[-2][0] > blocks[-1][0]:
            (one, some, few), (other, more, many) = blocks[-2:]
            blocks[-2:] = [((one * some + other * more) / (some + more), some + more, few + many)]
    starts = [start for start, _, count in blocks for _ in range(count)]
    return [start + offset for start, offset in zip(starts, offsets)]


class Drawing:
    """The shapes of the picture of a layout. `x` has where items stand, and `colour` what colour crates have."""

    def __init__(self, layout, colour):
        layout.sort()
        self.layout, self.x, self.colour = layout, layout.places(), colour
        self.bottom = 2 * SPACE + HIGH + len(layout.rows) * (HIGH + GAP)
        self.width = max(self.x[item] + wide(item) // 2 for item in self.x) + SPACE

    def y(self, at):
        """Where the boxes of a row begin, counted from the top."""
        return self.bottom - GAP // 2 - HIGH - at * (HIGH + GAP)

    def stripes(self):
        """Behind every second layer a stripe, and at the left of each its number."""
        for number in sorted(set(self.layout.layers)):
            rows = [at for at, layer in enumerate(self.layout.layers) if layer == number]
            low, high = self.y(rows[0]) + HIGH + GAP // 2, self.y(rows[-1]) - GAP // 2
            if number % 2:
                yield '<rect y="%d" width="%d" height="%d" fill="#f3f3f3"/>' % (high, self.width, low - high)
            yield '<text x="12" y="%d" fill="#888888">%d</text>' % ((low + high) // 2 + 4, number)

    def lines(self):
        """From row to row a piece of each line, and through the next row where the line goes on."""
        for lower, uppers in self.layout.up.items():
            crate, at = (lower, self.layout.row[lower]) if is_box(lower) else lower
            low, high = self.y(at), self.y(at + 1) + HIGH
            for upper in uppers:
                start, end, middle = self.x[lower], self.port(lower, upper), (low + high) // 2
                path = 'M%d %dC%d %d %d %d %d %d' % (start, low, start, middle, end, middle, end, high)
                path += '' if is_box(upper) else 'V%d' % (high - HIGH)
                yield '<path d="%s" fill="none" stroke="%s"/>' % (path, self.colour[crate])

    def port(self, lower, upper):
        """Where a line comes to what is above: the lines to one box stand side by side."""
        ends = sorted(self.layout.down[upper], key=self.x.get)
        return self.x[upper] + (2 * ends.index(lower) - len(ends) + 1) * LINE // 2

    def boxes(self):
        for crate, at in self.layout.row.items():
            yield self.box(crate, self.x[crate], self.y(at))

    def box(self, crate, x, y):
        place = 'x="%d" y="%d" width="%d" height="%d" rx="4"' % (x - BOX // 2, y, BOX, HIGH)
        return ('<rect %s fill="#ffffff"/><rect %s fill="%s" fill-opacity="0.15" stroke="%s"/>'
                '<text x="%d" y="%d" text-anchor="middle">%s</text>'
                % (place, place, self.colour[crate], self.colour[crate], x, y + 15, crate))

    def legend(self, groups):
        """The names of the families, in two columns."""
        for at, (name, crates) in enumerate(groups):
            x, y = LEFT + at % 2 * (self.width // 2), self.bottom + FOOT // 2 + at // 2 * FOOT
            yield ('<rect x="%d" y="%d" width="14" height="12" rx="2" fill="%s" fill-opacity="0.15" stroke="%s"/>'
                   '<text x="%d" y="%d">%s</text>'
                   % (x, y, self.colour[crates[0]], self.colour[crates[0]], x + 22, y + 10, html.escape(name)))


def picture(text):
    """The picture of what crates.txt says."""
    groups, below = families(text)
    colour = {crate: COLOURS[at % len(COLOURS)] for at, (_, crates) in enumerate(groups) for crate in crates}
    tests = [crate for crate in below if crate.endswith('_tests')]
    drawing = Drawing(Layout({crate: below[crate] for crate in below if crate not in tests}), colour)
    shapes = [*drawing.stripes(), *drawing.lines(), *drawing.boxes()]
    shapes += [drawing.box(crate, LEFT + at * (BOX + SPACE) + BOX // 2, SPACE) for at, crate in enumerate(tests)]
    shapes += drawing.legend(groups)
    width, height = drawing.width, drawing.bottom + (1 + (len(groups) + 1) // 2) * FOOT
    return '\n'.join(['<svg xmlns="http://www.w3.org/2000/svg" width="%d" height="%d" viewBox="0 0 %d %d"'
                      % (width, height, width, height),
                      '     font-family="Helvetica, Arial, sans-serif" font-size="12">',
                      '<rect width="%d" height="%d" fill="#ffffff"/>' % (width, height), *shapes, '</svg>', ''])


def main():
    drawn = picture(SOURCE.read_text(encoding='utf-8'))
    if sys.argv[1:] != ['--check']:
        PICTURE.write_text(drawn, encoding='utf-8')
    elif not PICTURE.is_file() or PICTURE.read_text(encoding='utf-8') != drawn:
        sys.exit('%s is not the picture of %s: draw it by tests/layers.py' % (PICTURE, SOURCE))
    else:
        print('%s is the picture of %s' % (PICTURE, SOURCE))


main()
