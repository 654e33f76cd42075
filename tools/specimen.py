#!/usr/bin/env python3
"""Draws glyphs of a font as SVG, or of two fonts side by side, from what `t1subset show` prints of them.

usage: tools/specimen.py [OPTION...] FONT [OTHER] [-- NAME...] > specimen.svg
Without a NAME it draws all glyphs. A page has at most 400 of them: standard output gets the first page, or with `--page N`
another, and `--pages STEM` writes all of them to STEM-1.svg, STEM-2.svg and so on. Units are those of the FontMatrix, a
thousandth of an em. A glyph that can't be drawn is a crossed box with its fault, and one that has no room on the page is
drawn smaller. Of two fonts the glyphs that differ are marked, and their number is told; `--differing` draws these alone.

The program that `--program` or the variable T1SUBSET names is asked; where neither names one, libt1subset, if python/ can
load it, or else bin/t1subset.
"""
import argparse
import math
import os
import signal
import sys
from collections import namedtuple
from xml.sax.saxutils import escape

import drawn
from common import Failed, put, say
from shapes import Box, differences, read_font, shapes_of, short

# A column's width, what is left free before a glyph and on both sides of it, the height of letters, the width of one, and
# the gap between marked cells, in 1/1000 em.
WIDTH, MARGIN, SIDES, LETTERS, LETTER, GAP = 1200, 100, 150, 90, 56, 20
# The least that stands above and below the base line, and the height from which on a glyph is drawn smaller.
ABOVE, BELOW, TALL = 900, 300, 6000
PAGE = 400
NOTHING = Box(0, 0, 500, 700)
STYLE = (
    ".rule{fill:none;stroke:#999;stroke-width:6}.differs{fill:#fdd}.told{fill:#b00}"
    f"text{{font-family:monospace;font-size:{LETTERS}px}}"
)
TOLD = ' class="told"'

# A name as it is printed, its shape in each font, None where a font lacks it, and in what the shapes differ.
Cell = namedtuple("Cell", "name shapes differences")


def printable(name):
    """A name as `list` prints it."""
    return "".join(chr(byte) if 33 <= byte <= 126 and byte != 92 else f"\\x{byte:02x}" for byte in name)


def cells_of(words, fonts, names):
    """The cells of these names."""
    of_fonts = [shapes_of(words, font, names) for font in fonts]
    for name in names:
        shapes = [shapes.get(name) for shapes in of_fonts]
        yield Cell(printable(name), shapes, differences(*shapes) if len(fonts) == 2 else [])


def wrapped(text, room):
    """The lines of a text, in which none is wider than the room."""
    letters = max(1, int(room / LETTER))
    return [text[at:at + letters] for at in range(0, len(text), letters)]


def text_svg(lines, x, y, kind=""):
    """Lines one below the other."""
    for at, line in enumerate(lines):
        yield f'<text x="{x}" y="{short(y + at * MARGIN)}"{kind}>{escape(line)}</text>'


class Place:
    """A cell on a page: its columns, how large each of its shapes is drawn, and the lines below each."""

    def __init__(self, cell, columns):
        self.cell = cell
        self.boxes = [shape.box if shape else NOTHING for shape in cell.shapes]
        wide = max(box.right - box.left for box in self.boxes)
        self.span = max(1, min(columns // len(self.boxes), math.ceil((wide + SIDES) / WIDTH)))
        self.columns = self.span * len(self.boxes)
        room = self.span * WIDTH - SIDES
        self.scales = [min(1, room / max(1, box.right - box.left), TALL / max(1, box.top - box.bottom)) for box in self.boxes]
        self.above = max(box.top * scale for box, scale in zip(self.boxes, self.scales))
        self.below = max(-box.bottom * scale for box, scale in zip(self.boxes, self.scales))
        # The name and the differences stand below the whole cell, and what is told of a shape below that, on its side.
        self.name = wrapped(cell.name, self.columns * WIDTH - SIDES)
        self.differences = wrapped(", ".join(cell.differences), self.columns * WIDTH - SIDES)
        self.told = [[line for text in texts for line in wrapped(text, room)] for texts in self.texts()]
        self.lines = len(self.name) + len(self.differences) + max(map(len, self.told))

    def texts(self):
        """What is told of each shape."""
        for shape, scale in zip(self.cell.shapes, self.scales):
            fault = [shape.fault] if shape and shape.fault else []
            yield fault + ([f"drawn at {100 * scale:.3g} %"] if scale < 1 else [])

    def svg(self, x, base, row):
        """The cell, from its left side and its row's base line."""
        yield f'<g class="glyph"><title>{escape(self.cell.name)}</title>'
        if self.cell.differences:
            wide, top = self.columns * WIDTH - GAP, base - row.above - MARGIN / 2
            yield f'<rect x="{x + GAP // 2}" y="{short(top)}" width="{wide}" height="{short(row.height - GAP)}" class="differs"/>'
        y = base + row.below + MARGIN
        yield from text_svg(self.name, x + MARGIN, y)
        y += MARGIN * len(self.name)
        yield from text_svg(self.differences, x + MARGIN, y, TOLD)
        y += MARGIN * len(self.differences)
        for at, (shape, box, scale) in enumerate(zip(self.cell.shapes, self.boxes, self.scales)):
            left = x + at * self.span * WIDTH + MARGIN
            yield from text_svg(self.told[at], left, y, TOLD)
            if shape:
                # What hangs over the margin to the left moves the glyph to the right.
                origin = left + max(0, GAP - MARGIN - box.left * scale)
                yield f'<g transform="translate({short(origin)} {short(base)}){"" if scale == 1 else f" scale({scale:.6g})"}">'
                yield from shape_svg(shape)
                yield "</g>"
        yield "</g>"


def shape_svg(shape):
    """A shape at the origin: its base line, as long as it is wide, and what it paints; or a crossed box."""
    if shape.fault:
        yield '<path d="M0 0H500V-700H0ZL500 -700M0 -700L500 0" class="rule"/>'
        return
    x, y = short(shape.width[0]), short(-shape.width[1])
    yield f'<path d="M0 0L{x} {y}M0 0v-{LETTERS}M{x} {y}v-{LETTERS}" class="rule"/>'
    a, b, c, d, e, f = shape.matrix
    matrix = " ".join(f"{value + 0:.9g}" for value in (a, -b, c, -d, e, -f))
    for part in shape.parts:
        if part.path:
            moved = f" translate({' '.join(map(short, part.offset))})" if any(part.offset) else ""
            yield f'<path d="{part.path}" transform="matrix({matrix}){moved}"/>'


class Row:
    """Places that stand side by side, and how much room they take."""

    def __init__(self):
        self.places, self.columns, self.above, self.below, self.lines = [], 0, ABOVE, BELOW, 1

    def add(self, place):
        self.places.append(place)
        self.columns += place.columns
        self.above, self.below = max(self.above, place.above), max(self.below, place.below)
        self.lines = max(self.lines, place.lines)

    @property
    def height(self):
        return self.above + self.below + (self.lines + 2) * MARGIN

    def svg(self, top):
        column = 0
        for place in self.places:
            yield from place.svg(column * WIDTH, top + MARGIN + self.above, self)
            column += place.columns


def rows_of(cells, columns):
    """The rows of a page that is so many columns wide."""
    row = Row()
    for cell in cells:
        place = Place(cell, columns)
        if row.places and row.columns + place.columns > columns:
            yield row
            row = Row()
        row.add(place)
    yield row


def page_svg(cells, columns, head):
    """A page: lines that tell what it is, and its cells."""
    rows = list(rows_of(cells, columns))
    wide = WIDTH * max(1, *(row.columns for row in rows))
    lines = [line for text in head for line in wrapped(text, wide - 2 * MARGIN)]
    top = MARGIN * (len(lines) + 1) if lines else 0
    high = math.ceil(top + sum(row.height for row in rows))
    yield f'<svg xmlns="http://www.w3.org/2000/svg" viewBox="0 0 {wide} {high}" width="{wide // 10}" height="{high // 10}">'
    yield f"<style>{STYLE}</style>"
    yield f'<rect width="{wide}" height="{high}" fill="#fff"/>'
    yield from text_svg(lines, MARGIN, 1.5 * MARGIN)
    for row in rows:
        yield from row.svg(top)
        top += row.height
    yield "</svg>"


def names_of(fonts, asked):
    """The names that are drawn: those that are asked for, or all of the fonts."""
    own = [name for font in fonts for name in font.names]
    missing = [name for name in asked if name not in set(own)]
    if missing:
        raise Failed(f"{', '.join(font.path for font in fonts)}: no glyph {printable(missing[0])}")
    return asked or (own if len(fonts) == 1 else sorted(set(own)))


def compared(words, fonts, names, differing):
    """The cells of two fonts, or those alone that differ; and the lines above them."""
    cells = list(cells_of(words, fonts, names))
    found = [cell for cell in cells if cell.differences]
    told = f"{len(found)} of {len(cells)} glyphs differ"
    say(told)
    left, right = (font.path.encode("ascii", "backslashreplace").decode() for font in fonts)
    return found if differing else cells, [f"left: {left}", f"right: {right}", told]


def split(items, each):
    return [items[at:at + each] for at in range(0, max(1, len(items)), each)]


def positive(text):
    value = int(text)
    if value < 1:
        raise ValueError(text)
    return value


def asked():
    """What the command line asks for."""
    words = argparse.ArgumentParser(
        usage="%(prog)s [OPTION...] FONT [OTHER] [-- NAME...] > specimen.svg", description=__doc__.splitlines()[0]
    )
    words.add_argument("--program", help="asks this program")
    words.add_argument("--columns", type=positive, default=8, metavar="N", help="how wide a page is, by default 8")
    words.add_argument("--page", type=positive, metavar="N", help="the page that is printed, by default the first")
    words.add_argument("--pages", metavar="STEM", help="writes all pages to STEM-1.svg, STEM-2.svg and so on")
    words.add_argument("--differing", action="store_true", help="draws the glyphs alone that differ")
    words.add_argument("fonts", nargs="+", metavar="FONT")
    given = sys.argv[1:]
    behind = given.index("--") if "--" in given else len(given)
    answer = words.parse_args(given[:behind])
    if len(answer.fonts) > 2:
        words.error("more than two fonts; names stand behind --")
    if answer.differing and len(answer.fonts) == 1:
        words.error("--differing wants two fonts")
    if answer.pages and answer.page:
        words.error("--page prints one page, and --pages writes all")
    answer.names = [os.fsencode(name) for name in given[behind + 1:]]
    return answer


def written(text, path):
    """Writes a page to a file, or to standard output where there is no path."""
    try:
        if path:
            put(text.encode("ascii"), path)
        else:
            sys.stdout.write(text)
            sys.stdout.flush()
    except OSError as fault:
        raise Failed(f"{path or 'standard output'}: {fault.strerror}")


def draw(given):
    """Prints the page that is asked for, or writes all pages."""
    words = drawn.asked_of(given.program)
    fonts = [read_font(words, path) for path in given.fonts]
    names, head = names_of(fonts, given.names), []
    if len(fonts) == 2:
        cells, head = compared(words, fonts, names, given.differing)
    pages = split(names if len(fonts) == 1 else cells, PAGE // len(fonts))
    first, last = (1, len(pages)) if given.pages else (given.page or 1, given.page or 1)
    if last > len(pages):
        raise Failed(f"no page {last}: the last is {len(pages)}")
    pages, count = pages[first - 1:last], len(pages)
    if len(fonts) == 1:
        # No other glyph is drawn than those of these pages.
        pages = split(list(cells_of(words, fonts, sum(pages, []))), PAGE)
    for at, page in enumerate(pages, first):
        lines = page_svg(page, given.columns, head + ([f"page {at} of {count}"] if count > 1 else []))
        written("\n".join(lines) + "\n", given.pages and f"{given.pages}-{at}.svg")
    if count > 1 and not (given.page or given.pages):
        say(f"page 1 of {count}: --page N prints another, --pages STEM writes all")


def main():
    # A reader that has seen enough ends the run without a traceback.
    signal.signal(signal.SIGPIPE, signal.SIG_DFL)
    try:
        draw(asked())
    except KeyboardInterrupt:
        sys.exit(130)


if __name__ == "__main__":
    main()
