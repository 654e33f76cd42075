#!/usr/bin/env python3
"""Draws docs/crates.svg, which crate rests on which, from crates.txt; and docs/bytes.svg, through which calls the bytes of a
font go, from the file to OUT. A call that the code doesn't have is refused.

usage: tools/make_diagrams.py [--check]    with --check nothing is written, and the status is 1 if another picture would be
"""
import glob
import os
import re
import sys
from xml.sax.saxutils import escape

from common import TOP, is_of_tests, needs, put, say, text_of

WIDTH, HEIGHT, GAP, RISE, EDGE = 150, 46, 24, 52, 20
STYLE = (
    "text{font:13px sans-serif;text-anchor:middle}.small{font-size:11px;fill:#555}"
    "rect{fill:#f4f6fa;stroke:#456;rx:6}path{fill:none;stroke:#888}"
)
ABOUT = {
    "t1_tiny": "a font for tests", "t1_grammar": "grammars", "t1_bytes": "files and ciphers", "t1_char": "charstring tokens",
    "t1_run": "the interpreter", "t1_join": "joins and tables", "t1_text": "the texts of fonts",
    "t1_font": "fonts, read and written", "t1_font_laws": "laws of fonts",
    "t1_jobs": "jobs around documents",
    "t1_algebra": "laws of subsets", "t1_subset": "subset, merge",
    "t1_document": "PostScript documents", "t1_dsc": "documents as one", "t1_classes": "classes of fonts", "t1_cmd": "the engines", "t1_example": "a caller", "t1_c": "the library for C", "t1subset": "the program",
}
# The path of `merge`: what the bytes are, the call that makes the next of it, and that call's crate.
STEPS = [
    ("the files", "read_all", "t1_cmd"), ("bytes in memory", "flatten_vec", "t1_bytes"), ("flat text", "find_cipher", "t1_bytes"),
    ("clear text, cipher", "open_private", "t1_font"), ("clear text, private text", "source_parts", "t1_font"),
    ("a Source, which owns them", "font", "t1_font"), ("Fonts, lent by Sources", "merge_all", "t1_subset"),
    ("states of names, codes, Subrs", "join_first", "t1_join"), ("the joined states", "into_font", "t1_subset"), ("the joined Font", "write", "t1_font"),
    ("the canonical file", "write_text", "t1_cmd"), ("OUT", None, None),
]


def svg(width, height, parts):
    return "\n".join([
        f'<svg xmlns="http://www.w3.org/2000/svg" viewBox="0 0 {width} {height}" width="{width}" height="{height}">',
        f"<style>{STYLE}</style>", *parts, "</svg>", "",
    ])


def box(x, y, name, about, width=WIDTH):
    lines = [f'<rect x="{x}" y="{y}" width="{width}" height="{HEIGHT}"/>', f'<text x="{x + width / 2:g}" y="{y + 20}">{escape(name)}</text>']
    return lines + [f'<text class="small" x="{x + width / 2:g}" y="{y + 36}">{escape(about)}</text>']


def ours():
    """What each crate rests on, of the crates of this repository but for those that have tests alone."""
    all_needs = {crate: deps for crate, deps in needs().items() if not is_of_tests(crate)}
    return {crate: [dep for dep in deps if dep in all_needs] for crate, deps in all_needs.items()}


def reach(below, crate):
    """All crates below one."""
    found = set(below[crate])
    for dep in below[crate]:
        found |= reach(below, dep)
    return found


def direct(below, crate):
    """The crates on which one rests and which it doesn't reach through another."""
    return [dep for dep in below[crate] if not any(dep in reach(below, other) for other in below[crate])]


def layers(below):
    """The crates by the length of the longest way to one that nothing rests on, the lowest first."""
    depth = {}
    for crate in reversed(below):
        depth[crate] = 1 + max((depth[above] for above in below if crate in below[above]), default=-1)
    return [[crate for crate in below if depth[crate] == at] for at in range(max(depth.values()), -1, -1)]


def crates_svg():
    below = ours()
    rows = layers(below)
    width = max(map(len, rows)) * (WIDTH + GAP) - GAP + 2 * EDGE
    height = len(rows) * (HEIGHT + RISE) - RISE + 2 * EDGE
    place = {}
    for at, row in enumerate(rows):
        left = (width - len(row) * (WIDTH + GAP) + GAP) / 2
        for number, crate in enumerate(row):
            place[crate] = round(left + number * (WIDTH + GAP)), height - EDGE - HEIGHT - at * (HEIGHT + RISE)
    lines = []
    for crate in below:
        for dep in direct(below, crate):
            (x, y), (u, v) = place[crate], place[dep]
            lines.append(f'<path d="M{x + WIDTH // 2} {y + HEIGHT}C{x + WIDTH // 2} {y + HEIGHT + 30} {u + WIDTH // 2} {v - 30} {u + WIDTH // 2} {v}"/>')
    boxes = [line for crate in below for line in box(*place[crate], crate, ABOUT[crate])]
    return svg(width, height, lines + boxes)


def bytes_svg():
    width, rise, parts = 460, 34, []
    for at, (what, call, crate) in enumerate(STEPS):
        y = EDGE + at * (28 + rise)
        parts += [f'<rect x="{EDGE}" y="{y}" width="{width - 2 * EDGE}" height="28"/>', f'<text x="{width // 2}" y="{y + 19}">{escape(what)}</text>']
        if call:
            parts.append(f'<path d="M{width // 2 - 130} {y + 28}v{rise}m-5 -8l5 8l5 -8"/>')
            parts.append(f'<text class="small" x="{width // 2}" y="{y + 49}">{crate}::{call}</text>')
    return svg(width, 2 * EDGE + len(STEPS) * (28 + rise) - rise, parts)


def missing():
    """The calls of the path that their crates don't have."""
    for _, call, crate in filter(lambda step: step[1], STEPS):
        code = "".join(map(text_of, glob.glob(os.path.join(TOP, f"crates/{crate}/src/**/*.rt"), recursive=True)))
        if not re.search(rf"\bfn {call}\b", code):
            yield f"{crate} has no {call}"


def main():
    faults = list(missing())
    for name, made in (("crates", crates_svg()), ("bytes", bytes_svg())):
        path = os.path.join(TOP, f"docs/{name}.svg")
        if sys.argv[1:] != ["--check"]:
            put(made.encode(), path)
        elif text_of(path) != made:
            faults.append(f"docs/{name}.svg is stale: run tools/make_diagrams.py")
    for fault in faults:
        say(fault)
    return 1 if faults else 0


if __name__ == "__main__":
    sys.exit(main())
