#!/usr/bin/env python3
"""Checks that each test and each wrong body that docs/VECTORS.md names exists, and that each row names a test."""
import glob
import os
import re
import sys

from common import TOP, homes_of_tests, text_of

TEST = re.compile(r"`(\w+)/([\w/]+\.rt)::(\w+)`")
BODY = re.compile(r"`(\w+)/(\w+)`")


def has_test(crate, path, name):
    paths = [os.path.join(TOP, "crates", home, "src", path) for home in homes_of_tests(crate)]
    return any(os.path.exists(path) and re.search(rf"#\[test\]\nfn {name}\(", text_of(path)) for path in paths)


def has_body(crate, name):
    places = (f"tools/must-fail/{crate}", f"tools/wrong-bodies/{crate}", f"tools/wrong-bodies/{crate}/*")
    return any(glob.glob(os.path.join(TOP, place, name + ".edit")) for place in places)


def rows():
    """The rows of the tables, each with its line number."""
    for number, line in enumerate(text_of(TOP, "docs/VECTORS.md").splitlines(), 1):
        # An escaped bar stands inside a cell.
        cells = re.split(r"(?<!\\)\|", line.strip())
        if line.startswith("| ") and cells[1].strip() != "Row":
            yield number, [cell.strip() for cell in cells[1:-1]]


def faults():
    count = 0
    for number, cells in rows():
        if len(cells) != 3 or not TEST.search(cells[1]):
            yield f"line {number}: no row with a test"
            continue
        count += 1
        for crate, path, name in TEST.findall(cells[1]):
            if not has_test(crate, path, name):
                yield f"line {number}: no test {crate}/{path}::{name}"
        for crate, name in BODY.findall(cells[2]):
            if not has_body(crate, name):
                yield f"line {number}: no wrong body {crate}/{name}"
    if count == 0:
        yield "no rows"
    print(f"vectors: {count} rows", file=sys.stderr)


def main():
    wrong = list(faults())
    for fault in wrong:
        print(f"docs/VECTORS.md, {fault}", file=sys.stderr)
    return 1 if wrong else 0


sys.exit(main())
