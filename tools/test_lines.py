#!/usr/bin/env python3
"""Checks the sizes that CONTRIBUTING.md states, and the layout, over the code, the definitions and the proofs of crates/.

A line has at most 160 columns, an import (`use`, `ghost use`) at most 200, a file at most 600 lines, and the body of a
function at most 40 lines, where the rows of a table, a `const` slice inside a test, don't count. A column is a character.
An attribute may be longer: `rt fmt` keeps it on one line. Each file stands as `rt fmt` writes it.

usage: tools/test_lines.py
Ends with status 1 if one is larger, or is in another layout.
"""
import glob
import os
import re
import shutil
import subprocess
import sys

from common import TOP, text_of

COLUMNS = 160
IMPORT_COLUMNS = 200
FILE_LINES = 600
FUNCTION_LINES = 40
IMPORT = re.compile(r" *(?:pub )?(?:ghost )?(?:pub )?use ")
ATTRIBUTE = re.compile(r" *#!?\[")
# A function, from its name; its body ends at the brace under it.
FUNCTION = re.compile(r"( *)(?:pub(?:\([\w: ]+\))? )?(?:const )?fn (\w+)")
CLAUSE = re.compile(r" *(?:ensures|requires|ghost|decreases)\b")
TABLE = re.compile(r" *const \w+: .*= &?\[$")


def long_lines(lines):
    """Each line with too many columns, and how many it has."""
    for number, line in enumerate(lines, 1):
        most = IMPORT_COLUMNS if IMPORT.match(line) else COLUMNS
        if len(line) > most and not ATTRIBUTE.match(line):
            yield number, f"{len(line)} columns, at most {most}"


def body_of(lines, first, indent):
    """The lines between the braces of the function that begins at `first`: the first of them, and the one behind the last."""
    begins = None
    for at in range(first, len(lines)):
        line = lines[at]
        if begins is None and (line == indent + "{" or line.endswith(" {") and not CLAUSE.match(line)):
            begins = at + 1
        elif begins is not None and line.startswith(indent + "}"):
            return begins, at
        elif begins is None and (line.endswith((";", "{}")) or at > first and FUNCTION.match(line)):
            break
    return first, first


def table_lines(lines):
    """How many lines of a function are rows of its tables."""
    rows, close = 0, None
    for line in lines:
        if close is None and TABLE.match(line):
            close = line[:len(line) - len(line.lstrip(" "))] + "];"
        elif line == close:
            close = None
        elif close is not None:
            rows += 1
    return rows


def long_functions(lines):
    """Each function with too many lines, and how many it has."""
    for first, line in enumerate(lines):
        match = FUNCTION.match(line)
        if match:
            begins, ends = body_of(lines, first, match[1])
            count = ends - begins - table_lines(lines[begins:ends])
            if count > FUNCTION_LINES:
                yield first + 1, f"`{match[2]}` has {count} lines, at most {FUNCTION_LINES}"


def faults(path):
    """Where a file is larger than CONTRIBUTING.md allows."""
    lines = text_of(path).splitlines()
    yield from long_lines(lines)
    if path.endswith(".rt"):
        yield from long_functions(lines)
    if len(lines) > FILE_LINES:
        yield len(lines), f"{len(lines)} lines, at most {FILE_LINES}"


def other_layouts(paths):
    """The lines that the formatter, which stands beside `rt`, prints of files that it would change, or why it tells nothing."""
    formatter = os.path.join(os.path.dirname(os.path.realpath(shutil.which("rt"))), "rattle")
    done = subprocess.run([formatter, "fmt", "--check", *paths], capture_output=True, text=True)
    said = (done.stdout + done.stderr).replace(TOP + os.sep, "").splitlines()
    return (said or [f"{formatter} ended with status {done.returncode}"]) if done.returncode else []


def main():
    paths = [path for part in ("src/**/*.rt", "specs/**/*.antt", "proofs/**/*.antt")
             for path in glob.glob(os.path.join(TOP, "crates/*", part), recursive=True)]
    found = [(os.path.relpath(path, TOP), number, what) for path in sorted(paths) for number, what in faults(path)]
    told = [f"{path}:{number}: {what}" for path, number, what in found] + other_layouts(paths)
    for line in told:
        print(line, file=sys.stderr)
    print(f"{len(paths)} files of code, definitions and proofs were measured, {len(told)} faults")
    return 1 if told else 0


if __name__ == "__main__":
    sys.exit(main())
