#!/usr/bin/env python3
"""Checks what `--explain` says: the table of crates/t1subset/src/advice.rt has the rows of the man page and no others, and behind
each refusal that files can bring about the program prints the row of that refusal.

usage: tools/test_explained.py [PROGRAM]    by default the built program
"""
import os
import re
import subprocess
import sys
import tempfile

import refused_rows
from common import BUILDS, TOP, page_rows, put, say, text_of

TABLE = os.path.join(TOP, "crates/t1subset/src/advice.rt")


def table():
    """The texts of the table."""
    found = re.findall(r'^const \w+: &str = "\\\n(.*?)";$', text_of(TABLE), re.M | re.S)
    return [re.sub(r"\\\n *", "", text) for text in found]


def row_of(line, rows):
    """What the man page says of a refusal that is printed as this line."""
    for text, about in rows.items():
        shape = re.escape(text).replace("NAME", r"\S+").replace("PART", ".+").replace("WHAT", ".+").replace("N", r"\d+", text.split().count("N"))
        if re.fullmatch(shape, line):
            return about
    return None


def said(program, words, files):
    """What the program says of these arguments over these files."""
    with tempfile.TemporaryDirectory() as folder:
        for name, text in files.items():
            put(text, folder, name)
        done = subprocess.run([program, "--explain", *words], cwd=folder, stdin=subprocess.DEVNULL, capture_output=True, timeout=120)
    return done.returncode, done.stderr.decode().splitlines()


def fault(program, words, files, rows):
    """What is wrong with how a refusal is explained, or None."""
    status, lines = said(program, words, files)
    if status != 1 or len(lines) != 3 or not lines[0].startswith("refused: "):
        return f"status {status}, {lines}"
    about = row_of(lines[0].removeprefix("refused: ").replace(", used by ", " used by "), rows)
    if lines[2] != about:
        return f"{lines[0]}: {lines[2]!r}, and not {about!r}"
    file = lines[1].removeprefix("file: ")
    if lines[1] != "files: all of them together" and file not in words:
        return f"{lines[1]!r}"
    return None


def main():
    program = os.path.abspath(sys.argv[1] if len(sys.argv) > 1 else BUILDS[0])
    rows = page_rows()
    known = table()
    if sorted(known) != sorted(set(rows.values())):
        sys.exit(f"{TABLE} and the man page differ: {sorted(set(known) ^ set(rows.values()))}")
    count = 0
    for name, words, files in refused_rows.rows():
        wrong = fault(program, words, files, rows)
        if wrong:
            sys.exit(f"{name}, {words}: {wrong}")
        count += 1
    say(f"explained: {len(known)} rows as in the man page, behind {count} refusals")


if __name__ == "__main__":
    main()
