#!/usr/bin/env python3
"""Checks that a source can't be dropped while its font lives: on a copy, a function that does so is refused as a borrow.

The refusal comes before any proof, so an edit of must-fail can't say this.

usage: tools/test_borrows.py
"""
import os
import re
import subprocess
import sys
import tempfile

from common import below, copy_crates, put, text_of

CRATE = "t1_font"
FILE = "src/source.rt"
WRONG = "    drop(source);\n"
BODY = (
    """
/// The weight of a font whose source is gone.
pub fn weight_without_source(alloc: Global, source: Source) -> u32 {
    let Ok(font) = source.font(alloc) else {
        return 0;
    };
"""
    + WRONG
    + """    font.weight()
}
"""
)


def copy_to(room):
    """Copies the crate and those below it, with the function at the end of the file; returns the number of the wrong line."""
    copy_crates(room, [*below([CRATE]), CRATE])
    path = os.path.join(room, "crates", CRATE, FILE)
    text = text_of(path) + BODY
    put(text.encode(), path)
    return text[: text.index(WRONG)].count("\n") + 1


def main():
    with tempfile.TemporaryDirectory(prefix="borrows-") as room:
        line = copy_to(room)
        done = subprocess.run(["rt", "check"], cwd=os.path.join(room, "crates", CRATE), capture_output=True, text=True, errors="replace")
    told = done.stdout + done.stderr
    errors = set(re.findall(r"^(\S+?):\d+: error\[([\w-]+)\]", told, re.M))
    if done.returncode == 0 or errors != {(f"{FILE}:{line}", "borrow-e0505")}:
        print(told[-2000:], file=sys.stderr)
        sys.exit(f"a source that is dropped before its font is not refused at {FILE}:{line} alone")
    print("a source can't be dropped while a font of it lives")


if __name__ == "__main__":
    main()
