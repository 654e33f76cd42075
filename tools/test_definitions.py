#!/usr/bin/env python3
"""Checks that docs/DEFINITIONS.md lists every definition of specs/ that the contract of a public function cites, with the comment
that stands over it: that it is what tools/make_definitions.py makes.

usage: tools/test_definitions.py
Ends with status 1 if another page would be made.
"""
import difflib
import sys

from common import say, text_of
from make_definitions import PAGE, cited, page_and_bare


def main():
    made, bare = page_and_bare()
    known = text_of(PAGE)
    if known != made:
        say("\n".join(difflib.unified_diff(known.splitlines(), made.splitlines(), "docs/DEFINITIONS.md", "as it has to be", "", "", 0, "")))
        say("docs/DEFINITIONS.md is stale: run tools/make_definitions.py")
    print(f"{len(cited())} definitions are cited by public contracts, {len(bare)} of them have no comment")
    return int(known != made)


if __name__ == "__main__":
    sys.exit(main())
