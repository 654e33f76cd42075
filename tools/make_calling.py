#!/usr/bin/env python3
"""Fills the pages for callers. crates/NAME/CALLING.md has a caller with its proof, as they stand in the crate t1_example, and the
contracts of calls, as they stand in the crate. docs/CALLING.md has the lines of crates.txt that a caller's repository needs.

With --check nothing is written, and the status is 1 if a page would be another one.

usage: tools/make_calling.py [--check]
"""
import os
import re
import sys

from common import TOP, below, needs, put, put_between, say, text_of
from make_definitions import imports_of

MAKER = "make_calling.py"
# The crate that tests alone need.
TESTED = "t1_tiny"
EXAMPLE = os.path.join(TOP, "crates/t1_example")
# Of each crate the module and the function of its caller, and the calls whose contracts are quoted: the file of each, and its name.
PAGES = {
    "t1_bytes": ("private_texts", "sealed_and_opened", [("cipher", "seal"), ("cipher", "open"), ("laws", "opens_sealed")]),
    "t1_char": ("spaces", "space", [("spelling", "write"), ("charstring", "new")]),
    "t1_run": ("widths", "width", [("layouts", "lay_out"), ("composed", "draw")]),
    "t1_join": ("listings", "joined_text", [("listing", "read"), ("listing", "join"), ("listing", "write"), ("laws", "reads_what_is_written")]),
    "t1_font": ("spellings", "respelled", [("file", "read"), ("source", "font"), ("writing", "write")]),
    "t1_subset": ("subset_files", "subset_file", [("subsets", "subset"), ("merger", "merge")]),
    "t1_document": ("new_fonts", "with_font", [("documents", "read_document"), ("texts", "put"), ("rewriting", "level")]),
    "t1_cmd": ("merged_files", "both_files", [("mergers", "merge_files"), ("fonts", "check_file")]),
}


def fenced(language, text):
    return [f"```{language}", *text.strip("\n").split("\n"), "```"]


def shown(*path):
    """A file of the example, with its path in the comment of its language."""
    language, comment = ("rust", "//") if path[-1].endswith(".rt") else ("antt", "--")
    text = text_of(EXAMPLE, *path)
    title = text.split("\n")[0]
    lines = text.split("\n")[1:] if title.startswith("//!") else text.split("\n")
    return fenced(language, f"{comment} {'/'.join(path)}\n" + "\n".join(lines).strip("\n"))


def caller(module, function):
    """A module of the example, the definitions of the example that it cites, and its proof."""
    lines = shown("src", module + ".rt")
    named = imports_of(text_of(EXAMPLE, "src", module + ".rt")).values()
    for cited in dict.fromkeys(file for crate, file, _ in named if crate == "t1_example"):
        lines += ["", *shown("specs", cited + ".antt")]
    proof = ("proofs", module, function, "Answers.antt")
    if os.path.exists(os.path.join(EXAMPLE, *proof)):
        return [*lines, "", *shown(*proof)]
    return [*lines, "", "The search proves it, so it has no file in `proofs/`."]


def contract(crate, file, name):
    """What stands in a crate from the first line of a public function to its body."""
    text = text_of(TOP, "crates", crate, "src", file + ".rt")
    found = re.search(rf"^( *)pub fn {name}\b.*?(?=\n\1\{{)", text, re.M | re.S)
    return re.sub(rf"^{found[1]}", "", found[0], flags=re.M)


def lines_of_crates():
    """The lines of crates.txt for the crates that can be called and those below them, without what only tests need."""
    crates, called = needs(), {*PAGES, *below(PAGES)} - {TESTED}
    return [f"    {crate}: {' '.join(it for it in crates[crate] if it != TESTED)}".rstrip() for crate in crates if crate in called]


def first_page():
    """docs/CALLING.md as it has to be."""
    return put_between(text_of(TOP, "docs/CALLING.md"), MAKER, "list of crates", lines_of_crates())


def page(crate):
    """The page of a crate as it has to be."""
    module, function, calls = PAGES[crate]
    text = put_between(text_of(TOP, "crates", crate, "CALLING.md"), MAKER, "caller", caller(module, function))
    return put_between(text, MAKER, "list of contracts", fenced("rust", "\n\n".join(contract(crate, file, name) for file, name in calls)))


def main():
    pages = {f"crates/{crate}/CALLING.md": page(crate) for crate in PAGES}
    pages["docs/CALLING.md"] = first_page()
    stale = [path for path in pages if text_of(TOP, path) != pages[path]]
    if sys.argv[1:] == ["--check"]:
        for path in stale:
            say(f"{path} is stale: run tools/make_calling.py")
        print(f"{len(pages)} pages for callers, {len(stale)} of them stale")
        return int(bool(stale))
    for path in stale:
        put(pages[path].encode(), TOP, path)
    return 0


if __name__ == "__main__":
    sys.exit(main())
