#!/usr/bin/env python3
"""Makes docs/DEFINITIONS.md: every definition that the contract of a public function cites, by crate and by the file that holds
it, with the comment that stands over it. Says which of them have none.

usage: tools/make_definitions.py
"""
import glob
import os
import re

from common import TOP, needs, put, say, text_of
from definitions import DEFINED, Definitions, imported

PAGE = os.path.join(TOP, "docs/DEFINITIONS.md")
IMPORT = re.compile(r"ghost use (Rattle\..*);$", re.M)
# A public function, from its name to its body, which is empty where the function is a law.
PUBLIC = re.compile(r"^ *pub fn (\w+)(.*?)^ *\{\}?$", re.M | re.S)
CLAUSES = re.compile(r"\b(?:ensures|requires)\b.*", re.S)
HEAD = """# Definitions

Every definition that a public contract cites, by crate and by the file of `specs/` that holds it, in the order in which they \
stand there. What is said of each is the comment over it, and of each file its first line. Where that names no chapter of the \
standard, the definitions are this project's own, or about texts, lists and maps. `tools/make_definitions.py` makes this page, \
and the gate compares it. [GLOSSARY.md](GLOSSARY.md) has the words.
"""


def imports_of(text):
    """The definitions that a file of code names, by the names that it gives them: what code declares (`specs.declared`) is none."""
    names = {}
    for path, name in [pair for line in IMPORT.findall(text) for pair in imported("", line)]:
        module = DEFINED.match(path)
        if module and name and not module[2].startswith("declared"):
            theirs, _, ours = name.partition(" as ")
            names[ours or theirs] = (*module.groups(), theirs)
    return names


def cited():
    """Each definition that a public contract cites, with one function that cites it."""
    found = {}
    for path in sorted(glob.glob(os.path.join(TOP, "crates/*/src/**/*.rt"), recursive=True)):
        if "/tests" in path:
            continue
        text = text_of(path)
        names = imports_of(text)
        for function, contract in PUBLIC.findall(text):
            words = set(re.findall(r"[\w◌]+", " ".join(CLAUSES.findall(contract))))
            for name in words & names.keys():
                found.setdefault(names[name], f"{os.path.relpath(path, TOP)}: {function}")
    return found


def said(definition):
    """What stands over a definition, as a cell of a table."""
    return definition.says.replace("|", "\\|") or "(no comment stands over it)"


def with_those_before(file, definition):
    """A definition, behind those of which its comment says that it is the same."""
    order = sorted(file.definitions.values(), key=lambda one: one.at)
    at = order.index(definition)
    if at and definition.says.lower().startswith("the same"):
        return with_those_before(file, order[at - 1]) + [definition]
    return [definition]


def page_and_bare():
    """The page, and the definitions without a comment."""
    definitions = Definitions()
    wanted = {definitions.find(*key) for key in cited()} - {None}
    wanted = {each for one in wanted for each in with_those_before(definitions.files[one.key()[:2]], one)}
    lines, bare = [HEAD], [one for one in wanted if not one.says]
    for crate in needs():
        files = {one.module for one in wanted if one.crate == crate}
        lines += [f"## {crate}\n"] if files else []
        for module in sorted(files):
            file = definitions.files[crate, module]
            ones = sorted((one for one in wanted if one.key()[:2] == (crate, module)), key=lambda one: one.at)
            lines += [f"**[{module}](../{ones[0].path()})**: {file.head}\n", "| Definition | Says |", "|---|---|"]
            lines += [f"| `{one.name}` | {said(one)} |" for one in ones]
            lines.append("")
    return "\n".join(lines), bare


def main():
    made, bare = page_and_bare()
    for one in sorted(bare, key=lambda one: one.key()):
        say(f"{one.path()}: {one.name} has no comment")
    put(made.encode(), PAGE)


if __name__ == "__main__":
    main()
