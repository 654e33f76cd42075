#!/usr/bin/env python3
"""Makes four parts of docs/THEOREM.md: the statements of the theorems as they stand, and the reading list, which is what they need
by name, and nothing else, lowest first, with a column for each statement.

It begins at a statement, and goes from each definition to those that it names. Lemmas are counted and not gone into: they
can't be unfolded, so the statement means the same whatever their proofs are, and the prover has checked them.
With --check nothing is written, and the status is 1 if another page would be. With --imports it prints which files the imports
of the first statement's file reach and the statement doesn't need, and for which names each of them is imported.

usage: tools/make_theorem.py [--check | --imports]
"""
import os
import sys

from common import TOP, needs, put, put_between, say, text_of
from definitions import Definitions

PAGE = os.path.join(TOP, "docs/THEOREM.md")
MAKER = "make_theorem.py"
# Each statement, and what is quoted of its file before it.
STATEMENTS = {
    ("t1_algebra", "Headline", "Headline"): ("ComesToSubset",),
    ("t1_document", "PoolLaws", "Pooled"): (
        "KeepsOwn", "FindsFont", "AllFind", "StartIsFree", "PlacesFind", "KeepsRest", "PooledOthersStay", "OnePooledByKeys", "PooledAgainByKeys",
        "InAnyOrderByKeys",
    ),
    ("t1_cmd", "Cuts", "Rejoined"): ("AllDrawIn", "IsRejoined"),
}
STATEMENT = next(iter(STATEMENTS))
# The chapters of Adobe Type 1 Font Format, version 1.1, or the Technical Note, for which a file stands; the others are this
# project's own choice or no matter of the standard.
CHAPTERS = {
    "t1_bytes": {
        "White": "2", "Segments": "5040", "FlatText": "5040", "Texts": "2, 7, 5040", "Cipher": "7", "Eexec": "7", "Split": "7", "form": "2, 5040",
    },
    "t1_char": {"Commands": "6", "Tokens": "6", "token": "6"},
    "t1_run": {"State": "6, 8", "Rules": "6, 8", "Run": "6, 8", "Standard": "6", "Drawings": "6", "answer": "6, 8"},
    "t1_text": {"Words": "2", "Markers": "2, 5", "Encoding": "2", "Entry": "2, 7", "Subrs": "2, 8", "Glyphs": "2, 6"},
    "t1_font": {"Pieces": "2, 5", "Spelling": "2, 5"},
}


def by_file(found):
    groups = {}
    for one in found:
        groups.setdefault(one.path(), []).append(one)
    return groups


def visit(path, below, done):
    """Puts a file behind those that it needs."""
    for other in sorted(below[path]):
        if other not in done:
            visit(other, below, done)
    if path not in done:
        done.append(path)


def sorted_files(definitions, groups):
    """The files, each behind those that it needs, and the crates as crates.txt has them."""
    below = {path: set() for path in groups}
    for path, ones in groups.items():
        for one in filter(lambda one: not one.is_lemma(), ones):
            below[path].update(other.path() for other in definitions.needs(one) if other.path() in groups and other.path() != path)
    crates = {crate: at for at, crate in enumerate(needs())}
    done = []
    for path in sorted(groups, key=lambda path: (crates[groups[path][0].crate], path)):
        visit(path, below, done)
    return sorted(done, key=lambda path: crates[groups[path][0].crate])


def row(path, ones, needed):
    """The line of a file: its definitions in the order in which they stand, and how many of them each statement needs."""
    ones = sorted((one for one in ones if not one.is_lemma()), key=lambda one: one.at)
    first = ones[0]
    chapters = CHAPTERS.get(first.crate, {}).get(first.module, "")
    names = ", ".join(f"`{one.name}`" for one in ones)
    counts = " | ".join(str(sum(one.key() in keys for one in ones) or "") for keys in needed)
    return f"| [{first.crate}: {os.path.basename(path)}](../{path}) | {chapters} | {sum(len(one.lines) for one in ones)} | {counts} | {names} |"


def summary(definitions, statement):
    """How much is to be read for a statement."""
    found = definitions.closure([definitions.find(*statement)])
    lemmas = [one for one in found if one.is_lemma()]
    found = [one for one in found if not one.is_lemma()]
    return (
        f"- `{statement[2]}`: {len(found)} definitions in {len(by_file(found))} files, {sum(len(one.lines) for one in found):,} lines without their comments; "
        f"{sum(one.kind == 'code' for one in found)} of them are types that code declares. They name {len(lemmas)} lemmas, of "
        f"{sum(len(one.lines) for one in lemmas)} lines, beside these."
    )


def reading_list():
    definitions = Definitions()
    roots = [definitions.find(*statement) for statement in STATEMENTS]
    needed = [{one.key() for one in definitions.closure([root])} for root in roots]
    groups = by_file(one for one in definitions.closure(roots) if not one.is_lemma())
    return [
        *(summary(definitions, statement) for statement in STATEMENTS),
        "",
        f"| File | Standard | Lines | {' | '.join(f'`{name}`' for _, _, name in STATEMENTS)} | Definitions |",
        "|---|---|---|" + "---|" * len(STATEMENTS) + "---|",
        *(row(path, groups[path], needed) for path in sorted_files(definitions, groups)),
    ]


def statement(crate, module, name, before):
    """A statement, and what is quoted before it, as they stand in the file."""
    file = Definitions().files[crate, module]
    quoted = [one.comment + one.lines for one in map(file.definitions.get, (*before, name))]
    return ["```", *"\n\n".join(map("\n".join, quoted)).splitlines(), "```"]


def page():
    """The page as it has to be."""
    text = text_of(PAGE)
    for (crate, module, name), before in STATEMENTS.items():
        text = put_between(text, MAKER, f"statement {name}", statement(crate, module, name, before))
    return put_between(text, MAKER, "list", reading_list())


def show_imports():
    """The files that imports reach from the statement's file, beside those that the list has, and who imports them for what."""
    definitions = Definitions()
    wanted = {one.key()[:2] for one in definitions.closure([definitions.find(*STATEMENT)])}
    needed = {one.key() for one in definitions.closure([definitions.find(*STATEMENT)])}
    seen, waiting, by = set(), [STATEMENT[:2]], {}
    while waiting:
        key = waiting.pop()
        if key in seen:
            continue
        seen.add(key)
        file = definitions.files[key]
        for name, target in file.names.items():
            if target[:2] in definitions.files:
                by.setdefault(target[:2], {}).setdefault(key, []).append(name)
        waiting += [target for target in {*(name[:2] for name in file.names.values()), *file.modules.values()} if target in definitions.files]
    print(f"imports reach {len(seen)} files of specs/, and the statement needs {len(seen & wanted)} of them")
    for key in sorted(seen - wanted):
        for importer, names in sorted(by.get(key, {}).items()):
            print(f"{'.'.join(key)}, by {'.'.join(importer)}: {', '.join(names)}")
    print("files of which the statement needs few names:")
    for key in sorted(seen & wanted):
        own = [name for name in definitions.files[key].definitions]
        used = [name for name in own if (*key, name) in needed]
        if len(used) * 4 < len(own):
            print(f"{'.'.join(key)}: {len(used)} of {len(own)}: {', '.join(used)}")


def main():
    if sys.argv[1:] == ["--imports"]:
        show_imports()
        return 0
    made = page()
    if sys.argv[1:] == ["--check"]:
        stale = text_of(PAGE) != made
        say("docs/THEOREM.md is stale: run tools/make_theorem.py" if stale else "docs/THEOREM.md lists what the statements need")
        return int(stale)
    put(made.encode(), PAGE)
    return 0


if __name__ == "__main__":
    sys.exit(main())
