#!/usr/bin/env python3
"""Compares include/t1subset.h with the exports of the crate t1_c: calls, parameters, the fields of answers and limits, and every number.

Nothing may stand on one side alone, but for the three functions that c/t1subset.c defines by itself. The man page has to have the
same calls and numbers, and the header has to compile as C and C++ with all warnings.

usage: tools/test_header.py
"""
import glob
import os
import re
import shutil
import subprocess
import sys

from common import TOP, text_of

PAGE = os.path.join(TOP, "docs/t1subset.3")
HEADER = os.path.join(TOP, "include/t1subset.h")
CRATE = os.path.join(TOP, "crates/t1_c")
IN_C = {"t1subset_free", "t1subset_use", "t1subset_version"}
# The call that c/t1subset.c makes of an export of another name: that has the count of the answers, too.
COUNTED = {"t1subset_level": "level_answers"}

# What a type of Rattle is in C.
PARAMETERS = {
    "Global": [],
    "&[u8]": ["const uint8_t *", "size_t"],
    "&[&[u8]]": ["const t1subset_bytes *", "size_t"],
    "u32": ["uint32_t"],
    "&Limits": ["const t1subset_limits *"],
    "&mut Answer": ["t1subset_answer *"],
    "&mut [Answer]": ["t1subset_answer *", "size_t"],
}
# The structs of the crate, and their names in C.
STRUCTS = {"Answer": "t1subset_answer", "Limits": "t1subset_limits"}
FIELDS = {"u64": "uint64_t", "i64": "int64_t", "&'static [u8]": "t1subset_bytes"}
# The parts of `shells differ in PART`, as the program prints them, and the names of their numbers.
PARTS = {
    "head": "part_head",
    "encoding": "part_encoding",
    "clear tail": "part_clear_tail",
    "private": "part_private",
    "Subrs table": "part_subrs_table",
    "Subrs words": "part_subrs_words",
    "middle": "part_middle",
    "CharStrings words": "part_glyphs_words",
    "tail": "part_tail",
}
SLICE = [("const uint8_t *", "data"), ("size_t", "size")]
COMPILERS = [
    (["cc", "gcc", "clang"], ["-x", "c", "-std=c99", "-Wstrict-prototypes", "-Wmissing-prototypes"]),
    (["c++", "g++", "clang++"], ["-x", "c++", "-std=c++11"]),
]
WARNINGS = ["-Wall", "-Wextra", "-Wpedantic", "-Wconversion", "-Wshadow", "-Werror"]


def typed(word):
    """A parameter or a field of C, as its type and its name."""
    found = re.fullmatch(r"(.*?[ *])(\w+)", " ".join(word.split()))
    return found[1].strip(), found[2]


class Header:
    """What a header declares."""

    def __init__(self, text):
        bare = re.sub(r"/\*.*?\*/", "", text, flags=re.S)
        self.calls = {}
        for answer, name, words in re.findall(r"^(\w+) (t1subset_\w+)\(([^)]*)\);", bare, re.M):
            words = [] if words == "void" else words.split(",")
            self.calls[name] = [answer, *(typed(word)[0] for word in words)]
        self.structs = {}
        for body, name in re.findall(r"^typedef struct \w+ \{(.*?)\} (\w+);", bare, re.M | re.S):
            self.structs[name] = [typed(line) for line in body.split(";") if line.strip() and "(" not in line]
        numbers = re.findall(r"^ *T1SUBSET_(\w+) = (\d+)", bare, re.M)
        self.numbers = {name.lower(): int(number) for name, number in numbers}
        self.members = len(re.findall(r"^ *T1SUBSET_\w+ *[=,]", bare, re.M))
        version = re.search(r"^#define T1SUBSET_VERSION 0x([0-9a-f]{6})u$", bare, re.M)
        self.version = ".".join(str(int(version[1][at:at + 2], 16)) for at in (0, 2, 4))


class Crate:
    """What the crate exports, and the numbers that its contracts cite."""

    def __init__(self, folder):
        sources = "\n".join(text_of(path) for path in sorted(glob.glob(folder + "/src/*.rt")))
        self.calls = {}
        pattern = r'pub extern "C" fn (\w+)\(([^)]*)\)(?: -> (\w+))?'
        for name, words, answer in re.findall(pattern, sources):
            types = [word.split(":")[1].strip() for word in words.split(",") if word.strip()]
            self.calls[name] = [answer, *types]
        self.exported = sources.count("no_mangle")
        self.structs = {}
        for name, body in re.findall(r"#\[repr\(C\)\]\n(?:#[^\n]*\n)*pub struct (\w+) \{(.*?)\n\}", sources, re.S):
            self.structs[name] = re.findall(r"^ *pub (\w+): (.*?),$", body, re.M)
        specs = text_of(folder + "/specs/Numbers.antt")
        pattern = r"^abbrev pub (\w+) : ℕ\n\1 = (\d+)$"
        self.numbers = {name: int(number) for name, number in re.findall(pattern, specs, re.M)}
        self.definitions = len(re.findall(r"^(?:abbrev )?pub \w+ : ℕ$", specs, re.M))


def differing(what, one, other):
    for name in sorted({*one, *other}):
        if one.get(name) != other.get(name):
            yield f"{what} {name}: {one.get(name)} in the header, {other.get(name)} in t1_c"


def in_c(types):
    """An export's types as C has them."""
    answer, *parameters = types
    return [*PARAMETERS.get(answer, [f"({answer})"]), *(it for word in parameters for it in PARAMETERS.get(word, [f"({word})"]))]


def faults(header, crate):
    """Where the header and the crate differ."""
    calls = {name: types for name, types in header.calls.items() if name not in IN_C}
    calls.update((export, [*calls.pop(name, []), "size_t"]) for name, export in COUNTED.items())
    yield from differing("call", calls, {name: in_c(types) for name, types in crate.calls.items()})
    for ours, theirs in STRUCTS.items():
        fields = {f"{at}: {theirs}.{name}": word for at, (word, name) in enumerate(header.structs.get(theirs, []))}
        of_crate = {f"{at}: {theirs}.{name}": FIELDS.get(word, word) for at, (name, word) in enumerate(crate.structs.get(ours, []))}
        yield from differing("field", fields, of_crate)
    yield from differing("number", header.numbers, crate.numbers)
    if header.structs["t1subset_bytes"] != SLICE:
        yield "t1subset_bytes is no slice"
    if not IN_C <= set(header.calls):
        yield "the header lacks a function of c/t1subset.c"
    if not (calls and all(map(crate.structs.get, STRUCTS)) and header.numbers):
        yield "nothing was compared"
    if header.members != len(header.numbers) or crate.definitions != len(crate.numbers) or crate.exported != len(crate.calls):
        yield "a number or an export is not written as this script reads it"


def calls_in(text):
    """Prototypes with the names of their parameters, but for blanks."""
    found = re.findall(r"^(\w+ \**t1subset_\w+\([^;]*\));", text, re.M)
    return {re.sub(r"\s+", " ", it).replace("( ", "(") for it in found}


def page_faults(header, text, page):
    """Where the man page differs from the header."""
    bare = re.sub(r"\\f[BIRP]", "", page).replace("\\-", "-")
    ours, theirs = calls_in(re.sub(r"/\*.*?\*/", "", text, flags=re.S)), calls_in(bare)
    yield from (f"the prototype {it} stands on one side alone" for it in sorted(ours ^ theirs))
    table = {name.lower(): int(number) for number, name in re.findall(r"^\.B (\d+) (\w+)$", bare, re.M)}
    parts = re.search(r"^shells differ in PART: (.*?)\.", bare, re.M | re.S)[1].replace("\n", " ").split(", ")
    table.update((PARTS[name], int(number)) for number, name in (it.split(" ", 1) for it in parts))
    forms = re.search(r"T1SUBSET_PFA \((\d)\) or T1SUBSET_PFB \((\d)\)", bare)
    table.update(pfa=int(forms[1]), pfb=int(forms[2]))
    ways = re.search(r"T1SUBSET_TAGS \((\d)\) and T1SUBSET_DSC \((\d)\)", bare)
    table.update(tags=int(ways[1]), dsc=int(ways[2]))
    for name in sorted({*table, *header.numbers}):
        if table.get(name) != header.numbers.get(name):
            yield f"number {name}: {header.numbers.get(name)} in the header, {table.get(name)} in the man page"


def versions(header):
    for page in ("docs/t1subset.1", "docs/t1subset.3"):
        found = text_of(os.path.join(TOP, page)).split('"')[1].split()[1]
        if found != header.version:
            yield f"version: {header.version} in the header, {found} in {page}"


def compiled(path=HEADER):
    """How often the header was compiled; a compiler's faults end the run."""
    done = 0
    for names, flags in COMPILERS:
        found = [name for name in names if shutil.which(name)]
        if not found:
            print(f"no {' or '.join(names)}: the header was not compiled with {flags[2]}", file=sys.stderr)
        for name in found:
            words = [name, *flags, *WARNINGS, "-fsyntax-only", "-include", path, os.devnull]
            ran = subprocess.run(words, capture_output=True, text=True)
            if ran.returncode:
                sys.exit(f"{' '.join(words)}:\n{ran.stderr}")
            done += 1
    return done


# Changes of the header, and whether the man page says the same thing.
CHANGES = [
    ("T1SUBSET_BAD_SUBRS = 17", "T1SUBSET_BAD_SUBRS = 18", True),
    ("    T1SUBSET_NO_GLYPH = 4,", "", True),
    ("T1SUBSET_PFB = 1", "T1SUBSET_PFB = 1,\n    T1SUBSET_CFF = 2", True),
    ("T1SUBSET_PART_HEAD = 0", "T1SUBSET_PART_HEADS = 0", True),
    ("    uint64_t detail;", "    uint32_t detail;", False),
    ("int64_t input;", "int64_t place;", False),
    ("    uint64_t tokens;", "    uint32_t tokens;", False),
    ("const t1subset_limits *limits", "t1subset_limits *limits", True),
    ("uint32_t t1subset_list(const uint8_t *font, size_t size, ", "uint32_t t1subset_list(const uint8_t *font, ", True),
    ("uint32_t t1subset_check(", "int32_t t1subset_check(", True),
    ("size_t count, uint32_t form,", "uint32_t form, size_t count,", True),
    ("size_t count, t1subset_answer *answers)", "t1subset_answer *answers, size_t count)", True),
    ("uint32_t t1subset_level(", "uint32_t t1subset_levels(", True),
]


def sees_changes(text, crate, page):
    """How many changed copies of the header were tried; each of them has to differ."""
    for old, new, in_page in CHANGES:
        changed = text.replace(old, new, 1)
        header = Header(changed)
        seen = changed != text and list(faults(header, crate))
        if not seen or in_page and not list(page_faults(header, changed, page)):
            sys.exit(f"{new!r} in place of {old!r} is not noticed")
    return len(CHANGES)


def main():
    text, crate, page = text_of(HEADER), Crate(CRATE), text_of(PAGE)
    header = Header(text)
    wrong = [*faults(header, crate), *page_faults(header, text, page), *versions(header)]
    for fault in wrong:
        print(f"include/t1subset.h, {fault}", file=sys.stderr)
    if wrong:
        sys.exit(1)
    times, changes = compiled(), sees_changes(text, crate, page)
    print(
        f"header: {len(header.calls)} calls, {len(header.numbers)} numbers as in t1_c; compiled {times} times;"
        f" {changes} changes noticed",
        file=sys.stderr,
    )


if __name__ == "__main__":
    main()
