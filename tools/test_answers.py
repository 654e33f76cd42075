#!/usr/bin/env python3
"""Checks that the tests meet each answer of each public call that may need memory, at small and at large sizes.

A call may answer want of memory in place of anything, so no clause refuses a body that answers it where a list is long, or
in place of one refusal. Only tests do. A test tells what it meets by lines right above its `#[test]`:

    // meets CALL ANSWER at SIZE, SIZE.. UNIT
    // like CALL: OTHER, OTHER..

CALL is a function or `Type::method`, ANSWER is `Ok`, `Some` or `None`, or a variant of what the call answers or refuses. The
second form says that the lines above it hold for other calls, too. This script reads the calls, the variants and the
constants from the code, and these lines from the tests. It wants for each call each of its answers; for each call a size of
at most 100 and one that is large; and a size beyond each constant with which code chooses between two ways, for each call
that comes there. A call that answers by another of its name behind which `_within` stands meets for both. A size above 100
has to stand in the test's file, as a number or as the value of a constant of the code that the file names. A constant of
the code that is not told of here is a fault, so that a new one is. And each of these calls stands in a test whose name
begins with `growths` or `no_growth`, which tools/sweep_growths.py runs with one growth after another refused.

usage: tools/test_answers.py
"""
import glob
import os
import re
import sys

from common import TOP, files_of_tests, homes_of_tests, text_of

CRATES = ["t1_bytes", "t1_jobs", "t1_char", "t1_run", "t1_join", "t1_font", "t1_document", "t1_dsc", "t1_classes", "t1_subset", "t1_cmd"]
# Crates whose tests are run with growths refused. The calls of t1_example are examples, whose answers are not told of.
GROWING = [*CRATES, "t1_example"]
MEETS = re.compile(r"^// meets (\w+(?:::\w+)?) (\w+)(?: at ([\d, ]+) ([a-z]+))?$")
LIKE = re.compile(r"^// like (\w+(?:::\w+)?): ([\w:, ]+)$")
CALL = re.compile(r"^( *)pub fn (\w+)(?:<[^(]*>)?\(([^)]*)\)(?: -> ([^{\n]*))?", re.M)

# The answers of a type that is no plain value: names, or the variants of an enum but for those that no call answers.
READS, RUNS = "ReadFault", "Fault"
ANSWERS = {
    "Drawing": ["Drawn", "DrawFault"],
    "Drawing<&'f [u8]>": ["Drawn", "DrawFault"],
    "Direct": ["Plain", "Seac", RUNS],
    "RunFault": [],
}
# What each engine refuses, beside a reader or a writer that fails, and each call below one.
REFUSALS = {
    "read_all": ["TooLong"],
    "run_join": ["TooLong", "ListFault", "JoinFault"],
    "run_check": [READS],
    "run_check_of": [READS],
    "run_list": [READS],
    "run_list_full": [READS],
    "run_convert": [READS],
    "run_mend": [READS],
    "run_show": [READS, "NoGlyph"],
    "run_subset": [READS, "NoGlyph"],
    "run_subset_with_codes": [READS, "NoCode", "NoGlyph"],
    "run_merge": [READS, "Conflict"],
    "run_rejoin": [READS, "Lacks", "Conflict"],
    "run_diff": [READS],
    "run_subset_within": [READS, "NoCode", "NoGlyph", "TooManyTokens"],
    "run_merge_within": [READS, "TooManyTokens", "Conflict"],
    "run_rejoin_within": [READS, "TooManyTokens", "Lacks", "Conflict"],
    "run_diff_within": [READS, "TooManyTokens"],
    "run_pool": ["TooLong", "Document"],
    "run_level": ["TooLong", "Document"],
    "run_fonts": ["TooLong", "Document"],
    "run_extract": ["TooLong", "Document", "NoFont"],
    "check_file": [READS],
    "list_file": [READS],
    "list_file_full": [READS],
    "convert_file": [READS],
    "mend_file": [READS],
    "list_mends": [READS],
    "show_file": [READS, "NoGlyph"],
    "subset_file": [READS, "NoGlyph"],
    "subset_file_with_codes": [READS, "NoCode", "NoGlyph"],
    "merge_files": [READS, "Conflict"],
    "rejoin_files": [READS, "Lacks", "Conflict"],
    "diff_files": [READS],
    "subset_file_within": [READS, "NoCode", "NoGlyph", "TooManyTokens"],
    "merge_files_within": [READS, "TooManyTokens", "Conflict"],
    "rejoin_files_within": [READS, "TooManyTokens", "Lacks", "Conflict"],
    "diff_files_within": [READS, "TooManyTokens"],
    "pool_files": ["TooLong", "Document"],
    "level_files": ["TooLong", "Document"],
    "list_fonts": ["TooLong", "Document"],
    "extract_file": ["TooLong", "Document", "NoFont"],
    "join_listings": ["TooLong", "ListFault", "JoinFault"],
}
# What a call can't answer, though its type has it.
NEVER = {
    ("t1_bytes", "seal"): {"BadSegment", "NoEexec", "ShortCipher"},
    ("t1_bytes", "hex_lines"): {"BadSegment", "NoEexec", "ShortCipher"},
    ("t1_bytes", "segments"): {"BadSegment", "NoEexec", "ShortCipher"},
    ("t1_bytes", "flatten"): {"NoEexec", "ShortCipher"},
    ("t1_bytes", "flatten_vec"): {"NoEexec", "ShortCipher"},
    ("t1_bytes", "split_eexec"): {"BadSegment"},
    ("t1_bytes", "find_cipher"): {"BadSegment"},
    # A place of a document spells a font.
    ("t1_document", "Place::source"): {
        "TooLong", "BadSegment", "NoEexec", "ShortCipher", "NoEncoding", "BadEncoding", "NoCharStrings", "BadLenIV", "BadSubrs", "BadGlyphs", "Hybrid",
        "NoClosefile", "NoNotdef", "Limit",
    },
    # Two fonts are given.
    ("t1_subset", "merge"): {"Empty"},
}
# The size that is large for a call: what its contract or the formats allow at most, or else much for it. `None`: one size.
LARGE = {
    "t1_bytes": {"": 100_000},
    "t1_jobs": {"": 100_000},
    "t1_char": {"write": 65_535},
    "t1_run": {"": 1000, "SubrSet::new": None, "SubrSet::insert": 65_535, "SubrSet::to_set": 65_535},
    "t1_join": {"": 60_000, "Table::new": None, "Hex::bytes": 131_070},
    "t1_font": {"": 65_535, "normalize_shells": 1000, "normalize_boxes": 1000, "normalize_named": 1000, "fill_all": 65_535},
    "t1_document": {"": 300, "Texts::new": None, "Place::source": None, "Place::can_stand": None},
    "t1_dsc": {"": 1000},
    "t1_classes": {"": 300},
    "t1_subset": {"": 65_535, "merge": 65_535},
    "t1_cmd": {
        "": 65_535, "run_pool": 300, "run_level": 300, "run_fonts": 300, "run_extract": 300, "pool_files": 300, "level_files": 300, "list_fonts": 300,
        "extract_file": 300, "Name::new": 127, "read_all": 268_435_456, "write_fault": None, "write_fault_of": None,
    },
}
# Constants that choose between two ways, or limit what is read: the calls that a test has to take to their value and beyond.
THRESHOLDS = {
    "t1_bytes/BLOCK": ["decrypt"],
    "t1_bytes/LINE": ["find_cipher", "split_eexec", "hex_lines", "file_around"],
    "t1_cmd/CHUNK": ["read_all"],
    "t1_font/ROOM": ["read", "read_vec", "read_wide", "read_wide_vec", "mends"],
    "t1_font/NAME_LIMIT": ["read", "read_vec", "read_wide", "read_wide_vec", "mends"],
    "t1_font/CHARSTRING_LIMIT": ["read", "read_vec", "read_wide", "read_wide_vec", "mends"],
    "t1_font/COUNT_LIMIT": ["read", "read_vec", "read_wide", "read_wide_vec", "mends", "join_parts"],
    "t1_font/WEIGHT_LIMIT": ["read", "read_vec", "read_wide", "read_wide_vec", "mends", "join_parts", "fill_all"],
    "t1_font/MARKERS": ["write"],
    "t1_font/CODES": ["read", "read_vec", "read_wide", "read_wide_vec", "mends"],
    "t1_join/NAME_LIMIT": ["read"],
    "t1_join/DIGITS_LIMIT": ["read"],
    "t1_join/FEW": ["likely_places"],
    "t1_join/INDICES": ["likely_places"],
    "t1_run/TOKENS": ["direct", "direct3"],
}
# Constants that are part of a format or of a computation, and choose nothing by a size.
FIXED = {
    "t1_bytes": [
        "EEXEC_KEY", "EEXEC_LEAD", "CHARSTRING_KEY", "FACTOR", "SUMMAND", "POWER_BEHIND", "SUMMAND_BEHIND", "MARK", "TEXT", "BINARY", "END", "AROUND",
    ],
    "t1_cmd": ["UNIT"],
    "t1_font": ["AROUND", "WORD_LIMIT"],
    "t1_jobs": ["HEADER"],
    "t1_run": ["OPERANDS", "FLEX_POINTS", "ANSWERS", "LEVELS", "SUBR_LIMIT", "UNIT"],
}
# The file limit is met by `t1_cmd`, whose readers need no file of that size.
FIXED["t1_bytes"] += ["FILE_LIMIT"]
# The crates that none but the crates of this repository call, by the one above whose calls meet their constants.
WITHIN = {"t1_font": ["t1_text"]}


def sources(crate, tests=False):
    """The paths of a crate's code, or of its tests."""
    if tests:
        return [path for home in homes_of_tests(crate) for path in files_of_tests(home)]
    paths = glob.glob(os.path.join(TOP, "crates", crate, "src/*.rt"))
    return sorted(path for path in paths if os.path.basename(path) != "tests.rt")


def owner(text, at):
    """The type whose `impl` a place of a text stands in, if it stands in one."""
    found = None
    for impl in re.finditer(r"^impl(?:<[^{]*?>)? (?:[\w:]+(?:<[^{]*?>)? for )?(\w+)", text[:at], re.M):
        found = impl.group(1)
    return found


def calls(crate):
    """The public calls of a crate that may need memory, and what each answers."""
    root = text_of(os.path.join(TOP, "crates", crate, "src/lib.rt"))
    handed_on = set(re.findall(r"\w+", " ".join(re.findall(r"^pub use (?!t1_)[^;]*;", root, re.M))))
    rooms = set(re.findall(r"^pub mod (\w+);", root, re.M)) | {"lib"}
    for path in sources(crate):
        text = text_of(path)
        room = os.path.basename(path)[:-3]
        for call in CALL.finditer(text):
            indent, name, parameters, answer = call.groups()
            grows = "Global" in parameters or re.search("AllocError|BytesFault", answer or "")
            if grows and (indent or name in handed_on or room in rooms):
                yield f"{owner(text, call.start())}::{name}" if indent else name, (answer or "").strip()


def variants():
    """The variants of each public enum of the crates."""
    found = {}
    for crate in CRATES:
        for path in sources(crate):
            for name, body in re.findall(r"^pub enum (\w+)(?:<[^>]*>)? \{\n(.*?)^\}", text_of(path), re.M | re.S):
                found[name] = re.findall(r"^    (\w+)", body, re.M)
    return found


def constants(crate):
    """The constants of a crate that are numbers, by name, and those of the crates that only it and its neighbours call."""
    for path in [path for name in [crate, *WITHIN.get(crate, [])] for path in sources(name)]:
        for name, value in re.findall(r"^ *(?:pub(?:\(crate\))? )?const (\w+): [iu]\w+ = ([\d_]+);", text_of(path), re.M):
            yield name, int(value.replace("_", ""))


def spread(names, enums):
    """These answers, with the variants of each that is an enum in its place; want of memory is none."""
    answers = set()
    for name in names:
        answers |= set(enums[name]) - {"Memory"} if name in enums else {name}
    return answers


def answers_of(crate, call, answer, enums):
    """What a call can answer."""
    budgeted = re.match(r"Result<(.*), BudgetFault<(\w+)>>$", answer)
    found = budgeted or re.match(r"Result<(.*), (\w+)>$", answer)
    value, fault = found.groups() if found else (answer, "AllocError")
    if value.startswith("Option<"):
        names = ["Some", "None"]
    else:
        names = ANSWERS.get(value, ["Ok"])
    names = names + REFUSALS.get(call, ANSWERS.get(fault, [fault] if fault in enums else []))
    names += ["TooManyTokens"] if budgeted else []
    return spread(names, enums) - NEVER.get((crate, call), set())


def blocks(path):
    """The comment lines right above each test of a file."""
    lines = text_of(path).splitlines()
    for number, line in enumerate(lines):
        if line == "#[test]":
            first = number
            while first and lines[first - 1].startswith("//"):
                first -= 1
            yield first, lines[first:number]


def told(crate, wrong):
    """What the tests of a crate say that they meet: the sizes of each answer of each call."""
    known = dict(constants(crate))
    met = {}
    for path in sources(crate, tests=True):
        text = text_of(path)
        numbers = {int(n.replace("_", "")) for n in re.findall(r"\b\d[\d_]*\b", re.sub(r"// meets.*", "", text))}
        numbers |= {value for name, value in known.items() if re.search(rf"\b{name}\b", text)}
        for first, block in blocks(path):
            here = {}
            for at, line in enumerate(block):
                place = f"{os.path.relpath(path, TOP)}:{first + at + 1}"
                meets, like = MEETS.match(line), LIKE.match(line)
                if meets:
                    call, answer, sizes, _ = meets.groups()
                    sizes = [int(size) for size in re.findall(r"\d+", sizes or "")]
                    wrong += [f"{place}: {size} stands nowhere else" for size in sizes if size > 100 and size not in numbers]
                    here.setdefault(call, {}).setdefault(answer, set()).update(sizes or [0])
                elif like:
                    here.update({other.strip(): here.get(like.group(1), {}) for other in like.group(2).split(",")})
                elif re.match(r"// (meets|like)\b", line):
                    wrong.append(f"{place}: not of the form that is read")
            for call, answers in here.items():
                for answer, sizes in answers.items():
                    met.setdefault(call, {}).setdefault(answer, set()).update(sizes)
    return met


def stand_over(crate):
    """The calls of a crate that answer by one within a budget, with that one."""
    for path in sources(crate):
        for name, body in re.findall(r"^pub fn (\w+).*?^\{\n(.*?)^\}", text_of(path), re.M | re.S):
            for below in set(re.findall(r"\b(\w+_within)\(", body)):
                yield name, below


def check(crate, enums, wrong):
    """How many answers the tests of a crate meet; what is wrong is added."""
    met = told(crate, wrong)
    known = {call for call, _ in calls(crate)}
    for name, below in stand_over(crate):
        if below not in known:
            continue
        for answer, sizes in met.get(name, {}).items():
            met.setdefault(below, {}).setdefault(answer, set()).update(sizes)
    count = 0
    for call, answer in calls(crate):
        wanted = answers_of(crate, call, answer, enums)
        got = met.get(call, {})
        wrong += [f"{crate}: no test meets {call} {name}" for name in sorted(wanted - got.keys())]
        count += len(wanted)
        sizes = set().union(*got.values()) if got else set()
        large = LARGE[crate].get(call, LARGE[crate].get("", 0))
        if large is not None and got and max(sizes) < large:
            wrong.append(f"{crate}: no test takes {call} to {large}")
        if got and min(sizes) > 100:
            wrong.append(f"{crate}: no test takes {call} to a small size")
    for name, value in constants(crate):
        for call in THRESHOLDS.get(f"{crate}/{name}", []):
            sizes = set().union(*met.get(call, {}).values()) if met.get(call) else {0}
            if max(sizes) <= value:
                wrong.append(f"{crate}: no test takes {call} beyond {name}, {value}")
        if f"{crate}/{name}" not in THRESHOLDS and name not in FIXED.get(crate, []):
            wrong.append(f"{crate}: {name} is a new constant: see tools/test_answers.py")
    wrong += [f"{crate}: {call} is no public call" for call in sorted(met.keys() - known) if "::" not in call and call not in MORE]
    return count


def bodies_of_tests(crate):
    """The body of each function of a test module that starts at the margin, by its file and its name."""
    pattern = re.compile(r"^(?:pub(?:\(\w+\))? )?fn (\w+)(.*?)^}", re.M | re.S)
    for path in sources(crate, tests=True):
        for name, body in pattern.findall(text_of(path)):
            yield (path, name), body


def called_in(crate):
    """The names that the tests of growths of a crate call, and those that these call in the test module."""
    bodies = dict(bodies_of_tests(crate))
    found = [(path, name) for path, name in bodies if name.startswith(("growths", "no_growth"))]
    called = set()
    for path, name in found:
        for word in re.findall(r"(\w+)\(", bodies[path, name]):
            called.add(word)
            here = [(path, word)] if (path, word) in bodies else [key for key in bodies if key[1] == word]
            found.extend(key for key in here if key not in found)
    return called


def lacking(crate):
    """The public calls of a crate that may need memory and that no test of growths makes."""
    called = called_in(crate)
    called |= {below for name, below in stand_over(crate) if name in called}
    return sorted({call.split("::")[-1] for call, _ in calls(crate)} - called)


# What tests meet beside the calls that need memory by their names: methods of traits, and a call that goes two ways by a size.
MORE = {"join_if_agreed", "decrypt"}


def main():
    enums, wrong = variants(), []
    count = sum(check(crate, enums, wrong) for crate in CRATES)
    wrong += [f"{crate}: no test of growths calls {name}" for crate in GROWING for name in lacking(crate)]
    for line in wrong:
        print(line, file=sys.stderr)
    print(f"{count} answers of public calls that may need memory are met by tests", file=sys.stderr)
    return 1 if wrong else 0


if __name__ == "__main__":
    sys.exit(main())
