#!/usr/bin/env python3
"""Holds libt1subset to its header and to the program: exports, answers, numbers, refused growths, threads, an installation.

The commands of the program run over the library (c/tests/words.c), and the status, what is printed and the files are
compared with the program's, on the rows of tools/program_rows.py, on files that are refused, and on fonts that are
installed here. The print filter of examples/ has to pool jobs as the program does. In the end a library that lies has to
be found out.

usage: tools/test_library.py [--lib FOLDER] [--program PROGRAM] [FONT...]
Without names the library is made by tools/build_library.sh, the program is the one that `rt ci` leaves, and the fonts are
some of those that are installed.
"""
import argparse
import contextlib
import glob
import itertools
import os
import re
import shutil
import subprocess
import sys
import tempfile

import program_rows
import refused_rows
import test_header
import test_install
from common import BUILDS, TINY, TOP, bytes_of, compiler, printed, put, ran, say, text_of
from test_program import wrong

LISTINGS = [os.path.join(TOP, "examples", name) for name in ("left.listing", "right.listing")]
FOLDERS = ["/usr/share/fonts/type1", "/usr/share/fonts/X11/Type1", "/usr/share/texmf/fonts/type1", "/usr/share/texlive/texmf-dist/fonts/type1"]
FONTS = 30
WARNINGS = ["-O1", "-g", "-Wall", "-Wextra", "-Wconversion", "-Wpedantic", "-Wshadow", "-Werror"]
IN_C = ["-std=c11", "-Wstrict-prototypes"]
SANITIZERS = ["-fsanitize=address,undefined", "-fno-sanitize-recover=all"]
# Numbers that no command over the library answers: growths.c and edges.c meet them.
ELSEWHERE = {"ok", "memory", "bad_call", "file_too_long", "no_font", "nothing_to_merge"}
# As many tokens as a call can be allowed.
NO_LIMIT = str(2 ** 64 - 1)
# Options that no call has.
OWN_OPTIONS = {"--names", "--explain"}
# Those by which `pool` differs.
POOLING = {"--tags", "--dsc"}


class Library:
    """A built library, and the tests that are compiled over it."""

    def __init__(self, folder, work):
        self.folder, self.work = folder, work
        self.cc = compiler([os.environ.get("CC", "cc"), "gcc", "clang"])
        self.shared = [f"-L{folder}", "-lt1subset", f"-Wl,-rpath,{folder}"]
        self.static = [os.path.join(folder, "libt1subset.a")]

    def compiled(self, source, links, *flags):
        """The path of the test made of a file of c/tests."""
        name, kind = os.path.splitext(source)
        path = os.path.join(self.work, "-".join([name, "shared" if links == self.shared else "static", str(len(flags))]))
        words = [self.cc, *IN_C] if kind == ".c" else [compiler([os.environ.get("CXX", "c++"), "g++", "clang++"]), "-std=c++11"]
        words += [*WARNINGS, *flags, "-I", os.path.join(TOP, "include"), os.path.join(TOP, "c/tests", source)]
        ran([*words, "-o", path, *links, "-pthread"])
        return path

    def exports(self, header):
        """Both libraries define the calls of the header for others, and nothing else."""
        for words in (["nm", "-D", "--defined-only", self.folder + "/libt1subset.so.0"], ["nm", "-g", "--defined-only", *self.static]):
            found = set(re.findall(r"^[0-9a-f]+ [TDBRVWi] (\w+)", printed(words), re.M))
            if found != set(header.calls):
                sys.exit(f"{' '.join(words)}: {sorted(found ^ set(header.calls))} stand on one side alone")


def library_rows(given):
    """The rows that a library can be held to. Status 2 is a fault of the command line, and 3 of opening files, which are the
    program's own; so are its help and its version, files of names, `check` of several files, and the command that writes documents into a folder."""
    rows = [row for row in program_rows.all_rows(given) if row.status < 2 and row.out is not program_rows.SOME]
    rows = [row for row in rows if not OWN_OPTIONS.intersection(word.split("=")[0] for word in row.words if isinstance(word, str))]
    rows = [row for row in rows if not (row.err and POOLING.intersection(row.words))]
    rows = [row for row in rows if row.words[0] != "level" and (row.words[0] != "check" or len(row.words) == 2)]
    return [row for row in rows if not row.words[0].startswith("--")]


def run_rows(words):
    """How many rows the commands over the library answer rightly; a fault is returned as text."""
    given = program_rows.files()
    rows = library_rows(given)
    for row in rows:
        fault = wrong(words, row, given)
        if fault:
            return f"{row.words}: {fault}"
    return len(rows)


# The arguments of a job, and one of more bytes than a file may have.
JOB = ("7", "me", "title", "1", "")
TOO_LONG = bytes(268435457)


class Filter:
    """The print filter of examples/, as CUPS calls it."""

    def __init__(self, library):
        self.path = os.path.join(library.work, "filter")
        source = os.path.join(TOP, "examples/filter.c")
        ran([library.cc, "-std=c99", *WARNINGS, "-I", os.path.join(TOP, "include"), source, "-o", self.path, *library.static])

    def wrong(self, want, *file, job=b"", words=JOB):
        """What is wrong with a run of it: its status, what it writes, and the word before what it says; or None."""
        done = subprocess.run([self.path, *words, *file], input=job, capture_output=True, timeout=120)
        found = (done.returncode, done.stdout, done.stderr.split(b" ")[0])
        whole = done.stderr.count(b"\n") == 1 and done.stderr.endswith(b"\n")
        return None if found == want and whole else f"the print filter: {found!r:.200}, {done.stderr!r:.200}"

    def to_full_disk(self):
        with open("/dev/full", "wb") as out:
            done = subprocess.run([self.path, *JOB], input=b"showpage\n", stdout=out, stderr=subprocess.PIPE, timeout=60)
        return None if done.returncode == 1 and b"ERROR: " in done.stderr else f"the print filter on a full disk: {done!r}"


def print_filter(library, program, folder):
    """The print filter pools jobs as the program does, from standard input and from a file, and lets pass what carries no document; what is
    wrong with it, or None."""
    here = Filter(library)
    given = program_rows.files()
    jobs = [given["one.ps"] + given["two.ps"], given["one.ps"] + given["other.ps"], b"", b"showpage\n"]
    jobs += [jobs[0] + b"%" * (size - len(jobs[0])) for size in (65535, 65536, 65537, 131072, 1000000)]
    faults = []
    for job in jobs:
        path = put(job, folder, "job.ps")
        is_pooled = subprocess.run([program, "pool", "--tags", os.path.join(folder, "out.ps"), path], capture_output=True).returncode == 0
        pooled = (0, bytes_of(folder, "out.ps") if is_pooled else job, b"INFO:")
        faults += [here.wrong(pooled, job=job), here.wrong(pooled, path, job=b"another job")]
    failed = (1, b"", b"ERROR:")
    faults += [here.wrong(failed, os.path.join(folder, "absent")), here.wrong(failed, folder), here.wrong(failed, words=("7", "me"))]
    faults += [here.wrong((0, TOO_LONG, b"INFO:"), job=TOO_LONG), here.to_full_disk()]
    return next(filter(None, faults), None)


class Pair:
    """The program, and its commands over the library, in one folder."""

    def __init__(self, program, words, folder):
        self.programs, self.folder = (program, words), folder
        self.told, self.calls = os.path.join(folder, "told"), 0

    def write(self, files):
        for name, text in files.items():
            put(text, self.folder, name)

    def taken(self, name):
        path = os.path.join(self.folder, name)
        if not os.path.exists(path):
            return None
        text = bytes_of(path)
        os.remove(path)
        return text

    def alone(self, program, words):
        env = {**os.environ, "TOLD": self.told}
        done = subprocess.run([program, *words], cwd=self.folder, env=env, stdin=subprocess.DEVNULL, capture_output=True, timeout=120)
        return done.returncode, done.stdout, done.stderr, self.taken("out")

    def both(self, words):
        """What both answer to these arguments; a difference ends the run."""
        one, other = (self.alone(program, words) for program in self.programs)
        self.calls += 1
        if one != other:
            sys.exit(f"{words}: the program answers {one!r:.300}, the library {other!r:.300}")
        return one

    def last_told(self):
        """The number, the detail and the input of the library's last answer."""
        return tuple(map(int, text_of(self.told).split()))


def inputs_of(words):
    """The files of these arguments, whose options stand last."""
    words = list(itertools.takewhile(lambda word: not word.startswith("--"), [word for word in words if word not in POOLING]))
    if words[0] in ("pool", "fonts"):
        return words[2:] if words[0] == "pool" else words[1:]
    return words[2:] if words[0] in ("merge", "rejoin") else words[1:] if words[0] in ("diff", "join") else words[1:2]


class Numbers:
    """The numbers of the header, and what their texts look like."""

    def __init__(self, text):
        self.numbers = test_header.Header(text).numbers
        self.texts = {}
        for name, shape in re.findall(r'^ *T1SUBSET_(\w+) = \d+,? +/\* "([^"]*)"', text, re.M):
            shape = re.escape(shape).replace("NAME", r"\S+").replace("PART", "(.+)").replace("WHAT", ".+").replace("N", r"(\d+)", shape.split().count("N"))
            self.texts[name.lower()] = shape + (r"(?:, used by \S+)?" if name == "SUBR_DIFFERS" else "")

    def detail(self, found):
        """The number that a text names."""
        if not found.groups():
            return 0
        return int(found[1]) if found[1].isdigit() else self.numbers[test_header.PARTS[found[1]]]

    def fault(self, name, text, place, told):
        """What is wrong with what was told of a refusal: its number, its detail, and the place of the refused file."""
        found = re.fullmatch(self.texts[name], text)
        if not found:
            return f"the text is {text!r}, and not {self.texts[name]!r}"
        want = (self.numbers[name], self.detail(found), place)
        return None if told == want else f"{told} is told, and not {want}"


def refused_alone(pair, words):
    """The place of the first file that the program refuses by itself, or -1."""
    pair.write({"empty": b""})
    for place, name in enumerate(inputs_of(words)):
        kinds = {"join": ["join", name, "empty"], "pool": ["fonts", name], "fonts": ["fonts", name]}
        alone = kinds.get(words[0]) or (["mend", name, "out"] if words[0] in ("mend", "rejoin") else ["check", name])
        if pair.alone(pair.programs[0], alone)[0] == 1:
            return place
    return -1


def refusals(pair, numbers):
    """Each number that files can bring about, with its text, its detail and the place of the file."""
    met, parts = set(), set()
    for name, words, files in refused_rows.rows():
        pair.write(files)
        status, _, said, out = pair.both(words)
        told = pair.last_told()
        if status != 1 or out is not None:
            sys.exit(f"{name}, {words}: status {status}, and no refusal")
        is_part = name.startswith("part_")
        fault = numbers.fault("shells_differ" if is_part else name, said.decode()[9:-1], refused_alone(pair, words), told)
        if fault or is_part and told[1] != numbers.numbers[name]:
            sys.exit(f"{name}, {words}: {fault or told}")
        met.add("shells_differ" if is_part else name)
        parts.update([name] if is_part else [])
    wanted = {name for name in numbers.numbers if not name.startswith("part_") and name not in ("pfa", "pfb", "tags", "dsc")} - ELSEWHERE
    lacking = sorted(wanted - met) + sorted({name for name in numbers.numbers if name.startswith("part_")} - parts)
    if lacking:
        sys.exit(f"no file brings about {', '.join(lacking)}")
    return len(met)


def fonts_here():
    """Some of the fonts that are installed, at even distances."""
    found = sorted(path for folder in FOLDERS for kind in ("pfa", "pfb", "t1") for path in glob.glob(f"{folder}/**/*.{kind}", recursive=True))
    if not found:
        say("no Type 1 fonts are installed here: only made fonts were tried")
    return [found[at * len(found) // FONTS] for at in range(FONTS)] if len(found) > FONTS else found


def run_within(pair, words):
    """A command, and the same within limits of tokens: one that allows everything, and two that are often too small. What the
    command answers is returned."""
    plain = pair.both(words)
    within = {tokens: pair.both([words[0], "--tokens", tokens, *words[1:]]) for tokens in ("0", "1000", NO_LIMIT)}
    few = (1, b"", b"refused: too many tokens\n", None)
    if within[NO_LIMIT] != plain or within["1000"] not in (plain, few) or not plain[2] and within["0"] != few:
        sys.exit(f"{words}: {plain!r:.300} without a limit of tokens, {within!r:.900}")
    return plain


def run_font(pair, font, last):
    """All commands over a font, and over two subsets of it; the first of these is returned, if there is one."""
    for words in (["check", font], ["pfa", font, "out"], ["pfb", font, "out"], ["mend", font, "out"]):
        pair.both(words)
    pair.both(["list", "--full", font])
    status, listed, _, _ = pair.both(["list", font])
    names = [name for name in re.findall(r"^glyph (\S+) ", listed.decode(), re.M) if "\\" not in name]
    if status:
        return last
    names = names[:: max(1, len(names) // 12)][:12]
    for name in names[:3]:
        pair.both(["show", font, "--", name])
    pair.both(["subset", font, "out", "--", *names, *names[:2]])
    run_within(pair, ["subset", font, "out", "--", *names, "no-such-glyph"])
    for codes in (["--codes", "65-70"], ["--codes", "97,65,97", "--text", "by codes"]):
        run_within(pair, ["subset", font, "out", *codes, "--", *names[:2]])
    halves = {name: run_within(pair, ["subset", font, "out", "--", *names[at::2]])[3] for at, name in enumerate(("half", "other"))}
    pair.write(halves)
    run_within(pair, ["merge", "out", "other", "half"])
    run_within(pair, ["rejoin", "out", "half", "other", font])
    run_within(pair, ["diff", "half", "other"])
    if last:
        pair.write({"last": last})
        run_within(pair, ["diff", "last", "half"])
        pair.both(["merge", "out", "half", "last"])
        pair.both(["rejoin", "out", "last", "half"])
    return halves["half"]


def run_fonts(pair, fonts):
    last = None
    for font in fonts:
        last = run_font(pair, os.path.abspath(font), last)
    return pair.calls


def small_tests(library):
    """The tests in C and C++ that judge themselves, under the sanitizers and valgrind where they are."""
    growths = [library.compiled("growths.c", library.static), TINY, *LISTINGS, "X", "Y"]
    print(printed(growths).replace("\n", "; ")[:-2], file=sys.stderr)
    ran([library.compiled("edges.c", library.static), TINY])
    ran([library.compiled("threads.c", library.shared), TINY, "X", "Y", "100"])
    ran([library.compiled("heap.c", [])])
    if compiler([os.environ.get("CXX", "c++"), "g++", "clang++"]):
        line = printed([library.compiled("owner.cc", library.shared), TINY])
        if line != "ok 11 glyphs, 10 subrs, weight 4936\n":
            sys.exit(f"owner.cc prints {line!r}")
    else:
        say("no C++ compiler: owner.cc was left out")
    sanitized(library)
    if shutil.which("valgrind"):
        for words in (growths, [library.compiled("edges.c", library.static), TINY]):
            ran(["valgrind", "-q", "--error-exitcode=9", "--leak-check=full", *words])
    else:
        say("no valgrind: what it would see of the library was left out")


def sanitized(library):
    """AddressSanitizer and UBSan see the C code, and the heap and the copies of the proved code."""
    probe = put(b"int main(void) { return 0; }\n", library.work, "probe.c")
    if subprocess.run([library.cc, *SANITIZERS, probe, "-o", probe + ".out"], capture_output=True).returncode:
        say(f"{library.cc} has no sanitizers: these runs were left out")
        return
    env = {**os.environ, "ASAN_OPTIONS": "allocator_may_return_null=1"}
    ran([library.compiled("heap.c", [], *SANITIZERS)], env=env)
    ran([library.compiled("growths.c", library.static, *SANITIZERS), TINY, *LISTINGS, "X", "Y"], env=env)
    ran([library.compiled("edges.c", library.static, *SANITIZERS), TINY], env=env)
    run = run_rows(library.compiled("words.c", library.static, *SANITIZERS))
    if isinstance(run, str):
        sys.exit(f"with sanitizers, {run}")


@contextlib.contextmanager
def lying(liar, lie):
    """Under it, programs over the shared library get this lie from it."""
    os.environ.update(LD_PRELOAD=liar, LIE=lie)
    yield
    del os.environ["LD_PRELOAD"], os.environ["LIE"]


def found_out(library, words, program, numbers):
    """A library whose answers are wrong has to fail the tests above."""
    liar = os.path.join(library.work, "liar.so")
    include = ["-I", os.path.join(TOP, "include")]
    ran([library.cc, "-std=gnu11", "-shared", "-fPIC", *include, os.path.join(TOP, "c/tests/liar.c"), "-o", liar, "-ldl"])
    growths = [library.compiled("growths.c", library.shared), TINY, *LISTINGS, "X", "Y"]
    for lie in ("block", "detail"):
        with lying(liar, lie):
            if subprocess.run(growths, capture_output=True).returncode != 1:
                sys.exit(f"growths.c does not see the lie {lie!r}")
    with lying(liar, "text"):
        if not isinstance(run_rows(words), str):
            sys.exit("the rows don't see another byte in an answer")
    with lying(liar, "number"), tempfile.TemporaryDirectory() as folder:
        pair = Pair(program, words, folder)
        pair.write({"bad": b"no font"})
        pair.both(["check", "bad"])
        if numbers.fault("no_eexec", "no eexec", 0, pair.last_told()) is None:
            sys.exit("another number of a refusal is not seen")


def has_module(interpreter, name):
    return not subprocess.run([interpreter, "-c", f"import {name}"], capture_output=True).returncode


def python_of_tests():
    """This Python, or that of the system if that one alone has pikepdf, which the tests of PDFs need."""
    for interpreter in filter(None, [sys.executable, shutil.which("python3", path="/usr/bin")]):
        if has_module(interpreter, "pikepdf"):
            return interpreter
    say("no pikepdf: the tests of PDFs are left out")
    return sys.executable


def other_languages(library, program):
    """The tests of the packages for Python and Rust, over this library."""
    env = {**os.environ, "LIBT1SUBSET": library.folder + "/libt1subset.so.0", "T1SUBSET_LIB_DIR": library.folder}
    env.update(T1SUBSET=program, LD_LIBRARY_PATH=library.folder, CARGO_TARGET_DIR=os.path.join(library.work, "cargo"))
    python, rust = os.path.join(TOP, "python"), os.path.join(TOP, "rust")
    if os.path.isdir(python):
        interpreter = python_of_tests()
        has_pytest = has_module(interpreter, "pytest")
        if not has_pytest:
            say("no pytest: the Python tests run by unittest")
        words = ["pytest", "-q", "-p", "no:cacheprovider", "tests"] if has_pytest else ["unittest", "discover", "-s", "tests", "-t", "."]
        ran([interpreter, "-m", *words], cwd=python, env=env)
        say(f"python: the tests pass by {words[0]}")
    else:
        say("no folder python: its tests were left out")
    if os.path.isdir(rust) and shutil.which("cargo"):
        ran(["cargo", "test", "--quiet", "--offline"], cwd=rust, env=env)
        say("rust: the tests pass by cargo")
    else:
        say("no folder rust, or no cargo: its tests were left out")


def test(folder, program, fonts, work):
    text = text_of(test_header.HEADER)
    library = Library(folder, work)
    library.exports(test_header.Header(text))
    words = library.compiled("words.c", library.shared)
    run = run_rows(words)
    if isinstance(run, str):
        sys.exit(run)
    small_tests(library)
    with tempfile.TemporaryDirectory() as room:
        pair = Pair(program, words, room)
        numbers = Numbers(text)
        met = refusals(pair, numbers)
        calls = run_fonts(pair, fonts)
        fault = print_filter(library, program, room)
        if fault:
            sys.exit(fault)
    found_out(library, words, program, numbers)
    test_install.test(folder, program, work)
    other_languages(library, program)
    say(f"libt1subset: {run} rows, {met} numbers of refusals, {calls} calls over {len(fonts)} fonts as the program")


def main():
    parser = argparse.ArgumentParser(description=__doc__.splitlines()[0])
    parser.add_argument("--lib")
    parser.add_argument("--program", default=BUILDS[0])
    parser.add_argument("fonts", nargs="*")
    asked = parser.parse_args()
    with tempfile.TemporaryDirectory() as work:
        folder = os.path.abspath(asked.lib or os.path.join(work, "lib"))
        if not asked.lib:
            print(printed([os.path.join(TOP, "tools/build_library.sh"), folder]), end="")
        test(folder, os.path.abspath(asked.program), asked.fonts or fonts_here(), work)


if __name__ == "__main__":
    main()
