#!/usr/bin/env python3
"""Refuses one growth after another in what `rt ci` built, until a run meets no refused growth.

In each crate a test `growths` makes every call that grows, and repeats it if it answers want of memory, so each run of
it has to end well. A test `no_growth` makes calls that take no memory, and ends well with every growth refused. A command
of the program gives the right answer, or says that it is out of memory and has written nothing. A sweep that met no growth
is a fault; tools/test_answers.py sees whether each call that grows is in such a test.

usage: tools/sweep_growths.py    needs a C compiler
"""
import collections
import os
import re
import subprocess
import sys
import tempfile
from concurrent.futures import ThreadPoolExecutor

from common import BUILDS, EEXEC, TINY, TINY_PFB, TOP, bytes_of, ciphered, compiler, example, homes_of_tests, put, segments, tests_of
from test_answers import GROWING

PROGRAM = BUILDS[0]
NO_MEMORY = b"refused: out of memory\n"
# What is said where there is no memory for the arguments, with status 2; and all that the program said.
NO_ROOM = b"error: out of memory\n"
SAID = set()
LANES = os.cpu_count() or 1
LISTED = b"""code 65 X
subr 0 11
subr 1 5
subr 2 5
subr 3 1
subr 4 1
subr 5 3
subr 6 1
subr 7 1
subr 8 1
subr 9 1
glyph .notdef 5
glyph X 15
"""
IN_FULL = b"""name Tiny
matrix 0.001 0 0 0.001 0 0
box 0 0 500 700
width .notdef 250 0
width X 300 0
"""
PLAIN = b"""width 300 0
bearing 50 0
part 0 0
move 50 0
line 150 0
line 150 700
line 50 700
close
"""
ACCENTED = b"""width 500 0
bearing 0 0
part 0 0
move 0 0
line -100 0
close
part 70 200
move 50 0
line 150 0
close
"""

# The arguments; what they write (None: anything); the file that they write to (None: standard output); the line with
# which they are refused, with or without memory.
Case = collections.namedtuple("Case", "words want out refusal status", defaults=(None, None, 0))


class Shim:
    """The growths that are refused under a program."""

    def __init__(self, folder):
        self.folder = folder
        self.path = os.path.join(folder, "refuse_growth.so")
        source = os.path.join(TOP, "tools/refuse_growth.c")
        subprocess.run([compiler() or sys.exit("needs a C compiler"), "-shared", "-fPIC", "-O1", "-o", self.path, source, "-ldl"], check=True)

    def run(self, words, number):
        """The finished process, and whether it met the refused growth: the one with this number, or `all`."""
        flag = os.path.join(self.folder, f"refused-{os.getpid()}-{number}-{id(words)}")
        env = dict(os.environ, LD_PRELOAD=self.path, REFUSE_AT=str(number), REFUSED_FLAG=flag)
        done = subprocess.run(words, env=env, stdin=subprocess.DEVNULL, capture_output=True, timeout=120)
        met = os.path.exists(flag)
        if met:
            os.remove(flag)
        return done, met


def sweep_test(shim, words):
    """How many growths a test meets; each of its runs ends well."""

    def one(number):
        done, met = shim.run(words, number)
        if done.returncode != 0:
            sys.exit(f"{' '.join(words)}, growth {number}: status {done.returncode}: {done.stderr.decode()}")
        return met

    count = 0
    with ThreadPoolExecutor(LANES) as pool:
        while True:
            met = list(pool.map(one, range(count + 1, count + 1 + 16 * LANES)))
            count += sum(met)
            if not all(met):
                break
    if count == 0:
        sys.exit(f"{' '.join(words)} met no growth")
    return count


def wrong(case, refused, done, written):
    """What is wrong with a run of the program, or None."""
    told = case.want is None or written == case.want
    if done.returncode < 0:
        return "ended by a signal"
    if not refused:
        right = done.returncode == (1 if case.refusal else case.status) and done.stderr == (case.refusal or b"")
        return None if right and told else "wrong with memory"
    if done.returncode not in (0, 1, 2, 3):
        return "no documented status"
    if b"UTF-8" in done.stderr:
        return "arguments that are text are refused as none"
    if done.returncode == 0 and (case.refusal or case.status or not told):
        return "done, and the result is not there"
    if not told and written != b"":
        return "a part of the result is out"
    # The line itself needs a growth, and is left out if that one is refused.
    if done.returncode == 1 and done.stderr not in (NO_MEMORY, case.refusal, b""):
        return "another refusal"
    return None


def taken(path):
    """The bytes of a file, which is removed; none if it isn't there."""
    if not os.path.exists(path):
        return b""
    written = bytes_of(path)
    os.remove(path)
    return written


def sweep_words(shim, case):
    """How many growths the program meets with these arguments; each of its runs ends as the man page says."""
    words = [PROGRAM] + case.words
    number, refused = 0, True
    while refused:
        number += 1
        done, refused = shim.run(words, number)
        SAID.add(done.stderr)
        written = taken(case.out) if case.out else done.stdout
        left = [name for name in os.listdir(shim.folder) if name.endswith(".part")]
        fault = wrong(case, refused, done, written) or (left and f"{left[0]} is left")
        if fault:
            sys.exit(f"{' '.join(words)}, growth {number}: status {done.returncode}: {fault}")
    if number == 1:
        sys.exit(f"{' '.join(words)} met no growth")
    return number - 1


def tiny_without_subr_5():
    """The font Tiny with a `return` as its Subr 5, with a raw binary cipher."""
    clear, cipher, _ = segments(example("tiny.pfb"))
    private = ciphered(cipher, EEXEC, True)
    entry, stub = b"dup 5 7 RD ", b"dup 5 5 RD \x10\xbf\x31\x70\xf9"
    at = private.index(entry)
    return clear + ciphered(private[:at] + stub + private[at + len(entry) + 7:], EEXEC)


def subset(font, out, names, length=None):
    """The path of a subset and its bytes, whose number is checked."""
    subprocess.run([PROGRAM, "subset", font, out] + names, check=True)
    written = bytes_of(out)
    if length not in (None, len(written)):
        sys.exit(f"the subset of {names} has {len(written)} bytes, not {length}")
    return out, written


def font_cases(folder):
    """Every command about fonts, over Tiny and subsets of it."""
    tiny, out = TINY, os.path.join(folder, "out")
    other = put(tiny_without_subr_5(), folder, "other")
    _, none = subset(tiny, os.path.join(folder, "none"), [], 2141)
    x, _ = subset(tiny, os.path.join(folder, "x"), ["X"], 2224)
    y, _ = subset(tiny, os.path.join(folder, "y"), ["Y"])
    _, both = subset(tiny, os.path.join(folder, "both"), ["X", "Y"], 2301)
    other_x, _ = subset(other, os.path.join(folder, "other_x"), ["X"])
    for form, other_form in [("pfa", TINY_PFB), ("pfb", TINY)]:
        yield Case([form, other_form, out], example("tiny." + form), out)
    yield Case(["check", tiny], b"ok 11 glyphs, 10 subrs, weight 4936\n")
    yield Case(["list", x], LISTED)
    yield Case(["list", "--full", x], LISTED + IN_FULL)
    yield Case(["show", tiny, "X"], PLAIN)
    yield Case(["show", tiny, "Aacute"], ACCENTED)
    yield Case(["show", tiny, "Zed"], b"", None, b"refused: no glyph Zed\n")
    yield Case(["subset", tiny, out], none, out)
    yield Case(["subset", tiny, out, "X", "Y"], both, out)
    yield Case(["subset", "--codes", "65", "--text", "B", tiny, out, "X"], both, out)
    yield Case(["subset", "--codes", "65-67", tiny, out], b"", out, b"refused: no code 67\n")
    yield Case(["subset", tiny, out, "Zed", "X"], b"", out, b"refused: no glyph Zed\n")
    yield Case(["merge", out, x, y], both, out)
    yield Case(["merge", out, y, x], both, out)
    yield Case(["merge", out, y, x, y], both, out)
    yield Case(["merge", out, y, other_x], b"", out, b"refused: subr 5 differs, used by X\n")
    yield Case(["merge", out, y, y, other_x], b"", out, b"refused: subr 5 differs, used by X\n")
    yield Case(["rejoin", out, x, y, x], both, out)
    yield Case(["diff", x, y], b"")
    yield Case(["diff", y, other_x], b"subr 5 differs, used by X\n", status=1)


def listing_cases():
    data = os.path.join(TOP, "crates/t1subset/data")
    joined = bytes_of(TOP, "crates/t1subset/stdout")
    yield Case(["join", os.path.join(data, "left"), os.path.join(data, "right")], joined)
    yield Case(["join", "--help"], None)


def built_tests(crate):
    """The words that run each test of growths of a crate, and whether it refuses all."""
    for home in homes_of_tests(crate):
        if not tests_of(home):
            continue
        path = os.path.join(TOP, "crates", home, "out", home + "_tests")
        if not os.path.exists(path):
            sys.exit(f"{home}: its tests aren't built")
        listed = subprocess.run([path, "--list"], capture_output=True, text=True, check=True).stdout
        for name in re.findall(r"^(.*): test$", listed, re.M):
            word = name.rsplit("::", 1)[-1]
            if word.startswith(("growths", "no_growth")):
                yield [path, name], word == "no_growth"


def sweep_crate(shim, crate):
    """How many runs a crate's tests took."""
    runs = 0
    for words, refuses_all in built_tests(crate):
        if refuses_all:
            done, met = shim.run(words, "all")
            if met or done.returncode != 0:
                sys.exit(f"{' '.join(words)}: wants memory, or fails: {done.stderr.decode()}")
            runs += 1
        else:
            runs += sweep_test(shim, words) + 1
    if runs == 0:
        sys.exit(f"{crate} has no test of growths")
    return runs


def main():
    runs = 0
    with tempfile.TemporaryDirectory() as folder:
        shim = Shim(folder)
        for crate in GROWING:
            runs += sweep_crate(shim, crate)
        for case in [*listing_cases(), *font_cases(folder)]:
            runs += sweep_words(shim, case) + 1
    if NO_ROOM not in SAID:
        sys.exit("no run said that there is no memory for the arguments")
    print(f"sweep of growths: {runs} runs, each refused growth answered")


main()
