#!/usr/bin/env python3
"""Holds the page of web/ to the program: its module in node, and the page itself in a headless Chromium.

What is written in C, and the script that narrows pointers, have tests of their own. In node the commands of the program run
over the module (web/tests/words.js), and the status, what is printed and the files are compared with the rows of
tools/program_rows.py, and with the program on files that are refused and on fonts that are installed here; and memory is
refused to the module, from none to enough. In Chromium files are dropped on the page, from a folder and from a server, and
what it shows, draws and lets one download is compared with the program's bytes. In the end a module and pages that lie have
to be found out.

usage: tools/test_web.py [--module FOLDER] [--program PROGRAM] [FONT...]
Without names the module is made by tools/build_web.sh, and the program is the one that `rt ci` leaves. What needs node or
Chromium is left out where they are not.
"""
import argparse
import base64
import concurrent.futures
import os
import re
import shutil
import subprocess
import sys
import tempfile

import browser
import program_rows
import test_library
import test_page
from common import BUILDS, RETURN, TOP, bytes_of, compiler, printed, put, ran, say, text_of
from test_program import wrong

WORDS = os.path.join(TOP, "web/tests/words.js")
# Options of the program alone.
OWN_OPTIONS = {"--names", "--explain", "--tags", "--dsc"}
FONTS = 2
# What is changed in a module that lies, in bytes of the same number.
TRUTH, LIE = b" glyphs, ", b" glyphs; "


# Lines of a module, and the lines that stand for them, none where the line is refused.
NARROWED = [
    ("  %r = load i64, ptr %a, align 8", ["  %r = load i64, ptr %a, align 8"]),
    ("  %r = load ptr, ptr @a, align 8, !noundef !1", ["  %r.wide = load i64, ptr @a, align 8", "  %r = inttoptr i64 %r.wide to ptr"]),
    ("  store ptr @a, ptr %b, align 8", ["  %wide.0 = ptrtoint ptr @a to i64", "  store i64 %wide.0, ptr %b, align 8"]),
    ("  %r = alloca ptr, align 8", ["  %r = alloca i64, align 8"]),
    ("  %r = ptrtoaddr ptr %a to i64", ["  %r = ptrtoint ptr %a to i64"]),
    ("@a = constant <{ ptr, [4 x i8] }> <{ ptr @b, [4 x i8] c\"ptr \" }>",
     ["@a = constant <{ ptr, [4 x i8], [4 x i8] }> <{ ptr @b, [4 x i8] zeroinitializer, [4 x i8] c\"ptr \" }>"]),
    ("  %r = load { i64, i64 }, ptr %a, align 8", ["  %r = load { i64, i64 }, ptr %a, align 8"]),
    ("  %r = load { i8, ptr }, ptr %a, align 8", [
        "  %r.first = load i8, ptr %a, align 8", "  %r.place = getelementptr i8, ptr %a, i64 8",
        "  %r.second.wide = load i64, ptr %r.place, align 1", "  %r.second = inttoptr i64 %r.second.wide to ptr",
        "  %r.half = insertvalue { i8, ptr } poison, i8 %r.first, 0", "  %r = insertvalue { i8, ptr } %r.half, ptr %r.second, 1"]),
    ("  %r = load { i8, i8, ptr }, ptr %a, align 8", []),
    ("  %r = load <2 x ptr>, ptr %a, align 8", []),
    ("  store { i64, ptr } %a, ptr %b, align 8", []),
    ("  %r = alloca [2 x ptr], align 8", []),
    ("  %r = atomicrmw xchg ptr %a, ptr %b seq_cst", []),
]


def narrowing():
    """What tools/narrow_module.py makes of each line."""
    for line, want in NARROWED:
        done = subprocess.run([os.path.join(TOP, "tools/narrow_module.py")], input=line + "\n", capture_output=True, text=True, timeout=60)
        if done.stdout.splitlines() != want or (done.returncode == 0) != bool(want):
            sys.exit(f"{line} is narrowed to {done.stdout!r}, {done.stderr!r}")


def in_c(work):
    """The tests of the heap, and of integers of 128 bits."""
    cc = compiler()
    if not cc:
        return say("no C compiler: the tests of web/heap.c and web/int128.c were left out")
    for name in ("heap", "int128"):
        path = os.path.join(work, name)
        source = os.path.join(TOP, "web/tests", name + ".c")
        ran([cc, "-std=c11", "-O2", "-Wall", "-Wextra", "-Werror", "-fno-pie", "-no-pie", source, "-o", path])
        print(printed([path]), end="", file=sys.stderr)


def web_rows(given):
    """The rows that the module can be held to: what a command line or files that can't be opened come to is the program's own, and
    so are its help, files of names, and `check` of several files."""
    for row in program_rows.all_rows(given):
        if row.status < 2 and row.out is not program_rows.SOME and not row.words[0].startswith("--"):
            options = {word.split("=")[0] for word in row.words}
            if not OWN_OPTIONS & options and (row.words[0] != "check" or len(row.words) == 2):
                yield row


def run_rows(words):
    """How many rows the commands over the module answer rightly; a fault is returned as text."""
    given = program_rows.files()
    rows = list(web_rows(given))
    with concurrent.futures.ThreadPoolExecutor(os.cpu_count()) as pool:
        faults = [(row.words, fault) for row, fault in zip(rows, pool.map(lambda row: wrong(words, row, given), rows)) if fault]
    return f"{faults[0][0]}: {faults[0][1]}" if faults else len(rows)


def module_in(folder):
    """The module in the module.js of a folder."""
    return base64.b64decode(re.search(r'"([A-Za-z0-9+/=]{100,})"', text_of(folder, "module.js"))[1])


def number_of(module, at):
    """The number that stands at a place of a module, seven bits a byte, and the place behind it."""
    value = shift = 0
    while True:
        byte = module[at]
        value, shift, at = value | (byte & 127) << shift, shift + 7, at + 1
        if byte < 128:
            return value, at


def spelled(value):
    """The bytes of a number."""
    return bytes([value & 127 | 128]) + spelled(value >> 7) if value > 127 else bytes([value])


def limited(module, more):
    """A module whose memory may grow by so many pages alone."""
    at = 8
    while module[at] != 5:
        size, body = number_of(module, at + 1)
        at = body + size
    size, body = number_of(module, at + 1)
    pages, end = number_of(module, body + 2)
    if module[body:body + 2] != b"\1\0" or end != body + size:
        sys.exit("the memory of the module is limited already")
    memory = b"\1\1" + spelled(pages) + spelled(pages + more)
    return module[:at] + b"\5" + spelled(len(memory)) + memory + module[end:]


def with_little_memory(module, program, work):
    """Where memory is refused, a call says so, and with more memory it answers as the program."""
    names = [b"glyph%d" % at for at in range(3000)]
    put(program_rows.small_font(b"Large", [RETURN] * 5, {name: 4 for name in names}), work, "large")
    subprocess.run([program, "merge", "out", "large", "large"], cwd=work, check=True, timeout=60)
    want, refused = bytes_of(work, "out"), 0
    for more in (0, 1, 2, 4, 8, 16, 32, 64, 1024):
        path = put(in_base64(limited(module, more)), work, "limited.js")
        os.remove(os.path.join(work, "out"))
        done = subprocess.run([WORDS, "merge", "out", "large", "large"], cwd=work, env={**os.environ, "MODULE": path}, capture_output=True, timeout=60)
        found = bytes_of(work, "out") if os.path.exists(os.path.join(work, "out")) else None
        is_right = (done.returncode, done.stderr, found) == (0, b"", want)
        if not is_right and (done.returncode, done.stderr, found) != (1, b"refused: out of memory\n", None):
            sys.exit(f"with {more} pages more: {done!r:.300}")
        put(b"", work, "out")
        refused += not is_right
    if not is_right or refused < 3:
        sys.exit(f"{refused} mergers are refused for memory, and that with much is {is_right}")


def in_base64(module):
    """The module.js of a module, as far as words.js reads it."""
    return b'const MODULE = "%s";\n' % base64.b64encode(module)


def found_out(module, work):
    """A module with another text in an answer has to fail the rows."""
    if module.count(TRUTH) != 1:
        sys.exit(f"the module has {module.count(TRUTH)} times the text {TRUTH!r}")
    os.environ["MODULE"] = put(in_base64(module.replace(TRUTH, LIE)), work, "lying.js")
    if not isinstance(run_rows(WORDS), str):
        sys.exit("the rows don't see another byte in an answer")


def in_node(folder, program, fonts, work):
    """The commands of the program over the module."""
    module = module_in(folder)
    os.environ["MODULE"] = os.path.join(folder, "module.js")
    run = run_rows(WORDS)
    if isinstance(run, str):
        sys.exit(run)
    with tempfile.TemporaryDirectory() as room:
        pair = test_library.Pair(program, WORDS, room)
        met = test_library.refusals(pair, test_library.Numbers(text_of(TOP, "include/t1subset.h")))
        calls = test_library.run_fonts(pair, fonts)
    with_little_memory(module, program, work)
    found_out(module, work)
    say(f"module of {len(module)} bytes: {run} rows, {met} numbers of refusals, {calls} calls over {len(fonts)} fonts as the program")


def main():
    parser = argparse.ArgumentParser(description=__doc__.splitlines()[0])
    parser.add_argument("--module")
    parser.add_argument("--program", default=BUILDS[0])
    parser.add_argument("fonts", nargs="*")
    asked = parser.parse_args()
    print(printed([os.path.join(TOP, "tools/make_web.py"), "--check"]), end="")
    narrowing()
    with tempfile.TemporaryDirectory() as work:
        in_c(work)
        folder = os.path.abspath(asked.module or work)
        if not asked.module:
            print(printed([os.path.join(TOP, "tools/build_web.sh"), folder]), end="")
        program = os.path.abspath(asked.program)
        installed = test_library.fonts_here()
        fonts = asked.fonts or [installed[at * len(installed) // FONTS] for at in range(FONTS) if installed]
        if shutil.which("node"):
            in_node(folder, program, fonts, work)
        else:
            say("no node: the module was tried in the page alone")
        if browser.found():
            test_page.test(folder, program)
        else:
            say("no Chromium: the page was not tried")


if __name__ == "__main__":
    main()
