#!/usr/bin/env python3
"""Checks that the completions are made of what the program says of itself, and what bash completes by them.

usage: tools/test_completions.py [PROGRAM]    by default the built program
"""
import os
import shutil
import subprocess
import sys
import tempfile

import refused_rows
from common import BUILDS, TINY, TOP, put, ran, say

SCRIPT = os.path.join(TOP, "packaging/completions/t1subset.bash")
TRIED = """PATH=$1:$PATH; . "$2"; shift 2
COMP_WORDS=("$@"); COMP_CWORD=$(($# - 1)); _t1subset; printf '%s\\n' "${COMPREPLY[@]}"
"""
WORDS = "subset merge rejoin pool level fonts diff mend check list show pfa pfb join"
NAMES = ".notdef A Aacute B F H L N X Y acute"
# A glyph whose name a shell would run.
HOSTILE = b"`id`"


def rows(font):
    """The arguments of a command line, of which the last is to be completed, and what it may become."""
    yield [""], WORDS + " help --explain --help --version"
    yield ["--explain", "su"], "subset"
    yield ["--explain", "show", TINY, "Aa"], "Aacute"
    yield ["su"], "subset"
    yield ["help", "re"], "rejoin"
    yield ["merge", "--p"], "--pfb"
    yield ["subset", "--"], "--explain --names --codes --text --tokens --pfb --help"
    yield ["subset", "--codes", "65", "--text", "x", TINY, "out", "a"], "acute"
    yield ["subset", "--names", ""], ""
    yield ["subset", ""], ""
    yield ["subset", TINY, ""], ""
    yield ["subset", TINY, "out", ""], NAMES
    yield ["subset", "--pfb", "--names", "file", TINY, "out", "A", "a"], "acute"
    yield ["show", TINY, "Aa"], "Aacute"
    yield ["check", TINY, ""], ""
    yield ["show", "absent", ""], ""
    yield ["show", font, "`"], "\\`id\\`"
    yield ["nothing", ""], ""


def completed(folder, words):
    return ran(["bash", "-c", TRIED, "bash", folder, SCRIPT, "t1subset", *words]).decode().split()


def test(program, folder):
    os.symlink(program, os.path.join(folder, "t1subset"))
    letters = refused_rows.glyphs({**refused_rows.GLYPHS, HOSTILE: refused_rows.MOVES})
    font = put(refused_rows.made(letters=letters), folder, "hostile.pfa")
    for words, want in rows(font):
        got = completed(folder, words)
        if got != want.split():
            sys.exit(f"{words}: bash completes {got}, and not {want.split()}")
    if shutil.which("zsh"):
        ran(["zsh", "-n", os.path.join(TOP, "packaging/completions/_t1subset")])


def main():
    program = os.path.abspath(sys.argv[1] if len(sys.argv) > 1 else BUILDS[0])
    done = subprocess.run([os.path.join(TOP, "tools/make_completions.py"), "--check", program])
    if done.returncode:
        sys.exit(done.returncode)
    if not shutil.which("bash"):
        say("no bash: what it completes was not tried")
        return
    with tempfile.TemporaryDirectory() as folder:
        test(program, folder)


if __name__ == "__main__":
    main()
