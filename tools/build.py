#!/usr/bin/env python3
"""Proves and builds the program, or another crate, and says on standard error what it is doing and how far it is.

usage: tools/build.py [CRATE...]      by default t1subset; t1_c is the archive of the library for C
Each crate is proved once, from nothing, and then built: lowest first, those that don't wait for one another side by side, by as
many copies of the compiler as there are processors and room in memory. Where an earlier run, or the gate, proved the same files over
the same libraries, nothing is proved again. The program is crates/t1subset/out/t1subset then, and the archive
crates/t1_c/out/libt1_c.a, beside which stands t1_c.bc, what the kit's compiler gives to clang.

What `rt check` proved while a crate was written is not taken: this proves what stands there as a stranger would.
"""
import concurrent.futures
import os
import shutil
import subprocess
import sys
import tempfile
import time

from common import TOP, below, needs, put, say, text_of
from kit import compiler_words, is_program, is_static, kit, lanes, library, processors, sum_of_crate

PROGRAM = "t1subset"
REMIND = 300
# How many copies of the compiler may work on one crate: more seldom help.
MOST = 4


def out(crate, *path):
    return os.path.join(TOP, "crates", crate, "out", *path)


def results(crate):
    """What stands there once a crate is built."""
    if is_program(crate):
        return [out(crate, crate)]
    return [out(crate, f"lib{crate}.a"), out(crate, crate + ".bc")] if is_static(crate) else [library(crate)]


def mark(crate):
    """The file that says what the results of a crate were made of."""
    return out(crate, "made") if is_program(crate) or is_static(crate) else os.path.join(os.path.dirname(library(crate)), "made")


def is_built(crate):
    return all(map(os.path.exists, [mark(crate), *results(crate)])) and text_of(mark(crate)) == sum_of_crate(crate)


def ran(words, crate):
    """Whether a command ended well; else what it printed is told. One that was killed is tried once more by one copy alone."""
    how = {"cwd": os.path.join(TOP, "crates", crate), "stdin": subprocess.DEVNULL, "stdout": subprocess.PIPE, "stderr": subprocess.STDOUT}
    done = subprocess.run(words, **how)
    if done.returncode == -9 and "--jobs" in words:
        at = words.index("--jobs") + 1
        done = subprocess.run([*words[:at], "1", *words[at + 1:]], **how)
    if done.returncode:
        say(done.stdout.decode("utf-8", "replace")[-6000:])
        say(f"{crate} is not proved, or not built")
    return done.returncode == 0


def make_library(crate, jobs):
    """Proves a library and builds it, with its statements alone for the crates above."""
    return ran([*compiler_words("build", crate, jobs), "--statements", "-o", library(crate)], crate)


def make_program(crate, jobs):
    """Proves a program and links it."""
    made, toolchain = out(crate, crate + ".o"), os.path.join(kit(), "toolchain")
    if not ran([*compiler_words("build", crate, jobs), "--toolchain", toolchain, "--backend", "llvm", "-o", made], crate):
        return False
    words = [os.path.join(kit(), "bin/rattle-link"), "--target", "x86_64-unknown-linux-gnu", "--toolchain", toolchain, "-o", out(crate, crate), made]
    return ran(words + [os.path.join(kit(), "c", name) for name in ("libos_c.a", "liblibc_c.a")], crate)


def keeping_toolchain(room, module):
    """The kit's toolchain, but that its clang keeps the module that it is given in this file."""
    real = os.path.join(kit(), "toolchain")
    os.mkdir(os.path.join(room, "bin"))
    os.symlink(os.path.join(real, "lib"), os.path.join(room, "lib"))
    for tool in os.listdir(os.path.join(real, "bin")):
        if tool != "clang":
            os.symlink(os.path.join(real, "bin", tool), os.path.join(room, "bin", tool))
    script = f'#!/bin/sh\nfor word in "$@"; do\n    case "$word" in *.bc) cp "$word" "{module}" ;; esac\ndone\nexec "{real}/bin/clang" "$@"\n'
    os.chmod(put(script.encode(), room, "bin/clang"), 0o755)


def make_archive(crate, jobs):
    """Proves a static library and compiles it."""
    archive, module = results(crate)
    with tempfile.TemporaryDirectory(prefix="toolchain-") as room:
        keeping_toolchain(room, module)
        return ran([*compiler_words("build", crate, jobs), "--toolchain", room, "--backend", "llvm", "-o", archive], crate)


def made(crate, jobs):
    """Whether a crate could be proved and built, which is noted beside what was made."""
    for path in [mark(crate), *results(crate)]:
        shutil.rmtree(path) if os.path.isdir(path) else os.path.exists(path) and os.remove(path)
    os.makedirs(os.path.dirname(mark(crate)), exist_ok=True)
    total = sum_of_crate(crate)
    make = make_program if is_program(crate) else make_archive if is_static(crate) else make_library
    good = make(crate, jobs)
    if good:
        put(total.encode(), mark(crate))
    return good


class Builds:
    """The crates that are to be built, with all below them, lowest first; which of them are done, and which are being proved."""

    def __init__(self, crates):
        self.began, self.lanes = time.time(), lanes()
        self.crates = [crate for crate in [*below(crates), *crates] if crate in needs()]
        self.done, self.running, self.failed = [], {}, False

    def ready(self):
        """The crates that wait for no other any more."""
        for crate in self.crates:
            if crate not in self.done and crate not in self.running and all(dep in self.done for dep in needs()[crate] if dep in needs()):
                yield crate

    def take(self):
        """Notes what an earlier run left."""
        kept = next(filter(is_built, self.ready()), None)
        while kept:
            self.done.append(kept)
            kept = next(filter(is_built, self.ready()), None)

    def start(self, pool):
        """Begins with what is ready. Two copies at least work on a crate where there are processors and room for two, since the last
        crate of several would leave processors idle."""
        self.take()
        new = list(self.ready())[:max(0, self.lanes - len(self.running))]
        jobs = max(min(2, self.lanes), min(MOST, self.lanes // max(1, len(new) + len(self.running))))
        for crate in new:
            self.running[crate] = pool.submit(made, crate, jobs)

    def tell(self, what):
        left = [crate for crate in self.crates if crate not in self.done]
        minutes = (time.time() - self.began) / 60
        say(f"{what}, after {minutes:.1f} minutes: {len(self.done)} of {len(self.crates)} crates are done" + (", to come: " + ", ".join(left) if left else ""))

    def run(self):
        """Builds all, and answers whether it could. After a crate that fails only those end that have begun."""
        with concurrent.futures.ThreadPoolExecutor(max(1, self.lanes)) as pool:
            self.start(pool)
            while self.running:
                ended = concurrent.futures.wait(self.running.values(), REMIND, concurrent.futures.FIRST_COMPLETED).done
                for crate in [crate for crate, build in self.running.items() if build in ended]:
                    if self.running.pop(crate).result():
                        self.done.append(crate)
                        self.tell(f"{crate} is proved")
                    else:
                        self.failed = True
                if not ended:
                    self.tell("still proving")
                if not self.failed:
                    self.start(pool)
        return not self.failed


def main():
    wanted = sys.argv[1:] or [PROGRAM]
    builds = Builds(wanted)
    builds.take()
    left = len(builds.crates) - len(builds.done)
    if left:
        say(f"Proving and building {', '.join(wanted)}: {left} of {len(builds.crates)} crates, by {builds.lanes} checks side by side on {processors()} processors.")
        say("From nothing the program took 16 minutes on four processors.")
    if not builds.run():
        return 1
    if left:
        say(f"{', '.join(wanted)} is proved and built")
    return 0


if __name__ == "__main__":
    sys.exit(main())
