#!/usr/bin/env python3
"""Installs the program and the library as a packager does, and takes them away again; tries what `make dist` makes.

usage: tools/test_install.py PROGRAM LIBRARY    the built program, and the folder that tools/build_library.sh made
"""
import glob
import hashlib
import os
import re
import shutil
import subprocess
import sys
import tempfile

import test_header
from common import TINY, TOP, bytes_of, compiler, printed, ran, say, text_of

SHARED = "/usr/lib/x86_64-linux-gnu"
CHECKED = "ok 11 glyphs, 10 subrs, weight 4936\n"
VERSION = test_header.Header(text_of(test_header.HEADER)).version
SONAME = "libt1subset.so." + VERSION.split(".")[0]
NAMES = ["libt1subset.a", "libt1subset.so", SONAME, "libt1subset.so." + VERSION, "pkgconfig/t1subset.pc"]


SAID = set()


def left_out(text):
    """Says once what this machine lacks."""
    if text not in SAID:
        say(text)
    SAID.add(text)


def files_in(folder):
    """The paths of all files and links below a folder."""
    return {os.path.relpath(os.path.join(at, name), folder) for at, _, names in os.walk(folder) for name in names}


def example(page):
    """The program in the section EXAMPLES of a man page."""
    found = re.search(r"^\.SH EXAMPLES\n.*?^\.nf\n(.*?)^\.fi$", text_of(TOP, "docs", page), re.M | re.S)
    return found[1].replace("\\e", "\\").replace("\\-", "-")


class Place:
    """Where the program and the library are installed: the variables of make, and the folders that they come to."""

    def __init__(self, program, library, stage, **variables):
        self.stage, self.variables = stage, variables
        prefix = variables["PREFIX"]
        self.lib = stage + variables.get("LIBDIR", prefix + "/lib")
        self.bin, self.include = stage + prefix + "/bin", stage + prefix + "/include"
        given = {"PROGRAM": program, "LIB": library, "DESTDIR": stage, **variables}
        self.words = ["make", "-s", "-C", TOP, *(f"{name}={value}" for name, value in given.items())]

    def install(self):
        ran([*self.words, "install"])
        wanted = {os.path.relpath(os.path.join(self.lib, name), self.stage) for name in NAMES}
        prefix = self.variables["PREFIX"].lstrip("/")
        others = ["bin/t1subset", "include/t1subset.h", "share/man/man1/t1subset.1", "share/man/man3/t1subset.3"]
        others += ["share/bash-completion/completions/t1subset", "share/zsh/site-functions/_t1subset"]
        wanted |= {os.path.join(prefix, name) for name in others}
        if files_in(self.stage) != wanted:
            sys.exit(f"make install {self.variables}: {sorted(files_in(self.stage) ^ wanted)}")

    def uninstall(self):
        ran([*self.words, "uninstall"])
        if files_in(self.stage):
            sys.exit(f"make uninstall {self.variables} leaves {sorted(files_in(self.stage))}")

    def flags(self, *asked):
        """What pkg-config answers."""
        env = {**os.environ, "PKG_CONFIG_PATH": self.lib + "/pkgconfig", "PKG_CONFIG_ALLOW_SYSTEM_LIBS": "1"}
        env.update(PKG_CONFIG_ALLOW_SYSTEM_CFLAGS="1")
        if self.stage:
            env["PKG_CONFIG_SYSROOT_DIR"] = self.stage
        return printed(["pkg-config", *asked, "t1subset"], env=env).split()


def cut(program, folder, **env):
    """The example of the man page cuts Tiny as the program does."""
    env = {**os.environ, **env}
    written = ran([program, TINY, "X"], env=env)
    refused = subprocess.run([program, TINY, "Zed"], env=env, capture_output=True)
    if (refused.returncode, refused.stdout, refused.stderr) != (1, b"", b"no glyph Zed\n"):
        sys.exit(f"the man page's example: {refused!r}")
    return written


def try_place(place, program, work):
    """The man page's example is compiled, linked by pkg-config with both libraries, and run."""
    cc = compiler()
    source = os.path.join(TOP, "examples/cut.c")
    out = os.path.join(work, "cut")
    if printed([os.path.join(place.bin, "t1subset"), "check", TINY]) != CHECKED:
        sys.exit("the installed program prints another line")
    ran([program, "subset", TINY, out + ".pfa", "X"])
    ran([program, "pfb", out + ".pfa", out + ".pfb"])
    wanted = bytes_of(out + ".pfb")
    warnings = ["-std=c99", "-Wall", "-Wextra", "-Wpedantic", "-Werror"]
    if shutil.which("pkg-config"):
        if place.flags("--modversion") != [VERSION]:
            sys.exit("pkg-config tells another version")
        ran([cc, *warnings, source, "-o", out, *place.flags("--cflags", "--libs")])
    else:
        left_out("no pkg-config: t1subset.pc was not tried")
        ran([cc, *warnings, source, "-o", out, f"-I{place.include}", f"-L{place.lib}", "-lt1subset"])
    ran([cc, *warnings, source, "-o", out + ".static", f"-I{place.include}", place.lib + "/libt1subset.a"])
    answers = [cut(out, work, LD_LIBRARY_PATH=place.lib), cut(out + ".static", work)]
    if answers != [wanted, wanted]:
        sys.exit("the man page's example cuts another subset than the program")


def stripped(place):
    """Neither symbols nor debugging information are left that nobody needs."""
    for path in (place.lib + "/" + SONAME, place.bin + "/t1subset"):
        if b" .symtab" in ran(["readelf", "-S", "-W", path]):
            sys.exit(f"{path} is not stripped")
    if b" .debug_" in ran(["readelf", "-S", "-W", place.lib + "/libt1subset.a"]):
        sys.exit("libt1subset.a has debugging information")


def installed(program, library, work):
    stage = os.path.join(work, "stage")
    places = [
        Place(program, library, stage, PREFIX="/usr", LIBDIR=SHARED),
        Place(program, library, stage, PREFIX="/usr/local"),
        Place(program, library, "", PREFIX=os.path.join(work, "own")),
    ]
    for place in places[:2]:
        place.install()
        stripped(place)
        try_place(place, program, work)
        place.uninstall()
    own = places[2]
    ran([*own.words, "install"])
    try_place(own, program, work)
    ran([*own.words, "uninstall"])
    if files_in(os.path.join(work, "own")):
        sys.exit("make uninstall leaves files in a folder of one's own")


def checksums(folder):
    return {os.path.basename(path): hashlib.sha256(bytes_of(path)).hexdigest() for path in sorted(glob.glob(folder + "/*"))}


class Unpacked:
    """A tree that was unpacked or installed without make, in place of a `Place`."""

    stage = ""

    def __init__(self, folder):
        self.bin, self.lib, self.include = folder + "/bin", folder + "/lib", folder + "/include"

    flags = Place.flags


def distributed(program, library, work):
    """Two runs of `make dist` give the same bytes; what they made works where it is unpacked, and is installed and removed."""
    sums = []
    for name in ("first", "second"):
        out = os.path.join(work, name)
        ran([os.path.join(TOP, "tools/make_dist.sh"), program, library, out])
        sums.append(checksums(out))
    if sums[0] != sums[1]:
        sys.exit(f"two runs of tools/make_dist.sh differ: {sums}")
    tree = os.path.join(work, "unpacked")
    os.mkdir(tree)
    ran(["tar", "-xf", glob.glob(work + "/first/*.tar.gz")[0], "-C", tree, "--strip-components=1"])
    try_place(Unpacked(tree), program, work)
    # A blank may stand in its path, though pkg-config doesn't take one; and the installed tree may be moved.
    own, moved = os.path.join(work, "by itself"), os.path.join(work, "moved")
    ran([tree + "/install.sh", own])
    shutil.move(own, moved)
    try_place(Unpacked(moved), program, work)
    ran([tree + "/install.sh", "--remove", moved])
    if files_in(moved):
        sys.exit("install.sh --remove leaves files")
    packages = glob.glob(work + "/first/*.deb")
    if packages:
        debian_package(packages[0], work)
    else:
        left_out("no dpkg-deb: the Debian package was not tried")


def debian_package(path, work):
    root = os.path.join(work, "root")
    ran(["dpkg-deb", "-x", path, root])
    if printed([root + "/usr/bin/t1subset", "check", TINY]) != CHECKED:
        sys.exit("the program of the Debian package prints another line")
    if shutil.which("lintian"):
        ran(["lintian", "--allow-root", "--fail-on", "error", path])
    else:
        left_out("no lintian: what it would say of the Debian package was left out")


def pages():
    """The man pages have no fault that mandoc or man sees, and the example is that of examples/."""
    if text_of(TOP, "examples/cut.c") != example("t1subset.3"):
        sys.exit("the program in docs/t1subset.3 is not examples/cut.c")
    for page in ("t1subset.1", "t1subset.3"):
        path = os.path.join(TOP, "docs", page)
        if shutil.which("mandoc"):
            ran(["mandoc", "-T", "lint", "-W", "warning", path])
        elif shutil.which("man"):
            done = subprocess.run(["man", "--warnings", "-l", path], capture_output=True, env={**os.environ, "MANPAGER": "cat"})
            if done.returncode or done.stderr:
                sys.exit(f"{page}: {done.stderr.decode()}")
        else:
            left_out("neither mandoc nor man: the man pages were not looked at")


def test(folder, program, work):
    pages()
    installed(program, folder, work)
    distributed(program, folder, work)


def main():
    program, library = map(os.path.abspath, sys.argv[1:])
    with tempfile.TemporaryDirectory() as work:
        test(library, program, work)


if __name__ == "__main__":
    main()
