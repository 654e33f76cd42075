"""How the scripts of tools/ call the kit's compiler over the libraries that `make` or `rt ci` built, which are proved once.

A library of this repository stands in crates/NAME/out/rlib/NAME.rlib. It holds its statements and not its proofs, which is all
that the crates above it read.
"""
import functools
import hashlib
import os
import re
import shutil
import sys

from common import TOP, below, bytes_of, needs, text_of

# How much memory a check may take, in bytes.
CHECK = 3_000_000_000


@functools.lru_cache(maxsize=None)
def kit():
    """The folder of the kit whose `rt` is on the PATH. A script ends if there is none."""
    command = shutil.which("rt") or sys.exit("no rt: install the Rattle kit")
    return os.path.dirname(os.path.dirname(os.path.realpath(command)))


def library(crate):
    """The built form of a crate, of this repository or of the kit."""
    return os.path.join(TOP, "crates", crate, "out/rlib", crate + ".rlib") if crate in needs() else os.path.join(kit(), "rlibs", crate + ".rlib")


def is_program(crate):
    return os.path.exists(os.path.join(TOP, "crates", crate, "src/main.rt"))


def is_static(crate):
    """Whether a crate is a static library, for programs in other languages."""
    return re.search(rf"^{crate} staticlib *:", text_of(TOP, "crates.txt"), re.M) is not None


def words_of(crate):
    """The words that name a crate, to be read in its folder, and the libraries below it."""
    words = ["--crate-name", crate, "src/main.rt" if is_program(crate) else "src/lib.rt", "--extern", f"std={library('std')}"]
    words += ["--crate-type", "staticlib"] if is_static(crate) else []
    words += ["--links", f"{crate}="] if is_static(crate) or is_program(crate) else []
    for name in needs()[crate]:
        words += ["--extern", f"{name}={library(name)}"]
    for folder in [os.path.join(kit(), "rlibs")] + [os.path.dirname(library(name)) for name in below([crate]) if name in needs()]:
        words += ["-L", f"dependency={folder}"]
    return words + ["--antt-project", os.path.join(kit(), "rattle/logic/antt-project.json"), "--logic-built", os.path.join(kit(), "logic_built")]


def compiler_words(verb, crate, jobs):
    """The words of a check or a build of a crate by this many copies of the compiler."""
    return [os.path.join(kit(), "bin/rattle"), verb, *words_of(crate), "--jobs", str(jobs)]


def files_of(crate):
    """The files that a proof of a crate reads, in one order."""
    for part in ("src", "specs", "proofs"):
        for at, folders, names in os.walk(os.path.join(TOP, "crates", crate, part)):
            folders.sort()
            for name in sorted(names):
                yield os.path.join(at, name)


def sum_of_files(crate):
    """A sum of what stands in a crate: its files and its line of crates.txt."""
    total = hashlib.sha256(repr((needs()[crate], is_static(crate))).encode())
    for path in files_of(crate):
        total.update(repr((os.path.relpath(path, TOP), bytes_of(path))).encode())
    return total.hexdigest()


def sum_of_crate(crate):
    """A sum of all that the proof of a crate rests on: what stands in it, the kit, and the libraries below it as they were built."""
    total = hashlib.sha256(repr((sum_of_files(crate), bytes_of(kit(), "KIT-ID"))).encode())
    for name in below([crate]):
        # The format of a library holds the sum of its files.
        path = os.path.join(library(name), "format")
        total.update(repr((name, bytes_of(path) if name in needs() and os.path.exists(path) else b"")).encode())
    return total.hexdigest()


def processors():
    """How many processors there are to use."""
    return len(os.sched_getaffinity(0))


def lanes():
    """How many checks there may be side by side: one a processor, as far as memory goes."""
    try:
        with open("/proc/meminfo", encoding="utf-8") as f:
            free = next(int(line.split()[1]) * 1024 for line in f if line.startswith("MemAvailable:"))
    except (OSError, StopIteration):
        return processors()
    return max(1, min(processors(), free // CHECK))
