#!/usr/bin/env python3
"""Runs the built program on rows of arguments, and compares its status, what it prints and which files it leaves.

usage: tools/test_program.py [PROGRAM...]    without a name the two builds that `rt ci` leaves
"""
import os
import resource
import signal
import stat
import subprocess
import sys
import tempfile

from common import BUILDS, TINY, TINY_PFB, bytes_of, example, page_rows, put
from program_rows import SOME, STUB, all_rows, files, small_font


def same(written, want):
    return written != b"" if want is SOME else written == want


def files_in(folder):
    """The files in a folder and below it, by their paths there."""
    paths = [os.path.join(above, name) for above, _, names in os.walk(folder) for name in names]
    return {os.path.relpath(path, folder): bytes_of(path) for path in paths}


def wrong(program, row, given):
    """What is wrong with a run of the program, or None. It finds the files, and an empty folder."""
    with tempfile.TemporaryDirectory() as folder:
        os.mkdir(os.path.join(folder, "folder"))
        for name, text in given.items():
            put(text, folder, name)
        words = [os.fsencode(word) for word in [program, *row.words]]
        done = subprocess.run(words, cwd=folder, stdin=subprocess.DEVNULL, capture_output=True, timeout=60)
        stand = files_in(folder)
    if done.returncode != row.status:
        return f"status {done.returncode}"
    if not same(done.stdout, row.out):
        return f"printed {done.stdout!r}"
    if not same(done.stderr, row.err):
        return f"said {done.stderr!r}"
    return None if stand == {**given, **row.left} else "left other files"


def full(program):
    """A printed result that standard output doesn't take is a failed write, after which no more files are checked."""
    explained = f"failed: write\nfile: standard output\n{page_rows()['failed: write']}\n".encode()
    for more, said in (([], b"failed: write\n"), ([TINY, "absent"], b"failed: write\n"), (["--explain"], explained)):
        with open("/dev/full", "wb") as out:
            done = subprocess.run([program, "check", TINY, *more], stdout=out, stderr=subprocess.PIPE, timeout=60)
        if (done.returncode, done.stderr) != (3, said):
            sys.exit(f"{program}: status {done.returncode}, {done.stderr!r}, where standard output is full")


def small_files_alone():
    """Files of at most 1,000 bytes can be written, and a longer write fails."""
    signal.signal(signal.SIGXFSZ, signal.SIG_IGN)
    resource.setrlimit(resource.RLIMIT_FSIZE, (1000, 1000))


def kept_output(program, folder):
    """A write that fails leaves OUT as it was, and nothing beside it."""
    put(b"what stood here", "old")
    words = [program, "pfa", TINY_PFB, "old"]
    done = subprocess.run(words, capture_output=True, preexec_fn=small_files_alone, timeout=60)
    return (done.returncode, done.stderr, bytes_of("old"), os.listdir(folder)) == (3, b"failed: write\n", b"what stood here", ["old"])


def same_output(program, folder):
    """OUT keeps its permissions; a link still leads where it led, and a file with two names stays one file."""
    put(b"what stood here", "old")
    os.chmod("old", 0o640)
    os.link("old", "other")
    os.symlink("linked", "link")
    for out in ("old", "link", "new"):
        subprocess.run([program, "pfa", TINY_PFB, out], check=True, timeout=60)
    whole = example("tiny.pfa")
    written = [bytes_of(name) == whole for name in ("old", "other", "linked", "new")]
    os.remove("other")
    subprocess.run([program, "pfb", TINY_PFB, "old"], check=True, timeout=60)
    mode = stat.S_IMODE(os.stat("old").st_mode)
    names = sorted(os.listdir(folder))
    return all(written) and mode == 0o640 and os.path.islink("link") and names == ["link", "linked", "new", "old"]


def left_parts(program, folder):
    """Where parts were left under all names beside OUT, or the name would be too long, OUT is written in place and that is said."""
    said = "note: %s is written in place: no file could be made beside it\n"
    put(b"what stood here", "old")
    for number in range(100):
        put(b"", f"old.{number}.part")
    whole = example("tiny.pfa")
    for out in ("old", "l" * 250):
        words = [program, "pfa", TINY_PFB, out]
        done = subprocess.run(words, capture_output=True, timeout=60)
        if (done.returncode, done.stderr.decode(), bytes_of(out)) != (0, said % out, whole):
            return False
    return sorted(os.listdir(folder)) == sorted(["old", "l" * 250] + [f"old.{number}.part" for number in range(100)])


# OUT is a file of a disk of 4,096 bytes, mounted where it stands: nothing can take its name, and a longer text doesn't fit.
MOUNTED = """set -e
mkdir disk
mount -t tmpfs -o size=4096 none disk
: > disk/file
: > out
mount --bind disk/file out
set +e
"$1" pfa big.font out
echo "status $?"
cat out.0.part >&3
"""


def kept_result(program, folder):
    """A complete result that can neither take OUT's name nor be copied to it stays, and it is said where."""
    if subprocess.run(["unshare", "-m", "true"], capture_output=True).returncode:
        print("no mounts here: a result that can't take OUT's name was left out", file=sys.stderr)
        return True
    put(small_font(b"Big", [STUB] * 5, {b"g%d" % at: 4 for at in range(200)}), "big.font")
    subprocess.run([program, "pfa", "big.font", "whole"], check=True, timeout=60)
    words = ["unshare", "-m", "sh", "-c", MOUNTED, "sh", program]
    done = subprocess.run(["sh", "-c", 'exec 3>kept; exec "$@"', "sh", *words], capture_output=True, timeout=60)
    is_kept = bytes_of("whole") == bytes_of("kept")
    said = b"failed: write\nnote: the whole result is in out.0.part\n"
    return is_kept and (done.stdout, done.stderr) == (b"status 3\n", said)


def said_to_a_terminal(words):
    """The status of a run whose standard error is a terminal, and what it says there."""
    reader, terminal = os.openpty()
    done = subprocess.run(words, stderr=terminal, timeout=60)
    os.close(terminal)
    said = b""
    while True:
        try:
            more = os.read(reader, 65536)
        except OSError:
            break
        if not more:
            break
        said += more
    os.close(reader)
    return done.returncode, said


def shown_progress(program, folder):
    """On a terminal ten documents are shown in one line as they are read, and nine are not."""
    names = [f"{number}.ps" for number in range(10)]
    for name in names:
        put(b"%!PS\n", name)
    shown = b"".join(b"\r\x1b[Kreading %d of 10: %d.ps" % (number + 1, number) for number in range(10)) + b"\r\x1b[K"
    many = said_to_a_terminal([program, "pool", "out", *names])
    few = said_to_a_terminal([program, "pool", "out", *names[1:]])
    return many == (0, shown) and few == (0, b"") and bytes_of("out") == b"%!PS\n" * 9


def outputs(program):
    """What becomes of the file that OUT names, and what a terminal shows."""
    here = os.getcwd()
    for test in (kept_output, same_output, left_parts, kept_result, shown_progress):
        with tempfile.TemporaryDirectory() as folder:
            os.chdir(folder)
            try:
                if not test(program, folder):
                    sys.exit(f"{program}: {test.__doc__} Not so.")
            finally:
                os.chdir(here)


def main():
    given = files()
    rows = all_rows(given)
    programs = [os.path.abspath(it) for it in sys.argv[1:]] or BUILDS
    for program in programs:
        for row in rows:
            fault = wrong(program, row, given)
            if fault:
                sys.exit(f"{program} {row.words}: {fault}")
        full(program)
        outputs(program)
    print(f"t1subset: {len(rows) + 6} rows of arguments, by {len(programs)} builds", file=sys.stderr)


if __name__ == "__main__":
    main()
