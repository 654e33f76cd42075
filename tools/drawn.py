"""What fonts draw: the texts that `t1subset list` and `show` print, for many glyphs at once.

They are asked of libt1subset, in this process, where python/ can load it; otherwise of the program, by some processes at once.
Each answer costs the reading of its font. So a large font is cut, its cuts are cut again, and each glyph is shown from a
small one, in which it is drawn as in the font (`t1_subset::laws::subsets_draw`).
"""
import contextlib
import itertools
import os
import re
import subprocess
import sys
import tempfile
from concurrent.futures import ThreadPoolExecutor

from common import TOP, Failed, bytes_of, glyphs_in, program, put

# With how many names a font isn't cut any more, into how many parts it is cut, and how many cuts are made at once.
CUT, PARTS, LANES = 32, 16, min(4, os.cpu_count() or 1)
# Shows glyphs one after the other, each behind a line that `show` doesn't print.
SHOW = 'program=$1; shift; for name do echo =; "$program" show font -- "$name" 2>&1 || :; done'


class ByLibrary:
    """The commands over libt1subset, from bytes to text."""

    def __init__(self):
        sys.path.insert(0, os.path.join(TOP, "python"))
        from t1subset import Refused, _calls, subset
        self.refused, self.calls, self.subset = Refused, _calls, subset

    def text(self, call, *files):
        """The text as it is: made into fractions by the package, it would take longer than it takes to draw."""
        given = [part for file in files for part in self.calls._file(file)]
        return self.calls._text(getattr(self.calls.library, "t1subset_" + call), *given)

    def answer(self, call, *given):
        try:
            return call(*given)
        except self.refused as refusal:
            raise Failed(f"refused: {refusal}")

    def listed(self, font):
        return self.answer(self.text, "list", font)

    def shown(self, font, names):
        for name in names:
            try:
                yield self.text("show", font, name)
            except self.refused as refusal:
                yield f"refused: {refusal}"

    def cut(self, font, names):
        return self.answer(self.subset, font, names, "pfb")


class ByProgram:
    """The same by the program, in a folder of its own for each answer."""

    def __init__(self, path):
        self.path = os.path.abspath(path)

    @contextlib.contextmanager
    def ran(self, words, **files):
        """The folder with these files in which the command was run, and what it printed."""
        with tempfile.TemporaryDirectory() as folder:
            for name, data in files.items():
                put(data, folder, name)
            try:
                done = subprocess.run(words, cwd=folder, stdin=subprocess.DEVNULL, capture_output=True)
            except OSError as fault:
                raise Failed(f"{self.path}: {fault.strerror}")
            if done.returncode:
                said = done.stderr.decode("ascii", "backslashreplace").strip()
                raise Failed(said or f"{self.path} ended with status {done.returncode}")
            yield folder, done.stdout.decode("ascii", "backslashreplace")

    def listed(self, font):
        with self.ran([self.path, "list", "font"], font=font) as (_, text):
            return text

    def shown(self, font, names):
        with self.ran(["sh", "-c", SHOW, "sh", self.path, *names], font=font) as (_, text):
            return re.split("^=\n", text, flags=re.M)[1:]

    def cut(self, font, names):
        words = [self.path, "subset", "--pfb", "--names", "names", "font", "out"]
        with self.ran(words, font=font, names=b"\n".join(names)) as (folder, _):
            return bytes_of(folder, "out")


def asked_of(path=None):
    """The program of this path, or that T1SUBSET names; else the library, and where it can't be loaded bin/t1subset."""
    if path or os.environ.get("T1SUBSET"):
        return ByProgram(program(path))
    try:
        return ByLibrary()
    except ImportError:
        return ByProgram(program())


def name_of(printed):
    """The bytes of a name that `list` prints so."""
    return re.sub(rb"\\x([0-9a-f]{2})", lambda code: bytes([int(code[1], 16)]), printed.encode("ascii"))


def names_in(words, font):
    """The names of a font's glyphs."""
    return [name_of(name) for name in glyphs_in(words.listed(font))]


def parts_of(names):
    """The names in at most PARTS lists, none of them needlessly small."""
    each = max(CUT, -(-len(names) // PARTS))
    return [names[at:at + each] for at in range(0, len(names), each)]


def shown_of(words, font, names):
    """What `show` prints of each of these glyphs, from a cut for each part of them, and from cuts of these cuts."""
    if len(names) <= CUT:
        return list(words.shown(font, names))
    return [text for part in parts_of(names) for text in shown_of(words, words.cut(font, part), part)]


def drawings(words, font, names, count):
    """What `show` prints of each of these glyphs of a font that has so many."""
    if count <= CUT:
        return list(words.shown(font, names))
    with ThreadPoolExecutor(LANES) as pool:
        cuts = pool.map(lambda part: shown_of(words, words.cut(font, part), part), parts_of(names))
        return list(itertools.chain.from_iterable(cuts))
