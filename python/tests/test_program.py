"""The package against the program t1subset: the same bytes, and texts that say the same."""

from __future__ import annotations

import os
import subprocess
import tempfile
import unittest
from typing import Any, Callable, List, Optional, Tuple

import t1subset

from . import fonts, left_out, test_documents
from .test_laws import some_names


def every_font() -> List[Tuple[str, bytes]]:
    """Tiny, also as another program spells it, and some of the installed fonts, whether they are read or not."""
    return [("tiny.pfa", fonts.PFA), ("tiny.pfb", fonts.PFB), ("spelled", fonts.spelled()), *fonts.installed()]


def accepted(font: bytes) -> bool:
    try:
        t1subset.check(font)
    except t1subset.Refused:
        return False
    return True


def program() -> Optional[str]:
    """The program: that of the variable T1SUBSET, else the tree's."""
    built = [os.path.join(fonts.TOP, place) for place in ("bin/t1subset", "crates/t1subset/out/t1subset")]
    return next((it for it in [os.environ.get("T1SUBSET", ""), *built] if os.path.exists(it)), None)


def shown(name: str) -> str:
    """A name as the program prints it."""
    them = name.encode("utf-8", "surrogateescape")
    return "".join(chr(byte) if 33 <= byte <= 126 and byte != 92 else r"\x%02x" % byte for byte in them)


def amount(value: Any) -> str:
    count = value * 65536
    assert count.denominator == 1
    return str(value) if value.denominator == 1 else f"{count}/65536"


def line(word: str, *numbers: Any) -> str:
    return " ".join([word, *map(amount, numbers)]) + "\n"


def text_of(answer: object) -> str:
    """The text that an answer was made of."""
    if isinstance(answer, t1subset.Checked):
        return f"ok {answer.glyphs} glyphs, {answer.subrs} subrs, weight {answer.weight}\n"
    if isinstance(answer, t1subset.Undrawn):
        return f"fault {answer.fault}\n"
    if isinstance(answer, t1subset.Drawn):
        lines = [line("width", answer.width.x, answer.width.y), line("bearing", answer.bearing.x, answer.bearing.y)]
        for part in answer.parts:
            lines.append(line("part", part.offset.x, part.offset.y))
            lines += [line(mark.word, *mark.numbers) for mark in part.marks]
        return "".join(lines)
    assert isinstance(answer, t1subset.Listed)
    return "".join([*listed_lines(answer), *lines_in_full(answer)])


def listed_lines(answer: t1subset.Listed) -> List[str]:
    if isinstance(answer.encoding, str):
        lines = [f"encoding {shown(answer.encoding)}\n"]
    else:
        lines = [f"code {code} {shown(name)}\n" for code, name in answer.encoding.items()]
    lines += [f"subr {index} {length}\n" for index, length in answer.subrs.items()]
    return lines + [f"glyph {shown(name)} {length}\n" for name, length in answer.glyphs.items()]


def lines_in_full(answer: t1subset.Listed) -> List[str]:
    """The lines that `list` prints with `--full` alone."""
    if not isinstance(answer, t1subset.ListedInFull):
        return []
    name = None if answer.name is None else shown(answer.name)
    told = [("name", name), ("matrix", answer.matrix), ("box", answer.bbox), ("unique", answer.unique_id)]
    lines = [f"{word} {value}\n" for word, value in told if value is not None]
    for glyph, width in answer.widths.items():
        word = "width " + shown(glyph)
        if isinstance(width, t1subset.Point):
            lines.append(line(word, width.x, width.y))
        else:
            lines.append(f"{word} fault {width.fault}\n")
    return lines


class Program(unittest.TestCase):
    def setUp(self) -> None:
        found = program()
        if found is None:
            left_out("no program t1subset: the package is not compared with it")
            self.skipTest("no program")
        self.program = os.path.abspath(found)

    def run_words(self, words: List[str], inputs: List[bytes], output: bool) -> Tuple[str, bytes]:
        """What is said on standard error, and what is printed or written, of arguments in which IN0, IN1 and so on name the
        inputs."""
        with tempfile.TemporaryDirectory() as folder:
            for place, data in enumerate(inputs):
                with open(os.path.join(folder, f"IN{place}"), "wb") as file:
                    file.write(data)
            done = subprocess.run([self.program, *words], cwd=folder, stdout=subprocess.PIPE, stderr=subprocess.PIPE)
            said = done.stderr.decode()
            if done.returncode == 1:
                return said, b""
            self.assertEqual(done.returncode, 0, words)
            if not output:
                return said, done.stdout
            with open(os.path.join(folder, "OUT"), "rb") as file:
                return said, file.read()

    def same(self, words: List[str], inputs: List[bytes], call: Callable[[], Any]) -> None:
        """The call answers what the program prints or writes, or refuses for the same text. What it mends the program
        says, too."""
        said, text = self.run_words(words, inputs, "OUT" in words)
        try:
            answer = call()
        except t1subset.Refused as why:
            self.assertEqual(f"refused: {why.text}\n", said)
            return
        mends = t1subset.mends(inputs[0]) if words[0] == "mend" else []
        self.assertEqual(said, "".join(f"{mend}\n" for mend in mends), words)
        self.assertEqual(text, answer if isinstance(answer, bytes) else text_of(answer).encode())

    def test_words_about_one_font(self) -> None:
        for path, font in every_font():
            with self.subTest(font=path):
                names = some_names(font) if accepted(font) else []
                self.same(["check", "IN0"], [font], lambda: t1subset.check(font))
                self.same(["list", "IN0"], [font], lambda: t1subset.list(font))
                self.same(["list", "--full", "IN0"], [font], lambda: t1subset.list_full(font))
                self.same(["pfa", "IN0", "OUT"], [font], lambda: t1subset.convert(font))
                self.same(["pfb", "IN0", "OUT"], [font], lambda: t1subset.convert(font, "pfb"))
                self.same(["mend", "IN0", "OUT"], [font], lambda: t1subset.mend(font))
                self.same(["mend", "--pfb", "IN0", "OUT"], [font], lambda: t1subset.mend(font, "pfb"))
                self.same(["subset", "IN0", "OUT", *names], [font], lambda: t1subset.subset(font, names))
                self.same(["subset", "IN0", "OUT", "Zed"], [font], lambda: t1subset.subset(font, ["Zed"]))
                words = ["subset", "IN0", "OUT", "--codes", "65-66"]
                self.same(words, [font], lambda: t1subset.subset(font, [], codes=b"AB"))
                words = ["subset", "IN0", "OUT", "--text", "Zed", *names]
                self.same(words, [font], lambda: t1subset.subset(font, names, codes=b"Zed"))
                for tokens in (0, 100, 2**64 - 1):
                    words = ["subset", "--tokens", str(tokens), "IN0", "OUT", *names]
                    self.same(words, [font], lambda: t1subset.subset(font, names, tokens=tokens))
                for name in [*names, "Zed"]:
                    self.same(["show", "IN0", name], [font], lambda: t1subset.show(font, name))

    def test_words_about_several_fonts(self) -> None:
        accepts = [font for _, font in every_font() if accepted(font)]
        cuts = [t1subset.subset(font, some_names(font)[:4]) for font in accepts]
        cuts += [t1subset.subset(font, some_names(font)[4:]) for font in accepts]
        for one in cuts:
            for two in cuts:
                self.same(["merge", "OUT", "IN0", "IN1"], [one, two], lambda: t1subset.merge([one, two]))
        self.same(["rejoin", "OUT", "IN0", "IN1"], cuts[:2], lambda: t1subset.rejoin(cuts[:2]))
        for tokens in (0, 100, 2**64 - 1):
            for word, call in (("merge", t1subset.merge), ("rejoin", t1subset.rejoin)):
                words = [word, "--tokens", str(tokens), "OUT", "IN0", "IN1"]
                self.same(words, cuts[:2], lambda: call(cuts[:2], tokens=tokens))
            words, alike = ["diff", "--tokens", str(tokens), "IN0", "IN1"], [accepts[0], accepts[0]]
            self.same(words, alike, lambda: t1subset.diff(*alike, tokens=tokens))
        broken = [cuts[0], b"no font"]
        self.same(["rejoin", "OUT", "IN0", "IN1"], broken, lambda: t1subset.rejoin(broken))

    def test_documents(self) -> None:
        documents = [test_documents.SOME, test_documents.OTHER, *test_documents.UNLIKE, b"%!showpage"]
        for one in documents:
            for two in documents:
                said, text = self.run_words(["pool", "OUT", "IN0", "IN1"], [one, two], True)
                self.assertEqual(text, t1subset.pool([one, two]))
                kept = {place.name: place.reason for place in t1subset.fonts([one, two]) if place.reason}
                self.assertEqual(said, "".join(f"kept {shown(name)}: {reason}\n" for name, reason in kept.items()))

    def test_prefixes_of_tiny(self) -> None:
        for font in (fonts.PFA, fonts.PFB):
            for size in range(0, len(font), 37):
                cut = font[:size]
                with self.subTest(size=size):
                    self.same(["check", "IN0"], [cut], lambda: t1subset.check(cut))

    def test_listings(self) -> None:
        names = ["left.listing", "right.listing", "other.listing", "tiny.pfa"]
        listings = [fonts.example(name) for name in names]
        for one in listings:
            for two in listings:
                self.same(["join", "IN0", "IN1"], [one, two], lambda: t1subset.join(one, two))
