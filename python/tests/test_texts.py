"""What `check`, `list`, `list_full`, `show` and `mends` say, and names that are no ASCII."""

from __future__ import annotations

import doctest
import pickle
import unittest
from fractions import Fraction
from typing import Any, Tuple

import t1subset
from t1subset import Checked, Drawn, Listed, Mend, Point, Undrawn, _calls, _texts

from . import fonts
from .fonts import PFA, PFB, changed

EMPTY = b"\x8b\xf7\x8e\x0d\x0e"


def marks(drawing: object) -> Tuple[Any, ...]:
    """A drawing as plain tuples."""
    assert isinstance(drawing, Drawn)
    parts = []
    for part in drawing.parts:
        parts.append(((part.offset.x, part.offset.y), [(mark.word, *mark.numbers) for mark in part.marks]))
    return (drawing.width.x, drawing.width.y), (drawing.bearing.x, drawing.bearing.y), parts


class Texts(unittest.TestCase):
    def test_examples_of_the_calls(self) -> None:
        done = doctest.testmod(_calls, extraglobs={"font": PFA})
        self.assertEqual(done.failed, 0)
        self.assertGreater(done.attempted, 6)

    def test_check(self) -> None:
        self.assertEqual(t1subset.check(PFA), Checked(glyphs=11, subrs=10, weight=4936))

    def test_list_of_a_table(self) -> None:
        listed = t1subset.list(t1subset.subset(PFA, ["X"]))
        lengths = [11, 5, 5, 1, 1, 3, 1, 1, 1, 1]
        self.assertEqual(listed, Listed({65: "X"}, dict(enumerate(lengths)), {".notdef": 5, "X": 15}))

    def test_list_of_a_word(self) -> None:
        listed = t1subset.list(fonts.made([], {b".notdef": EMPTY}))
        self.assertEqual(listed, Listed("StandardEncoding", {}, {".notdef": 5}))

    def test_list_of_no_codes(self) -> None:
        self.assertEqual(t1subset.list(t1subset.subset(PFA, [])).encoding, {})

    def test_list_in_full(self) -> None:
        full, listed = t1subset.list_full(PFA), t1subset.list(PFA)
        self.assertEqual((full.encoding, full.subrs, full.glyphs), (listed.encoding, listed.subrs, listed.glyphs))
        self.assertEqual((full.name, full.matrix, full.bbox), ("Tiny", "0.001 0 0 0.001 0 0", "0 0 500 700"))
        self.assertIsNone(full.unique_id)
        self.assertEqual(list(full.widths), list(full.glyphs))
        widths = {".notdef": 250, "X": 300, "acute": 300, "Aacute": 500}
        for name, width in widths.items():
            self.assertEqual(full.widths[name], Point(Fraction(width), Fraction(0)))
        self.assertEqual((full.widths["L"], full.widths["N"]), (Undrawn("Nesting"), Undrawn("NestedSeac")))

    def test_values_as_they_are_spelled(self) -> None:
        matrix = b"/FontMatrix [0.001 0 0 0.001 0 0]"
        rows = [
            (matrix, b"/FontMatrix{ 1e-3 0\n0 .001\x800 0}", "matrix", r" 1e-3 0 0 .001\x800 0"),
            (b"/FontBBox {0 0 500 700}", b"/FontBBox", "bbox", "def"),
            (b"/FontName /Tiny", b"/FontName/T\xe9\\y", "name", "T\udce9\\y"),
            (b"/FontName /Tiny", b"/FontName /", "name", None),
            (b"/FontName /Tiny", b"/FontNames /Tiny", "name", None),
            (b"/FontName /Tiny", b"/UniqueID 5000793 def\n/FontName /Tiny", "unique_id", "5000793"),
        ]
        for old, new, field, value in rows:
            with self.subTest(new=new):
                self.assertEqual(getattr(t1subset.list_full(changed(old, new)), field), value)

    def test_show(self) -> None:
        box = [("move", 50, 0), ("line", 150, 0), ("line", 150, 700), ("line", 50, 700), ("close",)]
        self.assertEqual(marks(t1subset.show(PFA, "X")), ((300, 0), (50, 0), [((0, 0), box)]))
        hints = [("hstem", 0, 20), ("replace",), ("hstem", 100, 20)]
        self.assertEqual(marks(t1subset.show(PFA, "H")), ((500, 0), (0, 0), [((0, 0), hints)]))
        curves = [("curve", 110, 0, 130, 5, 150, 5), ("curve", 170, 5, 190, 0, 200, 0)]
        flex = [("move", 100, 0), ("flex", 50), *curves, ("close",)]
        self.assertEqual(marks(t1subset.show(PFA, b"F")), ((500, 0), (0, 0), [((0, 0), flex)]))

    def test_show_of_two_parts(self) -> None:
        base = [("move", 0, 0), ("line", -100, 0), ("close",)]
        accent = [("move", 50, 0), ("line", 150, 0), ("close",)]
        parts = [((0, 0), base), ((70, 200), accent)]
        self.assertEqual(marks(t1subset.show(PFA, "Aacute")), ((500, 0), (0, 0), parts))

    def test_show_of_faults(self) -> None:
        self.assertEqual(t1subset.show(PFA, "N"), Undrawn("NestedSeac"))
        self.assertEqual(t1subset.show(PFA, "L"), Undrawn("Nesting"))

    def test_mends(self) -> None:
        table = fonts.CLEAR[fonts.CLEAR.index(b"256 array"):fonts.CLEAR.index(b"readonly def")]
        copied = b"dup 66 /X put\ndup dup 65 exch 66 get put"
        rows = [
            (changed(b"dup 65 ", b"% a comment\ndup 65 "), Mend("comment in Encoding", 195)),
            (changed(b"dup 65 /X put", copied), Mend("code copied", 209)),
            (changed(table, b"StandardEncoding "), Mend("readonly Encoding", 135)),
            (changed(b"dup 0 ", b"% a comment\ndup 0 "), Mend("comment in Subrs", 269)),
            (changed(b"/FontName /Tiny", fonts.TEST + b"/FontName /Tiny"), Mend("test of FontDirectory taken out", 44)),
        ]
        for font, mend in rows:
            with self.subTest(mend=mend):
                self.assertEqual(t1subset.mends(font), [mend])
        for font in (PFA, PFB):
            self.assertEqual(t1subset.mends(font), [])

    def test_several_mends(self) -> None:
        mends = t1subset.mends(fonts.spelled())
        self.assertEqual(mends, [("comment in Encoding", 195), ("comment in Subrs", 269)])
        self.assertEqual([(mend.what, mend.at) for mend in mends], mends)
        self.assertEqual(list(map(str, mends)), ["comment in Encoding at 195", "comment in Subrs at 269"])

    def test_amounts_that_are_not_whole(self) -> None:
        # `0 250 hsbw 1 3 div -1 3 div rmoveto endchar`, of which a third is cut toward zero.
        third = b"\x8b\xf7\x8e\x0d\x8c\x8e\x0c\x0c\x8a\x8e\x0c\x0c\x15\x0e"
        drawing = t1subset.show(fonts.with_charstrings({b"/A": third}), "A")
        move = ("move", Fraction(21845, 65536), Fraction(-21845, 65536))
        self.assertEqual(marks(drawing), ((250, 0), (0, 0), [((0, 0), [move])]))

    def test_names_that_are_no_ascii(self) -> None:
        rows = [(b"a\\b", "a\\b"), ("é".encode(), "é"), (b"\xff\x80", "\udcff\udc80"), (b"\\x41", "\\x41")]
        for name, given in rows:
            with self.subTest(name=name):
                font = fonts.made([], {b".notdef": EMPTY, name: EMPTY})
                self.assertEqual(t1subset.list(font).glyphs, {".notdef": 5, given: 5})
                self.assertEqual(t1subset.convert(font), font)
                self.assertEqual(t1subset.subset(font, [given]), font)
                self.assertEqual(t1subset.show(font, given), t1subset.show(font, name))

    def test_answers_can_be_compared_and_pickled(self) -> None:
        drawn, undrawn, mends = t1subset.show(PFA, "X"), t1subset.show(PFA, "N"), t1subset.mends(fonts.spelled())
        for answer in (t1subset.check(PFA), t1subset.list(PFA), t1subset.list_full(PFA), drawn, undrawn, mends):
            self.assertEqual(pickle.loads(pickle.dumps(answer)), answer)

    def test_texts_of_another_library(self) -> None:
        for parse, text in [
            (_texts.checked, "ok\n"),
            (_texts.listed, "glyph A\n"),
            (_texts.listed, "kern A B 5\n"),
            (_texts.listed, "name Tiny\n"),
            (_texts.listed_in_full, "name\n"),
            (_texts.listed_in_full, "width A 5\n"),
            (_texts.listed_in_full, "width A 5 0 0\n"),
            (_texts.drawn, ""),
            (_texts.drawn, "width 1 0\nbearing 0 0\nmove 1 0\n"),
            (_texts.drawn, "bearing 0 0\nwidth 1 0\n"),
            (_texts.drawn, "width 1 0\nbearing 0 0\npart 0\n"),
            (_texts.mended, "\n"),
            (_texts.mended, "code copied at 1\ncode copied\n"),
            (_texts.mended, "code copied at -1\n"),
        ]:
            with self.subTest(text=text):
                self.assertRaises(RuntimeError, parse, text)
