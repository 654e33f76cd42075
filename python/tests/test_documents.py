"""What the calls over PostScript documents make of Tiny, and of fonts that don't rejoin."""

from __future__ import annotations

import pickle
import unittest

import t1subset
from t1subset import Placed, _texts

from .fonts import PFA, PFB, TEST, changed, document, made
from .test_laws import ACROSS, EMPTY, STUB, UP, calling

WHOLE, SOME, OTHER, BOTH = (
    document(font, b"Tiny")
    for font in (PFA, t1subset.subset(PFA, ["X"]), t1subset.subset(PFA, ["Y"]), t1subset.subset(PFA, ["Y", "X"]))
)
# A document with a line in place of its font.
LINED = document(b"/Tiny /pool:Tiny findfont definefont pop\n", b"Tiny")
# Two fonts of one name that don't rejoin.
UNLIKE = [document(made([STUB] * 4 + [subr], {b".notdef": EMPTY, b"A": calling(4)})) for subr in (ACROSS, UP)]


def before(text: bytes) -> bytes:
    """What stands before pooled documents whose font is that of this document."""
    font = text[len(b"%!PS\n%%BeginFont: Tiny\n"):-len(b"%%EndFont\n")]
    defined = b"/pool:Tiny /Tiny findfont definefont pop\nsystemdict/undefinefont known{/Tiny undefinefont}if\n"
    return b"%!PS-Adobe-3.0\n%%BeginResource: font Tiny\n" + font + b"%%EndResource\n" + defined


class Documents(unittest.TestCase):
    def test_pooled(self) -> None:
        self.assertEqual(t1subset.pool([SOME]), SOME)
        self.assertEqual(t1subset.pool([SOME, OTHER, SOME]), before(BOTH) + LINED * 3)
        self.assertEqual(t1subset.pool([SOME + OTHER]), before(BOTH) + LINED * 2)
        self.assertEqual(t1subset.pool(it for it in (SOME, WHOLE)), before(WHOLE) + LINED * 2)
        self.assertEqual(t1subset.pool([b"%!PS", b"\x04%!PS showpage\x04"]), b"%!PS\n%!PS showpage")
        self.assertEqual(t1subset.pool([]), b"")

    def test_pooled_by_families(self) -> None:
        first, second = SOME.replace(b"/FontName /", b"/FontName /ABCDEF+"), OTHER.replace(b"/FontName /", b"/FontName /GHIJKL+")
        named = [document(b"/%s+Tiny /pool:Tiny findfont definefont pop\n" % tag, b"Tiny") for tag in (b"ABCDEF", b"GHIJKL")]
        self.assertEqual(t1subset.pool([first, second]), first + second)
        self.assertEqual(t1subset.pool([first, second], tags=True), before(BOTH) + b"".join(named))
        self.assertEqual(t1subset.pool([SOME, OTHER], tags=True), before(BOTH) + LINED * 2)
        self.assertEqual(t1subset.pool([], tags=True), b"")

    def test_pooled_as_one_document(self) -> None:
        def page(number: int, head: bytes, text: bytes) -> bytes:
            front = b"%%%%Page: %d %d\n%%%%BeginPageSetup\npool::begin\n" % (number, number)
            return front + head + b"% %%Page: 1 1\n%\n%%EndPageSetup\n" + text + b"pool::end\n"

        head, line = (text[len(b"%!PS\n"):] for text in (WHOLE, LINED))
        fonts = before(WHOLE)[len(b"%!PS-Adobe-3.0\n"):]
        made = t1subset.pool([b"%!PS\n" + head + b"%%Page: 1 1\na\n%%Page: 1 1\nb\n"], dsc=True)
        self.assertTrue(made.startswith(b"%!PS-Adobe-3.0\n%%Pages: 2\n%%EndComments\n%%BeginProlog\n/pool::kept 3 dict def\n"))
        pages = page(1, line, b"a\n") + page(2, line, b"b\n")
        self.assertTrue(made.endswith(b"%%EndProlog\n%%BeginSetup\n" + fonts + b"%%EndSetup\n" + pages + b"%%Trailer\n%%EOF\n"))
        self.assertEqual(made, t1subset.pool([b"%!PS\n" + head + b"%%Page: 1 1\na\n%%Page: 1 1\nb\n"], tags=True, dsc=True))

    def test_levelled(self) -> None:
        self.assertEqual(t1subset.level([SOME, b"\x04%!", OTHER]), [BOTH, b"\x04%!", BOTH])
        self.assertEqual(t1subset.level([SOME] * 100 + [WHOLE]), [WHOLE] * 101)
        self.assertEqual(t1subset.level([SOME]), [SOME])
        self.assertEqual(t1subset.level([]), [])

    def test_fonts_that_do_not_rejoin_stay(self) -> None:
        self.assertEqual(t1subset.pool(UNLIKE), b"".join(UNLIKE))
        self.assertEqual(t1subset.level(UNLIKE), UNLIKE)
        reason = "subr 4 differs, used by A"
        self.assertEqual(t1subset.fonts(UNLIKE), [Placed(at, 23, "Made", 2, 0, reason) for at in (0, 1)])
        self.assertEqual(t1subset.extract("Made", UNLIKE[1:]), UNLIKE[1][23:-10])

    def test_places(self) -> None:
        embedded = b"%!\n%%BeginDocument: a\n" + OTHER + b"%%EndDocument\n"
        places = [Placed(0, 23, "Tiny", 11, 0, None), Placed(2, 45, "Tiny", 2, 1, None)]
        places += [Placed(2, len(embedded) + 23, "Tiny", 2, 0, None)]
        self.assertEqual(t1subset.fonts([WHOLE, b"%!PS\n", embedded + SOME]), places)
        self.assertEqual(t1subset.fonts([]), [])
        self.assertEqual(t1subset.fonts([PFA]), [])

    def test_names_that_are_no_ascii(self) -> None:
        for name, given in ((b"a\\b", "a\\b"), ("é".encode(), "é"), (b"\xff", "\udcff")):
            font = made([], {b".notdef": EMPTY}, name)
            with self.subTest(name=name):
                self.assertEqual([it.name for it in t1subset.fonts([document(font)])], [given])
                for wanted in (name, given):
                    self.assertEqual(t1subset.extract(wanted, [document(font)]), font)

    def test_what_is_extracted_is_mended(self) -> None:
        tested = t1subset.convert(changed(b"/FontName /Tiny", TEST[:-1] + b"/FontName /Tiny"))
        self.assertNotEqual(tested, PFA)
        self.assertEqual(t1subset.extract(b"Tiny", [b"%!PS\n", document(tested), SOME]), PFA)

    def test_answers_can_be_compared_and_pickled(self) -> None:
        places = t1subset.fonts(UNLIKE)
        self.assertEqual(pickle.loads(pickle.dumps(places)), places)

    def test_texts_of_another_library(self) -> None:
        place, last = "0: 1 A 2 0 joined\n", "1 places, 1 names, 0 kept\n"
        texts = ["", last, place, place + place + last, last + place]
        texts += [f"{line}\n{last}" for line in ("0: 1 A 2 joined", "0: 1 A 2 0 kept", "a: 1 A 2 0 joined")]
        for text in texts:
            with self.subTest(text=text):
                self.assertRaises(RuntimeError, _texts.placed, text)
