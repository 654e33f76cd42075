"""What holds between the calls, of Tiny and of installed fonts."""

from __future__ import annotations

import itertools
import unittest
from typing import Callable, Iterator, List, Tuple

import t1subset

from . import fonts, left_out
from .fonts import PFA, PFB, made

# Charstrings of Subrs that glyphs call: a move across, a move up, and the `return` that stands for a Subr that is cut.
ACROSS, UP, STUB = b"\xef\x16\x0b", b"\xef\x04\x0b", b"\x0b"
EMPTY = b"\x8b\xf7\x8e\x0d\x0e"


def calling(index: int) -> bytes:
    """A charstring that calls this Subr."""
    return b"\x8b\xf7\x8e\x0d" + bytes([139 + index]) + b"\x0a\x0e"


def each_font() -> Iterator[Tuple[str, bytes]]:
    """Tiny, and those of the installed fonts that the library reads."""
    yield "tiny.pfa", PFA
    yield "tiny.pfb", PFB
    for path, font in fonts.installed():
        try:
            t1subset.check(font)
        except t1subset.Refused as why:
            left_out(f"{path}, which is refused: {why}")
        else:
            yield path, font


def some_names(font: bytes) -> List[str]:
    """Eight names of a font, from its whole table."""
    names = list(t1subset.list(font).glyphs)
    return names[:: max(1, len(names) // 8)][:8]


class Laws(unittest.TestCase):
    def test_subsets_merge_in_any_order_to_the_subset_of_all(self) -> None:
        for path, font in each_font():
            with self.subTest(font=path):
                names = some_names(font)
                cuts = [names[:2], names[2:3], names[2:]]
                parts = [t1subset.subset(font, cut, form) for cut, form in zip(cuts, itertools.cycle(t1subset.Form))]
                for form in t1subset.Form:
                    whole = t1subset.subset(font, names, form)
                    for order in itertools.permutations(parts):
                        self.assertEqual(t1subset.merge(order, form), whole)
                        self.assertEqual(t1subset.rejoin(order, form), t1subset.rejoin([whole], form))

    def test_a_glyph_draws_in_a_subset_as_in_the_font(self) -> None:
        for path, font in each_font():
            names = some_names(font)
            cut = t1subset.subset(font, names)
            for name in names:
                with self.subTest(font=path, name=name):
                    self.assertEqual(t1subset.show(cut, name), t1subset.show(font, name))

    def test_a_font_has_one_file_in_each_form(self) -> None:
        for path, font in each_font():
            with self.subTest(font=path):
                pfa, pfb = t1subset.convert(font, "pfa"), t1subset.convert(font, "pfb")
                self.assertEqual((pfa[:1], pfb[:2]), (b"%", b"\x80\x01"))
                self.assertEqual((t1subset.convert(pfb), t1subset.convert(pfa, "pfb")), (pfa, pfb))
                self.assertEqual(t1subset.list_full(pfa), t1subset.list_full(font))

    def test_a_mended_font_is_mended(self) -> None:
        for path, font in each_font():
            with self.subTest(font=path):
                pfa, pfb = t1subset.mend(font, "pfa"), t1subset.mend(font, "pfb")
                for mended in (pfa, pfb):
                    self.assertEqual((t1subset.mend(mended), t1subset.mend(mended, "pfb")), (pfa, pfb))
                    self.assertEqual((t1subset.convert(mended), t1subset.convert(mended, "pfb")), (pfa, pfb))
                    self.assertEqual(t1subset.mends(mended), [])
                self.assertEqual(t1subset.mends(font) == [], pfa == t1subset.convert(font))

    def test_a_font_that_another_program_spells(self) -> None:
        word = b"/Encoding StandardEncoding"
        font = made([STUB] * 4, {b".notdef": EMPTY}, b"Small")
        spelled = font.replace(word + b" def", word + b" % a comment\n readonly def")
        self.assertNotEqual(spelled, font)
        self.assertRaises(t1subset.Refused, t1subset.check, spelled)
        self.assertEqual((t1subset.mend(spelled), t1subset.rejoin([spelled, font])), (font, font))
        self.assertEqual(t1subset.mends(spelled), [("comment in Encoding", 24), ("readonly Encoding", 24)])

    def test_tiny_in_both_forms(self) -> None:
        for font in (PFA, PFB):
            self.assertEqual((t1subset.convert(font), t1subset.convert(font, "pfb")), (PFA, PFB))

    def test_subsets_that_another_program_cut_rejoin(self) -> None:
        one = made([STUB] * 4 + [ACROSS], {b".notdef": EMPTY, b"A": calling(4)}, b"ABCDEF+Small")
        two = made([STUB] * 5 + [UP], {b".notdef": EMPTY, b"B": calling(5)}, b"ZYXWVU+Small")
        both = made([STUB] * 4 + [ACROSS, UP], {b".notdef": EMPTY, b"A": calling(4), b"B": calling(5)}, b"Small")
        self.assertEqual((t1subset.rejoin([one, two]), t1subset.rejoin([two, one])), (both, both))
        self.assertEqual(t1subset.rejoin([one, two], "pfb"), t1subset.convert(both, "pfb"))

    def test_all_conflicts_of_two_fonts(self) -> None:
        one = made([STUB] * 4 + [ACROSS], {b".notdef": EMPTY, b"A": calling(4)}, b"Small")
        two = made([STUB] * 4 + [UP], {b".notdef": EMPTY, b"A": calling(4), b"B": calling(4)}, b"Other")
        told = b"shells differ in head\nsubr 4 differs, used by A\n"
        self.assertEqual((t1subset.diff(one, two), t1subset.diff(two, one)), (told, told))
        self.assertEqual(t1subset.diff(t1subset.subset(PFA, ["X"]), t1subset.subset(PFB, ["Y"])), b"")
        self.assertRaises(t1subset.Refused, t1subset.diff, PFA, b"no font")
        # .notdef executes 4 tokens, and A and B 9 each, by either answer to hint replacement: 35 in both fonts.
        self.assertEqual((t1subset.diff(one, two, tokens=70), t1subset.diff(two, one, tokens=70)), (told, told))

    def test_codes_are_their_names(self) -> None:
        codes = {65: "X", 66: "Y", 194: "H"}
        for wanted in itertools.chain.from_iterable(itertools.combinations(codes, size) for size in range(4)):
            with self.subTest(codes=wanted):
                named = t1subset.subset(PFA, [codes[code] for code in wanted], "pfb")
                self.assertEqual(t1subset.subset(PFB, [], "pfb", codes=bytes(wanted)), named)
                more = t1subset.merge([named, t1subset.subset(PFA, ["A"])])
                self.assertEqual(t1subset.subset(PFB, ["A"], codes=bytes(wanted)), more)

    def test_codes_of_the_standard_encoding(self) -> None:
        names = [b".notdef", b"A", b"circumflex", b"eacute", b"quotesingle"]
        font = made([], dict.fromkeys(names, EMPTY))
        kept = t1subset.list(t1subset.subset(font, [], codes="Aé".encode())).glyphs
        self.assertEqual(list(kept), [".notdef", "A", "circumflex", "quotesingle"])

    def test_tokens_that_are_enough(self) -> None:
        font = made([STUB] * 4 + [ACROSS], {b".notdef": EMPTY, b"A": calling(4)})
        # .notdef executes 4 tokens and A 9, by either answer to hint replacement.
        for tokens in (26, 27, 2**63, 2**64 - 1):
            with self.subTest(tokens=tokens):
                self.assertEqual(t1subset.subset(font, ["A"], tokens=tokens), font)
                self.assertEqual(t1subset.subset(font, [], codes=b"A", tokens=tokens), font)
                self.assertEqual(t1subset.merge([font], tokens=tokens), font)
                self.assertEqual(t1subset.rejoin([font], tokens=tokens), font)
                two, pfb = [font, font], t1subset.convert(font, "pfb")
                self.assertEqual(t1subset.merge(two, "pfb", tokens=max(tokens, 52)), pfb)
                self.assertEqual(t1subset.rejoin(two, "pfb", tokens=max(tokens, 52)), pfb)
                self.assertEqual(t1subset.diff(font, pfb, tokens=max(tokens, 52)), b"")

    def test_tokens_of_fonts(self) -> None:
        for path, font in each_font():
            with self.subTest(font=path):
                names = some_names(font)
                parts = [t1subset.subset(font, names[:4]), t1subset.subset(font, names[4:])]
                # No glyph executes more than 100,000 tokens by one answer.
                enough = 400_000 * len(t1subset.list(font).glyphs)
                self.assertEqual(t1subset.subset(font, names[:4], tokens=enough), parts[0])
                self.assertEqual(t1subset.merge(parts, tokens=enough), t1subset.merge(parts))
                self.assertEqual(t1subset.rejoin(parts, tokens=enough), t1subset.rejoin(parts))
                self.assertEqual(t1subset.diff(*parts, tokens=enough), b"")
                calls: List[Callable[[], bytes]] = [
                    lambda: t1subset.merge(parts, tokens=0),
                    lambda: t1subset.rejoin(parts, tokens=0),
                    lambda: t1subset.diff(*parts, tokens=0),
                ]
                for call in calls:
                    with self.assertRaises(t1subset.Refused) as caught:
                        call()
                    self.assertEqual(caught.exception.number, t1subset.Number.TOO_MANY_TOKENS)

    def test_listings_join(self) -> None:
        left, right = fonts.example("left.listing"), fonts.example("right.listing")
        self.assertEqual(t1subset.join(left, right), fonts.example("both.listing"))
        self.assertEqual(t1subset.join(b"", b""), b"")

    def test_sizes_of_subsets(self) -> None:
        rows: List[Tuple[List[str], int, int]] = [([], 2141, 2167), (["X"], 2224, 2444)]
        rows += [(["X", "X"], 2224, 2444), (["X", "Y"], 2301, 2718)]
        for names, size, weight in rows:
            with self.subTest(names=names):
                cut = t1subset.subset(PFA, names)
                self.assertEqual((len(cut), t1subset.check(cut).weight), (size, weight))
