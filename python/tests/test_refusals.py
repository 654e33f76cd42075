"""Each refusal: its number, text, detail and input. The texts are those of t1subset.h, the offsets those of
docs/VECTORS.md."""

from __future__ import annotations

import copy
import pickle
import re
import unittest
from functools import partial
from typing import Any, Callable, List, Optional, Tuple

import t1subset
from t1subset import Number, Part, Refused

from . import fonts
from .fonts import PFA, PFB, changed, made

Row = Tuple[Number, str, int, Optional[int], Callable[[], Any]]

# One byte more than a file may have.
LONG = 268_435_457


def rows_of_files() -> List[Row]:
    """A file that is refused for itself."""
    rows: List[Tuple[Number, str, int, bytes]] = [
        (Number.BAD_SEGMENT, "bad segment at 319", 319, PFB[:1000]),
        (Number.NO_EEXEC, "no eexec", 0, PFA[:312]),
        (Number.SHORT_CIPHER, "cipher too short", 0, PFA[:313]),
        (Number.NO_ENCODING, "no Encoding", 0, changed(b"/Encoding", b"/Encoded")),
        (Number.BAD_ENCODING, "bad Encoding at 195", 195, changed(b"dup 65 /X", b"dup 256 /X")),
        (Number.NO_CHARSTRINGS, "no CharStrings", 0, changed(b"/CharStrings", b"/Charstrings")),
        (Number.BAD_LENIV, "bad lenIV", 0, changed(b"/Subrs 10", b"/lenIV -1 def\n/Subrs 10")),
        (Number.BAD_SUBRS, "bad Subrs at 269", 269, changed(b"dup 0 15 RD ", b"dup 0 3 RD ")),
        (Number.BAD_CHARSTRINGS, "bad CharStrings at 546", 546, changed(b"/.notdef 9 RD ", b"/.notdef 3 RD ")),
        (Number.HYBRID, "hybrid font", 0, changed(b"2 index", b"/Subrs 0 array ND 2 index")),
        (Number.NO_CLOSEFILE, "no closefile", 0, changed(b"closefile", b"closefil")),
        (Number.NO_NOTDEF, "no .notdef", 0, changed(b"/.notdef 9", b"/.notdeg 9")),
        (Number.FONT_LIMIT, "over a limit", 0, changed(b"/Subrs 10", b"/Subrs 65536")),
        (Number.FILE_TOO_LONG, "file too long", 0, bytes(LONG)),
    ]
    found: List[Row] = []
    for number, text, detail, font in rows:
        found += [
            (number, text, detail, 0, partial(t1subset.check, font)),
            (number, text, detail, 0, partial(t1subset.list, font)),
            (number, text, detail, 0, partial(t1subset.list_full, font)),
            (number, text, detail, 0, partial(t1subset.show, font, "nosuch")),
            (number, text, detail, 0, partial(t1subset.convert, font)),
            (number, text, detail, 0, partial(t1subset.mend, font)),
            (number, text, detail, 0, partial(t1subset.mends, font)),
            (number, text, detail, 0, partial(t1subset.subset, font, ["nosuch"])),
            (number, text, detail, 0, partial(t1subset.subset, font, ["nosuch"], codes=b"C")),
            (number, text, detail, 1, partial(t1subset.merge, [PFA, font, b""])),
            (number, text, detail, 2, partial(t1subset.rejoin, [PFB, PFA, font])),
            (number, text, detail, 0, partial(t1subset.subset, font, ["nosuch"], tokens=0)),
            (number, text, detail, 1, partial(t1subset.merge, [PFA, font, b""], tokens=0)),
            (number, text, detail, 2, partial(t1subset.rejoin, [PFB, PFA, font], tokens=0)),
            (number, text, detail, 0, partial(t1subset.diff, font, b"", tokens=0)),
            (number, text, detail, 1, partial(t1subset.diff, PFA, font, tokens=0)),
        ]
    return found


def rows_of_names() -> List[Row]:
    return [
        (Number.NO_GLYPH, "no glyph Zed", 0, None, lambda: t1subset.subset(PFA, ["X", "Zed", "Zet"])),
        (Number.NO_GLYPH, "no glyph Zed", 0, None, lambda: t1subset.show(PFA, b"Zed")),
        (Number.NO_GLYPH, r"no glyph \xc3\x89\x5c", 0, None, lambda: t1subset.show(PFA, "É\\")),
        (Number.NO_GLYPH, r"no glyph \xff\x00", 0, None, lambda: t1subset.subset(PFA, [b"\xff\0"])),
        (Number.NO_GLYPH, "no glyph Zed", 0, None, lambda: t1subset.subset(PFA, ["Zed"], codes=b"AB")),
        (Number.NO_CODE, "no code 67", 67, None, lambda: t1subset.subset(PFA, ["Zed"], codes=b"ACD")),
        (Number.NO_CODE, "no code 0", 0, None, lambda: t1subset.subset(PFA, [], codes=bytes(256))),
        (Number.NO_CODE, "no code 67", 67, None, lambda: t1subset.subset(PFA, ["Zed"], codes=b"C", tokens=0)),
        (Number.NO_GLYPH, "no glyph Zed", 0, None, lambda: t1subset.subset(PFA, ["Zed"], tokens=0)),
    ]


def rows_of_parts() -> List[Row]:
    """A font whose part differs from that of Tiny."""
    table = fonts.CLEAR[fonts.CLEAR.index(b"256 array"):fonts.CLEAR.index(b"readonly def")]
    rows: List[Tuple[Part, str, bytes]] = [
        (Part.HEAD, "head", changed(b"/FontName /Tiny", b"/FontName /Tine")),
        (Part.ENCODING, "encoding", changed(table + b"readonly def", b"StandardEncoding def")),
        (Part.CLEAR_TAIL, "clear tail", changed(b"{0 0 500 700}", b"{0 0 500 701}")),
        (Part.PRIVATE, "private", changed(b"5839", b"5840")),
        (Part.SUBRS_TABLE, "Subrs table", changed(b"/Subrs 10", b"/Subrs 11")),
        (Part.SUBRS_WORDS, "Subrs words", changed(b" NP\n", b" put\n", 10)),
        (Part.MIDDLE, "middle", changed(b"2 index", b"3 index")),
        (Part.GLYPHS_WORDS, "CharStrings words", changed(b" ND\n", b" def\n", 11)),
        (Part.TAIL, "tail", changed(b"definefont pop", b"definefont  pop")),
    ]
    found: List[Row] = []
    for part, text, font in rows:
        row = (Number.SHELLS_DIFFER, "shells differ in " + text, int(part), None)
        found.append((*row, partial(t1subset.merge, [PFA, font])))
        found.append((*row, partial(t1subset.merge, [PFA, font], tokens=0)))
    return found


def many(first: int) -> bytes:
    """A font of 40,000 glyphs."""
    empty = b"\x8b\xf7\x8e\x0d\x0e"
    return made([], {b".notdef": empty, **{b"g%d" % at: empty for at in range(first, first + 40_000)}})


def rows_of_mergers() -> List[Row]:
    """Fonts that don't merge."""
    other = fonts.with_charstrings({b"/A": b"\x0e", b"/B": b"\x0e"})
    stubbed = fonts.with_charstrings({b"dup 5": b"\x0b"})
    hinted = fonts.with_charstrings({b"dup 1": b"\x8b\x0b"})
    lacking = fonts.without(b"/acute")
    used, lacks = "subr 5 differs, used by X", "glyph Aacute lacks part acute"
    short = fonts.without(b"dup 5")
    part, whole = t1subset.subset(lacking, ["Aacute"]), t1subset.subset(PFA, ["acute"])
    one, two = t1subset.subset(PFA, ["Y"]), t1subset.subset(stubbed, ["X"])
    same, differs = t1subset.subset(PFA, ["X"]), t1subset.subset(hinted, ["X"])
    recoded = changed(b"dup 66 /Y", b"dup 66 /X")
    return [
        (Number.CODE_DIFFERS, "code 66 differs", 66, None, lambda: t1subset.merge([PFA, recoded])),
        (Number.GLYPH_DIFFERS, "glyph A differs", 0, None, lambda: t1subset.merge([PFA, other])),
        (Number.GLYPH_LACKS_PART, lacks, 0, None, lambda: t1subset.merge([part, whole])),
        (Number.GLYPH_LACKS_PART, lacks, 0, None, lambda: t1subset.merge([whole, part])),
        (Number.SUBR_DIFFERS, used, 5, None, lambda: t1subset.merge([one, two])),
        (Number.SUBR_DIFFERS, used, 5, None, lambda: t1subset.rejoin([two, one])),
        (Number.GLYPH_LACKS_SUBR, "glyph X lacks subr 5", 5, None, lambda: t1subset.rejoin([PFA, short])),
        (Number.GLYPH_LACKS_SUBR, "glyph X lacks subr 5", 5, None, lambda: t1subset.rejoin([short, other, PFA])),
        (Number.SUBR_DIFFERS, "subr 1 differs", 1, None, lambda: t1subset.merge([same, differs])),
        (Number.MERGE_LIMIT, "over a limit", 0, None, lambda: t1subset.merge([many(0), many(40_000)])),
        (Number.NOTHING_TO_MERGE, "nothing to merge", 0, None, lambda: t1subset.merge([])),
        (Number.NOTHING_TO_MERGE, "nothing to merge", 0, None, lambda: t1subset.rejoin([])),
    ]


def rows_of_tokens() -> List[Row]:
    """Calls that may execute fewer tokens than their glyphs have: .notdef 4, and A 9 with those of its Subr."""
    empty, calls_4, across = b"\x8b\xf7\x8e\x0d\x0e", b"\x8b\xf7\x8e\x0d\x8f\x0a\x0e", b"\xef\x16\x0b"
    font = made([b"\x0b"] * 4 + [across], {b".notdef": empty, b"A": calls_4})
    row = (Number.TOO_MANY_TOKENS, "too many tokens", 0, None)
    found: List[Row] = [
        (*row, lambda: t1subset.subset(font, [], tokens=3)),
        (*row, lambda: t1subset.subset(font, [], codes=b"A", tokens=12)),
        (*row, lambda: t1subset.merge([font, font], tokens=25)),
        (*row, lambda: t1subset.rejoin([font, font], "pfb", tokens=25)),
        (*row, lambda: t1subset.diff(font, font, tokens=25)),
        (*row, lambda: t1subset.diff(font, PFA, tokens=0)),
        (Number.NOTHING_TO_MERGE, "nothing to merge", 0, None, lambda: t1subset.merge([], tokens=0)),
        (Number.NOTHING_TO_MERGE, "nothing to merge", 0, None, lambda: t1subset.rejoin([], tokens=0)),
    ]
    for tokens in (0, 1, 12):
        found += [
            (*row, partial(t1subset.subset, font, ["A"], tokens=tokens)),
            (*row, partial(t1subset.merge, [font], tokens=tokens)),
            (*row, partial(t1subset.rejoin, [font], tokens=tokens)),
        ]
    return found


def rows_of_documents() -> List[Row]:
    document, long, part, other = b"%!PS\nshowpage\n", bytes(LONG), b"%!" + bytes(LONG - 3), b"%PDF-1.7"
    return [
        (Number.NO_FONT, "no font Tiny", 0, None, lambda: t1subset.extract("Tiny", [document, PFA])),
        (Number.NO_FONT, r"no font \xc3\x89\x5c", 0, None, lambda: t1subset.extract("É\\", [])),
        (Number.FILE_TOO_LONG, "file too long", 0, 1, lambda: t1subset.extract("Tiny", [document, long])),
        (Number.FILE_TOO_LONG, "file too long", 0, 0, lambda: t1subset.fonts([long, document])),
        (Number.FILE_TOO_LONG, "file too long", 0, 2, lambda: t1subset.level([document, document, long])),
        (Number.FILE_TOO_LONG, "file too long", 0, 1, lambda: t1subset.pool([document, long])),
        (Number.FILE_TOO_LONG, "file too long", 0, None, lambda: t1subset.pool([document, part])),
        (Number.NO_DOCUMENT, "no document: a PDF file", 0, 1, lambda: t1subset.pool([document, other])),
        (Number.NO_DOCUMENT, "no document: a PDF file", 0, 2, lambda: t1subset.level([document, document, other])),
        (Number.NO_DOCUMENT, "no document: a PDF file", 0, 0, lambda: t1subset.fonts([other, document])),
        (Number.NO_DOCUMENT, "no document: a PDF file", 0, 0, lambda: t1subset.extract("Tiny", [other])),
    ]


def rows_of_listings() -> List[Row]:
    line = b"S 5 0b\n"
    return [
        (Number.BAD_LINE, "bad line 1", 1, 1, lambda: t1subset.join(line, b"S 65535 0b\n")),
        (Number.BAD_LINE, "bad line 2", 2, 0, lambda: t1subset.join(line + b"no listing", b"no listing")),
        (Number.REPEATED_LINE, "repeated in line 2", 2, 0, lambda: t1subset.join(line * 2, b"")),
        (Number.LISTED_SUBR_DIFFERS, "subr 5 differs", 5, None, lambda: t1subset.join(line, b"S 5 ef060b\n")),
        (Number.LISTED_GLYPH_DIFFERS, "glyph X differs", 0, None, lambda: t1subset.join(b"G X 0b\n", b"G X 0e\n")),
        (Number.FILE_TOO_LONG, "file too long", 0, 1, lambda: t1subset.join(line, bytes(LONG))),
    ]


def all_rows() -> List[Row]:
    fonts_alone = [*rows_of_files(), *rows_of_names(), *rows_of_parts(), *rows_of_mergers()]
    return [*fonts_alone, *rows_of_tokens(), *rows_of_listings(), *rows_of_documents()]


class Refusals(unittest.TestCase):
    def refused(self, rows: List[Row]) -> None:
        for number, text, detail, place, call in rows:
            with self.subTest(number=number, text=text, input=place):
                with self.assertRaises(Refused) as caught:
                    call()
                why = caught.exception
                self.assertEqual((why.number, why.text, why.detail, why.input), (number, text, detail, place))
                self.assertIsInstance(why.number, Number)
                self.assertEqual(str(why), text)

    def test_files(self) -> None:
        self.refused(rows_of_files())

    def test_names(self) -> None:
        self.refused(rows_of_names())

    def test_parts(self) -> None:
        self.refused(rows_of_parts())

    def test_mergers(self) -> None:
        self.refused(rows_of_mergers())

    def test_tokens(self) -> None:
        self.refused(rows_of_tokens())

    def test_listings(self) -> None:
        self.refused(rows_of_listings())

    def test_documents(self) -> None:
        self.refused(rows_of_documents())

    def test_each_number_and_part_is_met(self) -> None:
        rows = all_rows()
        others = {Number.OK, Number.MEMORY, Number.BAD_CALL}
        self.assertEqual({row[0] for row in rows}, set(Number) - others)
        self.assertEqual({row[2] for row in rows if row[0] == Number.SHELLS_DIFFER}, set(Part))

    def test_each_text_is_that_of_the_header(self) -> None:
        with open(fonts.TOP + "/include/t1subset.h", encoding="ascii") as file:
            header = file.read()
        texts = dict(re.findall(r'T1SUBSET_(\w+) = \d+,? +/\* "([^"]*)"', header))
        rows = all_rows()
        for number, text, detail, _, _ in rows:
            with self.subTest(number=number):
                form = re.sub(r"\b(NAME|PART|WHAT)\b", ".+", re.escape(texts[number.name]))
                self.assertRegex(text, "^" + re.sub(r"\bN\b", str(detail), form))

    def test_a_refusal_is_a_value_error_that_can_be_pickled(self) -> None:
        with self.assertRaises(ValueError) as caught:
            t1subset.check(b"")
        for twin in (pickle.loads(pickle.dumps(caught.exception)), copy.copy(caught.exception)):
            self.assertIsInstance(twin, Refused)
            self.assertEqual((twin.number, twin.text, twin.detail, twin.input), (Number.NO_EEXEC, "no eexec", 0, 0))

    def test_a_number_of_a_later_library(self) -> None:
        why = Refused(999, "", 1, None)
        self.assertEqual((why.number, str(why)), (999, "refusal 999 of libt1subset"))
