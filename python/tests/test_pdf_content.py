"""What is read of content streams, and of texts of objects. Without pikepdf these tests are left out."""

from __future__ import annotations

import random
import re
import time
import unittest
import zlib
from typing import Any, List, Tuple

from . import left_out

try:
    import pikepdf
except ImportError:
    left_out("pikepdf isn't installed: content streams of PDFs")
    raise unittest.SkipTest("pikepdf isn't installed")

from t1subset import _pdf_filters as filters
from t1subset._pdf_content import Unreadable, events
from t1subset._pdf_graph import Name, Ref, parsed, refs_in


def shows(content: bytes) -> List[Any]:
    """The events, the codes that are shown as a sorted text."""
    return [bytes(sorted(given)) if what == "show" else what if given is None else (what, str(given)) for what, given in events(content)]


FONT = ("Tf", "F")
ROWS: List[Tuple[bytes, List[Any]]] = [
    (b"", []),
    (b"/F 9 Tf(ba)Tj", [FONT, b"ab"]),
    (b"/F 9Tf[(b)-9.5(a)]TJ", [FONT, b"ab"]),
    (b"/F 9 Tf (a(b(c)d)) Tj", [FONT, b"()abcd"]),
    (b"/F 9 Tf (a(b(c(d(e)))))Tj /F 9 Tf(x)Tj", [FONT, b"()abcde", FONT, b"x"]),
    (b"(\\(\\)\\\\\\n\\7\\101\\1012\\q)Tj", [b"\x07\n()2A\\q"]),
    (b"(a\\\nb\\\r\nc\\\rd) Tj", [b"abcd"]),
    (b"(a\rb) Tj", [b"\n\rab"]),
    (b"<41 4\n2> Tj <5> Tj <> Tj", [b"ABP"]),
    (b"% (a) /F 9 Tf <41>\n(b%c) Tj % (", [b"%bc"]),
    (b"% it's (\r/F 9 Tf % )\n(b) Tj", [FONT, b"b"]),
    (b"q Q q(a)Tj Q", ["q", "Q", "q", b"a", "Q"]),
    (b"/q/Q/Tf/Do/gs/a1q 1q 2.Q", ["q", "Q"]),
    (b"qq Qq q1 *q Tfq Do1", []),
    (b"/X Do/G gs", [("Do", "X"), ("gs", "G")]),
    (b"/A#20b#2fc#e9 Do", [("Do", "A b/c\udce9")]),
    (b"/F 9 Tf/S<</T(a)/U<</V<62>>>>>BDC(c)Tj", [FONT, b"c"]),
    (b"/S<</T<</U<61>>>/V(b)>>BDC(c)Tj", [b"c"]),
    (b"/F 9 Tf<<(a)Tj", [FONT, b"a"]),
    (b"<</A(a)q(b)Tj>>Q", [b"a", "q", b"b", "Q"]),
    (b">>(a)Tj<</A(b)>>(c)Tj", [b"a", b"c"]),
    (b"BI /W 2 /H 2 /BPC 8 /CS /RGB ID 123(56789q12\nEI (a) Tj", [b"a"]),
    (b"BI/W 9/H 2/IM true ID (q(q\nEI(a)Tj", [b"a"]),
    (b"BI/W 2/H 2/BPC 4/CS[/Indexed/RGB 1<000000ffffff>]ID (( EI(a)Tj", [b"a"]),
    (b"BI /W 1 /H 1 /CS /Named /BPC 8 ID ( EI \x80( EI (a) Tj", [b"a"]),
    (b"BI /F /AHx /W 1 ID 28 28 EI 28> EI (a) Tj", [b"a"]),
    (b"BI /F [/A85 /DCT] /W 1 ID ( EI ~> EI (a) Tj", [b"a"]),
    (b"BI /F /Fl /W 1 ID " + zlib.compress(b" EI (b) Tj ") + b" EI (a) Tj", [b"a"]),
    (b"BI /F /Fl ID " + zlib.compress(bytes(range(256)) * 500 + b" EI ", 0) + b"\nEI (a) Tj", [b"a"]),
    (b"(BI ) Tj /BI 1 Do", [b" BI", ("Do", "BI")]),
    (b"(a) Tj ) Q", [b"a", "Q"]),
    (b"(a) Tj > Q", [b"a", "Q"]),
]
BAD = [b"(", b"(a\\)", b"<4", b"<4x> Tj", b"BI /W 1 EI", b"BI /W 1 ID a", b"BI /W 1 ID a EI \x80"]


class Content(unittest.TestCase):
    def test_rows(self) -> None:
        for content, wanted in ROWS:
            with self.subTest(content=content):
                self.assertEqual(shows(content), wanted)
                if b"EI" not in content:
                    # The slow way, which an image asks for, finds the same.
                    self.assertEqual(shows(b"BI /W 1 /H 1 /IM true ID ( EI " + content), wanted)

    def test_what_is_not_read(self) -> None:
        for content in BAD:
            with self.subTest(content=content), self.assertRaises(Unreadable):
                events(content)

    def test_any_string(self) -> None:
        chosen = random.Random(1)
        for _ in range(300):
            text = bytes(chosen.choice(b"()\\\r\nab<>%/[1 ") for _ in range(chosen.randrange(30)))
            if chosen.random() < 0.5:
                spelled = b"<" + text.hex().encode() + b">"
            else:
                spelled = b"(" + re.sub(rb"([()\\\r])", lambda it: b"\\r" if it[1] == b"\r" else b"\\" + it[1], text) + b")"
            found = shows(b"q " + spelled + b" Tj Q")
            self.assertEqual(found, ["q", bytes(sorted(set(text))), "Q"] if text else ["q", "Q"], spelled)

    def test_time_is_linear(self) -> None:
        began = time.process_time()
        image = b"BI /F /Fl ID " + zlib.compress(b"a" * 100) + b" EI "
        many = [image * 30_000, b"BI ID a EI " + b"<<" * 300_000, b"(" * 300_000, b"(a" * 300_000 + b")", b"(" + b"\\)" * 300_000]
        for content in [*many, b"<" * 300_001, b"BI " * 30_000]:
            try:
                events(content)
            except Unreadable:
                pass
        self.assertLess(time.process_time() - began, 15)


class Texts(unittest.TestCase):
    def test_values(self) -> None:
        text = b"<< /A [ 1 -2.5 true null /x#20y (a\\)12 0 R) <00ff> 3 0 R ] /B << /C 4 1 R >> /D null /#e9 /N >>"
        value = parsed(text, Ref(7, 0))
        self.assertEqual(value["A"], [1, -2.5, True, None, "x y", b"(a\\)12 0 R)", b"<00ff>", Ref(3, 0)])
        self.assertEqual((value["B"]["C"], value["\udce9"]), (Ref(4, 1), Name("N")))
        self.assertNotIn("D", value)
        self.assertEqual((value.at.ref, value["B"].at.path), (Ref(7, 0), ("/B",)))
        self.assertEqual(refs_in(text), [Ref(3, 0), Ref(4, 1)])

    def test_any_value(self) -> None:
        text = pikepdf.Dictionary(A=pikepdf.Array([b"\x00(\\)", b"5 0 R)", pikepdf.Name("/5 0 R")])).unparse()
        self.assertEqual(refs_in(text), [])


def lzw(text: bytes, early: int = 1) -> bytes:
    """What LZWDecode makes this of."""
    bits, table, width, prefix = f"{256:09b}", {bytes([it]): it for it in range(256)}, 9, b""
    for at in range(len(text)):
        byte = text[at:at + 1]
        if prefix + byte in table:
            prefix += byte
            continue
        bits += f"{table[prefix]:0{width}b}"
        table[prefix + byte] = len(table) + 2
        width = max(width, (len(table) + 1 + early).bit_length())
        prefix = byte
        if len(table) > 4000:
            bits += f"{table[prefix]:0{width}b}{256:0{max(width, (len(table) + 2 + early).bit_length())}b}"
            table, width, prefix = {bytes([it]): it for it in range(256)}, 9, b""
    bits += f"{table[prefix]:0{width}b}" if prefix else ""
    width = max(width, (len(table) + 2 + early).bit_length()) if prefix and len(table) > 256 else width
    bits += f"{257:0{width}b}"
    bits += "0" * (-len(bits) % 8)
    return int(bits, 2).to_bytes(len(bits) // 8, "big")


class Filters(unittest.TestCase):
    def test_limits(self) -> None:
        packed = zlib.compress(bytes(1000))
        self.assertEqual(filters.decoded(packed, ["FlateDecode"], 1000), bytes(1000))
        rows: List[Tuple[bytes, List[str]]] = [(packed, ["FlateDecode"]), (bytes(1000), [])]
        rows += [(lzw(bytes(1000)), ["LZWDecode"]), (packed, ["FlateDecode+"]), (b"\x81a" * 8, ["RunLengthDecode"])]
        for data, names in rows:
            with self.assertRaises(filters.Undecodable):
                filters.decoded(data, names, 999)
        self.assertIsNone(filters.decoded(b"123", ["LZWDecode+"], 10000))
        self.assertIsNone(filters.decoded(b"123", ["AHx", "Crypt"], 10000))

    def test_what_is_cut_short(self) -> None:
        with self.assertRaises(filters.Undecodable):
            filters.decoded(zlib.compress(b"a" * 1000)[:-5], ["FlateDecode"])
        with self.assertRaises(filters.Undecodable):
            filters.decoded(b"4g>", ["ASCIIHexDecode"])

    def test_lzw_and_runs(self) -> None:
        self.assertEqual(filters.decoded(bytes.fromhex("800b6050220c0c8501"), ["LZWDecode"]), b"-----A---B")
        self.assertEqual(filters.decoded(b"\x02abc\xffd\x80e", ["RunLengthDecode"]), b"abcdd")
        chosen, pdf = random.Random(2), pikepdf.new()
        for text in (b"", b"a" * 9000, bytes(chosen.choice(b"abcd") for _ in range(30_000)), chosen.getrandbits(80_000).to_bytes(10_000, "big")):
            for early in (1, 0):
                packed = lzw(text, early)
                self.assertEqual(filters.decoded(packed, ["LZWDecode" if early else "LZWDecode0"]), text)
                parms = pikepdf.Dictionary(EarlyChange=early)
                stream = pikepdf.Stream(pdf, packed, Filter=pikepdf.Name.LZWDecode, DecodeParms=parms)
                self.assertEqual(stream.read_bytes(), text)
        with self.assertRaises(filters.Undecodable):
            filters.decoded(bytes.fromhex("800b7fffff"), ["LZWDecode"])

    def test_letters(self) -> None:
        self.assertEqual(filters.decoded(b"4 1\n4>", ["AHx"]), b"A@")
        self.assertEqual(filters.decoded(b"87cUR\nD]i,\"Ebo80~>", ["ASCII85Decode"]), b"Hello World!")
