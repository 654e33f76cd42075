"""What `t1subset.pdf` makes of small PDFs. Without pikepdf these tests are left out."""

from __future__ import annotations

import itertools
import unittest
import unittest.mock
import zlib
from typing import Any, Callable, Dict, List, Tuple

from . import left_out

try:
    import pikepdf
except ImportError:
    left_out("pikepdf isn't installed: PDFs")
    raise unittest.SkipTest("pikepdf isn't installed")

import t1subset
from t1subset import _pdf_content, _pdf_filters, _pdf_fonts, _pdf_shown, pdf

from .fonts import PFA, PFB, changed, with_charstrings
from .pdfs import STAYS, Volume, again, cut, descriptors, dictionary, differences, files, form, lines, name, opened, pooled, raw
from .pdfs import resources, two

# Tiny with another X and another Y.
OTHER = t1subset.convert(with_charstrings({b"/X": b"\x8b\xf7\x8e\x0d\x0e", b"/Y": b"\x8b\xf7\x8e\x0d\x0e"}))


class Joined(unittest.TestCase):
    def test_two_cuts_are_one(self) -> None:
        made = two()
        given = made.opened()
        report = pdf.pool(given)
        found = again(given)
        whole = t1subset.rejoin([cut("X"), cut("Y")])
        self.assertEqual(len({it.FontFile.objgen for it in descriptors(found)}), 1)
        for it in descriptors(found):
            self.assertEqual(t1subset.convert(it.FontFile.read_bytes()), whole)
            self.assertEqual(it.FontFile.read_bytes(), raw(whole))
            self.assertEqual(str(it.CharSet), "/X/Y")
            self.assertEqual(str(it.FontName), "/" + report.joins[0].font_name)
            clear, cipher, rest = (int(it.FontFile[f"/Length{at}"]) for at in (1, 2, 3))
            self.assertEqual((clear, cipher, rest), (raw(whole).index(b"eexec\n") + 6, len(raw(whole)) - clear, 0))
        for page in found.pages:
            self.assertEqual(page.Resources.Font.F.BaseFont, page.Resources.Font.F.FontDescriptor.FontName)
        before = sum(len(raw(it)) for it in (cut("X"), cut("Y")))
        after = len(zlib.compress(raw(whole), 9))
        self.assertEqual(str(report), f"Tiny: 2 fonts joined, 3 glyphs, {before:,} to {after:,} bytes\n")

    def test_nothing_is_written_where_that_is_asked(self) -> None:
        made = two()
        given = made.opened()
        self.assertEqual(str(pdf.pool(given, write=False, dictionaries=True)).splitlines(), lines(made))
        self.assertEqual(differences(made.opened(), again(given)), set())

    def test_the_graph_stays(self) -> None:
        made = two()
        made.pdf.Root.Outlines = made.add(dictionary({"P": made.pdf.Root.Pages, "C": pikepdf.Array([1, 2.5, True])}))
        made.stream(b"not reached")
        made.pdf.Root.Values = pikepdf.Array([made.add(it) for it in (7, True, False, None, pikepdf.Object.parse(b"-2.50"))])
        made.pdf.Root.Values.append(made.add(pikepdf.String("(")))
        made.pdf.Root.Further = made.stream(b"plain, and not to be compressed " * 9)
        found = differences(made.opened(), pooled(made))
        wanted = {"BaseFont", "FontDescriptor/CharSet", "FontDescriptor/FontFile", "FontDescriptor/FontName"}
        fonts = [f"/Root/Pages/Kids/{at}/Resources/Font/F/" for at in range(2)]
        self.assertEqual(found, {font + key for font in fonts for key in wanted})

    def test_without_char_set_none_is_written(self) -> None:
        made = Volume()
        for glyph in "XY":
            descriptor = made.descriptor(cut(glyph))
            del descriptor["/CharSet"]
            made.showing(made.font(descriptor))
        self.assertTrue(all("/CharSet" not in it for it in descriptors(pooled(made))))

    def test_char_set_spells_names(self) -> None:
        self.assertEqual(_pdf_fonts.char_set([".notdef", "b", "a#b", "a b", "é", "\udcff"]), "/a#20b/a#23b/b/#c3#a9/#ff")

    def test_one_font_stays(self) -> None:
        made = Volume()
        made.showing(made.font(cut("X")))
        self.assertEqual(lines(made), [])
        self.assertEqual(differences(made.opened(), pooled(made)), set())

    def test_no_page(self) -> None:
        self.assertEqual(lines(Volume()), [])

    def test_forms_of_files(self) -> None:
        made = Volume()
        for program in (cut("X"), t1subset.convert(cut("Y"), "pfb"), raw(cut("H")), PFB):
            made.showing(made.font(made.descriptor(made.stream(program, Length1=10**6, Length2=0, Length3=-7))))
        self.assertEqual(len(files(pooled(made))), 1)
        self.assertRegex(lines(made)[0], "^Tiny: 4 fonts joined, 11 glyphs")

    def test_filters(self) -> None:
        made = Volume()
        packed = zlib.compress(raw(cut("X")))
        many = pikepdf.Array([name("ASCIIHexDecode"), name("FlateDecode")])
        made.showing(made.font(made.stream(packed.hex().encode() + b">", Filter=many)))
        made.showing(made.font(made.stream(raw(cut("Y")).hex().encode() + b">", Filter=name("ASCIIHexDecode"))))
        self.assertRegex(lines(made)[0], "^Tiny: 2 fonts joined")

    def test_tags_within_programs(self) -> None:
        made = Volume()
        for tag, glyph in (("AAAAAA+", "X"), ("BBBBBB+", "Y")):
            made.showing(made.font(cut(glyph, tag=tag), tag))
        self.assertRegex(lines(made)[0], "^Tiny: 2 fonts joined")

    def test_shared_files_and_equal_ones(self) -> None:
        made = Volume()
        shared = made.stream(raw(cut("X")))
        descriptor = made.descriptor(shared)
        for program in (descriptor, descriptor, made.descriptor(shared), cut("X"), cut("X")):
            made.showing(made.font(program))
        found = pooled(made)
        self.assertEqual(len(files(found)), 1)
        self.assertEqual(len({it.FontFile.objgen for it in descriptors(found)}), 1)
        self.assertRegex(lines(made)[0], "^Tiny: 3 fonts joined, 2 glyphs")
        for page in found.pages:
            self.assertEqual(page.Resources.Font.F.BaseFont, page.Resources.Font.F.FontDescriptor.FontName)

    def test_direct_fonts(self) -> None:
        made = Volume()
        for glyph in "XY":
            font = made.font(cut(glyph))
            made.showing(pikepdf.Dictionary(dict(font.items())))
        found = pooled(made)
        self.assertEqual(len(files(found)), 1)
        for page in found.pages:
            self.assertEqual(page.Resources.Font.F.BaseFont, page.Resources.Font.F.FontDescriptor.FontName)

    def test_direct_fonts_behind_names_that_are_no_utf_8(self) -> None:
        made = Volume()
        for glyph in "XY":
            made.showing(pikepdf.Dictionary(dict(made.font(cut(glyph)).items())), key="FFF")
        made.showing(made.font(cut("H")))
        given = opened(made.bytes().replace(b"/FFF", b"/#e9"))
        self.assertEqual(str(pdf.pool(given)), "Tiny: 2 of 3 kept: it stands behind a name that is no UTF-8\n")

    def test_deep_values(self) -> None:
        made = two()
        made.pdf.Root.Deep = pikepdf.Object.parse(b"[" * 400 + b"<</FontFile 1>>" + b"]" * 400)
        self.assertRegex(lines(made)[-1], "^Tiny: 2 fonts joined")
        self.assertRegex(lines(made, dictionaries=True)[-1], "^Tiny: 2 fonts joined")

    def test_what_is_not_reached_is_not_joined(self) -> None:
        made = two()
        kept = [made.pdf.Root.Pages.Kids[1], made.font(cut("H")), made.font(cut("L"))]
        del made.pdf.Root.Pages.Kids[1]
        made.pdf.Root.Pages.Count = 1
        self.assertEqual(str(pdf.pool(made.pdf)), "")
        self.assertEqual(len(kept), 3)

    def test_names_of_cairo(self) -> None:
        for first, second, wanted in (
            (b"CairoFont-0-0", b"CairoFont-12-3", "^Tiny: 2 fonts joined"),
            (b"CairoFont-0-0", b"Tiny", "^Tiny: 2 fonts joined"),
            (b"CairoFont-0-0", b"CairoFont-0-0x", "kept: shells differ in head"),
            (b"CairoFont-0", b"CairoFont-1", "kept: shells differ in head"),
        ):
            made = Volume()
            for text, given in ((b"A", first), (b"B", second)):
                program = cut("X" if text == b"A" else "Y").replace(b"/FontName /Tiny", b"/FontName /" + given)
                made.showing(made.font(program), text)
            self.assertRegex(str(pdf.pool(made.opened())), wanted)

    def test_names_that_are_no_utf_8(self) -> None:
        for text, wanted in ((b"A", "^Tiny: 2 fonts joined"), (b"B", "kept: " + STAYS)):
            made = Volume()
            made.showing(made.font(cut("X")), text, key="FFF")
            made.showing(made.font(cut("Y")), b"B")
            given = opened(made.bytes().replace(b"/FFF", b"/#e9"))
            self.assertRegex(str(pdf.pool(given)), wanted)
            self.assertIn(b"/#e9", b"".join(it.unparse(resolved=True) for it in given.objects))


class Names(unittest.TestCase):
    def test_a_tag_is_of_name_and_glyphs(self) -> None:
        one = _pdf_fonts.tagged("Tiny", ["A", "B"], set())
        self.assertRegex(one, r"^[A-Z]{6}\+Tiny$")
        self.assertEqual(_pdf_fonts.tagged("Tiny", ["B", "A"], {"Tiny"}), one)
        others = [_pdf_fonts.tagged("Tiny", ["A"], set()), _pdf_fonts.tagged("Tine", ["A", "B"], set())]
        others.append(_pdf_fonts.tagged("Tiny", ["A", "B"], {one}))
        self.assertEqual(len({it[:6] for it in [one, *others]}), 4)

    def test_versions_keep_different_tags(self) -> None:
        made = Volume()
        for font in (PFA, OTHER):
            for glyph in "XY":
                made.showing(made.font(cut(glyph, of=font)))
        found = files(pooled(made))
        self.assertEqual(len(found), 2)
        self.assertEqual(len({it for it, _ in found}), 2)
        self.assertEqual([it.partition(",")[0] for it in lines(made)], ["Tiny: 2 fonts joined"] * 2)

    def test_a_whole_font_keeps_its_plain_name(self) -> None:
        made = Volume()
        made.showing(made.font(PFA, ""))
        made.showing(made.font(cut("Y")))
        self.assertEqual({it for it, _ in files(pooled(made))}, {"/Tiny"})
        made = Volume()
        made.showing(made.font(cut("X"), ""))
        made.showing(made.font(cut("Y")))
        self.assertNotEqual({it for it, _ in files(pooled(made))}, {"/Tiny"})

    def test_names_in_objects_of_their_own(self) -> None:
        made = Volume()
        for glyph in "XY":
            descriptor = made.descriptor(cut(glyph))
            descriptor.FontName = made.add(descriptor.FontName)
            made.showing(made.font(descriptor))
        self.assertRegex(lines(made)[0], "^Tiny: 2 fonts joined")

    def test_families_stay_apart(self) -> None:
        made = Volume()
        made.showing(made.font(cut("X")))
        made.showing(made.font(made.descriptor(cut("Y"), family="Tine")))
        self.assertEqual(lines(made), [])


def papers(parts: List[Tuple[bytes, bytes]]) -> Volume:
    """A volume of papers, each a program and what is shown in it."""
    made = Volume()
    for at, (program, text) in enumerate(parts):
        made.showing(made.font(program, f"{'ABCDEFGH'[at]}AAAAA+"), text)
    return made


# Tiny with another name for code 66.
RENAMED = changed(b"dup 66 /Y put", b"dup 66 /X put")
MIXED = [(cut("X"), b"A"), (cut("Y"), b""), (cut("H"), b""), (cut("Y", of=OTHER), b""), (cut("X", of=RENAMED), b"")]


class Laws(unittest.TestCase):
    def test_no_order_of_papers_matters(self) -> None:
        for parts in (MIXED, [(cut("X"), b"AB"), *MIXED[1:3]], [*MIXED[:2], (cut("X", of=OTHER), b""), MIXED[3]]):
            orders = list(itertools.permutations(parts))[::7]
            # Papers have other tags in other orders; those of fonts that stay are theirs.
            found = [told_and_programs(papers(list(order)).opened()) for order in orders]
            self.assertEqual(found, found[:1] * len(orders))

    def test_twice_is_once(self) -> None:
        for parts in (MIXED, [(cut("X"), b"AB"), *MIXED[1:3]], MIXED[:2] * 2, [*MIXED[:2], MIXED[3]]):
            ways: List[Dict[str, Any]] = [{}, {"spell": True}, {"dictionaries": True}]
            for how in ways:
                given = papers(list(parts)).opened()
                pdf.pool(given, **how)
                one, other = again(given), again(given)
                report = pdf.pool(other, **how)
                self.assertEqual(report.joins, ())
                self.assertEqual(differences(one, again(other)), set())

    def test_classes(self) -> None:
        self.assertEqual(lines(papers(MIXED[:3] + MIXED[3:4]))[1], "Tiny: one of 4 kept: glyph Y differs")
        self.assertEqual(lines(papers(MIXED[:3] + MIXED[4:]))[1], "Tiny: one of 4 kept: code 66 differs")
        # The first may not get Y, and takes H.
        self.assertRegex(lines(papers([(cut("X"), b"AB"), *MIXED[1:3]]))[0], "^Tiny: 2 fonts joined")
        self.assertEqual(lines(papers([(cut("X"), b"AB"), *MIXED[1:3]]))[1:], [f"Tiny: one of 3 kept: {STAYS}"])

    def test_no_two_classes_join(self) -> None:
        family = [program for it in (PFA, OTHER, RENAMED) for program in [cut("X", of=it), cut("Y", of=it), cut("H", of=it)][::2]]
        them = [_pdf_fonts.Program(it, it, glyphs=frozenset(t1subset.list(it).glyphs)) for it in sorted(set(family))]
        groups, _ = _pdf_fonts.classes(them, None)
        self.assertEqual(sorted(id(it) for group in groups for it in group), sorted(map(id, them)))
        for one, other in itertools.combinations(groups, 2):
            with self.assertRaises(_pdf_fonts.Apart):
                _pdf_fonts.joined([*one, *other], None)
        self.assertGreater(len(them), len(groups))


def told_and_programs(given: Any) -> Tuple[pdf.Report, List[bytes]]:
    report = pdf.pool(given)
    return report, sorted({it.FontFile.read_bytes() for it in descriptors(given)})


Change = Callable[[Volume, Any, Any], Any]


class Kept(unittest.TestCase):
    def kept(self, change: Change, reason: str, count: str = "one of 3") -> None:
        """Two fonts join beside one that is changed and stays."""
        made = two()
        font = made.font(cut("H"))
        made.showing(font)
        change(made, font, font.FontDescriptor)
        found = lines(made)
        self.assertEqual(found[-1], f"Tiny: {count} kept: {reason}")
        self.assertRegex(found[0], "^Tiny: 2 fonts joined")

    def test_kinds(self) -> None:
        def compact(made: Volume, font: Any, descriptor: Any) -> None:
            descriptor.FontFile3 = made.stream(b"", Subtype=name("Type1C"))
            del descriptor["/FontFile"]

        def shown_as(kind: str) -> Change:
            return lambda made, font, descriptor: font.__setitem__("/Subtype", name(kind))

        self.kept(compact, "its program is Type1C")
        self.kept(shown_as("MMType1"), "it is a font of Subtype MMType1")
        self.kept(shown_as("CIDFontType0"), "it is a font of Subtype CIDFontType0")

    def kept_beside(self, change: Change, line: str) -> None:
        made = two()
        font = made.font(cut("H"))
        made.showing(font)
        change(made, font, font.FontDescriptor)
        self.assertIn(line, lines(made))

    def test_streams(self) -> None:
        def holding(data: bytes, **keys: Any) -> Change:
            return lambda made, font, descriptor: descriptor.__setitem__("/FontFile", made.stream(data, **keys))

        self.kept(holding(raw(cut("H")), Metadata=1), "its stream has Metadata")
        self.kept(holding(raw(cut("H")), F=pikepdf.String("file")), "its stream has F")
        self.kept(holding(zlib.compress(raw(cut("H")))[:-9], Filter=name("FlateDecode")), "its stream can't be decoded")
        self.kept(holding(b"no flate", Filter=name("FlateDecode")), "its stream can't be decoded")
        self.kept(holding(b"%!\nno font"), "no eexec")
        bomb = zlib.compress(zlib.compress(bytes(_pdf_filters.LONGEST + 1), 1))
        twice = pikepdf.Array([name("FlateDecode")] * 2)
        self.kept(holding(bomb, Filter=twice), "its stream is longer than 16,777,216 bytes")
        all_others = sum(len(raw(cut(glyph))) for glyph in "XY")
        with unittest.mock.patch.object(_pdf_fonts, "IN_ALL", all_others + 9):
            self.kept(holding(zlib.compress(raw(cut("H"))), Filter=name("FlateDecode")), "its stream is longer than 9 bytes")
        self.kept_beside(
            lambda made, font, descriptor: descriptor.__setitem__("/FontFile", 1), "Tiny: one of 3 kept: its FontFile is no stream"
        )

    def test_names_and_users(self) -> None:
        def named_twice(made: Volume, font: Any, descriptor: Any) -> None:
            made.showing(made.font(made.descriptor(descriptor.FontFile, family="Tine")))

        def unused(made: Volume, font: Any, descriptor: Any) -> None:
            del font["/FontDescriptor"]
            made.pdf.Root.Kept = descriptor

        def odd(made: Volume, font: Any, descriptor: Any) -> None:
            descriptor.Type = name("Odd")

        def with_two(made: Volume, font: Any, descriptor: Any) -> None:
            descriptor.FontFile3 = made.stream(b"", Subtype=name("Type1C"))

        self.kept(with_two, "its descriptor has another program, too")
        self.kept_beside(named_twice, "Tine: kept: it has the names Tine and Tiny")
        self.kept(unused, "no font uses it")
        self.kept(odd, "what has it is no FontDescriptor")
        made = Volume()
        for glyph in "XY":
            made.showing(made.font(made.descriptor(cut(glyph), family="T ny")))
        self.assertEqual(lines(made), ["T ny: 2 of 2 kept: its name isn't plain"])

    def test_tokens(self) -> None:
        self.assertEqual(lines(two(), tokens=0), ["Tiny: 2 of 2 kept: too many tokens"])
        self.assertEqual(lines(two(), tokens=10**6), lines(two()))


class Refused(unittest.TestCase):
    def refused(self, made: Volume, reason: str) -> None:
        given = made.opened()
        with self.assertRaises(pdf.PdfRefused) as why:
            pdf.pool(given)
        self.assertEqual(str(why.exception), reason)
        self.assertEqual(differences(made.opened(), again(given)), set())

    def test_signed(self) -> None:
        value = dictionary({"ByteRange": pikepdf.Array([0, 1, 2, 3]), "Contents": pikepdf.String("\x01")})
        for key, it in (
            ("Kept", pikepdf.Array([dictionary({"V": value})])),
            ("Perms", dictionary({})),
            ("AcroForm", dictionary({"SigFlags": 3})),
        ):
            made = two()
            made.pdf.Root[f"/{key}"] = it
            self.refused(made, "it is signed")
        made = two()
        made.pdf.Root.AcroForm = dictionary({"SigFlags": 1})
        self.assertRegex(lines(made)[0], "^Tiny: 2 fonts joined")

    def test_content_that_is_not_read(self) -> None:
        bomb = zlib.compress(zlib.compress(bytes(_pdf_filters.LONGEST + 1), 1))
        made = two()
        made.page(made.stream(bomb, Filter=pikepdf.Array([name("FlateDecode")] * 2)))
        self.refused(made, "1 content stream can't be read")
        made.page(made.stream(b"no flate", Filter=name("FlateDecode")))
        made.page(b"(no end")
        self.refused(made, "3 content streams can't be read")

    def test_more_than_is_kept(self) -> None:
        made = two()
        made.page(b"(a) Tj q Q " * 50)
        with unittest.mock.patch.object(_pdf_content, "MOST", 149):
            self.refused(made, "1 content stream can't be read")
        with unittest.mock.patch.object(_pdf_content, "MOST", 150):
            self.assertRegex(lines(made)[0], "^Tiny: 2 fonts joined")
        made.page(b"% <41> (b)\n" * 50)
        with unittest.mock.patch.object(_pdf_content, "MOST", 149):
            self.refused(made, "2 content streams can't be read")

    def test_a_stream_that_stands_many_times(self) -> None:
        made = two()
        part = made.stream(b" " * 1000)
        made.page(pikepdf.Array([part] * 13))
        with unittest.mock.patch.object(_pdf_shown, "LONGEST", 13_500):
            self.assertRegex(lines(made)[0], "^Tiny: 2 fonts joined")
            made.page(pikepdf.Array([part] * 14))
            self.refused(made, "1 content stream can't be read")

    def test_content_is_not_read_where_nothing_joins(self) -> None:
        made = Volume()
        made.showing(made.font(cut("X")), b"A")
        made.showing(made.font(made.descriptor(cut("Y"), family="Tine")), b"B")
        made.page(b"(no end")
        self.assertEqual(lines(made), [])

    def test_forms_that_stand_deep(self) -> None:
        for depth, is_read in ((40, True), (60, False)):
            made = two()
            inner = form(made, b"")
            for _ in range(depth):
                inner = form(made, b"/X Do", Resources=resources(XObject={"X": inner}))
            made.page(b"/X Do", Resources=resources(XObject={"X": inner}))
            if is_read:
                self.assertRegex(lines(made)[0], "^Tiny: 2 fonts joined")
            else:
                with self.assertRaises(pdf.PdfRefused):
                    lines(made)

    def test_a_form_within_itself(self) -> None:
        made = two()
        loop = form(made, b"/X Do")
        loop.Resources = resources(XObject={"X": loop})
        made.page(b"/X Do", Resources=resources(XObject={"X": loop}))
        self.assertRegex(lines(made)[0], "^Tiny: 2 fonts joined")

    def test_steps(self) -> None:
        made = two()
        made.page(b"q Q " * 100)
        with unittest.mock.patch.object(_pdf_shown, "STEPS", 150):
            self.refused(made, "1 content stream can't be read")
            made.pdf.Root.Pages.Kids[2].Contents = made.stream(b"q Q " * 70)
            self.assertRegex(lines(made)[0], "^Tiny: 2 fonts joined")

    def test_a_page_of_100_000_shows(self) -> None:
        made = two()
        font = made.pdf.Root.Pages.Kids[0].Resources.Font.F
        made.page(b"BT /F 9 Tf " + b"[(A)-9(A)] TJ q Q " * 50_000 + b" ET", Resources=resources(Font={"F": font}))
        self.assertRegex(lines(made)[0], "^Tiny: 2 fonts joined")


class Options(unittest.TestCase):
    def test_encodings_are_spelled(self) -> None:
        made = papers([(cut("X"), b"A"), (cut("X", of=RENAMED), b"AB"), (cut("Y"), b"B")])
        self.assertEqual(lines(made)[-1], "Tiny: one of 3 kept: code 66 differs")
        found = pooled(made, spell=True)
        self.assertEqual(len(files(found)), 1)
        encodings = [page.Resources.Font.F.Encoding for page in found.pages]
        self.assertEqual([list(map(str, it.Differences)) for it in encodings], [["65", "/X"], ["65", "/X", "/X"], ["66", "/Y"]])
        program = descriptors(found)[0].FontFile.read_bytes()
        self.assertEqual(t1subset.list(program).encoding, "StandardEncoding")
        self.assertEqual(set(t1subset.list(program).glyphs), {".notdef", "X", "Y"})
        self.assertRegex(lines(made, spell=True)[0], "^Tiny: 3 fonts joined")

    def test_what_shows_nothing_is_spelled_so(self) -> None:
        # Code 88 has no name in the program, and is X in StandardEncoding.
        made = papers([(cut("X"), b"AX"), (cut("X", of=RENAMED), b"B"), (cut("Y"), b"B")])
        found = pooled(made, spell=True)
        self.assertEqual(len(files(found)), 1)
        encoding = found.pages[0].Resources.Font.F.Encoding
        self.assertEqual(list(map(str, encoding.Differences)), ["65", "/X", "88", "/.notdef"])

    def test_what_differs_otherwise_is_not_spelled(self) -> None:
        made = papers([(cut("X"), b"A"), (cut("Y"), b"B"), (cut("Y", of=OTHER), b"B")])
        found = pooled(made, spell=True)
        self.assertEqual(len(files(found)), 2)
        self.assertTrue(all("/Encoding" not in it for it in fonts_of(found)))
        self.assertEqual(lines(made, spell=True), lines(made))

    def test_what_is_named_already_is_not_spelled(self) -> None:
        made = Volume()
        made.showing(made.font(cut("X"), Encoding=name("WinAnsiEncoding"), flags=32), b"X")
        made.showing(made.font(cut("X", of=RENAMED)), b"B")
        made.showing(made.font(cut("Y")), b"B")
        found = pooled(made, spell=True)
        self.assertEqual(len(files(found)), 1)
        self.assertEqual(str(found.pages[0].Resources.Font.F.Encoding), "/WinAnsiEncoding")
        # Programs that draw PDFs read this Encoding in two ways, and both stay right only as it is.
        made.pdf.Root.Pages.Kids[0].Resources.Font.F.FontDescriptor.Flags = 4
        made.showing(made.pdf.Root.Pages.Kids[0].Resources.Font.F, b"A")
        self.assertEqual(lines(made, spell=True), lines(made))
        self.assertEqual(lines(made)[-1], "Tiny: one of 3 kept: code 66 differs")

    def test_equal_dictionaries_are_one(self) -> None:
        made = Volume()
        for glyph in "XXYY":
            widths, unicode = made.add(pikepdf.Array([1, 2])), made.stream(b"beginbfchar " + glyph.encode())
            font = made.font(cut(glyph), "SAMEAA+", Widths=widths, ToUnicode=unicode, Encoding=made.add(dictionary({})))
            made.showing(font, b"A" if glyph == "X" else b"B", key="FX" if glyph == "X" else "FY")
        plain, one = pooled(made), pooled(made, dictionaries=True)
        self.assertEqual(len({it.FontDescriptor.objgen for it in fonts_of(plain)}), 4)
        for key, count in (("FontDescriptor", 1), ("Widths", 1), ("Encoding", 1), ("ToUnicode", 2)):
            self.assertEqual(len({it[f"/{key}"].objgen for it in fonts_of(one)}), count, key)
        self.assertEqual(len({it.objgen for it in fonts_of(one)}), 2)
        self.assertEqual(differences(plain, one), {"two objects are one"})


def fonts_of(given: Any) -> List[Any]:
    return [font for page in given.pages for font in page.Resources.Font.as_dict().values()]
