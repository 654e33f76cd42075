"""That pages show what they showed, wherever they show it. Without pikepdf these tests are left out."""

from __future__ import annotations

import random
import unittest
from typing import Any, Callable, Dict, List, Tuple, cast

from . import left_out

try:
    import pikepdf
except ImportError:
    left_out("pikepdf isn't installed: what PDFs draw")
    raise unittest.SkipTest("pikepdf isn't installed")

import t1subset
from t1subset import pdf

from .fonts import CLEAR, PFA, changed, with_charstrings
from .pdfs import STAYS, Volume, again, cut, dictionary, differences, form, lines, name, pooled, raw, resources, two

Place = Callable[[Volume, Any, bytes], Any]


def selecting(text: bytes) -> bytes:
    return b"BT /F 9 Tf (" + text + b") Tj ET"


def showing(text: bytes) -> bytes:
    return b"(" + text + b") Tj"


def on_page(made: Volume, font: Any, text: bytes) -> None:
    made.showing(font, text)


def in_form(made: Volume, font: Any, text: bytes) -> None:
    inner = form(made, selecting(text), Resources=resources(Font={"F": font}))
    made.page(b"/X Do", Resources=resources(XObject={"X": inner}))


def in_form_by_odd_names(made: Volume, font: Any, text: bytes) -> None:
    for key in ("P", "C", "D", "Parent", "Kids", "Type", "Contents", "Length"):
        inner = form(made, selecting(text), Resources=resources(Font={"F": font}))
        made.page(b"/%s Do" % key.encode(), Resources=resources(XObject={key: inner}))


def in_form_by_an_odd_name(made: Volume, font: Any, text: bytes) -> None:
    made.page(b"/F 9 Tf /P Do", Resources=resources(XObject={"P": form(made, showing(text))}, Font={"F": font}))


def times(made: Volume) -> Any:
    return made.add(dictionary({"Subtype": name("Type1"), "BaseFont": name("Times-Roman")}))


def in_form_that_lacked_its_font(made: Volume, font: Any, text: bytes) -> None:
    inner = form(made, b"/G 9 Tf " + selecting(text), Resources=resources(Font={"G": times(made)}))
    made.page(b"/X Do", Resources=resources(XObject={"X": inner}))
    made.page(b"/X Do", Resources=resources(XObject={"X": inner}, Font={"F": font}))


def in_form_that_had_another_font(made: Volume, font: Any, text: bytes) -> None:
    inner = form(made, selecting(text))
    for each in (times(made), font):
        made.page(b"/X Do", Resources=resources(XObject={"X": inner}, Font={"F": each}))


def in_form_that_may_keep_its_font(made: Volume, font: Any, text: bytes) -> None:
    inner = form(made, selecting(text), Resources=dictionary({}))
    made.page(b"/G 9 Tf /X Do", Resources=resources(XObject={"X": inner}, Font={"F": times(made), "G": font}))


def in_form_without_resources(made: Volume, font: Any, text: bytes) -> None:
    made.page(b"/X Do", Resources=resources(XObject={"X": form(made, selecting(text))}, Font={"F": font}))


def in_form_with_other_resources(made: Volume, font: Any, text: bytes) -> None:
    inner = form(made, selecting(text), Resources=resources(Font={"G": font}))
    made.page(b"/X Do", Resources=resources(XObject={"X": inner}, Font={"F": font}))


def in_form_with_the_font_of_the_page(made: Volume, font: Any, text: bytes) -> None:
    inner = form(made, showing(text), Resources=dictionary({}))
    outer = form(made, b"q /F 1 Tf Q /X Do", Resources=resources(XObject={"X": inner}))
    made.page(b"/X Do", Resources=resources(XObject={"X": outer}))
    made.page(b"/F 9 Tf /X Do", Resources=resources(XObject={"X": outer}, Font={"F": font}))


def in_orphaned_form(made: Volume, font: Any, text: bytes) -> None:
    made.pdf.Root[f"/Kept{len(made.pdf.Root.keys())}"] = form(made, selecting(text), Resources=resources(Font={"F": font}))


def in_pattern(made: Volume, font: Any, text: bytes) -> None:
    pattern = made.stream(selecting(text), PatternType=1, Resources=resources(Font={"F": font}))
    made.page(b"/Pattern cs /P scn", Resources=resources(Pattern={"P": pattern}))


def in_pattern_without_resources(made: Volume, font: Any, text: bytes) -> None:
    made.page(b"/Pattern cs /P scn", Resources=resources(Pattern={"P": made.stream(selecting(text), PatternType=1)}, Font={"F": font}))


def in_type_3(made: Volume, font: Any, text: bytes) -> None:
    glyphs = dictionary({"a": made.stream(b"9 0 d0 " + selecting(text))})
    outer = dictionary({"Type": name("Font"), "Subtype": name("Type3"), "CharProcs": glyphs, "Resources": resources(Font={"F": font})})
    made.page(b"/T 1 Tf (a) Tj", Resources=resources(Font={"T": outer}))


def in_type_3_without_resources(made: Volume, font: Any, text: bytes) -> None:
    glyphs = dictionary({"a": made.stream(b"9 0 d0 " + selecting(text))})
    outer = dictionary({"Type": name("Font"), "Subtype": name("Type3"), "CharProcs": glyphs})
    made.page(b"/T 1 Tf (a) Tj", Resources=resources(Font={"T": outer, "F": font}))


def in_annotation(made: Volume, font: Any, text: bytes) -> None:
    look = form(made, selecting(text), Resources=resources(Font={"F": font}))
    made.page(Annots=pikepdf.Array([dictionary({"Contents": pikepdf.String("said"), "AP": dictionary({"N": look})})]))


def in_state_of_annotation(made: Volume, font: Any, text: bytes) -> None:
    look = form(made, selecting(text))
    states = dictionary({"N": dictionary({"On": look})})
    made.page(Annots=made.add(pikepdf.Array([made.add(dictionary({"AP": states}))])), Resources=resources(Font={"F": font}))


def by_state(made: Volume, font: Any, text: bytes) -> None:
    state = dictionary({"Font": pikepdf.Array([font, 9])})
    made.page(b"/G gs " + showing(text), Resources=resources(ExtGState={"G": state}))


def in_soft_mask(made: Volume, font: Any, text: bytes) -> None:
    mask = dictionary({"S": name("Alpha"), "G": form(made, selecting(text), Resources=resources(Font={"F": font}))})
    made.page(b"/G gs", Resources=resources(ExtGState={"G": dictionary({"SMask": mask})}))


def in_soft_mask_with_the_font_of_the_page(made: Volume, font: Any, text: bytes) -> None:
    mask = dictionary({"S": name("Alpha"), "G": form(made, showing(text))})
    made.page(b"/F 9 Tf /G gs", Resources=resources(ExtGState={"G": dictionary({"SMask": mask})}, Font={"F": font}))


def by_inherited_resources(made: Volume, font: Any, text: bytes) -> None:
    node = made.add(dictionary({"Type": name("Pages"), "Resources": resources(Font={"F": font}), "Kids": pikepdf.Array([]), "Count": 1}))
    node.Kids.append(made.add(dictionary({"Parent": node, "Type": name("Page"), "Contents": made.stream(selecting(text))})))
    made.pdf.Root.Pages.Kids.append(node)
    made.pdf.Root.Pages.Count = len(made.pdf.Root.Pages.Kids)


def on_page_without_type(made: Volume, font: Any, text: bytes) -> None:
    made.page(selecting(text), Resources=resources(Font={"F": font}), Type=None)


def over_several_streams(made: Volume, font: Any, text: bytes) -> None:
    parts = [b"q /F", b"9 Tf [", showing(text)[:-2], b"] TJ Q"]
    made.page(pikepdf.Array([made.stream(it) for it in parts]), Resources=resources(Font={"F": font}))


def behind_a_font_that_is_missing(made: Volume, font: Any, text: bytes) -> None:
    made.page(b"/F 9 Tf /Lost 9 Tf " + showing(text), Resources=resources(Font={"F": font}))


def behind_an_image(made: Volume, font: Any, text: bytes) -> None:
    image = b"BI /W 8 /H 4 /BPC 8 /CS /G ID " + b" Q q (EI /G 1 Tf EI q (Q %]"[:27].ljust(32, b"(") + b"\nEI "
    made.page(b"/F 9 Tf " + image + showing(text), Resources=resources(Font={"F": font}))


def in_hexadecimal(made: Volume, font: Any, text: bytes) -> None:
    made.page(b"/F 9 Tf <" + text.hex().encode() + b"4> Tj <4 1 > Tj", Resources=resources(Font={"F": font}))


def in_octal(made: Volume, font: Any, text: bytes) -> None:
    made.page(b"/F 9 Tf (\\" + oct(text[0])[2:].encode() + b") Tj", Resources=resources(Font={"F": font}))


def by_quote(made: Volume, font: Any, text: bytes) -> None:
    made.page(b'/F 9 Tf (A)\' 1 2 (' + text + b')"', Resources=resources(Font={"F": font}))


PLACES: List[Place] = [
    on_page, in_form, in_form_by_odd_names, in_form_by_an_odd_name, in_form_that_lacked_its_font, in_form_that_had_another_font,
    in_form_that_may_keep_its_font, in_form_without_resources, in_form_with_other_resources, in_form_with_the_font_of_the_page,
    in_orphaned_form, in_pattern, in_pattern_without_resources, in_type_3, in_type_3_without_resources, in_annotation,
    in_state_of_annotation, by_state, in_soft_mask, in_soft_mask_with_the_font_of_the_page, by_inherited_resources,
    on_page_without_type, over_several_streams, behind_a_font_that_is_missing, behind_an_image, in_octal, by_quote,
]


class Drawing(unittest.TestCase):
    def test_a_code_that_draws_nothing_is_met_wherever_it_stands(self) -> None:
        for place in PLACES:
            for text, joined in ((b"A", True), (b"B", False)):
                with self.subTest(place=place.__name__, joined=joined):
                    made = Volume()
                    made.showing(made.font(cut("Y")), b"B")
                    place(made, made.font(cut("X")), text)
                    found = lines(made)
                    self.assertEqual(len(found), 1)
                    if joined:
                        self.assertRegex(found[0], "^Tiny: 2 fonts joined")
                    else:
                        self.assertEqual(found[0], f"Tiny: 2 of 2 kept: {STAYS}")
                        self.assertEqual(differences(made.opened(), pooled(made)), set())

    def test_hexadecimal(self) -> None:
        made = Volume()
        made.showing(made.font(cut("Y")), b"B")
        in_hexadecimal(made, made.font(cut("X")), b"B")
        self.assertEqual(lines(made), [f"Tiny: 2 of 2 kept: {STAYS}"])
        made = Volume()
        made.showing(made.font(cut("Y")), b"B")
        made.page(b"/F 9 Tf <41> Tj <4> Tj % <42>\n", Resources=resources(Font={"F": made.font(cut("X"))}))
        self.assertRegex(lines(made)[0], "^Tiny: 2 fonts joined")

    def test_any_code_may_be_filled_in(self) -> None:
        made = two()
        font = made.pdf.Root.Pages.Kids[0].Resources.Font.F
        made.pdf.Root.AcroForm = dictionary({"Fields": pikepdf.Array([]), "DR": resources(Font={"F": font})})
        self.assertEqual(lines(made), [f"Tiny: 2 of 2 kept: {STAYS}"])

    def test_what_is_no_text(self) -> None:
        made = Volume()
        made.showing(made.font(cut("Y")), b"B")
        content = b"/F 9 Tf /Span <</ActualText(B)/Deep<</A<42>>>>>BDC (A) Tj EMC % (B)\n /G 9 Tf (B) Tj q /F 1 Tf Q (B) Tj"
        made.page(content, Resources=resources(Font={"F": made.font(cut("X")), "G": made.font(cut("Y"))}))
        self.assertRegex(lines(made)[0], "^Tiny: 3 fonts joined")

    def test_codes_of_the_dictionary(self) -> None:
        def differ(glyph: str) -> Any:
            return dictionary({"Differences": pikepdf.Array([65, name("X"), 100, name(glyph)])})

        self.assertEqual(lines(two(b"Ad", Encoding=differ("Y"))), ["Tiny: 2 of 2 kept: code 100 is shown, and would draw Y"])
        self.assertRegex(lines(two(b"Ad", Encoding=differ("Z")))[0], "^Tiny: 2 fonts joined")
        self.assertRegex(lines(two(b"Ad", Encoding=differ(".notdef")))[0], "^Tiny: 2 fonts joined")
        # Code 66 has a name of its own, whatever the program's Encoding says.
        named = dictionary({"Differences": pikepdf.Array([65, name("X"), name("Z")])})
        self.assertRegex(lines(two(b"AB", Encoding=named))[0], "^Tiny: 2 fonts joined")

    def test_codes_of_the_program_where_others_are_named(self) -> None:
        win = name("WinAnsiEncoding")
        for encoding in (win, dictionary({"BaseEncoding": win})):
            self.assertEqual(lines(two(b"B", flags=4, Encoding=encoding)), [f"Tiny: 2 of 2 kept: {STAYS}"])
            self.assertRegex(lines(two(b"B", flags=32, Encoding=encoding))[0], "^Tiny: 2 fonts joined")
        # Code 1 has no name there, and some programs look into the font's own Encoding.
        own = changed(b"dup 66 /Y put", b"dup 1 /Y put")
        made = Volume()
        made.showing(made.font(cut("X"), flags=32, Encoding=win), b"\\001")
        made.showing(made.font(cut("Y", of=own)), b"\\001")
        self.assertEqual(lines(made), ["Tiny: 2 of 2 kept: code 1 is shown, and would draw Y"])

    def test_standard_encoding_where_none_is_named(self) -> None:
        self.assertRegex(lines(two(b"Y", flags=4))[0], "^Tiny: 2 fonts joined")
        self.assertEqual(lines(two(b"Y", flags=32)), ["Tiny: 2 of 2 kept: code 89 is shown, and would draw Y"])

    def test_encodings_that_are_not_known(self) -> None:
        for encoding, reason in (
            (name("MacExpertEncoding"), "its Encoding is MacExpertEncoding"),
            (pikepdf.String("odd"), "its Encoding can't be read"),
            (dictionary({"Differences": pikepdf.Array([pikepdf.String("odd")])}), "its Differences can't be read"),
        ):
            self.assertEqual(lines(two(Encoding=encoding)), [f"Tiny: one of 2 kept: {reason}"])


# The codes of random texts, and what tables name them; Tiny has no glyph d, and no Acircumflex.
CODES = b"ABHXYd\xc2"
LETTERS = {code: chr(code) for code in CODES if code < 128}
STANDARD, WIN = {**LETTERS, 194: "acute"}, {**LETTERS, 194: "Acircumflex"}
# Tiny as it is, with another name for code 66, by the word StandardEncoding, and with another glyph Y.
TABLE = CLEAR[CLEAR.index(b"/Encoding"):CLEAR.index(b"readonly def") + 12]
VERSIONS = [
    PFA,
    t1subset.convert(changed(b"dup 66 /Y put", b"dup 66 /X put")),
    t1subset.convert(changed(TABLE, b"/Encoding StandardEncoding def")),
    t1subset.convert(with_charstrings({b"/Y": b"\x8b\xf7\x8e\x0d\x0e"})),
]


def encoding(chosen: random.Random) -> Dict[str, Any]:
    """The Encoding of a font: none, a name, or some names of codes over a table or none."""
    kind = chosen.randrange(4)
    if kind < 2:
        return {"Encoding": name("WinAnsiEncoding")} if kind else {}
    them: List[Any] = []
    for code in chosen.sample(CODES, 3):
        them += [code, name(chosen.choice(["X", "Y", "H", "A", ".notdef", "lost"]))]
    base = {"BaseEncoding": name("WinAnsiEncoding")} if kind == 3 else {}
    return {"Encoding": dictionary({"Differences": pikepdf.Array(them), **base})}


def glyphs(font: Any, codes: bytes) -> List[Any]:
    """What these codes draw: by the Encoding over the program's own, by Differences alone over it, and over StandardEncoding."""
    program = font.FontDescriptor.FontFile.read_bytes()
    listed = t1subset.list(program)
    own = STANDARD if isinstance(listed.encoding, str) else listed.encoding
    told, names = font.get("/Encoding"), cast(Dict[int, str], {})
    base = told if isinstance(told, pikepdf.Name) else None
    if isinstance(told, pikepdf.Dictionary):
        base, code = told.get("/BaseEncoding"), 0
        for it in told.Differences:
            if isinstance(it, pikepdf.Name):
                names[code] = str(it)[1:]
            code = code + 1 if isinstance(it, pikepdf.Name) else int(it)
    ways = [{**own, **(WIN if base is not None else {}), **names}]
    if int(font.FontDescriptor.Flags) & 4:
        ways.append({**own, **names})
    elif base is None:
        ways.append({**STANDARD, **names})
    drawn = [way.get(code, ".notdef") for way in ways for code in codes]
    return [(it, private(program, it)) if it in listed.glyphs and it != ".notdef" else ".notdef" for it in drawn]


def private(program: bytes, glyph: str) -> bytes:
    """The private text of a font of this glyph alone, encrypted: equal where it draws the same."""
    return raw(t1subset.rejoin([t1subset.subset(program, [glyph])])).partition(b"eexec\n")[2]


def random_volume(seed: int) -> Tuple[Volume, Dict[int, bytes]]:
    """A volume of papers, whose fonts are marked by a number, and the codes that are shown through each."""
    chosen, made, shown = random.Random(seed), Volume(), {}
    for number in range(chosen.randrange(2, 6)):
        program = cut(*chosen.sample(["X", "Y", "H", "A", "acute"], 2), of=chosen.choice(VERSIONS[:chosen.randrange(1, 5)]))
        font = made.font(program, flags=chosen.choice([4, 32]), Mark=number, **encoding(chosen))
        shown[number] = bytes(chosen.sample(CODES, chosen.randrange(3)))
        chosen.choice(PLACES[:-2])(made, font, shown[number])
    return made, shown


class Random(unittest.TestCase):
    def test_what_is_shown_stays(self) -> None:
        joined, kept = 0, 0
        for seed in range(25):
            made, shown = random_volume(seed)
            for how in ({}, {"spell": True}):
                with self.subTest(seed=seed, how=how):
                    before, after = made.opened(), made.opened()
                    report = pdf.pool(after, spell=bool(how))
                    both = [{int(it.Mark): it for it in each.objects if isinstance(it, pikepdf.Dictionary) and "/Mark" in it} for each in (before, after)]
                    self.assertEqual(both[0].keys(), shown.keys())
                    for number, codes in shown.items():
                        self.assertEqual(glyphs(both[0][number], codes), glyphs(both[1][number], codes), number)
                    self.assertEqual(pdf.pool(again(after), spell=bool(how)).joins, ())
                    joined, kept = joined + len(report.joins), kept + len(report.families) - len(report.joins)
        # Both are tried often enough.
        self.assertGreater(min(joined, kept), 15)
