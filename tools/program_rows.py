"""The rows of arguments that the program is run on, and the files that each row finds.

`tools/test_program.py` runs the program on them, `tools/test_library.py` the same arguments over the library.
"""
import struct
from collections import namedtuple

import refused_rows
from common import CALL, EMPTY, ENDCHAR, RETURN, TOP, TRAILER, WIDTH, as_pfb, bytes_of, example, made_font, number, page_rows

# Stands for a text that clap writes.
SOME = object()

# A font of two glyphs, one of whose names begins with `-`.
DASHED = b"""\
%!
/Encoding StandardEncoding def
currentfile eexec
d9d66f6370c127631d46139186078a356fc2d10224c8e12685c13b098df815d8
a9b03732dad86e0dc7e5c6a5cb54fe668163ca856cc9fdb8078c6b5aa2c52d45
0f0772c85ec5f94dd679ad3d8c763702087a163f0a78cce094e822d4fb6fe01c
cfc73f031a55957a3b1cf6aa42b1133b141833
""" + TRAILER

LISTED = b"""\
encoding StandardEncoding
glyph -a 5
glyph .notdef 1
"""

DRAWN = b"""\
width 250 0
bearing 0 0
part 0 0
"""

# Charstrings of Subrs that glyphs call: a move across, a move up, and the `return` that stands for a Subr that is cut.
ACROSS, UP, STUB = b"\xef\x16\x0b", b"\xef\x04\x0b", RETURN

# The test whether a font was loaded before.
TESTED = (b"FontDirectory/Small known{/Small findfont dup/UniqueID known{dup/UniqueID get 7 eq exch\n/FontType get 1 eq and}"
          b"{pop false}ifelse{save true}{false}ifelse}{false}ifelse")

# The same as cairo writes it, which makes the test answer false.
OF_CAIRO = TESTED.replace(b"known{dup", b"known pop false {dup")

# The arguments; the exit status; what is printed on standard output and on standard error; the files that are changed.
Row = namedtuple("Row", "words status out err left", defaults=(b"", b"", {}))


def encoding_of(names):
    """The Encoding with names for these codes, as the canonical file has it."""
    entries = b"".join(b"dup %d /%s put\n" % entry for entry in sorted(names.items()))
    return b"/Encoding 256 array\n0 1 255 {1 index exch /.notdef put} for\n" + entries + b"readonly def\n"


def small_font(name, subrs, callers, encoding=b"/Encoding StandardEncoding def\n"):
    """The canonical PFA of a font of this name: its Subrs, and glyphs that each call one of them."""
    glyphs = {b".notdef": EMPTY}
    glyphs.update((glyph, WIDTH + number(index) + CALL + ENDCHAR) for glyph, index in callers.items())
    return made_font(b"%%!\n/FontName /%s def\n" % name + encoding, subrs, glyphs)


# Two subsets of one name, and the font that they rejoin to.
PARTS = [
    small_font(b"ABCDEF+Small", [STUB] * 4 + [ACROSS], {b"A": 4}),
    small_font(b"ABCDEF+Small", [STUB] * 5 + [UP], {b"B": 5}),
]
BOTH = small_font(b"ABCDEF+Small", [STUB] * 4 + [ACROSS, UP], {b"A": 4, b"B": 5})


def document(font):
    """A document with this font, as dvips writes one."""
    return b"%!PS\n%%BeginFont: Small\n" + font + b"{restore}if\n%%EndFont\nshowpage\n"


def paged(font, pages):
    """A document with this font before its pages, which ends without a trailer."""
    return b"%!PS\n%%BeginFont: Small\n" + font + b"%%EndFont\n" + b"".join(b"%%Page: 1 1\n" + page + b"\n" for page in pages)


def version_of_the_man_page():
    """The program's name and version, as the first line of the man page has them between quotes."""
    return bytes_of(TOP, "docs/t1subset.1").split(b'"')[1]


def differing_fonts():
    """Two fonts that differ in the head and in how many Subrs they declare, in the names of codes 66 and 200, in glyphs B and D, in Subr 0,
    which no glyph executes, and in Subr 4, which A and B do; and the one lacks a component of its Aacute that the other has."""
    letters = refused_rows.glyphs
    some = {b".notdef": EMPTY, b"A": refused_rows.CALLS, b"Aacute": refused_rows.ACCENTED, b"B": refused_rows.CALLS, b"D": ENDCHAR}
    more = {b".notdef": EMPTY, b"A": refused_rows.CALLS, b"B": refused_rows.MOVES, b"D": EMPTY, b"acute": EMPTY}
    subrs = {at: RETURN for at in range(1, 4)}
    head = refused_rows.HEAD
    one = refused_rows.made(encoding=encoding_of({65: b"A", 66: b"B", 200: b"D"}), letters=letters(some),
                            table=refused_rows.subrs({**subrs, 0: UP, 4: UP}))
    other = refused_rows.made(head + b"/PaintType 0 def\n", encoding_of({66: b"A", 67: b"B", 200: b"acute"}), letters=letters(more),
                              table=refused_rows.subrs({**subrs, 0: ACROSS, 4: ACROSS}, 6))
    return one, other


# The lines of these two.
DIFFERENCES = b"""\
shells differ in head
shells differ in Subrs table
code 66 differs
code 200 differs
glyph B differs
glyph D differs
glyph Aacute lacks part acute
subr 0 differs
subr 4 differs, used by A
"""


def files():
    """The files that each row finds."""
    named = ["tiny.pfa", "tiny.pfb", "left.listing", "right.listing", "other.listing"]
    given = {name: example(name) for name in named}
    given["dashed.pfa"] = DASHED
    given["one.cut"] = small_font(b"ABCDEF+Small", [STUB] * 4 + [ACROSS], {b"A": 4})
    given["two.cut"] = small_font(b"ZYXWVU+Small", [STUB] * 5 + [UP], {b"B": 5})
    given["other.cut"] = small_font(b"ZYXWVU+Other", [STUB] * 5 + [UP], {b"B": 5})
    word = b"/Encoding StandardEncoding"
    given["spaced.cut"] = given["two.cut"].replace(b"/FontName ", b"% ZYXWVU+Small\t1\r\n /UniqueID 7  readonly\tdef\n\n/FontName\r")
    given["wide.cut"] = given["two.cut"].replace(b"%!\n/FontName ", b"%!\r\n/UniqueID 7 def\r\n\r\n/FontName \t")
    given["whole.font"] = small_font(b"Small", [STUB] * 4 + [ACROSS, UP], {b"A": 4, b"B": 5})
    given["coded.font"] = small_font(b"Small", [STUB] * 4 + [ACROSS, UP], {b"A": 4, b"B": 5}, encoding_of({7: b"B", 65: b"A", 200: b"Lost"}))
    given["other.font"] = small_font(b"Small", [STUB] * 4 + [ACROSS], {b"A": 4}, b"/Encoding ISOLatin1Encoding def\n")
    given["values.font"] = made_font(SPELLED, [], {b".notdef": EMPTY})
    given["bare.font"] = made_font(b"%!\n/FontName /\n/FontBBox{}readonly def\n/UniqueID\n/Encoding StandardEncoding def\n", [], {b".notdef": EMPTY})
    given["private.font"] = refused_rows.made(private=refused_rows.PRIVATE + b"/UniqueID 77 def\n")
    given["some.font"], given["more.font"] = differing_fonts()
    given["one.names"], given["two.names"], given["bad.names"] = b"B", b"\r\nB\r\n", b"B\nZed\nA"
    given["spelled.font"] = given["one.cut"].replace(word + b" def", word + b" % a comment\n readonly def")
    given["tested.font"] = given["one.cut"].replace(b"/FontName", TESTED + b"/FontName")
    given["cairo.font"] = given["one.cut"].replace(b"/FontName", OF_CAIRO + b"/FontName")
    given["numbered.cut"] = given["one.cut"].replace(b"/FontName", b"%/UniqueID 0 def\n/FontName")
    given["blanked.cut"] = given["two.cut"].replace(b"/FontName", b"%               \n/FontName")
    given["one.ps"], given["two.ps"] = document(PARTS[0]), document(PARTS[1])
    given["page.ps"], given["two.pages.ps"] = paged(PARTS[0], [b"1"]), paged(PARTS[1], [b"2", b"3"])
    given["other.ps"] = document(small_font(b"ABCDEF+Small", [STUB] * 5 + [UP], {b"B": 5}, b"/Encoding ISOLatin1Encoding def\n"))
    given["tag.ps"] = document(small_font(b"GHIJKL+Small", [STUB] * 5 + [UP], {b"B": 5}))
    given["tag.other.ps"] = document(small_font(b"GHIJKL+Small", [STUB] * 5 + [UP], {b"B": 5}, b"/Encoding ISOLatin1Encoding def\n"))
    given["nested.ps"] = given["one.ps"] + b"%%BeginDocument: a.eps\n" + given["two.ps"] + b"%%EndDocument\n"
    given["no.font"] = b"no font"
    given["no.listing"] = b"no listing"
    given["nothing.ps"], given["empty.ps"], given["a.pdf"] = b"", b"%!", b"%PDF-1.7\n"
    given["job.ps"] = b"\x1b%-12345X@PJL JOB\r\n%!PS\n\x04\x1b%-12345X@PJL EOJ\r\n"
    given["jobs.ps"] = b"%!PS\n\x04%!PS\n"
    given["dos.eps"] = b"\xc5\xd0\xd3\xc6" + struct.pack("<6L", 30, 5, 0, 0, 35, 3) + b"\xff\xff" + b"%!PS\n" + b"abc"
    given["old"] = b"what stood here"
    return given


def rows_of_words():
    """Arguments that ask for help or don't parse."""
    commands = ["subset", "merge", "rejoin", "pool", "level", "fonts", "diff", "mend", "check", "list", "show", "pfa", "pfb", "join"]
    yield Row(["--help"], 0, SOME)
    yield Row(["--version"], 0, version_of_the_man_page() + b"\n")
    for command in commands:
        yield Row([command, "--help"], 0, SOME)
        yield Row([command], 2, b"", SOME)
    yield Row([], 2, b"", SOME)
    yield Row(["tiny.pfa"], 2, b"", SOME)
    yield Row(["list", "tiny.pfa", "more"], 2, b"", SOME)
    yield Row(["merge", "out"], 2, b"", SOME)
    yield Row(["rejoin", "out"], 2, b"", SOME)
    yield Row(["show", "dashed.pfa", "-a"], 2, b"", SOME)
    yield Row(["diff", "tiny.pfa"], 2, b"", SOME)
    yield Row(["diff", "tiny.pfa", "tiny.pfa", "tiny.pfa"], 2, b"", SOME)
    yield Row(["check", b"\xff"], 2, b"", b"error: the arguments are not UTF-8\n")


def rows_of_fonts():
    """What is said of a font, and what is refused."""
    yield Row(["check", "dashed.pfa"], 0, b"ok 2 glyphs, 0 subrs, weight 579\n")
    yield Row(["check", "tiny.pfb"], 0, b"ok 11 glyphs, 10 subrs, weight 4936\n")
    yield Row(["check", "no.font"], 1, b"", b"refused: no eexec\n")
    yield Row(["check", "absent"], 3, b"", b"failed: read\n")
    yield Row(["list", "dashed.pfa"], 0, LISTED)
    yield Row(["show", "dashed.pfa", "--", "-a"], 0, DRAWN)
    yield Row(["show", "dashed.pfa", ".notdef"], 0, b"fault NoWidth\n")
    yield Row(["show", "dashed.pfa", "Zed"], 1, b"", b"refused: no glyph Zed\n")
    yield Row(["show", "absent", "Zed"], 3, b"", b"failed: read\n")


# The values of a dictionary as fonts spell them, and the lines of these.
SPELLED = b"""\
%!
/UniqueID 5000793 def
/FontNames /No def
/FontName/Sp\x80elled def
/FontMatrix\t[ 0.001 0
0 .001 0 0]readonly def
/FontBBox{-1 -2 3e1 4}readonly def
/Encoding StandardEncoding def
/UniqueID 7 def
"""
SPELLED_LISTED = b"""\
name Sp\\x80elled
matrix  0.001 0 0 .001 0 0
box -1 -2 3e1 4
unique 5000793
"""


def rows_of_full():
    """What `list` prints in full."""
    yield Row(["list", "--full", "dashed.pfa"], 0, LISTED + b"width -a 250 0\nwidth .notdef fault NoWidth\n")
    glyph = b"encoding StandardEncoding\nglyph .notdef 5\n"
    yield Row(["list", "values.font", "--full"], 0, glyph + SPELLED_LISTED + b"width .notdef 250 0\n")
    yield Row(["list", "values.font"], 0, glyph)
    yield Row(["list", "bare.font", "--full"], 0, glyph + b"width .notdef 250 0\n")
    private = b"code 65 A\n" + b"".join(b"subr %d 1\n" % at for at in range(4)) + b"subr 4 3\nglyph .notdef 5\nglyph A 7\n"
    widths = b"width .notdef 250 0\nwidth A 250 0\n"
    yield Row(["list", "--full", "private.font"], 0, private + b"name Made\nunique 77\n" + widths)
    yield Row(["list", "--full", "no.font"], 1, b"", b"refused: no eexec\n")


def rows_of_several():
    """Several files are checked one after the other; the worst status is answered."""
    dashed, tiny = b"dashed.pfa: ok 2 glyphs, 0 subrs, weight 579\n", b"tiny.pfb: ok 11 glyphs, 10 subrs, weight 4936\n"
    refused, failed = b"no.font: refused: no eexec\n", b"absent: failed: read\n"
    yield Row(["check", "dashed.pfa", "tiny.pfb"], 0, dashed + tiny)
    yield Row(["check", "tiny.pfb", "dashed.pfa", "tiny.pfb"], 0, tiny + dashed + tiny)
    yield Row(["check", "no.font", "dashed.pfa"], 1, dashed, refused)
    yield Row(["check", "dashed.pfa", "absent", "no.font", "tiny.pfb"], 3, dashed + tiny, failed + refused)
    yield Row(["check", "no.font", "no.font"], 1, b"", refused + refused)


def rows_of_explained():
    """Behind a refusal the file that is meant, and what the man page says."""
    rows = page_rows()

    def said(text, file, row=None):
        return f"{text}\n{file}\n{rows[row or text.split(': ')[1]]}\n".encode()

    no_font, absent = said("refused: no eexec", "file: no.font"), said("failed: read", "file: absent", "failed: read")
    differ = said("refused: shells differ in head", "files: all of them together", "shells differ in PART")
    bad_line = said("refused: bad line 1", "file: no.listing", "bad line N")
    zed = said("refused: no glyph Zed", "file: whole.font", "no glyph NAME")
    for words in (["--explain", "check", "no.font"], ["check", "--explain", "no.font"], ["check", "no.font", "--explain"]):
        yield Row(words, 1, b"", no_font)
    yield Row(["--explain", "check", "dashed.pfa"], 0, b"ok 2 glyphs, 0 subrs, weight 579\n")
    checked = b"dashed.pfa: ok 2 glyphs, 0 subrs, weight 579\n"
    yield Row(["check", "--explain", "absent", "dashed.pfa", "no.font"], 3, checked, b"absent: " + absent + b"no.font: " + no_font)
    for word in ("merge", "rejoin"):
        yield Row([word, "--explain", "old", "tiny.pfa", "no.font", "tiny.pfb"], 1, b"", no_font)
        yield Row([word, "--explain", "old", "no.font", "tiny.pfa", "tiny.pfb"], 1, b"", no_font)
        yield Row(["--explain", word, "old", "no.font", "tiny.pfa", "absent"], 3, b"", absent)
        yield Row([word, "old", "one.cut", "other.cut", "--explain"], 1, b"", differ)
    yield Row(["join", "--explain", "left.listing", "no.listing"], 1, b"", bad_line)
    yield Row(["join", "--explain", "no.listing", "left.listing"], 1, b"", bad_line)
    conflict = said("refused: subr 150 differs", "files: all of them together", "subr N differs")
    yield Row(["join", "--explain", "left.listing", "other.listing"], 1, b"", conflict)
    yield Row(["show", "--explain", "whole.font", "Zed"], 1, b"", zed)
    yield Row(["subset", "--explain", "whole.font", "old", "Zed"], 1, b"", zed)
    yield Row(["subset", "--explain", "--names", "absent", "whole.font", "old"], 3, b"", absent)
    for words in (["list", "absent"], ["pfa", "absent", "old"], ["mend", "absent", "old"], ["join", "left.listing", "absent"]):
        yield Row(["--explain", *words], 3, b"", absent)
    written = said("failed: write", "file: no.folder/out", "failed: write")
    yield Row(["pfa", "--explain", "tiny.pfb", "no.folder/out"], 3, b"", written)
    yield Row(["merge", "--explain", "no.folder/out", "tiny.pfb"], 3, b"", written)


def rows_of_outputs(given):
    """OUT is opened only once the result is complete, and may be an input."""
    pfa, pfb = given["tiny.pfa"], given["tiny.pfb"]
    yield Row(["pfa", "tiny.pfb", "out"], 0, b"", b"", {"out": pfa})
    yield Row(["pfb", "tiny.pfa", "out"], 0, b"", b"", {"out": pfb})
    yield Row(["pfb", "tiny.pfa", "tiny.pfa"], 0, b"", b"", {"tiny.pfa": pfb})
    yield Row(["merge", "--pfb", "out", "tiny.pfa", "tiny.pfb"], 0, b"", b"", {"out": pfb})
    yield Row(["subset", "--pfb", "one.cut", "out", "A"], 0, b"", b"", {"out": as_pfb(given["one.cut"])})
    yield Row(["pfb", "tiny.pfb", "old"], 0, b"", b"", {"old": pfb})
    for word in ("merge", "rejoin"):
        yield Row([word, "tiny.pfb", "tiny.pfa", "tiny.pfb"], 0, b"", b"", {"tiny.pfb": pfa})
        yield Row([word, "out", "tiny.pfa", "tiny.pfb", "tiny.pfa"], 0, b"", b"", {"out": pfa})
        yield Row([word, "old", "tiny.pfa", "tiny.pfb", "no.font"], 1, b"", b"refused: no eexec\n")
        yield Row([word, "old", "tiny.pfa", "tiny.pfb", "absent"], 3, b"", b"failed: read\n")
    yield Row(["pfb", "no.font", "out"], 1, b"", b"refused: no eexec\n")
    yield Row(["pfb", "no.font", "old"], 1, b"", b"refused: no eexec\n")
    yield Row(["subset", "tiny.pfa", "old", "X", "Zed"], 1, b"", b"refused: no glyph Zed\n")
    yield Row(["merge", "old", "tiny.pfa", "no.font"], 1, b"", b"refused: no eexec\n")
    yield Row(["merge", "old", "no.font", "absent"], 3, b"", b"failed: read\n")
    yield Row(["pfa", "tiny.pfb", "no.folder/out"], 3, b"", b"failed: write\n")


def rows_of_names():
    """Names that stand in a file, a name a line, beside those of the command line."""
    whole = small_font(b"Small", [STUB] * 4 + [ACROSS, UP], {b"A": 4, b"B": 5})
    one = small_font(b"Small", [STUB] * 5 + [UP], {b"B": 5})
    words = ["subset", "whole.font", "out", "--names"]
    yield Row([*words, "one.names"], 0, b"", b"", {"out": one})
    yield Row([*words, "two.names", "A"], 0, b"", b"", {"out": whole})
    yield Row(["subset", "--names", "two.names", "--pfb", "whole.font", "out"], 0, b"", b"", {"out": as_pfb(one)})
    yield Row([*words, "-"], 0, b"", b"", {"out": small_font(b"Small", [STUB] * 6, {})})
    yield Row([*words, "bad.names"], 1, b"", b"refused: no glyph Zed\n")
    yield Row([*words, "absent"], 3, b"", b"failed: read\n")
    yield Row(["subset", "whole.font", "out", "--names"], 2, b"", SOME)


# Lists of codes that are none.
BAD_LISTS = ["", "65-", "-65", "66-65", "256", "65-256", "0065", "65,,66", "65,", "65-66-67", "A", "65, 66", "+65"]


def rows_of_codes():
    """Codes of the font's Encoding, as a list and as the bytes of a text."""
    whole = small_font(b"Small", [STUB] * 4 + [ACROSS, UP], {b"A": 4, b"B": 5})
    one = small_font(b"Small", [STUB] * 4 + [ACROSS, STUB], {b"A": 4})
    words = ["subset", "whole.font", "out"]
    for more in (["--codes", "65-66"], ["--codes", "66,65,065-65"], ["--text", "BAAB"], ["--codes", "65", "--text", "B"], ["--text=A", "B"]):
        yield Row([*words, *more], 0, b"", b"", {"out": whole})
    yield Row([*words, "--names", "one.names", "--codes", "65"], 0, b"", b"", {"out": whole})
    yield Row([*words, "--codes", "65"], 0, b"", b"", {"out": one})
    yield Row(["subset", "--text", "", "--pfb", "--codes", "065", "whole.font", "out", "A"], 0, b"", b"", {"out": as_pfb(one)})
    yield Row(["subset", "whole.font", "out", "--text", ""], 0, b"", b"", {"out": small_font(b"Small", [STUB] * 6, {})})
    coded = small_font(b"Small", [STUB] * 5 + [UP], {b"B": 5}, encoding_of({7: b"B"}))
    yield Row(["subset", "coded.font", "out", "--codes", "7"], 0, b"", b"", {"out": coded})
    for more, said in REFUSED_CODES:
        yield Row([*words, *more], 1, b"", b"refused: %s\n" % said)
    yield Row(["subset", "coded.font", "old", "--codes", "7-8"], 1, b"", b"refused: no code 8\n")
    yield Row(["subset", "coded.font", "old", "--codes", "200"], 1, b"", b"refused: no glyph Lost\n")
    yield Row(["subset", "other.font", "out", "A", "--text", "A"], 1, b"", b"refused: no code 65\n")
    yield Row(["subset", "no.font", "out", "--codes", "128"], 1, b"", b"refused: no eexec\n")
    yield Row(["subset", "absent", "out", "--codes", "128"], 3, b"", b"failed: read\n")
    for text in BAD_LISTS:
        yield Row([*words, "--codes", text], 2, b"", SOME)


# Options and names, and what is refused: codes without a name in their order, then names before those of codes.
REFUSED_CODES = [
    (["--codes", "67"], b"no glyph C"),
    (["--codes", "65,129,128"], b"no code 129"),
    (["--codes", "67,128"], b"no code 128"),
    (["--text", "C\u00e9", "--codes", "0-1"], b"no code 0"),
    (["--text", "A\u00e9"], b"no glyph circumflex"),
    (["--text", "-"], b"no glyph hyphen"),
    (["Zed", "--codes", "128"], b"no code 128"),
    (["Zed", "--codes", "67"], b"no glyph Zed"),
]


def rows_of_limits():
    """Arguments that limit the tokens that glyphs execute: .notdef 4, and A and B 9 each, by either answer to hint replacement."""
    one, whole, most = small_font(b"Small", [STUB] * 4 + [ACROSS, STUB], {b"A": 4}), files()["whole.font"], "18446744073709551615"
    for tokens, made in (("0", None), ("12", None), ("26", one), (most, one)):
        for words in (["subset", "whole.font", "out", "A"], ["subset", "whole.font", "out", "--codes", "65"]):
            yield limited([*words, "--tokens", tokens], made)
    for tokens, made in (("0", None), ("21", None), ("44", whole), (most, whole)):
        yield limited(["merge", "--tokens", tokens, "out", "whole.font"], made)
        yield limited(["merge", "out", "whole.font", "--pfb", "--tokens=" + tokens], made and as_pfb(made))
    for tokens, made in (("0", None), ("25", None), ("52", whole), (most, whole)):
        yield limited(["rejoin", "--tokens", tokens, "out", "one.cut", "two.cut"], made)
    encodings = b"shells differ in encoding\n"
    for tokens, found in (("0", None), ("43", None), ("88", b""), (most, b"")):
        yield compared(["diff", "--tokens", tokens, "whole.font", "whole.font"], found)
        yield compared(["diff", "whole.font", "coded.font", "--tokens=" + tokens], found if found is None else encodings)
    yield Row(["subset", "--tokens", "0", "whole.font", "old", "Zed"], 1, b"", b"refused: no glyph Zed\n")
    yield Row(["subset", "--tokens", "0", "whole.font", "old", "--codes", "128"], 1, b"", b"refused: no code 128\n")
    yield Row(["merge", "--tokens", "0", "old", "one.cut", "other.cut"], 1, b"", b"refused: shells differ in head\n")
    for word in ("merge", "rejoin"):
        yield Row([word, "--tokens", "0", "old", "one.cut", "no.font"], 1, b"", b"refused: no eexec\n")
        yield Row([word, "--tokens", "0", "old", "one.cut", "absent"], 3, b"", b"failed: read\n")
    for words in (["one.cut", "no.font"], ["no.font", "one.cut"]):
        yield Row(["diff", "--tokens", "0", *words], 1, b"", b"refused: no eexec\n")
    yield Row(["diff", "--tokens", "0", "one.cut", "absent"], 3, b"", b"failed: read\n")
    advice = page_rows()["too many tokens"]
    for words, meant in ((["subset", "whole.font", "old", "A"], "file: whole.font"), (["merge", "old", "whole.font"], "file: whole.font"),
                         (["rejoin", "old", "one.cut", "two.cut"], "files: all of them together")):
        said = f"refused: too many tokens\n{meant}\n{advice}\n".encode()
        yield Row([*words, "--tokens", "0", "--explain"], 1, b"", said)
    for tokens in (["-1"], ["many"], [""], ["1e6"], ["18446744073709551616"], []):
        yield Row(["merge", "out", "one.cut", "--tokens", *tokens], 2, b"", SOME)
        yield Row(["diff", "one.cut", "one.cut", "--tokens", *tokens], 2, b"", SOME)


def limited(words, made):
    """The row of arguments that make this file, or that allow too few tokens."""
    return Row(words, 0, b"", b"", {"out": made}) if made else Row(words, 1, b"", b"refused: too many tokens\n")


def compared(words, found):
    """The row of arguments that print these conflicts, or that allow too few tokens."""
    return Row(words, 1, b"", b"refused: too many tokens\n") if found is None else Row(words, int(found != b""), found)


def rows_of_rejoined():
    """Subsets that other programs cut."""
    both = small_font(b"Small", [STUB] * 4 + [ACROSS, UP], {b"A": 4, b"B": 5})
    untagged = small_font(b"Small", [STUB] * 4 + [ACROSS], {b"A": 4})
    refused = b"refused: shells differ in head\n"
    yield Row(["merge", "out", "one.cut", "two.cut"], 1, b"", refused)
    yield Row(["rejoin", "out", "one.cut", "two.cut"], 0, b"", b"", {"out": both})
    yield Row(["rejoin", "out", "two.cut", "one.cut"], 0, b"", b"", {"out": both})
    yield Row(["rejoin", "--pfb", "out", "one.cut", "two.cut"], 0, b"", b"", {"out": as_pfb(both)})
    yield Row(["rejoin", "one.cut", "one.cut"], 0, b"", b"", {"one.cut": untagged})
    commented = small_font(b"Small", [STUB] * 5 + [UP], {b"B": 5}).replace(b"/FontName ", b"% Small 1\n/FontName\n")
    yield Row(["rejoin", "out", "one.cut", "wide.cut"], 0, b"", b"", {"out": both})
    yield Row(["rejoin", "out", "wide.cut", "one.cut"], 0, b"", b"", {"out": both})
    yield Row(["rejoin", "out", "spaced.cut"], 0, b"", b"", {"out": commented})
    yield Row(["rejoin", "out", "numbered.cut", "blanked.cut"], 0, b"", b"", {"out": both.replace(b"/FontName", b"%\n/FontName")})
    yield Row(["rejoin", "old", "numbered.cut", "two.cut"], 1, b"", refused)
    yield Row(["pfa", "spaced.cut", "out"], 0, b"", b"", {"out": files()["spaced.cut"]})
    yield Row(["rejoin", "old", "one.cut", "other.cut"], 1, b"", refused)
    yield Row(["rejoin", "old", "one.cut", "no.font"], 1, b"", b"refused: no eexec\n")
    yield Row(["rejoin", "old", "one.cut", "absent"], 3, b"", b"failed: read\n")


def entry(name, key, font, start=b"/pool:"):
    """What stands before documents whose fonts of a key are this font, or the line that it has become."""
    defined = b"%s%s /%s findfont definefont pop\nsystemdict/undefinefont known{/%s undefinefont}if\n" % (start, key, name, name)
    return b"%!PS-Adobe-3.0\n%%BeginResource: font " + name + b"\n" + font + b"%%EndResource\n" + defined


def lined(name, key, start=b"/pool:"):
    """A line in place of a font, and its end."""
    return b"/%s %s%s findfont definefont pop\n" % (name, start, key)


def one_document(name, fonts, pages):
    """The document that others become, with names of its own that begin so, these fonts, and pages each of which is a head and a text."""
    kept = b"%s:kept" % name
    prolog = b"/%s 3 dict def\n/%s:begin{%s begin/saved save def/operands count 1 sub def/dicts countdictstack 1 sub def end}bind def\n" % (kept, name, kept)
    prolog += b"/%s:end{count %s/operands get sub dup 0 gt{{pop}repeat}{pop}ifelse countdictstack %s/dicts get sub dup 0 gt{{end}repeat}{pop}ifelse " % (name, kept, kept)
    prolog += b"%s/saved get restore}bind def\n" % kept
    text = b"%%!PS-Adobe-3.0\n%%%%Pages: %d\n%%%%EndComments\n%%%%BeginProlog\n" % len(pages)
    text += prolog + b"%%EndProlog\n%%BeginSetup\n" + fonts + b"%%EndSetup\n"
    for number, (head, own, page) in enumerate(pages, 1):
        text += b"%%%%Page: %d %d\n%%%%BeginPageSetup\n%s:begin\n" % (number, number, name)
        text += head + own + b"%\n%%EndPageSetup\n" + page + b"%s:end\n" % name
    return text + b"%%Trailer\n%%EOF\n"


def rows_of_pages():
    """Documents that become one document."""
    name, other, own = b"ABCDEF+Small", b"GHIJKL+Small", b"% %%Page: 1 1\n"
    begin = entry(name, name, PARTS[0])[len(b"%!PS-Adobe-3.0\n"):], entry(name, name, BOTH)[len(b"%!PS-Adobe-3.0\n"):]
    head = b"%%BeginFont: Small\n" + lined(name, name) + b"%%EndFont\n"
    yield Row(["pool", "--dsc", "out", "page.ps"], 0, b"", b"", {"out": one_document(b"pool:", begin[0], [(head, own, b"1\n")])})
    three = [(head, own, page) for page in (b"1\n", b"2\n", b"3\n")]
    yield Row(["pool", "--dsc", "out", "page.ps", "two.pages.ps"], 0, b"", b"", {"out": one_document(b"pool:", begin[1], three)})
    whole = document(lined(name, name))[len(b"%!PS\n"):]
    told = b"document 2 has no pages by its comments: it is one page\n"
    out = one_document(b"pool:", begin[0], [(head, own, b"1\n"), (b"", b"", whole)])
    yield Row(["pool", "--dsc", "out", "page.ps", "one.ps"], 0, b"", told, {"out": out})
    untagged = small_font(b"Small", [STUB] * 4 + [ACROSS, UP], {b"A": 4, b"B": 5})
    family = entry(b"Small", b"Small", untagged)[len(b"%!PS-Adobe-3.0\n"):]
    heads = [b"%%BeginFont: Small\n" + lined(it, b"Small") + b"%%EndFont\n" for it in (name, other)]
    pages = [(heads[0], own, b"1\n"), (b"", b"", document(lined(other, b"Small"))[len(b"%!PS\n"):])]
    yield Row(["pool", "--tags", "--dsc", "out", "page.ps", "tag.ps"], 0, b"", told, {"out": one_document(b"pool:", family, pages)})
    yield Row(["pool", "--dsc", "old", "page.ps", "a.pdf"], 1, b"", b"refused: no document: a PDF file\n")
    yield Row(["pool", "--dsc", "old", "page.ps", "absent"], 3, b"", b"failed: read\n")
    yield Row(["pool", "--dsc", "out", "empty.ps"], 0, b"", told.replace(b"2", b"1"), {"out": one_document(b"pool", b"", [(b"", b"", b"")])})


def rows_of_pooled():
    """Documents that become one with each font once."""
    given, name, other = files(), b"ABCDEF+Small", b"GHIJKL+Small"
    both, line = entry(name, name, BOTH), document(lined(name, name))
    yield Row(["pool", "out", "one.ps"], 0, b"", b"", {"out": given["one.ps"]})
    yield Row(["pool", "out", "one.ps", "one.ps"], 0, b"", b"", {"out": entry(name, name, PARTS[0]) + line + line})
    yield Row(["pool", "out", "one.ps", "two.ps", "one.ps"], 0, b"", b"", {"out": both + line + line + line})
    yield Row(["pool", "one.ps", "two.ps", "one.ps"], 0, b"", b"", {"one.ps": both + line + line})
    kept = given["one.ps"] + given["other.ps"]
    yield Row(["pool", "out", "one.ps", "other.ps"], 0, b"", b"kept ABCDEF+Small: shells differ in encoding\n", {"out": kept})
    untagged = small_font(b"Small", [STUB] * 4 + [ACROSS, UP], {b"A": 4, b"B": 5})
    family = entry(b"Small", b"Small", untagged) + document(lined(name, b"Small")) + document(lined(other, b"Small"))
    yield Row(["pool", "out", "one.ps", "tag.ps"], 0, b"", b"", {"out": given["one.ps"] + given["tag.ps"]})
    yield Row(["pool", "--tags", "out", "one.ps", "tag.ps"], 0, b"", b"", {"out": family})
    later = entry(b"Small", b"Small", untagged, b"/pool::") + entry(name, name, lined(name, b"Small", b"/pool::")) + line + line
    later += document(lined(other, b"Small", b"/pool::"))
    yield Row(["pool", "--tags", "out", "one.ps", "two.ps", "tag.ps"], 0, b"", b"", {"out": later})
    apart = given["one.ps"] + given["tag.other.ps"]
    yield Row(["pool", "--tags", "out", "one.ps", "tag.other.ps"], 0, b"", b"kept Small: shells differ in encoding\n", {"out": apart})
    yield Row(["pool", "out", "job.ps", "dos.eps", "one.ps"], 0, b"", b"", {"out": b"%!PS\n" + b"%!PS\n" + given["one.ps"]})
    yield Row(["pool", "old", "one.ps", "absent"], 3, b"", b"failed: read\n")
    yield Row(["pool", "no.folder/out", "one.ps"], 3, b"", b"failed: write\n")
    yield Row(["pool", "out"], 2, b"", SOME)
    yield Row(["pool", "out", "empty.ps", "empty.ps"], 0, b"", b"", {"out": b"%!\n%!"})
    for name, what in (("nothing.ps", "an empty file"), ("no.font", "an unknown file"), ("a.pdf", "a PDF file"), ("jobs.ps", "a job ends inside")):
        refused = f"refused: no document: {what}\n".encode()
        yield Row(["pool", "old", "one.ps", name], 1, b"", refused)
        yield Row(["level", "folder", "one.ps", name], 1, b"", refused)
        yield Row(["fonts", name], 1, b"", refused)
        yield Row(["fonts", "--extract", "ABCDEF+Small", "old", "one.ps", name], 1, b"", refused)
    explained = f"refused: no document: a PDF file\nfile: a.pdf\n{page_rows()['no document: WHAT']}\n".encode()
    yield Row(["pool", "--explain", "old", "one.ps", "a.pdf"], 1, b"", explained)


def rows_without_a_path():
    """An OUT without bytes is no file, and nothing is left where it would stand."""
    for words in (["pfa", "whole.font", ""], ["subset", "whole.font", "", "A"], ["merge", "", "whole.font"], ["rejoin", "", "one.cut"],
                  ["mend", "whole.font", ""], ["pool", "", "one.ps"], ["fonts", "--extract", "ABCDEF+Small", "", "one.ps"]):
        yield Row(words, 3, b"", b"failed: write\n")


def rows_of_levelled():
    """Documents that get one font for each name, each by itself."""
    given, both = files(), document(BOTH)
    levelled = {"folder/one.ps": both, "folder/two.ps": both}
    yield Row(["level", "folder", "one.ps"], 0, b"", b"", {"folder/one.ps": given["one.ps"]})
    yield Row(["level", "folder", "one.ps", "two.ps"], 0, b"", b"", levelled)
    around = {f"folder/{name}": given[name] for name in ("job.ps", "dos.eps")}
    yield Row(["level", "folder", "two.ps", "./one.ps", "job.ps", "dos.eps"], 0, b"", b"", {**levelled, **around})
    yield Row(["level", "folder", "empty.ps"], 0, b"", b"", {"folder/empty.ps": b"%!"})
    kept = {name: given[name.split("/")[1]] for name in ("folder/one.ps", "folder/other.ps")}
    yield Row(["level", "folder", "one.ps", "other.ps"], 0, b"", b"kept ABCDEF+Small: shells differ in encoding\n", kept)
    yield Row(["level", "folder", "one.ps", "./one.ps"], 2, b"", b"error: two documents have the name one.ps\n")
    yield Row(["level", ".", "one.ps", "two.ps"], 2, b"", b"error: . holds the document one.ps\n")
    yield Row(["level", "./folder/..", "two.ps"], 2, b"", b"error: ./folder/.. holds the document two.ps\n")
    yield Row(["level", "folder", "one.ps", "absent"], 3, b"", b"failed: read\n")
    unwritten = b"note: 0 of %d documents are written, one.ps is not\n"
    yield Row(["level", "no.folder", "one.ps"], 3, b"", b"failed: write\n" + unwritten % 1)
    yield Row(["level", "", "one.ps", "two.ps"], 3, b"", b"failed: write\n" + unwritten % 2)
    rows = page_rows()
    explained = f"failed: write\nfile: no.folder\n{rows['failed: write']}\n".encode() + unwritten % 1
    yield Row(["level", "--explain", "no.folder", "one.ps"], 3, b"", explained)


def rows_of_listed_fonts():
    """The fonts of documents."""
    given = files()
    nested = b"%%BeginDocument: a.eps\n" + given["two.ps"] + b"%%EndDocument\n"
    first, second, other = (text.find(b"%!", 2) for text in (given["one.ps"], given["two.ps"], given["other.ps"]))
    listed = f"one.ps: {first} ABCDEF+Small 2 0 joined\n".encode()
    two = f"two.ps: {second} ABCDEF+Small 2 0 joined\n".encode()
    yield Row(["fonts", "one.ps", "two.ps"], 0, listed + two + b"2 places, 1 names, 0 kept\n")
    assert given["nested.ps"] == given["one.ps"] + nested
    behind = len(given["one.ps"]) + len(b"%%BeginDocument: a.eps\n") + second
    inner = f"nested.ps: {first} ABCDEF+Small 2 0 joined\nnested.ps: {behind} ABCDEF+Small 2 1 joined\n".encode()
    yield Row(["fonts", "nested.ps"], 0, inner + b"2 places, 1 names, 0 kept\n")
    why = b"kept: shells differ in encoding\n"
    kept = f"other.ps: {other} ABCDEF+Small 2 0 ".encode() + why + listed.replace(b"joined\n", why)
    yield Row(["fonts", "other.ps", "empty.ps", "one.ps"], 0, kept + b"2 places, 1 names, 1 kept\n")
    yield Row(["fonts", "empty.ps"], 0, b"0 places, 0 names, 0 kept\n")
    yield Row(["fonts", "--extract", "ABCDEF+Small", "out", "empty.ps", "one.ps", "two.ps"], 0, b"", b"", {"out": PARTS[0]})
    yield Row(["fonts", "--extract", "ABCDEF+Small", "one.ps", "two.ps", "one.ps"], 0, b"", b"", {"one.ps": PARTS[1]})
    yield Row(["fonts", "--extract", "Small", "old", "one.ps"], 1, b"", b"refused: no font Small\n")
    rows = page_rows()
    explained = f"refused: no font Small\nfiles: all of them together\n{rows['no font NAME']}\n".encode()
    yield Row(["fonts", "--explain", "--extract", "Small", "old", "one.ps"], 1, b"", explained)
    yield Row(["fonts", "--extract", "Small", "out"], 2, b"", SOME)
    yield Row(["fonts", "one.ps", "absent"], 3, b"", b"failed: read\n")
    yield Row(["fonts", "--extract", "ABCDEF+Small", "no.folder/out", "one.ps"], 3, b"", b"failed: write\n")


def rows_of_mended():
    """Fonts that other programs spell."""
    one = small_font(b"ABCDEF+Small", [STUB] * 4 + [ACROSS], {b"A": 4})
    untagged = small_font(b"Small", [STUB] * 4 + [ACROSS], {b"A": 4})
    yield Row(["check", "spelled.font"], 1, b"", b"refused: bad Encoding at 31\n")
    spelled = b"comment in Encoding at 31\nreadonly Encoding at 31\n"
    tested = b"test of FontDirectory taken out at 3\n"
    yield Row(["mend", "spelled.font", "out"], 0, b"", spelled, {"out": one})
    yield Row(["mend", "tested.font", "tested.font"], 0, b"", tested, {"tested.font": one})
    yield Row(["mend", "cairo.font", "out"], 0, b"", tested, {"out": one})
    yield Row(["mend", "tested.font", "no.folder/out"], 3, b"", b"failed: write\n")
    yield Row(["mend", "one.cut", "old"], 0, b"", b"", {"old": one})
    yield Row(["mend", "--pfb", "tiny.pfa", "out"], 0, b"", b"", {"out": example("tiny.pfb")})
    yield Row(["rejoin", "out", "tested.font", "cairo.font", "spelled.font", "one.cut"], 0, b"", b"", {"out": untagged})
    yield Row(["mend", "no.font", "out"], 1, b"", b"refused: no eexec\n")
    yield Row(["mend", "absent", "out"], 3, b"", b"failed: read\n")


def rows_of_differences():
    """All conflicts of two fonts."""
    yield Row(["diff", "some.font", "more.font"], 1, DIFFERENCES)
    yield Row(["diff", "more.font", "some.font"], 1, DIFFERENCES)
    yield Row(["merge", "old", "some.font", "more.font"], 1, b"", b"refused: " + DIFFERENCES.split(b"\n")[0] + b"\n")
    yield Row(["diff", "some.font", "some.font"], 0)
    yield Row(["diff", "tiny.pfa", "tiny.pfb"], 0)
    yield Row(["diff", "whole.font", "coded.font"], 1, b"shells differ in encoding\n")
    yield Row(["diff", "one.cut", "two.cut"], 1, b"shells differ in head\nshells differ in Subrs table\n")
    yield Row(["diff", "one.cut", "no.font"], 1, b"", b"refused: no eexec\n")
    yield Row(["diff", "no.font", "absent"], 3, b"", b"failed: read\n")
    rows = page_rows()
    for words in (["one.cut", "no.font"], ["no.font", "one.cut"]):
        yield Row(["diff", "--explain", *words], 1, b"", f"refused: no eexec\nfile: no.font\n{rows['no eexec']}\n".encode())
    yield Row(["--explain", "diff", "some.font", "more.font"], 1, DIFFERENCES)


def rows_of_listings():
    """All inputs are opened before the first is read."""
    refused = b"refused: subr 150 differs\n"
    yield Row(["join", "left.listing", "right.listing"], 0, example("both.listing"))
    yield Row(["join", "left.listing", "other.listing"], 1, b"", refused)
    yield Row(["join", "no.listing", "left.listing"], 1, b"", b"refused: bad line 1\n")
    yield Row(["join", "no.listing", "absent"], 3, b"", b"failed: read\n")


def all_rows(given):
    rows = [*rows_of_words(), *rows_of_fonts(), *rows_of_full(), *rows_of_several(), *rows_of_explained(), *rows_of_outputs(given)]
    return [*rows, *rows_of_names(), *rows_of_codes(), *rows_of_limits(), *rows_of_rejoined(), *rows_of_pooled(), *rows_of_pages(), *rows_of_levelled(), *rows_without_a_path(), *rows_of_listed_fonts(), *rows_of_mended(), *rows_of_differences(), *rows_of_listings()]
