"""Files that are refused, or that don't merge or join: arguments and files for each number of include/t1subset.h that files can
bring about. What is answered is not said here: `tools/test_library.py` asks the program.
"""
from common import EMPTY, ENDCHAR, RETURN, WIDTH, as_binary, glyphs_table, subrs_table

HEAD = b"%!\n/FontName /Made def\n"
TABLE = b"/Encoding 256 array\n0 1 255 {1 index exch /.notdef put} for\ndup 65 /%s put\nreadonly def\n"
TAIL = b"/FontType 1 def\n"
PRIVATE = b"/Private 3 dict dup begin\n"
MIDDLE = b"2 index "
END = b"end\nmark currentfile closefile\n"
# A glyph that calls Subr 4, one that moves, and one that is composed of A and acute (StandardEncoding 65 and 194).
CALLS, MOVES = WIDTH + b"\x8f\x0a" + ENDCHAR, WIDTH + b"\xef\x16" + ENDCHAR
ACCENTED = WIDTH + b"\x8b\x8b\x8b\xcc\xf7\x56\x0c\x06"
UP, ACROSS = b"\xef\x04" + RETURN, b"\xef\x16" + RETURN


def subrs(entries, declared=5, words=b"NP"):
    return subrs_table(sorted(entries.items()), declared, b" %s\n" % words)


def glyphs(entries, words=b"ND"):
    return glyphs_table(sorted(entries.items()), b" %s\n" % words)


SUBRS = {at: RETURN for at in range(4)}
GLYPHS = {b".notdef": EMPTY, b"A": MOVES}


def made(head=HEAD, encoding=TABLE % b"A", tail=TAIL, private=PRIVATE, table=None, middle=MIDDLE, letters=None, end=END):
    """A font with a raw binary cipher, some of whose parts are others."""
    table = subrs({**SUBRS, 4: UP}) if table is None else table
    letters = glyphs(GLYPHS) if letters is None else letters
    return as_binary(head + encoding + tail + b"currentfile eexec\n", private + table + middle + letters + end)


def many(first, count):
    """The table of so many glyphs, each with the charstring of one byte."""
    return glyphs({b".notdef": ENDCHAR, **{b"g%05d" % at: ENDCHAR for at in range(first, first + count)}})


def no_fonts():
    """Files that spell no font, by the name of the number."""
    yield "bad_segment", b"\x80\x01\x01\x00\x00\x00%\x80\x07"
    yield "no_eexec", b"%!\n"
    yield "short_cipher", HEAD + TABLE % b"A" + b"currentfile eexec\nab"
    yield "no_encoding", made(encoding=b"")
    yield "bad_encoding", made(encoding=(TABLE % b"A").replace(b"dup", b"dop"))
    yield "no_charstrings", made(letters=b"")
    yield "bad_leniv", made(private=PRIVATE + b"/lenIV -1 def\n")
    yield "bad_subrs", made(table=subrs(SUBRS).replace(b"dup 2", b"dup x"))
    yield "bad_charstrings", made(letters=glyphs(GLYPHS).replace(b"/A", b"% a comment\n/A"))
    yield "hybrid", made(middle=subrs(SUBRS) + MIDDLE)
    yield "no_closefile", made(end=b"end\n")
    yield "no_notdef", made(letters=glyphs({b"A": MOVES}))
    yield "font_limit", made(letters=many(0, 65535))


def pairs():
    """Two fonts that don't merge, by the name of the number or of the part."""
    plain = made()
    yield "part_head", plain, made(head=HEAD + b"/PaintType 0 def\n")
    yield "part_encoding", plain, made(encoding=b"/Encoding StandardEncoding def\n")
    yield "part_clear_tail", plain, made(tail=b"")
    yield "part_private", plain, made(private=PRIVATE + b"/BlueFuzz 0 def\n")
    yield "part_subrs_table", plain, made(table=subrs({**SUBRS, 4: UP}, 6))
    yield "part_subrs_words", plain, made(table=subrs({**SUBRS, 4: UP}, words=b"|"))
    yield "part_middle", plain, made(middle=b"3 index ")
    yield "part_glyphs_words", plain, made(letters=glyphs(GLYPHS, b"|-"))
    yield "part_tail", plain, made(end=b"end\nend\nmark currentfile closefile\n")
    yield "code_differs", plain, made(encoding=TABLE % b"B")
    yield "glyph_differs", plain, made(letters=glyphs({**GLYPHS, b"A": CALLS}))
    accented = made(letters=glyphs({**GLYPHS, b"Aacute": ACCENTED}))
    yield "glyph_lacks_part", accented, made(letters=glyphs({**GLYPHS, b"acute": MOVES}))
    yield "subr_differs", plain, made(table=subrs({**SUBRS, 4: ACROSS}))
    called = glyphs({**GLYPHS, b"A": CALLS})
    yield "subr_differs", made(letters=called), made(letters=called, table=subrs({**SUBRS, 4: ACROSS}))
    yield "merge_limit", made(letters=many(0, 40000)), made(letters=many(40000, 40000))


def listings():
    """Two listings that don't join, or of which one spells none."""
    yield "bad_line", b"S 0 0b\nS 1 b\n", b""
    yield "bad_line", b"", b"S 0 0b\nS 1 0b\nS 2"
    yield "repeated_line", b"S 0 0b\nG A 0e\nS 0 0b\n", b""
    yield "listed_subr_differs", b"S 12 0b\n", b"S 12 0e\n"
    yield "listed_glyph_differs", b"G A 0b\n", b"G A 0e\n"


def limited(good):
    """Arguments that allow fewer tokens than a font's glyphs execute, of which .notdef has 4 and A has 6; and what is told before them."""
    for words in (["merge", "out", "good"], ["rejoin", "out", "good"], ["subset", "good", "out", "A"], ["subset", "good", "out", "--codes", "65"]):
        for tokens in ("0", "9"):
            yield "too_many_tokens", [*words, "--tokens", tokens], {"good": good}
    for word in ("merge", "rejoin"):
        yield "too_many_tokens", [word, "out", "good", "good", "--tokens", "19"], {"good": good}
        yield "no_eexec", [word, "out", "good", "bad", "--tokens", "0"], {"good": good, "bad": b"%!\n"}
    for tokens in ("0", "19"):
        yield "too_many_tokens", ["diff", "good", "good", "--tokens", tokens], {"good": good}
    for words in (["diff", "good", "bad"], ["diff", "bad", "good"]):
        yield "no_eexec", [*words, "--tokens", "0"], {"good": good, "bad": b"%!\n"}
    yield "no_eexec", ["subset", "bad", "out", "A", "--tokens", "0"], {"bad": b"%!\n"}
    yield "no_glyph", ["subset", "good", "out", "A", "B", "--tokens", "0"], {"good": good}
    yield "no_code", ["subset", "good", "out", "--codes", "66", "B", "--tokens", "0"], {"good": good}
    for name, one, other in pairs():
        files = {"one": one, "other": other}
        if name.startswith("part_"):
            yield name, ["merge", "out", "one", "other", "--tokens", "0"], files
        if len(one) < 100000:
            yield name, ["merge", "out", "one", "other", "--tokens", "1000"], files
            yield "too_many_tokens", ["diff", "one", "other", "--tokens", "0"], files


def rows():
    """The name of the number, the arguments, and the files that they name."""
    good = made()
    for name, file in no_fonts():
        yield name, ["check", "bad"], {"bad": file}
        if len(file) < 100000:
            for words in (["list", "bad"], ["show", "bad", "A"], ["pfa", "bad", "out"], ["mend", "bad", "out"], ["subset", "bad", "out", "Zed"]):
                yield name, words, {"bad": file}
            for word in ("merge", "rejoin"):
                yield name, [word, "out", "good", "bad", "bad"], {"good": good, "bad": file}
    for name, one, other in pairs():
        for words in (["merge", "out", "one", "other"], ["merge", "out", "other", "one", "other"]):
            yield name, words, {"one": one, "other": other}
    called = glyphs({**GLYPHS, b"A": CALLS})
    fonts = {"good": made(letters=called), "lacking": made(letters=called, table=subrs(SUBRS, 4))}
    yield "glyph_lacks_subr", ["rejoin", "out", "good", "lacking"], fonts
    yield "glyph_lacks_subr", ["rejoin", "out", "lacking", "good", "good"], fonts
    for file in (b"", b"%PDF-1.7\n", b"%!\n\x04%!\n", b"\xc5\xd0\xd3\xc6"):
        for words in (["pool", "out", "one.ps", "bad"], ["fonts", "one.ps", "bad"]):
            yield "no_document", words, {"one.ps": b"%!\n", "bad": file}
    for name, one, other in listings():
        yield name, ["join", "one", "other"], {"one": one, "other": other}
    yield "no_glyph", ["subset", "good", "out", "A", "B", "C"], {"good": good}
    yield "no_glyph", ["show", "good", "B"], {"good": good}
    yield "no_code", ["subset", "good", "out", "B", "--codes", "65,200,66"], {"good": good}
    yield from limited(good)
