#!/usr/bin/env python3
"""Cuts real fonts by several programs, and counts how many pairs of their subsets rejoin, also those of different programs.

usage: tools/rejoin_producers.py [FONTS]    FONTS is how many fonts are tried, by default all of the map

Each font of TeX's map whose program is installed is set in two documents with different characters. dvips, pdfTeX and, where
they are installed, Ghostscript's ps2write (from what dvips wrote) and pdftops (from what pdfTeX wrote) cut it, Ghostscript's
pdfwrite and pdftops make CFF of it and a font again (from what dvips wrote), so do XeTeX and pdftops, and `subset` cuts the font's own file, mended, to
the same names. `merge` and `rejoin` are tried on the first subset of each program with the
second of each. FreeType then draws each glyph of the rejoined font, at 1,000 units and without hints, which has to have the
parent's outline and advance. Prints a table of pairs: how many there are, merge, rejoin, and draw as the parent; and then the
reasons for which pairs are refused.

Needs the program (bin/t1subset, or T1SUBSET), and Debian's packages texlive-binaries, texlive-base,
texlive-fonts-recommended, cm-super-minimal, lmodern, tex-gyre and python3-freetype; ghostscript and poppler-utils for two more
programs, and with the latter for XeTeX.
"""
import atexit
import collections
import os
import random
import re
import shutil
import subprocess
import sys
import tempfile

from common import Failed, bytes_of, glyphs_in, printed, program as named_program, put

try:
    import freetype
except ImportError:
    sys.exit("missing: run `apt-get install python3-freetype`")
if not all(map(shutil.which, ["kpsewhich", "tftopl", "tex", "dvips", "pdftex"])):
    sys.exit("missing: run `apt-get install texlive-binaries texlive-base`")

PROGRAM = named_program()
OUTLINE = freetype.FT_LOAD_NO_SCALE | freetype.FT_LOAD_NO_HINTING | freetype.FT_LOAD_IGNORE_TRANSFORM


def found(name):
    """Where TeX finds a file, or an empty text."""
    return subprocess.run(["kpsewhich", name], capture_output=True, text=True).stdout.strip()


def fonts_of_the_map():
    """Each font program of dvips' map once, with the first TeX name that uses it as it stands."""
    seen = set()
    with open(found("psfonts.map"), encoding="latin-1") as lines:
        for line in lines:
            program = re.search(r"<<?(\S+\.pfb)", line)
            if program and program[1] not in seen and '"' not in line:
                seen.add(program[1])
                yield line.split()[0], program[1]


def characters(name):
    """The codes that a font's metrics have."""
    for kind, digits in re.findall(r"\(CHARACTER ([CO]) (\S+)", printed(["tftopl", found(name + ".tfm")])):
        yield ord(digits) if kind == "C" else int(digits, 8)


def document(folder, name, codes):
    """A document that sets these characters and no others."""
    with open(os.path.join(folder, "doc.tex"), "w") as f:
        f.write("\\ifx\\pdfoutput\\undefined\\else\\pdfcompresslevel=0 \\pdfobjcompresslevel=0 \\fi\n")
        f.write("\\font\\x=%s \\shipout\\hbox{\\x %s}\\end\n" % (name, "".join("\\char%d " % c for c in codes)))


def streams(file):
    """The font programs that a file of uncompressed streams holds."""
    for marker in re.finditer(rb"<<[^>]*/Length1 [^>]*>>\s*stream\r?\n", file):
        length = int(re.search(rb"/Length (\d+)", marker[0])[1])
        yield file[marker.end():marker.end() + length]


def by_dvips(folder):
    printed(["tex", "-interaction=batchmode", "doc"], cwd=folder)
    printed(["dvips", "-q", "-o", "doc.ps", "doc"], cwd=folder)
    return re.findall(rb"%%BeginFont:[^\n]*\n(.*?)%%EndFont", bytes_of(folder, "doc.ps"), re.DOTALL)


def by_ghostscript(folder):
    """From what dvips wrote into the same folder."""
    printed(["gs", "-q", "-dSAFER", "-sDEVICE=ps2write", "-dCompressFonts=false", "-o", "again.ps", "doc.ps"], cwd=folder)
    return list(streams(bytes_of(folder, "again.ps")))


def by_pdftex(folder):
    printed(["pdftex", "-interaction=batchmode", "doc"], cwd=folder)
    return list(streams(bytes_of(folder, "doc.pdf")))


def by_pdftops(folder):
    """From what pdfTeX wrote into the same folder."""
    printed(["pdftops", "-level2", "doc.pdf", "pages.ps"], cwd=folder)
    return re.findall(rb"%%BeginResource: font [^\n]*\n(.*?)%%EndResource", bytes_of(folder, "pages.ps"), re.DOTALL)


def plain_format():
    """A folder with XeTeX's format of plain TeX, which is made here once."""
    folder = tempfile.mkdtemp()
    atexit.register(shutil.rmtree, folder)
    printed(["xetex", "-ini", "-etex", "-interaction=batchmode", "\\input plain \\dump"], cwd=folder)
    return os.path.join(folder, "plain")


def by_xetex(folder):
    """As CFF, and back."""
    if "plain" not in FORMATS:
        FORMATS["plain"] = plain_format()
    printed(["xetex", "-interaction=batchmode", "-fmt=" + FORMATS["plain"], "-no-pdf", "doc"], cwd=folder)
    printed(["xdvipdfmx", "-q", "-o", "xe.pdf", "doc.xdv"], cwd=folder)
    printed(["pdftops", "-level2", "xe.pdf", "xe.ps"], cwd=folder)
    return re.findall(rb"%%BeginResource: font [^\n]*\n(.*?)%%EndResource", bytes_of(folder, "xe.ps"), re.DOTALL)


FORMATS = {}


def by_pdfwrite(folder):
    """From what dvips wrote into the same folder, as CFF and back."""
    printed(["gs", "-q", "-dSAFER", "-sDEVICE=pdfwrite", "-o", "cff.pdf", "doc.ps"], cwd=folder)
    printed(["pdftops", "-level2", "cff.pdf", "back.ps"], cwd=folder)
    return re.findall(rb"%%BeginResource: font [^\n]*\n(.*?)%%EndResource", bytes_of(folder, "back.ps"), re.DOTALL)


# Each comes behind the one whose file it takes.
PRODUCERS = {"dvips": by_dvips, "pdfTeX": by_pdftex}
if shutil.which("gs"):
    PRODUCERS["ps2write"] = by_ghostscript
if shutil.which("pdftops"):
    PRODUCERS["pdftops"] = by_pdftops
if "ps2write" in PRODUCERS and "pdftops" in PRODUCERS:
    PRODUCERS["pdfwrite"] = by_pdfwrite
if all(map(shutil.which, ["xetex", "xdvipdfmx", "pdftops"])):
    PRODUCERS["XeTeX"] = by_xetex
FILE = "file"


def said(folder, *words):
    """What the program says: nothing, or the reason of a refusal. What `mend` tells of a font that it takes is none."""
    done = subprocess.run([PROGRAM, *words], cwd=folder, capture_output=True, text=True)
    return done.stderr.strip() if done.returncode else ""


def names_in(folder, part):
    """The names of a subset's glyphs."""
    put(part, folder, "part")
    if said(folder, "mend", "part", "mended"):
        return None
    return glyphs_in(printed([PROGRAM, "list", "mended"], cwd=folder))


def by_file(folder, program, part):
    """The subset of the font's own file, mended, that has the names of this subset."""
    names = names_in(folder, part)
    if names is None or said(folder, "mend", found(program), "whole"):
        return None
    if said(folder, "subset", "whole", "cut", "--", *names):
        return None
    return bytes_of(folder, "cut")


def joined(folder, word, parts):
    """What a command says of two fonts: nothing, or the reason of a refusal."""
    for name, part in zip(("one", "two"), parts):
        put(part, folder, name)
    return said(folder, word, "out", "one", "two")


def outline(face, index):
    face.load_glyph(index, OUTLINE)
    drawn = face.glyph.outline
    return list(drawn.points), list(drawn.tags), list(drawn.contours), face.glyph.linearHoriAdvance


def draws_as(path, parent):
    """Whether FreeType draws each glyph of a font as in its parent, and how many glyphs there are."""
    font, whole = freetype.Face(path), freetype.Face(parent)
    names = [font.get_glyph_name(i) for i in range(font.num_glyphs)]
    same = all(outline(font, i) == outline(whole, whole.get_name_index(n)) for i, n in enumerate(names))
    return same, len(names)


def halves(name):
    """Two overlapping sets of codes, the same in each run."""
    codes = sorted(set(characters(name)))
    chosen = random.Random(name)
    return [sorted(chosen.sample(codes, min(len(codes), 12))) for _ in range(2)]


def cut_by_each(folder, program):
    """The one subset that each program makes of the document that stands in the folder, where it makes one."""
    parts = {}
    for producer, cut in PRODUCERS.items():
        fonts = cut(folder)
        if len(fonts) == 1:
            parts[producer] = fonts[0]
    if "dvips" in parts:
        own = by_file(folder, program, parts["dvips"])
        if own:
            parts[FILE] = own
    return parts


def tried(folder, name, program, tally, reasons):
    """Cuts one font by each program, and counts what becomes of the pairs."""
    halves_cut = []
    for codes in halves(name):
        document(folder, name, codes)
        halves_cut.append(cut_by_each(folder, program))
    first, second = halves_cut
    for one in first:
        for other in second:
            pair, parts = (one, other), (first[one], second[other])
            tally[pair, "pairs"] += 1
            tally[pair, "merge"] += joined(folder, "merge", parts) == ""
            reason = joined(folder, "rejoin", parts)
            tally[pair, "rejoin"] += not reason
            reasons[pair, re.sub(r"(code|subr|glyph) \S+", r"\1 ..", reason)] += bool(reason)
            if not reason:
                same, glyphs = draws_as(os.path.join(folder, "out"), found(program))
                tally[pair, "draw alike"] += same
                tally[pair, "glyphs"] += glyphs
                if not same:
                    print(f"{one} with {other}: {name}: a glyph is drawn otherwise")


def report(tally, reasons):
    """Prints the table of pairs, and the reasons."""
    columns = ["pairs", "merge", "rejoin", "draw alike", "glyphs"]
    print(f"{'first':10}{'second':10}" + "".join(f"{column:>12}" for column in columns))
    for one, other in sorted({pair for pair, _ in tally}):
        print(f"{one:10}{other:10}" + "".join(f"{tally[(one, other), column]:12}" for column in columns))
    for (pair, reason), number in sorted(reasons.items()):
        if number:
            print(f"{number:5} of {pair[0]} with {pair[1]}: {reason}")


def main(limit):
    tally, reasons = collections.Counter(), collections.Counter()
    count = 0
    for name, program in fonts_of_the_map():
        if count == limit:
            break
        if not (found(name + ".tfm") and found(program)):
            continue
        count += 1
        with tempfile.TemporaryDirectory() as folder:
            try:
                tried(folder, name, program, tally, reasons)
            except (Failed, freetype.FT_Exception) as error:
                print(f"{name}: {error}")
    print(f"{count} fonts")
    report(tally, reasons)


if __name__ == "__main__":
    main(int(sys.argv[1]) if len(sys.argv) > 1 else None)
