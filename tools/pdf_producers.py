#!/usr/bin/env python3
"""Makes PDFs by several programs, joins those of each program to a volume, pools it, and compares every page.

usage: tools/pdf_producers.py [PDFS] [--spell] [--keep FOLDER]    PDFS is how many each program makes, by default 5

The PDFs of a program have other words in the same fonts. A volume is joined by qpdf, or where that isn't, by pikepdf, and then pooled by
`t1subset-pdf --dictionaries`. Each page is drawn by those of poppler, MuPDF and Ghostscript that are here, at 72 and at 200 dots an inch; a page
is right if each image is, byte for byte, that of the volume before. pdftotext has to find the same text, and qpdf no fault. Prints a table: the
pages, the bytes of the volume and of the pooled one, how many fonts are made and for how many reasons others stay, and how many pages
are right; and behind it what is told of those that stay. Ends with status 1 if a page, a text or a file is wrong, or a volume can't be pooled.

--spell pools by `--spell`, too. --keep leaves the volumes in FOLDER, as PROGRAM.pdf and PROGRAM.pooled.pdf.

Needs pikepdf for this Python, the library (lib/, or LIBT1SUBSET), and for each program that is to be tried its own: texlive-base,
poppler-utils, ghostscript.
"""
import argparse
import hashlib
import os
import random
import shutil
import subprocess
import sys
import tempfile

from common import Failed, TOP, bytes_of, printed, put

LETTERS = "abcdefghijklmnopqrstuvwxyzABCDEFGHIJKLMNOPQRSTUVWXYZ0123456789"
FONTS = ["cmr10", "cmbx10", "cmti10", "cmsy10", "cmmi10"]
SYMBOLS = {"cmsy10", "cmmi10"}
DOTS = (72, 200)
# Ghostscript writes CFF, but where a PDF may have none.
AS_1_1 = "-dCompatibilityLevel=1.1"


def words(seed, font):
    """Some words of few letters, or symbols, the same in each run."""
    chosen = random.Random(str(seed))
    if font in SYMBOLS:
        return [rf"\char{code} " for code in chosen.sample(range(100), 12)]
    letters = chosen.sample(LETTERS, 12)
    return ["".join(chosen.choices(letters, k=6)) for _ in range(8)]


def tex(folder, number):
    """A document of two pages; the fonts of each are some of all."""
    pages = []
    for page in range(2):
        chosen = sorted(random.Random(f"{number} {page}").sample(FONTS, 4))
        lines = [f"\\font\\x={font} \\x {' '.join(words((number, page, font), font))}\\par" for font in chosen]
        pages.append("\n".join(lines) + "\n\\vfill\\eject\n")
    put(("\\nopagenumbers\n" + "".join(pages) + "\\bye\n").encode(), folder, "doc.tex")


def by_pdftex(folder, number):
    tex(folder, number)
    printed(["pdftex", "-interaction=batchmode", "doc"], cwd=folder)


def by_dvips(folder, number, *options):
    tex(folder, number)
    printed(["tex", "-interaction=batchmode", "doc"], cwd=folder)
    printed(["dvips", "-q", "-o", "doc.ps", "doc"], cwd=folder)
    printed(["ps2pdf", *options, "doc.ps", "doc.pdf"], cwd=folder)


def by_dvips_as_1_1(folder, number):
    by_dvips(folder, number, AS_1_1)


def again(folder, number, *command):
    """What another program makes of a PDF by pdfTeX."""
    by_pdftex(folder, number)
    os.rename(os.path.join(folder, "doc.pdf"), os.path.join(folder, "first.pdf"))
    printed(list(command), cwd=folder)


def by_cairo(folder, number):
    again(folder, number, "pdftocairo", "-pdf", "first.pdf", "doc.pdf")


def by_pdfwrite(folder, number):
    again(folder, number, "gs", "-q", "-dSAFER", "-sDEVICE=pdfwrite", AS_1_1, "-o", "doc.pdf", "first.pdf")


def by_form(folder, number):
    """The pages of a PDF by pdfTeX, as figures on those of another."""
    by_pdftex(folder, number)
    os.rename(os.path.join(folder, "doc.pdf"), os.path.join(folder, "figure.pdf"))
    tex(folder, number + 1000)
    figures = b"".join(b"\\pdfximage page %d{figure.pdf}\\pdfrefximage\\pdflastximage\\eject\n" % page for page in (1, 2))
    put(bytes_of(folder, "doc.tex").replace(b"\\bye", figures + b"\\bye"), folder, "doc.tex")
    printed(["pdftex", "-interaction=batchmode", "doc"], cwd=folder)


NEEDS = {
    "pdfTeX": (by_pdftex, ["pdftex"]),
    "pdfTeX, figures by pdfTeX": (by_form, ["pdftex"]),
    "dvips, ps2pdf": (by_dvips, ["tex", "dvips", "ps2pdf"]),
    "dvips, ps2pdf as PDF 1.1": (by_dvips_as_1_1, ["tex", "dvips", "ps2pdf"]),
    "pdfTeX, pdftocairo": (by_cairo, ["pdftex", "pdftocairo"]),
    "pdfTeX, pdfwrite as PDF 1.1": (by_pdfwrite, ["pdftex", "gs"]),
}


def drawing(path, dots):
    """The programs that draw a PDF, and how each is called."""
    return {
        "poppler": ["pdftoppm", "-r", str(dots), path, "page"],
        "MuPDF": ["mutool", "draw", "-q", "-r", str(dots), "-o", "page%05d.ppm", path],
        "Ghostscript": ["gs", "-q", "-dSAFER", "-sDEVICE=ppmraw", f"-r{dots}", "-dTextAlphaBits=4", "-o", "page%05d.ppm", path],
    }


def images(path):
    """The sums of the images of all pages, by program and size."""
    found = {}
    for dots in DOTS:
        for program, called in drawing(os.path.abspath(path), dots).items():
            if not shutil.which(called[0]):
                continue
            with tempfile.TemporaryDirectory() as folder:
                subprocess.run(called, cwd=folder, capture_output=True, timeout=1800)
                found[program, dots] = [hashlib.sha256(bytes_of(folder, name)).hexdigest() for name in sorted(os.listdir(folder))]
    return found


def right(before, after):
    """How many pages have the same images by all."""
    counts = {len(pages) for found in (before, after) for pages in found.values()}
    if len(counts) != 1:
        return 0
    return sum(all(before[way][page] == after[way][page] for way in before) for page in range(counts.pop()))


def text_of_pdf(path):
    return [subprocess.run(["pdftotext", *options, path, "-"], capture_output=True).stdout for options in ([], ["-layout"])]


def joined(paths, out):
    """The PDFs as one volume."""
    if shutil.which("qpdf"):
        printed(["qpdf", "--empty", "--pages", *paths, "--", out])
        return
    import pikepdf
    volume = pikepdf.new()
    for path in paths:
        with pikepdf.open(path) as pdf:
            volume.pages.extend(pdf.pages)
    volume.save(out)


def pooled(given, out, options):
    """What is told of a volume."""
    env = {**os.environ, "PYTHONDONTWRITEBYTECODE": "1"}
    words = [sys.executable, "-m", "t1subset.pdf", "--dictionaries", *options, os.path.abspath(out), os.path.abspath(given)]
    return printed(words, cwd=os.path.join(TOP, "python"), env=env).splitlines()


def faults(before, after):
    """What is wrong with a pooled volume, but for its images."""
    found = []
    if shutil.which("pdftotext") and text_of_pdf(before) != text_of_pdf(after):
        found.append("pdftotext finds another text")
    if shutil.which("qpdf"):
        done = [subprocess.run(["qpdf", "--check", path], capture_output=True).returncode for path in (before, after)]
        if done[1] > done[0]:
            found.append("qpdf finds a fault")
    return found


def made(make, count, folder):
    for number in range(count):
        with tempfile.TemporaryDirectory() as room:
            make(room, number)
            yield put(bytes_of(room, "doc.pdf"), folder, f"{number}.pdf")


def tried(name, paths, folder, options):
    """The row of a table for the PDFs of a program, what is told of fonts that stay, and what is wrong."""
    before, after = (os.path.join(folder, name.replace(", ", "-").replace(" ", "-") + kind) for kind in (".pdf", ".pooled.pdf"))
    joined(paths, before)
    told = pooled(before, after, options)
    stays = [line for line in told if " joined, " not in line]
    old, new = images(before), images(after)
    count = max(map(len, old.values()))
    good = right(old, new)
    cells = [count, *(f"{os.path.getsize(path):,}" for path in (before, after)), len(told) - len(stays), len(stays), good]
    return f"| {name} | " + " | ".join(map(str, cells)) + " |", stays, faults(before, after) + ([] if good == count else ["a page differs"])


def main():
    parser = argparse.ArgumentParser(description=__doc__.splitlines()[0])
    parser.add_argument("count", nargs="?", type=int, default=5)
    parser.add_argument("--spell", action="store_true")
    parser.add_argument("--keep")
    asked = parser.parse_args()
    told, wrong = [], []
    print("| PDFs by | Pages | Joined, bytes | Pooled, bytes | Fonts made | Reasons to stay | Pages that are right |")
    print("|---|---|---|---|---|---|---|")
    for name, (make, needs) in NEEDS.items():
        if not all(map(shutil.which, needs)):
            told.append(f"{name}: left out, {needs} aren't all here")
            continue
        with tempfile.TemporaryDirectory() as folder:
            try:
                paths = list(made(make, asked.count, folder))
            except (Failed, OSError) as why:
                told.append(f"{name}: left out, {why}")
                continue
            try:
                row, stays, faulty = tried(name, paths, asked.keep or folder, ["--spell"] if asked.spell else [])
            except (Failed, OSError) as why:
                wrong.append(f"{name}: WRONG: {why}")
                continue
        print(row, flush=True)
        told += [f"{name}: {line}" for line in stays]
        wrong += [f"{name}: WRONG: {line}" for line in faulty]
    print("\n".join(["", *told, *wrong]))
    return 1 if wrong else 0


if __name__ == "__main__":
    sys.exit(main())
