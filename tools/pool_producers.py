#!/usr/bin/env python3
"""Makes documents by several programs, joins those of each program by `pool` and by writing them one behind the other, and
compares each page with the page of its own document.

usage: tools/pool_producers.py [DOCUMENTS]    DOCUMENTS is how many each program makes, by default 5

The documents of a program have other words in the same fonts. Ghostscript draws each page at 72 and at 300 dots an inch; a page
is right if both images are, byte for byte, those of its own document. Prints a table: how many pages, the bytes of all documents,
the pages that are right where they stand one behind the other, the bytes that `pool` writes, and the pages that are right there,
both for `pool --tags`, and both for `pool --tags --dsc`, whose pages are right if they are so forwards and once `psselect -r` has
reversed them; and behind it the names that kept their fonts.

Needs the program (bin/t1subset, or T1SUBSET), Debian's packages ghostscript and psutils, and for each program that is to be tried its
own: texlive-binaries, texlive-base, texlive-metapost, poppler-utils, groff, gnuplot-nox, enscript, a2ps.
"""
import os
import random
import shutil
import subprocess
import sys
import tempfile

from common import Failed, bytes_of, printed, program as named_program, put

PROGRAM = named_program()
LETTERS = "abcdefghijklmnopqrstuvwxyzABCDEFGHIJKLMNOPQRSTUVWXYZ0123456789"
FONTS = ["cmr10", "cmbx10", "cmti10"]


def words(seed):
    """Some words of few letters, the same in each run."""
    chosen = random.Random(str(seed))
    letters = chosen.sample(LETTERS, 12)
    return ["".join(chosen.choices(letters, k=6)) for _ in range(8)]


def tex(folder, number):
    """A document of two pages in three fonts."""
    pages = []
    for page in range(2):
        lines = [f"\\font\\{'xyz'[at]}={font} \\{'xyz'[at]} {' '.join(words((number, page, at)))}\\par" for at, font in enumerate(FONTS)]
        pages.append("\n".join(lines) + "\n\\vfill\\eject\n")
    put(("\\nopagenumbers\n" + "".join(pages) + "\\bye\n").encode(), folder, "doc.tex")


def by_dvips(folder, number):
    tex(folder, number)
    printed(["tex", "-interaction=batchmode", "doc"], cwd=folder)
    printed(["dvips", "-q", "-o", "doc.ps", "doc"], cwd=folder)


def by_dvips_in_save(folder, number):
    tex(folder, number)
    printed(["tex", "-interaction=batchmode", "doc"], cwd=folder)
    printed(["dvips", "-q", "-s", "-o", "doc.ps", "doc"], cwd=folder)


def by_pdftops(folder, number):
    tex(folder, number)
    printed(["pdftex", "-interaction=batchmode", "doc"], cwd=folder)
    printed(["pdftops", "-level2", "doc.pdf", "doc.ps"], cwd=folder)


def by_pdftocairo(folder, number):
    tex(folder, number)
    printed(["pdftex", "-interaction=batchmode", "doc"], cwd=folder)
    printed(["pdftocairo", "-ps", "doc.pdf", "doc.ps"], cwd=folder)


def by_ps2write(folder, number):
    tex(folder, number)
    printed(["pdftex", "-interaction=batchmode", "doc"], cwd=folder)
    printed(["gs", "-q", "-dSAFER", "-sDEVICE=ps2write", "-o", "doc.ps", "doc.pdf"], cwd=folder)


def by_enscript(folder, number):
    put(("\n".join(words((number, 0))) + "\n").encode(), folder, "doc.txt")
    printed(["enscript", "-q", "-p", "doc.ps", "doc.txt"], cwd=folder)


def by_a2ps(folder, number):
    put(("\n".join(words((number, 0))) + "\n").encode(), folder, "doc.txt")
    printed(["a2ps", "-q", "-o", "doc.ps", "doc.txt"], cwd=folder)


def by_metapost(folder, number):
    lines = [f'draw "{word}" infont "{FONTS[at % 3]}" scaled 2 shifted (72, {72 + 30 * at});' for at, word in enumerate(words((number, 0)))]
    put(("prologues := 3;\noutputtemplate := \"doc.ps\";\nbeginfig(1)\n" + "\n".join(lines) + "\nendfig;\nend\n").encode(), folder, "doc.mp")
    printed(["mpost", "-interaction=batchmode", "doc"], cwd=folder)


def by_groff(folder, number):
    put(("\n.br\n".join(words((number, 0))) + "\n").encode(), folder, "doc.roff")
    put(printed(["groff", "-Tps", "doc.roff"], cwd=folder).encode("latin-1"), folder, "doc.ps")


def by_gnuplot(folder, number):
    font = printed(["kpsewhich", "cmr10.pfb"]).strip()
    put(f"""set terminal postscript landscape fontfile "{font}" "CMR10" 20
set output "doc.ps"
set title "{' '.join(words((number, 0))[:4])}"
plot sin({number + 1} * x)
""".encode(), folder, "doc.plot")
    printed(["gnuplot", "doc.plot"], cwd=folder)


NEEDS = {
    "dvips": (by_dvips, ["tex", "dvips"]),
    "dvips -s": (by_dvips_in_save, ["tex", "dvips"]),
    "pdfTeX, pdftops": (by_pdftops, ["pdftex", "pdftops"]),
    "pdfTeX, pdftocairo": (by_pdftocairo, ["pdftex", "pdftocairo"]),
    "pdfTeX, ps2write": (by_ps2write, ["pdftex", "gs"]),
    "MetaPost": (by_metapost, ["mpost"]),
    "groff": (by_groff, ["groff"]),
    "gnuplot": (by_gnuplot, ["gnuplot", "kpsewhich"]),
    "enscript": (by_enscript, ["enscript"]),
    "a2ps": (by_a2ps, ["a2ps"]),
}


def images(document, dots):
    """The images of a document's pages, as far as they can be drawn."""
    with tempfile.TemporaryDirectory() as folder:
        put(document, folder, "doc.ps")
        drawing = ["gs", "-q", "-dSAFER", "-sDEVICE=ppmraw", f"-r{dots}", "-o", "%05d.ppm", "doc.ps"]
        subprocess.run(drawing, cwd=folder, capture_output=True, timeout=600)
        return [bytes_of(folder, name) for name in sorted(os.listdir(folder)) if name.endswith(".ppm")]


def right(drawn, wanted):
    """How many pages are right, by all sizes of image."""
    counts = zip(*[[at < len(own) and own[at] == page for at, page in enumerate(pages)] for own, pages in zip(drawn, wanted)])
    return sum(map(all, counts))


def drawn_of(document):
    return [images(document, dots) for dots in (72, 300)]


def pooled(documents, *options):
    """The documents pooled, and what is told of names that keep their fonts."""
    with tempfile.TemporaryDirectory() as folder:
        names = [f"{number}.ps" for number in range(len(documents))]
        for name, document in zip(names, documents):
            put(document, folder, name)
        done = subprocess.run([PROGRAM, "pool", *options, "out", *names], cwd=folder, capture_output=True, check=True)
        return bytes_of(folder, "out"), done.stderr.decode()


def one_by_one(documents):
    """The documents, one behind the other, as joiners write them."""
    return b"".join(text if text.endswith(b"\n") else text + b"\n" for text in documents)


def reversed_pages(document):
    """The pages of a document from the last to the first, by another program."""
    return subprocess.run(["psselect", "-q", "-r"], input=document, capture_output=True, check=True).stdout


def right_both_ways(document, wanted):
    """How many pages are right forwards, and where there is psselect, how many are when it has reversed them."""
    forwards = right(drawn_of(document), wanted)
    if not shutil.which("psselect"):
        return forwards
    return min(forwards, right([pages[::-1] for pages in drawn_of(reversed_pages(document))], wanted))


def made(make, count):
    for number in range(count):
        with tempfile.TemporaryDirectory() as folder:
            make(folder, number)
            yield bytes_of(folder, "doc.ps")


def row(name, documents):
    """The row of a table for the documents of a program, and what is told of them."""
    own = [drawn_of(document) for document in documents]
    wanted = [[page for drawn in own for page in drawn[size]] for size in range(2)]
    behind, (pool, told), (by_families, _) = one_by_one(documents), pooled(documents), pooled(documents, "--tags")
    one, _ = pooled(documents, "--tags", "--dsc")
    cells = [len(wanted[0])]
    for joined in (behind, pool, by_families):
        cells += [len(joined), right(drawn_of(joined), wanted)]
    cells += [len(one), right_both_ways(one, wanted)]
    return f"| {name} | " + " | ".join(map(str, cells)) + " |", told


def main():
    count = int(sys.argv[1]) if len(sys.argv) > 1 else 5
    if not shutil.which("gs"):
        sys.exit("missing: run `apt-get install ghostscript`")
    print("| Program | Pages | Bytes | Right one behind the other | Bytes pooled | Right pooled | Bytes with --tags | Right with --tags "
          "| Bytes with --tags --dsc | Right with --tags --dsc |")
    print("|---|---|---|---|---|---|---|---|---|---|")
    notes, everything = [], []
    for name, (make, needs) in NEEDS.items():
        if not all(map(shutil.which, needs)):
            print(f"| {name} is not installed |")
            continue
        try:
            documents = list(made(make, count))
        except (Failed, OSError) as fault:
            print(f"| {name} failed: {str(fault).splitlines()[0]} |")
            continue
        line, told = row(name, documents)
        print(line, flush=True)
        notes += [f"{name}: {note}" for note in told.splitlines()]
        everything += documents
    if everything:
        line, told = row("all of these", everything)
        print(line)
        notes += [f"all of these: {note}" for note in told.splitlines()]
    print("\n".join(["", *notes]) if notes else "")


main()
