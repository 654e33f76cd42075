#!/usr/bin/env python3
"""Runs tools/specimen.py on made fonts, and the scripts of bench/ and tools/ that no other test runs in their smallest form.

What a specimen has to show is taken from the made fonts: widths, boxes, names and their places. Of the benchmarks it is only
asked that they run to their end and print what they say that they print.

usage: tools/test_tools.py [--lib FOLDER] [--program PROGRAM]
Without names the program is the one that `rt ci` leaves, and the library is made by tools/build_library.sh of the archive
that tools/test_library.py leaves; if there is none, what needs the library is left out.
"""
import argparse
import collections
import os
import re
import shutil
import subprocess
import sys
import tempfile
from xml.etree import ElementTree

import gate
import make_speed
from common import BUILDS, CLOSE, EMPTY, ENDCHAR, HSBW, LINE, MOVE, RETURN, TINY_PFB, TOP
from common import as_pfb, below, bytes_of, compiler, example, made_font, needs, number, printed, put, say, text_of

SVG = "{http://www.w3.org/2000/svg}"
THOUSANDTH, OF_2048, SLANTED = b"0.001 0 0 0.001 0 0", b"0.00048828125 0 0 0.00048828125 0 0", b"0.001 0 0.0002 0.001 0 0"
DIV, SEAC = b"\x0c\x0c", b"\x0c\x06"
# The height of letters, and the most that one takes in a common monospaced font.
LETTERS, LETTER = 90, 55
# What a page shows of a name: its letters' boxes, and of each font the width and the box of what is painted.
Shown = collections.namedtuple("Shown", "texts painted widths marked boxes")


def check(holds, what):
    if not holds:
        sys.exit(f"tools/test_tools.py: {what}")


def box(width, left, bottom, right, top):
    """A charstring that paints a box."""
    lines = [(right - left, 0), (0, top - bottom), (left - right, 0)]
    drawn = b"".join(number(x) + number(y) + LINE for x, y in lines)
    return number(0) + number(width) + HSBW + number(left) + number(bottom) + MOVE + drawn + CLOSE + ENDCHAR


def font(glyphs, matrix=THOUSANDTH):
    clear = b"%%!\n/FontName /Made def\n/FontMatrix [%s] readonly def\n/Encoding StandardEncoding def\n" % matrix
    return made_font(clear, [RETURN] * 4, {b".notdef": EMPTY, **glyphs})


class Room:
    """A folder of fonts, and how tools/specimen.py is run there."""

    def __init__(self, folder, program, library):
        self.folder, self.env = folder, {**os.environ, "PYTHONDONTWRITEBYTECODE": "1"}
        self.env.pop("LIBT1SUBSET", None)
        self.env["T1SUBSET"] = program
        self.over_library = {**self.env, "LIBT1SUBSET": library + "/libt1subset.so.0"} if library else None
        if library:
            del self.over_library["T1SUBSET"]

    def put(self, name, data):
        put(data, self.folder, name)

    def run(self, *words, env=None):
        script = os.path.join(TOP, "tools/specimen.py")
        done = subprocess.run([sys.executable, script, *words], cwd=self.folder, env=env or self.env, capture_output=True, timeout=60)
        check(b"Traceback" not in done.stderr, f"specimen.py {words}: {done.stderr.decode()}")
        return done.returncode, done.stdout, done.stderr.decode()

    def drawn(self, *words):
        """The picture of a run that has to end well, by the program and by the library the same; and what it said."""
        done = self.run(*words)
        check(done[0] == 0, f"specimen.py {words}: {done}")
        if self.over_library:
            check(self.run(*words, env=self.over_library) == done, f"specimen.py {words}: the library gives another picture")
        return picture(done[1]), done[2]

    def refused(self, words, said, **env):
        """The run ends with status 1, prints nothing, and says this."""
        done = self.run(*words, env={**self.env, **env})
        check(done == (1, b"", said + "\n"), f"specimen.py {words}: {done}, and not {said!r}")


def placed(point, transforms):
    """Where a point of an element comes to, through its transforms from the innermost on."""
    x, y = point
    for kind, text in transforms:
        values = list(map(float, text.split()))
        if kind == "translate":
            x, y = x + values[0], y + values[1]
        elif kind == "scale":
            x, y = x * values[0], y * values[0]
        else:
            a, b, c, d, e, f = values
            x, y = a * x + c * y + e, b * x + d * y + f
    return x, y


def transforms_of(element):
    return re.findall(r"(\w+)\(([^)]*)\)", element.get("transform", ""))[::-1]


def points_of(path, transforms):
    """The points of a path of absolute lines."""
    numbers = list(map(float, re.findall(r"-?[\d.]+", path)))
    return [placed(point, transforms) for point in zip(numbers[::2], numbers[1::2])]


def bounds(points):
    xs, ys = zip(*points)
    return min(xs), min(ys), max(xs), max(ys)


def letters_of(text):
    """The box of a line of text."""
    x, y = float(text.get("x")), float(text.get("y"))
    return x, y - 0.8 * LETTERS, x + LETTER * len(text.text or ""), y + 0.2 * LETTERS


def shown(cell):
    """What the page shows in a cell; coordinates of what is painted are those from its origin, with y upwards."""
    painted, widths, boxes = [], [], [letters_of(text) for text in cell.iter(SVG + "text")]
    for group in cell.findall(SVG + "g"):
        rule, *paths = group.findall(SVG + "path")
        outer = transforms_of(group)
        origin, end = points_of(rule.get("d").split("M")[1], outer)[:2]
        widths.append(round(end[0] - origin[0], 2))
        points = [point for path in paths for point in points_of(path.get("d"), transforms_of(path) + outer)]
        if points:
            left, top, right, bottom = bounds(points)
            boxes.append((left, top, right, bottom))
            painted.append(tuple(round(value, 2) for value in (left - origin[0], origin[1] - bottom, right - origin[0], origin[1] - top)))
    texts = [text.text or "" for text in cell.iter(SVG + "text")]
    return Shown(texts, painted, widths, cell.find(SVG + "rect") is not None, boxes)


def picture(svg):
    """The cells of a page, by name; no two of them may run into each other, nor beyond the page."""
    root = ElementTree.fromstring(svg)
    cells = [(cell.find(SVG + "title").text, shown(cell)) for cell in root.findall(SVG + "g")]
    wide, high = map(int, root.get("viewBox").split()[2:])
    apart = [(name, one) for name, cell in cells for one in cell.boxes]
    for at, (name, (left, top, right, bottom)) in enumerate(apart):
        check(left >= 0 and top >= 0 and right <= wide and bottom <= high, f"{name} stands beyond the page")
        for other, (x, y, x_end, y_end) in apart[at + 1:at + 60]:
            check(name == other or right <= x or x_end <= left or bottom <= y or y_end <= top, f"{name} runs into {other}")
    check(len(dict(cells)) == len(cells), "a name stands twice on a page")
    return dict(cells)


def one_font(room):
    """Glyphs are drawn in the units of the FontMatrix, those that can't be drawn as such, and none runs into another."""
    room.put("plain.pfa", font({b"A": box(600, 50, -100, 450, 700), b"B": ENDCHAR, b"\xc3\xa9": box(300, 0, 0, 100, 100)}))
    cells, said = room.drawn("plain.pfa")
    check(list(cells) == [".notdef", "A", "B", "\\xc3\\xa9"] and said == "", f"plain.pfa: {list(cells)}, {said}")
    check(cells["A"][:3] == (["A"], [(50, -100, 450, 700)], [600]), f"A: {cells['A']}")
    check(cells[".notdef"].widths == [250] and cells[".notdef"].painted == [], f".notdef: {cells['.notdef']}")
    check(cells["B"].texts == ["B", "NoWidth"], f"B: {cells['B']}")
    check(list(room.drawn("plain.pfa", "--", "A", "\u00e9")[0]) == ["A", "\\xc3\\xa9"], "names behind --")
    room.put("large.pfb", as_pfb(font({b"A": box(1024, 128, -256, 896, 1536)}, OF_2048)))
    check(room.drawn("large.pfb")[0]["A"][1:3] == ([(62.5, -125, 437.5, 750)], [500]), "the FontMatrix 1/2048 is not kept")
    room.put("slanted.pfa", font({b"A": box(500, 100, 0, 200, 700)}, SLANTED))
    check(room.drawn("slanted.pfa")[0]["A"].painted == [(100, 0, 340, 700)], "the slant of a FontMatrix is not kept")


def odd_glyphs(room):
    """Numbers that are not whole, a line without a move, and a glyph of two parts, of which one is moved."""
    half = number(1) + number(2) + DIV
    fraction = number(0) + number(1001) + number(2) + DIV + HSBW + half + half + MOVE + number(100) + number(100) + LINE + CLOSE + ENDCHAR
    unmoved = number(50) + number(500) + HSBW + number(100) + number(0) + LINE + number(0) + number(100) + LINE + CLOSE + ENDCHAR
    room.put("odd.pfa", font({b"fraction": fraction, b"unmoved": unmoved}))
    cells, _ = room.drawn("odd.pfa")
    check(cells["fraction"][1:3] == ([(0.5, 0.5, 100.5, 100.5)], [500.5]), f"{cells['fraction']}")
    check(cells["unmoved"].painted == [(50, 0, 150, 100)], f"{cells['unmoved']}")
    accented = number(0) + number(500) + HSBW + b"".join(map(number, (0, 3000, 10, 65, 194))) + SEAC
    letters = {b"A": box(500, 0, 0, 400, 700), b"Aacute": accented, b"acute": box(300, 0, 500, 200, 700)}
    room.put("accent.pfa", font({**letters, b"B": box(500, 0, 0, 400, 700)}))
    check(room.drawn("accent.pfa")[0]["Aacute"].painted == [(0, 0, 3200, 710)], "an accent that stands 3000 to the right")
    # Tiny's Aacute: a line from 0 to -100, and 70 across and 200 up one from 50 to 150.
    room.put("tiny.pfb", example("tiny.pfb"))
    check(room.drawn("tiny.pfb", "--", "Aacute")[0]["Aacute"][1:3] == ([(-100, 0, 220, 200)], [500]), "Aacute of Tiny")


def wide_glyphs(room):
    """Wide, deep and high glyphs and long names have room of their own, and what has none is drawn smaller."""
    glyphs = {b"wide": box(2600, -300, 0, 2500, 100), b"deep": box(500, 0, -2500, 400, 100), b"high": box(500, 0, 0, 400, 3000)}
    glyphs.update({b"far": box(20000, 0, 0, 19000, 1000), b"n" * 127: box(500, 0, 0, 500, 700)})
    glyphs.update((b"x%d" % at, box(700, -200, -300, 900, 1000)) for at in range(20))
    room.put("wide.pfa", font(glyphs))
    cells, _ = room.drawn("wide.pfa")
    for name, (_, *sides) in {"wide": (0, -300, 0, 2500, 100), "deep": (0, 0, -2500, 400, 100), "high": (0, 0, 0, 400, 3000)}.items():
        check(cells[name].painted == [tuple(sides)], f"{name}: {cells[name]}")
    far = cells["far"]
    check(0 < far.widths[0] < 9600 and abs(far.painted[0][2] / far.widths[0] - 0.95) < 0.001, f"far: {far}")
    check("".join(cells["n" * 127].texts) == "n" * 127, "a long name is not whole")


def two_fonts(room):
    """Glyphs that differ are marked, in whatever units the fonts are, and each font's glyph is on its side."""
    first = {name: box(500, 0, 0, 400, 700) for name in (b"A", b"B", b"C", b"D")}
    second = {**first, b"B": box(510, 0, 0, 400, 700), b"C": box(500, 0, 0, 410, 700), b"E": box(500, 0, 0, 400, 700)}
    del second[b"D"]
    room.put("first.pfa", font(first))
    room.put("second.pfa", font(second))
    cells, said = room.drawn("first.pfa", "second.pfa")
    check(said == "4 of 6 glyphs differ\n", said)
    told = {"B": "width", "C": "outline", "D": "only on the left", "E": "only on the right"}
    marked = {name: cell.texts for name, cell in cells.items() if cell.marked}
    check(marked == {name: [name, text] for name, text in told.items()}, str(marked))
    check(cells["B"].widths == [500, 510] and cells["C"].painted == [(0, 0, 400, 700), (0, 0, 410, 700)], f"{cells['B']}, {cells['C']}")
    check(list(room.drawn("first.pfa", "second.pfa", "--differing")[0]) == list("BCDE"), "--differing draws others")
    doubled = {name: box(1024, 0, 0, 768, 1536) for name in (b"A", b"B")}
    halved = {name: box(500, 0, 0, 375, 750) for name in (b"A", b"B")}
    room.put("doubled.pfa", font({**doubled, b".notdef": number(0) + number(512) + HSBW + ENDCHAR}, OF_2048))
    room.put("halved.pfa", font(halved))
    check(room.drawn("doubled.pfa", "halved.pfa")[1] == "0 of 3 glyphs differ\n", "other units, and not the same glyphs")


def pages(room):
    """A page has at most 400 glyphs."""
    room.put("many.pfa", font({b"g%03d" % at: box(at + 1, 0, 0, 400, 700) for at in range(600)}))
    (first, said), (second, _) = room.drawn("many.pfa"), room.drawn("many.pfa", "--page", "2")
    check(said == "page 1 of 2: --page N prints another, --pages STEM writes all\n", said)
    check(list(first) == [".notdef"] + [f"g{at:03}" for at in range(399)] and len(second) == 201, "pages of other glyphs")
    wanted = {".notdef": [250], **{f"g{at:03}": [at + 1] for at in range(600)}}
    check({name: cell.widths for name, cell in {**first, **second}.items()} == wanted, "other widths")
    for env in filter(None, (room.env, room.over_library)):
        check(room.run("many.pfa", "--pages", "out", env=env) == (0, b"", ""), "--pages says something")
        check([picture(bytes_of(room.folder, f"out-{at}.svg")) for at in (1, 2)] == [first, second], "--pages writes other pages")
    room.refused(["many.pfa", "--page", "3"], "no page 3: the last is 2")


def messages(room):
    """What goes wrong is told in a line."""
    room.put("no.font", b"no font")
    room.put("plain.pfa", font({}))
    room.refused(["no.font"], "no.font: refused: no eexec")
    room.refused(["plain.pfa", "no.font"], "no.font: refused: no eexec")
    room.refused(["absent"], "absent: No such file or directory")
    room.refused(["."], ".: Is a directory")
    room.refused(["plain.pfa", "--", "Zed"], "plain.pfa: no glyph Zed")
    room.refused(["plain.pfa", "--pages", "no/out"], "no/out-1.svg: No such file or directory")
    lacks = "is missing, or no program: run `make`, or name the program by T1SUBSET"
    room.refused(["plain.pfa"], f"/no/program {lacks}", T1SUBSET="/no/program")
    if room.over_library:
        done = room.run("no.font", env=room.over_library)
        check(done == (1, b"", "no.font: refused: no eexec\n"), f"over the library: {done}")
    room.put("bare.pfa", made_font(b"%!\n/Encoding StandardEncoding def\n", [RETURN], {b".notdef": EMPTY}))
    check(room.drawn("bare.pfa")[1] == "bare.pfa: no FontMatrix that can be read: drawn at 1/1000\n", "no FontMatrix")


def specimens(program, library):
    for test in (one_font, odd_glyphs, wide_glyphs, two_fonts, pages, messages):
        with tempfile.TemporaryDirectory() as folder:
            test(Room(folder, program, library))


def examples(folder):
    """tools/make_examples.py makes the listings that stand in examples/."""
    printed([os.path.join(TOP, "tools/make_examples.py"), folder])
    for name in ("left", "right", "both", "other"):
        check(bytes_of(folder, name + ".listing") == example(name + ".listing"), f"make_examples.py makes another {name}.listing")


def lacks(script, commands):
    """Whether one of these commands isn't here, which is told."""
    missing = [command for command in commands if not shutil.which(command)]
    if missing:
        say(f"no {', '.join(missing)}: {script} was left out")
    return bool(missing)


def bench(program, script, *words, **env):
    """What a benchmark prints."""
    return printed([sys.executable, os.path.join(TOP, script), *words], env={**os.environ, "T1SUBSET": program, **env})


def rows_of(table):
    """The cells of the rows of a table, without its head."""
    return [[cell.strip(" `") for cell in line.split(" | ")] for line in re.findall(r"^\| (.*) \|$", table, re.M)][1:]


def above_nothing(cells):
    return all(float(cell.replace(",", "")) > 0 for cell in cells)


def compare(program):
    """bench/compare prints a row for each command and each ratio, all of them above nothing."""
    if lacks("bench/compare", ["hyperfine", "t1ascii", "time", "valgrind"]):
        return
    out = bench(program, "bench/compare", "--runs", "2", TINY_PFB)
    check(f"tiny.pfb, {len(example('tiny.pfb'))} bytes as PFB\n" in out, out)
    costs, ratios = out.split("| Ratio |")
    check([row[0] for row in rows_of(costs)][-4:] == ["t1subset pfa of the union", "t1ascii", "t1binary", "t1disasm \\| t1asm"], costs)
    rows = rows_of(costs) + rows_of("| Ratio |" + ratios)
    check(len(rows) == 20 and all(above_nothing(row[1:]) for row in rows), out)


def many(program):
    """bench/many prints what a quarter, a half and all of the fonts cost, and their union."""
    if lacks("bench/many", ["time", "valgrind"]):
        return
    out = bench(program, "bench/many", "4")
    cost = r"[\d.]+ ms, [\d.]+ million instructions, \d+ kB\n"
    lines = "".join(rf"{count} fonts: merge {cost}    pfa of the union {cost}" for count in (1, 2, 4))
    check(re.fullmatch(r"4 fonts of \d+ bytes in all\n" + lines, out), out)


def hostile(program):
    """bench/hostile prints what each command costs on each shape; only fonts that declare other counts of Subrs are refused. Small fonts
    that declare many Subrs take little room."""
    if lacks("bench/hostile", ["time"]):
        return
    told = bench(program, "bench/hostile", "1").splitlines()
    words = [line[3:16].strip() for line in told if line.startswith("   ")]
    shapes = [line for line in told if re.fullmatch(r"\S.*, \d+ bytes", line)]
    cost = r"   \w+(?: of all)? +\d+\.\d\d s, \d+ kB, -?\d+\.\d times the inputs"
    refused = [line for line in told if line.endswith(" (refused: shells differ in Subrs table)")]
    costs = [line.split(" (")[0] if line in refused else line for line in told if line not in shapes]
    check(all(re.fullmatch(cost, line) for line in costs) and len(refused) == 1 and "   merge " in refused[0], "\n".join(told))
    counts = collections.Counter(words)
    alone = {counts[word] for word in ("check", "list", "show", "subset", "subset of all", "pfa", "pfb")}
    check(len(alone) == 1 and alone.pop() + counts["rejoin"] + 1 == len(shapes) and counts["join"] == 1, "\n".join(told))
    at = next(at for at, line in enumerate(told) if line.startswith("200 fonts that declare 65,535 Subrs"))
    room = [int(re.search(r" (\d+) kB", line)[1]) for line in told[at + 1 : at + 3]]
    check(max(room) < 8000, "\n".join(told[at : at + 3]))


def calls(program, library):
    """bench/library prints what each call costs, and each run of the program."""
    out = bench(program, "bench/library", "--runs", "1", TINY_PFB, T1SUBSET_LIB_DIR=library)
    check(f"tiny.pfb, {len(example('tiny.pfb'))} bytes\n" in out, out)
    rows = [(what, by) for what, by, *cells in rows_of(out) if by.endswith("t1subset") or "process" in by]
    wanted = [(word, by) for word in ("check", "subset", "merge") for by in ("libt1subset", "t1subset, a process")]
    check(rows == wanted and all(above_nothing(row[2:4]) for row in rows_of(out)[:6]), out)


def producers(program):
    """tools/rejoin_producers.py tries one font, whose subsets by dvips and by pdfTeX rejoin and draw as it does."""
    if lacks("tools/rejoin_producers.py", ["kpsewhich", "tftopl", "tex", "dvips", "pdftex"]):
        return
    pythons = [python for python in dict.fromkeys([sys.executable, "/usr/bin/python3"]) if os.path.exists(python)]
    able = [python for python in pythons if not subprocess.run([python, "-c", "import freetype"], capture_output=True).returncode]
    if not able:
        say("no python3-freetype: tools/rejoin_producers.py was left out")
        return
    out = printed([able[0], os.path.join(TOP, "tools/rejoin_producers.py"), "1"], env={**os.environ, "T1SUBSET": program})
    rows = [line.split() for line in out.splitlines()]
    both = [row for row in rows if row[:2] in (["dvips", "pdfTeX"], ["dvips", "dvips"], ["pdfTeX", "dvips"], ["pdfTeX", "pdfTeX"])]
    check(rows[0] == ["1", "fonts"] and len(both) == 4 and all(row[2] == row[4] == row[5] == "1" for row in both), out)


# A compiler that proves nothing: it notes the crate, and makes what it is asked for, each time another. It refuses one crate.
STAND_IN = """#!/bin/sh
while [ "$#" -gt 0 ]; do
    case "$1" in
        --crate-name) crate=$2 ;;
        -o) made=$2 ;;
    esac
    shift
done
echo "$crate" >> "$NOTED"
if [ "$crate" = "$REFUSED" ]; then echo "$crate has a fault"; exit 1; fi
case "$made" in
    *.rlib) mkdir -p "$made"; date +%s%N > "$made/format" ;;
    *) touch "$made" ;;
esac
"""
# A linker that makes an empty program.
LINKER = """#!/bin/sh
while [ "$1" != -o ]; do shift; done
touch "$2"
"""


class StandIn:
    """A copy of tools/build.py and of the crates' names, over a kit that proves nothing."""

    def __init__(self, folder):
        self.folder, self.noted = folder, os.path.join(folder, "noted")
        for name in ("tools/build.py", "tools/common.py", "tools/kit.py", "crates.txt"):
            os.makedirs(os.path.dirname(os.path.join(folder, name)), exist_ok=True)
            shutil.copy(os.path.join(TOP, name), os.path.join(folder, name))
        for crate in needs():
            os.makedirs(os.path.join(folder, "crates", crate, "src"))
            put(b"", folder, "crates", crate, "src", "main.rt" if crate == "t1subset" else "lib.rt")
        os.makedirs(os.path.join(folder, "kit/bin"))
        put(b"a kit", folder, "kit/KIT-ID")
        for name, text in (("rt", "#!/bin/sh\n"), ("rattle", STAND_IN), ("rattle-link", LINKER)):
            os.chmod(put(text.encode(), folder, "kit/bin", name), 0o755)

    def run(self, refused=""):
        """The crates that were proved, as often as each was, the status, and what was said."""
        put(b"", self.noted)
        env = {**os.environ, "PATH": os.path.join(self.folder, "kit/bin") + ":" + os.environ["PATH"], "NOTED": self.noted, "REFUSED": refused}
        done = subprocess.run([sys.executable, os.path.join(self.folder, "tools/build.py")], env=env, capture_output=True, text=True, timeout=60)
        return text_of(self.noted).split(), done.returncode, done.stderr

    def change(self, crate):
        put(b"// changed\n", self.folder, "crates", crate, "src", "more.rt")


def build(folder):
    """tools/build.py proves each crate once, after those below it, and again only what changed and what stands on it; at one that is
    refused it says why, and nothing above is tried."""
    made, crates = StandIn(folder), [*below(["t1subset"]), "t1subset"]
    crates = [crate for crate in crates if crate in needs()]
    proved, status, said = made.run()
    check(status == 0 and sorted(proved) == sorted(crates), f"tools/build.py: {proved}, {said}")
    check(all(proved.index(dep) < proved.index(crate) for crate in crates for dep in needs()[crate] if dep in proved), f"tools/build.py: {proved}")
    check(all(f"{crate} is proved, after " in said for crate in crates), f"tools/build.py: {said}")
    check(made.run() == ([], 0, ""), "tools/build.py proves what is proved")
    made.change("t1_subset")
    proved, status, said = made.run()
    above = [crate for crate in crates if crate == "t1_subset" or "t1_subset" in below([crate])]
    check(status == 0 and sorted(proved) == sorted(above), f"tools/build.py: {proved}, {said}")
    made.change("t1_document")
    proved, status, said = made.run(refused="t1_document")
    check((proved, status) == (["t1_document"], 1) and "t1_document has a fault" in said, f"tools/build.py: {proved}, {status}, {said}")


def gate_table():
    """tools/make_speed.py makes a row of each part of the gate, and none of a log that lacks one."""
    lines = [f"gate: {name}: 1.25 minutes of processors, 0.50 by the clock\n" for name in make_speed.wanted()]
    rows = make_speed.table_of(["".join(lines)])
    check(len(rows) == len(lines) + 2 and rows[2] == "| texts | 1.2 | 0.5 |", f"tools/make_speed.py: {rows}")
    kept = [f"gate: {name}: 0.25 minutes of processors, 0.10 by the clock\n" for name in make_speed.wanted()[1:]]
    rows = make_speed.table_of(["".join(lines), "".join(kept)])
    together = f"| all | {1.25 * (len(lines) - 1):.1f} | - |"
    check(rows[2] == "| texts | 1.2 | 0.5 |" and rows[-1] == together, f"tools/make_speed.py, of two runs: {rows}")
    try:
        make_speed.table_of(["".join(lines[1:])])
        check(False, "tools/make_speed.py makes a table without a part")
    except SystemExit as end:
        check("printed nothing of texts" in str(end), f"tools/make_speed.py: {end}")


def gate_wrong_bodies():
    """tools/gate.py begins with the wrong bodies of a crate once it and those below it are proved, and tries again behind `rt ci` what
    failed beside it."""
    tried, told = [], []

    def ran(words, front=()):
        tried.append(words.split(" ")[-1])
        return tried.count("t1_join") > 1 or tried[-1] != "t1_join", gate.Part(words, 1.0, 60.0)

    real, gate.ran_script = gate.ran_script, ran
    try:
        wrong = gate.WrongBodies(type("Gate", (), {"told": lambda self, words, good: told.append((words.split(" ")[-1], good))})())
        wrong.start("t1_run")
        check(not wrong.begun, "tools/gate.py tries wrong bodies over libraries that are not proved")
        for crate in ("t1_char", "t1_join"):
            wrong.start(crate)
        for task in wrong.tasks:
            task.result()
        part = wrong.end()
    finally:
        gate.ran_script = real
    check(sorted(tried) == ["t1_char", "t1_join", "t1_join", "t1_run"] and part.processors == 4, f"tools/gate.py: {tried}")
    check(sorted(told) == [("t1_char", True), ("t1_join", True), ("t1_run", True)], f"tools/gate.py: {told}")


def pooled_pages(program, folder):
    """examples/pool-pages.sh makes a page that lacks glyphs and the same page right."""
    if lacks("examples/pool-pages.sh", ["tex", "dvips", "gs"]):
        return
    printed([os.path.join(TOP, "examples/pool-pages.sh"), folder], env={**os.environ, "T1SUBSET": program})
    before, after = (bytes_of(folder, name) for name in ("joined-1.png", "pooled-1.png"))
    check(before != after and before[:4] == after[:4] == b"\x89PNG", "examples/pool-pages.sh makes no pictures")


def pooled_documents(program):
    """tools/pool_producers.py pools two documents by dvips, whose pages stay right."""
    if lacks("tools/pool_producers.py", ["tex", "dvips", "gs"]):
        return
    out = printed([sys.executable, os.path.join(TOP, "tools/pool_producers.py"), "2"], env={**os.environ, "T1SUBSET": program})
    rows = [[cell.strip() for cell in line.split("|")[1:-1]] for line in out.splitlines()]
    dvips = next((row for row in rows if row[:1] == ["dvips"] and len(row) == 10), None)
    check(dvips and {dvips[at] for at in (1, 3, 5, 7, 9)} == {"4"} and int(dvips[4]) < int(dvips[2]), out)


def print_queue(program):
    """tools/print_queue.py prints two papers through a queue of CUPS, and each page is right."""
    if lacks("tools/print_queue.py", ["cupsd", "lpadmin", "lp", "tex", "dvips", "gs", "cc"]):
        return
    if os.geteuid():
        say("tools/print_queue.py needs root, and was left out")
        return
    out = printed([sys.executable, os.path.join(TOP, "tools/print_queue.py")], env={**os.environ, "T1SUBSET": program})
    check("all pages: 6 of 6 pages right" in out, out)


def pooled_pdfs(library, folder):
    """tools/pdf_producers.py pools two PDFs by pdfTeX, whose pages stay right; examples/pool-pdf.sh pools three, and t1subset-pdf tells its usage."""
    if lacks("tools/pdf_producers.py", ["pdftex", "pdftoppm"]):
        return
    pythons = [python for python in dict.fromkeys([sys.executable, "/usr/bin/python3"]) if os.path.exists(python)]
    able = [python for python in pythons if not subprocess.run([python, "-c", "import pikepdf"], capture_output=True).returncode]
    if not able:
        say("no python3-pikepdf: tools/pdf_producers.py was left out")
        return
    env = {**os.environ, "LIBT1SUBSET": os.path.join(library, "libt1subset.so.0")}
    out = printed([able[0], os.path.join(TOP, "tools/pdf_producers.py"), "2"], env=env)
    rows = [[cell.strip() for cell in line.split("|")[1:-1]] for line in out.splitlines()]
    pdftex = next((row for row in rows if row[:1] == ["pdfTeX"]), None)
    check(pdftex and pdftex[1] == pdftex[6] == "4" and int(pdftex[4]) > 0, out)
    if not lacks("examples/pool-pdf.sh", ["qpdf"]):
        out = printed([os.path.join(TOP, "examples/pool-pdf.sh"), folder], env={**env, "PYTHON": able[0]})
        check("CMR10: 3 fonts joined" in out and "with the same pages" in out, out)
    env["PYTHONPATH"] = os.path.join(TOP, "python")
    check("OUT.pdf IN.pdf" in printed([able[0], os.path.join(TOP, "packaging/t1subset-pdf"), "--help"], env=env), "t1subset-pdf tells no usage")


def library_of(folder):
    """The folder of the library that tools/build_library.sh makes of the archive that the gate leaves, or None."""
    if not (compiler() and os.path.exists(os.path.join(TOP, "crates/t1_c/out/libt1_c.a"))):
        say("no C compiler, or no archive of t1_c: specimens over the library and bench/library were left out")
        return None
    printed([os.path.join(TOP, "tools/build_library.sh"), folder])
    return folder


def main():
    words = argparse.ArgumentParser(description=__doc__.splitlines()[0])
    words.add_argument("--lib")
    words.add_argument("--program", default=BUILDS[0])
    asked = words.parse_args()
    program = os.path.abspath(asked.program)
    with tempfile.TemporaryDirectory() as folder:
        library = os.path.abspath(asked.lib) if asked.lib else library_of(os.path.join(folder, "lib"))
        specimens(program, library)
        examples(folder)
        build(os.path.join(folder, "build"))
        gate_table()
        gate_wrong_bodies()
        pooled_pages(program, os.path.join(folder, "pages"))
        compare(program)
        many(program)
        hostile(program)
        if library:
            calls(program, library)
            print_queue(program)
            pooled_pdfs(library, os.path.join(folder, "pdfs"))
        producers(program)
        pooled_documents(program)
    say("specimens show what the fonts draw, and the scripts run")


if __name__ == "__main__":
    main()
