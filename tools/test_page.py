"""What the page of web/ does in a headless Chromium, beside the program. `tools/test_web.py` runs it."""
import contextlib
import functools
import http.server
import json
import os
import shutil
import subprocess
import sys
import tempfile
import threading

import browser
import program_rows
import shapes
from common import CALL, EMPTY, ENDCHAR, HSBW, RETURN, TOP, WIDTH, bytes_of, example, glyphs_in, made_font, number, page_rows, printed, put, say
from program_rows import BOTH, document

# Files of web/ that a page is made of.
PARTS = ("index.html", "page.css", "data.js", "calls.js", "drawing.js", "page.js", "glyphs.js")
HEAD = b"%!\n/FontName /Made def\n/FontMatrix [0.001 0 0 0.001 0 0] readonly def\n/Encoding StandardEncoding def\n"
MANY = 8000


class Fault(Exception):
    """What the page does otherwise than it should."""


class Visit:
    """A page, and the program in a folder of files."""

    def __init__(self, page, program, folder):
        self.page, self.program, self.folder = page, program, folder

    def put(self, name, data):
        return put(data, self.folder, name)

    def says(self, text, seconds=30):
        """Waits until the page says a text."""
        self.page.until(f"document.getElementById('status').textContent.includes({json.dumps(text)})", seconds)

    def drop(self, *names):
        """Drops files, and waits until the last of them is told of."""
        self.page.drop("#drop", [os.path.join(self.folder, name) for name in names])
        self.page.until(f"document.querySelector('#files li:last-child')?.textContent.includes({json.dumps(names[-1])})")
        self.says(names[-1] + ": ")

    def button(self, text, name):
        self.page.click(f"button[aria-label='{text}: {name}']")

    def download(self, name):
        return self.page.downloaded(f"a[download='{name}']", name)

    def removes(self, *names):
        for name in names:
            self.button("Remove", name)
            self.says(f"{name} is removed")

    def made(self, *words):
        """What the program writes: the arguments have OUT as `out`."""
        subprocess.run([self.program, *words], cwd=self.folder, check=True, capture_output=True, timeout=60)
        return bytes_of(self.folder, "out")

    def same(self, name, *words):
        """The file of this name has the program's bytes."""
        if self.download(name) != self.made(*words):
            raise Fault(f"{name} has other bytes than the program writes by {words}")


def checked(visit):
    """A font and a refused file, with what the program says and what the man page advises."""
    visit.put("tiny.pfa", example("tiny.pfa"))
    visit.put("no.font", b"no font")
    visit.drop("tiny.pfa", "no.font")
    visit.says("no.font: refused: no eexec")
    text = visit.page.value("document.getElementById('files').innerText")
    for want in (printed([visit.program, "check", "tiny.pfa"], cwd=visit.folder).strip(), page_rows()["no eexec"]):
        if want not in text:
            raise Fault(f"the page doesn't say {want!r}: {text!r}")
    visit.removes("no.font")


def drawn(visit):
    """Each glyph's path is what the program shows of it."""
    visit.button("Show glyphs", "tiny.pfa")
    names = glyphs_in(printed([visit.program, "list", "tiny.pfa"], cwd=visit.folder))
    visit.page.until(f"document.querySelectorAll('.glyph svg, .glyph .fault').length === {len(names)}")
    if visit.page.value("[...document.querySelectorAll('.glyph')].map((it) => it.title)") != names:
        raise Fault("the page shows other glyphs than the program lists")
    for at, name in enumerate(names):
        text = printed([visit.program, "show", "tiny.pfa", "--", name], cwd=visit.folder)
        shape = shapes.shape_of(text, (1, 0, 0, 1, 0, 0))
        want = [float(word) for part in shape.parts for word in placed(part)]
        path = visit.page.value(f"document.getElementById('glyph-{at}').querySelector('path')?.getAttribute('d') || ''")
        if [float(word) for word in path.translate(shapes.BLANKS).split()] != want or path.count("C") != sum(part.path.count("C") for part in shape.parts):
            raise Fault(f"{name} is drawn as {path!r}, and not with {want}")


def placed(part):
    """The coordinates of a part's path, moved by its offset."""
    return [float(word) + part.offset[at % 2] for at, word in enumerate(part.path.translate(shapes.BLANKS).split())]


def cut(visit):
    """Glyphs are chosen by the mouse, by keys, by name and by the letters of a text; PFA and PFB are the program's."""
    page = visit.page
    page.click(".glyph[title=X]")
    page.click("#cut")
    visit.says("tiny-cut.pfa")
    visit.same("tiny-cut.pfa", "subset", "tiny.pfa", "out", "X")
    page.click("#none")
    page.value("document.getElementById('glyphs').focus()")
    for key, text in (("Home", ""), ("Y", "Y"), (" ", " ")):
        page.key(key, text)
    page.click("input[name=form][value='1']")
    page.click("#cut")
    visit.says("tiny-cut.pfb")
    visit.same("tiny-cut.pfb", "subset", "--pfb", "tiny.pfa", "out", "Y")
    page.click("#none")
    page.write("#names", "Aacute Nought")
    page.key("Enter", "\r")
    visit.says("The font has no glyph Nought")
    page.write("#letters", "AX")
    page.click("#cut")
    visit.says("refused: no code 88. " + page_rows()["no code N"])
    page.write("#letters", "A")
    page.click("#cut")
    visit.says("tiny-cut-2.pfb")
    visit.same("tiny-cut-2.pfb", "subset", "--pfb", "--text", "A", "tiny.pfa", "out", "Aacute")
    visit.removes("tiny-cut-2.pfb")
    page.click("input[name=form][value='0']")


def merged(visit):
    """Merged, rejoined, mended, written again, compared."""
    visit.removes("tiny.pfa")
    visit.page.click("#merge")
    visit.says("merged.pfa")
    visit.same("merged.pfa", "subset", "tiny.pfa", "out", "X", "Y")
    given = program_rows.files()
    visit.removes("merged.pfa", "tiny-cut.pfa", "tiny-cut.pfb")
    for name in ("one.cut", "two.cut", "tested.font"):
        visit.put(name, given[name])
    visit.drop("one.cut", "two.cut")
    visit.page.click("#merge")
    visit.says(f"shells differ in head. {page_rows()['shells differ in PART']}")
    visit.page.click("#diff")
    visit.says("2 conflicts")
    visit.page.click("#rejoin")
    visit.says("rejoined.pfa")
    visit.same("rejoined.pfa", "rejoin", "out", "one.cut", "two.cut")
    visit.removes("one.cut", "two.cut", "rejoined.pfa")
    visit.drop("tested.font")
    visit.button("Mend", "tested.font")
    visit.says("tested.font-mended.pfa")
    visit.same("tested.font-mended.pfa", "mend", "tested.font", "out")
    visit.button("Write again", "tested.font")
    visit.says("tested.font.pfa")
    visit.same("tested.font.pfa", "pfa", "tested.font", "out")
    visit.removes("tested.font", "tested.font-mended.pfa", "tested.font.pfa")


def pooled(visit):
    """Documents with their fonts: pooled, levelled, and a font that is taken out."""
    given = program_rows.files()
    for name in ("one.ps", "two.ps"):
        visit.put(name, given[name])
    visit.drop("one.ps", "two.ps")
    text = visit.page.value("document.getElementById('files').textContent")
    if text.count("1 places, 1 names, 0 kept") != 2 or text.count("ABCDEF+Small 2 0 joined") != 2:
        raise Fault(f"the fonts of the documents are not listed: {text!r}")
    visit.page.click("#pool")
    visit.says("pooled.ps")
    visit.same("pooled.ps", "pool", "out", "one.ps", "two.ps")
    visit.removes("pooled.ps")
    visit.page.click("#level")
    visit.says("2 documents are levelled")
    if any(visit.download(name) != document(BOTH) for name in ("one-levelled.ps", "two-levelled.ps")):
        raise Fault("a levelled document has other fonts than the joined one")
    visit.removes("one-levelled.ps", "two-levelled.ps", "two.ps")
    visit.put("other.ps", given["other.ps"])
    visit.drop("other.ps")
    visit.page.click("#pool")
    visit.says("pooled.ps")
    if "kept ABCDEF+Small: shells differ in encoding" not in visit.page.value("document.querySelector('#files li:last-child').textContent"):
        raise Fault("it isn't told why the fonts of a name stay")
    visit.same("pooled.ps", "pool", "out", "one.ps", "other.ps")
    visit.removes("pooled.ps", "other.ps")
    visit.page.value("document.querySelector('#files details').open = true")
    visit.button("Take out ABCDEF+Small", "one.ps")
    visit.says("ABCDEF+Small.pfa")
    if visit.download("ABCDEF+Small.pfa") != program_rows.PARTS[0]:
        raise Fault("another font is taken out of a document")
    visit.removes("one.ps", "ABCDEF+Small.pfa")


def dear_font():
    """A font of glyphs of different widths that each run 100,000 tokens, so that a merger takes long."""
    subrs = [RETURN] * 4 + [(number(at + 1) + CALL) * 5 + RETURN for at in range(4, 12)] + [RETURN]
    glyphs = {b"g%d" % at: number(0) + number(at) + HSBW + number(4) + CALL + ENDCHAR for at in range(10000)}
    return made_font(HEAD, subrs, {b".notdef": EMPTY, **glyphs})


def stopped(visit):
    """Long work can be stopped, and the page goes on."""
    for name in ("dear.pfa", "twin.pfa"):
        visit.put(name, dear_font())
    visit.drop("dear.pfa", "twin.pfa")
    visit.page.click("#merge")
    visit.page.until("!document.getElementById('stop').disabled")
    visit.says("Working: merge of dear.pfa, twin.pfa")
    visit.page.click("#stop")
    visit.says("stopped")
    if not visit.page.value("document.getElementById('stop').disabled"):
        raise Fault("what was stopped still runs")
    visit.removes("dear.pfa", "twin.pfa")


def scrolled(visit):
    """Of a large font that is drawn which is seen, to the last glyph."""
    glyphs = {b"glyph%05d" % at: WIDTH + b"\xef\xef\x15\x8b\xef\x05\x09" + ENDCHAR for at in range(MANY)}
    visit.put("many.pfa", made_font(HEAD, [RETURN] * 5, {b".notdef": EMPTY, **glyphs}))
    visit.drop("many.pfa")
    visit.button("Show glyphs", "many.pfa")
    count = "document.querySelectorAll('.glyph svg').length"
    visit.page.until(f"{count} > 50", 10)
    if visit.page.value(count) > 1000:
        raise Fault(f"{visit.page.value(count)} glyphs are drawn that nobody sees")
    visit.page.value("document.getElementById('glyphs').focus()")
    visit.page.key("End")
    visit.page.until(f"document.getElementById('glyph-{MANY}').querySelector('svg path')", 10)
    if visit.page.value(count) > 2000:
        raise Fault(f"{visit.page.value(count)} glyphs are drawn on the way to the last")
    visit.removes("many.pfa")


def named(visit):
    """All that can be used has a name for readers of the screen, and the Tab key comes to it."""
    visit.drop("tiny.pfa")
    visit.button("Show glyphs", "tiny.pfa")
    visit.page.until("document.querySelectorAll('.glyph svg').length")
    roles = {"button", "checkbox", "radio", "textbox", "listbox", "option", "link", "status", "group"}
    for node in visit.page.ask("Accessibility.getFullAXTree")["nodes"]:
        role, name = node.get("role", {}).get("value"), node.get("name", {}).get("value")
        if role in roles - {"status", "group"} and not name and not node.get("ignored"):
            raise Fault(f"a {role} has no name")
    visit.page.value("document.activeElement.blur()")
    met = []
    for _ in range(60):
        visit.page.key("Tab")
        met.append(visit.page.value("document.activeElement.id || document.activeElement.getAttribute('aria-label') || document.activeElement.tagName"))
    wanted = ["choose", "example", "Show glyphs: tiny.pfa", "Download tiny.pfa", "Remove: tiny.pfa", "merge", "names", "mark", "letters", "cut", "glyphs"]
    order = [met.index(name) if name in met else -1 for name in wanted]
    if order != sorted(order) or -1 in order:
        raise Fault(f"the Tab key comes to {met}, and not in this order to {wanted}")
    visit.removes("tiny.pfa")


STEPS = (checked, drawn, cut, merged, pooled, stopped, scrolled, named)


def visited(address, program, steps):
    """Runs the steps on one page; nothing but the page's own files is asked for, and no error is told. What is wrong is raised."""
    with browser.Page(browser.found(), address) as page, tempfile.TemporaryDirectory() as folder:
        visit = Visit(page, program, folder)
        visit.says("Ready.")
        for step in steps:
            try:
                step(visit)
            except (Fault, RuntimeError, OSError, subprocess.SubprocessError) as fault:
                raise Fault(f"{address}, {step.__name__}: {step.__doc__} Not so: {fault}") from fault
        own = address.rsplit("/", 1)[0] + "/"
        elsewhere = [it for it in page.requests() if not it.startswith((own, "blob:")) and not it.endswith("/favicon.ico")]
        told = [it for it in page.faults() if "favicon.ico" not in json.dumps(it)]
        if elsewhere or told:
            raise Fault(f"{address}: {elsewhere} are asked for, and the page tells of {told}")


@contextlib.contextmanager
def served(folder):
    """The address of a server of a folder."""
    class Quiet(http.server.SimpleHTTPRequestHandler):
        def log_message(self, *_):
            pass

    with http.server.ThreadingHTTPServer(("127.0.0.1", 0), functools.partial(Quiet, directory=folder)) as server:
        threading.Thread(target=server.serve_forever, daemon=True).start()
        yield f"http://127.0.0.1:{server.server_address[1]}"
        server.shutdown()


def found_out(folder, program, lies):
    """A page whose module or script lies has to fail: each lie is a file, what stands in it, and what stands there instead."""
    for name, truth, lie, step in lies:
        text = bytes_of(folder, name)
        if text.count(truth) != 1:
            sys.exit(f"{name} has {text.count(truth)} times {truth!r:.100}")
        put(text.replace(truth, lie), folder, name)
        with contextlib.suppress(Fault):
            visited(f"file://{folder}/index.html", program, STEPS[:step])
            sys.exit(f"the page is found right, though in {name} {truth!r:.100} is {lie!r:.100}")
        put(text, folder, name)


# Each with how many steps see it.
LIES = [
    ("page.js", b"file.advice = advice(fault.text);", b"file.advice = fault.text;", 1),
    ("drawing.js", b"value + offset[at % 2]", b"value + 2 * offset[at % 2] + 1", 2),
    ("glyphs.js", b"formNumber()]];", b"0]];", 3),
    ("page.js", b'say("Ready.");', b'say("Ready."); fetch("other.js").catch(() => {});', 1),
]


def test(module, program):
    """The page from a folder and from a server; pages that lie are found out."""
    with tempfile.TemporaryDirectory() as folder:
        for name in PARTS:
            shutil.copy(os.path.join(TOP, "web", name), folder)
        shutil.copy(os.path.join(module, "module.js"), folder)
        try:
            visited(f"file://{folder}/index.html", program, STEPS)
            with served(folder) as address:
                visited(f"{address}/index.html", program, STEPS[:3])
        except Fault as fault:
            sys.exit(str(fault))
        found_out(folder, program, LIES)
        say(f"page: {len(STEPS)} steps from a folder, 3 from a server, as the program; {len(LIES)} lies are found out")
