"""The command t1subset-pdf, and how files are written. Without pikepdf these tests are left out."""

from __future__ import annotations

import contextlib
import io
import json
import os
import re
import subprocess
import sys
import tempfile
import unittest
import unittest.mock
from typing import Any, Dict, List, Tuple

from . import left_out

try:
    import pikepdf
except ImportError:
    left_out("pikepdf isn't installed: the command t1subset-pdf")
    raise unittest.SkipTest("pikepdf isn't installed")

from t1subset import pdf

from .pdfs import Volume, cut, descriptors, dictionary, differences, name, opened

CHANGED = {"BaseFont", "FontDescriptor/CharSet", "FontDescriptor/FontFile", "FontDescriptor/FontName"}


def volume() -> Volume:
    made = Volume()
    for glyph, text in (("X", b"A"), ("Y", b"B")):
        made.showing(made.font(cut(glyph)), text)
    made.page(made.stream(b"q  Q\n" * 50))
    made.page(made.stream(b"71 20 51>", Filter=name("ASCIIHexDecode")))
    made.pdf.Root.Pages.Resources = dictionary({"ProcSet": pikepdf.Array([name("PDF")])})
    made.pdf.Root.Metadata = made.stream(b"<x:xmpmeta pdf:PDFVersion='1.1'/>", Type=name("Metadata"), Subtype=name("XML"))
    return made


# What is printed by `--json` of a file that is no PDF.
NO_PDF = '{"refused": {"text": "it is no PDF that can be read"}}\n'


class Terminal(io.StringIO):
    def isatty(self) -> bool:
        return True


class Command(unittest.TestCase):
    def setUp(self) -> None:
        room = tempfile.TemporaryDirectory()
        self.addCleanup(room.cleanup)
        self.room = room.name

    def path(self, file: str, data: bytes = b"") -> str:
        path = os.path.join(self.room, file)
        if data:
            with open(path, "wb") as out:
                out.write(data)
        return path

    def run_in(self, *words: str) -> Tuple[int, str, str]:
        out, err = io.StringIO(), io.StringIO()
        with contextlib.redirect_stdout(out), contextlib.redirect_stderr(err):
            status = pdf.main(words)
        self.assertEqual([it for it in os.listdir(self.room) if it.endswith(".part")], [])
        return status, out.getvalue(), err.getvalue()

    def pooled(self, data: bytes, *options: str, password: str = "") -> Any:
        """What the command writes of a file, which it has to take."""
        given, out = self.path("in.pdf", data), self.path("out.pdf")
        status, told, err = self.run_in(*options, out, given)
        self.assertEqual((status, err), (0, ""))
        self.assertRegex(told, r"^Tiny: 2 fonts joined, 3 glyphs, [\d,]+ to [\d,]+ bytes\n$")
        with open(out, "rb") as file:
            return opened(file.read(), password)

    def changed(self, data: bytes, found: Any, password: str = "") -> None:
        """Only fonts differ."""
        differ = differences(opened(data, password), found)
        fonts = [f"/Root/Pages/Kids/{at}/Resources/Font/F/" for at in range(2)]
        self.assertEqual(differ, {font + key for font in fonts for key in CHANGED})

    def refused(self, data: bytes, reason: str, *options: str) -> None:
        given, out = self.path("in.pdf", data), self.path("refused.pdf")
        self.assertEqual(self.run_in(*options, out, given), (1, "", f"refused: {reason}\n"))
        self.assertFalse(os.path.exists(out))

    def test_streams_stay(self) -> None:
        data = volume().bytes()
        self.changed(data, self.pooled(data))

    def test_list_writes_nothing(self) -> None:
        given = self.path("in.pdf", volume().bytes())
        for words in (["--list", self.path("out.pdf"), given], ["--list", given]):
            status, told, _ = self.run_in(*words)
            self.assertEqual((status, os.listdir(self.room)), (0, ["in.pdf"]))
            self.assertRegex(told, "^Tiny: 2 fonts joined")

    def test_json(self) -> None:
        given, out = self.path("in.pdf", volume().bytes()), self.path("out.pdf")
        _, told, _ = self.run_in(out, given)
        status, printed, err = self.run_in("--json", out, given)
        self.assertEqual((status, err, printed.count("\n")), (0, "", 1))
        found = json.loads(printed)
        self.assertEqual((sorted(found), found["kept"], len(found["joined"])), (["joined", "kept"], [], 1))
        join = found["joined"][0]
        self.assertEqual((join["name"], join["fonts"], join["glyphs"]), ("Tiny", 2, 3))
        self.assertRegex(join["font_name"], r"^[A-Z]{6}\+Tiny$")
        self.assertEqual(told, f"Tiny: 2 fonts joined, 3 glyphs, {join['before']:,} to {join['after']:,} bytes\n")
        self.assertEqual(self.run_in("--json", "--list", self.path("none.pdf", b"no")), (1, NO_PDF, "refused: it is no PDF that can be read\n"))
        self.assertEqual(self.run_in("--json", "--list", self.path("absent.pdf"))[:2], (3, ""))

    def test_json_of_what_stays(self) -> None:
        report = pdf.Report((pdf.Keep("Caf\udce9", 1, 2, "code 1 differs"), pdf.Keep("\u00e9\"", 3, 3, "it is odd")))
        kept = [("Caf\u00e9", 1, 2, "code 1 differs"), ("\u00c3\u00a9\"", 3, 3, "it is odd")]
        wanted = [dict(zip(("name", "fonts", "of", "reason"), it)) for it in kept]
        self.assertEqual(json.loads(report.json()), {"joined": [], "kept": wanted})
        self.assertTrue(report.json().isascii())

    def test_progress_is_for_a_terminal(self) -> None:
        given, out, err = self.path("in.pdf", volume().bytes()), io.StringIO(), Terminal()
        with contextlib.redirect_stdout(out), contextlib.redirect_stderr(err):
            self.assertEqual(pdf.main([self.path("out.pdf"), given]), 0)
        self.assertIn("\r\x1b[Kreading pages: 0 of 4", err.getvalue())
        self.assertTrue(err.getvalue().endswith("\r\x1b[K"))

    def test_two_runs_differ_in_the_id_alone(self) -> None:
        data, found = volume().bytes(), []
        for _ in range(2):
            self.pooled(data)
            with open(self.path("out.pdf"), "rb") as file:
                found.append(re.sub(rb"/ID \[.*?\]", b"", file.read(), flags=re.S))
        self.assertEqual(*found)

    def test_encrypted(self) -> None:
        for revision in (4, 6):
            data = volume().bytes(encryption=pikepdf.Encryption(owner="owner", user="user", R=revision))
            self.refused(data, "it is encrypted")
            self.refused(data, "it is encrypted", "--password", self.path("wrong", b"wrong\n"))
            for word in ("user", "owner"):
                found = self.pooled(data, "--password", self.path("right", word.encode() + b"\r\nmore"), password="user")
                self.changed(data, found, "user")
                self.assertEqual((found.encryption.R, found.is_encrypted), (revision, True))
                self.assertEqual(pikepdf.open(self.path("out.pdf"), password="owner").owner_password_matched, True)
        open_to_all = volume().bytes(encryption=pikepdf.Encryption(owner="owner", user="", R=6))
        self.changed(open_to_all, self.pooled(open_to_all))

    def test_linearized_and_object_streams(self) -> None:
        ways: List[Dict[str, Any]] = [{"linearize": True}, {"object_stream_mode": pikepdf.ObjectStreamMode.generate}, {}]
        for how in ways:
            data = volume().bytes(**how)
            found = self.pooled(data)
            self.changed(data, found)
            self.assertEqual(found.is_linearized, "linearize" in how)
            with open(self.path("out.pdf"), "rb") as file:
                written = file.read()
            self.assertEqual(b"/ObjStm" in written, "object_stream_mode" in how)
            self.assertEqual(written[:8], data[:8])
        self.pooled(volume().bytes(), "--object-streams")
        with open(self.path("out.pdf"), "rb") as file:
            self.assertIn(b"/ObjStm", file.read())

    def test_refused(self) -> None:
        made = volume()
        made.pdf.Root.Kept = dictionary({"ByteRange": pikepdf.Array([0, 1, 2, 3]), "Contents": pikepdf.String("x")})
        self.refused(made.bytes(), "it is signed")
        made = volume()
        made.page(b"(")
        self.refused(made.bytes(), "1 content stream can't be read")
        self.refused(b"no PDF", "it is no PDF that can be read")

    def test_files(self) -> None:
        given, out, absent = self.path("in.pdf", volume().bytes()), self.path("out.pdf"), self.path("absent")
        self.assertEqual(self.run_in(out, absent), (3, "", f"failed: read {absent}\n"))
        self.assertEqual(self.run_in("--password", absent, out, given), (3, "", f"failed: read {absent}\n"))
        there = os.path.join(absent, "out.pdf")
        self.assertEqual(self.run_in(there, given), (3, "", f"failed: write {there}\n"))

    def test_mode(self) -> None:
        out = self.path("out.pdf")
        for mask, mode in ((0o022, 0o644), (0o077, 0o600), (0, 0o666)):
            old = os.umask(mask)
            try:
                self.pooled(volume().bytes())
            finally:
                os.umask(old)
            self.assertEqual(os.stat(out).st_mode & 0o777, mode)
            os.unlink(out)
        self.path("out.pdf", b"old")
        os.chmod(out, 0o640)
        self.pooled(volume().bytes())
        self.assertEqual(os.stat(out).st_mode & 0o777, 0o640)

    def test_out_is_replaced_when_it_is_complete(self) -> None:
        given = self.path("in.pdf", volume().bytes())
        before = os.stat(given).st_ino
        self.assertEqual(self.run_in(given, given)[0], 0)
        self.assertNotEqual(os.stat(given).st_ino, before)
        out = self.path("out.pdf", b"old")

        def fail(opened: Any, path: str, **how: Any) -> None:
            with open(path, "wb") as file:
                file.write(b"half of it")
            raise OSError("no space")

        with unittest.mock.patch.object(pikepdf.Pdf, "save", fail):
            self.assertEqual(self.run_in(out, given), (3, "", f"failed: write {out}\n"))
        with open(out, "rb") as file:
            self.assertEqual(file.read(), b"old")

    def test_links_are_written_through(self) -> None:
        given, file, link, twin = self.path("in.pdf", volume().bytes()), self.path("file", b"old"), self.path("link"), self.path("twin")
        os.symlink(file, link)
        self.assertEqual(self.run_in(link, given)[0], 0)
        self.assertTrue(os.path.islink(link))
        self.assertEqual(len(descriptors(pikepdf.open(file))), 2)
        os.link(file, twin)
        with open(twin, "wb"):
            pass
        self.assertEqual(self.run_in(twin, given)[0], 0)
        self.assertEqual(os.stat(file).st_ino, os.stat(twin).st_ino)
        self.assertEqual(len(descriptors(pikepdf.open(file))), 2)

    def test_wrong_command_lines(self) -> None:
        for words in (["one"], ["one", "two", "three"], ["--tokens", "-1", "o", "i"], ["--tokens", "1.5", "o", "i"], ["--odd", "o", "i"]):
            with self.assertRaises(SystemExit) as why:
                self.run_in(*words)
            self.assertEqual(why.exception.code, 2)

    def test_as_a_program(self) -> None:
        given, out = self.path("in.pdf", volume().bytes()), self.path("out.pdf")
        words: List[str] = [sys.executable, "-m", "t1subset.pdf", out, given]
        done = subprocess.run(words, cwd=os.path.dirname(os.path.dirname(__file__)), capture_output=True, timeout=60)
        self.assertEqual((done.returncode, done.stderr), (0, b""))
        self.assertTrue(done.stdout.startswith(b"Tiny: 2 fonts joined"))

    def test_the_rest_of_the_package_needs_no_pikepdf(self) -> None:
        program = """
import sys
sys.modules["pikepdf"] = None
import t1subset
try:
    import t1subset.pdf
except ImportError as fault:
    print(fault)
"""
        words: List[str] = [sys.executable, "-c", program]
        done = subprocess.run(words, cwd=os.path.dirname(os.path.dirname(__file__)), capture_output=True, timeout=60)
        self.assertEqual((done.returncode, done.stderr), (0, b""))
        self.assertTrue(done.stdout.startswith(b"t1subset.pdf needs pikepdf"))
