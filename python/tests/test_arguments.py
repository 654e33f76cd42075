"""What may be given, what may not, threads, and a heap that refuses."""

from __future__ import annotations

import array
import ctypes
import gc
import mmap
import os
import tempfile
import threading
import time
import unittest
from fractions import Fraction
from typing import Any, Callable, Dict, List

import t1subset
from t1subset import _calls, _library

from . import fonts
from .fonts import PFA, PFB


MADE = {b".notdef": b"\x0e"}


class View(bytes):
    """Bytes that tell a wrong length."""

    def __len__(self) -> int:
        return 1_000_000


class Arguments(unittest.TestCase):
    def test_bytes_like_objects(self) -> None:
        twice = b"".join(bytes([byte, 0]) for byte in PFA)
        with tempfile.TemporaryFile() as file:
            file.write(PFA)
            file.flush()
            with mmap.mmap(file.fileno(), 0, access=mmap.ACCESS_READ) as mapped:
                given: List[Any] = [bytearray(PFA), memoryview(PFA), memoryview(bytearray(PFA)), mapped]
                given += [memoryview(b"." + PFA)[1:], memoryview(twice)[::2], memoryview(PFA)[::-1][::-1]]
                given += [array.array("B", PFA), memoryview(PFA).cast("B", [1, len(PFA)]), View(PFA)]
                for font in given:
                    with self.subTest(type=type(font)):
                        self.assertEqual(t1subset.convert(font, "pfb"), PFB)
                        self.assertEqual(t1subset.merge([font, font], "pfb"), PFB)
                        self.assertEqual(t1subset.join(b"", memoryview(b"")), b"")

    def test_bytes_like_codes(self) -> None:
        both = t1subset.subset(PFA, ["X", "Y"])
        for codes in (b"AB", bytearray(b"BA"), memoryview(b"-A-B")[1::2], array.array("B", b"ABA")):
            self.assertEqual(t1subset.subset(PFA, (), codes=codes), both)  # type: ignore[arg-type]
        self.assertRaises(TypeError, t1subset.subset, PFA, [], "pfa", b"AB")

    def test_bytes_are_not_copied(self) -> None:
        for given in (PFA, memoryview(PFA)):
            self.assertIs(_calls._kept(given), PFA)

    def test_what_can_change_is_copied_and_free_again(self) -> None:
        font = bytearray(PFA)
        self.assertEqual(t1subset.check(font).glyphs, 11)
        font.clear()
        self.assertRaises(t1subset.Refused, t1subset.check, font)

    def test_any_iterable_of_fonts_and_names(self) -> None:
        both = t1subset.subset(PFA, ["X", "Y"])
        for names in (("Y", b"X"), {"X", "Y"}, {"X": 1, "Y": 2}, (name for name in "XY"), [bytearray(b"X"), "Y", "Y"]):
            self.assertEqual(t1subset.subset(PFA, names), both)  # type: ignore[arg-type]
        self.assertEqual(t1subset.merge(t1subset.subset(PFA, [name]) for name in "XY"), both)

    def test_lists_keep_what_they_point_to(self) -> None:
        names = ["g%d" % at for at in range(2000)]
        empty = b"\x8b\xf7\x8e\x0d\x0e"
        font = fonts.made([], {b".notdef": empty, **{name.encode(): empty for name in names}})
        given = _calls._files(map(_calls._name, names))
        gc.collect()
        filler = ["h%d" % at for at in range(20000)]
        self.assertEqual(_calls._call(_library.library.t1subset_subset, *_calls._file(font), *given, 0), font)
        self.assertEqual(len(filler), 20000)

    def test_forms(self) -> None:
        self.assertEqual(t1subset.convert(PFB, t1subset.Form.PFA), PFA)
        for form in ("PFA", "otf", "", 0, 1, None, b"pfa"):
            for call in (
                lambda: t1subset.convert(PFA, form),  # type: ignore[arg-type]
                lambda: t1subset.subset(PFA, [], form),  # type: ignore[arg-type]
                lambda: t1subset.merge([PFA], form),  # type: ignore[arg-type]
                lambda: t1subset.rejoin([PFA], form),  # type: ignore[arg-type]
            ):
                with self.subTest(form=form):
                    self.assertRaises(ValueError, call)

    def test_a_form_that_the_library_refuses(self) -> None:
        with self.assertRaises(t1subset.Refused) as caught:
            _calls._call(_library.library.t1subset_convert, *_calls._file(PFA), 2)
        why = caught.exception
        self.assertEqual((why.number, why.text, why.detail, why.input), (t1subset.Number.BAD_CALL, "", 0, None))

    def test_arguments_of_wrong_types(self) -> None:
        calls: List[Callable[[Any], Any]] = [
            t1subset.check,
            t1subset.list,
            t1subset.list_full,
            t1subset.convert,
            t1subset.mend,
            t1subset.mends,
            lambda it: t1subset.show(it, "X"),
            lambda it: t1subset.subset(it, []),
            lambda it: t1subset.subset(PFA, [], codes=it),
            lambda it: t1subset.merge([PFA, it]),
            lambda it: t1subset.rejoin([it]),
            lambda it: t1subset.join(it, b""),
            lambda it: t1subset.join(b"", it),
            lambda it: t1subset.pool([it]),
            lambda it: t1subset.level([b"", it]),
            lambda it: t1subset.fonts([it]),
            lambda it: t1subset.extract("Tiny", [it]),
        ]
        for call in calls:
            for wrong in ("font.pfb", None, 5, [1, 2], object()):
                with self.subTest(wrong=wrong):
                    self.assertRaises(TypeError, call, wrong)
        for name in (None, 5, ["X"]):
            self.assertRaises(TypeError, t1subset.show, PFA, name)
            self.assertRaises(TypeError, t1subset.subset, PFA, [name])
            self.assertRaises(TypeError, t1subset.extract, name, [])

    def test_tokens(self) -> None:
        calls: List[Callable[[Any], Any]] = [
            lambda it: t1subset.subset(PFA, ["X"], tokens=it),
            lambda it: t1subset.merge([PFA], tokens=it),
            lambda it: t1subset.rejoin([PFA], tokens=it),
            lambda it: t1subset.diff(PFA, PFB, tokens=it),
        ]
        for call in calls:
            for wrong in (-1, -(2**64), 2**64, 2**64 + 1_000_000, 10**30):
                with self.subTest(wrong=wrong):
                    with self.assertRaises(ValueError) as caught:
                        call(wrong)
                    self.assertNotIsInstance(caught.exception, t1subset.Refused)
            for other in (True, False, 1e6, "5", b"5", [5], Fraction(5)):
                with self.subTest(wrong=other):
                    self.assertRaises(TypeError, call, other)
            self.assertEqual(call(None), call(2**64 - 1))
        for positional in (
            lambda: t1subset.subset(PFA, ["X"], "pfa", b"", 5),  # type: ignore[misc]
            lambda: t1subset.merge([PFA], "pfa", 5),  # type: ignore[misc]
            lambda: t1subset.rejoin([PFA], "pfa", 5),  # type: ignore[misc]
            lambda: t1subset.diff(PFA, PFB, 5),  # type: ignore[misc]
        ):
            self.assertRaises(TypeError, positional)

    def test_one_is_not_a_list(self) -> None:
        for names in ("XY", b"XY", None, 5):
            self.assertRaises(TypeError, t1subset.subset, PFA, names)
        for given in (PFA, bytearray(PFA), memoryview(PFA), "XY", None):
            self.assertRaises(TypeError, t1subset.merge, given)
            self.assertRaises(TypeError, t1subset.rejoin, given)
            for call in (t1subset.pool, t1subset.level, t1subset.fonts):
                self.assertRaises(TypeError, call, given)
            self.assertRaises(TypeError, t1subset.extract, "Tiny", given)

    def test_version(self) -> None:
        self.assertEqual(".".join(map(str, t1subset.version())), t1subset.__version__)


class Threads(unittest.TestCase):
    def test_many_threads(self) -> None:
        want = {name: t1subset.subset(PFA, [name]) for name in ("X", "Y", "H", "Aacute")}
        wrong: List[str] = []

        def work() -> None:
            for _ in range(25):
                for name, cut in want.items():
                    if t1subset.subset(PFA, [name]) != cut:
                        wrong.append(name)
                try:
                    t1subset.check(b"")
                    wrong.append("accepted")
                except t1subset.Refused as why:
                    if why.text != "no eexec":
                        wrong.append(why.text)

        threads = [threading.Thread(target=work) for _ in range(8)]
        for thread in threads:
            thread.start()
        for thread in threads:
            thread.join()
        self.assertEqual(wrong, [])

    def test_other_threads_run_during_a_call(self) -> None:
        font = fonts.slow()
        ends = threading.Event()
        stamps: List[float] = []

        def tick() -> None:
            while not ends.wait(0.001):
                stamps.append(time.monotonic())

        thread = threading.Thread(target=tick)
        thread.start()
        began = time.monotonic()
        t1subset.merge([font, font])
        took = time.monotonic() - began
        ends.set()
        thread.join()
        within = [it for it in stamps if began + took / 4 < it < began + took * 3 / 4]
        self.assertGreater(len(within), 0, f"no other thread ran in a call of {took:.3f} seconds")


RESIZE = ctypes.CFUNCTYPE(ctypes.c_void_p, ctypes.c_void_p, ctypes.c_void_p, ctypes.c_size_t)


class Heap(ctypes.Structure):
    """t1subset_heap."""

    _fields_ = [("resize", RESIZE), ("user", ctypes.c_void_p)]


class Memory(unittest.TestCase):
    """Each growth of a call is refused in turn: MemoryError, and nothing is held."""

    def setUp(self) -> None:
        self.blocks: Dict[int, Any] = {}
        self.left = 0
        self.refuses = False
        self.heap = Heap(RESIZE(self.resize), None)
        self.use = _library.library.t1subset_use
        self.use.argtypes, self.use.restype = [ctypes.POINTER(Heap)], None
        self.use(ctypes.byref(self.heap))

    def tearDown(self) -> None:
        self.use(None)

    def resize(self, user: Any, block: Any, size: int) -> Any:
        if size == 0:
            del self.blocks[block]
            return None
        if self.left == 0:
            self.refuses = True
            return None
        self.left -= 1
        made = ctypes.create_string_buffer(size)
        if block is not None:
            old = self.blocks.pop(block)
            ctypes.memmove(made, old, min(size, ctypes.sizeof(old)))
        self.blocks[ctypes.addressof(made)] = made
        return ctypes.addressof(made)

    def sweep(self, call: Callable[[], Any]) -> Any:
        """What the call answers once no growth is refused."""
        for growths in range(10_000):
            self.left, self.refuses = growths, False
            try:
                answer = call()
            except MemoryError:
                self.assertTrue(self.refuses)
                self.assertEqual(self.blocks, {})
                continue
            finally:
                held = len(self.blocks)
            self.assertEqual((held, self.refuses), (0, False))
            self.assertGreater(growths, 0)
            return answer
        self.fail("a call of 10,000 growths")

    def test_each_call(self) -> None:
        one, two = fonts.made([], {b".notdef": b"\x0e"}), fonts.made([], {b".notdef": b"\x0e", b"A": b"\x0e"})
        self.assertEqual(self.sweep(lambda: t1subset.check(PFA)).weight, 4936)
        self.assertEqual(len(self.sweep(lambda: t1subset.list(PFA)).glyphs), 11)
        self.assertEqual(len(self.sweep(lambda: t1subset.list_full(PFA)).widths), 11)
        self.assertEqual(self.sweep(lambda: t1subset.show(PFA, "L")), t1subset.Undrawn("Nesting"))
        self.assertEqual(self.sweep(lambda: t1subset.convert(PFA, "pfb")), PFB)
        self.assertEqual(self.sweep(lambda: t1subset.mend(PFA, "pfb")), PFB)
        self.assertEqual(len(self.sweep(lambda: t1subset.mends(fonts.spelled()))), 2)
        self.assertEqual(self.sweep(lambda: t1subset.subset(two, ["A"])), two)
        self.assertEqual(self.sweep(lambda: t1subset.subset(two, [], codes=b"A")), two)
        self.assertEqual(self.sweep(lambda: t1subset.merge([one, two])), two)
        self.assertEqual(self.sweep(lambda: t1subset.rejoin([two, one])), two)
        self.assertEqual(self.sweep(lambda: t1subset.subset(two, ["A"], tokens=100)), two)
        self.assertEqual(self.sweep(lambda: t1subset.merge([one, two], tokens=100)), two)
        self.assertEqual(self.sweep(lambda: t1subset.rejoin([two, one], tokens=100)), two)
        self.assertEqual(self.sweep(lambda: t1subset.diff(one, two)), b"")
        self.assertEqual(self.sweep(lambda: t1subset.diff(one, two, tokens=100)), b"")
        self.assertEqual(self.sweep(lambda: t1subset.join(b"S 5 0B\n", b"")), b"S 5 0b\n")

    def test_each_call_over_documents(self) -> None:
        one, two = (fonts.document(fonts.made([], glyphs)) for glyphs in (MADE, {**MADE, b"A": b"\x0e"}))
        before = b"%!PS-Adobe-3.0\n%%BeginResource: font Made\n" + fonts.made([], {**MADE, b"A": b"\x0e"}) + b"%%EndResource\n"
        before += b"/pool:Made /Made findfont definefont pop\nsystemdict/undefinefont known{/Made undefinefont}if\n"
        line = fonts.document(b"/Made /pool:Made findfont definefont pop\n")
        self.assertEqual(self.sweep(lambda: t1subset.pool([one, two])), before + line + line)
        self.assertEqual(self.sweep(lambda: t1subset.level([one, two])), [two, two])
        self.assertEqual([it.glyphs for it in self.sweep(lambda: t1subset.fonts([one, two]))], [1, 2])
        self.assertEqual(self.sweep(lambda: t1subset.extract("Made", [one])), fonts.made([], MADE))

    def test_a_refusal(self) -> None:
        def refusal() -> str:
            try:
                t1subset.merge([PFA, fonts.changed(b"5839", b"5840")])
            except t1subset.Refused as why:
                return why.text
            return ""

        self.assertEqual(self.sweep(refusal), "shells differ in private")

    def test_a_refusal_of_tokens(self) -> None:
        def refusal() -> str:
            try:
                t1subset.merge([PFA], tokens=0)
            except t1subset.Refused as why:
                return why.text
            return ""

        self.assertEqual(self.sweep(refusal), "too many tokens")
