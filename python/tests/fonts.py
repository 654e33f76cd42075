"""The fonts of the tests: Tiny, fonts that differ from it, and those that are installed."""

from __future__ import annotations

import os
import re
from functools import lru_cache
from typing import Dict, List, Tuple

from . import left_out

TOP = os.path.abspath(os.path.join(os.path.dirname(__file__), "..", ".."))
# How many of the installed fonts are tried.
SOME = 8


def read(path: str) -> bytes:
    with open(path, "rb") as file:
        return file.read()


def example(name: str) -> bytes:
    """A file of the repository's examples."""
    return read(os.path.join(TOP, "examples", name))


def deciphered(cipher: bytes, key: int) -> bytes:
    """The text behind four lead bytes."""
    plain = bytearray()
    for byte in cipher:
        plain.append(byte ^ key >> 8)
        key = (byte + key) * 52845 + 22719 & 0xFFFF
    return bytes(plain[4:])


def ciphered(text: bytes, key: int) -> bytes:
    """A text behind four lead bytes of zero, encrypted."""
    cipher = bytearray()
    for byte in bytes(4) + text:
        byte ^= key >> 8
        key = (byte + key) * 52845 + 22719 & 0xFFFF
        cipher.append(byte)
    return bytes(cipher)


EEXEC, CHARSTRING = 55665, 4330
PFA, PFB = example("tiny.pfa"), example("tiny.pfb")
# What the segments of tiny.pfb hold, of which the headers stand at 0, 319 and 1333.
CLEAR, PRIVATE = PFB[6:319], deciphered(PFB[325:1333], EEXEC)
TRAILER = (b"0" * 64 + b"\n") * 8 + b"cleartomark\n"
# The test whether Tiny was loaded before, with which the heads of many fonts begin.
TEST = (
    b"FontDirectory/Tiny known{/Tiny findfont dup/UniqueID known{dup/UniqueID get 7 eq exch/FontType get 1 eq and}"
    b"{pop false}ifelse{save true}{false}ifelse}{false}ifelse\n"
)


def file_of(clear: bytes, private: bytes) -> bytes:
    """A font with a raw binary cipher."""
    return clear + ciphered(private, EEXEC) + TRAILER


def changed(old: bytes, new: bytes, count: int = 1) -> bytes:
    """Tiny with other bytes where these stand, in the clear or in the private text."""
    assert CLEAR.count(old) + PRIVATE.count(old) == count, old
    return file_of(CLEAR.replace(old, new), PRIVATE.replace(old, new))


def spelled() -> bytes:
    """Tiny with a comment in its Encoding, at offset 195, and another one among its Subrs, at 269."""
    comment = b"% a comment\n"
    clear, private = CLEAR[:195] + comment + CLEAR[195:], PRIVATE[:269] + comment + PRIVATE[269:]
    return file_of(clear, private)


def charstring(plain: bytes) -> bytes:
    """A charstring as an entry has it."""
    cipher = ciphered(plain, CHARSTRING)
    return b"%d RD %s" % (len(cipher), cipher)


def with_charstrings(plains: Dict[bytes, bytes]) -> bytes:
    """Tiny with other charstrings behind these keys, such as `/A` or `dup 5`."""
    private = PRIVATE
    for key, plain in plains.items():
        found = re.search(re.escape(key) + rb" (\d+) RD ", private)
        assert found, key
        private = private[: found.end(1) - len(found[1])] + charstring(plain) + private[found.end() + int(found[1]):]
    return file_of(CLEAR, private)


def without(key: bytes) -> bytes:
    """Tiny without the entry of this key: `/A` for a glyph, `dup 5` for a Subr."""
    found = re.search(key + rb" (\d+) RD ", PRIVATE)
    assert found, key
    return file_of(CLEAR, PRIVATE[: found.start()] + PRIVATE[found.end() + int(found[1]) + len(b" ND\n"):])


def made(subrs: List[bytes], glyphs: Dict[bytes, bytes], name: bytes = b"Made") -> bytes:
    """The canonical PFA of a font of these Subrs and glyphs."""
    lines = [b"/Private 3 dict dup begin", b"/Subrs %d array" % len(subrs)]
    lines += [b"dup %d %s NP" % (index, charstring(plain)) for index, plain in enumerate(subrs)]
    lines += [b"ND", b"2 index /CharStrings %d dict dup begin" % len(glyphs)]
    lines += [b"/%s %s ND" % (glyph, charstring(plain)) for glyph, plain in sorted(glyphs.items())]
    lines += [b"end", b"end", b"mark currentfile closefile", b""]
    digits = ciphered(b"\n".join(lines), EEXEC).hex()
    cipher = "".join(digits[at:at + 64] + "\n" for at in range(0, len(digits), 64)).encode()
    head = b"%%!\n/FontName /%s def\n/Encoding StandardEncoding def\ncurrentfile eexec\n" % name
    return head + cipher + TRAILER


def document(font: bytes, name: bytes = b"Made") -> bytes:
    """A document with a font, which begins at 19 bytes and those of the name."""
    return b"%%!PS\n%%%%BeginFont: %s\n%s%%%%EndFont\n" % (name, font)


@lru_cache(maxsize=None)
def installed() -> List[Tuple[str, bytes]]:
    """The paths of some fonts of this machine, from all of its folders of fonts, and their bytes."""
    found = []
    for root in ("/usr/share/fonts", "/usr/share/texlive/texmf-dist/fonts/type1", "/usr/share/texmf/fonts/type1"):
        for folder, _, files in os.walk(root):
            found += [os.path.join(folder, file) for file in files if file.endswith((".t1", ".pfb", ".pfa"))]
    found.sort()
    if not found:
        left_out("no Type 1 font is installed: Tiny alone is tried")
    return [(path, read(path)) for path in found[:: max(1, len(found) // SOME)][:SOME]]


@lru_cache(maxsize=None)
def slow() -> bytes:
    """A font of 100 glyphs, each with a width of its own, that execute as many tokens as a glyph may: Subr 12 calls
    Subr 11 eight times, and so on down to Subr 5, so that 8 ** 7 tokens are wanted."""
    subrs = [b"\x0b"] * 6
    for index in range(5, 12):
        subrs.append((bytes([139 + index]) + b"\x0a") * 8 + b"\x0b")
    bodies = {b"g%d" % at: b"\x8b" + bytes([139 + at]) + b"\x0d" + bytes([139 + 12]) + b"\x0a\x0e" for at in range(100)}
    return made(subrs, {**bodies, b".notdef": b"\x8b\xf7\x8e\x0d\x0e"})
