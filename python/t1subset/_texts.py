"""What the library's texts say: `check`, `list`, `list_full`, `show`, `mends` and `fonts`."""

from __future__ import annotations

import re
from dataclasses import dataclass
from fractions import Fraction
from typing import Dict, List, Mapping, NamedTuple, Optional, Tuple, Union


@dataclass(frozen=True)
class Checked:
    """What a font has: how many glyphs, how many Subrs that are present, and its weight, the size that is limited."""

    glyphs: int
    subrs: int
    weight: int


@dataclass(frozen=True)
class Listed:
    """What a font lists.

    encoding: a word, such as "StandardEncoding", or the names of the codes that have one.
    subrs: the length of each Subr by its index.
    glyphs: the length of each glyph by its name.

    Lengths are those of the plain charstrings. A name is a str in UTF-8; a byte of it that is no UTF-8 stands as a lone
    surrogate, as in `os.fsdecode`. So each name can be given back to `show` and `subset`.
    """

    encoding: Union[str, Mapping[int, str]]
    subrs: Mapping[int, int]
    glyphs: Mapping[str, int]


@dataclass(frozen=True)
class Point:
    """A place or a distance, in font units, exactly: a multiple of 1/65536."""

    x: Fraction
    y: Fraction


@dataclass(frozen=True)
class Mark:
    """A mark of a drawing: its word, and its numbers in font units.

    move X Y, line X Y, curve X Y X Y X Y, close; hstem Y DY, vstem X DX, and hstem3 and vstem3 with three such pairs,
    as the charstring has them, from the side bearing point; dot for a dotsection, replace for a replacement of hints,
    flex HEIGHT before the two curves of a flex.
    """

    word: str
    numbers: Tuple[Fraction, ...]


@dataclass(frozen=True)
class DrawnPart:
    """A part of a glyph: where it stands, and its marks in its own coordinates."""

    offset: Point
    marks: Tuple[Mark, ...]


@dataclass(frozen=True)
class Drawn:
    """What a glyph draws. An accented glyph has two parts, any other has one."""

    width: Point
    bearing: Point
    parts: Tuple[DrawnPart, ...]


@dataclass(frozen=True)
class Undrawn:
    """A glyph that can't be drawn: the name of its fault, such as "NestedSeac"."""

    fault: str


@dataclass(frozen=True)
class ListedInFull(Listed):
    """What a font lists in full: beside that of `Listed` what its dictionary says, None of a key that has no value.

    name: the FontName, as names stand in `Listed`.
    matrix, bbox: the FontMatrix and the FontBBox, as the font spells them within their brackets: numbers, mostly.
    unique_id: the UniqueID, as the font spells it: digits, mostly.
    widths: the width of each glyph by its name, or the fault for which it can't be drawn.

    In `matrix`, `bbox` and `unique_id` white space is a blank, and any other byte that isn't visible, and the backslash,
    is \\x and two digits.
    """

    name: Optional[str]
    matrix: Optional[str]
    bbox: Optional[str]
    unique_id: Optional[str]
    widths: Mapping[str, Union[Point, Undrawn]]


class Mend(NamedTuple):
    """A thing that `mend` mends of a font. `str` gives the line that the program t1subset prints of it.

    what: "comment in Encoding", "code copied", "readonly Encoding", "comment in Subrs", or
        "test of FontDirectory taken out".
    at: an offset from 0, for Subrs in the decrypted private text, else in the clear text.
    """

    what: str
    at: int

    def __str__(self) -> str:
        return f"{self.what} at {self.at}"


@dataclass(frozen=True)
class Placed:
    """A place of a font in documents.

    document: the place of the document among those that were given, from 0.
    offset: where the font begins in it, from 0.
    name: the name of the font; as in `Listed`, a byte that is no UTF-8 stands as a lone surrogate.
    glyphs: how many glyphs it has.
    depth: how many embedded documents are open there.
    reason: why the fonts of this name don't rejoin, so that they stay as they are; None if they are joined.
    """

    document: int
    offset: int
    name: str
    glyphs: int
    depth: int
    reason: Optional[str]


_CHECKED = re.compile(r"ok (\d+) glyphs, (\d+) subrs, weight (\d+)\n")
_MEND = re.compile(r"(.+) at (\d+)")
_PLACED = re.compile(r"(\d+): (\d+) (\S*) (\d+) (\d+) (?:joined|kept: (.+))")
_COUNTED = re.compile(r"(\d+) places, \d+ names, \d+ kept")
_ESCAPE = re.compile(rb"\\x([0-9a-f]{2})")


def unknown(line: str) -> RuntimeError:
    """A line that no version 0 of the library writes."""
    return RuntimeError(f"this is not libt1subset.so.0: it answered {line!r}")


def name_of(shown: str) -> str:
    """The name that is printed so."""
    if "\\" not in shown:
        return shown
    name = _ESCAPE.sub(lambda found: bytes([int(found[1], 16)]), shown.encode("ascii"))
    return name.decode("utf-8", "surrogateescape")


def checked(text: str) -> Checked:
    """What the text of `check` says."""
    found = _CHECKED.fullmatch(text)
    if not found:
        raise unknown(text)
    return Checked(*map(int, found.groups()))


def _listed(lines: List[str]) -> Listed:
    word = None
    codes: Dict[int, str] = {}
    subrs: Dict[int, int] = {}
    glyphs: Dict[str, int] = {}
    for line in lines:
        kind, *rest = line.split(" ")
        if kind == "glyph" and len(rest) == 2:
            glyphs[name_of(rest[0])] = int(rest[1])
        elif kind == "subr" and len(rest) == 2:
            subrs[int(rest[0])] = int(rest[1])
        elif kind == "code" and len(rest) == 2:
            codes[int(rest[0])] = name_of(rest[1])
        elif kind == "encoding" and len(rest) == 1:
            word = name_of(rest[0])
        else:
            raise unknown(line)
    return Listed(codes if word is None else word, subrs, glyphs)


def listed(text: str) -> Listed:
    """What the text of `list` says."""
    return _listed(text.splitlines())


def _amount(text: str) -> Fraction:
    count, slash, parts = text.partition("/")
    return Fraction(int(count), int(parts)) if slash else Fraction(int(count))


def _mark(line: str) -> Mark:
    word, *numbers = line.split(" ")
    return Mark(word, tuple(map(_amount, numbers)))


def _point(mark: Mark, word: str) -> Point:
    if mark.word != word or len(mark.numbers) != 2:
        raise unknown(mark.word)
    return Point(*mark.numbers)


def drawn(text: str) -> Union[Drawn, Undrawn]:
    """What the text of `show` says."""
    lines = text.splitlines()
    if text.startswith("fault ") and len(lines) == 1:
        return Undrawn(lines[0][len("fault "):])
    if len(lines) < 2:
        raise unknown(text)
    width, bearing, *rest = map(_mark, lines)
    parts: List[Tuple[Point, List[Mark]]] = []
    for mark in rest:
        if mark.word == "part":
            parts.append((_point(mark, "part"), []))
        elif parts:
            parts[-1][1].append(mark)
        else:
            raise unknown(mark.word)
    made = tuple(DrawnPart(offset, tuple(marks)) for offset, marks in parts)
    return Drawn(_point(width, "width"), _point(bearing, "bearing"), made)


def _width(rest: str) -> Tuple[str, Union[Point, Undrawn]]:
    words = rest.split(" ")
    if len(words) != 3:
        raise unknown("width " + rest)
    name, x, y = words
    return name_of(name), Undrawn(y) if x == "fault" else Point(_amount(x), _amount(y))


def listed_in_full(text: str) -> ListedInFull:
    """What the text of `list --full` says."""
    told: Dict[str, Optional[str]] = dict.fromkeys(("name", "matrix", "box", "unique"))
    widths: Dict[str, Union[Point, Undrawn]] = {}
    lines: List[str] = []
    for line in text.splitlines():
        kind, blank, rest = line.partition(" ")
        if kind in told and blank:
            told[kind] = rest
        elif kind == "width":
            name, width = _width(rest)
            widths[name] = width
        else:
            lines.append(line)
    listed = _listed(lines)
    name = told["name"]
    return ListedInFull(
        listed.encoding,
        listed.subrs,
        listed.glyphs,
        name if name is None else name_of(name),
        told["matrix"],
        told["box"],
        told["unique"],
        widths,
    )


def _mend(line: str) -> Mend:
    found = _MEND.fullmatch(line)
    if not found:
        raise unknown(line)
    return Mend(found[1], int(found[2]))


def mended(text: str) -> List[Mend]:
    """What the text of `mends` says."""
    return [_mend(line) for line in text.splitlines()]


def _place(line: str) -> Placed:
    found = _PLACED.fullmatch(line)
    if not found:
        raise unknown(line)
    document, offset, name, glyphs, depth, reason = found.groups()
    return Placed(int(document), int(offset), name_of(name), int(glyphs), int(depth), reason)


def placed(text: str) -> List[Placed]:
    """What the text of `fonts` says."""
    *lines, last = text.splitlines() or [""]
    counted = _COUNTED.fullmatch(last)
    if not counted or int(counted[1]) != len(lines):
        raise unknown(last)
    return [_place(line) for line in lines]
