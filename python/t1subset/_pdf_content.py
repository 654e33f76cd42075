"""Content streams: what they show in which font."""

from __future__ import annotations

import re
from typing import Any, List, NamedTuple, Optional

from ._pdf_filters import LONGEST, inflated_end
from ._pdf_graph import name_of

SHOW, FONT, STATE, DRAW, SAVE, RESTORE = "show", "Tf", "gs", "Do", "q", "Q"


class Event(NamedTuple):
    """What a content stream does, as far as it decides which codes are shown in which font.

    what: SHOW, with the codes; FONT, STATE and DRAW, with the name of the resource; SAVE and RESTORE."""

    what: str
    given: Any


class Unreadable(ValueError):
    """A content stream of which it isn't known what it shows."""


MOST = 1_000_000
"""How many strings and how many events a content stream may have."""
_REGULAR = rb"[^\0\t\n\f\r ()<>\[\]{}/%]"
_SPACE = rb"[\0\t\n\f\r ]"


def _nested(depth: int) -> bytes:
    """A literal string with so many parentheses within one another. A loop over what stands between them never tries the
    same bytes twice, so a string that doesn't end costs no more than its length."""
    inner = rb"\\." if depth == 0 else rb"\\.|" + _nested(depth - 1)
    return rb"\([^()\\]*(?:(?:" + inner + rb")[^()\\]*)*\)"


def _word(word: bytes, before: bytes = b"") -> bytes:
    """An operator, behind white space, a delimiter, or one of these bytes. Each alternative of a pattern begins with a byte of its own, so that
    a search is fast."""
    return word + rb"(?<![^\0\t\n\f\r ()<>\[\]{}%" + before + rb"]" + word + rb")(?!" + _REGULAR + rb")"


# Strings, and comments, which may hold what would be a string elsewhere.
_APART = re.compile(rb"(" + _nested(2) + rb"|<(?<!<<)(?!<)[0-9a-fA-F\0\t\n\f\r ]*>|%[^\r\n]*)", re.S)
# Names, and what counts of operators; strings are gone, and `()` stands for each. Some programs read an operator right behind a number.
_OPERATOR = re.compile(b"|".join([rb"/" + _REGULAR + rb"*", rb"<<", rb">>", *(_word(it, rb"0-9.") for it in (b"Tf", b"gs", b"Do", b"q", b"Q"))]))
_IMAGE = re.compile(_word(b"BI"))
_ESCAPE = re.compile(rb"\\(?:([0-7]{1,3})|(\r\n|.))|\r\n?", re.S)
_ESCAPED = {b"n": b"\n", b"r": b"\r", b"t": b"\t", b"b": b"\b", b"f": b"\f", b"\n": b"", b"\r": b"", b"\r\n": b""}


def _unescaped(text: bytes) -> bytes:
    def plain(found: "re.Match[bytes]") -> bytes:
        if found[1]:
            return bytes([int(found[1], 8) & 255])
        # The end of a line is one byte in a string, whatever it is in the file; both are taken as shown.
        return _ESCAPED.get(found[2], found[2]) if found[2] else b"\r\n"

    return _ESCAPE.sub(plain, text)


def _codes(pieces: List[bytes]) -> bytes:
    """The codes of strings, each once; comments have none."""
    text = b"".join([piece[1:-1] for piece in pieces if piece[0] == 40])
    if b"\\" in text or b"\r" in text:
        text = _unescaped(text)
    for piece in pieces:
        if piece[0] == 60:
            digits = piece[1:-1].translate(None, b"\0\t\n\f\r ")
            text += bytes.fromhex((digits + b"0"[: len(digits) % 2]).decode("ascii"))
    return bytes(set(text))


def events(data: bytes) -> List[Event]:
    """What a content stream does."""
    if sum(map(data.count, (b"(", b"<", b"%"))) > MOST:
        raise Unreadable("more strings than are kept")
    pieces = _slowly_apart(data) if _IMAGE.search(data) else _APART.split(data)
    texts = pieces[::2]
    code = b"()".join(texts)
    # Parentheses that stand deeper or alone, and digits that are none.
    if not len(texts) - 1 == code.count(b"(") == code.count(b")") or code.count(b"<") != 2 * code.count(b"<<"):
        pieces = _slowly_apart(data)
        code = b"()".join(pieces[::2])
    try:
        return _events(code, pieces[1::2], False)
    except _Unbalanced:
        return _events(code, pieces[1::2], True)


class _Unbalanced(ValueError):
    """A dictionary that doesn't end, or not before an operator: it isn't known which strings stand in it."""


def _events(code: bytes, strings: List[bytes], is_all_shown: bool) -> List[Event]:
    found: List[Event] = []
    last, used, depth, name = 0, 0, 0, b""

    def show(until: int) -> None:
        # Within a dictionary a string is no text, but that of a property.
        nonlocal last, used
        count = code.count(b"()", last, until)
        if count and depth == 0:
            codes = _codes(strings[used:used + count])
            if codes:
                found.append(Event(SHOW, codes))
        used, last = used + count, until

    for token in _OPERATOR.finditer(code):
        sign = token[0]
        if sign[0] == 47:
            name = sign[1:]
            continue
        show(token.start())
        if sign in (b"<<", b">>"):
            depth = 0 if is_all_shown else max(0, depth + (1 if sign == b"<<" else -1))
        elif depth:
            raise _Unbalanced
        else:
            word = sign.decode("ascii")
            found.append(Event(word, None if word in (SAVE, RESTORE) else name_of(name)))
            if len(found) > MOST:
                raise Unreadable("more than is kept")
    show(len(code))
    if depth:
        raise _Unbalanced
    return found


_SPECIAL = re.compile(rb"[(%]|<<|<|" + _IMAGE.pattern)
_PARENTHESIS = re.compile(rb"\\.|[()]", re.S)
_LINE_END, _HEX_END = re.compile(rb"[\r\n]|\Z"), re.compile(rb"[0-9a-fA-F\0\t\n\f\r ]*>")


def _string_end(data: bytes, at: int) -> int:
    depth = 0
    for found in _PARENTHESIS.finditer(data, at):
        depth += {b"(": 1, b")": -1}.get(found[0], 0)
        if depth == 0:
            return found.end()
    raise Unreadable("a string that doesn't end")


def _slowly_apart(data: bytes) -> List[bytes]:
    """What `_APART` splits, also where parentheses stand deeper, or alone, and where there are images: texts in even places, strings
    and comments in odd ones. Images are left out."""
    pieces: List[bytes] = []
    text: List[bytes] = []
    at = 0
    while True:
        found = _SPECIAL.search(data, at)
        text.append(data[at:found.start() if found else len(data)].replace(b")", b" "))
        if not found:
            return [*pieces, b"".join(text)]
        sign, begins = found[0], found.start()
        if sign == b"<<":
            text.append(sign)
            at = found.end()
            continue
        if sign == b"BI":
            text.append(b" ")
            at = image_end(data, found.end())
            continue
        if sign == b"(":
            at = _string_end(data, begins)
        else:
            at = _end_of(_LINE_END if sign == b"%" else _HEX_END, data, found.end())
        pieces += [b"".join(text), data[begins:at]]
        text.clear()


def _end_of(what: "re.Pattern[bytes]", data: bytes, at: int) -> int:
    found = what.search(data, at) if what is _LINE_END else what.match(data, at)
    if not found:
        raise Unreadable("a string that doesn't end")
    return found.start() if what is _LINE_END else found.end()


_DATA = re.compile(rb"(?<!" + _REGULAR + rb")ID(?:\r\n|" + _SPACE + rb"|(?=" + _REGULAR + rb"))")
_KEY = re.compile(rb"/(" + _REGULAR + rb"+)" + _SPACE + rb"*(\[[^\]]*\]|/" + _REGULAR + rb"*|" + _REGULAR + rb"+)")
_END = re.compile(_SPACE + rb"*EI(?!" + _REGULAR + rb")")
_LIKELY_END = re.compile(_SPACE + rb"EI(?!" + _REGULAR + rb")")
# What stands behind an image, as far as it is looked at: text.
_PLAIN = re.compile(rb"[\t\n\f\r -~]*\Z")
_COLORS = {b"/G": 1, b"/DeviceGray": 1, b"/RGB": 3, b"/DeviceRGB": 3, b"/CMYK": 4, b"/DeviceCMYK": 4}
_LOOK = 64


def _plain_length(told: "dict[bytes, bytes]") -> Optional[int]:
    """How many bytes an image without a filter has; None if that isn't known."""
    width, height = (told.get(short, told.get(full, b"")) for short, full in ((b"W", b"Width"), (b"H", b"Height")))
    if told.get(b"IM", told.get(b"ImageMask")) == b"true":
        bits = 1
    else:
        space = told.get(b"CS", told.get(b"ColorSpace", b""))
        depth = told.get(b"BPC", told.get(b"BitsPerComponent", b""))
        colors = 1 if re.match(rb"\[" + _SPACE + rb"*/I(?:ndexed)?(?!" + _REGULAR + rb")", space) else _COLORS.get(space)
        if colors is None or not depth.isdigit():
            return None
        bits = colors * int(depth)
    return (int(width) * bits + 7) // 8 * int(height) if width.isdigit() and height.isdigit() else None


def _data_end(told: "dict[bytes, bytes]", data: bytes, at: int) -> Optional[int]:
    """Where the data of an image ends, as its dictionary says; None if that isn't known."""
    filters = re.findall(_REGULAR + rb"+", told.get(b"F", told.get(b"Filter", b"")))
    if not filters:
        length = _plain_length(told)
        return None if length is None else at + length
    if filters[0] in (b"Fl", b"FlateDecode"):
        return inflated_end(data, at, LONGEST)
    marks = {b"A85": b"~>", b"ASCII85Decode": b"~>", b"AHx": b">", b"ASCIIHexDecode": b">"}
    mark = marks.get(filters[0])
    end = data.find(mark, at) if mark else -1
    return None if end < 0 or mark is None else end + len(mark)


def image_end(data: bytes, at: int) -> int:
    """The place behind an image, whose dictionary begins here. Its data is as long as it says, else it ends before the first EI
    behind which text stands."""
    start = _DATA.search(data, at)
    if not start:
        raise Unreadable("an image without data")
    told = dict(_KEY.findall(data, at, start.start()))
    end = _data_end(told, data, start.end())
    found = _END.match(data, end) if end is not None else None
    if found:
        return found.end()
    for found in _LIKELY_END.finditer(data, start.end()):
        if _PLAIN.match(data[found.end():found.end() + _LOOK]):
            return found.end()
    raise Unreadable("an image that doesn't end")
