"""The calls of the library, with Python's values."""

from __future__ import annotations

import ctypes
import enum
import mmap
from typing import Any, Iterable, List, Literal, Optional, Tuple, Union

from . import _texts
from ._library import Answer, Given, Limits, library
from ._refusals import Number, Refused
from ._texts import Checked, Drawn, Listed, ListedInFull, Mend, Placed, Undrawn


class Form(enum.Enum):
    """The form of the file that is written."""

    PFA = "pfa"
    """Text, with the cipher in hexadecimal: what a PostScript document contains."""
    PFB = "pfb"
    """Segments, with the cipher in binary."""


AnyForm = Union[Form, Literal["pfa", "pfb"]]
BytesLike = Union[bytes, bytearray, memoryview, mmap.mmap]
Name = Union[str, bytes]

_FORMS = {Form.PFA: 0, Form.PFB: 1}
_TAGS, _DSC = 1, 2


def check(font: BytesLike) -> Checked:
    """What a font has, if it is one.

    >>> check(font)
    Checked(glyphs=11, subrs=10, weight=4936)
    """
    return _texts.checked(_text(library.t1subset_check, *_file(font)))


def list(font: BytesLike) -> Listed:
    """The Encoding, and the lengths of the Subrs and of the glyphs.

    >>> list(font).encoding
    {65: 'X', 66: 'Y', 194: 'H'}
    """
    return _texts.listed(_text(library.t1subset_list, *_file(font)))


def list_full(font: BytesLike) -> ListedInFull:
    """What `list` says, and what the font's dictionary says, and the widths of the glyphs.

    >>> listed = list_full(font)
    >>> listed.name, listed.matrix, listed.bbox, listed.unique_id
    ('Tiny', '0.001 0 0 0.001 0 0', '0 0 500 700', None)
    >>> listed.widths["X"]
    Point(x=Fraction(300, 1), y=Fraction(0, 1))
    >>> listed.widths["N"]
    Undrawn(fault='NestedSeac')
    """
    return _texts.listed_in_full(_text(library.t1subset_list_full, *_file(font)))


def show(font: BytesLike, name: Name) -> Union[Drawn, Undrawn]:
    """What a glyph draws, or the fault for which it can't be drawn.

    >>> [mark.word for mark in show(font, "X").parts[0].marks]
    ['move', 'line', 'line', 'line', 'close']
    >>> show(font, "N")
    Undrawn(fault='NestedSeac')
    """
    return _texts.drawn(_text(library.t1subset_show, *_file(font), *_file(_name(name))))


def convert(font: BytesLike, form: AnyForm = "pfa") -> bytes:
    """The one canonical file of a font, in a form."""
    return _call(library.t1subset_convert, *_file(font), _form(form))


def mend(font: BytesLike, form: AnyForm = "pfa") -> bytes:
    """The canonical file, in a form, of a font that another program spells: with comments in the Encoding or among the
    Subrs, with codes that are copied, or with readonly behind a word Encoding; and without the test of FontDirectory
    that it may begin with.

    >>> mend(font) == convert(font)
    True
    """
    return _call(library.t1subset_mend, *_file(font), _form(form))


def mends(font: BytesLike) -> List[Mend]:
    """What `mend` mends of a font, and where; of a font with nothing to mend it is empty.

    >>> mends(font)
    []
    >>> mends(font.replace(b"dup 65 ", b"% a comment\\ndup 65 "))
    [Mend(what='comment in Encoding', at=195)]
    """
    return _texts.mended(_text(library.t1subset_mends, *_file(font)))


def subset(
    font: BytesLike,
    names: Iterable[Name],
    form: AnyForm = "pfa",
    *,
    codes: BytesLike = b"",
    tokens: Optional[int] = None,
) -> bytes:
    """The canonical file of the subset that keeps these glyphs, .notdef, the components of accented glyphs, and the
    Subrs that all of these execute. A name may be given more than once.

    The names that these codes have in the font's Encoding are kept, too; each byte is a code. If the Encoding is the
    word StandardEncoding, the names are those of StandardEncoding; by any other word no code has a name. The first code
    without a name is refused, before a name that the font lacks.

    With `tokens` no more tokens are executed than so many: numbers and commands of charstrings, each as often as it is
    executed, in Subrs too. It is refused as Number.TOO_MANY_TOKENS, behind missing codes and names, and only if the runs
    of all glyphs that are kept execute more in all, those where hints are replaced and those where they are kept. Else
    the answer is that without `tokens`.

    >>> check(subset(font, ["X", "Y"]))
    Checked(glyphs=3, subrs=10, weight=2718)
    >>> subset(font, ["X"], codes=b"B") == subset(font, [], codes=b"AB") == subset(font, ["X", "Y"])
    True
    >>> subset(font, ["X"], tokens=1_000_000) == subset(font, ["X"])
    True
    """
    given = *_file(font), *_files(map(_name, _several(names, "names"))), *_file(codes), _form(form)
    if tokens is None:
        return _call(library.t1subset_subset_codes, *given)
    return _call(library.t1subset_subset_within, *given, _limits(tokens))


def merge(fonts: Iterable[BytesLike], form: AnyForm = "pfa", *, tokens: Optional[int] = None) -> bytes:
    """The canonical file of the font that fonts merge to. Subsets of one font that t1subset cut merge, in every
    order, to the subset of all their names, byte for byte.

    `tokens` is as for `subset`, of all glyphs of all fonts. If what stands around the tables of the first two fonts
    differs, that is told, and no glyph is run; any other conflict is told only where the tokens are not too many.

    >>> merge([subset(font, ["Y"]), subset(font, ["X"])]) == subset(font, ["X", "Y"])
    True
    >>> merge([font, font], tokens=10)
    Traceback (most recent call last):
    t1subset._refusals.Refused: too many tokens
    """
    given = *_files(_several(fonts, "fonts")), _form(form)
    if tokens is None:
        return _call(library.t1subset_merge, *given)
    return _call(library.t1subset_merge_within, *given, _limits(tokens))


def rejoin(fonts: Iterable[BytesLike], form: AnyForm = "pfa", *, tokens: Optional[int] = None) -> bytes:
    """The same for subsets that another program cut, such as dvips or pdfTeX: they are first mended, as by
    `mend`, and normalized (white space is squeezed, lines of UniqueID and XUID and the
    tag before the FontName are removed, and every table of Subrs declares as many).

    `tokens` is as for `subset`, of all glyphs of all fonts."""
    given = *_files(_several(fonts, "fonts")), _form(form)
    if tokens is None:
        return _call(library.t1subset_rejoin, *given)
    return _call(library.t1subset_rejoin_within, *given, _limits(tokens))


def diff(first: BytesLike, second: BytesLike, *, tokens: Optional[int] = None) -> bytes:
    """Lines that tell all conflicts of two fonts, each with the text by which `merge` refuses for it, the lowest first; empty
    exactly if the fonts merge.

    `tokens` is as for `subset`, of all glyphs of both fonts. These are run first, so that the refusal comes before all
    conflicts.

    >>> diff(subset(font, ["Y"]), subset(font, ["X"]))
    b''
    """
    given = *_file(first), *_file(second)
    if tokens is None:
        return _call(library.t1subset_diff, *given)
    return _call(library.t1subset_diff_within, *given, _limits(tokens))


def join(first: BytesLike, second: BytesLike) -> bytes:
    """The join of two listings, texts of lines `S INDEX HEX` and `G NAME HEX`.

    >>> join(b"S 5 ef060b\\n", b"G Y 0E\\n")
    b'S 5 ef060b\\nG Y 0e\\n'
    """
    return _call(library.t1subset_join, *_file(first), *_file(second))


def pool(documents: Iterable[BytesLike], *, tags: bool = False, dsc: bool = False) -> bytes:
    """PostScript documents, one behind the other, with each font once. Where a font may stand says the man page
    t1subset(1), under `pool`. A font that has several places stands before the first document, and each place has a line
    by which its name finds it. The fonts of a name that don't rejoin stay: `fonts` says why. With `tags` names that are equal
    without the tags that they begin with, six capitals and `+`, have one font, too, if it can be made. With `dsc` the documents
    become one document after Adobe's Document Structuring Conventions, whose pages stand by themselves.

    >>> document = b"%!PS\\n%%BeginFont: Tiny\\n" + font + b"%%EndFont\\nshowpage\\n"
    >>> line = b"%!PS\\n%%BeginFont: Tiny\\n/Tiny /pool:Tiny findfont definefont pop\\n%%EndFont\\nshowpage\\n"
    >>> pool([document, document]).endswith(b"if\\n" + line + line)
    True
    """
    pooling = (_TAGS if tags else 0) | (_DSC if dsc else 0)
    return _call(library.t1subset_pool, *_files(_several(documents, "documents")), pooling)


def level(documents: Iterable[BytesLike]) -> List[bytes]:
    """The documents, in each of which each place of a name has the joined font, so that any of them may be printed
    without the others.

    >>> some, other = (b"%!PS\\n%%BeginFont: Tiny\\n" + subset(font, [name]) + b"%%EndFont\\n" for name in ("X", "Y"))
    >>> both = b"%!PS\\n%%BeginFont: Tiny\\n" + subset(font, ["X", "Y"]) + b"%%EndFont\\n"
    >>> level([some, other]) == [both, both]
    True
    """
    given, count = _files(_several(documents, "documents"))
    return _answered(library.t1subset_level, (Answer * count)(), given, count)


def fonts(documents: Iterable[BytesLike]) -> List[Placed]:
    """The places of fonts in documents, in their order, and whether the fonts of each name rejoin.

    >>> fonts([b"%!PS\\n", b"%!PS\\n%%BeginFont: Tiny\\n" + font + b"%%EndFont\\n"])
    [Placed(document=1, offset=23, name='Tiny', glyphs=11, depth=0, reason=None)]
    """
    return _texts.placed(_text(library.t1subset_fonts, *_files(_several(documents, "documents"))))


def extract(name: Name, documents: Iterable[BytesLike]) -> bytes:
    """The canonical PFA of the first font of this name in documents, mended as by `mend`.

    >>> extract("Tiny", [b"%!PS\\n%%BeginFont: Tiny\\n" + font + b"%%EndFont\\n"]) == font
    True
    """
    return _call(library.t1subset_extract, *_file(_name(name)), *_files(_several(documents, "documents")))


def version() -> Tuple[int, int, int]:
    """The version of the library that is loaded, such as (0, 1, 0)."""
    number: int = library.t1subset_version()
    return number >> 16 & 255, number >> 8 & 255, number & 255


def _call(function: Any, *arguments: Any) -> bytes:
    """What a call of the library answers."""
    return _answered(function, (Answer * 1)(), *arguments)[0]


def _answered(function: Any, answers: "ctypes.Array[Answer]", *arguments: Any) -> List[bytes]:
    """What a call of the library answers in these answers. If it refuses, the first has the refusal."""
    try:
        number: int = function(*arguments, answers)
        texts = [ctypes.string_at(it.data, it.size) if it.size else b"" for it in answers]
        told = [(it.detail, it.input) for it in answers]
    finally:
        for answer in answers:
            library.t1subset_free(ctypes.byref(answer))
    if number == Number.MEMORY:
        raise MemoryError("libt1subset was refused memory")
    if number != Number.OK:
        detail, place = told[0]
        raise Refused(number, texts[0].decode("ascii"), detail, None if place < 0 else place)
    return texts


def _text(function: Any, *arguments: Any) -> str:
    return _call(function, *arguments).decode("ascii")


def _kept(data: BytesLike) -> bytes:
    """The bytes of an object as nobody can change them: the call runs without the interpreter's lock, and what is read
    has to stay as it is. So bytes are lent to the library, and so is what a view has whole; anything else is copied."""
    if type(data) is bytes:
        return data
    with memoryview(data) as view:
        owner = view.obj
        if type(owner) is bytes and view.contiguous and view.nbytes == len(owner):
            return owner
        return view.tobytes()


def _file(data: BytesLike) -> Tuple[bytes, int]:
    kept = _kept(data)
    return kept, len(kept)


def _files(items: Iterable[BytesLike]) -> Tuple["ctypes.Array[Given]", int]:
    """An array of the library's; it keeps what its places point to."""
    given = [Given(*_file(item)) for item in items]
    return (Given * len(given))(*given), len(given)


def _several(items: Iterable[Any], what: str) -> Iterable[Any]:
    """A str or one file is an iterable, too, and never what is meant."""
    if isinstance(items, (str, bytes, bytearray, memoryview, mmap.mmap)):
        raise TypeError(f"{what}: an iterable of {what} is wanted, not one {type(items).__name__}")
    return items


def _name(name: Name) -> bytes:
    return name.encode("utf-8", "surrogateescape") if isinstance(name, str) else _kept(name)


def _form(form: AnyForm) -> int:
    return _FORMS[Form(form)]


def _limits(tokens: int) -> Limits:
    """The limits of a call. ctypes would take any number, and keep 64 bits of it."""
    if not isinstance(tokens, int) or isinstance(tokens, bool):
        raise TypeError(f"tokens: an int or None is wanted, not {type(tokens).__name__}")
    if not 0 <= tokens < 1 << 64:
        raise ValueError(f"tokens: a number from 0 to 2**64 - 1 is wanted, not {tokens}")
    return Limits(tokens)
