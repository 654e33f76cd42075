"""The objects of a PDF that can be reached, as plain values.

pikepdf answers no key that isn't UTF-8, and takes microseconds for each value; so an object is read from the text that it
writes for it, and pikepdf is asked for what has to be changed."""

from __future__ import annotations

import re
from typing import Any, Container, Dict, Iterator, List, Match, NamedTuple, Optional, Tuple

import pikepdf

from ._pdf_filters import Undecodable, decoded


class Name(str):
    """A name, without its slash; a byte of it that is no UTF-8 stands as a lone surrogate."""


class Text(bytes):
    """A string, as pikepdf spells it."""


class Ref(NamedTuple):
    """A reference: the object's number and generation."""

    number: int
    generation: int


class Place(NamedTuple):
    """Where a dictionary stands: in an object (None: in the trailer), behind these keys and indices."""

    ref: Optional[Ref]
    path: Tuple[Any, ...]


class Dictionary(Dict[str, Any]):
    """A dictionary, or that of a stream, with its place."""

    def __init__(self, at: Place) -> None:
        super().__init__()
        self.at = at
        self.is_stream = False


_REGULAR = rb"[^\0\t\n\f\r ()<>\[\]{}/%]"
_STRING = rb"\([^()\\]*(?:\\.[^()\\]*)*\)|(?<!<)<[0-9a-fA-F]*>"
_TOKEN = re.compile(
    rb"(?P<open><<|\[)|(?P<close>>>|\])|/(?P<name>" + _REGULAR + rb"*)|(?P<ref>\d+ \d+ R)(?!" + _REGULAR + rb")|"
    rb"(?P<text>" + _STRING + rb")|(?P<word>" + _REGULAR + rb"+)",
    re.S,
)
_STRINGS, _REFS = re.compile(_STRING, re.S), re.compile(rb"(?<!" + _REGULAR + rb")(\d+) (\d+) R(?!" + _REGULAR + rb")")
_ESCAPE = re.compile(rb"#([0-9a-fA-F]{2})")
# What makes an object worth reading, wherever it stands. A resource may have any name, so none is skipped for its key.
_TELLING = re.compile(
    rb"/(?:FontFile3?|FontDescriptor|Contents|Annots|AP|DR|ByteRange|CharProcs|PatternType|SMask|Form)(?!" + _REGULAR + rb")"
)
_WORDS = {b"true": True, b"false": False, b"null": None}


def name_of(spelled: bytes) -> Name:
    """The name that is spelled so, without its slash."""
    if b"#" in spelled:
        spelled = _ESCAPE.sub(lambda found: bytes([int(found[1], 16)]), spelled)
    return Name(spelled.decode("utf-8", "surrogateescape"))


def _word(word: bytes) -> Any:
    if word in _WORDS:
        return _WORDS[word]
    try:
        return int(word)
    except ValueError:
        try:
            return float(word)
        except ValueError:
            return Text(word)


def _plain(found: Match[bytes]) -> Any:
    """The value of a token that opens and closes nothing."""
    kind, token = found.lastgroup, found[0]
    if kind == "name":
        return name_of(token[1:])
    if kind == "ref":
        return Ref(*map(int, token.split()[:2]))
    return Text(token) if kind == "text" else _word(token)


class _Open:
    """A dictionary or an array that is being read, its path, and the key of the value that comes."""

    def __init__(self, made: Any, path: Tuple[Any, ...]) -> None:
        self.made, self.path = made, path
        self.key: Any = None

    def awaits_key(self) -> bool:
        return isinstance(self.made, Dictionary) and self.key is None

    def path_of_next(self) -> Tuple[Any, ...]:
        return self.path + (len(self.made) if isinstance(self.made, list) else "/" + self.key,)

    def put(self, value: Any) -> None:
        if isinstance(self.made, list):
            self.made.append(value)
        else:
            # A key that has null is none.
            if value is not None:
                self.made[self.key] = value
            self.key = None


def parsed(text: bytes, ref: Optional[Ref]) -> Any:
    """The value that a text of pikepdf's spells."""
    stack = [_Open([], ())]
    for found in _TOKEN.finditer(text):
        top = stack[-1]
        if found.lastgroup == "close":
            stack.pop()
        elif top.awaits_key():
            top.key = name_of(found[0][1:])
        elif found.lastgroup == "open":
            path = top.path_of_next() if len(stack) > 1 else ()
            made: Any = Dictionary(Place(ref, path)) if found[0] == b"<<" else []
            top.put(made)
            stack.append(_Open(made, path))
        else:
            top.put(_plain(found))
    return next(iter(stack[0].made), None)


def refs_in(text: bytes) -> List[Ref]:
    """The references in a text of pikepdf's."""
    return [Ref(int(number), int(generation)) for number, generation in _REFS.findall(_STRINGS.sub(b"", text))]


class Graph:
    """The objects that can be reached from the trailer. `telling` has the dictionaries among them that say something of fonts,
    content or signatures, in the order of their numbers."""

    def __init__(self, pdf: pikepdf.Pdf) -> None:
        self.pdf = pdf
        self._values: Dict[Ref, Any] = {}
        self.trailer = parsed(pdf.trailer.unparse(), None)
        self.telling = list(self._dictionaries(self._reach()))

    def _reach(self) -> List[Ref]:
        """The telling objects."""
        telling = []
        for ref, text, is_stream in self._texts():
            if _TELLING.search(text):
                telling.append(ref)
                self._read(ref, text, is_stream)
        return sorted(telling)

    def _texts(self) -> Iterator[Tuple[Ref, bytes, bool]]:
        """Each object that can be reached, once, its text, and whether it is a stream."""
        seen = set(refs_in(self.pdf.trailer.unparse()))
        todo = list(seen)
        while todo:
            ref = todo.pop()
            text, is_stream = self.text(ref)
            yield ref, text, is_stream
            for other in refs_in(text):
                if other not in seen:
                    seen.add(other)
                    todo.append(other)

    def holders(self, refs: Container[Ref]) -> List[Ref]:
        """The objects that can be reached and have one of these references."""
        return [ref for ref, text, _ in self._texts() if any(it in refs for it in refs_in(text))]

    def _dictionaries(self, refs: List[Ref]) -> Iterator[Dictionary]:
        """The dictionaries of these objects, also those that stand within others."""
        todo: List[Any] = [self.trailer, *map(self.get, reversed(refs))]
        while todo:
            value = todo.pop()
            if isinstance(value, Dictionary):
                yield value
                todo += reversed(list(value.values()))
            elif isinstance(value, list):
                todo += reversed(value)

    def text(self, ref: Ref) -> Tuple[bytes, bool]:
        """An object's text, for a stream that of its dictionary, and whether it is a stream."""
        made = self.pdf.get_object(ref)
        if isinstance(made, pikepdf.Stream):
            return made.stream_dict.unparse(), True
        if isinstance(made, pikepdf.Object):
            return made.unparse(resolved=True), False
        # pikepdf answers Python's own values for what is none of its objects.
        words = {True: b"true", False: b"false", None: b"null"}
        return (words[made] if made is None or isinstance(made, bool) else str(made).encode("ascii")), False

    def get(self, ref: Ref) -> Any:
        """The object of a reference."""
        if ref not in self._values:
            self._read(ref, *self.text(ref))
        return self._values[ref]

    def _read(self, ref: Ref, text: bytes, is_stream: bool) -> None:
        value = self._values[ref] = parsed(text, ref)
        if isinstance(value, Dictionary):
            value.is_stream = is_stream

    def resolved(self, value: Any) -> Any:
        """What a reference stands for; any other value stands for itself."""
        for _ in range(100):
            if not isinstance(value, Ref):
                return value
            value = self.get(value)
        return None

    def value(self, holder: Dictionary, key: str) -> Any:
        """What stands behind a key; None if there is none."""
        return self.resolved(holder.get(key))

    def dictionary(self, holder: Dictionary, key: str) -> Optional[Dictionary]:
        """The dictionary behind a key, if there is one."""
        value = self.value(holder, key)
        return value if isinstance(value, Dictionary) else None

    def handle(self, at: Place) -> Any:
        """pikepdf's object of a place."""
        made: Any = self.pdf.trailer if at.ref is None else self.pdf.get_object(at.ref)
        for key in at.path:
            made = made[key]
        return made

    def can_be_changed(self, at: Place) -> bool:
        """Whether pikepdf can find a place: it takes no key that isn't UTF-8."""
        try:
            "".join(map(str, at.path)).encode("utf-8")
        except UnicodeEncodeError:
            return False
        return True

    def raw_length(self, stream: Dictionary) -> int:
        return len(self.handle(stream.at).read_raw_bytes())

    def _filters(self, stream: Dictionary) -> List[str]:
        """The filters of a stream, by the names that `decoded` takes; `+` stands behind one with a predictor."""
        told, given = self.value(stream, "Filter"), self.value(stream, "DecodeParms")
        filters = [self.resolved(it) for it in told] if isinstance(told, list) else [told] if told is not None else []
        parms = [self.resolved(it) for it in given] if isinstance(given, list) else [given] * len(filters)
        names = []
        for at, name in enumerate(filters):
            if not isinstance(name, Name):
                raise Undecodable("can't be decoded")
            parm = parms[at] if at < len(parms) else None
            told = parm if isinstance(parm, Dictionary) else Dictionary(stream.at)
            late = "0" if self.value(told, "EarlyChange") == 0 and name.startswith("LZW") else ""
            names.append(name + late + ("" if self.value(told, "Predictor") in (None, 1) else "+"))
        return names

    def content(self, stream: Dictionary, limit: int) -> bytes:
        """The decoded bytes of a stream, or Undecodable, if they are more than so many, too."""
        made = self.handle(stream.at)
        try:
            plain = decoded(made.read_raw_bytes(), self._filters(stream), limit)
            return bytes(made.read_bytes()) if plain is None else plain
        except (pikepdf.PdfError, RuntimeError) as fault:
            raise Undecodable("can't be decoded") from fault
