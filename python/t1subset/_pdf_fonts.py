"""The Type 1 fonts of a PDF: their programs, and what they become."""

from __future__ import annotations

import hashlib
import re
import zlib
from dataclasses import dataclass, field
from typing import Any, Dict, FrozenSet, Iterable, List, Mapping, Optional, Sequence, Set, Tuple, Union

from . import _calls
from ._pdf_encodings import Names, Reading, Unknown, built_in, readings
from ._pdf_filters import Undecodable
from ._pdf_graph import Dictionary, Graph, Name, Place
from ._pdf_shown import Codes
from ._refusals import Refused

_TAG = re.compile(r"(?:[A-Z]{6}\+)+(?=.)")
# Names that are spelled in a PDF as they are.
_PLAIN = re.compile(r"[!-~]+")
_ODD = re.compile(r"[()<>\[\]{}/%#]")
# The name that cairo gives to a font that it cuts, whatever the font's own is.
_OF_CAIRO = re.compile(rb"(/FontName\s*/)CairoFont-[0-9]+-[0-9]+(?=[\s/])")
LONGEST, IN_ALL = 1 << 24, 1 << 30
"""The most bytes that a program may have, and all that are kept."""
_OF_STREAMS = {"Length", "Length1", "Length2", "Length3", "Filter", "DecodeParms", "DL"}


def untagged(name: str) -> str:
    """A name without the tags of six capitals and `+` that programs put before it where they cut a font."""
    return _TAG.sub("", name, count=1)


@dataclass(eq=False)
class Program:
    """A font program, which several streams may hold, and what uses it."""

    data: bytes
    digest: bytes
    streams: List[Dictionary] = field(default_factory=list)
    descriptors: List[Dictionary] = field(default_factory=list)
    fonts: List[Dictionary] = field(default_factory=list)
    name: str = ""
    has_no_tag: bool = False
    reason: Optional[str] = None
    """Why it stays as it is, if that is known without a look at others."""
    glyphs: FrozenSet[str] = frozenset()
    encoding: Union[str, Mapping[int, str]] = ""
    lacks: Dict[str, int] = field(default_factory=dict)
    """Glyphs that it may not get, with a code that would show each: a page shows the code, and draws nothing so far."""
    unnamed: Set[int] = field(default_factory=set)
    """Codes that are shown, and that the program's own Encoding may name for no glyph, since a page draws nothing so far."""
    spelled: Dict[Place, Names] = field(default_factory=dict)
    """The names that the codes of fonts get in their dictionaries."""

    @property
    def parts(self) -> Tuple["Program", ...]:
        return (self,)


@dataclass(eq=False)
class Joined:
    """Programs that are one."""

    parts: Tuple[Program, ...]
    data: bytes
    glyphs: FrozenSet[str]
    encoding: Union[str, Mapping[int, str]]

    @property
    def is_whole(self) -> bool:
        """Whether one of them has all glyphs and no tag, so that it is no cut."""
        return any(it.glyphs == self.glyphs and it.has_no_tag for it in self.parts)


class Apart(ValueError):
    """Programs that can't be one; `str` says why."""


def programs(graph: Graph) -> Tuple[List[Program], List[Tuple[str, str]]]:
    """The programs of the descriptors that can be reached, in the order of their bytes; and the families of fonts that
    have no program of Type 1, with the reason."""
    users: Dict[Place, List[Dictionary]] = {}
    for font in graph.telling:
        descriptor = graph.dictionary(font, "FontDescriptor")
        if descriptor is not None:
            users.setdefault(descriptor.at, []).append(font)
    found: Dict[bytes, Program] = {}
    others, left = [], IN_ALL
    for descriptor in graph.telling:
        if "FontFile3" in descriptor and "FontFile" not in descriptor:
            program_3 = graph.dictionary(descriptor, "FontFile3")
            kind = graph.value(program_3, "Subtype") if program_3 is not None else None
            others.append((untagged(font_name(descriptor, graph)), f"its program is {kind}"))
        if "FontFile" not in descriptor:
            continue
        stream = graph.dictionary(descriptor, "FontFile")
        if stream is None or not stream.is_stream:
            others.append((untagged(font_name(descriptor, graph)), "its FontFile is no stream"))
            continue
        left -= _add(found, graph, descriptor, stream, users.get(descriptor.at, []), left)
    for program in found.values():
        names = {font_name(it, graph) for it in program.descriptors}
        program.name = min(map(untagged, names))
        program.has_no_tag = names == {program.name}
        program.reason = program.reason or _unfit(program, graph)
    return sorted(found.values(), key=lambda it: (it.data, it.digest)), others


def font_name(descriptor: Dictionary, graph: Graph) -> str:
    """The name of a descriptor's font."""
    name = graph.value(descriptor, "FontName")
    return str(name) if isinstance(name, Name) else ""


def _add(
    found: Dict[bytes, Program], graph: Graph, descriptor: Dictionary, stream: Dictionary, fonts: List[Dictionary], limit: int
) -> int:
    """Notes a descriptor and its stream, which may have so many bytes; how many are kept of it that weren't before."""
    data, reason = b"", None
    further = sorted(set(stream) - _OF_STREAMS)
    try:
        data = graph.content(stream, min(LONGEST, limit))
        if further:
            reason = f"its stream has {', '.join(further)}"
    except Undecodable as fault:
        reason = f"its stream {fault}"
    # A program with a reason of its own is not that of another stream.
    digest = hashlib.sha256(data).digest() if reason is None else repr(stream.at).encode()
    is_new = digest not in found
    program = found.setdefault(digest, Program(data, digest, reason=reason))
    if all(stream.at != it.at for it in program.streams):
        program.streams.append(stream)
    program.descriptors.append(descriptor)
    program.fonts += fonts
    return len(data) if is_new else 0


def _unfit(program: Program, graph: Graph) -> Optional[str]:
    """Why a program stays as it is, for what uses it."""
    names = {untagged(font_name(it, graph)) for it in program.descriptors}
    if len(names) > 1:
        return f"it has the names {' and '.join(sorted(names))}"
    if not _PLAIN.fullmatch(program.name) or _ODD.search(program.name):
        return "its name isn't plain"
    if not program.fonts:
        return "no font uses it"
    for descriptor in program.descriptors:
        if graph.value(descriptor, "Type") not in ("FontDescriptor", None):
            return "what has it is no FontDescriptor"
        if "FontFile2" in descriptor or "FontFile3" in descriptor:
            return "its descriptor has another program, too"
        if not any(graph.dictionary(font, "FontDescriptor") is descriptor for font in program.fonts):
            return "no font uses one of its descriptors"
    if not all(graph.can_be_changed(it.at) for it in program.descriptors + program.fonts):
        return "it stands behind a name that is no UTF-8"
    for font in program.fonts:
        subtype = graph.value(font, "Subtype")
        if subtype != "Type1" or font.is_stream:
            return f"it is a font of Subtype {subtype}"
    return None


Listed = Tuple[FrozenSet[str], Union[str, Mapping[int, str]]]
"""The glyphs and the Encoding of a program."""


def listed(program: Program) -> Union[Listed, Refused]:
    """What a program has, or why it isn't read. It asks the library alone, so that threads may call it."""
    try:
        return _listed(program.data)
    except Refused as why:
        return why


def look_into(program: Program, found: Union[Listed, Refused], graph: Graph, shown: Codes) -> None:
    """Notes what a program has, and what it may not get."""
    if isinstance(found, Refused):
        program.reason = str(found)
        return
    program.glyphs, program.encoding = found
    try:
        own = built_in(program.encoding)
        for font in program.fonts:
            note_lacks(program, font, own, shown.get(font.at, set()), graph)
    except Unknown as why:
        program.reason = str(why)


def _listed(data: bytes) -> Listed:
    try:
        found = _calls.list(data)
    except Refused:
        # What other programs spell is read by `mend` alone.
        found = _calls.list(_calls.mend(data))
    return frozenset(found.glyphs), found.encoding


def note_lacks(program: Program, font: Dictionary, own: Names, codes: Set[int], graph: Graph) -> None:
    """Notes which glyphs a program with this Encoding of its own may not get, for a font that shows these codes."""
    told = program.spelled.get(font.at)
    for reading in readings(font, graph) if told is None else [Reading(told, True)]:
        names = reading.names(own)
        for code in sorted(codes):
            name = names.get(code)
            if name is None:
                if reading.falls_through:
                    program.unnamed.add(code)
            elif name not in program.glyphs:
                program.lacks[name] = min(code, program.lacks.get(name, code))


def _check_shown(joined: Joined) -> None:
    """Refuses a join in which a code that is shown would draw what it didn't draw."""
    names = built_in(joined.encoding)
    for program in joined.parts:
        for name in sorted(joined.glyphs.intersection(program.lacks)):
            raise Apart(f"code {program.lacks[name]} is shown, and would draw {name}")
        for code in sorted(program.unnamed):
            if names.get(code) in joined.glyphs:
                raise Apart(f"code {code} is shown, and would draw {names[code]}")


def named(item: Union[Program, Joined]) -> bytes:
    """The bytes of a program, with the name of its family where cairo gave it another, of its own making."""
    if isinstance(item, Joined) or not _PLAIN.fullmatch(item.name) or _ODD.search(item.name):
        return item.data
    clear, marker, rest = item.data.partition(b"eexec")
    return _OF_CAIRO.sub(lambda it: it[1] + item.name.encode(), clear, count=1) + marker + rest


def joined(items: Sequence[Union[Program, Joined]], tokens: Optional[int]) -> Joined:
    """Programs as one, or Apart."""
    try:
        data = _calls.rejoin([named(it) for it in items], "pfb", tokens=tokens)
        glyphs, encoding = _listed(data)
    except Refused as why:
        raise Apart(str(why)) from why
    made = Joined(tuple(part for it in items for part in it.parts), data, glyphs, encoding)
    _check_shown(made)
    return made


def classes(family: Sequence[Program], tokens: Optional[int]) -> Tuple[List[List[Program]], Dict[int, str]]:
    """The programs of a family in classes that can be one, no two of which can; and for programs that are alone why, by their `id`.

    Each goes into the first class that it joins, in the order of their bytes: so it doesn't matter in which order a volume has
    them. What can't be one can't be one with more, so a class that a program didn't join when it was smaller doesn't take it
    later."""
    found: List[Union[Program, Joined]] = []
    reasons: Dict[int, str] = {}
    for program in family:
        for at, other in enumerate(found):
            try:
                found[at] = joined([other, program], tokens)
                break
            except Apart as why:
                reasons.setdefault(id(program), str(why))
                reasons.setdefault(id(other), str(why))
        else:
            found.append(program)
    return [list(it.parts) for it in found], reasons


@dataclass
class Outcome:
    """What the programs of a family become, and those that stay, with the reason."""

    made: List[Joined] = field(default_factory=list)
    kept: List[Tuple[Program, str]] = field(default_factory=list)


def joins(family: Sequence[Program], tokens: Optional[int]) -> Outcome:
    """What becomes of the programs of a family, which stand in the order of their bytes."""
    if sum(len(it.streams) for it in family) < 2:
        return Outcome()
    try:
        return Outcome([joined(family, tokens)])
    except Apart as why:
        if len(family) == 1:
            return Outcome([], [(family[0], str(why))])
    groups, reasons = classes(family, tokens)
    outcome = Outcome()
    for group in groups:
        if sum(len(it.streams) for it in group) < 2:
            outcome.kept.append((group[0], reasons[id(group[0])]))
            continue
        try:
            outcome.made.append(joined(group, tokens))
        except Apart as why:
            outcome.kept += [(it, str(why)) for it in group]
    return outcome


def tagged(name: str, glyphs: Iterable[str], taken: Set[str]) -> str:
    """The name of a cut font: its tag depends on the name and the glyphs alone, but where that is taken."""
    spelled = b"\0".join(it.encode("utf-8", "surrogateescape") for it in [name, *sorted(glyphs)])
    for number in range(len(taken) + 1):
        digest = int.from_bytes(hashlib.sha256(b"%d\0%s" % (number, spelled)).digest()[:8], "big")
        made = "".join(chr(65 + digest // 26 ** at % 26) for at in range(6)) + "+" + name
        if made not in taken:
            return made
    raise AssertionError("one of so many names is free")


def char_set(glyphs: Iterable[str]) -> str:
    """The value of CharSet: the names of glyphs, as a PDF spells names."""
    def spelled(name: str) -> str:
        them = name.encode("utf-8", "surrogateescape")
        return "".join(chr(it) if 33 <= it <= 126 and chr(it) not in "()<>[]{}/%#" else f"#{it:02x}" for it in them)

    return "".join("/" + spelled(it) for it in sorted(glyphs) if it != ".notdef")


def sections(pfb: bytes) -> Tuple[bytes, bytes]:
    """The clear text and the cipher of a PFB of the library's."""
    parts: Dict[int, bytes] = {1: b"", 2: b""}
    at = 0
    while pfb[at + 1] != 3:
        size = int.from_bytes(pfb[at + 2:at + 6], "little")
        # The zeros behind the cipher may be left out, where Length3 is 0.
        if pfb[at + 1] == 2 or not parts[2]:
            parts[pfb[at + 1]] += pfb[at + 6:at + 6 + size]
        at += 6 + size
    return parts[1], parts[2]


def packed(pfb: bytes) -> Tuple[bytes, Dict[str, Any]]:
    """The bytes of a FontFile, and its keys."""
    clear, cipher = sections(pfb)
    return zlib.compress(clear + cipher, 9), {"Length1": len(clear), "Length2": len(cipher), "Length3": 0}
