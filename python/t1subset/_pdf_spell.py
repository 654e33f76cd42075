"""Fonts whose dictionaries name all codes that are shown, so that the Encoding of the program doesn't matter."""

from __future__ import annotations

from typing import Any, List, Mapping, Optional, Sequence, Set, Union

import pikepdf

from . import _calls
from ._pdf_encodings import STANDARD, Names, Unknown, built_in, readings
from ._pdf_fonts import Program, note_lacks, sections
from ._pdf_graph import Dictionary, Graph
from ._pdf_shown import Codes
from ._refusals import Refused


def spelled(family: Sequence[Program], graph: Graph, shown: Codes) -> Optional[List[Program]]:
    """The programs of a family with the word StandardEncoding, and what their fonts have to name instead; None if their own Encodings
    don't conflict, or if it isn't possible for all of them.

    Both hold of what such programs join to exactly if they hold of the programs, so what was spelled isn't spelled otherwise."""
    if not _conflict([it.encoding for it in family]):
        return None
    found = []
    for program in family:
        other = _spelled(program, graph, shown)
        if other is None:
            return None
        found.append(other)
    return sorted(found, key=lambda it: (it.data, it.digest))


def _conflict(encodings: Sequence[Union[str, Mapping[int, str]]]) -> bool:
    """Whether some of these can't be those of one font."""
    words = {it for it in encodings if isinstance(it, str)}
    tables = [it for it in encodings if not isinstance(it, str)]
    names: Names = {}
    return len(words) + bool(tables) > 1 or any(names.setdefault(code, it[code]) != it[code] for it in tables for code in it)


def _spelled(program: Program, graph: Graph, shown: Codes) -> Optional[Program]:
    data = _with_word(program)
    if data is None:
        return None
    made = Program(data, program.digest, program.streams, program.descriptors, program.fonts, program.name)
    made.has_no_tag = program.has_no_tag
    made.glyphs, made.encoding = program.glyphs, "StandardEncoding"
    try:
        for font in program.fonts:
            codes = shown.get(font.at, set())
            names = _names_needed(program, font, codes, graph)
            if names is not None:
                made.spelled[font.at] = names
            note_lacks(made, font, STANDARD, codes, graph)
    except Unknown:
        return None
    return made


def _names_needed(program: Program, font: Dictionary, codes: Set[int], graph: Graph) -> Optional[Names]:
    """The names that a font dictionary has to give; None if each code that is shown keeps its glyph without. It is Unknown if programs
    that draw PDFs don't agree on the names that it has."""
    own, ways = built_in(program.encoding), readings(font, graph)
    if all(code in way.told for way in ways for code in codes):
        return None
    before, after = ([_drawn(way.names(names), codes, program) for way in ways] for names in (own, STANDARD))
    encoding = graph.value(font, "Encoding")
    is_plain = encoding is None or isinstance(encoding, Dictionary) and "BaseEncoding" not in encoding
    if is_plain and all(it == before[0] for it in before):
        return {**dict.fromkeys(codes, ".notdef"), **ways[0].names(own)}
    if before != after:
        raise Unknown("its codes have more than one name")
    return None


def _drawn(names: Mapping[int, str], codes: Set[int], program: Program) -> List[str]:
    found = [names.get(code, ".notdef") for code in sorted(codes)]
    return [name if name in program.glyphs else ".notdef" for name in found]


def _with_word(program: Program) -> Optional[bytes]:
    """The program with the word StandardEncoding in place of the table of its Encoding, in the one spelling of the library; None if that
    isn't what was expected."""
    if isinstance(program.encoding, str):
        return program.data
    try:
        clear, cipher = sections(_calls.mend(program.data, "pfb"))
        lines = [b"dup %d /%s put\n" % (code, _bytes(name)) for code, name in sorted(program.encoding.items())]
        table = b"/Encoding 256 array\n0 1 255 {1 index exch /.notdef put} for\n" + b"".join(lines) + b"readonly def"
        if clear.count(table) != 1:
            return None
        data = clear.replace(table, b"/Encoding StandardEncoding def") + cipher
        listed = _calls.list(data)
    except Refused:
        return None
    is_same = listed.encoding == "StandardEncoding" and frozenset(listed.glyphs) == program.glyphs
    return data if is_same else None


def _bytes(name: str) -> bytes:
    return name.encode("utf-8", "surrogateescape")


def encoding_of(names: Names) -> pikepdf.Dictionary:
    """The Encoding that gives these names."""
    differences: List[Any] = []
    last = None
    for code in sorted(names):
        if last is None or code != last + 1:
            differences.append(code)
        differences.append(pikepdf.Object.parse(b"/" + _name(names[code])))
        last = code
    return pikepdf.Dictionary(Type=pikepdf.Name.Encoding, Differences=pikepdf.Array(differences))


def _name(name: str) -> bytes:
    """A name, as a PDF spells it."""
    odd = b"()<>[]{}/%#"
    return b"".join(b"#%02x" % it if it <= 32 or it > 126 or it in odd else bytes([it]) for it in _bytes(name))
