"""Why a call has no result."""

from __future__ import annotations

import enum
from typing import Optional


class Number(enum.IntEnum):
    """The numbers of t1subset.h, which says for each what it means. `Refused.text` has the words behind a number, and N
    there is `Refused.detail`."""

    OK = 0
    MEMORY = 1
    """Raised as MemoryError."""
    BAD_CALL = 2
    FILE_TOO_LONG = 3
    """file too long"""
    NO_GLYPH = 4
    """no glyph NAME"""
    NO_CODE = 5
    """no code N, the first of the codes that has no name"""
    NO_FONT = 6
    """no font NAME, in documents"""
    TOO_MANY_TOKENS = 7
    """too many tokens: more than a call with `tokens` may execute"""
    NO_DOCUMENT = 8
    """no document: what a file is that carries no PostScript document"""

    BAD_SEGMENT = 10
    """bad segment at N"""
    NO_EEXEC = 11
    """no eexec"""
    SHORT_CIPHER = 12
    """cipher too short"""
    NO_ENCODING = 13
    """no Encoding"""
    BAD_ENCODING = 14
    """bad Encoding at N"""
    NO_CHARSTRINGS = 15
    """no CharStrings"""
    BAD_LENIV = 16
    """bad lenIV"""
    BAD_SUBRS = 17
    """bad Subrs at N"""
    BAD_CHARSTRINGS = 18
    """bad CharStrings at N"""
    HYBRID = 19
    """hybrid font"""
    NO_CLOSEFILE = 20
    """no closefile"""
    NO_NOTDEF = 21
    """no .notdef"""
    FONT_LIMIT = 22
    """over a limit"""

    SHELLS_DIFFER = 30
    """shells differ in PART: `Part(refused.detail)` is the part"""
    CODE_DIFFERS = 31
    """code N differs"""
    GLYPH_DIFFERS = 32
    """glyph NAME differs"""
    GLYPH_LACKS_PART = 33
    """glyph NAME lacks part NAME"""
    SUBR_DIFFERS = 34
    """subr N differs, perhaps with ", used by NAME" """
    MERGE_LIMIT = 35
    """over a limit, as the merged font"""
    NOTHING_TO_MERGE = 36
    """nothing to merge"""
    GLYPH_LACKS_SUBR = 37
    """glyph NAME lacks subr N, of fonts to rejoin"""

    BAD_LINE = 40
    """bad line N"""
    REPEATED_LINE = 41
    """repeated in line N"""
    LISTED_SUBR_DIFFERS = 42
    """subr N differs"""
    LISTED_GLYPH_DIFFERS = 43
    """glyph NAME differs"""


class Part(enum.IntEnum):
    """The part of a font that differs, where shells differ."""

    HEAD = 0
    """The clear text before the Encoding."""
    ENCODING = 1
    """The Encoding: a word and a table, or two words."""
    CLEAR_TAIL = 2
    """The clear text behind the Encoding."""
    PRIVATE = 3
    """The private text before Subrs, and lenIV."""
    SUBRS_TABLE = 4
    """How many Subrs are declared, and which are there."""
    SUBRS_WORDS = 5
    """The words around each Subr."""
    MIDDLE = 6
    """The private text between Subrs and CharStrings."""
    GLYPHS_WORDS = 7
    """The words around each glyph."""
    TAIL = 8
    """The private text behind CharStrings."""


class Refused(ValueError):
    """The library gives no result, and says why. `str` gives the text.

    number: a Number, or a plain int for a number that a later library added.
    text: what the program t1subset prints behind `refused: `, such as "no glyph Q". In a name there, each byte outside
        33 to 126, and the backslash, stands as a backslash, `x` and two digits.
    detail: what the number names: an offset, a code, an index, a line or a Part; else 0.
    input: the place, from 0, of the file that is refused for itself; None if none is, as for a glyph that the font
        lacks, a conflict of two fonts, or documents that are too long all together.
    """

    number: int
    text: str
    detail: int
    input: Optional[int]

    def __init__(self, number: int, text: str, detail: int = 0, input: Optional[int] = None) -> None:
        # All four are the exception's arguments, so that it can be pickled: another process may have made the call.
        super().__init__(number, text, detail, input)
        try:
            self.number = Number(number)
        except ValueError:
            self.number = number
        self.text = text
        self.detail = detail
        self.input = input

    def __str__(self) -> str:
        return self.text or f"refusal {int(self.number)} of libt1subset"
