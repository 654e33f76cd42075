"""Adobe Type 1 fonts (PFA, PFB or with a raw binary cipher), cut, merged, checked, listed and drawn by libt1subset,
also those that stand in PostScript documents.

>>> from pathlib import Path
>>> font = Path("font.pfb").read_bytes()
>>> some, other = subset(font, ["A", "Aacute"]), subset(font, ["B"])
>>> merge([other, some]) == subset(font, ["A", "Aacute", "B"])
True

A file is any bytes-like object. Bytes are lent to the library; anything that could be changed during the call, such
as a bytearray or a mmap, is copied first. The name of a glyph is a str or bytes, without its slash; a str is encoded
in UTF-8, with surrogateescape for what `list` found to be no UTF-8.

A call raises Refused, which is a ValueError, where the library gives no result; MemoryError where it was refused
memory; ValueError for a form that is none, and for tokens below 0 or over 2**64 - 1; TypeError for arguments of another
type. Any number of threads may call at once, and the interpreter's lock is released during a call.

A font of 1 MB can be made so that a call that runs its glyphs takes minutes. subset, merge, rejoin and diff take tokens,
which bound what is run without a clock; list_full, pool, level and fonts have no such limit: a service that opens files
of strangers should limit the time of these from outside, for instance in a process of its own.

t1subset.pdf makes each Type 1 font of a PDF stand there once; it is not imported here, since it needs pikepdf.

The library is that of the environment variable LIBT1SUBSET, a path; else the loader's libt1subset.so.0; else the one
that the repository built, if this package stands in it.
"""

from ._calls import (
    AnyForm,
    BytesLike,
    Form,
    Name,
    check,
    convert,
    diff,
    extract,
    fonts,
    join,
    level,
    list,
    list_full,
    mend,
    mends,
    merge,
    pool,
    rejoin,
    show,
    subset,
    version,
)
from ._refusals import Number, Part, Refused
from ._texts import Checked, Drawn, DrawnPart, Listed, ListedInFull, Mark, Mend, Placed, Point, Undrawn

__version__ = "0.1.0"

__all__ = [
    "AnyForm",
    "BytesLike",
    "Checked",
    "Drawn",
    "DrawnPart",
    "Form",
    "Listed",
    "ListedInFull",
    "Mark",
    "Mend",
    "Name",
    "Number",
    "Part",
    "Placed",
    "Point",
    "Refused",
    "Undrawn",
    "check",
    "convert",
    "diff",
    "extract",
    "fonts",
    "join",
    "level",
    "list",
    "list_full",
    "mend",
    "mends",
    "merge",
    "pool",
    "rejoin",
    "show",
    "subset",
    "version",
]
