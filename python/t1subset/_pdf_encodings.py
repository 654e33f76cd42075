"""The Encoding of a simple font of a PDF: which glyph each code has, as programs that draw PDFs read it."""

from __future__ import annotations

from typing import Dict, List, Mapping, Optional, Tuple, Union

from ._pdf_graph import Dictionary, Graph, Name

Names = Dict[int, str]
"""The names of the codes that have one."""

_ASCII = """space exclam quotedbl numbersign dollar percent ampersand quotesingle parenleft parenright asterisk plus comma
hyphen period slash zero one two three four five six seven eight nine colon semicolon less equal greater question at
A B C D E F G H I J K L M N O P Q R S T U V W X Y Z bracketleft backslash bracketright asciicircum underscore grave
a b c d e f g h i j k l m n o p q r s t u v w x y z braceleft bar braceright asciitilde"""

_STANDARD_161 = """exclamdown cent sterling fraction yen florin section currency quotesingle quotedblleft guillemotleft
guilsinglleft guilsinglright fi fl - endash dagger daggerdbl periodcentered - paragraph bullet quotesinglbase quotedblbase
quotedblright guillemotright ellipsis perthousand - questiondown - grave acute circumflex tilde macron breve dotaccent
dieresis - ring cedilla - hungarumlaut ogonek caron emdash - - - - - - - - - - - - - - - - AE - ordfeminine - - - -
Lslash Oslash OE ordmasculine - - - - - ae - - - dotlessi - - lslash oslash oe germandbls"""

_WIN_127 = """bullet Euro bullet quotesinglbase florin quotedblbase ellipsis dagger daggerdbl circumflex perthousand Scaron
guilsinglleft OE bullet Zcaron bullet bullet quoteleft quoteright quotedblleft quotedblright bullet endash emdash tilde
trademark scaron guilsinglright oe bullet zcaron Ydieresis space exclamdown cent sterling currency yen brokenbar section
dieresis copyright ordfeminine guillemotleft logicalnot hyphen registered macron degree plusminus twosuperior
threesuperior acute mu paragraph periodcentered cedilla onesuperior ordmasculine guillemotright onequarter onehalf
threequarters questiondown Agrave Aacute Acircumflex Atilde Adieresis Aring AE Ccedilla Egrave Eacute Ecircumflex
Edieresis Igrave Iacute Icircumflex Idieresis Eth Ntilde Ograve Oacute Ocircumflex Otilde Odieresis multiply Oslash
Ugrave Uacute Ucircumflex Udieresis Yacute Thorn germandbls agrave aacute acircumflex atilde adieresis aring ae ccedilla
egrave eacute ecircumflex edieresis igrave iacute icircumflex idieresis eth ntilde ograve oacute ocircumflex otilde
odieresis divide oslash ugrave uacute ucircumflex udieresis yacute thorn ydieresis"""

_MAC_128 = """Adieresis Aring Ccedilla Eacute Ntilde Odieresis Udieresis aacute agrave acircumflex adieresis atilde aring
ccedilla eacute egrave ecircumflex edieresis iacute igrave icircumflex idieresis ntilde oacute ograve ocircumflex
odieresis otilde uacute ugrave ucircumflex udieresis dagger degree cent sterling section bullet paragraph germandbls
registered copyright trademark acute dieresis notequal AE Oslash infinity plusminus lessequal greaterequal yen mu
partialdiff summation product pi integral ordfeminine ordmasculine Omega ae oslash questiondown exclamdown logicalnot
radical florin approxequal Delta guillemotleft guillemotright ellipsis space Agrave Atilde Otilde OE oe endash emdash
quotedblleft quotedblright quoteleft quoteright divide lozenge ydieresis Ydieresis fraction currency guilsinglleft
guilsinglright fi fl daggerdbl periodcentered quotesinglbase quotedblbase perthousand Acircumflex Ecircumflex Aacute
Edieresis Egrave Iacute Icircumflex Idieresis Igrave Oacute Ocircumflex apple Ograve Uacute Ucircumflex Ugrave dotlessi
circumflex tilde macron breve dotaccent ring cedilla hungarumlaut ogonek caron"""


def _table(*runs: Tuple[int, str]) -> Names:
    return {first + at: name for first, names in runs for at, name in enumerate(names.split()) if name != "-"}


STANDARD = _table((32, _ASCII), (39, "quoteright"), (96, "quoteleft"), (161, _STANDARD_161))
_NAMED = {
    "StandardEncoding": STANDARD,
    "WinAnsiEncoding": _table((32, _ASCII), (127, _WIN_127)),
    "MacRomanEncoding": _table((32, _ASCII), (128, _MAC_128)),
}


class Unknown(ValueError):
    """An Encoding that isn't understood; `str` says why."""


def built_in(encoding: Union[str, Mapping[int, str]]) -> Names:
    """The names of the codes by the Encoding of the program, as `list` answers it."""
    if not isinstance(encoding, str):
        return dict(encoding)
    if encoding != "StandardEncoding":
        raise Unknown(f"its program has the Encoding {encoding}")
    return STANDARD


def _differences(value: object, graph: Graph) -> Names:
    names: Names = {}
    code = 0
    for item in value if isinstance(value, list) else []:
        item = graph.resolved(item)
        if isinstance(item, Name):
            names[code] = str(item)
            code += 1
        elif isinstance(item, int):
            code = item
        else:
            raise Unknown("its Differences can't be read")
    return names


def _told(font: Dictionary, graph: Graph) -> Tuple[Optional[Names], Names]:
    """The table that the Encoding names, if it names one, and the names that it gives by itself."""
    encoding = graph.value(font, "Encoding")
    if isinstance(encoding, Dictionary):
        base, differences = graph.value(encoding, "BaseEncoding"), graph.value(encoding, "Differences")
    else:
        base, differences = encoding, None
    if base is not None and (not isinstance(base, Name) or base not in _NAMED):
        raise Unknown(f"its Encoding is {base}" if isinstance(base, Name) else "its Encoding can't be read")
    return None if base is None else _NAMED[base], _differences(differences, graph)


class Reading:
    """A way to read the names of the codes of a font: those that the dictionary says, and whether the program's own
    Encoding names the others."""

    def __init__(self, told: Names, falls_through: bool) -> None:
        self.told, self.falls_through = told, falls_through

    def names(self, own: Names) -> Names:
        """The names of the codes over a program that has these."""
        return {**own, **self.told} if self.falls_through else self.told


def readings(font: Dictionary, graph: Graph) -> List[Reading]:
    """The ways in which programs read the Encoding of a font dictionary.

    All take Differences first, and the table that is named before the program's own. Ghostscript takes no table for a
    font that is symbolic. Others take StandardEncoding where a font isn't, and names none."""
    named, differences = _told(font, graph)
    found = [Reading({**(named or {}), **differences}, True)]
    descriptor = graph.value(font, "FontDescriptor")
    flags = graph.value(descriptor, "Flags") if isinstance(descriptor, Dictionary) else None
    is_plain = isinstance(flags, int) and flags & 4 == 0
    if named is not None and not is_plain:
        found.append(Reading(differences, True))
    if named is None and is_plain:
        found.append(Reading({**STANDARD, **differences}, False))
    return found
