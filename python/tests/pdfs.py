"""Small PDFs of Tiny, made with pikepdf, and what differs between two PDFs."""

from __future__ import annotations

import io
from typing import Any, Dict, Iterator, List, Optional, Set, Tuple

import pikepdf

import t1subset
from t1subset import pdf as pdfs

from .fonts import PFA

# Why a font that has X alone, and shows code 66, stays where another has Y for that code.
STAYS = "code 66 is shown, and would draw Y"


def name(text: str) -> Any:
    return pikepdf.Name("/" + text)


def cut(*names: str, of: bytes = PFA, tag: str = "") -> bytes:
    """A cut of Tiny as programs put it into a PDF, with a tag before its name."""
    made = t1subset.subset(of, list(names))
    return made.replace(b"/FontName /Tiny", b"/FontName /" + tag.encode() + b"Tiny")


def raw(program: bytes) -> bytes:
    """A program with a binary cipher, without segments and zeros: what pdfTeX writes."""
    file = t1subset.convert(program, "pfb")
    clear = int.from_bytes(file[2:6], "little")
    cipher = int.from_bytes(file[8 + clear:12 + clear], "little")
    return file[6:6 + clear] + file[12 + clear:12 + clear + cipher]


class Volume:
    """A PDF that is made."""

    def __init__(self) -> None:
        self.pdf = pikepdf.new()
        self.tags = iter(f"{chr(65 + at)}AAAAA+" for at in range(26))

    def add(self, value: Any) -> Any:
        return self.pdf.make_indirect(value)

    def stream(self, data: bytes, **keys: Any) -> Any:
        return self.add(pikepdf.Stream(self.pdf, data, **keys))

    def descriptor(self, program: Any, tag: Optional[str] = None, family: str = "Tiny", **keys: Any) -> Any:
        """A descriptor of a program, or of a stream that has one."""
        if isinstance(program, bytes):
            program = self.stream(raw(program), Length1=1, Length2=2, Length3=3)
        full = (next(self.tags) if tag is None else tag) + family
        told = {"Flags": 4, "CharSet": pikepdf.String("/wrong"), **keys}
        return self.add(pikepdf.Dictionary(Type=name("FontDescriptor"), FontName=name(full), FontFile=program, **told))

    def font(self, program: Any, tag: Optional[str] = None, flags: int = 4, **keys: Any) -> Any:
        """A font of a program, a stream, or a descriptor."""
        is_descriptor = not isinstance(program, bytes) and not isinstance(program, pikepdf.Stream)
        descriptor = program if is_descriptor else self.descriptor(program, tag, Flags=flags)
        told = {"Subtype": name("Type1"), **keys}
        return self.add(pikepdf.Dictionary(Type=name("Font"), BaseFont=descriptor.FontName, FontDescriptor=descriptor, **told))

    def page(self, content: Any = None, **keys: Any) -> Any:
        """A page with a content and further keys."""
        root = self.pdf.Root.Pages
        told = {"Type": name("Page"), "MediaBox": pikepdf.Array([0, 0, 99, 99]), "Parent": root, **keys}
        if content is not None:
            told["Contents"] = self.stream(content) if isinstance(content, bytes) else content
        page = self.add(pikepdf.Dictionary({f"/{key}": value for key, value in told.items() if value is not None}))
        root.Kids.append(page)
        root.Count = len(root.Kids)
        return page

    def showing(self, font: Any, text: bytes = b"", key: str = "F") -> Any:
        """A page that shows a text in a font."""
        return self.page(b"BT /%s 9 Tf (%s) Tj ET" % (key.encode(), text), Resources=resources(Font={key: font}))

    def bytes(self, **how: Any) -> bytes:
        out = io.BytesIO()
        self.pdf.save(out, **{"compress_streams": False, "fix_metadata_version": False, **how})
        return out.getvalue()

    def opened(self) -> Any:
        return opened(self.bytes())


def opened(data: bytes, password: str = "") -> Any:
    """A PDF as it stands in its file."""
    return pikepdf.open(io.BytesIO(data), password=password, inherit_page_attributes=False)


def resources(**kinds: Dict[str, Any]) -> Any:
    """Resources, by their kinds and names."""
    return dictionary({kind: dictionary(them) for kind, them in kinds.items()})


def dictionary(values: Dict[str, Any]) -> Any:
    return pikepdf.Dictionary({f"/{key}": value for key, value in values.items()})


def descriptors(pdf: Any) -> List[Any]:
    """The descriptors of Type 1 programs."""
    return [it for it in pdf.objects if isinstance(it, pikepdf.Dictionary) and "/FontFile" in it]


def files(pdf: Any) -> Set[Tuple[str, bytes]]:
    """The names of fonts, and their programs."""
    return {(str(it.FontName), it.FontFile.read_bytes()) for it in descriptors(pdf)}


def _members(value: Any) -> Dict[str, Any]:
    if isinstance(value, pikepdf.Stream):
        return {key: it for key, it in value.stream_dict.items() if key != "/Length"}
    if isinstance(value, pikepdf.Dictionary):
        return dict(value.items())
    return {f"/{at}": it for at, it in enumerate(value)} if isinstance(value, pikepdf.Array) else {}


def _is_same_stream(one: Any, other: Any) -> bool:
    return not isinstance(one, pikepdf.Stream) or bool(one.read_raw_bytes() == other.read_raw_bytes())


def differences(one: Any, other: Any) -> Set[str]:
    """The paths of the first places where two PDFs differ, each but ID and what a writer renews. A shared object has to stay
    shared, and one that isn't may not become so."""
    renewed = {"/ID", "/Size", "/Prev", "/XRefStm", "/W", "/Index", "/Type", "/Filter", "/DecodeParms", "/Length"}
    pairs: Dict[Tuple[int, int], Tuple[int, int]] = {}
    return set(_differ(one.trailer, other.trailer, "", renewed, pairs)) | (
        {"two objects are one"} if len(set(pairs.values())) < len(pairs) else set()
    )


def _differ(one: Any, other: Any, path: str, free: Set[str], pairs: Dict[Tuple[int, int], Tuple[int, int]]) -> Iterator[str]:
    todo = [(one, other, path, free)]
    while todo:
        one, other, path, free = todo.pop()
        if not isinstance(one, pikepdf.Object) or not isinstance(other, pikepdf.Object):
            if type(one) is not type(other) or one != other:
                yield path
            continue
        if path.endswith(("/FontFile", "/FontFile/")):
            if one.read_bytes() != other.read_bytes():
                yield path
            continue
        if one.is_indirect != other.is_indirect or type(one) is not type(other) or one._type_code != other._type_code:
            yield path
            continue
        if one.is_indirect:
            if one.objgen in pairs:
                if pairs[one.objgen] != other.objgen:
                    yield path + " is shared otherwise"
                continue
            pairs[one.objgen] = other.objgen
        old, new = _members(one), _members(other)
        if not old and not new and not isinstance(one, pikepdf.Stream) and one != other or not _is_same_stream(one, other):
            yield path
        yield from (path + key for key in sorted((set(old) ^ set(new)) - free))
        todo += [(old[key], new[key], path + key, set()) for key in sorted((set(old) & set(new)) - free)]


def form(made: Volume, content: bytes, **keys: Any) -> Any:
    told = {"Type": name("XObject"), "Subtype": name("Form"), "BBox": pikepdf.Array([0, 0, 9, 9]), **keys}
    return made.stream(content, **told)


def lines(made: Volume, **how: Any) -> List[str]:
    """What is told of a volume."""
    return str(pdfs.pool(made.opened(), **how)).splitlines()


def pooled(made: Volume, **how: Any) -> Any:
    """A volume, pooled, written and read again."""
    given = made.opened()
    pdfs.pool(given, **how)
    return again(given)


def again(given: Any) -> Any:
    out = io.BytesIO()
    given.save(out, compress_streams=False, stream_decode_level=pikepdf.StreamDecodeLevel.none)
    return opened(out.getvalue())


def two(text: bytes = b"A", **keys: Any) -> Volume:
    """Two papers; the first shows a text in a font that has X alone, for code 65."""
    made = Volume()
    made.showing(made.font(cut("X"), **keys), text)
    made.showing(made.font(cut("Y")), b"B")
    return made
