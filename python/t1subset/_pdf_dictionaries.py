"""Equal dictionaries of fonts made one."""

from __future__ import annotations

from typing import Any, Dict, Iterable, Iterator, List, Tuple

import pikepdf

from ._pdf_graph import Dictionary, Graph, Place, Ref, parsed

_PARTS = ("FontDescriptor", "Encoding", "ToUnicode", "Widths")


class _First:
    """The first object of each content that was asked for."""

    def __init__(self, graph: Graph) -> None:
        self.graph = graph
        self._found: Dict[Tuple[bytes, bytes], Ref] = {}

    def __call__(self, ref: Ref) -> Ref:
        text, is_stream = self.graph.text(ref)
        data = self.graph.pdf.get_object(ref).read_raw_bytes() if is_stream else b""
        return self._found.setdefault((text, bytes(data)), ref)


def make_one(pdf: pikepdf.Pdf, graph: Graph, fonts: Iterable[Dictionary]) -> None:
    """Makes one of the descriptors, encodings, tables of widths and of Unicode of these fonts that are equal, and then of the
    fonts; `graph` is as it was when the PDF was read."""
    first = _First(graph)
    refs = sorted({font.at.ref for font in fonts if font.at.ref is not None and not font.at.path})
    for ref in refs:
        font = parsed(graph.text(ref)[0], ref)
        for key in _PARTS:
            part = font.get(key)
            if isinstance(part, Ref) and first(part) != part:
                pdf.get_object(ref)["/" + key] = pdf.get_object(first(part))
    instead = {ref: first(ref) for ref in refs}
    instead = {ref: other for ref, other in instead.items() if other != ref}
    for holder in graph.holders(instead):
        for place, key, ref in list(_references(parsed(graph.text(holder)[0], holder), Place(holder, ()))):
            if ref in instead and graph.can_be_changed(Place(holder, place.path + (key,))):
                graph.handle(place)[key] = pdf.get_object(instead[ref])


def _references(value: Any, at: Place) -> Iterator[Tuple[Place, Any, Ref]]:
    """The references within a value: the place of the dictionary or array, the key or index, and the reference."""
    todo: List[Tuple[Any, Place]] = [(value, at)]
    while todo:
        value, at = todo.pop()
        items: List[Tuple[Any, Any]] = []
        if isinstance(value, dict):
            items = [("/" + key, it) for key, it in value.items()]
        elif isinstance(value, list):
            items = list(enumerate(value))
        for key, it in items:
            if isinstance(it, Ref):
                yield at, key, it
            else:
                todo.append((it, Place(at.ref, at.path + (key,))))
