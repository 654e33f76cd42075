"""Which codes the content of a PDF shows through each font."""

from __future__ import annotations

from typing import Any, Callable, Dict, FrozenSet, Iterator, List, Optional, Set, Tuple

from . import _pdf_content as content
from ._pdf_content import Event, Unreadable
from ._pdf_filters import LONGEST, Undecodable
from ._pdf_graph import Dictionary, Graph, Place

Fonts = FrozenSet[Place]
"""The fonts that may be the current one: mostly one, or none."""

DEPTH = 50
"""How deep forms may stand within one another."""
STEPS = 2_000_000
"""How many events and runs of forms a page may have."""
KEPT = 200_000
"""How many events of streams are kept for another time, in all."""
Codes = Dict[Place, Set[int]]
"""The codes that are shown through each font."""
NONE: Fonts = frozenset()
ALL = bytes(range(256))


class _Run:
    """A run of a content stream: its resources, those around it, the fonts that it begins with, and whether it would do the same
    anywhere."""

    def __init__(self, own: Tuple[Dictionary, ...], outer: Tuple[Dictionary, ...], entry: Fonts) -> None:
        self.own, self.outer, self.entry = own, outer, entry
        self.same_anywhere = True
        self.fonts: Optional[Fonts] = None

    @property
    def chain(self) -> Tuple[Dictionary, ...]:
        return self.own + self.outer

    @property
    def current(self) -> Fonts:
        """The fonts that may be current."""
        return self.entry if self.fonts is None else self.fonts


class Shown:
    """The codes that are shown through each font, and how many content streams can't be read."""

    def __init__(self, graph: Graph, told: Callable[[int, int], None] = lambda done, of: None) -> None:
        self.graph = graph
        self.codes: Codes = {}
        self.unread: Set[Place] = set()
        self._steps = 0
        self._kept: Dict[Tuple[Place, ...], List[Event]] = {}
        self._count = 0
        # Runs that are done: those that do the same anywhere by stream and own resources, the others by all that they depend on.
        self._anywhere: Set[Any] = set()
        self._done: Set[Any] = set()
        # A form that is drawn within itself isn't drawn there.
        self._active: Set[Place] = set()
        pages = [it for it in graph.telling if _is_page(it, graph)]
        for number, page in enumerate(pages):
            told(number, len(pages))
            self._page(page)
        for holder in graph.telling:
            self._elsewhere(holder)

    def _page(self, page: Dictionary) -> None:
        resources = self._inherited(page)
        own = (resources,) if resources is not None else ()
        self._steps = 0
        streams = self._streams(self.graph.value(page, "Contents"))
        if streams:
            self._run(streams, own, (), NONE, 0)
        annotations = self.graph.value(page, "Annots")
        for annotation in map(self.graph.resolved, annotations if isinstance(annotations, list) else []):
            if isinstance(annotation, Dictionary):
                for stream in self._appearances(annotation):
                    self._form(stream, own, NONE, 0)

    def _inherited(self, page: Dictionary) -> Optional[Dictionary]:
        """The resources of a page, or those of the node above it that has some."""
        node: Optional[Dictionary] = page
        for _ in range(100):
            if node is None or "Resources" in node:
                break
            node = self.graph.dictionary(node, "Parent")
        return self.graph.dictionary(node, "Resources") if node is not None else None

    def _streams(self, value: Any) -> List[Dictionary]:
        """The streams of the content of a page."""
        items = value if isinstance(value, list) else [value]
        return [it for it in map(self.graph.resolved, items) if isinstance(it, Dictionary) and it.is_stream]

    def _appearances(self, annotation: Dictionary) -> Iterator[Dictionary]:
        """The streams by which an annotation may be drawn, in each of its states."""
        for value in self._values(self.graph.dictionary(annotation, "AP")):
            if value.is_stream:
                yield value
            else:
                yield from (it for it in self._values(value) if it.is_stream)

    def _values(self, holder: Optional[Dictionary]) -> Iterator[Dictionary]:
        """The dictionaries and streams that stand behind the keys of a dictionary."""
        for value in map(self.graph.resolved, holder.values() if holder is not None else ()):
            if isinstance(value, Dictionary):
                yield value

    def _elsewhere(self, holder: Dictionary) -> None:
        """What is drawn from other places than a page, or from a page by a way that isn't known here."""
        self._steps = 0
        for stream in self._appearances(holder):
            self._form(stream, (), NONE, 0)
        if holder.is_stream and (self.graph.value(holder, "Subtype") == "Form" or "PatternType" in holder):
            self._form(holder, (), NONE, 0)
        self._type_3(holder, (), NONE, 0)
        self._mask(holder, (), NONE, 0)
        # A form's fields may be filled in with any text.
        resources = self.graph.dictionary(holder, "DR")
        for font in self._values(self.graph.dictionary(resources, "Font") if resources is not None else None):
            self.codes.setdefault(font.at, set()).update(ALL)

    def _mask(self, state: Dictionary, outer: Tuple[Dictionary, ...], entry: Fonts, depth: int) -> bool:
        """The form that makes a soft mask."""
        mask = self.graph.dictionary(state, "SMask")
        form = self.graph.dictionary(mask, "G") if mask is not None and not mask.is_stream else None
        return self._form(form, outer, entry, depth) if form is not None and form.is_stream else True

    def _type_3(self, font: Dictionary, outer: Tuple[Dictionary, ...], entry: Fonts, depth: int) -> bool:
        """The glyphs of a Type 3 font, which are content streams."""
        glyphs, resources = self.graph.dictionary(font, "CharProcs"), self.graph.dictionary(font, "Resources")
        own = (resources,) if resources is not None else ()
        return all([self._form(it, outer, entry, depth, own) for it in self._values(glyphs) if it.is_stream])

    def _form(
        self, stream: Dictionary, outer: Tuple[Dictionary, ...], entry: Fonts, depth: int, own: Tuple[Dictionary, ...] = ()
    ) -> bool:
        """A form; whether it would do the same anywhere."""
        if stream.at in self._active:
            return False
        self._active.add(stream.at)
        resources = self.graph.dictionary(stream, "Resources")
        same = self._run([stream], own if resources is None else (resources, *own), outer, entry, depth)
        self._active.discard(stream.at)
        return same

    def _run(
        self, streams: List[Dictionary], own: Tuple[Dictionary, ...], outer: Tuple[Dictionary, ...], entry: Fonts, depth: int
    ) -> bool:
        """Streams, one behind the other; whether they would do the same anywhere."""
        key = tuple(it.at for it in streams), tuple(it.at for it in own)
        whole = *key, tuple(it.at for it in outer), entry
        if key in self._anywhere:
            return True
        if whole in self._done:
            return False
        self._done.add(whole)
        run = _Run(own, outer, entry)
        try:
            self._count_steps(1)
            if depth > DEPTH:
                raise Unreadable("forms stand too deep within one another")
            run.same_anywhere &= self._patterns(run, depth)
            self._steps_of(run, self._events(streams), depth)
        except (Unreadable, Undecodable):
            self.unread.add(streams[0].at)
        if run.same_anywhere:
            self._anywhere.add(key)
        return run.same_anywhere

    def _events(self, streams: List[Dictionary]) -> List[Event]:
        """What streams do; each is read once, unless they are many."""
        key = tuple(it.at for it in streams)
        found = self._kept.get(key)
        if found is None:
            found = content.events(self._data(streams))
            self._count += len(found)
            if self._count > KEPT:
                self._kept.clear()
                self._count = len(found)
            self._kept[key] = found
        return found

    def _data(self, streams: List[Dictionary]) -> bytes:
        """The bytes of streams that follow one another, which may be one stream many times."""
        parts: List[bytes] = []
        left = LONGEST
        for stream in streams:
            parts.append(self.graph.content(stream, left))
            left -= len(parts[-1])
        return b"\n".join(parts)

    def _patterns(self, run: _Run, depth: int) -> bool:
        """The patterns and Type 3 fonts of a run's own resources, which begin with the fonts that it begins with."""
        same = True
        for resources in run.own:
            for pattern in self._values(self.graph.dictionary(resources, "Pattern")):
                if pattern.is_stream:
                    same &= self._form(pattern, run.chain, run.entry, depth + 1)
            for font in self._values(self.graph.dictionary(resources, "Font")):
                if "CharProcs" in font:
                    same &= self._type_3(font, run.chain, run.entry, depth + 1)
        return same

    def _count_steps(self, count: int) -> None:
        self._steps += count
        if self._steps > STEPS:
            raise Unreadable("more than a page may have")

    def _steps_of(self, run: _Run, events: List[Event], depth: int) -> None:
        saved: List[Optional[Fonts]] = []
        self._count_steps(len(events))
        for what, given in events:
            if what == content.SHOW:
                self._show(run, given)
            elif what == content.FONT:
                self._select(run, given)
            elif what == content.SAVE:
                saved.append(run.fonts)
            elif what == content.RESTORE:
                run.fonts = saved.pop() if saved else run.fonts
            elif what == content.STATE:
                self._set_state(run, given, depth)
            else:
                form = self._found(run, "XObject", given)
                if form is not None and form.is_stream and self.graph.value(form, "Subtype") == "Form":
                    run.same_anywhere &= self._form(form, run.chain, run.current, depth + 1)

    def _show(self, run: _Run, codes: bytes) -> None:
        # Where no font was selected, what is shown depends on where the run began.
        run.same_anywhere &= run.fonts is not None
        for font in run.current:
            self.codes.setdefault(font, set()).update(codes)

    def _found(self, run: _Run, kind: str, name: str) -> Optional[Dictionary]:
        """A resource by its name. What the run's own resources lack, some programs look for in those around it."""
        for at, resources in enumerate(run.chain):
            them = self.graph.dictionary(resources, kind)
            value = self.graph.dictionary(them, name) if them is not None else None
            if value is not None:
                run.same_anywhere &= at < len(run.own)
                return value
        run.same_anywhere = False
        return None

    def _select(self, run: _Run, name: str) -> None:
        """A font that isn't found leaves the one before current, and so may one that isn't found in the run's own resources."""
        same, run.same_anywhere = run.same_anywhere, True
        font = self._found(run, "Font", name)
        is_own, run.same_anywhere = run.same_anywhere, same and run.same_anywhere
        if font is not None:
            found = frozenset([font.at])
            run.fonts = found if is_own else found | run.current

    def _set_state(self, run: _Run, name: str, depth: int) -> None:
        state = self._found(run, "ExtGState", name)
        if state is None:
            return
        told = self.graph.value(state, "Font")
        font = self.graph.resolved(told[0]) if isinstance(told, list) and told else None
        if isinstance(font, Dictionary):
            run.fonts = frozenset([font.at])
        run.same_anywhere &= self._mask(state, run.chain, run.current, depth + 1)


def _is_page(holder: Dictionary, graph: Graph) -> bool:
    """Whether a dictionary is that of a page, which may lack its Type: annotations have Contents, too, but as a string."""
    if holder.is_stream:
        return False
    contents = graph.value(holder, "Contents")
    return isinstance(contents, (Dictionary, list)) or isinstance(graph.value(holder, "Annots"), list)
