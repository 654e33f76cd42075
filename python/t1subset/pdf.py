"""Each Type 1 font of a PDF once: `pool`, and the command `t1subset-pdf`.

A volume that joins papers carries each font once a paper, cut to the glyphs of that paper. `pool` makes one program of the
cuts of a font by `rejoin`, and gives it to all descriptors that had one of them. It reads all content, so that no page shows
a glyph that it didn't show, and keeps a font as it is where one would.

It needs pikepdf; the rest of the package doesn't.
"""

from __future__ import annotations

import argparse
import json
import os
import shutil
import stat
import sys
import tempfile
from collections import Counter
from concurrent.futures import ThreadPoolExecutor
from dataclasses import asdict, dataclass
from typing import Any, Callable, Dict, List, Optional, Sequence, Set, Tuple, Union

try:
    import pikepdf
except ImportError as fault:
    raise ImportError("t1subset.pdf needs pikepdf: install t1subset[pdf], or Debian's python3-pikepdf") from fault

from . import _pdf_fonts as fonts
from ._pdf_dictionaries import make_one
from ._pdf_fonts import Joined, Outcome, Program
from ._pdf_graph import Dictionary, Graph, Text
from ._pdf_shown import Codes, Shown
from ._pdf_spell import encoding_of, spelled

Told = Callable[[str, int, int], None]
"""Is told what is done, how far, and of how many."""


class PdfRefused(ValueError):
    """A PDF that stays as it is, and why."""


@dataclass(frozen=True)
class Join:
    """Fonts that are one.

    name: the family's name, without a tag.
    font_name: the name that all have now.
    fonts, glyphs: how many fonts were joined, and how many glyphs the font has.
    before, after: the bytes of their streams in the file, and those of the one stream."""

    name: str
    font_name: str
    fonts: int
    glyphs: int
    before: int
    after: int

    def __str__(self) -> str:
        return f"{self.name}: {self.fonts} fonts joined, {self.glyphs} glyphs, {self.before:,} to {self.after:,} bytes"


@dataclass(frozen=True)
class Keep:
    """Fonts that stay as they are.

    name: the family's name.
    fonts, of: how many, and how many the family has.
    reason: why."""

    name: str
    fonts: int
    of: int
    reason: str

    def __str__(self) -> str:
        count = "" if self.of == 1 else f"{'one' if self.fonts == 1 else self.fonts} of {self.of} "
        return f"{self.name}: {count}kept: {self.reason}"


@dataclass(frozen=True)
class Report:
    """What became of the fonts, in the order of their names; `str` has a line for each."""

    families: Tuple[Union[Join, Keep], ...]

    @property
    def joins(self) -> Tuple[Join, ...]:
        """Those that are one."""
        return tuple(it for it in self.families if isinstance(it, Join))

    def __str__(self) -> str:
        return "".join(f"{it}\n" for it in self.families)

    def json(self) -> str:
        """The same as a JSON object of two lists, `joined` and `kept`, with the fields of `Join` and of `Keep`. A name has a code
        point for each of its bytes, U+0000 to U+00FF."""
        told: Dict[str, List[Dict[str, Any]]] = {"joined": [], "kept": []}
        for it in self.families:
            fields = {key: _of_bytes(value) if isinstance(value, str) else value for key, value in asdict(it).items()}
            told["joined" if isinstance(it, Join) else "kept"].append(fields)
        return json.dumps(told)


def _of_bytes(text: str) -> str:
    """A text with a code point for each of its bytes."""
    return text.encode("utf-8", "surrogateescape").decode("latin-1")


def _quiet(what: str, done: int, of: int) -> None:
    pass


def pool(
    pdf: pikepdf.Pdf,
    *,
    write: bool = True,
    spell: bool = False,
    dictionaries: bool = False,
    tokens: Optional[int] = None,
    told: Told = _quiet,
) -> Report:
    """Makes one font of the Type 1 fonts of a name, and says what became of each name.

    Of what can be reached only these keys change: FontFile, FontName and CharSet of descriptors whose program is joined, and
    BaseFont of their fonts. Without `write` nothing changes. `tokens` is as for `rejoin`, each time that fonts are rejoined.

    With `spell` fonts of a name that don't join since their programs name codes otherwise get an Encoding that names them. With
    `dictionaries` equal dictionaries of Type 1 fonts, and what stands in them, become one.

    pikepdf moves what pages inherit into the pages where a PDF is opened, unless with `inherit_page_attributes=False`.

    Raises PdfRefused for a PDF that is signed, and for one with content that can't be read; the PDF is then as it was."""
    graph = Graph(pdf)
    if _is_signed(graph):
        raise PdfRefused("it is signed")
    programs, others = fonts.programs(graph)
    shown = _shown(programs, graph, told)
    families = _families(programs, graph, shown, told)
    outcomes = _outcomes(families, tokens, told)
    if spell:
        outcomes.update(_spelled(families, outcomes, graph, shown, tokens, told))
    report: List[Union[Join, Keep]] = []
    taken = _names_taken(graph, outcomes)
    for name in sorted({*outcomes, *(name for name, _ in others)}):
        outcome = outcomes.get(name, Outcome())
        report += [_give(pdf, graph, name, join, taken, write) for join in outcome.made]
        report += _keeps(name, families.get(name, []), outcome, [reason for other, reason in others if other == name])
    if dictionaries and write:
        make_one(pdf, graph, [font for program in programs for font in program.fonts])
    return Report(tuple(report))


def _names_taken(graph: Graph, outcomes: Dict[str, Outcome]) -> Set[str]:
    """The names of the fonts that stay as they are."""
    changed = {each.at for it in outcomes.values() for join in it.made for part in join.parts for each in part.descriptors}
    return {fonts.font_name(it, graph) for it in graph.telling if "FontName" in it and it.at not in changed}


def _shown(programs: Sequence[Program], graph: Graph, told: Told) -> Codes:
    """The codes that content shows; where no two fonts have one name, none is read."""
    counts = Counter(it.name for it in programs if it.reason is None for _ in it.streams)
    if max(counts.values(), default=0) < 2:
        return {}
    shown = Shown(graph, lambda done, of: told("reading pages", done, of))
    count = len(shown.unread)
    if count:
        raise PdfRefused(f"{count} content stream{'s' if count > 1 else ''} can't be read")
    return shown.codes


def _is_signed(graph: Graph) -> bool:
    """Whether there is a signature, or another promise that the bytes stay."""
    root = graph.dictionary(graph.trailer, "Root")
    form = graph.dictionary(root, "AcroForm") if root is not None else None
    flags = graph.value(form, "SigFlags") if form is not None else 0
    # Bit 2: what is written has to be appended.
    if isinstance(flags, int) and flags & 2 or root is not None and "Perms" in root:
        return True
    return any("ByteRange" in it and isinstance(graph.value(it, "Contents"), Text) for it in graph.telling)


def _families(programs: Sequence[Program], graph: Graph, shown: Codes, told: Told) -> Dict[str, List[Program]]:
    """The programs by their names, each looked into."""
    ready = [it for it in programs if it.reason is None]
    with ThreadPoolExecutor(_threads()) as pool:
        for number, (program, listed) in enumerate(zip(ready, pool.map(fonts.listed, ready))):
            told("reading fonts", number, len(ready))
            fonts.look_into(program, listed, graph, shown)
    families: Dict[str, List[Program]] = {}
    for program in programs:
        families.setdefault(program.name, []).append(program)
    return families


def _threads() -> int:
    return min(8, os.cpu_count() or 1)


def _outcomes(families: Dict[str, List[Program]], tokens: Optional[int], told: Told) -> Dict[str, Outcome]:
    """What becomes of the programs of each family."""
    names = sorted(families)
    ready = [[it for it in families[name] if it.reason is None] for name in names]
    found: Dict[str, Outcome] = {}
    with ThreadPoolExecutor(_threads()) as pool:
        for name, outcome in zip(names, pool.map(lambda family: fonts.joins(family, tokens), ready)):
            told("joining fonts", len(found), len(names))
            found[name] = outcome
    return found


def _spelled(
    families: Dict[str, List[Program]],
    outcomes: Dict[str, Outcome],
    graph: Graph,
    shown: Codes,
    tokens: Optional[int],
    told: Told,
) -> Dict[str, Outcome]:
    """What becomes of the families that don't join for what their programs name codes, with dictionaries that name them."""
    found: Dict[str, List[Program]] = {}
    for name in [name for name, outcome in outcomes.items() if outcome.kept or len(outcome.made) > 1]:
        them = spelled([it for it in families[name] if it.reason is None], graph, shown)
        if them is not None:
            found[name] = them
    return _outcomes(found, tokens, told)


def _give(pdf: pikepdf.Pdf, graph: Graph, name: str, join: Joined, taken: Set[str], write: bool) -> Join:
    """Gives a joined font to all that had one of its programs."""
    is_free = join.is_whole and name not in taken
    font_name = name if is_free else fonts.tagged(name, join.glyphs, taken)
    taken.add(font_name)
    streams = [stream for part in join.parts for stream in part.streams]
    before = sum(map(graph.raw_length, streams))
    data, keys = fonts.packed(join.data)
    if write:
        stream = pdf.make_indirect(pikepdf.Stream(pdf, data, pikepdf.Dictionary(Filter=pikepdf.Name.FlateDecode, **keys)))
        for part in join.parts:
            for descriptor in part.descriptors:
                _rewrite(graph, descriptor, stream, font_name, join)
            for font in part.fonts:
                handle = graph.handle(font.at)
                handle["/BaseFont"] = pikepdf.Name("/" + font_name)
                if font.at in part.spelled:
                    handle["/Encoding"] = pdf.make_indirect(encoding_of(part.spelled[font.at]))
    return Join(name, font_name, len(streams), len(join.glyphs), before, len(data))


def _rewrite(graph: Graph, descriptor: Dictionary, stream: Any, font_name: str, join: Joined) -> None:
    handle = graph.handle(descriptor.at)
    handle["/FontFile"] = stream
    handle["/FontName"] = pikepdf.Name("/" + font_name)
    if "CharSet" in descriptor:
        handle["/CharSet"] = pikepdf.String(fonts.char_set(join.glyphs))


def _keeps(name: str, family: Sequence[Program], outcome: Outcome, others: Sequence[str]) -> List[Keep]:
    """The fonts of a family that stay, by their reasons."""
    counts: Dict[str, int] = {}
    kept = [(reason, 1) for reason in others] + [(reason, len(it.streams)) for it, reason in outcome.kept]
    for reason, count in [*kept, *((it.reason, len(it.streams)) for it in family if it.reason is not None)]:
        counts[reason] = counts.get(reason, 0) + count
    of = sum(len(it.streams) for it in family) + len(others)
    return [Keep(name, count, of, reason) for reason, count in sorted(counts.items())]


def save(pdf: pikepdf.Pdf, path: str, *, object_streams: bool = False) -> None:
    """Writes a PDF to a path, as far as it can be with all streams as they are, encrypted, linearized and with object streams as it
    was. A regular file with one name is replaced when the new one is complete; anything else is written in place."""
    modes = pikepdf.ObjectStreamMode
    how: Dict[str, Any] = {"object_stream_mode": modes.generate if object_streams else modes.preserve}
    # pikepdf takes one of these alone, and with the first leaves streams as they are.
    how.update({"encryption": True} if pdf.is_encrypted else {"stream_decode_level": pikepdf.StreamDecodeLevel.none})
    how.update(compress_streams=False, recompress_flate=False, fix_metadata_version=False, linearize=pdf.is_linearized)
    replaces = _is_replaced(path)
    folder = os.path.dirname(os.path.abspath(path)) if replaces else None
    number, beside = tempfile.mkstemp(dir=folder, prefix=".t1subset-", suffix=".part")
    os.close(number)
    try:
        pdf.save(beside, **how)
        if replaces:
            os.chmod(beside, _mode(path))
            os.replace(beside, path)
        else:
            with open(beside, "rb") as made, open(path, "wb") as out:
                shutil.copyfileobj(made, out)
    finally:
        if os.path.lexists(beside):
            os.unlink(beside)


def _is_replaced(path: str) -> bool:
    """Whether a new file may take the place of what stands there."""
    try:
        there = os.lstat(path)
    except FileNotFoundError:
        return True
    return stat.S_ISREG(there.st_mode) and there.st_nlink == 1 and there.st_uid == os.geteuid()


def _mode(path: str) -> int:
    """The mode of the file that stands there, or that of a new one: `mkstemp` lets nobody else read."""
    try:
        return stat.S_IMODE(os.lstat(path).st_mode)
    except FileNotFoundError:
        mask = os.umask(0)
        os.umask(mask)
        return 0o666 & ~mask


class _Progress:
    """How far a run is, on a terminal."""

    def __init__(self) -> None:
        self.is_shown = sys.stderr.isatty()

    def __call__(self, what: str, done: int, of: int) -> None:
        if self.is_shown and done % 16 == 0:
            print(f"\r\x1b[K{what}: {done:,} of {of:,}", end="", file=sys.stderr, flush=True)

    def end(self) -> None:
        if self.is_shown:
            print("\r\x1b[K", end="", file=sys.stderr, flush=True)


def _arguments(words: Optional[Sequence[str]]) -> argparse.Namespace:
    parser = argparse.ArgumentParser(
        prog="t1subset-pdf",
        description="Makes each Type 1 font stand once in a PDF, and prints a line for each family.",
        usage="%(prog)s [--list] [--json] [--spell] [--dictionaries] [--object-streams] [--password FILE] [--tokens N] OUT.pdf IN.pdf",
        epilog="The exit status is 0, 1 for `refused: TEXT`, 2 for a wrong command line, 3 for a file that can't be read or written.",
    )
    parser.add_argument("--list", action="store_true", help="only print what would become of the fonts; OUT may be left out")
    parser.add_argument("--json", action="store_true", help="print a JSON object in place of lines, of a refusal too")
    parser.add_argument("--spell", action="store_true", help="let font dictionaries name codes, where programs differ in them")
    parser.add_argument("--dictionaries", action="store_true", help="make one of equal dictionaries of fonts")
    parser.add_argument("--object-streams", action="store_true", help="write object streams: fewer bytes, and PDF 1.5")
    parser.add_argument("--password", metavar="FILE", help="the first line of FILE is a password that opens IN")
    parser.add_argument("--tokens", metavar="N", type=_count, help="let no call of the library execute more than N tokens of charstrings")
    parser.add_argument("files", nargs="+", metavar="OUT.pdf IN.pdf", help="the PDF to write, and the PDF to read")
    given = parser.parse_args(words)
    if len(given.files) > 2 or len(given.files) < 2 and not given.list:
        parser.error("two files are wanted: OUT.pdf IN.pdf")
    return given


def _count(text: str) -> int:
    if not text.isascii() or not text.isdigit() or int(text) >= 1 << 64:
        raise argparse.ArgumentTypeError(f"a number from 0 to 2**64 - 1 is wanted, not {text}")
    return int(text)


class _Failed(Exception):
    """What is printed, and the exit status."""

    def __init__(self, text: str, status: int) -> None:
        super().__init__(text)
        self.status = status


def _opened(path: str, password: str) -> pikepdf.Pdf:
    try:
        # pikepdf would move what pages inherit into them.
        return pikepdf.open(path, password=password, inherit_page_attributes=False)
    except pikepdf.PasswordError as fault:
        raise _Failed("refused: it is encrypted", 1) from fault
    except pikepdf.PdfError as fault:
        raise _Failed("refused: it is no PDF that can be read", 1) from fault
    except OSError as fault:
        raise _Failed(f"failed: read {path}", 3) from fault


def _password(path: Optional[str]) -> str:
    if path is None:
        return ""
    try:
        with open(path, encoding="utf-8", errors="surrogateescape") as file:
            return file.readline().rstrip("\r\n")
    except OSError as fault:
        raise _Failed(f"failed: read {path}", 3) from fault


def _run(given: argparse.Namespace) -> None:
    out, progress = given.files[0], _Progress()
    with _opened(given.files[-1], _password(given.password)) as pdf:
        try:
            how = {"spell": given.spell, "dictionaries": given.dictionaries, "tokens": given.tokens}
            report = pool(pdf, write=not given.list, told=progress, **how)
        except PdfRefused as why:
            raise _Failed(f"refused: {why}", 1) from why
        finally:
            progress.end()
        if not given.list:
            try:
                save(pdf, out, object_streams=given.object_streams)
            except (OSError, pikepdf.PdfError) as fault:
                raise _Failed(f"failed: write {out}", 3) from fault
        print(report.json() + "\n" if given.json else report, end="")


def main(words: Optional[Sequence[str]] = None) -> int:
    """The command t1subset-pdf."""
    given = _arguments(words)
    try:
        _run(given)
    except _Failed as why:
        if given.json and why.status == 1:
            print(json.dumps({"refused": {"text": str(why)[len("refused: "):]}}))
        print(why, file=sys.stderr)
        return why.status
    return 0


if __name__ == "__main__":
    sys.exit(main())
