"""Reads the definitions of crates/*/specs/*.antt: where each stands, what it says of itself, and which others it needs by name.

A name is the one that the `use` lines of its file give it, also under another name (`as`), through a module's own name, and
through a file that passes names on (`pub use`). What a definition binds itself (arguments, `let`, `λ`, fields) is no use of a
name. What is neither `abbrev`, `unfoldable`, a `data` nor a `record` can't be unfolded: it is a lemma, and only what it states
counts.
"""
import functools
import glob
import os
import re

from common import TOP, text_of

# A declaration's first line: how deep, its kind, its name.
FIRST = re.compile(r"^( *)(?:(abbrev|unfoldable) )?(?:pub )?(?:(data|record) (\S+)(?= )|(\S+) :(?= |$))")
MODULE = re.compile(r"^( *)module _ (.*) where$")
IMPORT = re.compile(r"^(pub )?use (Rattle\..*)$")
GROUP = re.compile(r"((?:[\w-]+\.)*)\{(.*)\}$")
DEFINED = re.compile(r"Rattle\.(t1_\w+)\.specs\.([\w.]+)$")
CODE = re.compile(r"declared\.([\w.]+?)\.(\w+)(?:\.The\w+)?$")
COMMENT = re.compile(r"^ *-- ?(?!---)")
# What belongs to no declaration before it.
OUTSIDE = re.compile(r"^ *(?:--|infix)")
NAME = r"[^\s(){}\[\];,.:\"]+"
# A name, with what stands behind its dot, where it stands behind none itself.
USED = re.compile(rf"(?<![\w.◌-])({NAME})(?:\.({NAME}))?")
PROJECTION = re.compile(rf"(?<=[\w)])\.(?:{NAME})")
PART = re.compile(r"^ +(?:pub )?(\S+) :(?= |$)")
FIELD = re.compile(rf"[{{;,]\s*({NAME})\s+=(?= )")
# What binds names up to the bracket that closes behind it: a function's arguments, `let`, a line of `do`, the arguments of a type.
BINDERS = (
    re.compile(rf"λ ((?:{NAME}|\([^()]*\))(?: (?:{NAME}|\([^()]*\)))*)\. "),
    re.compile(rf"\blet ({NAME}) [:=].*?\bin\b", re.S),
    re.compile(rf"\b({NAME}) ←.*"),
    re.compile(rf"[({{]((?:{NAME} )+): "),
)


def parts(text):
    """What commas part that stand in no braces."""
    ends = [at for at, byte in enumerate(text) if byte == "," and text[:at].count("{") == text[:at].count("}")] + [len(text)]
    return [text[begin:end].strip() for begin, end in zip([0] + [at + 1 for at in ends], ends)]


def imported(path, text):
    """What a `use` line, or a part of it below a path, names: pairs of a module's path and a name, or of a module's path and None where
    the module itself gets a name."""
    group = GROUP.match(text)
    if group:
        return [pair for part in parts(group[2]) for pair in imported(path + group[1], part)]
    return [(path.rstrip("."), text)] if path else [(text, None)]


class Definition:
    """A definition of a file of specs/, or an item that code declares: its file, its lines, what it says, its text."""

    def __init__(self, crate, module, name, kind):
        self.crate, self.module, self.name, self.kind = crate, module, name, kind
        self.says, self.comment, self.lines, self.at = "", [], [], 0
        self.header, self.inside = "", []

    def key(self):
        return self.crate, self.module, self.name

    def is_lemma(self):
        return self.kind == "lemma"

    def path(self):
        if self.kind == "code":
            return f"crates/{self.crate}/src/{self.module}.rt"
        return f"crates/{self.crate}/specs/{self.module}.antt"


def is_header(line, depth):
    """Where a line begins a declaration that is no part of one of this depth."""
    found = FIRST.match(line)
    return found if found and len(found[1]) <= depth else None


def plain(line):
    """A line without texts in quotes and without its comment."""
    return re.sub(r"--.*$", "", re.sub(r'"[^"]*"', '""', line))


class File:
    """A file of specs/: its definitions by name, and what its `use` lines name."""

    def __init__(self, crate, module, text):
        self.crate, self.module = crate, module
        self.head = " ".join(line[3:] for line in self.comment(text.splitlines()))
        self.definitions, self.parts = {}, {}
        self.names, self.modules, self.passed = {}, {}, {}
        self.imports(text)
        self.read(text.splitlines())

    @staticmethod
    def comment(lines):
        """The comment at the beginning."""
        count = next((at for at, line in enumerate(lines) if not line.startswith("--")), len(lines))
        return lines[:count]

    def imports(self, text):
        for line in filter(None, map(IMPORT.match, text.splitlines())):
            for path, name in imported("", line[2]):
                theirs, _, ours = (name or path).partition(" as ")
                module = DEFINED.match(path if name else theirs)
                if module and not name:
                    self.modules[ours] = module.groups()
                elif module:
                    self.names[ours or theirs] = (*module.groups(), theirs)
                    if line[1]:
                        self.passed[ours or theirs] = (*module.groups(), theirs)

    def read(self, lines):
        """Goes over the lines: each belongs to the declaration that was begun last, until one stands less deep."""
        at, header, now, depth = 0, (0, ""), None, 0
        while at < len(lines):
            line = lines[at]
            found, module = FIRST.match(line), MODULE.match(line)
            if module:
                header, now = (len(module[1]), module[2]), None
            elif found and (now is None or len(found[1]) <= depth):
                depth = len(found[1])
                now = self.begun(found, lines, at, header if depth > header[0] else (0, ""))
            elif now is not None and line.strip() and not OUTSIDE.match(line):
                self.add(now, line)
            at += 1

    def begun(self, found, lines, at, header):
        name = found[4] or found[5]
        now = Definition(self.crate, self.module, name, found[2] or found[3] or "lemma")
        now.at, now.header = at + 1, header[1]
        now.lines = [lines[at]]
        above = at
        while above and (COMMENT.match(lines[above - 1]) or lines[above - 1].lstrip().startswith("infix")):
            above -= 1
        now.comment = [line for line in lines[above:at] if COMMENT.match(line)]
        now.says = " ".join(line.strip()[2:].strip() for line in now.comment)
        self.definitions[name] = now
        return now

    def add(self, now, line):
        now.lines.append(line)
        part = PART.match(line)
        if now.kind in ("data", "record") and part:
            now.inside.append(part[1])
            if now.kind == "data":
                self.parts[part[1]] = now.name


def ends_at(text, at):
    """Where the bracket closes within which this place stands."""
    depth = 0
    for place in range(at, len(text)):
        depth += (text[place] in "([{") - (text[place] in ")]}")
        if depth < 0:
            return place
    return len(text)


def bound(text):
    """The names that a piece of a definition binds, each with where it is bound."""
    for binder in BINDERS:
        for found in binder.finditer(text):
            last = ends_at(text, found.start())
            for name in re.findall(NAME, found[1]):
                yield name, found.start(1), found.end(1)
                yield name, found.end(), last


def clauses(definition):
    """The signature of a definition and each of its equations; or a record's head and its fields, a type's head and its values."""
    depth = len(definition.lines[0]) - len(definition.lines[0].lstrip())
    parts = definition.kind in ("data", "record")
    pieces = [[]]
    for line in map(plain, definition.lines):
        deep = len(line) - len(line.lstrip())
        begins = PART.match(line) if parts else deep == depth
        if begins and pieces[-1]:
            pieces.append([])
        pieces[-1].append(line[begins.end():] if parts and begins else line)
    return ["\n".join(piece) for piece in pieces]


def left_side(piece):
    """The patterns of an equation, without what it defines."""
    found = re.match(r"(.*?) =(?:\s|$)", piece, re.S)
    return found[1] if found else ""


class Definitions:
    """All definitions of this repository."""

    def __init__(self):
        self.files = {}
        for path in sorted(glob.glob(os.path.join(TOP, "crates/*/specs/**/*.antt"), recursive=True)):
            crate, _, module = os.path.relpath(path, os.path.join(TOP, "crates"))[:-5].split("/", 2)
            if module != "Lib":
                module = module.replace("/", ".")
                self.files[crate, module] = File(crate, module, text_of(path))
        self.items = {}

    def find(self, crate, module, name):
        """The definition, or the item of code, that this name is in a module, or None."""
        if module.startswith("declared."):
            return self.item(crate, module)
        file = self.files.get((crate, module))
        if file is None:
            return None
        if name in file.definitions:
            return file.definitions[name]
        if name in file.parts:
            return file.definitions[file.parts[name]]
        return self.find(*file.passed[name]) if name in file.passed else None

    def item(self, crate, module):
        """What code declares, an enum or a struct."""
        key = crate, module
        if key not in self.items:
            place, name = CODE.match(module).groups()
            found = Definition(crate, place.replace(".", "/"), name, "code")
            lines = text_of(TOP, found.path()).splitlines()
            first = next(at for at, line in enumerate(lines) if re.match(rf"(?:pub(?:\(crate\))? )?(?:enum|struct|trait|const|fn) {name}\b", line))
            last = next(at for at, line in enumerate(lines) if at >= first and line.rstrip().endswith(("}", ";")) and not line.startswith("  "))
            above = first
            while above and lines[above - 1].startswith(("///", "#[")):
                above -= 1
            found.at, found.lines = first + 1, lines[first:last + 1]
            found.says = " ".join(line[4:] for line in lines[above:first] if line.startswith("///"))
            self.items[key] = self.items.setdefault((crate, found.module, name), found)
        return self.items[key]

    def named(self, file, name, behind):
        """What a name of this file is, or None if it is not of this repository."""
        if behind and name in file.modules:
            return self.find(*file.modules[name], behind)
        if name in file.definitions or name in file.parts:
            return self.find(file.crate, file.module, name)
        return self.find(*file.names[name]) if name in file.names else None

    def spelled(self, file, name):
        """The same of an operator, which stands in an import with a circle for each side."""
        return self.named(file, f"◌{name}◌", None)

    @functools.lru_cache(maxsize=None)
    def needs(self, definition):
        """The definitions, lemmas and items of code that this one needs by name, each once, in the order in which they stand."""
        if definition.kind == "code":
            return []
        file, found = self.files[definition.crate, definition.module], {}
        pieces = clauses(definition)
        parts = definition.kind in ("data", "record")
        for number, piece in enumerate([definition.header, *pieces]):
            own = {name for name, _, _ in bound(definition.header + (pieces[0] if parts else ""))}
            if definition.kind == "record":
                own |= set(definition.inside[:max(number - 2, 0)])
            for one in self.in_piece(file, piece, own):
                if one is not None and one is not definition:
                    found.setdefault(one.key(), one)
        return list(found.values())

    def variables(self, file, left):
        """The names on the left side of an equation that are no values of a type."""
        for name in re.findall(NAME, left):
            known = self.named(file, name, None)
            if known is None or known.kind != "code" and known.name == file.names.get(name, (0, 0, name))[2]:
                yield name

    def in_piece(self, file, piece, own):
        own = own | set(self.variables(file, left_side(piece)))
        piece = FIELD.sub(lambda field: field[0].replace(field[1], " " * len(field[1]), 1), piece)
        scopes = list(bound(piece))
        if re.search(r"\bdo$", piece, re.M):
            yield from (self.spelled(file, each) for each in (">>=", ">>"))
        for used in USED.finditer(piece):
            name, at = used[1], used.start()
            if name not in own and not any(name == each and first <= at < last for each, first, last in scopes):
                yield self.named(file, name, used[2])
                yield self.spelled(file, name)

    def closure(self, roots):
        """What these definitions need, themselves first; a lemma is counted, and not gone into."""
        seen, waiting = {}, list(roots)
        while waiting:
            one = waiting.pop()
            if one.key() not in seen:
                seen[one.key()] = one
                if not one.is_lemma():
                    waiting += self.needs(one)
        return list(seen.values())
