#!/usr/bin/env python3
"""Checks that docs/THEOREM.md lists what the statements need, that the rows and calls that it names are there, and that
tools/definitions.py finds what a definition needs: on files that are made for this, whose answers were written by hand, and which
bind names, pass them on and name them anew.

usage: tools/test_theorem.py
Ends with status 1 if the page is stale or a need is missed.
"""
import glob
import os
import re
import sys

from common import TOP, text_of
from definitions import Definitions, File
from make_theorem import PAGE, page

LOW = """-- What stands below.
use Rattle.std.specs.Prelude.{List}

-- a size
abbrev pub size : Nat
size = 4

-- one or many
pub data Some : Type 0 where
  One : Some
  Many : (size : Nat) → Some

-- a lemma
pub same : size ≡ size
same = other

-- with an operator
infixl 10 ◌>>◌
abbrev pub ◌>>◌ : Some → Some → Some
a >> b = b

infixl 10 ◌>>=◌
abbrev pub ◌>>=◌ : Some → Some → Some
a >>= b = b

-- another
abbrev pub other : Nat
other = 5
"""
HIGH = """-- What stands above.
pub use Rattle.t1_low.specs.Low.{size, Some, One, same}
use Rattle.t1_low.specs.Low.{other as more, ◌>>◌, ◌>>=◌}
use Rattle.t1_low.specs.Low as low

-- `size` is an argument
abbrev pub argument : Nat → Nat
argument size = size

-- and here of a function, up to its bracket
abbrev pub inner : Nat
inner = add (λ size. size) more

abbrev pub outer : Nat
outer = add (λ more. more) size

-- a field has the name of a definition, which the next field needs
pub record Fields : Type 0 where
  pub size : size ≡ 4
  pub more : Some

-- texts and comments name nothing: size
abbrev pub quoted : List Nat
quoted = codes "size" -- more

-- what `size.more` names is a field
abbrev pub projected : Fields → Nat
projected f = f.size

abbrev pub built : Fields
built = record { size = same; more = One }

module _ (s : Some) where
  abbrev pub inside : Nat
  inside = let more = 3 in more

abbrev pub by_module : Nat
by_module = low.other

abbrev pub by_lines : Some
by_lines = do
  more ← One
  more

abbrev pub by_operator : Some
by_operator = One >> One
"""
WANTED = {
    "argument": set(), "inner": {"other"}, "outer": {"size"}, "Fields": {"size", "Some"}, "quoted": set(), "projected": {"Fields"},
    "built": {"Fields", "same", "Some"}, "inside": {"Some"}, "by_module": {"other"}, "by_lines": {"Some", "◌>>=◌", "◌>>◌"},
    "by_operator": {"Some", "◌>>◌"},
}


def check_needs():
    """Each definition of the made files needs what it has to, and a lemma is not gone into."""
    made = Definitions()
    made.files = {("t1_low", "Low"): File("t1_low", "Low", LOW), ("t1_high", "High"): File("t1_high", "High", HIGH)}
    for name, wanted in WANTED.items():
        found = {one.name for one in made.needs(made.find("t1_high", "High", name))}
        if found != wanted:
            yield f"{name} needs {sorted(found)}, and not {sorted(wanted)}"
    through = {one.name for one in made.closure([made.find("t1_high", "High", "built")])}
    if through != {"built", "Fields", "Some", "size", "same"}:
        yield f"built needs {sorted(through)} in all"
    if made.find("t1_high", "High", "size") is not made.find("t1_low", "Low", "size"):
        yield "a name that is passed on is another"


def check_rows():
    """Each row that the worked example names stands in its file, and each call of the page in the code."""
    text = text_of(PAGE)
    for cell in re.findall(r"\| ([^|]*) \|$", text, re.M):
        for part in cell.split("; "):
            file, names = re.match(r"(?:`(Tiny\w+)::)?", part)[1], re.findall(r"`(?:\w+::)?(\w+)`", part)
            rows = text_of(TOP, f"crates/t1_font_laws/proofs/rows/{file}.antt") if file else ""
            missing = [name for name in names if file and not re.search(rf"^(?:pub )?{name} :", rows, re.M)]
            yield from (f"docs/THEOREM.md names {file}::{name}, which isn't there" for name in missing)
    for crate, path in re.findall(r"`(t1_\w+)::([\w:]+)`", text):
        code = "".join(map(text_of, glob.glob(os.path.join(TOP, f"crates/{crate}/src/**/*.rt"), recursive=True)))
        if not re.search(rf"\bfn {path.split('::')[-1]}\b", code):
            yield f"docs/THEOREM.md names {crate}::{path}, which isn't there"


def check_files():
    """Each file of specs/ is read to its end: every declaration that begins a line is found."""
    for (crate, module), file in Definitions().files.items():
        text = text_of(TOP, f"crates/{crate}/specs/{module}.antt")
        begun = set(re.findall(r"^ *(?:abbrev|unfoldable) (?:pub )?(\S+) :", text, re.M))
        begun |= set(re.findall(r"^ *(?:pub )?(?:data|record) ([^\s{]+) ", text, re.M))
        for name in begun - file.definitions.keys():
            yield f"{crate}, {module}: {name} isn't read"


def main():
    faults = [*check_needs(), *check_rows(), *check_files()]
    if text_of(PAGE) != page():
        faults.append("docs/THEOREM.md is stale: run tools/make_theorem.py")
    for fault in faults:
        print(fault, file=sys.stderr)
    print(f"{len(WANTED)} made definitions need what they have to, docs/THEOREM.md lists what the statements need" if not faults else f"{len(faults)} faults")
    return 1 if faults else 0


if __name__ == "__main__":
    sys.exit(main())
