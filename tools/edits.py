"""Wrong bodies as files: what an edit changes, and what a check says of it.

An edit is a file NAME.edit. Its first line names the clause that has to refuse it (`refused by: FUNCTION, CLAUSE`), or the test
that has to fail (`caught by: TEST`); then lines `file:`, `old:` and `new:` say what stands where of what, a text a line.
"""
import os
import re
import tempfile

from common import TOP, put, text_of


def lines_of(edit):
    return text_of(edit).splitlines()


def catcher(edit):
    """The test that has to fail, or None for an edit that the prover has to refuse."""
    found = re.match(r"caught by: (\w+)$", lines_of(edit)[0])
    return found and found.group(1)


def names_nothing(edit):
    """Whether an edit doesn't say which clause has to refuse it, or which test."""
    return not catcher(edit) and not lines_of(edit)[0].startswith("refused by: ")


def function_of(edit):
    """The function that has to be refused, as the first line of an edit names it."""
    return re.match(r"refused by: ([\w:]+)", lines_of(edit)[0])[1]


def apply(edit, crate_folder):
    """Changes the files that an edit names, or answers why it can't."""
    path = old = None
    for line in lines_of(edit)[1:]:
        word, _, text = line.partition(": ")
        if word == "file":
            path = os.path.join(crate_folder, text)
        elif word == "old":
            old = text
        elif word == "new":
            whole = text_of(path)
            if whole.count(old) != 1:
                return f"`old` stands {whole.count(old)} times"
            put(whole.replace(old, text).encode(), path)
        elif line:
            return f"a line that is not read: {line}"
    return None


def word_for(type_text, parameters):
    """How a check calls a type: `VecU8` for `Vec<u8>`, `RefSliceU8` for `&[u8]`. Lifetimes and parameters have no name there."""
    words = type_text.replace("&", " Ref ").replace("[", " Slice ")
    words = [re.sub(r".*::", "", word) for word in re.findall(r"'?[\w:]+", words)]
    return "".join(word[0].upper() + word[1:] for word in words if word[0] != "'" and word not in parameters)


def called_of(path, lines, at, crate):
    """The end of the path by which a check calls the function that begins in a line of a file: behind its module, or behind its type
    and its trait."""
    method = re.search(r"\bfn (\w+)", lines[at])[1]
    head = next((line for line in lines[at::-1] if re.match(r"impl\b|\}", line)), "") if lines[at].startswith(" ") else ""
    found = re.match(r"impl(?:<([^>]*)>)? (?:([^{]+?) for )?([^{]+?) \{", head)
    if found:
        parameters = re.findall(r"(?:^|, )(\w+)", found[1] or "")
        return word_for(found[3], parameters) + word_for(found[2] or "", parameters) + "::" + method
    module = path[len("src/"):-len(".rt")].split("/")[-1]
    return (crate if module == "lib" else module) + "::" + method


def change_of(edit, crate):
    """What an edit changes as a path, the first and the last line, the new lines, and how a check calls its function, if that has
    them all."""
    paths = {line[len("file: "):] for line in lines_of(edit) if line.startswith("file: ")}
    if len(paths) != 1:
        return None
    path = paths.pop()
    with tempfile.TemporaryDirectory(prefix="wrong-bodies-") as room:
        old = text_of(TOP, "crates", crate, path)
        os.makedirs(os.path.dirname(os.path.join(room, path)), exist_ok=True)
        put(old.encode(), room, path)
        if apply(edit, room):
            return None
        old, new = old.split("\n"), text_of(room, path).split("\n")
    first = next((at for at, (a, b) in enumerate(zip(old, new)) if a != b), min(len(old), len(new)))
    same = next(at for at, (a, b) in enumerate(zip(old[:first - 1:-1], new[:first - 1:-1])) if a != b) if old[-1] == new[-1] else 0
    last = len(old) - same
    name = function_of(edit).split("::")[-1]
    for at, line in enumerate(old):
        head = re.match(rf"( *)(?:pub(?:\(\w+\))? )?(?:const )?(?:extern \"C\" )?fn {name}\b", line)
        if head and at < first and last <= next(end for end in range(at, len(old)) if old[end] == head[1] + "}"):
            return path, first, last, new[first:len(new) - same], called_of(path, old, at, crate)
    return None


# What a check says where a proof names what an edit took away, or cites such a proof, or where the borrow checker doesn't cover an
# edited body: that tells nothing of a contract.
NAMES = "has no field|is not in scope|has no `|was not admitted|borrow checker"


def told_of(output, crate):
    """What a check says of each function, by its path with the crate: whether it is proved, and the lines that say why not."""
    told, why, errors = {}, [], []
    for line in output.splitlines():
        said = re.match(rf"(?:fn|struct|enum|impl|trait|const) {crate}::(\S+): (.*)", line)
        if said:
            told[said[1]] = (said[2], why)
            why = []
        elif re.match(r"note: src/\S+ it is not proved that", line):
            why.append(line)
        elif re.match(r"\./proofs/\S+ error: ", line):
            errors.append(line)
    for path, (_, lines) in told.items():
        file = re.compile(r"\./proofs/" + re.escape("/".join(path.split("::"))).replace("/", "/\\+?") + r"/\w+\.antt:")
        lines += filter(file.match, errors)
    return {f"{crate}::{path}": said for path, said in told.items()}


def refused_lemma(called, told, output):
    """The line that refuses a lemma of a function that is not proved, or None: an edit of more than the function's body, as of a
    definition, may be refused there."""
    if all(verdict == "proved" for path, (verdict, _) in told.items() if f"::{path}".endswith(f"::{called}")):
        return None
    return next((line for line in output.splitlines() if re.match(r"\./proofs/\S+ error: ", line) and not re.search(NAMES, line)), None)


def refusal(edit, called, told):
    """The line that refuses an edit for its function, and for no other clause than it names, or None. What a loop wants names no clause."""
    clause = re.search(r", clause (\w+)", lines_of(edit)[0])
    for path, (verdict, why) in told.items():
        if f"::{path}".endswith(f"::{called}") and verdict != "proved":
            for line in why:
                found = re.search(r"clause-(\w+)", line)
                if not re.search(NAMES, line) and not (clause and found and found[1] != clause[1]):
                    return line
    return None
