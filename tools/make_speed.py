#!/usr/bin/env python3
"""Makes the tables of docs/SPEED.md that say what the gate takes, of what the gate printed, and which functions are dear to prove.

usage: tools/make_speed.py LOG...           the parts of the gate, of the lines `gate: PART: ..` of these files: of each part the run
                                            that took most, since another may have found it proved
       tools/make_speed.py --functions [CRATE...]    proves these crates once more, by one copy of the compiler each, and lists of each
                                            the thirty functions that take most; over what is built below them
       tools/make_speed.py --check          whether the first table has each crate and each script of the gate, and nothing else
"""
import collections
import concurrent.futures
import os
import re
import subprocess
import sys
import tempfile

from common import TOP, homes_of_tests, is_of_tests, needs, put, put_between, text_of
from gate import BEHIND, WRONG
from kit import compiler_words, is_static, lanes

PAGE = os.path.join(TOP, "docs/SPEED.md")
MAKER = "make_speed.py"
LINE = re.compile(r"gate: (.*): ([\d.]+) minutes of processors, ([\d.]+) by the clock$", re.M)
# The modules of a function: its steps, which are made of its code, and its proof.
STEPS = ("Lts", "Tie", "Code", "Kinds", "Statement", "Met")
OTHERS = ("Proof", "Answers", "Invariants", "Given", "Goals", "Search")
DEAREST = 30


def crates():
    """The crates that have a proof, by their names without those of their tests."""
    return [name for name in needs() if not is_of_tests(name)]


def kinds_of(name):
    """What the gate does with a crate."""
    return [kind for kind in ("its proof", "its tests", "compiled twice") if kind == "its proof" or
            kind == "its tests" and (homes_of_tests(name) != [name] or is_static(name)) or kind == "compiled twice" and name == "t1subset"]


def scripts():
    return [words.split(" ")[0] for words in (WRONG, *(words for words, _ in BEHIND))]


def wanted():
    """The parts that the gate has, in the order of the table."""
    return ["texts", *(f"{name}, {kind}" for name in crates() for kind in kinds_of(name)), "rt ci, the rest of it", *scripts(), "all"]


def taken(logs):
    """Of each part what the run of it took that took most; all of them together, where there is more than one run."""
    took = {}
    for name, used, clock in (found for log in logs for found in LINE.findall(log)):
        if float(used) >= float(took.get(name, ("0",))[0]):
            took[name] = (used, clock)
    if len(logs) > 1:
        took["all"] = (sum(float(used) for name, (used, _) in took.items() if name != "all"), None)
    return took


def table_of(logs):
    """The lines of the table of the parts."""
    took = taken(logs)
    lacking = [name for name in wanted() if name not in took]
    if lacking:
        sys.exit(f"the gate printed nothing of {', '.join(lacking)}: it has to be run whole, with nothing kept")
    clock = lambda name: "-" if took[name][1] is None else f"{float(took[name][1]):.1f}"
    rows = [f"| {name} | {float(took[name][0]):.1f} | {clock(name)} |" for name in wanted()]
    return ["| Part of the gate | minutes of processors | minutes by the clock |", "|---|---|---|", *rows]


def put_part(name, lines):
    put(put_between(text_of(PAGE), MAKER, name, lines).encode(), PAGE)


def check():
    """Whether the table has the parts that the gate has."""
    named = re.findall(r"^\| (.*) \| [\d.]+ \| (?:[\d.]+|-) \|$", text_of(PAGE), re.M)
    wrong = [f"docs/SPEED.md has no row of {name}" for name in wanted() if name not in named]
    wrong += [f"docs/SPEED.md has a row of {name}, which is no part of the gate" for name in named if name not in wanted()]
    for line in wrong:
        print(line, file=sys.stderr)
    print(f"the table of the gate has {len(named)} rows, {len(wrong)} faults")
    return 1 if wrong else 0


def modules(folder):
    """What a check wrote in turn: each module, and the seconds since the one before it."""
    files = [os.path.join(at, name) for at, _, names in os.walk(folder) for name in names]
    times = sorted((os.stat(path).st_mtime_ns, os.path.basename(path)) for path in files)
    for (before, _), (ended, name) in zip(times, times[1:]):
        yield re.sub(r"(\.decls)?\.oantt$", "", name), (ended - before) / 1e9


def dearest(crate):
    """The functions of a crate that take most, with the seconds of their steps and of their proofs, and what all of it takes."""
    with tempfile.TemporaryDirectory(prefix="speed-") as room:
        words = [*compiler_words("check", crate, 1), "--incremental", room]
        done = subprocess.run(words, cwd=os.path.join(TOP, "crates", crate), stdout=subprocess.PIPE, stderr=subprocess.STDOUT, text=True, errors="replace")
        if done.returncode:
            sys.exit(f"{crate} is not proved: {done.stdout[-2000:]}")
        steps, proofs, whole = collections.Counter(), collections.Counter(), 0
        for name, seconds in modules(room):
            whole += seconds
            found = re.match(rf"Rattle-{crate}-proofs\.(.*)\.([\w-]+)$", name)
            kind = found and found[2].partition("-")[0]
            if kind in STEPS + OTHERS:
                (steps if kind in STEPS else proofs)[found[1].replace(".", "::")] += seconds
    first = sorted(steps | proofs, key=lambda name: -steps[name] - proofs[name])[:DEAREST]
    return [(name, steps[name], proofs[name]) for name in first], sum(steps.values()), sum(proofs.values()), whole


def listed(crate):
    """The paragraph of a crate."""
    first, steps, proofs, whole = dearest(crate)
    names = ", ".join(f"`{name}` {of_steps:.1f} + {of_proof:.1f}" for name, of_steps, of_proof in first)
    return f"- **{crate}**: {whole:.0f} seconds, {steps:.0f} for the steps of its functions and {proofs:.0f} for their proofs" + (f". {names}." if names else ".")


def main():
    if sys.argv[1:2] == ["--check"]:
        return check()
    if sys.argv[1:2] == ["--functions"]:
        with concurrent.futures.ThreadPoolExecutor(lanes()) as pool:
            put_part("list of the dearest functions", list(pool.map(listed, sys.argv[2:] or crates())))
        return 0
    put_part("table of the gate", table_of(list(map(text_of, sys.argv[1:]))))
    return 0


if __name__ == "__main__":
    sys.exit(main())
