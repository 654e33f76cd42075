#!/usr/bin/env python3
"""Tries wrong bodies: edits of the code that the prover has to refuse, or a test has to catch.

Each file tools/must-fail/CRATE/NAME.edit, which the gate tries, and each in or below tools/wrong-bodies/CRATE/ is an edit. Its
first line names the clause which has to refuse it (`refused by: FUNCTION, CLAUSE`). No clause can refuse a body that answers want
of memory in place of another answer: for such an edit the first line names the test that has to fail (`caught by: TEST`). The
edits are tried on copies; the repository itself is not changed.

Edits within the bodies of different functions are tried together by one check of these functions, and of those that they call, over
the libraries that were built below the crate, since a function is proved over what others promise, and not over their bodies: each has
to be refused for its own function and the clause that it names. What doesn't come out so is tried by itself. What one check of a crate
proved the next ones take.

usage: tools/wrong_bodies.py [--jobs N] [--only NAME] [--gate] [--anew] [CRATE...]      (all crates if none is named)
`--gate` tries those of tools/must-fail over what is built. What an earlier run on this machine refused of the same files over the same
libraries isn't tried again but with `--anew`, so a run that was ended goes on. Ends with status 1 if an edit can't be applied or read,
or is neither refused nor caught.
"""
import argparse
import concurrent.futures
import glob
import hashlib
import os
import re
import shutil
import subprocess
import sys
import tempfile
import threading

from build import Builds
from common import TOP, below, bytes_of, copy_crates, homes_of_tests, needs, put, tests_of, text_of
from edits import apply, catcher, change_of, function_of, names_nothing, refusal, refused_lemma, told_of
from kit import compiler_words, files_of, lanes, library, sum_of_crate

MUST_FAIL, OTHERS = (os.path.join(TOP, "tools", folder) for folder in ("must-fail", "wrong-bodies"))
# What earlier runs refused.
KEPT = os.path.join(os.environ.get("XDG_CACHE_HOME") or os.path.expanduser("~/.cache"), "duphangwe/edits")
# How many edits of different functions are tried by one check.
TOGETHER = 16
# How long a test may run that is not built yet, which takes it many times as long.
SECONDS = "3600"
# What is said of an edit that is refused, and of one that is caught.
GOOD = ("refused, as it must be", "caught, as it must be, by")


def edits_of(crate, gate):
    folders = [MUST_FAIL] if gate else [MUST_FAIL, OTHERS]
    return sorted(path for folder in folders for path in glob.glob(os.path.join(folder, crate, "**/*.edit"), recursive=True))


def label(crate, edit):
    return f"wrong body {crate}/{os.path.basename(edit)[:-len('.edit')]}"


def leave_one_test(folder, test):
    """Takes all other tests out of a crate, since the wanted one is seldom the first and each takes its time."""
    for path in glob.glob(os.path.join(folder, "src", "**", "*.rt"), recursive=True):
        whole = text_of(path)
        left = re.sub(rf"^(?://[^\n]*\n)*#\[test\]\nfn (?!{test}\().*?^\}}\n", "", whole, flags=re.S | re.M)
        if left != whole:
            put(left.encode(), path)


def caught(crate, edit):
    """What the tests of a crate say of an edit, tried in its own copy without any proof."""
    test = catcher(edit)
    home = next((home for home in homes_of_tests(crate) if test in tests_of(home)), None)
    if not home:
        return [f"{label(crate, edit)}: NOT CAUGHT: there is no test {test}"]
    with tempfile.TemporaryDirectory(prefix="wrong-bodies-") as room:
        copy_crates(room, list(needs()))
        bad = apply(edit, os.path.join(room, "crates", crate))
        if bad:
            return [f"{label(crate, edit)}: BAD EDIT: {bad}"]
        folder = os.path.join(room, "crates", home)
        leave_one_test(folder, test)
        words = ["rt", "try", "--test", "--seconds", SECONDS]
        done = subprocess.run(words, cwd=folder, capture_output=True, text=True, errors="replace")
    # What stands below the test's line, up to the next test: a test that is cut off has caught nothing.
    failed = re.search(rf"^test (\w+::)*{test} \.\.\. FAILED\n((?: .*\n)*)", done.stdout, re.M)
    if failed and "no-answer" not in failed.group(2):
        return [f"{label(crate, edit)}: {GOOD[1]} {test}"]
    told = "passed" if re.search(rf"^test (\w+::)*{test} \.\.\. ok", done.stdout, re.M) else "did not run"
    return [f"{label(crate, edit)}: NOT CAUGHT: {test} {told}: {(done.stdout + done.stderr).strip()[-300:]}"]


def copy_of(crate, room):
    """The folder of a new copy of a crate, without what was built."""
    folder = os.path.join(tempfile.mkdtemp(dir=room), crate)
    for part in ("src", "specs", "proofs"):
        inside = os.path.join(TOP, "crates", crate, part)
        if os.path.isdir(inside):
            shutil.copytree(inside, os.path.join(folder, part))
    return folder


def checked(crate, folder, names):
    """What a check of these functions of a copy of a crate says; of the whole crate if it knows no such functions."""
    words = [*compiler_words("check", crate, 1), "--incremental", os.path.join(os.path.dirname(os.path.dirname(folder)), "proved")]
    for chosen in ([word for name in names for word in ("--only", name)], []):
        done = subprocess.run([*words, *chosen], cwd=folder, stdout=subprocess.PIPE, stderr=subprocess.STDOUT, text=True, errors="replace")
        told = told_of(done.stdout, crate)
        if told:
            break
    return told, done.stdout


def refused_together(crate, changes, room):
    """What one check says of edits of different functions, and of each that it doesn't refuse by itself."""
    folder = copy_of(crate, room)
    for path, first, last, lines, _ in sorted((change for _, change in changes), key=lambda change: -change[1]):
        whole = text_of(folder, path).split("\n")
        put("\n".join(whole[:first] + lines + whole[last:]).encode(), folder, path)
    told, _ = checked(crate, folder, [change[-1] for _, change in changes])
    found = {edit: refusal(edit, change[-1], told) for edit, change in changes}
    good = [f"{label(crate, edit)}: {GOOD[0]}: {line[:160]}" for edit, line in found.items() if line]
    return good + [refused(crate, edit, room) for edit, refusing in found.items() if not refusing]


def refused(crate, edit, room):
    """What a check says of one edit."""
    folder = copy_of(crate, room)
    bad = apply(edit, folder)
    if bad:
        return f"{label(crate, edit)}: BAD EDIT: {bad}"
    change = change_of(edit, crate)
    called = change[-1] if change else function_of(edit)
    told, printed = checked(crate, folder, [called])
    line = refusal(edit, called, told) or (None if change else refused_lemma(called, told, printed))
    if line:
        return f"{label(crate, edit)}: {GOOD[0]}: {line[:160]}"
    why = "NOT REFUSED" if told and all(verdict == "proved" for verdict, _ in told.values()) else "NOT REFUSED FOR ITS CLAUSE"
    return f"{label(crate, edit)}: {why}: {printed.strip()[-600:]}"


def batches_of(crate, edits):
    """The edits that are tried together, with their changes, and those that are tried alone."""
    together, alone = [], []
    for edit in edits:
        change = change_of(edit, crate)
        if not change:
            alone.append(edit)
            continue
        free = lambda batch: len(batch) < TOGETHER and function_of(edit) not in [function_of(other) for other, _ in batch]
        batch = next(filter(free, together), None)
        if batch is None:
            batch = []
            together.append(batch)
        batch.append((edit, change))
    return together, alone


def refused_of(crate, edits, tell):
    """Tells what the checks of a crate say of its edits."""
    together, alone = batches_of(crate, edits)
    with tempfile.TemporaryDirectory(prefix="wrong-bodies-") as room:
        for batch in together:
            for line in refused_together(crate, batch, room):
                tell(line)
        for edit in alone:
            tell(refused(crate, edit, room))


def caught_of(crate, edit, tell):
    """Tells what the tests of a crate say of an edit."""
    for line in caught(crate, edit):
        tell(line)


def places_of(crate, edits):
    """Where it is kept that edits of a crate were refused: under the sum of all that this rests on. A test may have changed by itself."""
    rests = (sum_of_crate(crate), *(bytes_of(TOP, "tools", name) for name in ("wrong_bodies.py", "edits.py", "kit.py")))
    place = lambda edit: hashlib.sha256(repr((*rests, os.path.basename(edit), bytes_of(edit))).encode()).hexdigest()
    return {label(crate, edit): os.path.join(KEPT, place(edit)) for edit in edits if not catcher(edit)}


class Told:
    """What was said of the edits: how many were tried, and what is wrong. What is refused is kept in these places."""

    def __init__(self, places, wrong):
        self.places, self.wrong, self.count, self.lock = places, wrong, 0, threading.Lock()

    def tell(self, line):
        with self.lock:
            self.count += 1
            print(line, flush=True)
            name = line.split(":")[0]
            if not any(word in line for word in GOOD):
                self.wrong.append(line)
            elif name in self.places:
                os.makedirs(KEPT, exist_ok=True)
                put(line.encode(), self.places[name])


def try_all(left, jobs, tell):
    """Tries the edits of each crate, those of the largest crates first."""
    with concurrent.futures.ThreadPoolExecutor(jobs) as pool:
        size = lambda name: sum(map(os.path.getsize, files_of(name)))
        tasks = []
        for name in sorted(left, key=size, reverse=True):
            refusals = [edit for edit in left[name] if not catcher(edit)]
            tasks += [pool.submit(refused_of, name, refusals, tell)] if refusals else []
            tasks += [pool.submit(caught_of, name, edit, tell) for edit in filter(catcher, left[name])]
        for task in concurrent.futures.as_completed(tasks):
            task.result()


def given_words():
    words = argparse.ArgumentParser(description=__doc__.splitlines()[0])
    words.add_argument("--jobs", type=int, default=lanes(), help="copies side by side")
    words.add_argument("--only", help="the one edit of this name")
    words.add_argument("--gate", action="store_true", help="those of tools/must-fail, over what is built")
    words.add_argument("--anew", action="store_true", help="tries what an earlier run refused, too")
    words.add_argument("crates", nargs="*", metavar="CRATE")
    return words.parse_args()


def main():
    given = given_words()
    names = given.crates or list(needs())
    for name in given.crates:
        if not edits_of(name, given.gate):
            sys.exit(f"no wrong body of {name}")
    wanted = {name: [e for e in edits_of(name, given.gate) if given.only in (None, os.path.basename(e)[:-len(".edit")])] for name in names}
    wrong = [f"{edit}: names no clause" for edits in wanted.values() for edit in edits if names_nothing(edit)]
    libraries = below([name for name in names if wanted[name]])
    if wrong:
        sys.exit("\n".join(wrong))
    if not given.gate and not Builds(libraries).run():
        return 1
    for name in list(wanted):
        lacking = [other for other in below([name]) if other in needs() and not os.path.isdir(library(other))]
        if lacking and wanted[name]:
            wrong.append(f"{name}: NOT TRIED, since {lacking[0]} is not built")
            del wanted[name]
    places = {name: kept for crate, edits in wanted.items() for name, kept in places_of(crate, edits).items()}
    known = [] if given.anew else [text_of(path) for path in places.values() if os.path.exists(path)]
    left = {name: [e for e in edits if not any(line.startswith(label(name, e) + ":") for line in known)] for name, edits in wanted.items()}
    told = Told(places, wrong)
    for line in known:
        told.tell(line)
    try_all(left, given.jobs, told.tell)
    for line in wrong:
        print(line, file=sys.stderr)
    print(f"{told.count} wrong bodies, {len(known)} of them tried by an earlier run; {len(wrong)} neither refused by a contract nor caught by a test")
    return 1 if wrong or not told.count else 0


if __name__ == "__main__":
    sys.exit(main())
