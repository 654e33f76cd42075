#!/usr/bin/env python3
"""The gate: what has to pass before anything lands. `make test` and .ci/run call it.

usage: tools/gate.py
First comes what the texts alone show, in seconds; if one of these fails, nothing else is tried. Then `rt ci` proves each crate, once,
and the tests over it, and runs these; the wrong bodies of tools/must-fail of a crate are tried as soon as it is proved, where `rt ci`
leaves processors idle. Behind it come the scripts that test what it built, those first that failed in the last run on this machine. A
crate or a script that fails is told on standard error at once, and what doesn't stand on it goes on. What a machine lacks, as a C compiler or node, is said and left out. The last lines say what
each part took; tools/make_speed.py makes the table of docs/SPEED.md of them. `rt ci` and the wrong bodies take what an earlier run
passed of the same files on this machine. Ends with status 1 if something failed.
"""
import concurrent.futures
import json
import os
import re
import resource
import shutil
import subprocess
import sys
import threading
import time

from build import is_built, mark
from common import TOP, below, compiler, is_of_tests, needs, put, say, tested, text_of
from kit import kit, lanes, library, sum_of_crate, sum_of_files
from wrong_bodies import KEPT, edits_of

TEXTS = [
    "test_lines.py", "test_vectors.py", "test_documents.py", "test_definitions.py", "test_theorem.py", "make_diagrams.py --check",
    "make_calling.py --check", "test_answers.py",
]
WRONG = "wrong_bodies.py --gate"
# What tests what was built, and the command without which it is left out, or what stands in its place then.
BEHIND = [
    ("test_program.py", None), ("test_completions.py", None), ("test_explained.py", None), ("test_header.py", None),
    ("sweep_growths.py", "cc"), ("test_library.py", "cc"), ("test_web.py", "node"), ("test_tools.py", None), ("test_borrows.py", None),
]
INSTEAD = {"test_web.py": "make_web.py --check"}
HAS = {"cc": (compiler, "C compiler"), "node": (lambda: shutil.which("node"), "node"), None: (lambda: True, "")}
FAILED_LAST = os.path.join(os.path.dirname(KEPT), "failed.json")
LOOK = 0.5
TICKS = os.sysconf("SC_CLK_TCK")


class Part:
    """What a part of the gate took, in minutes: of processors and by the clock."""

    def __init__(self, name, processors=0.0, began=None):
        self.name, self.processors, self.began, self.ended = name, processors, began, began

    def line(self):
        return f"gate: {self.name}: {self.processors:.2f} minutes of processors, {(self.ended - self.began) / 60:.2f} by the clock"


def processes():
    """Of each process of the kit's that works in this checkout: its parent, the words that it was called with, and its seconds of
    processors with those of the children that it has waited for."""
    found = {}
    for pid in filter(str.isdigit, os.listdir("/proc")):
        try:
            with open(f"/proc/{pid}/cmdline", "rb") as f:
                words = f.read().decode("utf-8", "replace").split("\0")
            if os.path.dirname(words[0]) != os.path.join(kit(), "bin") or not os.readlink(f"/proc/{pid}/cwd").startswith(TOP):
                continue
            with open(f"/proc/{pid}/stat", encoding="utf-8", errors="replace") as f:
                fields = f.read().rpartition(")")[2].split()
            found[pid] = (fields[1], words, sum(map(int, fields[11:15])) / TICKS)
        except OSError:
            pass
    return found


def part_of(words):
    """The part of the gate that a process of the kit's belongs to, by its words."""
    name = words[words.index("--crate-name") + 1] if "--crate-name" in words else None
    if name is None:
        return None
    crate = tested(name) if is_of_tests(name) else name
    if "--crate-checked" in words:
        return f"{crate}, compiled twice"
    return f"{crate}, its tests" if is_of_tests(name) or "--test" in words else f"{crate}, its proof"


class Watch(threading.Thread):
    """What `rt ci` takes for each crate, as the processes show: a process counts with the copies of itself that it waits for."""

    def __init__(self):
        super().__init__(daemon=True)
        self.seen, self.parts, self.ends = {}, {}, threading.Event()

    def look(self):
        now, found = time.time(), processes()
        for pid, (parent, words, seconds) in found.items():
            name = part_of(words)
            if name and parent not in found:
                key = (pid, tuple(words))
                self.seen[key] = (name, max(seconds, self.seen.get(key, (name, 0))[1]))
                part = self.parts.setdefault(name, Part(name, began=now))
                part.ended = now

    def run(self):
        while not self.ends.wait(LOOK):
            self.look()

    def end(self):
        """The parts, with what each took."""
        self.ends.set()
        self.join()
        for name, seconds in self.seen.values():
            self.parts[name].processors += seconds / 60
        return list(self.parts.values())


class WrongBodies:
    """The wrong bodies of each crate, which are tried once `rt ci` proved it and those below it. They give way to `rt ci`, and where
    there is room for one check alone they wait for its end. What fails beside `rt ci` is tried once more behind it, since it puts back
    at its end the libraries that stood there before."""

    def __init__(self, gate):
        self.gate, self.proved, self.begun, self.tasks = gate, set(), set(), []
        self.part, self.lock = Part(WRONG.split(" ", maxsplit=1)[0], began=time.time()), threading.Lock()
        self.lanes, self.waiting, self.behind = lanes(), [], False
        self.pool = concurrent.futures.ThreadPoolExecutor(max(1, self.lanes // 2))

    def start(self, crate):
        """Notes that a crate is proved, and begins with what waited for it."""
        self.proved.add(crate)
        for name in needs():
            if name not in self.begun and self.proved.issuperset([name, *(other for other in below([name]) if other in needs())]):
                self.begun.add(name)
                if edits_of(name, True):
                    self.waiting.append(name)
        if self.lanes > 1:
            self.submit()

    def submit(self):
        self.tasks += [self.pool.submit(self.run, name) for name in self.waiting]
        self.waiting = []

    def run(self, crate):
        words, last = f"{WRONG} --jobs 1 {crate}", self.behind
        good, part = ran_script(words, ["nice", "-n", "10"])
        with self.lock:
            self.part.processors += part.processors
            self.part.ended = part.ended
            if not good and not last:
                self.waiting.append(crate)
                return
        self.gate.told(words, good)

    def end(self):
        """Waits for all of them, and answers what they took."""
        self.behind = True
        while self.tasks or self.waiting:
            self.submit()
            self.tasks.pop(0).result()
        self.pool.shutdown()
        return self.part


def ran_script(words, front=()):
    """Runs a script of tools/, behind the words of a command that runs another, and answers whether it passed and what it took."""
    name, *more = words.split(" ")
    part = Part(name, began=time.time())
    running = subprocess.Popen([*front, sys.executable, os.path.join(TOP, "tools", name), *more], cwd=TOP, stdin=subprocess.DEVNULL)
    _, status, used = os.wait4(running.pid, 0)
    running.returncode = os.waitstatus_to_exitcode(status) if hasattr(os, "waitstatus_to_exitcode") else status >> 8 or status
    part.ended, part.processors = time.time(), (used.ru_utime + used.ru_stime) / 60
    return running.returncode == 0, part


class Gate:
    """What passed so far, what failed, what was left out, and what each part took."""

    def __init__(self):
        self.began, self.passed, self.failed, self.left_out, self.parts = time.time(), [], [], [], []
        try:
            self.last = json.loads(text_of(FAILED_LAST))
        except (OSError, ValueError):
            self.last = []

    def told(self, name, good):
        (self.passed if good else self.failed).append(name)
        if not good:
            print(f"gate: FAILED: {name}", file=sys.stderr, flush=True)

    def script(self, words):
        """Runs a script of tools/, and notes whether it passed and what it took."""
        good, part = ran_script(words)
        self.parts.append(part)
        self.told(words, good)

    def texts(self):
        """Whether all passes that the texts alone show."""
        part = Part("texts", began=time.time())
        for words in TEXTS:
            self.script(words)
            part.processors += self.parts.pop().processors
        part.ended = time.time()
        self.parts.append(part)
        return not self.failed

    def proofs(self, wrong):
        """Runs `rt ci`, tells at once what it refuses, and has the wrong bodies of what it proved tried."""
        watch, part = Watch(), Part("rt ci", began=time.time())
        sums = {crate: sum_of_files(crate) for crate in needs()}
        for crate in filter(lambda crate: os.path.isdir(library(crate)) and not is_built(crate), needs()):
            # `rt ci` puts back what stood there, which is of other files.
            shutil.rmtree(os.path.dirname(library(crate)))
        watch.start()
        running = subprocess.Popen(["rt", "ci"], cwd=TOP, stdin=subprocess.DEVNULL, stdout=subprocess.PIPE, stderr=subprocess.STDOUT)
        for line in running.stdout:
            line = line.decode("utf-8", "replace")
            print(line, end="", flush=True)
            if re.match(r"rt: .*(NOT PROVED|FAILED)", line):
                print(f"gate: {line[len('rt: '):]}", end="", file=sys.stderr, flush=True)
            proved = re.match(r"rt: (\w+) (?:proved$|is kept:)", line)
            if proved:
                wrong.start(proved[1])
        _, status, used = os.wait4(running.pid, 0)
        part.ended, part.processors = time.time(), (used.ru_utime + used.ru_stime) / 60
        of_crates = watch.end()
        part.name, part.processors = "rt ci, the rest of it", max(0, part.processors - sum(each.processors for each in of_crates))
        self.parts += [*of_crates, part]
        self.told("rt ci", status == 0)
        for crate in filter(lambda crate: status == 0 and os.path.isdir(library(crate)) and sum_of_files(crate) == sums[crate], sums):
            # What `rt ci` proved and left is what `make` makes.
            put(sum_of_crate(crate).encode(), mark(crate))

    def behind(self):
        """Runs what tests what was built: first what failed last."""
        for words, wanted in sorted(BEHIND, key=lambda step: step[0] not in self.last):
            has, what = HAS[wanted]
            if has():
                self.script(words)
                continue
            say(f"gate: no {what}: tools/{words} is left out")
            self.left_out.append(words)
            if words in INSTEAD:
                self.script(INSTEAD[words])

    def end(self):
        os.makedirs(os.path.dirname(FAILED_LAST), exist_ok=True)
        put(json.dumps(self.failed).encode(), FAILED_LAST)
        used = [resource.getrusage(who) for who in (resource.RUSAGE_SELF, resource.RUSAGE_CHILDREN)]
        whole = Part("all", sum(each.ru_utime + each.ru_stime for each in used) / 60, self.began)
        whole.ended = time.time()
        for part in [*self.parts, whole]:
            say(part.line())
        for name in self.failed:
            say(f"gate: FAILED: {name}")
        print(f"gate: {len(self.passed)} passed, {len(self.failed)} failed" + (f", {len(self.left_out)} skipped" if self.left_out else ""))
        return 1 if self.failed else 0


def main():
    gate = Gate()
    if gate.texts():
        wrong = WrongBodies(gate)
        gate.proofs(wrong)
        gate.behind()
        gate.parts.append(wrong.end())
    return gate.end()


if __name__ == "__main__":
    sys.exit(main())
