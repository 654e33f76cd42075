#!/usr/bin/env python3
"""Rewrites a module of LLVM, as text, from 64-bit pointers to those of WebAssembly, which have 32 bits.

A pointer in memory keeps its 8 bytes, and so every offset stays as it is: a store writes the pointer with four bytes of zero
behind it, and a load reads all eight. What is only in registers is left to LLVM.

usage: tools/narrow_module.py < MODULE > NARROWED
"""
import re
import sys

LAYOUT = "e-m:e-p:32:32-p10:8:8-p20:8:8-i64:64-i128:128-n32:64-S128-ni:1:10:20"
TRIPLE = "wasm32-unknown-unknown"
# What only another processor understands.
ELSEWHERE = re.compile(r'"(?:target-cpu|target-features|probe-stack|stack-probe-size|frame-pointer)"="[^"]*" ?')
NAME = r'[%@](?:"[^"]*"|[\w.$-]+)'
# A constant of a static: a pointer, or text in which nothing is to be found.
POINTER = re.compile(rf'c?"[^"]*"|\bptr(?: getelementptr \(i8, ptr {NAME}, i64 -?\d+\)| {NAME})?')
LOAD = re.compile(rf"  ({NAME}) = load ptr, ptr (.+?), align (\d+)")
LOAD_PAIR = re.compile(rf"  ({NAME}) = load {{ (\w+), (\w+) }}, ptr (.+?), align (\d+)")
STORE = re.compile(r"  store ptr (.+), ptr (.+?), align (\d+)")
ADDRESS = re.compile(rf"  ({NAME}) = ptrtoaddr ptr (.+) to (i\d+)")
# What moves values in memory: a pointer among them has to be one of the above.
MOVED = re.compile(rf"  (?:{NAME} = )?(?:load|store|atomicrmw|cmpxchg|va_arg) (.*), ptr |  {NAME} = (?:alloca (.*), align|(ptrtoaddr) )")
ALLOCATED = re.compile(rf"  ({NAME}) = alloca ptr, align (\d+)")


def size_of(kind):
    """How many bytes a value has in memory: a pointer or an integer."""
    return 8 if kind == "ptr" else int(kind[1:]) // 8


def loaded(name, kind, place, align):
    """The lines that load a value."""
    if kind != "ptr":
        return [f"  {name} = load {kind}, ptr {place}, align {align}"]
    return [f"  {name}.wide = load i64, ptr {place}, align {align}", f"  {name} = inttoptr i64 {name}.wide to ptr"]


def loaded_pair(name, first, second, place, align):
    """The lines that load two values, one behind the other."""
    at = max(size_of(first), size_of(second))
    return [
        *loaded(f"{name}.first", first, place, align),
        f"  {name}.place = getelementptr i8, ptr {place}, i64 {at}",
        *loaded(f"{name}.second", second, f"{name}.place", 1),
        f"  {name}.half = insertvalue {{ {first}, {second} }} poison, {first} {name}.first, 0",
        f"  {name} = insertvalue {{ {first}, {second} }} {name}.half, {second} {name}.second, 1",
    ]


def widened(match):
    """A pointer of a static and four bytes behind it: in the static's type, or in its value."""
    text = match[0]
    if not text.startswith("ptr"):
        return text
    return text + (", [4 x i8]" if text == "ptr" else ", [4 x i8] zeroinitializer")


def static(line):
    """A static with wide pointers. Its alignment stands behind its value."""
    return POINTER.sub(widened, line) if " <{ " in line else line


def narrowed(line, number):
    """The lines that stand for a line of a function."""
    if found := LOAD.match(line):
        return loaded(found[1], "ptr", found[2], found[3])
    if (found := LOAD_PAIR.match(line)) and "ptr" in found.groups()[1:3]:
        return loaded_pair(*found.groups())
    if found := STORE.match(line):
        wide = f"%wide.{number}"
        return [f"  {wide} = ptrtoint ptr {found[1]} to i64", f"  store i64 {wide}, ptr {found[2]}, align {found[3]}"]
    if found := ADDRESS.match(line):
        return [f"  {found[1]} = ptrtoint ptr {found[2]} to {found[3]}"]
    if found := ALLOCATED.match(line):
        return [f"  {found[1]} = alloca i64, align {found[2]}"]
    return [known(line)]


def known(line):
    """A line that is left as it is moves no pointer in memory."""
    found = MOVED.match(line)
    if found and re.search(r"\bptr\b|ptrtoaddr", " ".join(filter(None, found.groups()))):
        sys.exit(f"a pointer in memory is not narrowed: {line}")
    return line


def main():
    for number, line in enumerate(sys.stdin):
        line = line.rstrip("\n")
        if line.startswith("target "):
            line = f'target datalayout = "{LAYOUT}"' if "datalayout" in line else f'target triple = "{TRIPLE}"'
            lines = [line]
        elif line.startswith("@"):
            lines = [static(line)]
        elif line.startswith("attributes "):
            lines = [ELSEWHERE.sub("", line)]
        else:
            lines = narrowed(line, number)
        sys.stdout.write("\n".join(lines) + "\n")


if __name__ == "__main__":
    main()
