#!/usr/bin/env python3
"""Checks the documents: each link of a page to a file or to a heading of a page leads there, the files and calls that pages name
between backticks by a path are there, and docs/DECISIONS.md has one number after the other and at most 2,500 words.

usage: tools/test_documents.py
Ends with status 1 if something is missing.
"""
import glob
import os
import re
import sys

from common import TOP, say, text_of

LINK = re.compile(r"\]\(([^)\s]+)\)")
# A path between backticks, from a folder of the repository on; what is in capitals stands for any name.
NAMED = re.compile(r"`((?:tools|docs|bench|examples|packaging|python|rust|include|c)/[\w./-]+|crates/\w+/(?:src|specs|proofs)/[\w./-]+)`")
WORDS = 2500


def pages():
    found = glob.glob(os.path.join(TOP, "*.md")) + glob.glob(os.path.join(TOP, "docs/*.md")) + glob.glob(os.path.join(TOP, "crates/*/*.md"))
    return sorted(found + [os.path.join(TOP, folder, "README.md") for folder in ("python", "rust")])


def anchors(text):
    """What a link to a heading of a page says behind `#`."""
    heads = re.findall(r"^#+ (.*)$", text, re.M)
    return {re.sub(r"[^\w -]", "", head.lower()).replace(" ", "-") for head in heads}


def broken(page):
    """The links of a page that lead nowhere."""
    text = text_of(page)
    for link in LINK.findall(text):
        if "://" in link:
            continue
        path, _, anchor = link.partition("#")
        target = os.path.normpath(os.path.join(os.path.dirname(page), path)) if path else page
        if not os.path.exists(target):
            yield f"link to {link}, which isn't there"
        elif anchor and anchor not in anchors(text_of(target)):
            yield f"link to {link}, which has no such heading"
    for path in set(NAMED.findall(text)):
        if not re.search(r"\b[A-Z]{2,}\b", path) and not os.path.exists(os.path.join(TOP, path)) and not glob.glob(os.path.join(TOP, path) + "*"):
            yield f"names {path}, which isn't there"


def decisions():
    """What is wrong with the numbers and the length of docs/DECISIONS.md."""
    text = text_of(TOP, "docs/DECISIONS.md")
    numbers = [int(number) for number in re.findall(r"^(\d+)\. ", text, re.M)]
    if numbers != list(range(1, len(numbers) + 1)) or re.search(r"^[-*] ", text, re.M):
        yield "docs/DECISIONS.md: the decisions aren't numbered one after the other"
    if len(text.split()) > WORDS:
        yield f"docs/DECISIONS.md has {len(text.split())} words, at most {WORDS}"


def main():
    faults = [f"{os.path.relpath(page, TOP)}: {fault}" for page in pages() for fault in broken(page)] + [*decisions()]
    for fault in faults:
        say(fault)
    print(f"{len(pages())} pages, {len(faults)} faults")
    return int(bool(faults))


if __name__ == "__main__":
    sys.exit(main())
