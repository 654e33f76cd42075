#!/usr/bin/env python3
"""Makes the files of web/ that nobody writes: data.js, which has the rows of the man page and an example font, and of a module for
WebAssembly module.js, from which the page also works where nothing can be fetched. With --check nothing is written, and the
status is 1 if data.js would be another one.

usage: tools/make_web.py [--check] [MODULE.wasm [FOLDER]]
"""
import base64
import json
import os
import sys
import textwrap

from common import TOP, bytes_of, example, page_rows, put, say, text_of

WEB = os.path.join(TOP, "web")


def quoted(text):
    """A text for JavaScript, in lines of which none is long."""
    lines = textwrap.wrap(text, 140, drop_whitespace=False) or [""]
    return " +\n    ".join(json.dumps(line, ensure_ascii=False) for line in lines)


def data():
    """The text of data.js."""
    rows = "".join(f"  {json.dumps(text)}:\n    {quoted(about)},\n" for text, about in page_rows().items())
    font = "".join(f"  {json.dumps(line)},\n" for line in example("tiny.pfa").decode("ascii").split("\n"))
    head = '"use strict";\n// Made by tools/make_web.py: what the man page says of each refusal, and the font of examples/tiny.pfa.\n'
    return head + f'const REFUSALS = {{\n{rows}}};\nconst EXAMPLE = [\n{font}].join("\\n");\n'


def module(wasm):
    """The text of module.js."""
    text = base64.b64encode(wasm).decode()
    return f'"use strict";\n// Made by tools/build_web.sh: the module for WebAssembly in base64.\nconst MODULE = "{text}";\n'


def main():
    words = sys.argv[1:]
    path = os.path.join(WEB, "data.js")
    if words[:1] == ["--check"]:
        if text_of(path) != data():
            sys.exit(f"{path} is stale: run tools/make_web.py")
        say("web/data.js is as the man page and examples/tiny.pfa make it")
        return
    put(data().encode(), path)
    if words:
        put(module(bytes_of(words[0])).encode(), words[1] if len(words) > 1 else WEB, "module.js")


if __name__ == "__main__":
    main()
