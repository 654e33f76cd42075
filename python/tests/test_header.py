"""The package says what include/t1subset.h says."""

from __future__ import annotations

import ctypes
import os
import re
import shutil
import subprocess
import tempfile
import unittest
from typing import Dict

import t1subset
from t1subset import _calls, _library

from . import fonts, left_out

with open(os.path.join(fonts.TOP, "include", "t1subset.h"), encoding="ascii") as _file:
    HEADER = _file.read()

PROGRAM = """
#include "t1subset.h"
#include <stdio.h>
#define AT(type, field) printf("%s.%s %zu\\n", #type, #field, offsetof(type, field))
int main(void) {
    AT(t1subset_bytes, data);
    AT(t1subset_bytes, size);
    AT(t1subset_answer, detail);
    AT(t1subset_answer, input);
    AT(t1subset_answer, bytes.data);
    AT(t1subset_answer, bytes.size);
    AT(t1subset_limits, tokens);
    printf("%zu %zu ", sizeof(t1subset_bytes), sizeof(t1subset_answer));
    printf("%zu\\n", sizeof(t1subset_limits));
}
"""


def enumerated(name: str) -> Dict[str, int]:
    """The numbers of an enum of the header, by their names without T1SUBSET_."""
    found = re.search(r"enum %s \{(.*?)\n\};" % name, HEADER, re.DOTALL)
    assert found, name
    without_comments = re.sub(r"/\*.*?\*/", "", found[1], flags=re.DOTALL)
    return {key: int(number) for key, number in re.findall(r"T1SUBSET_(\w+) = (\d+)", without_comments)}


class Header(unittest.TestCase):
    def test_numbers(self) -> None:
        self.assertEqual({it.name: int(it) for it in t1subset.Number}, enumerated("t1subset_number"))

    def test_parts(self) -> None:
        self.assertEqual({"PART_" + it.name: int(it) for it in t1subset.Part}, enumerated("t1subset_part"))

    def test_forms(self) -> None:
        self.assertEqual({it.name: _calls._FORMS[it] for it in t1subset.Form}, enumerated("t1subset_form"))

    def test_calls(self) -> None:
        pattern = r"^uint32_t (t1subset_\w+)\([^;]*t1subset_answer \*answers?\);"
        declared = set(re.findall(pattern, HEADER, re.MULTILINE))
        self.assertEqual(set(_library._CALLS), declared)
        for name in declared:
            call = getattr(_library.library, name)
            found = re.search(rf"^uint32_t {name}\(([^;]*)\);", HEADER, re.MULTILINE)
            assert found
            self.assertEqual(len(call.argtypes), found[1].count(",") + 1, name)
            self.assertIs(call.restype, ctypes.c_uint32)

    def test_version(self) -> None:
        found = re.search(r"#define T1SUBSET_VERSION (0x[0-9a-f]+)u", HEADER)
        assert found
        number = int(found[1], 16)
        self.assertEqual(t1subset.__version__, f"{number >> 16}.{number >> 8 & 255}.{number & 255}")

    def test_layout(self) -> None:
        compiler = os.environ.get("CC") or next(filter(shutil.which, ("cc", "gcc", "clang")), None)
        if not compiler:
            left_out("no C compiler: the layouts of the structs are not compared with the header")
            self.skipTest("no C compiler")
        with tempfile.TemporaryDirectory() as folder:
            source, program = os.path.join(folder, "layout.c"), os.path.join(folder, "layout")
            with open(source, "w", encoding="ascii") as file:
                file.write(PROGRAM)
            include = "-I" + os.path.join(fonts.TOP, "include")
            subprocess.run([*compiler.split(), include, "-o", program, source], check=True)
            said = subprocess.run([program], check=True, stdout=subprocess.PIPE).stdout.decode()
        given, answer, limits = _library.Given, _library.Answer, _library.Limits
        rows = [
            ("t1subset_bytes.data", given.data.offset),
            ("t1subset_bytes.size", given.size.offset),
            ("t1subset_answer.detail", answer.detail.offset),
            ("t1subset_answer.input", answer.input.offset),
            ("t1subset_answer.bytes.data", answer.data.offset),
            ("t1subset_answer.bytes.size", answer.size.offset),
            ("t1subset_limits.tokens", limits.tokens.offset),
            (f"{ctypes.sizeof(given)} {ctypes.sizeof(answer)}", ctypes.sizeof(limits)),
        ]
        self.assertEqual(said, "".join(f"{name} {number}\n" for name, number in rows))
