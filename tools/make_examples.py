#!/usr/bin/env python3
"""Makes the listings in examples/: two listings of real size, their join, and a pair that is refused.

The charstrings are short programs of our own: hint lines, moves and boxes with varied numbers.
usage: tools/make_examples.py FOLDER
"""
import sys

from common import number, put


def subr(i):
    if i < 4:
        usual = ["8e8b0c100c110c110c210b", "8b8c0c100b", "8b8d0c100b", "0b"]
        return bytes.fromhex(usual[i])
    if i % 7 == 0:
        return bytes([11])
    return number(i * 5 - 400) + number(i % 90) + bytes([1, 11])


def glyph(i):
    side = 20 + 3 * i % 80
    box = number(100 + i) + bytes([6]) + number(700 - i) + bytes([7]) + number(-100 - i) + bytes([6, 9, 14])
    call = number(4 + i % 190) + bytes([10])
    return number(side) + number(500 + i) + bytes([13]) + number(0) + bytes([22]) + call + box


def name(i):
    letters = "ABCDEFGHIJKLMNOPQRSTUVWXYZ"
    return letters[i % 26] + ("" if i < 26 else ".alt%d" % (i // 26))


def text(subrs, glyphs):
    lines = ["S %d %s\n" % (i, subrs[i].hex()) for i in sorted(subrs)]
    lines += ["G %s %s\n" % (n, glyphs[n].hex()) for n in sorted(glyphs, key=lambda n: n.encode())]
    return "".join(lines)


def main(folder):
    left = ({i: subr(i) for i in range(0, 200)}, {name(i): glyph(i) for i in range(0, 200)})
    right = ({i: subr(i) for i in range(0, 300, 2)}, {name(i): glyph(i) for i in range(100, 300)})
    both = ({**left[0], **right[0]}, {**left[1], **right[1]})
    other = (dict(right[0]), dict(right[1]))
    other[0][150] = bytes([11])
    for file, listing in [("left", left), ("right", right), ("both", both), ("other", other)]:
        put(text(*listing).encode(), folder, file + ".listing")


if __name__ == "__main__":
    if len(sys.argv) != 2:
        sys.exit(__doc__)
    main(sys.argv[1])
