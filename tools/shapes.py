"""The shapes of glyphs, from what `t1subset show` prints of them and from their font's FontMatrix; and in what two differ."""
import math
import re
from collections import namedtuple

import drawn
from common import Failed, bytes_of, say, segments

LETTER_OF = {"move": "M", "line": "L", "curve": "C"}
# The marks that paint. A number that is not whole; where something is closed that is no path, or a line or a curve has no
# move before it; and letters as blanks.
PAINTS = (*LETTER_OF, "close")
FRACTION = re.compile(r"-?\d+/\d+")
CLOSED = re.compile(r"(?<![^Z])Z")
MOVELESS = re.compile(r"(?<![^Z])(?=[LC])")
BLANKS = str.maketrans("MLCZ", "    ")

# A font's path, its bytes, its matrix in 1/1000 em, and its glyphs' names.
Font = namedtuple("Font", "path data matrix names")
# What `show` prints of a glyph, its font's matrix, its parts; its box and its width in 1/1000 em; or its fault.
Shape = namedtuple("Shape", "text matrix parts box width fault", defaults=(None,))
Box = namedtuple("Box", "left bottom right top")


def clear_text(data):
    """A font's text before its cipher."""
    flat = b"".join(segments(data)) if data[:1] == b"\x80" else data
    return re.split(rb"currentfile\s+eexec\b", flat, maxsplit=1)[0]


def matrix_of(data):
    """The six numbers of a font's FontMatrix, times 1000; or None if it has none that can be inverted."""
    strings = rb"\((?:\\.|[^()\\])*\)|%[^\r\n]*"
    found = re.findall(strings + rb"|/FontMatrix\s*[\[{]([^\]}]*)[\]}]", clear_text(data), re.S)
    try:
        a, b, c, d, e, f = (1000 * float(word) for word in [text for text in found if text][-1].split())
    except (IndexError, ValueError):
        return None
    return (a, b, c, d, e, f) if abs(a * d - b * c) > 0 and all(map(math.isfinite, (a, b, c, d, e, f))) else None


def read_font(words, path):
    """The font of a file; what goes wrong ends the run with a message that names the file."""
    try:
        data = bytes_of(path)
        names = drawn.names_in(words, data)
    except OSError as fault:
        raise Failed(f"{path}: {fault.strerror}")
    except (Failed, MemoryError) as fault:
        raise Failed(f"{path}: {fault or 'out of memory'}")
    matrix = matrix_of(data)
    if not matrix:
        say(f"{path}: no FontMatrix that can be read: drawn at 1/1000")
    return Font(path, data, matrix or (1, 0, 0, 1, 0, 0), names)


def number(text):
    """A number as `show` prints it: whole units, or a count of 1/65536 unit."""
    count, _, unit = text.partition("/")
    return int(count) / int(unit) if unit else int(count)


def short(value):
    """A number as a path has it."""
    text = f"{value:.4f}".rstrip("0").rstrip(".")
    return "0" if text == "-0" else text


def moved(matrix, x, y):
    a, b, c, d, e, f = matrix
    return a * x + c * y + e, b * x + d * y + f


def whole(path, bearing):
    """A path whose lines and curves all have a move before them, and which closes nothing else."""
    path = CLOSED.sub("", path)

    def last_place(found):
        """A line without a move begins where the last one ended, or at the side bearing point."""
        return "M" + " ".join((bearing + " " + path[:found.start()].translate(BLANKS)).split()[-2:])

    return MOVELESS.sub(last_place, path)


class Part:
    """A part of a glyph in the font's units, with y upwards: its offset and its path, made of the lines of its marks."""

    def __init__(self, offset, marks, bearing):
        self.offset = tuple(map(number, offset))
        path = "".join(line for line in marks.splitlines() if line.startswith(PAINTS)).replace("close", "Z")
        for mark, letter in LETTER_OF.items():
            path = path.replace(mark + " ", letter)
        if "/" in path:
            path = FRACTION.sub(lambda found: short(number(found[0])), path)
        is_whole = path.startswith("M") and not any(pair in path for pair in ("ZL", "ZC", "ZZ"))
        self.path = path if is_whole else whole(path, bearing)

    def corners(self):
        """The corners of the box around all coordinates."""
        numbers = list(map(float, self.path.translate(BLANKS).split()))
        if not numbers:
            return []
        (dx, dy), xs, ys = self.offset, numbers[::2], numbers[1::2]
        return [(x + dx, y + dy) for x in (min(xs), max(xs)) for y in (min(ys), max(ys))]


def parts_of(text):
    """The parts of a glyph, from what `show` prints of it."""
    head, *parts = re.split(r"^part (\S+) (\S+)\n", text, flags=re.M)
    bearing = " ".join(short(number(value)) for value in head.splitlines()[1].split(" ")[1:])
    return [Part(parts[at:at + 2], parts[at + 2], bearing) for at in range(0, len(parts), 3)]


def shape_of(text, matrix):
    """The shape of a glyph, from what `show` prints of it."""
    lines = text.splitlines()
    if not text.startswith("width "):
        fault = lines[0].replace("fault ", "", 1) if lines else "nothing is shown"
        return Shape(text, matrix, [], Box(0, 0, 500, 700), (0, 0), fault)
    across, up = map(number, lines[0].split(" ")[1:])
    a, b, c, d, _, _ = matrix
    width = (a * across + c * up, b * across + d * up)
    parts = parts_of(text)
    xs, ys = zip((0, 0), width, *(moved(matrix, x, y) for part in parts for x, y in part.corners()))
    return Shape(text, matrix, parts, Box(min(xs), min(ys), max(xs), max(ys)), width)


def outline(shape):
    """What a shape paints, mark by mark, in the font's units from its origin."""
    dx, dy = 0, 0
    for mark, *values in (line.split(" ") for line in shape.text.splitlines()):
        if mark == "part":
            dx, dy = map(number, values)
        elif mark in PAINTS:
            yield mark, [number(value) + (dy if at % 2 else dx) for at, value in enumerate(values)]


def near(one, other):
    """Whether numbers are the same but for the rounding of a FontMatrix."""
    return len(one) == len(other) and all(abs(x - y) < 0.01 for x, y in zip(one, other))


def paints_alike(one, other):
    """Whether two shapes have the same outline."""
    ours, theirs = list(outline(one)), list(outline(other))
    if [mark for mark, _ in ours] != [mark for mark, _ in theirs]:
        return False
    if one.matrix == other.matrix:
        return ours == theirs
    pairs = zip(ours, theirs)
    return all(near(placed(one.matrix, left), placed(other.matrix, right)) for (_, left), (_, right) in pairs)


def placed(matrix, numbers):
    """Coordinates in 1/1000 em."""
    return [value for x, y in zip(numbers[::2], numbers[1::2]) for value in moved(matrix, x, y)]


def beside_outline(shape):
    """The line of a glyph's side bearing, and those of its hints."""
    lines = [line for line in shape.text.splitlines() if not line.startswith((*PAINTS, "part", "width"))]
    return lines[0], lines[1:]


def differences(one, other):
    """In what two shapes differ, of which one may be None: words, none if they don't."""
    if not (one and other):
        return ["only on the left" if one else "only on the right"]
    if one.text == other.text and one.matrix == other.matrix:
        return []
    if one.fault or other.fault:
        return ["fault"] if one.fault != other.fault else []
    same_units = one.matrix == other.matrix
    same_width = one.width == other.width if same_units else near(one.width, other.width)
    found = ([] if same_width else ["width"]) + ([] if paints_alike(one, other) else ["outline"])
    if same_units:
        # In different units these are not compared.
        (bearing, hints), (other_bearing, other_hints) = beside_outline(one), beside_outline(other)
        found += ["bearing"] if bearing != other_bearing else []
        found += ["hints"] if hints != other_hints else []
    return found


def shapes_of(words, font, names):
    """The shape of each of these names that the font has, by name."""
    has = set(font.names)
    here = [name for name in names if name in has]
    try:
        texts = drawn.drawings(words, font.data, here, len(font.names))
    except (Failed, MemoryError) as fault:
        raise Failed(f"{font.path}: {fault or 'out of memory'}")
    return {name: shape_of(text, font.matrix) for name, text in zip(here, texts)}
