"""What the scripts of tools/ and bench/ share: files, runs of the program, the ciphers, segments, and the parts of made fonts."""
import glob
import os
import re
import shutil
import subprocess
import sys

TOP = os.path.dirname(os.path.dirname(os.path.abspath(__file__)))
# What `rt ci` leaves: the program as LLVM builds it, and as Rattle's own compiler does.
BUILDS = [os.path.join(TOP, "crates/t1subset/out/t1subset" + by) for by in ("", ".by-rattle")]
TINY, TINY_PFB = (os.path.join(TOP, "examples/tiny." + form) for form in ("pfa", "pfb"))

# The keys of the cipher, for the private text and for charstrings; and how many bytes stand before the private text.
EEXEC, CHARSTRING, LEAD = 55665, 4330, 4
TRAILER = (b"0" * 64 + b"\n") * 8 + b"cleartomark\n"

# Commands of charstrings.
LINE, CLOSE, CALL, RETURN, HSBW, ENDCHAR, MOVE = b"\x05", b"\x09", b"\x0a", b"\x0b", b"\x0d", b"\x0e", b"\x15"
# `0 250 hsbw`, and `0 250 hsbw endchar`.
WIDTH, EMPTY = b"\x8b\xf7\x8e\x0d", b"\x8b\xf7\x8e\x0d\x0e"


def bytes_of(*path):
    with open(os.path.join(*path), "rb") as f:
        return f.read()


def text_of(*path):
    with open(os.path.join(*path), encoding="utf-8") as f:
        return f.read()


def put(data, *path):
    """Writes a file, and answers its path."""
    with open(os.path.join(*path), "wb") as f:
        f.write(data)
    return os.path.join(*path)


def put_between(text, maker, name, lines):
    """A page with these lines in its part of this name, which says by which script of tools/ it is made."""
    begin, end = f"<!-- The {name} is made by tools/{maker}. -->\n", f"<!-- The {name} ends here. -->\n"
    before, behind = text.split(begin)[0], text.split(end)[1]
    return before + begin + "\n" + "\n".join(lines) + "\n\n" + end + behind


def example(name):
    """A file of examples/."""
    return bytes_of(TOP, "examples", name)


def say(text):
    print(text, file=sys.stderr)


def program(path=None):
    """The program of this path, or that the variable T1SUBSET names, or bin/t1subset. A script ends if it isn't there."""
    path = path or os.environ.get("T1SUBSET") or os.path.join(TOP, "bin/t1subset")
    if not (os.path.isfile(path) and os.access(path, os.X_OK)):
        sys.exit(f"{path} is missing, or no program: run `make`, or name the program by T1SUBSET")
    return path


def compiler(names=("cc", "gcc", "clang")):
    """The first of these commands that is here, or None."""
    return next(filter(shutil.which, names), None)


class Failed(SystemExit):
    """A run that didn't end well. A script that doesn't catch it ends with its text."""


def ran(words, **how):
    """What a run prints; it has to end well."""
    try:
        done = subprocess.run(words, capture_output=True, timeout=300, **how)
    except subprocess.TimeoutExpired as late:
        raise Failed(str(late))
    if done.returncode:
        said = (done.stdout + done.stderr).decode("utf-8", "replace")
        raise Failed(f"{' '.join(words)}: status {done.returncode}\n{said}")
    return done.stdout


def printed(words, **how):
    """The same as text."""
    return ran(words, **how).decode("utf-8", "replace")


def page_rows():
    """The texts of refusals and failures in the man page, and what it says of each."""
    page = text_of(TOP, "docs/t1subset.1")
    found = re.findall(r"^\.TP\n\.B (.*)\n(.*)\n", re.search(r"^\.SH DIAGNOSTICS\n(.*?)^\.SH ", page, re.M | re.S)[1], re.M)
    plain = [[re.sub(r"\\f[BIRP]", "", text).replace("\\-", "-") for text in row] for row in found]
    return {text: about for texts, about in plain for text in re.split("[,;] ", texts.replace(", used", " used"))}


def glyphs_in(listed):
    """The names of glyphs in what `list` prints, as they stand there."""
    return [line.split(" ")[1] for line in listed.splitlines() if line.startswith("glyph ")]


def spread_names(program, font, count):
    """So many names at even distances, without `.notdef` and those that `list` prints otherwise than they are given."""
    names = [name for name in glyphs_in(printed([program, "list", font])) if name != ".notdef" and "\\" not in name]
    if not names:
        sys.exit(f"{font} has no glyph but .notdef")
    return [names[at * len(names) // count] for at in range(count)]


def needs():
    """What each crate depends on, by its name, lowest first as in crates.txt."""
    lines = [line.split("#")[0].split(":") for line in text_of(TOP, "crates.txt").splitlines() if ":" in line.split("#")[0]]
    return {name.split()[0]: deps.split() for name, deps in lines}


def below(names):
    """The crates of this repository that these depend on, lowest first."""
    wanted = set()
    for crate, deps in reversed(needs().items()):
        if crate in names or crate in wanted:
            wanted.update(deps)
    return [crate for crate in needs() if crate in wanted]


def is_of_tests(crate):
    """Whether a crate has nothing but tests, and what they share."""
    return crate.endswith("_tests")


def tested(home):
    """The crate whose tests a crate of tests has, CRATE_tests or CRATE_SUBJECT_tests: of those whose names begin its own the longest."""
    return max((crate for crate in needs() if not is_of_tests(crate) and home.startswith(crate + "_")), key=len)


def homes_of_tests(crate):
    """The crates in which the tests of a crate stand: those above it that have nothing else, or the crate itself."""
    return [home for home in needs() if is_of_tests(home) and tested(home) == crate] or [crate]


def files_of_tests(home):
    """The paths of the files in which the tests of a crate stand, and what they share."""
    source = os.path.join(TOP, "crates", home, "src")
    paths = sorted(glob.glob(source + "/**/*.rt", recursive=True))
    return [path for path in paths if is_of_tests(home) or "/tests" in path[len(source):]]


def tests_of(home):
    """The names of the tests that stand in a crate."""
    return [name for path in files_of_tests(home) for name in re.findall(r"^#\[test\]\nfn (\w+)", text_of(path), re.M)]


def copy_crates(room, names):
    """A copy of these crates with what was built of their libraries."""
    kept = [line for line in text_of(TOP, "crates.txt").splitlines(True) if re.match(r"\w*", line)[0] in names]
    put("".join(kept).encode(), room, "crates.txt")
    shutil.copy(os.path.join(TOP, "HANDLES"), room)
    for crate in names:
        for part in ("src", "specs", "proofs", "out/rlib"):
            inside = os.path.join(TOP, "crates", crate, part)
            if os.path.isdir(inside):
                shutil.copytree(inside, os.path.join(room, "crates", crate, part), symlinks=True)


def ciphered(text, key, opens=False):
    """A text encrypted, or with `opens` decrypted."""
    out = bytearray()
    for byte in text:
        other = byte ^ key >> 8
        key = ((byte if opens else other) + key) * 52845 + 22719 & 0xFFFF
        out.append(other)
    return bytes(out)


def sealed(text, key, lead=LEAD):
    """A text behind so many bytes of zero, encrypted."""
    return ciphered(bytes(lead) + text, key)


def number(value):
    """An integer as a charstring has it, in the shortest form."""
    if -107 <= value <= 107:
        return bytes([value + 139])
    if 108 <= abs(value) <= 1131:
        high, low = divmod(abs(value) - 108, 256)
        return bytes([high + (247 if value > 0 else 251), low])
    return b"\xff" + value.to_bytes(4, "big", signed=True)


def entry(key, plain, end, lead=LEAD):
    """An entry of a table: its key, its charstring behind so many lead bytes, encrypted, and what ends it."""
    return key + b" %d RD " % (lead + len(plain)) + sealed(plain, CHARSTRING, lead) + end


def subrs_table(subrs, declared, end=b" NP\n", lead=LEAD):
    """The table of Subrs, whose indices and charstrings are given, and how many it declares."""
    entries = [entry(b"dup %d" % index, plain, end, lead) for index, plain in subrs]
    return b"/Subrs %d array\n" % declared + b"".join(entries) + b"ND\n"


def glyphs_table(glyphs, end=b" ND\n", lead=LEAD):
    """The table of glyphs, whose names and charstrings are given."""
    entries = [entry(b"/" + name, plain, end, lead) for name, plain in glyphs]
    return b"/CharStrings %d dict dup begin\n" % len(entries) + b"".join(entries) + b"end\n"


def as_binary(clear, private):
    """A font of a clear text and a private text, with a raw binary cipher and nothing behind it."""
    return clear + sealed(private, EEXEC)


def as_pfa(clear, private):
    """The same as PFA, in lines of 64 digits."""
    digits = sealed(private, EEXEC).hex()
    lines = "".join(digits[at:at + 64] + "\n" for at in range(0, len(digits), 64))
    return clear + lines.encode() + TRAILER


def made_font(clear, subrs, glyphs):
    """The canonical PFA of a clear text, of Subrs, a list, and of glyphs by name."""
    tables = subrs_table(enumerate(subrs), len(subrs)) + b"2 index " + glyphs_table(sorted(glyphs.items()))
    private = b"/Private 3 dict dup begin\n" + tables + b"end\nmark currentfile closefile\n"
    return as_pfa(clear + b"currentfile eexec\n", private)


def as_pfb(pfa):
    """A canonical PFA as PFB: the segments of the clear text, of the cipher and of the trailer, and the end."""
    clear, behind = pfa.split(b"eexec\n")
    cipher, trailer = behind[:-len(TRAILER)], behind[-len(TRAILER):]
    parts = [(1, clear + b"eexec\n"), (2, bytes.fromhex(cipher.decode())), (1, trailer)]
    return b"".join(b"\x80" + bytes([kind]) + len(text).to_bytes(4, "little") + text for kind, text in parts) + b"\x80\x03"


def segments(pfb):
    """What the segments of a PFB hold, as far as they are whole."""
    at = 0
    while pfb[at:at + 2] in (b"\x80\x01", b"\x80\x02"):
        size = int.from_bytes(pfb[at + 2:at + 6], "little")
        yield pfb[at + 6:at + 6 + size]
        at += 6 + size
