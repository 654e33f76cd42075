"""The fonts that the benchmarks make, and what a command costs on them."""
import os
import re
import subprocess
import sys

from common import LEAD, as_binary, glyphs_table, subrs_table

HEAD = b"%!\n/Encoding StandardEncoding def\ncurrentfile eexec\n"
TAIL = b"end\nreadonly put\nmark currentfile closefile\n"


def binary(private):
    """The font of a private text, with a raw binary cipher."""
    return as_binary(HEAD, private)


def private_text(subrs, glyphs, words=b"", lead=LEAD):
    """A private text with these words: Subrs by index, the last of which gives the declared count, and glyphs by name."""
    tables = subrs_table(subrs, subrs[-1][0] + 1, lead=lead) + b"2 index " + glyphs_table(glyphs, lead=lead)
    return b"dup /Private 9 dict dup begin\n" + words + tables + TAIL


def cost(words):
    """Processor seconds, peak kilobytes, and the first line that is printed if a command is refused, else nothing."""
    done = subprocess.run(
        ["/usr/bin/time", "-f", "%U %S %M"] + words, stdout=subprocess.DEVNULL, stderr=subprocess.PIPE, text=True
    )
    lines = done.stderr.splitlines()
    user, system, peak = lines[-1].split()
    return float(user) + float(system), int(peak), lines[0] if done.returncode else ""


def milliseconds(words):
    """The processor time of one run, which has to end well."""
    # The object stays until `wait4` has reaped the child: it would reap it itself when it goes.
    child = subprocess.Popen(words, stdout=subprocess.DEVNULL)
    _, status, used = os.wait4(child.pid, 0)
    child.returncode = status
    if status != 0:
        sys.exit(" ".join(words[:3]) + " .. failed")
    return (used.ru_utime + used.ru_stime) * 1000


def millions(command):
    """The instructions of one command, or of all parts of a pipe, in millions."""
    total = 0
    data = None
    for part in command:
        words = ["valgrind", "--tool=callgrind", "--callgrind-out-file=/dev/null"] + part
        counted = subprocess.run(words, input=data, capture_output=True)
        total += int(re.search(rb"Collected : (\d+)", counted.stderr).group(1))
        data = counted.stdout
    return total / 1e6
