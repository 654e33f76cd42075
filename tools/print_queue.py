#!/usr/bin/env python3
"""Prints documents through a queue of CUPS whose filter is examples/filter.c, and compares what the printer gets with each document
printed through a queue without it.

usage: tools/print_queue.py

A server of CUPS is started on a port of this machine alone, with its files in a folder of its own. Two papers by TeX and dvips are
printed each by itself; then both as one document (`pool --tags --dsc`), and one behind the other (`pool --tags`), through a queue whose
filter pools what it gets: all pages, some by `page-ranges`, and from the last to the first. Each page has to have the image, byte for byte,
that it has by itself. Ends with status 1 if one differs. Of documents one behind the other CUPS prints the first alone, which is only
said.

Needs root, the program (bin/t1subset, or T1SUBSET), the library that `make` built (crates/t1_c), a C compiler, and Debian's packages
cups, cups-filters, ghostscript, texlive-base and texlive-binaries.
"""
import contextlib
import os
import shutil
import subprocess
import sys
import tempfile
import time

from common import TOP, bytes_of, printed, program as named_program, put

PORT = "6631"
FILTER = "t1subset-filter"
PPD = """*PPD-Adobe: "4.3"
*FormatVersion: "4.3"
*FileVersion: "1.0"
*LanguageVersion: English
*LanguageEncoding: ISOLatin1
*PCFileName: "POOL.PPD"
*Manufacturer: "None"
*Product: "(Pool)"
*ModelName: "Pool"
*ShortNickName: "Pool"
*NickName: "Pool"
*PSVersion: "(3010.000) 0"
*LanguageLevel: "3"
*ColorDevice: False
*DefaultColorSpace: Gray
*FileSystem: False
{filter}*OpenUI *PageSize/Size: PickOne
*OrderDependency: 10 AnySetup *PageSize
*DefaultPageSize: Letter
*PageSize Letter/Letter: "<</PageSize[612 792]>>setpagedevice"
*CloseUI: *PageSize
*OpenUI *PageRegion: PickOne
*OrderDependency: 10 AnySetup *PageRegion
*DefaultPageRegion: Letter
*PageRegion Letter/Letter: "<</PageSize[612 792]>>setpagedevice"
*CloseUI: *PageRegion
*DefaultImageableArea: Letter
*ImageableArea Letter/Letter: "0 0 612 792"
*DefaultPaperDimension: Letter
*PaperDimension Letter/Letter: "612 792"
"""
SERVER = """Listen localhost:{port}
WebInterface No
Browsing Off
DefaultAuthType None
<Location />
  Order allow,deny
  Allow all
</Location>
<Policy default>
  <Limit All>
    Order allow,deny
    Allow all
  </Limit>
</Policy>
"""
FILES = """ServerRoot {root}
RequestRoot {root}/spool
CacheDir {root}/cache
StateDir {root}/state
ServerBin {root}/bin
TempDir {root}/spool/tmp
AccessLog {root}/access
ErrorLog {root}/errors
PageLog {root}/pages
FileDevice Yes
"""
NEEDS = ["cupsd", "lpadmin", "lp", "gs", "tex", "dvips", "cc"]


def words(letters, count=60):
    return " ".join(letters[at:] + letters[:at] for at in (number % len(letters) for number in range(count)))


def paper(folder, letters):
    """A document of three pages by TeX and dvips, in two fonts, with these letters."""
    pages = "".join(f"\\font\\b=cmbx10 {{\\b {page}}} {words(letters)}\\vfill\\eject\n" for page in (1, 2, 3))
    put(("\\nopagenumbers\n" + pages + "\\bye\n").encode(), folder, "doc.tex")
    printed(["tex", "-interaction=batchmode", "doc"], cwd=folder)
    printed(["dvips", "-q", "-t", "letter", "-o", "doc.ps", "doc"], cwd=folder)
    return bytes_of(folder, "doc.ps")


class Queues:
    """A server of CUPS with two queues: one whose filter pools, and one without it."""

    def __init__(self, root):
        self.root = root
        for name in ("spool/tmp", "cache", "state", "ppd", "bin"):
            os.makedirs(os.path.join(root, name))
        for at in os.listdir("/usr/lib/cups"):
            if at != "filter":
                os.symlink(os.path.join("/usr/lib/cups", at), os.path.join(root, "bin", at))
        shutil.copytree("/usr/lib/cups/filter", os.path.join(root, "bin/filter"), symlinks=True)
        library = os.path.join(TOP, "crates/t1_c/out/libt1_c.a")
        sources = [os.path.join(TOP, "examples/filter.c"), os.path.join(TOP, "c/t1subset.c"), library]
        built = os.path.join(root, "bin/filter", FILTER)
        printed(["cc", "-I", os.path.join(TOP, "include"), *sources, "-o", built, "-pthread"])
        os.chmod(built, 0o755)
        put(SERVER.format(port=PORT).encode(), root, "cupsd.conf")
        put(FILES.format(root=root).encode(), root, "cups-files.conf")
        for name in ("", "spool", "spool/tmp", "cache", "state"):
            shutil.chown(os.path.join(root, name), "root", "lp")
            os.chmod(os.path.join(root, name), 0o775)
        words_of_server = ["cupsd", "-f", "-c", os.path.join(root, "cupsd.conf"), "-s", os.path.join(root, "cups-files.conf")]
        self.server = subprocess.Popen(words_of_server, stdout=subprocess.DEVNULL, stderr=subprocess.DEVNULL)
        self.add("pooled", f'*cupsFilter: "application/vnd.cups-postscript 0 {FILTER}"\n')
        self.add("plain", "")

    def add(self, name, line):
        path = put(PPD.format(filter=line).encode(), self.root, name + ".ppd")
        out = put(b"", self.root, name + ".out")
        os.chmod(out, 0o666)
        for _ in range(50):
            done = subprocess.run(["lpadmin", "-h", f"localhost:{PORT}", "-p", name, "-E", "-v", f"file://{out}", "-P", path], capture_output=True, text=True)
            if done.returncode == 0:
                return
            time.sleep(0.2)
        sys.exit(f"lpadmin: {done.stderr}")

    def printed(self, name, document, *options):
        """What the printer of a queue gets of a document."""
        path, out = put(document, self.root, "job.ps"), os.path.join(self.root, name + ".out")
        put(b"", out)
        os.chmod(out, 0o666)
        printed(["lp", "-h", f"localhost:{PORT}", "-d", name, *options, path])
        for _ in range(300):
            time.sleep(0.2)
            if not printed(["lpstat", "-h", f"localhost:{PORT}", "-o", name]).strip() and os.path.getsize(out):
                return bytes_of(out)
        sys.exit(f"the job of {name} did not end:\n{bytes_of(self.root, 'errors').decode()[-2000:]}")

    def end(self):
        self.server.terminate()
        self.server.wait()


def images(document):
    """The images of a document's pages."""
    with tempfile.TemporaryDirectory() as folder:
        put(document, folder, "doc.ps")
        subprocess.run(["gs", "-q", "-dSAFER", "-sDEVICE=ppmraw", "-r72", "-o", "%05d.ppm", "doc.ps"], cwd=folder, capture_output=True, timeout=600)
        return [bytes_of(folder, name) for name in sorted(os.listdir(folder)) if name.endswith(".ppm")]


def pooled(documents, *options):
    with tempfile.TemporaryDirectory() as folder:
        names = [put(document, folder, f"{number}.ps") for number, document in enumerate(documents)]
        printed([named_program(), "pool", *options, os.path.join(folder, "out"), *names])
        return bytes_of(folder, "out")


def tried(queues, documents):
    """What differs, a line each."""
    own = [page for document in documents for page in images(queues.printed("plain", document))]
    one = pooled(documents, "--tags", "--dsc")
    rows = [
        ("all pages", (), own),
        ("pages 2 and 5", ("-o", "page-ranges=2,5"), [own[1], own[4]]),
        ("from the last to the first", ("-o", "outputorder=reverse"), own[::-1]),
    ]
    for name, options, wanted in rows:
        got = queues.printed("pooled", one, *options)
        same = sum(page == own_page for page, own_page in zip(images(got), wanted))
        print(f"{name}: {same} of {len(wanted)} pages right, {len(got):,} bytes of {sum(map(len, documents)):,}")
        if same != len(wanted) or len(images(got)) != len(wanted):
            yield name
    behind = len(images(queues.printed("pooled", pooled(documents, "--tags"))))
    print(f"one behind the other: CUPS prints {behind} of {len(own)} pages")


def main():
    missing = [name for name in NEEDS if not shutil.which(name)]
    if missing or os.geteuid():
        sys.exit(f"missing: {', '.join(missing) or 'root'}")
    with tempfile.TemporaryDirectory(prefix="queue-", dir="/var/tmp") as root, contextlib.ExitStack() as stack:
        documents = []
        for letters in ("abcdefgh", "qrstuvwxyz"):
            with tempfile.TemporaryDirectory() as folder:
                documents.append(paper(folder, letters))
        queues = Queues(root)
        stack.callback(queues.end)
        sys.exit(1 if list(tried(queues, documents)) else 0)


if __name__ == "__main__":
    main()
