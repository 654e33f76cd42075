#!/bin/sh
# A volume of papers by pdfTeX in which each font stands once.
#
# usage: examples/pool-pdf.sh [FOLDER]
# FOLDER gets the papers, volume.pdf and pooled.pdf, by default out/pool-pdf.
#
# pdfTeX cuts each font to the glyphs of one paper, so a volume of papers carries as many cuts of a font as papers. Each page of
# the pooled volume has to be, byte for byte, the image that it was.
# Needs Debian's packages texlive-base, texlive-binaries, qpdf, poppler-utils and python3-pikepdf, and the library: `make lib`, or LIBT1SUBSET.
set -eu
export LC_ALL=C

top=$(cd "$(dirname "$0")/.." && pwd)
folder=${1:-$top/out/pool-pdf}
for python in ${PYTHON:-python3 /usr/bin/python3}; do
    "$python" -c 'import pikepdf' 2>/dev/null && break
    python=
done

missing() {
    echo "$1 is missing: run \`apt-get install texlive-base texlive-binaries qpdf poppler-utils python3-pikepdf\`" >&2
    exit 1
}
[ -n "$python" ] || missing python3-pikepdf
for tool in pdftex qpdf pdftoppm; do
    command -v "$tool" >/dev/null || missing "$tool"
done

# paper NUMBER TEXT: a paper of one page in cmr10 and cmbx10.
paper() {
    printf '%s\n' '\nopagenumbers \font\x=cmr10 \font\y=cmbx10' "\\y Paper $1\\par \\x $2" '\bye' >"paper$1.tex"
    pdftex -interaction=batchmode "paper$1" >/dev/null
}

mkdir -p "$folder"
cd "$folder"
paper 1 'Subsets of one font have its name,'
paper 2 'and each has what its page needs:'
paper 3 'joined they draw every glyph.'
qpdf --empty --pages paper1.pdf paper2.pdf paper3.pdf -- volume.pdf
PYTHONPATH=$top/python PYTHONDONTWRITEBYTECODE=1 "$python" -m t1subset.pdf pooled.pdf volume.pdf
for name in volume pooled; do
    pdftoppm -r 100 "$name.pdf" "$name"
done
for page in 1 2 3; do
    cmp "volume-$page.ppm" "pooled-$page.ppm"
done
echo "$folder/volume.pdf: $(wc -c <volume.pdf) bytes; $folder/pooled.pdf, with the same pages: $(wc -c <pooled.pdf)"
