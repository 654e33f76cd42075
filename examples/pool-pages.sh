#!/bin/sh
# Two documents of TeX and dvips in one: with each font twice, and pooled. It makes the pictures of README.
#
# usage: examples/pool-pages.sh [FOLDER]
# FOLDER gets the documents and the images of their pages, by default out/pool-pages.
#
# A document whose pages can be reordered, previewed and put two on a sheet has what its pages need before the first page.
# So joined.ps has the headers of both documents, and then both pages. The font that was defined last then stands for both
# of its name, and page 1 lacks the glyphs that only the first subset has. `pool` makes both subsets one: each page then has
# the image, byte for byte, that it has where both documents carry the whole font.
# Needs Debian's packages texlive-base, texlive-binaries and ghostscript.
set -eu
export LC_ALL=C

top=$(cd "$(dirname "$0")/.." && pwd)
program=${T1SUBSET:-$top/bin/t1subset}
folder=${1:-$top/out/pool-pages}

missing() {
    echo "$1 is missing: $2" >&2
    exit 1
}
[ -x "$program" ] || missing "$program" 'run `make`, or name the program by T1SUBSET'
for tool in tex dvips gs; do
    command -v "$tool" >/dev/null || missing "$tool" 'run `apt-get install texlive-base texlive-binaries ghostscript`'
done

# document NAME TEXT: a page of 9 by 2.4 centimetres in cmr10, with a subset of it and, as whole-NAME, with the whole font.
document() {
    printf '%s\n' '\nopagenumbers \hoffset=-2.1cm \voffset=-2cm \hsize=8cm \parindent=0pt \font\x=cmr10 scaled\magstep2 \x' "$2" \
        '\bye' >"$1.tex"
    tex -interaction=batchmode "$1" >/dev/null
    dvips -q -T 9cm,2.4cm -o "$1.ps" "$1"
    dvips -q -j0 -T 9cm,2.4cm -o "whole-$1.ps" "$1"
}

# page NUMBER DOCUMENT: the document's page with this number.
page() {
    echo "%%Page: $1 $1"
    sed -e '1,/^%%Page: /d' -e '/^%%Trailer/,$d' "$2"
}

# join ONE TWO: the headers of two documents, and then their pages.
join() {
    for name; do
        sed -e '/^%%Page: /,$d' -e 's/^%%Pages: .*/%%Pages: 2/' "$name.ps"
    done
    page 1 "$1.ps"
    page 2 "$2.ps"
    printf '%%%%Trailer\n%%%%EOF\n'
}

mkdir -p "$folder"
cd "$folder"

# Neither run of TeX knows of the other.
document one 'Invoice 17 of 28 May\par 12 widgets, \$40 each: \$480'
document two 'Please note: our shop moves\par next week, to Sea Road.'
join one two >joined.ps
join whole-one whole-two >whole.ps
"$program" pool pooled.ps joined.ps

for name in joined pooled whole; do
    gs -q -dSAFER -dBATCH -dNOPAUSE -sDEVICE=pnggray -r144 -dTextAlphaBits=4 -dGraphicsAlphaBits=4 -o "$name-%d.png" "$name.ps"
done
if cmp -s whole-1.png joined-1.png; then
    echo 'page 1 of joined.ps lacks no glyph' >&2
    exit 1
fi
cmp whole-1.png pooled-1.png
cmp whole-2.png pooled-2.png
echo "before: $folder/joined-1.png; after, as with the whole font: $folder/pooled-1.png"
