#!/bin/sh
# Pools two documents of TeX and dvips, each with its own subset of one font, into one document with one font.
#
# usage: examples/join-dvips.sh [FONT [FOLDER]]
# FONT is TeX's name of a font whose program is Type 1, by default cmr10. FOLDER gets the documents and the images of
# their pages, by default out/join-dvips. Needs Debian's packages texlive-base, texlive-binaries and ghostscript.
set -eu
export LC_ALL=C

top=$(cd "$(dirname "$0")/.." && pwd)
program=${T1SUBSET:-$top/bin/t1subset}
font=${1:-cmr10}
folder=${2:-$top/out/join-dvips}

missing() {
    echo "$1 is missing: $2" >&2
    exit 1
}
[ -x "$program" ] || missing "$program" 'run `make`, or name the program by T1SUBSET'
for tool in tex dvips gs; do
    command -v "$tool" >/dev/null || missing "$tool" 'run `apt-get install texlive-base texlive-binaries ghostscript`'
done
mkdir -p "$folder"
cd "$folder"

# Two runs of TeX, neither of which knows of the other.
for text in 'one The first of two pages' 'two Quite another one, by 7 & 8'; do
    name=${text%% *}
    printf '\\nopagenumbers \\font\\x=%s \\x %s\\bye\n' "$font" "$(echo "${text#* }" | sed 's/&/\\&/')" >"$name.tex"
    tex -interaction=batchmode "$name" >/dev/null
    dvips -q -o "$name.ps" "$name"
done

# The joining tool has nothing but the two documents.
"$program" fonts one.ps two.ps
"$program" pool joined.ps one.ps two.ps
"$program" fonts joined.ps

for name in one two joined; do
    gs -q -dSAFER -sDEVICE=png16m -r100 -o "$name-%d.png" "$name.ps"
done
cmp one-1.png joined-1.png
cmp two-1.png joined-2.png
echo "its pages have the images of the two documents: $folder/joined-1.png and $folder/joined-2.png"
