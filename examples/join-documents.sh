#!/bin/sh
# Pools two PostScript documents, each with its own subset of one font, into one document with one font.
#
# usage: examples/join-documents.sh [FONT [FOLDER]]
# FONT is a Type 1 font with the glyphs of the two texts below, by default one of Debian's package fonts-urw-base35.
# FOLDER gets the documents and the images of their pages, by default out/join-documents.
#
# A document that had both subsets before its pages would draw with the last of them, and lack glyphs.
# The merged font has the glyphs of both, so each page of the joined document has exactly the image that it had before.
set -eu
export LC_ALL=C

top=$(cd "$(dirname "$0")/.." && pwd)
program=${T1SUBSET:-$top/bin/t1subset}
font=${1:-/usr/share/fonts/type1/urw-base35/C059-Roman.t1}
folder=${2:-$top/out/join-documents}

missing() {
    echo "$1 is missing: $2" >&2
    exit 1
}
[ -x "$program" ] || missing "$program" 'run `make`, or name the program by T1SUBSET'
[ -r "$font" ] || missing "$font" 'run `apt-get install fonts-urw-base35`, or name a font'
command -v gs >/dev/null || missing gs 'run `apt-get install ghostscript`'

# The name by which a font, as PFA, defines itself. Some fonts end their lines by CR.
name_of() {
    tr '\r' '\n' <"$1" | sed -n 's|^ */FontName */\([^ ]*\).*|\1|p'
}

# page FONTNAME GLYPH...: a page that sets these glyphs. FontDirectory has no font but those that the document defines.
page() {
    echo "FontDirectory /$1 get 40 scalefont setfont 20 30 moveto"
    shift
    printf '/%s glyphshow\n' "$@"
    echo showpage
}

# document FONT PAGE: a document with this font, a PFA, and this page.
document() {
    printf '%%!PS-Adobe-3.0\n%%%%Pages: 1\n%%%%EndComments\n%%%%BeginSetup\n'
    echo "%%BeginFont: $(name_of "$1")"
    cat "$1"
    printf '%%%%EndFont\n%%%%EndSetup\n%%%%Page: 1 1\n'
    cat "$2"
    echo '%%EOF'
}

mkdir -p "$folder"

# Two programs write a document each, and neither knows of the other.
for text in 'one F i r s t space p a g e' 'two S e c o n d space p a g e'; do
    set -- $text
    this=$folder/$1
    shift
    "$program" subset "$font" "$this.pfa" "$@"
    page "$(name_of "$this.pfa")" "$@" >"$this.page"
    document "$this.pfa" "$this.page" >"$this.ps"
    rm "$this.pfa" "$this.page"
done

# The joining tool has nothing but the two documents.
"$program" fonts "$folder/one.ps" "$folder/two.ps"
"$program" pool "$folder/joined.ps" "$folder/one.ps" "$folder/two.ps"
"$program" fonts "$folder/joined.ps"

for name in one two joined; do
    gs -q -dSAFER -sDEVICE=png16m -r144 -g720x200 -o "$folder/$name-%d.png" "$folder/$name.ps"
done
cmp "$folder/one-1.png" "$folder/joined-1.png"
cmp "$folder/two-1.png" "$folder/joined-2.png"
echo "its pages have the images of the two documents: $folder/joined-1.png and $folder/joined-2.png"
