#!/bin/sh
# Makes libt1subset.a, libt1subset.so.0 and t1subset.pc from the crate t1_c and c/t1subset.c.
#
# usage: tools/build_library.sh [FOLDER]    by default lib/
#
# tools/build.py proves and compiles t1_c. T1_C names another archive, for example one for another target; CC, CFLAGS,
# LDFLAGS, LD, AR and OBJCOPY are those of that target then.
set -e
top=$(cd "$(dirname "$0")/.." && pwd)
mkdir -p "${1:-$top/lib}"
out=$(cd "${1:-$top/lib}" && pwd)
cd "$top"
version=$(sed -n '1s/.*"t1subset \([0-9.]*\)".*/\1/p' docs/t1subset.3)
soname=libt1subset.so.${version%%.*}

if [ -z "$T1_C" ]; then
    tools/build.py t1_c
    T1_C=crates/t1_c/out/libt1_c.a
fi
T1_C=$(cd "$(dirname "$T1_C")" && pwd)/$(basename "$T1_C")
work=$(mktemp -d)
trap 'rm -rf "$work"' EXIT
cd "$work"
"${AR:-ar}" x "$T1_C"
${CC:-cc} -std=c11 -O2 $CPPFLAGS $CFLAGS -fPIC -fno-lto -I"$top/include" -c "$top/c/t1subset.c" -o heap.o
# One object, in which the calls alone are global: another Rattle library has a heap of the same names.
"${LD:-ld}" -r -o t1subset.o ./*.o
"${OBJCOPY:-objcopy}" --wildcard --keep-global-symbol='t1subset_*' t1subset.o
rm -f "$out/libt1subset.a"
"${AR:-ar}" rcsD "$out/libt1subset.a" t1subset.o
${CC:-cc} -shared -o "$out/libt1subset.so.$version" t1subset.o $CFLAGS -Wl,-soname,"$soname" \
    -Wl,--version-script="$top/c/t1subset.map" -Wl,--gc-sections -Wl,-z,defs -Wl,-z,now -Wl,-z,noexecstack $LDFLAGS
ln -sf "libt1subset.so.$version" "$out/$soname"
ln -sf "$soname" "$out/libt1subset.so"
# That of the tree; `make install` writes its own.
sed -e "s|@VERSION@|$version|" -e "s|@PREFIX@|$top|" -e "s|@LIBDIR@|$out|" -e 's|@INCLUDEDIR@|${prefix}/include|' \
    "$top/c/t1subset.pc.in" > "$out/t1subset.pc"
