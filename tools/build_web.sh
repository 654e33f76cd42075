#!/bin/sh
# Makes module.js for the page of web/: the calls of include/t1subset.h as WebAssembly, in base64.
#
# usage: tools/build_web.sh [FOLDER]    by default web/
#
# tools/build.py proves t1_c, and keeps what the kit's compiler gives to clang: a module for x86-64. The kit's clang writes it as
# text, tools/narrow_module.py rewrites that text for pointers of 32 bits, and the kit's clang compiles and links it with
# web/heap.c and web/int128.c. No header and no library of another kit is needed. T1_C_MODULE names another module of t1_c.
set -e
top=$(cd "$(dirname "$0")/.." && pwd)
mkdir -p "${1:-$top/web}"
out=$(cd "${1:-$top/web}" && pwd)
module=${T1_C_MODULE:-$top/crates/t1_c/out/t1_c.bc}
[ -n "$T1_C_MODULE" ] || "$top/tools/build.py" t1_c
command -v rt > /dev/null || { echo "$0: no rt: install the Rattle kit" >&2; exit 1; }
kit=$(dirname "$(dirname "$(readlink -f "$(command -v rt)")")")
work=$(mktemp -d)
trap 'rm -rf "$work"' EXIT
# One program is the compiler and the linker, by the name under which it is called.
ln -s "$kit/toolchain/bin/clang" "$work/clang"
ln -s "$kit/toolchain/bin/clang" "$work/wasm-ld"

# Sign extension and copies of memory are in every browser since 2021.
compiled() {
    "$work/clang" --no-default-config --target=wasm32-unknown-unknown -mbulk-memory -msign-ext -Os -ffreestanding -fno-builtin -c "$@"
}

# The exports of the module: the calls of the header, of which t1subset_level is counted, and blocks of its heap.
exports() {
    sed -n 's/^uint32_t \(t1subset_[a-z_]*\)(.*/\1/p' "$top/include/t1subset.h" | sed -e '/^t1subset_version$/d' -e 's/^t1subset_level$/level_answers/'
    echo page_take
    echo page_give
}

echo "Compiling the module for WebAssembly: half a minute."
"$work/clang" --no-default-config --target=x86_64-unknown-linux-gnu -S -emit-llvm -O0 -Xclang -disable-llvm-passes -x ir "$module" -o "$work/wide.ll"
"$top/tools/narrow_module.py" < "$work/wide.ll" > "$work/narrow.ll"
compiled -x ir "$work/narrow.ll" -o "$work/t1_c.o"
for part in heap int128; do compiled -Wall -Wextra -Werror "$top/web/$part.c" -o "$work/$part.o"; done
"$work/wasm-ld" --no-entry --gc-sections -s --stack-first -z stack-size=1048576 -o "$work/t1subset.wasm" "$work"/*.o \
    $(exports | sed 's/^/--export=/')
"$top/tools/make_web.py" "$work/t1subset.wasm" "$out"
echo "$out/module.js: $(wc -c < "$work/t1subset.wasm") bytes as WebAssembly, $(gzip -9 -c "$work/t1subset.wasm" | wc -c) compressed"
