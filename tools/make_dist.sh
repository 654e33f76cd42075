#!/bin/sh
# Makes what can be installed without the Rattle kit: dist/t1subset-VERSION-linux-MACHINE.tar.gz, and by dpkg-deb
# dist/t1subset_VERSION_ARCHITECTURE.deb. Two runs give the same bytes: every time in them is SOURCE_DATE_EPOCH, by
# default that of the last commit.
#
# usage: tools/make_dist.sh PROGRAM LIBRARY OUT    the program, the folder of tools/build_library.sh, and where to put them
set -e
export LC_ALL=C
umask 022
program=$(readlink -f "$1") library=$(readlink -f "$2")
mkdir -p "$3"
out=$(readlink -f "$3")
cd "$(dirname "$0")/.."
version=$(sed -n '1s/.*"t1subset \([0-9.]*\)".*/\1/p' docs/t1subset.1)
machine=$(uname -m)
SOURCE_DATE_EPOCH=${SOURCE_DATE_EPOCH:-$(git log -1 --format=%ct)}
export SOURCE_DATE_EPOCH
work=$(mktemp -d)
trap 'rm -rf "$work"' EXIT

installed() {
    make -s install "PROGRAM=$program" "LIB=$library" "$@"
}

# The files of a folder that are kept in git, without tests.
sources() {
    git ls-files "$1" | grep -Ev '/tests/|/\.gitignore$' || true
}

# The modification times of a tree, whose bytes have to depend on nothing else of this run.
at_one_time() {
    find "$1" -exec touch -h -d "@$SOURCE_DATE_EPOCH" {} +
}

# Kilobytes, whatever the disk counts in.
size_of() {
    find "$1" -type f -printf '%s\n' | awk '{ sum += int(($1 + 1023) / 1024) } END { print sum }'
}

# The newest version of the C library that a program or a library asks for.
least_libc() {
    objdump -T "$@" | sed -n 's/.*GLIBC_\([0-9.]*\).*/\1/p' | sort -Vu | tail -n 1
}

tar_file() {
    name=t1subset-$version-linux-$machine
    tree=$work/$name
    installed "DESTDIR=$tree" PREFIX=
    # The tree may stand anywhere.
    sed -e 's|^prefix=.*|prefix=${pcfiledir}/../..|' -e 's|^libdir=.*|libdir=${prefix}/lib|' \
        -e 's|^includedir=.*|includedir=${prefix}/include|' "$tree/lib/pkgconfig/t1subset.pc" > "$work/pc"
    cat "$work/pc" > "$tree/lib/pkgconfig/t1subset.pc"
    cp LICENSE CHANGELOG.md examples/cut.c examples/filter.c "$tree"
    sed "s|@LIBC@|$libc|" packaging/README > "$tree/README"
    install -m 755 packaging/install.sh "$tree/install.sh"
    for file in $(sources python) $(sources rust); do install -D -m 644 "$file" "$tree/$file"; done
    at_one_time "$tree"
    tar -C "$work" --sort=name --mtime="@$SOURCE_DATE_EPOCH" --owner=0 --group=0 --numeric-owner --format=ustar -cf - "$name" \
        | gzip -9n > "$out/$name.tar.gz"
    echo "$out/$name.tar.gz"
}

debian_package() {
    architecture=$(dpkg --print-architecture)
    tree=$work/debian
    shared=/usr/lib/$machine-linux-gnu
    installed "DESTDIR=$tree" PREFIX=/usr "LIBDIR=$shared" ZSHDIR=/usr/share/zsh/vendor-completions
    pages=$tree/usr/share/doc/t1subset
    install -d "$tree/DEBIAN" "$pages"
    find "$tree/usr/share/man" -type f -exec gzip -9n {} +
    gzip -9n < CHANGELOG.md > "$pages/changelog.gz"
    cp LICENSE "$pages/copyright"
    for file in $(sources python/t1subset); do install -D -m 644 "$file" "$tree/usr/lib/python3/dist-packages/${file#python/}"; done
    install -m 755 packaging/t1subset-pdf "$tree/usr/bin/t1subset-pdf"
    sed -e "s|@VERSION@|$version|" -e "s|@ARCHITECTURE@|$architecture|" -e "s|@SIZE@|$(size_of "$tree/usr")|" \
        -e "s|@LIBC@|$libc|" packaging/debian.in > "$tree/DEBIAN/control"
    echo "libt1subset ${version%%.*} t1subset (>= $version)" > "$tree/DEBIAN/shlibs"
    echo "activate-noawait ldconfig" > "$tree/DEBIAN/triggers"
    (cd "$tree" && find usr -type f | sort | xargs md5sum > DEBIAN/md5sums)
    at_one_time "$tree"
    dpkg-deb --root-owner-group -Zgzip --build "$tree" "$out/t1subset_${version}_$architecture.deb" > /dev/null
    echo "$out/t1subset_${version}_$architecture.deb"
}

libc=$(least_libc "$program" "$library/libt1subset.so")
tar_file
if command -v dpkg-deb > /dev/null; then
    debian_package
else
    echo "no dpkg-deb: the Debian package was left out" >&2
fi
