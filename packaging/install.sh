#!/bin/sh
# Copies the files of this folder's bin, lib, include and share to PREFIX, or removes them there.
# usage: ./install.sh [--remove] [PREFIX]    by default /usr/local
set -e
remove=
if [ "$1" = --remove ]; then remove=yes; shift; fi
prefix=${1:-/usr/local}
cd "$(dirname "$0")"
find bin lib include share ! -type d | while read -r file; do
    if [ "$remove" ]; then
        rm -f "$prefix/$file"
    else
        mkdir -p "$prefix/$(dirname "$file")"
        cp -Pf "$file" "$prefix/$file"
    fi
done
# The loader finds a new library in the folders of the system only after this.
if [ "$(id -u)" = 0 ] && command -v ldconfig > /dev/null; then ldconfig; fi
