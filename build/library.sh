#!/bin/sh
# Puts the library for other languages together from the archive of the crate embed_library: libzanderanvil.a, libzanderanvil.so.1,
# libzanderanvil.so (a link to it) and zanderanvil.h, in a folder whose earlier files are replaced once all new ones are there. Both
# libraries are that crate, and the functions by which the toolchain calls malloc and free.
#
# usage: build/library.sh ARCHIVE KIT FOLDER      (./mx library and checks/library.py run it)
[ $# -eq 3 ] || { echo 'usage: build/library.sh ARCHIVE KIT FOLDER' >&2; exit 2; }
top=$(CDPATH='' cd -- "$(dirname -- "$0")/.." && pwd -P) || exit 10
archive=$1
kit=$2

fail() {
    echo "zanderanvil: error: $1" >&2
    exit "$2"
}

if ! mkdir -p "$3" 2>/dev/null || ! folder=$(CDPATH='' cd -- "$3" 2>/dev/null && pwd) || [ ! -w "$folder" ]; then
    fail "cannot write to '$3'" 5
fi
# (on the disk of the folder, so that each file is put into its place by one step)
work=$(mktemp -d "$folder/.new-XXXXXX") || exit 10
trap 'rm -rf "$work"' EXIT
trap 'exit 10' HUP INT TERM
soname=libzanderanvil.so.1
(
    mkdir "$work/objects" && cd "$work/objects" || exit
    ar x "$archive" && ar x "$kit/c/liblibc_c.a" && ar rcs "$work/libzanderanvil.a" ./*.o \
        && echo '{ global: zanderanvil_command; local: *; };' >"$work/exports" \
        && cc -shared -Wl,--version-script="$work/exports" -Wl,-soname,"$soname" -o "$work/$soname" ./*.o \
        && ln -s "$soname" "$work/libzanderanvil.so" && cp "$top/include/zanderanvil.h" "$work/"
) || fail 'the library could not be put together' 10
for it in "$soname" libzanderanvil.so libzanderanvil.a zanderanvil.h; do
    mv -fT "$work/$it" "$folder/$it" || exit 10
done
