#!/bin/sh
# Makes what the cases of runs.txt read and want: the assembly that gcc writes of each program here at -O2, and at -O0 of
# one, and what the program prints under qemu-mips. It needs the Debian packages gcc-mips-linux-gnu and qemu-user.
# usage: make.sh FLAGS      where FLAGS is the file of options that the translation needs (lib/flags)
cd "$(dirname "$0")" || exit 1
flags=$(cat "$1") || exit 1
headers=$(mips-linux-gnu-gcc -print-file-name=include)
work=$(mktemp -d) || exit 1
for file in *.c; do
    name=${file%.c}
    # shellcheck disable=SC2086
    mips-linux-gnu-gcc -S $flags -nostdinc -isystem "$headers" -O2 -g1 "$file" -o "../files/$name.s" || exit 1
    mips-linux-gnu-gcc -static -O1 -DNATIVE "$file" -o "$work/$name" || exit 1
    if [ -e "../files/$name.in" ]; then
        qemu-mips "$work/$name" <"../files/$name.in" >"../wanted/$name"
    else
        qemu-mips "$work/$name" >"../wanted/$name"
    fi
done
# shellcheck disable=SC2086
mips-linux-gnu-gcc -S $flags -nostdinc -isystem "$headers" -O0 parts.c -o ../files/parts_plain.s
cp ../wanted/parts ../wanted/parts_plain
rm -rf "$work"
