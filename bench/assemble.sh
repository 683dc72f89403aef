#!/bin/bash
# Bytes a second that the proved assembler reads, and the peak memory of the whole program, by `meaning FILE --steps 0`: on an
# ordinary source of 20,000 statements, on 20,000 statements with long comments, on as many labels of four letters as fit into
# 4,194,304 bytes, on that many empty lines, and on the halves of each.
set -e
cd "$(dirname "$0")/../crates/mx_run"
../../mx prove mx_run >/dev/null 2>&1 # where it is not proved and built
program=$PWD/out/mx_run
folder=$(mktemp -d)
trap 'rm -r "$folder"' EXIT
cd "$folder"

# $1 lines of a statement and a comment, 209 bytes each
commented() {
    awk -v lines="$1" 'BEGIN {
        for (i = 0; i < 189; i++) comment = comment "c"
        for (i = 1; i < lines; i++) printf "add r1,r2,r3 ; %s%4d\n", comment, i % 10000
        print "halt"
    }'
}

# $1 statements, with a label before each eighth and a short comment behind some
ordinary() {
    awk -v lines="$1" 'BEGIN {
        for (i = 0; i < lines - 1; i++) {
            if (i % 8 == 0) printf "loop%d:\n    add r%d,r%d,r%d ; the sum so far\n", i / 8, i % 31, i % 29, i % 23
            if (i % 8 == 1) printf "    ld %d[r%d],r%d\n", i % 1000, i % 17, i % 19
            if (i % 8 == 2) printf "    addi r%d,#%d,r%d ; one more\n", i % 13, i % 4000 - 2000, i % 27
            if (i % 8 == 3) printf "    st %d[r%d],r%d\n", i % 999, i % 7, i % 21
            if (i % 8 == 4) printf "    sub r%d,r%d,r%d\n", i % 31, i % 29, i % 23
            if (i % 8 == 5) printf "    asr r%d,#%d,r%d\n", i % 31, i % 32, i % 25
            if (i % 8 == 6) printf "    xor r%d,r%d,r%d ; a bit\n", i % 11, i % 9, i % 15
            if (i % 8 == 7) printf "    bne r%d,r%d,loop%d\n", i % 31, i % 29, (i * 7 % lines) / 8
        }
        print "halt"
    }'
}

# labels of four letters, 50 on a line, in at most $1 bytes
labels() {
    awk -v bytes="$1" 'BEGIN {
        letters = "abcdefghijklmnopqrstuvwxyzABCDEFGHIJKLMNOPQRSTUVWXYZ"
        for (i = 0; i * 5 + i / 50 + 6 < bytes; i++) {
            name = ""
            for (n = i + 52 * 52 * 52; n > 0; n = int(n / 52)) name = substr(letters, n % 52 + 1, 1) name
            printf "%s:%s", name, i % 50 == 49 ? "\n" : ""
        }
        print ""
    }'
}

ordinary 20000 >ordinary
ordinary 10000 >ordinary_half
commented 20000 >commented
commented 10000 >commented_half
labels 4194304 >labels
labels 2097152 >labels_half
yes '' | head -c 4194304 >empty
head -c 2097152 empty >empty_half

runs=20
TIMEFORMAT='%U %S'
for file in ordinary_half ordinary commented_half commented labels_half labels empty_half empty; do
    bytes=$(stat -c %s "$file")
    used=$( { time for ((i = 0; i < runs; i++)); do "$program" meaning "$file" --steps 0 >/dev/null || true; done; } 2>&1 )
    kilobytes=$( { /usr/bin/time -f %M "$program" meaning "$file" --steps 0 >answer || true; } 2>&1 | tail -n 1)
    awk -v file="$file" -v bytes="$bytes" -v used="$used" -v runs="$runs" -v k="$kilobytes" -v answer="$(head -n 1 answer)" 'BEGIN {
        split(used, part, " "); s = part[1] + part[2]
        printf "%s: %d bytes in %.3f processor seconds: %.1f million a second; peak memory %.1f times the text (%s)\n",
            file, bytes, s / runs, bytes * runs / s / 1e6, k * 1024 / bytes, answer
    }'
done
