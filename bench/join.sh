#!/bin/bash
# Processor time and peak memory of joining sixteen texts of 4,194,304 bytes in all, beside those of assembling the same lines
# as one text, which `meaning FILE --steps 0` does: 20,000 statements with long comments, as many labels of four letters
# as fit, and that many empty lines. `join` prints the canonical text too.
set -e
cd "$(dirname "$0")/../crates/mx_run"
../../mx prove mx_run >/dev/null 2>&1 # where it is not proved and built
program=$PWD/out/mx_run
folder=$(mktemp -d)
trap 'rm -r "$folder"' EXIT
cd "$folder"

# $1 lines of a statement and a comment, 209 bytes each
commented() {
    awk -v lines="$1" 'BEGIN {
        for (i = 0; i < 189; i++) comment = comment "c"
        for (i = 1; i < lines; i++) printf "add r1,r2,r3 ; %s%4d\n", comment, i % 10000
        print "halt"
    }'
}

# labels of four letters, 50 on a line, in at most $1 bytes
labels() {
    awk -v bytes="$1" 'BEGIN {
        letters = "abcdefghijklmnopqrstuvwxyzABCDEFGHIJKLMNOPQRSTUVWXYZ"
        for (i = 0; i * 5 + i / 50 + 6 < bytes; i++) {
            name = ""
            for (n = i + 52 * 52 * 52; n > 0; n = int(n / 52)) name = substr(letters, n % 52 + 1, 1) name
            printf "%s:%s", name, i % 50 == 49 ? "\n" : ""
        }
        print ""
    }'
}

commented 20000 >commented
labels 4194304 >labels
yes '' | head -c 4194304 >empty

runs=20
TIMEFORMAT='%U %S'
# used WORDS..: processor seconds of so many runs; peak WORDS..: the peak memory of one, in kilobytes
used() { { time for ((i = 0; i < runs; i++)); do "$program" "$@" >/dev/null || true; done; } 2>&1; }
peak() { { /usr/bin/time -f %M "$program" "$@" >answer || true; } 2>&1 | tail -n 1; }
for file in commented labels empty; do
    split -n l/16 "$file" "$file."
    joined=$(used join "$file".??)
    joined_memory=$(peak join "$file".??)
    lines=$(wc -l <answer)
    alone=$(used meaning "$file" --steps 0)
    alone_memory=$(peak meaning "$file" --steps 0)
    awk -v file="$file" -v joined="$joined" -v alone="$alone" -v j="$joined_memory" -v a="$alone_memory" -v runs="$runs" -v lines="$lines" 'BEGIN {
        split(joined, x, " "); split(alone, y, " "); s = x[1] + x[2]; t = y[1] + y[2]
        printf "%s: joined in %.3f processor seconds and %.1f MB (%d lines), assembled in %.3f and %.1f MB: %.2f times, %.2f times the memory\n",
            file, s / runs, j / 1024, lines, t / runs, a / 1024, s / t, j / a
    }'
done
