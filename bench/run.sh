#!/bin/bash
# The built program on linked sources: cycles a second of `run` on a nested counting loop, CYCLES of them (the first word, else
# 100,000,000), beside those of the same machine in plain C (turn_machine.c, by cc -O2) on the words of its listing; `list` of 20,000 statements and of half as many; and the start of `run hello.s`. Processor time and peak memory.
set -e
cycles=${1:-100000000}
bench=$(cd "$(dirname "$0")" && pwd)
cd "$(dirname "$0")/../crates/mx_run"
../../mx prove mx_run >/dev/null 2>&1 # where it is not proved and built
program=$PWD/out/mx_run
hello=$PWD/data/hello.s
folder=$(mktemp -d)
trap 'rm -r "$folder"' EXIT
cd "$folder"

cat >loop.s <<'LOOP'
again: addi r0,#1000,r1
inner: addi r1,#-1,r1
       bne r1,r0,inner
       add r2,r3,r2
       addi r4,#1,r4
       b again
LOOP

# $1 statements: blocks of a load, its reader, a store and a branch back to it
blocks() {
    awk -v n="$1" 'BEGIN {
        for (i = 0; i * 4 + 4 < n; i++) printf "b%d: ld %d[r0],r1\naddi r1,#1,r2\nst %d[r0],r2\nbne r2,r0,b%d\n", i, 256 + i % 1000, 1300 + i % 1000, i
        for (i *= 4; i < n - 1; i++) print "nop"
        print "halt"
    }'
}
blocks 20000 >many.s
blocks 10000 >half.s

# seconds RUNS WORD..: the processor seconds of one run, over so many
seconds() {
    local runs=$1
    shift
    local TIMEFORMAT=%U
    local total
    total=$( { time for ((i = 0; i < runs; i++)); do "$program" "$@" >/dev/null || true; done; } 2>&1 )
    awk -v s="$total" -v runs="$runs" 'BEGIN { printf "%.4f", s / runs }'
}

memory() {
    { /usr/bin/time -f %M "$program" "$@" >/dev/null || true; } 2>&1 | tail -n 1
}

s=$(seconds 1 run loop.s --budget "$cycles")
awk -v n="$cycles" -v s="$s" -v k="$(memory run loop.s --budget "$cycles")" 'BEGIN {
    printf "run: %d cycles in %.2f processor seconds: %.1f million a second; peak memory %d KB\n", n, s, n / s / 1e6, k }'
cc -O2 -o turn_machine "$bench/turn_machine.c"
"$program" list loop.s | awk 'NF == 3 && $3 != "h" { print $2 }' >words
TIMEFORMAT=%U
s=$( { time ./turn_machine "$cycles" <words >/dev/null; } 2>&1 )
awk -v n="$cycles" -v s="$s" 'BEGIN { printf "the same in C: %.2f processor seconds: %.1f million a second\n", s, n / s / 1e6 }'
for file in half.s many.s; do
    s=$(seconds 10 list "$file")
    awk -v f="$file" -v n="$(wc -l <"$file")" -v s="$s" -v k="$(memory list "$file")" 'BEGIN {
        printf "list: %d statements in %.3f processor seconds; peak memory %d KB\n", n, s, k }'
done
s=$(seconds 100 run "$hello")
awk -v s="$s" -v k="$(memory run "$hello")" 'BEGIN { printf "run hello.s: %.1f processor milliseconds; peak memory %d KB\n", s * 1000, k }'
