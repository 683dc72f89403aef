#!/bin/bash
# Steps a second of the proved sequential meaning: `meaning FILE --steps STEPS` on a nested counting loop, where STEPS is the
# first word, else 100,000,000.
set -e
steps=${1:-100000000}
cd "$(dirname "$0")/../crates/mx_run"
../../mx prove mx_run >/dev/null 2>&1 # where it is not proved and built
program=$PWD/out/mx_run
file=$(mktemp)
trap 'rm "$file"' EXIT
cat >"$file" <<'LOOP'
again: addi r0,#1000,r1
inner: addi r1,#-1,r1
       bne r1,r0,inner
       add r2,r3,r2
       addi r4,#1,r4
       b again
LOOP
TIMEFORMAT=%U
seconds=$( { time "$program" meaning "$file" --steps "$steps" >/dev/null || true; } 2>&1 )
awk -v n="$steps" -v s="$seconds" 'BEGIN { printf "%d steps in %.2f processor seconds: %.1f million a second\n", n, s, n / s / 1e6 }'
