#!/bin/bash
# Cycles a second of both machines without interrupts and with 65,536 of them, by the built program of turns.sh:
# 200,000,000 cycles of a nested counting loop, or as many as the first word says: bench/interrupts.sh [CYCLES]
set -e
cycles=${1:-200000000}
cd "$(dirname "$0")/../crates/bench_turns"
../../mx prove bench_turns >/dev/null 2>&1 # where it is not proved and built
TIMEFORMAT=%U
for machine in turns pipe; do
  for requests in 0 65536; do
    seconds=$( { time ./out/bench_turns "$cycles" "$machine" "$requests" >/dev/null; } 2>&1 )
    awk -v m="$machine" -v r="$requests" -v n="$cycles" -v s="$seconds" \
      'BEGIN { printf "%s, %d requests: %d cycles in %.2f processor seconds: %.1f million a second\n", m, r, n, s, n / s / 1e6 }'
  done
done
