#!/bin/bash
# Cycles a second of the turn machine, of the pipeline and of the same machine in plain C (turn_machine.c, by cc -O2), by the built
# programs: 100,000,000 cycles of a nested counting loop, or as many as the first word says, in as many runs in turn as the second
# word says, else 1; medians: bench/turns.sh [CYCLES [RUNS]]
set -e
cycles=${1:-100000000}
runs=${2:-1}
bench=$(cd "$(dirname "$0")" && pwd)
cd "$bench/../crates/bench_turns"
../../mx prove bench_turns >/dev/null 2>&1 # where it is not proved and built
folder=$(mktemp -d)
trap 'rm -r "$folder"' EXIT
cc -O2 -o "$folder/turn_machine" "$bench/turn_machine.c"
# the words of LOOPS in src/main.rt
echo c00203e8 c043ffff 08410000 c043ffff 40000000 0000fffb 40862000 c1080001 >"$folder/words"
TIMEFORMAT=%U
for ((run = 0; run < runs; run++)); do
  for machine in turns pipe; do
    { time ./out/bench_turns "$cycles" "$machine" >/dev/null; } 2>>"$folder/$machine"
  done
  { time "$folder/turn_machine" "$cycles" <"$folder/words" >/dev/null; } 2>>"$folder/c"
done
for machine in turns pipe c; do
  sort -n "$folder/$machine" | awk -v m="$machine" -v n="$cycles" -v runs="$runs" '{ s[NR] = $1 }
    END { t = s[int((NR + 1) / 2)]; printf "%s: %d cycles in %.2f processor seconds: %.1f million a second (median of %d)\n", m, n, t, n / t / 1e6, runs }'
done
