#!/bin/bash
# Decoded words a second of the proved decoder, by the built program: bench/decode.sh [WORDS]
set -e
words=${1:-100000000}
cd "$(dirname "$0")/../crates/bench_decode"
../../mx prove bench_decode >/dev/null 2>&1 # where it is not proved and built
TIMEFORMAT=%U
seconds=$( { time ./out/bench_decode "$words" >/dev/null; } 2>&1 )
awk -v n="$words" -v s="$seconds" 'BEGIN { printf "%d words in %.2f processor seconds: %.1f million a second\n", n, s, n / s / 1e6 }'
