#!/bin/bash
# Refuses the built program, as ./mx leaves it, one request for memory after the other, each in a run of its own, for every
# command: such a run ends as one that ran out of memory, having put nothing out and written no file, or as the run with all
# its memory does, with the same output and file. `rt ci` does not call this, since it needs cc and a built program: that of MX_RUN, or
# the proved one. With MX_SAMPLE in the environment it refuses some requests of each command alone.
#
# usage: checks/memory.sh [COMMAND]   a command of the list below; all of them where none is named
top=$(cd -- "$(dirname -- "$0")/.." && pwd) || exit 1
[ $# -le 1 ] || { echo 'usage: checks/memory.sh [COMMAND]' >&2; exit 2; }
program=${MX_RUN:-$top/crates/mx_run/out/mx_run}
out_of_memory=6
# Of a sample: the first requests, and then every so many.
first_requests=12
every=29
command -v cc >/dev/null 2>&1 || { echo 'skipped: a C compiler is missing'; exit 77; }
[ -x "$program" ] || { echo "skipped: $program is missing"; exit 77; }
folder=$(mktemp -d) || exit 1
trap 'rm -rf "$folder"' EXIT
cc -Wall -Wextra -Werror -shared -fPIC "$top/checks/refuse.c" -o "$folder/refuse.so" -ldl || exit 1
mkdir "$folder/files" && cd "$folder/files" || exit 1
cp "$top"/crates/test_command_cases/data/files/{hello,greeting,echo,loop,best_short,join_01_1,join_01_2,join_01_3}.s . || exit 1
cp "$top"/crates/test_command_cases/data/files/{ab,at_21} "$top/examples/hello.mxi" . || exit 1
failures=0
compared=0
commands=0

# answer N WORD..: the run in which request N is refused, or none where N is 0; prints its status, its output and its new file
answer() {
    local number=$1
    shift
    rm -f new.mxi
    REFUSE=$number LD_PRELOAD=$folder/refuse.so "$program" "$@" >"$folder/out" 2>"$folder/err" 3>"$folder/refused"
    echo "status $?"
    cat "$folder/out" "$folder/err"
    [ ! -e new.mxi ] || cat new.mxi
}

# refuse WORD..: the command of these words, refused each of its requests in turn
refuse() {
    local n=0 memory=0 wrong=0 tried=0
    answer 0 "$@" >"$folder/wanted"
    while n=$((n + 1)) && answer "$n" "$@" >"$folder/told" && [ -s "$folder/refused" ]; do
        tried=$((tried + 1))
        [ -z "${MX_SAMPLE-}" ] || [ "$n" -lt "$first_requests" ] || n=$((n + every))
        if [ "$(cat "$folder/told")" = "status $out_of_memory" ]; then
            memory=$((memory + 1))
        elif ! cmp -s "$folder/told" "$folder/wanted"; then
            echo "FAILED: $*: request $n: $(head -c 200 "$folder/told")"
            wrong=$((wrong + 1))
        fi
    done
    if ! cmp -s "$folder/told" "$folder/wanted" || [ "$tried" -eq 0 ] || [ "$memory" -eq 0 ]; then
        echo "FAILED: $*: no request was refused, none ended the run, or the run is not the same twice"
        wrong=$((wrong + 1))
    fi
    failures=$((failures + wrong))
    compared=$((compared + tried))
    commands=$((commands + 1))
    [ "$wrong" -ne 0 ] || echo "ok: $*: $tried requests were refused, of which $memory end the run"
}

wanted=${1-}
while read -ra words; do
    [ -z "$wanted" ] || [ "$wanted" = "${words[0]}" ] || continue
    refuse "${words[@]}"
done <<'COMMANDS'
run hello.s
run greeting.s --interrupts at_21 --trace 4 --dump 256
run echo.s --input ab
meaning loop.s
list loop.s
best best_short.s
gen 1 4
soak 1 1
exec hello.mxi --trace 4
build hello.s new.mxi
migrate hello.mxi new.mxi
debug loop.s L --stops 3
share hello.s loop.s --interrupts at_21
join join_01_1.s join_01_2.s join_01_3.s
COMMANDS

if [ "$commands" -eq 0 ]; then
    echo "checks/memory.sh: unknown command $wanted" >&2
    exit 2
fi
if [ "$failures" -ne 0 ] || [ "$compared" -eq 0 ]; then
    echo "memory: $failures of $compared failed"
    exit 1
fi
echo "memory: compared $compared runs"
