#!/bin/bash
# Computed runs by the built program, as ./mx leaves it, on real files. First the cases of crates/test_command_cases, which the
# merge gate runs over files in memory; then what these cases cannot say: long sources, a run that is made twice and built
# examples.
#
# usage: checks/rows.sh      the program is the one that MX_RUN names, or the one that ./mx has built
top=$(cd -- "$(dirname -- "$0")/.." && pwd) || exit 1
# shellcheck source=checks/common.sh
. "$top/checks/common.sh"
[ $# -eq 0 ] || wrong_arguments "unexpected argument $1"
choose_program mx_run "${MX_RUN-}"
cases=$top/crates/test_command_cases/data
folder=$(mktemp -d) || exit 1
trap 'rm -rf "$folder"' EXIT
cd "$folder" || exit 1

# decode: the bytes that the standard input spells in hexadecimal
decode() { printf '%b' "$(tr -d ' \n' | sed 's/../\\x&/g')"; }

# expect NAME STATUS TEXT: the last run ended so, and its first line is this
expect() {
    local told
    told=$(head -n 1 out)
    if [ "$status" -eq "$2" ] && [ "$told" = "$3" ]; then tell ok "$1"; else tell "status $status: $told" "$1"; fi
}

mx() {
    "$program" "$@" >out 2>err
    status=$?
}

# run_case STATUS NAME WORD..: in a folder with the files of the cases the words end and print as they have to, and write
# the file that they have to
run_case() {
    local want=$1 name=$2
    shift 2
    rm -rf work && cp -R files work && cd work || exit 1
    "$program" "$@" >../out 2>../err
    status=$?
    cd ..
    [ "$status" -eq "$want" ] && cmp -s out "$cases/wanted/$name" && ! [ -s err ] || return 1
    [ -f "$cases/wanted/$name.hex" ] || return 0
    decode <"$cases/wanted/$name.hex" >wanted
    cmp -s "work/${!#}" wanted
}

mkdir files || exit 1
for file in "$cases"/files/*; do
    name=$(basename "$file")
    case $name in
        *.hex) decode <"$file" >"files/${name%.hex}" ;;
        *) cp "$file" "files/$name" ;;
    esac
done
count=0
while IFS= read -r line; do
    rest=${line#* }
    read -ra words <<<"${rest#*:}"
    count=$((count + 1))
    run_case "${line%% *}" "${rest%%:*}" "${words[@]}" || tell "status $status" "the case $line"
done <"$cases/runs.txt"
if [ "$count" -eq 0 ]; then tell 'no case was found' 'the cases'; else compared=$((compared + count)); fi

{ echo 'bne r0,r0,E'; yes 'ld 256[r0],r1' | head -n 16382; echo 'E: halt'; } >source
mx run source
expect 'a displacement that fits' 0 halted
{ echo 'bne r0,r0,E'; yes 'ld 256[r0],r1' | head -n 16382; echo 'addi r0,#0,r2'; echo 'E: halt'; } >source
mx run source
expect 'a displacement that does not' 1 'line 1: displacement 32768 from 4096 to 36864'
{ echo 'L: ld 256[r0],r1'; yes 'ld 256[r0],r1' | head -n 16383; echo 'bne r0,r0,L'; echo halt; } >source
mx run source
expect 'a displacement back that fits' 0 halted
{ echo 'L: ld 256[r0],r1'; yes 'ld 256[r0],r1' | head -n 16383; echo 'addi r0,#0,r2'; echo 'bne r0,r0,L'; echo halt; } >source
mx run source
expect 'a displacement back that does not' 1 'line 16386: displacement -32769 from 36865 to 4096'
# lists NAME LINE..: the listing of the source has each of these lines
lists() {
    local name=$1 line outcome=ok
    shift
    mx list source
    for line in "$@"; do grep -aqx "$line" out || outcome="no line $line"; done
    tell "$outcome" "$name"
}

{ echo 'call go,r31'; echo 'L: halt'; yes 'jr r2' | head -n 10922; echo 'addi r0,#0,r3'; echo 'go: b L'; } >source
lists 'a branch back by 32768' '00009003 00008000 10926' 'copies 0'
mx run source
expect 'its run' 0 halted
{ echo 'b E'; yes 'jr r2' | head -n 10921; echo 'addi r0,#0,r3'; echo 'E: addi r0,#5,r4'; echo halt; } >source
lists 'a branch ahead by 32767, too far for a copy' '00001000 00007fff 1' 'copies 0'
{ echo 'b E'; yes 'jr r2' | head -n 10921; echo 'E: addi r0,#5,r4'; echo halt; } >source
lists 'a branch ahead by 32767 behind a copy' '00001000 00007fff 1' 'copies 1'
{ echo 'call f,r31'; yes 'ld 256[r0],r1' | head -n 16400; echo 'f: halt'; } >source
mx run source
expect 'a call reaches farther' 0 halted
{ yes nop | head -n 19999; echo halt; } >source
mx run source
expect '20,000 statements' 0 halted
{ yes nop | head -n 20000; echo halt; } >source
mx run source
expect '20,001 statements' 1 'line 20001: F12 TooManyInstructions'

seq 3 30 400 >requests
mx run files/echo.s --input files/ab --interrupts requests
[ "$(grep -a -A 1 '^console' out | tr '\n' ' ')" = 'console 2 ab ' ] || status=1
expect 'an echo under interrupts' 0 halted

mx soak 7 4000
cp out first
mx soak 7 4000
[ "$status" -eq 0 ] && cmp -s out first && outcome=ok || outcome="status $status"
tell "$outcome" 'the same run twice'

mx join "$top/examples/letters.s" "$top/examples/emit.s"
cp out source
mx run source
[ "$(grep -a -A 1 '^console' out | tr '\n' ' ')" = 'console 2 Hi ' ] || status=1
expect 'two modules that are joined' 0 halted

for example in "$top"/examples/*.s; do
    grep -q '^ *\.\(import\|export\)' "$example" && continue # a module, which is no whole program
    printf ab >input
    seq 5 40 900 >requests
    mx run "$example" --input input --interrupts requests
    cp out first
    ended=$status
    mx build "$example" image
    mx exec image --input input --interrupts requests
    [ "$status" -eq "$ended" ] && cmp -s out first && outcome=ok || outcome="status $status"
    tell "$outcome" "the image of $(basename "$example")"
done

finish rows runs
