#!/bin/bash
# `plans` of the built program, as ./mx leaves it: what it prints of plan files that are accepted, rejected and faulty, computed
# manually, and that what examples/schedule.py proposes for the examples and for generated sources is accepted and halts with
# the console of the sequential semantics.
#
# usage: checks/planned.sh      the programs are those that MX_LAB and MX_RUN name, or those that ./mx has built
top=$(CDPATH='' cd -- "$(dirname -- "$0")/.." && pwd) || exit 1
# shellcheck source=checks/common.sh
. "$top/checks/common.sh"
[ $# -eq 0 ] || wrong_arguments "unexpected argument $1"
need_tools python3
choose_program mx_run "${MX_RUN-}"
run=$program
choose_program mx_lab "${MX_LAB-}"
lab=$program
folder=$(mktemp -d) || exit 1
trap 'rm -rf "$folder"' EXIT
cd "$folder" || exit 1
cp "$top"/examples/*.s . || exit 1

# report CYCLES FETCHES MISSES SQUASHES WORDS NOOPS CONSOLE [NUMBER=WORD ..]: the report of a run that halts; registers that
# are not given are 0
report() {
    printf 'halted\ncycles %s\nfetches %s\nmisses %s\nsquashes %s\ninterrupts 0\nwords %s\nnoops %s\n' "${@:1:6}"
    printf 'console %s\n%s\nregisters\n' "${#7}" "$7"
    local register given word
    for register in {1..31}; do
        word=00000000
        for given in "${@:8}"; do
            [ "${given%=*}" = "$register" ] && word=${given#*=}
        done
        echo "r$register $word"
    done
    echo 'md 00000000'
}

# expect NAME STATUS SOURCE PLANS: `plans` of a file with these plans ends so, and prints what `wanted` holds; where the file is
# faulty, that goes to standard error behind the file's name, and nothing is printed
expect() {
    printf '%b' "$4" >file
    "$lab" plans "$3" file >out 2>err
    local status=$? told=out quiet=err
    [ "$2" -eq 0 ] || told=err quiet=out
    if [ "$status" -eq "$2" ] && cmp -s "$told" wanted && ! [ -s "$quiet" ]; then tell ok "$1"; else tell "status $status, $(head -n 1 "$told")" "$1"; fi
}

report 29 17 6 1 8 0 321 1=00000030 2=00000030 >countdown
cp countdown wanted
expect 'two instructions in the other order' 0 countdown.s '1 0\n0 1 / - -\n/\n'
expect 'no plan at all' 0 countdown.s ''
expect 'tabs and CRs' 0 countdown.s '1\t0\r\n\r\n/'
{ echo 'plan 2 (line 4) rejected by Order: dependent instructions stay in source order'; cat countdown; } >wanted
expect 'a store behind what it depends on' 0 countdown.s '1 0\n1 0 / - -\n/\n'
{ echo 'plan 2 (line 4) rejected by Once: each instruction occurs exactly once'; cat countdown; } >wanted
expect 'an instruction that is left out' 0 countdown.s '\n0 / - -\n/\n'
expect 'a number that no instruction has' 0 countdown.s '\n0 1 3 / - -\n/\n'
{ echo 'plan 2 (line 4) rejected by Terminator: the last instruction is /'; cat countdown; } >wanted
expect 'a branch that stands as a number' 0 countdown.s '\n0 1 2 - -\n/\n'
{
    echo 'plan 2 (line 4) rejected by Tail: two items follow the / of a transfer, none that of a halt'
    echo 'plan 3 (line 7) rejected by Tail: two items follow the / of a transfer, none that of a halt'
    cat countdown
} >wanted
expect 'a slot too few, and one behind a halt' 0 countdown.s '0 1\n0 1 / -\n/ -\n'
{ echo 'plan 2 (line 4) rejected by Room: at most as many items come before the / as in the padded plan'; cat countdown; } >wanted
expect 'a no-op too many' 0 countdown.s '\n0 - 1 / - -\n'

report 15 7 4 0 4 0 '' >wanted
expect 'a branch first, and a load in its first slot' 0 full_slots.s '/ 1 0\n/\n'
{ echo 'plan 1 (line 4) rejected by LastLoad: the last item is no load'; report 20 10 5 1 7 1 ''; } >wanted
expect 'a load in the second slot' 0 full_slots.s '/ 0 1\n/\n'
report 16 8 4 0 5 0 '' 2=00000100 3=00000107 >wanted
expect 'a shortest plan of two loads' 0 two_loads.s '1 0 3 2\n'
{
    echo 'plan 1 (line 4) rejected by Delay: no load is directly followed by a reader of its register'
    report 23 11 6 0 8 3 '' 2=00000100 3=00000107
} >wanted
expect 'a load directly before a reader' 0 two_loads.s '0 1 2 3\n'

echo "file:2: error[BadWord]: expected a number from 0 to 63, '-', '/', '+0', '+1' or '+2'" >wanted
expect 'a word that is none' 8 countdown.s '0 1\n0 x / - -\n'
expect 'the number 64' 8 countdown.s '0 1\n0 64 / - -\n'
echo 'file:1: error[TooLong]: a plan has at most 131 items' >wanted
expect '132 items' 8 countdown.s "$(printf -- '- %.0s' {1..132})\n"
echo "file:2: error[TwoPlaces]: a plan has one '/'" >wanted
expect 'two places of a branch' 8 countdown.s '0 1\n0 / 1 / - -\n'
echo 'file:4: error[NoBlock]: the source has no block for this plan' >wanted
expect 'a line too many' 8 countdown.s '\n\n\n0\n'

printf '0 1\n0 1 / - -\n/\n' >wanted
"$lab" plans countdown.s --print >out 2>err
status=$?
if [ "$status" -eq 0 ] && cmp -s out wanted; then tell ok 'the plans of the list scheduler'; else tell "status $status" 'the plans of the list scheduler'; fi
"$lab" plans countdown.s missing >out 2>err
status=$?
if [ "$status" -eq 4 ] && [ "$(cat err)" = "zanderanvil: error: cannot read 'missing': no such file" ] && ! [ -s out ]; then tell ok 'no plan file'; else tell "status $status" 'no plan file'; fi

# consoled FILE: what a program sent, of a report or of the text of a meaning, with a `?` for each byte 0
consoled() { sed -n '/^console/,/^registers/p' "$1" | tr '\0' '?'; }

# scheduled SOURCE: what the scheduler of the examples proposes is accepted, and the run has the console of the meaning
scheduled() {
    local outcome=ok
    if ! "$lab" blocks "$1" --as json >blocks 2>err; then outcome="blocks: $(head -n 1 err)"
    elif ! "$top/examples/schedule.py" <blocks >file 2>err; then outcome="schedule.py: $(head -n 1 err)"
    elif ! "$lab" plans "$1" file --input hello.s >out 2>err; then outcome="plans: $(head -n 1 out err)"
    elif ! "$run" meaning "$1" --input hello.s >wanted 2>err; then outcome="meaning: $(head -n 1 wanted err)"
    elif grep -q '^plan ' out; then outcome=$(head -n 1 out)
    elif [ -z "$(consoled wanted)" ]; then outcome='no console'
    elif [ "$(consoled out)" != "$(consoled wanted)" ]; then outcome='another console'; fi
    tell "$outcome" "the plans of schedule.py for $1"
}
for source in calls countdown echo full_slots greeting hello load_last two_loads; do scheduled "$source.s"; done
for seed in {1..20}; do
    "$run" gen "$seed" 300 >"gen_$seed.s" || tell "status $?" "gen $seed"
    scheduled "gen_$seed.s"
done
finish plans runs
