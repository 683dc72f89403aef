#!/bin/sh
# What the laboratory does with arguments and files that cannot be used: what it prints, where, and with which status.
#
# usage: checks/words.sh      the program is the one that MX_LAB names, or the one that ./mx has built
top=$(CDPATH='' cd -- "$(dirname -- "$0")/.." && pwd -P) || exit 10
# shellcheck source=checks/common.sh
. "$top/checks/common.sh"
[ $# -eq 0 ] || wrong_arguments "unexpected argument $1"
choose_program mx_lab "${MX_LAB-}"
work=$(mktemp -d) || exit 10
trap 'rm -rf "$work"' EXIT
cd "$work" || exit 10

# With the arguments that follow it ends with the status $1, has the line $2 on standard error, and nothing on standard output.
refuses() {
    wanted=$1
    line=$2
    shift 2
    "$program" "$@" >out 2>err </dev/null
    ended=$?
    outcome=ok
    [ "$ended" -eq "$wanted" ] || outcome="status $ended for $wanted"
    [ ! -s out ] || outcome='something on standard output'
    grep -qxF -- "$line" err || outcome="not on standard error: $line"
    tell "$outcome" "$*"
}

# same NAME STATUS FILE FILE: the status is 0, and the files are the same and not empty
same() {
    outcome=ok
    [ "$2" -eq 0 ] || outcome="status $2"
    cmp -s "$3" "$4" && [ -s "$3" ] || outcome="$3 and $4 differ, or are empty"
    tell "$outcome" "$1"
}

printf '        addi r0,#65,r1\n        st   255[r0],r1\n        halt\n' >ok.s
printf '        b    nowhere\n' >bad.s
printf 'x\n' >events
head -c 4194305 /dev/zero >big
mkdir folder
refuses 2 "zanderanvil: error: unknown command 'chek'; did you mean 'check'?" chek ok.s
refuses 2 "zanderanvil: error: invalid value 'htm' for '--as': expected text, svg, html, json, kanata or vcd; did you mean 'html'?" draw ok.s --as htm
refuses 2 "zanderanvil: error: missing argument SOURCE" check
refuses 4 "zanderanvil: error: cannot read 'none.s': no such file" check none.s
refuses 4 "zanderanvil: error: cannot read 'none': no such file" draw ok.s --input none
refuses 4 "zanderanvil: error: 'folder' is a directory" explain folder
refuses 1 "bad.s:1:14: error[F8]: undefined label 'nowhere'" draw bad.s
refuses 8 "events:1: error[BadLine]: expected a cycle: a decimal number" profile ok.s --interrupts events
refuses 5 "zanderanvil: error: cannot write 'folder'" draw ok.s -o folder
refuses 1 "bad.s:1:14: error[F8]: undefined label 'nowhere'" compare ok.s bad.s
refuses 4 "zanderanvil: error: cannot read 'none.s': no such file" compare ok.s none.s
refuses 2 "zanderanvil: error: --from 9 is more than --to 8" interrupts ok.s --from 9 --to 8
refuses 2 "zanderanvil: error: --from 500 is after the last cycle of the undisturbed run, 11" interrupts ok.s --from 500
refuses 4 "zanderanvil: error: cannot read 'none.s': no such file" interrupts none.s
refuses 4 "zanderanvil: error: 'big' is too large: a source has at most 4,194,304 bytes" check big
refuses 4 "zanderanvil: error: 'big' is too large: a source has at most 4,194,304 bytes" disassemble big
refuses 4 "zanderanvil: error: 'big' is too large: a source has at most 4,194,304 bytes" compare ok.s big none.s
refuses 4 "zanderanvil: error: cannot read 'none': no such file" profile ok.s --interrupts none
refuses 4 "zanderanvil: error: 'big' is too large: such a file has at most 1,048,576 bytes" profile ok.s --interrupts big --input none
refuses 4 "zanderanvil: error: 'big' is too large: such a file has at most 1,048,576 bytes" explain ok.s --input big
refuses 4 "zanderanvil: error: cannot read 'none': no such file" plans ok.s none
refuses 4 "zanderanvil: error: 'big' is too large: such a file has at most 1,048,576 bytes" plans ok.s big --input none
if [ "$(id -u)" -ne 0 ]; then
    chmod 0 bad.s
    refuses 4 "zanderanvil: error: cannot read 'bad.s': permission denied" check bad.s
    refuses 4 "zanderanvil: error: cannot read 'bad.s': permission denied" profile ok.s --interrupts bad.s --input none
fi

# Standard input, and a file for the output.
"$program" profile ok.s >wanted || tell "status $?" 'profile ok.s'
"$program" profile - <ok.s >got
same 'profile - prints the same' $? wanted got
"$program" profile ok.s -o got >out
same 'profile -o writes the same' $? wanted got
[ ! -s out ] || tell 'something on standard output' 'profile -o'
cp got kept
"$program" profile bad.s --output got 2>err && tell 'status 0' 'profile bad.s'
same 'a refused source leaves the file of -o as it was' 0 kept got
finish arguments runs
