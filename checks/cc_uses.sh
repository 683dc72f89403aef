#!/bin/bash
# ./mx c and ./mx cc as README types them, and wrong uses of both, each with the status and the one line that it has to give;
# that a wrong use writes no file and removes none; the programs of checks/cc/cases (checks/cc_cases.py); 200 changed texts of
# assembly (checks/cc_mutated.py), and 10 random ones (checks/cc_random.py). It takes the programs that ./mx takes, so it builds them
# where they are not there:
#     checks/cc_uses.sh
# It needs the Debian package gcc-mips-linux-gnu.
top=$(CDPATH='' cd -- "$(dirname -- "$0")/.." && pwd) || exit 1
[ $# -eq 0 ] || { echo "cc_uses.sh: unexpected argument $1" >&2; exit 2; }
export MX_QUIET=1 LC_ALL=C
work=$(mktemp -d) || exit 1
trap 'rm -rf "$work"' EXIT
failed=0
compared=0

# Says that the use $1 is not as it has to be, and why.
tell() {
    echo "FAILED: $1: $2"
    failed=$((failed + 1))
}

# Runs ./mx with the words behind the status $1 and the line $2, which it has to give, in the folder of the work.
wrong() {
    status=$1
    line=$2
    compared=$((compared + 1))
    shift 2
    (cd "$work" && "$top/mx" "$@" >said 2>&1)
    got=$?
    [ $got -eq "$status" ] || tell "$*" "status $got, and not $status"
    grep -q -x -F -e "$line" "$work/said" || tell "$*" "no line '$line', but '$(head -n 1 "$work/said")'"
    [ "$2" = broken.c ] || [ "$(wc -l <"$work/said")" -eq 1 ] || tell "$*" 'more lines than one'
    [ ! -e "$work/out.s" ] || tell "$*" 'a file was written'
}

# A file of the work, of lines.
file() {
    name=$1
    shift
    printf '%s\n' "$@" >"$work/$name"
}

# Whether the files $2 and $3 have the same bytes, of the use $1.
same() {
    cmp -s "$2" "$3" || tell "$1" "other bytes than expected: $(head -c 200 "$2")"
}

cd "$top" || exit 1
./mx c examples/c/queens.c >"$work/told" || tell 'c examples/c/queens.c' "status $?"
grep -q '^92 ways$' "$work/told" || tell 'c examples/c/queens.c' 'another console'
./mx cc examples/c/sorts.c -o "$work/sorts.s" && ./mx run "$work/sorts.s" >"$work/told" || tell 'cc examples/c/sorts.c' "status $?"
grep -q '^qsort     sorted, from -987 to 997$' "$work/told" || tell 'cc examples/c/sorts.c' 'another console'

file good.c 'int main(void) {' '    return 0;' '}'
file echo.c '#include <stdio.h>' 'int main(int argc, char **argv) {' '    int byte;' '    while ((byte = getchar()) != EOF)' '        putchar(byte);' \
    '    return argc + argv[1][0];' '}'
# its console, its input and its status are those of the program
printf 'two\nlines\0and no end' >"$work/given"
./mx c "$work/echo.c" -- x y <"$work/given" >"$work/told" 2>"$work/said"
got=$?
[ $got -eq $((3 + 120)) ] || tell 'c echo.c -- x y' "status $got"
same 'c echo.c -- x y' "$work/told" "$work/given"
[ ! -s "$work/said" ] || tell 'c echo.c -- x y' "said $(head -n 1 "$work/said")"
./mx c "$work/echo.c" --input "$work/given" --report="$work/report" -- a </dev/null >"$work/told"
same 'c echo.c --input' "$work/told" "$work/given"
grep -q '^cycles [0-9]' "$work/report" || tell 'c echo.c --report' 'no cycles'
./mx c "$work/echo.c" --budget 100 -- a </dev/null >"$work/told" 2>"$work/said"
got=$?
[ $got -eq 3 ] || tell 'c --budget 100' "status $got"
grep -q -x 'zanderanvil: error: the program did not end within 100 cycles: --budget N gives it more, up to 100,000,000' "$work/said" || tell 'c --budget 100' "said $(cat "$work/said")"
# the console of a program that does not end is printed, and a long run has its input and its console once
file endless.c '#include <stdio.h>' 'int main(void) {' '    puts("before");' '    for (;;);' '}'
./mx c "$work/endless.c" --budget 3000000 >"$work/told" 2>"$work/said"
got=$?
[ $got -eq 3 ] || tell 'c endless.c' "status $got"
[ "$(cat "$work/told")" = before ] || tell 'c endless.c' "printed $(head -c 100 "$work/told")"
[ "$(wc -l <"$work/said")" -eq 1 ] || tell 'c endless.c' "said $(cat "$work/said")"
head -c 100000 /dev/zero | tr '\0' x >"$work/given"
./mx c "$work/echo.c" -- x <"$work/given" >"$work/told" 2>"$work/said"
got=$?
[ $got -eq $((2 + 120)) ] || tell 'c echo.c with 100,000 bytes' "status $got"
same 'c echo.c with 100,000 bytes' "$work/told" "$work/given"
# what is written is whole, is the same where two write at once, and its size is printed
./mx cc "$work/echo.c" -o "$work/one.s" 2>"$work/said" || tell 'cc echo.c' "status $?"
grep -q -x "mx: $work/one.s: [0-9]* statements of at most 20,000, for [0-9]* instructions; [0-9]* data words" "$work/said" || tell 'cc echo.c' "said $(cat "$work/said")"
pids=
for number in 1 2 3 4; do
    MX_LIBRARY=$work/kept ./mx cc "$work/echo.c" -o "$work/at_once.$number.s" 2>/dev/null &
    pids="$pids $!"
done
for pid in $pids; do wait "$pid" || tell 'four ./mx cc at once' "status $?"; done
for number in 1 2 3 4; do same 'four ./mx cc at once' "$work/at_once.$number.s" "$work/one.s"; done
[ "$(find "$work/kept" -mindepth 1 -maxdepth 1 | wc -l)" -eq 1 ] || tell 'four ./mx cc at once' 'more than one library is left'
MX_LIBRARY=/proc/none ./mx cc "$work/echo.c" -o "$work/unkept.s" 2>/dev/null || tell 'cc without a place for the library' "status $?"
same 'cc without a place for the library' "$work/unkept.s" "$work/one.s"
# -E preprocesses; options of gcc with a space
./mx cc -E -D WHAT=seventeen "$work/good.c" >"$work/told" || tell 'cc -E' "status $?"
grep -q 'int main(void)' "$work/told" || tell 'cc -E' 'no program'
# a disk that is full, and a file that may not be written, keep what is there
mkdir "$work/locked" && echo kept >"$work/locked/out.s" && chmod 555 "$work/locked"
if ! touch "$work/locked/probe" 2>/dev/null; then
    ./mx cc "$work/good.c" -o "$work/locked/out.s" 2>/dev/null
    got=$?
    [ $got -eq 5 ] || tell 'cc -o in a locked folder' "status $got"
fi
chmod 755 "$work/locked" && rm -f "$work/locked/probe"
[ "$(cat "$work/locked/out.s")" = kept ] || tell 'cc -o in a locked folder' 'the old file is gone'
./mx cc "$work/good.c" -o /dev/full 2>"$work/said"
got=$?
[ $got -eq 5 ] || tell 'cc -o /dev/full' "status $got"
file second.c '' 'int main(void) { return 1; }'
file broken.c 'int main(void) {' '    return count;' '}'
file missing.c 'int f(void);' 'int main(void) {' '    return f();' '}'
file missing_datum.c 'extern int there;' 'int *at = &there;' 'int main(void) { return *at; }'
file float.s 'main:' '        add.s $f0,$f2,$f4' '        jr $31'
file system.s 'main:' '        li $2,4001' '        syscall'
file 'with a blank [0-9].c' 'int f(void);' 'int main(void) {' '    return f();' '}'
mkdir "$work/folder" && cp "$work/float.s" "$work/folder" || exit 1
for command in cc c; do
    end=()
    [ $command = c ] || end=(-o out.s)
    wrong 4 "zanderanvil: error: cannot read 'absent.c': no such file" $command absent.c "${end[@]}"
    wrong 4 "zanderanvil: error: cannot read 'absent.s': no such file" $command absent.s "${end[@]}"
    wrong 1 "broken.c:2:12: error: 'count' undeclared (first use in this function)" $command broken.c "${end[@]}"
    wrong 1 'float.s:2: add.s: floating-point registers are not taken; compile with -msoft-float' $command float.s "${end[@]}"
    wrong 1 'folder/float.s:2: add.s: floating-point registers are not taken; compile with -msoft-float' $command folder/float.s "${end[@]}"
    wrong 1 'system.s:3: syscall: an instruction of the system' $command system.s "${end[@]}"
    wrong 1 'with a blank [0-9].c:3: jal: a symbol that is defined nowhere: f' $command 'with a blank [0-9].c' "${end[@]}"
    wrong 4 "zanderanvil: error: cannot read '*.c': no such file" $command '*.c' "${end[@]}"
    wrong 4 "zanderanvil: error: cannot read 'folder': is a directory" $command folder "${end[@]}"
    wrong 1 'missing.c:3: jal: a symbol that is defined nowhere: f' $command missing.c "${end[@]}"
    wrong 1 'missing_datum.c: .word: a symbol that is defined nowhere: there' $command missing_datum.c "${end[@]}"
done
wrong 1 'second.c:2: main: a symbol that is defined twice' cc good.c second.c -o out.s
wrong 1 'folder/float.s:2: add.s: floating-point registers are not taken; compile with -msoft-float' cc good.c folder/float.s -o out.s
wrong 5 "zanderanvil: error: cannot write 'nowhere/out.s'" cc good.c -o nowhere/out.s
wrong 2 'zanderanvil: error: usage: ./mx cc [options of gcc] FILE.c .. -o OUT.s' cc good.c
wrong 2 "zanderanvil: error: cannot write 'good.c': this file is read" cc good.c -o good.c
wrong 2 "zanderanvil: error: cannot write './good.c': this file is read" cc good.c second.c -o ./good.c
[ "$(wc -l <"$work/good.c")" -eq 3 ] || tell 'cc good.c -o good.c' 'the file was written'
mkdir -p "$top/.mx/probe" "$work/probe"
wrong 2 "zanderanvil: error: unknown level '-O/../../probe': expected -O0, -O1, -O2, -O3, -Os, -Og or -Ofast" cc -O/../../probe good.c -o out.s
wrong 2 "zanderanvil: error: option '-c' of gcc is not taken: ./mx cc writes a source, and -E preprocesses" cc -c good.c -o out.s
[ -d "$top/.mx/probe" ] || tell 'cc -O/../../probe' 'a folder was removed'
rmdir "$top/.mx/probe"
"$top/checks/cc_cases.py" || failed=$((failed + 1))
"$top/checks/cc_mutated.py" 200 | tail -n 2
[ "${PIPESTATUS[0]}" -eq 0 ] || tell 'changed assembly' 'see above'
"$top/checks/cc_random.py" 10 || tell 'random assembly' 'see above'
[ $failed -eq 0 ] && echo "C commands: compared $compared wrong uses, and the cases of C" || echo "C commands: compared $compared wrong uses; $failed failed"
[ $failed -eq 0 ]
