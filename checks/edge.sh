#!/bin/bash
# What no proof can reach: the built program at the edge of the system. It needs a built program,
# as ./mx leaves it, and tries missing, endless, long and broken files, a full device, a closed pipe
# and a file that takes a part as standard output, a name that is not text, and each command with little stack.
#
# usage: checks/edge.sh      the program is the one that MX_RUN names, or the one that ./mx has built
top=$(CDPATH='' cd -- "$(dirname -- "$0")/.." && pwd) || exit 1
# shellcheck source=checks/common.sh
. "$top/checks/common.sh"
[ $# -eq 0 ] || wrong_arguments "unexpected argument $1"
choose_program mx_run "${MX_RUN-}"
cases=$top/crates/test_command_cases/data
folder=$(mktemp -d) || exit 1
trap 'rm -rf "$folder"' EXIT
cd "$folder" || exit 1

# expect NAME STATUS TEXT: the run before ended with $status and printed the file `out`.
expect() {
    if [ "$status" -eq "$2" ] && [ "$(head -c 200 out)" = "$3" ]; then tell ok "$1"; else tell "status $status, printed: $(head -c 200 out)" "$1"; fi
}

"$program" run "$top/examples/hello.s" >out 2>err
status=$?
if [ "$status" -eq 0 ] && cmp -s out "$top/crates/mx_run/stdout" && ! [ -s err ]; then tell ok 'a source'; else tell "status $status" 'a source'; fi

"$program" run missing >out 2>err
status=$?
expect 'a file that is not there' 4 'read fault: source failed'

"$program" run . >out 2>err
status=$?
expect 'a folder' 4 'read fault: source failed'

head -c 4194305 /dev/zero >long
"$program" run long >out 2>err
status=$?
expect 'a file one byte over the limit' 4 'read fault: source too long'

head -c 4194304 /dev/zero >longest
"$program" run longest >out 2>err
status=$?
expect 'a file at the limit' 1 'line 1: F1 BadByte'

"$program" run /dev/zero >out 2>err
status=$?
expect 'an endless file' 4 'read fault: source too long'

if [ -c /dev/full ]; then
    "$program" run "$top/examples/hello.s" >/dev/full 2>err
    status=$?
    : >out
    expect 'a full device' 5 ''
else
    echo 'skipped: /dev/full is missing'
fi

# A file that may have 1,024 bytes at most takes those, and refuses the rest.
"$program" gen 1 200 >whole 2>err
(
    trap '' XFSZ
    ulimit -f 1
    exec "$program" gen 1 200 >out 2>err
)
status=$?
if [ "$status" -eq 5 ] && [ "$(wc -c <out)" -eq 1024 ] && head -c 1024 whole | cmp -s - out; then
    tell ok 'a file that takes a part'
else
    tell "status $status, $(wc -c <out) bytes" 'a file that takes a part'
fi

"$program" run "$(printf 'a\377b')" >out 2>err
status=$?
expect 'a name that is not text' 10 ''

"$program" >out 2>err
status=$?
expect 'no words' 2 'usage: mx_run COMMAND WORDS'

printf 'halt' >-x
"$program" run -x >out 2>err
status=$?
expect 'an option that is not there' 2 'usage: mx_run COMMAND WORDS'

"$program" run -- -x >out 2>err
status=$?
[ "$(head -n 1 out)" = halted ] && : >out
expect 'a name after --' 0 ''

"$program" build "$top/examples/hello.s" image >out 2>err
status=$?
expect 'a built image' 0 ''
"$program" exec image >out 2>err
status=$?
cmp -s out "$top/crates/mx_run/stdout" && : >out
expect 'the run of a built image' 0 ''

"$program" build "$top/examples/hello.s" missing/image >out 2>err
status=$?
expect 'an image that cannot be written' 5 ''

# Sources that are long in other ways end by themselves too.
head -c 4194304 /dev/zero | tr '\0' x >one_line
"$program" run one_line >out 2>err
status=$?
expect 'a source of one line' 1 'line 1: F3 UnknownMnemonic'

awk 'BEGIN { for (i = 0; i < 300000; i++) printf "l%d:", i; print "halt" }' >labels
"$program" run labels >out 2>err
status=$?
expect 'a line of 300,000 labels' 1 'line 1: F14 LineTooLong'

awk 'BEGIN { printf "addi r0,#"; for (i = 0; i < 1000000; i++) printf "9"; print ",r1" }' >digits
"$program" run digits >out 2>err
status=$?
expect 'a number of a million digits' 1 'line 1: F6 NumberOutOfRange'

seq 1 65537 >requests
"$program" run "$top/examples/hello.s" --interrupts requests >out 2>err
status=$?
expect '65,537 requests' 8 'interrupts line 65537: TooMany'

# The other end of the pipe is closed before the program writes.
mkfifo pipe
(
    exec 4>pipe
    while [ ! -e closed ]; do sleep 0.1; done
    "$program" run "$top/examples/hello.s" >&4 2>err
    echo $? >ended
) &
writer=$!
exec 5<pipe
exec 5<&-
touch closed
wait "$writer"
status=$(cat ended)
: >out
expect 'a closed pipe' 5 ''

# No file that is cut, or has a field out of its range, or a link outside its code, is taken for an image, and none loses
# what it held.

# decode: the bytes that the standard input spells in hexadecimal
decode() { printf '%b' "$(tr -d ' \n' | sed 's/../\\x&/g')"; }

# refused FILE TEXT: `exec` and `migrate` onto itself refuse the file so, and it stays
refused() {
    cp "$1" kept
    "$program" exec "$1" >out 2>err
    [ $? -eq 7 ] && [ "$(cat out)" = "$2" ] || return 1
    "$program" migrate "$1" "$1" >out 2>err
    [ $? -eq 7 ] && [ "$(cat out)" = "$2" ] && cmp -s "$1" kept
}

for name in hello_1.mxi hello_2.mxi slot_2.mxi; do
    decode <"$cases/files/$name.hex" >image
    length=$(wc -c <image)
    bad=0
    [ "$length" -gt 0 ] || bad=1
    for ((n = 0; n < length; n++)); do
        head -c "$n" image >short
        refused short "image: Truncated at $n" || bad=$((bad + 1))
    done
    { cat image; printf x; } >longer
    refused longer "image: Trailing at $length" || bad=$((bad + 1))
    status=$bad
    : >out
    expect "each front of $name, and one byte more" 0 ''
done

# The cases of image files, on real files: HEX -> STATUS LINE
count=0
bad=0
while IFS= read -r line; do
    printf '%s' "${line%% ->*}" | decode >image
    answer=${line#*-> }
    wanted=${answer%% *}
    "$program" exec image --budget 100 >out 2>err
    status=$?
    count=$((count + 1))
    if [ "$status" -ne "$wanted" ] || [ "$(head -n 1 out)" != "${answer#* }" ] ||
        { [ "$wanted" -eq 7 ] && ! refused image "${answer#* }"; }; then
        tell "status $status" "$line"
        bad=$((bad + 1))
    fi
done <"$cases/images.txt"
[ "$count" -gt 0 ] || bad='no case was found'
[ "$bad" != 0 ] || compared=$((compared + count - 1)) bad=ok
tell "$bad" "$count image files"

# Noise that is the same on each machine.
awk 'BEGIN { x = 7; for (i = 0; i < 1048576; i++) { x = (x * 1103515245 + 12345) % 2147483648; printf "%c", 33 + int(x / 65536) % 90 } }' >noise
"$program" exec noise >out 2>err
status=$?
expect 'noise' 7 'image: BadMagic'

head -c 1048577 /dev/zero >noise
"$program" exec noise >out 2>err
status=$?
expect 'an image over the limit' 4 'read fault: image too long'

# No proof speaks of the stack: each command answers with 64 KB of it as it does with more.

# shallow WORD..: the program of these words ends, prints and writes the same with 64 KB of stack; it writes `written`, if anything
shallow() {
    rm -f written
    "$program" "$@" >wide 2>err
    local wanted=$?
    touch written && mv written wide_written
    # An empty environment, since that stands on the stack too.
    env -i "$BASH" -c 'ulimit -s 64; exec "$@"' shallow "$program" "$@" >out 2>err
    status=$?
    touch written
    cmp -s out wide && cmp -s written wide_written && ! [ -s err ] && : >out
    expect "$1 with 64 KB of stack" "$wanted" ''
}

if ! { "$program" gen 7 4000 >generated && "$program" build generated generated_image; }; then tell 'refused' 'a generated source'; fi
seq 5 40 9000 >requests
printf ab >input
shallow run generated --trace 100 --dump 256 --count 64 --interrupts requests
shallow run "$top/examples/echo.s" --input input
shallow exec generated_image --interrupts requests
shallow build generated written
shallow migrate generated_image written
shallow list generated
shallow meaning generated
shallow debug "$top/examples/countdown.s" next --stops 3
shallow best generated
shallow join "$top/examples/letters.s" "$top/examples/emit.s"
shallow share "$top/examples/ping.s" "$top/examples/pong.s" --interrupts requests
shallow gen 7 4000
shallow soak 7 4000

finish edges runs
