#!/bin/sh
# Types the first commands of README and docs/LAB.md in a fresh clone with nothing kept, for both programs, and tries what goes
# wrong first: links, blanks in paths, missing tools and files. With the word `proved` also ./mx prove, and with `library` the
# library: these take half an hour each. By hand, before each hand-in that touches ./mx or a stored run.
# usage: checks/fresh.sh [proved] [library]
for word in "$@"; do
    case $word in
        proved | library) ;;
        *)
            echo "checks/fresh.sh: unknown argument $word: proved and library are known" >&2
            exit 2
            ;;
    esac
done
top=$(CDPATH='' cd -- "$(dirname -- "$0")/.." && pwd -P) || exit 1
folder=$(mktemp -d) || exit 1
trap 'rm -rf "$folder"' EXIT
clone="$folder/a clone"
git clone -q "$top" "$clone" || exit 1
failed=0
compared=0

# Tells whether what was tried ended with the status $2 and with the text $3, which is never empty, in its output.
tell() {
    compared=$((compared + 1))
    if [ -z "$3" ]; then
        echo "WRONG: $1: it looks for nothing"
        failed=1
    elif [ "$status" -eq "$2" ] && grep -qF -- "$3" "$folder/out"; then
        echo "ok: $1"
    else
        echo "WRONG: $1 (status $status)"
        tail -n 5 "$folder/out"
        failed=1
    fi
}

# Runs a command in the folder $1, and keeps its status and all that it prints.
run() {
    # (of the caller's programs none is taken)
    unset MX_RUN MX_LAB MX_CC MX_SERVE MX_QUIET
    at=$1
    shift
    (cd "$at" && "$@") >"$folder/out" 2>&1
    status=$?
}

began=$(date +%s)
run "$clone" ./mx run examples/hello.s
tell 'run in a fresh clone' 0 'cycles 12'
tell 'it says that it is not proved' 0 './mx prove proves it'
echo "   the first report after $(($(date +%s) - began)) s"
run "$clone" ./mx draw examples/countdown.s
tell 'draw in a fresh clone' 0 'addi r0,#51,r1'
run "$clone" ./mx interrupts examples/greeting.s
tell 'an interrupt in each cycle' 0 'longest wait        9 cycles, of the request in cycle 0, at line 2: la   msg,r1'
run "$clone" ./mx compare examples/hello.s examples/countdown.s examples/greeting.s
tell 'several sources' 0 'all                   best          21  91.3%'
began=$(date +%s%N)
run "$clone" ./mx --quick run examples/hello.s
tell 'the second call' 0 'cycles 12'
echo "   after $((($(date +%s%N) - began) / 1000000)) ms"
ln -s "$clone/mx" "$folder/link"
run "$folder" ./link run "a clone/examples/hello.s"
tell 'through a link, from another folder, with blanks in the path' 0 'cycles 12'
run "$clone/examples" sh -c '../mx build hello.s new.mxi && ../mx exec new.mxi'
tell 'a file that is not there yet is written where the command was typed' 0 'cycles 12'
run "$clone" ./mx run missing.s
tell 'a file that is not there' 4 'read fault: source failed'
tell 'and which one' 4 "zanderanvil: error: cannot read 'missing.s': no such file"
run "$clone" ./mx rnu examples/hello.s
tell 'a command that there is not' 2 "zanderanvil: error: unknown command 'rnu'; did you mean 'run'?"
run "$clone" ./mx run --budgte 5 examples/hello.s
tell 'an option that there is not' 2 "zanderanvil: error: unexpected argument '--budgte'; did you mean '--budget'?"
run "$clone" ./mx run --budget 200000000 examples/hello.s
tell 'a number out of range' 2 "invalid value '200000000' for '--budget': expected 0 to 100,000,000"
run "$clone" ./mx debug examples/countdown.s nxet
tell 'a label that there is not' 1 "undefined label 'nxet' in examples/countdown.s; did you mean 'next'?"
run "$clone" ./mx exec examples/hello.s
tell 'a source in the place of an image' 7 'is not a valid image file'
run "$clone" sh -c './mx run - <examples/hello.s'
tell 'standard input' 0 'cycles 12'
run "$clone" sh -c 'cat README.md | ./mx share examples/hello.s -'
tell 'faults of what comes by a pipe' 1 'program 2 line 1: F4 BadOperands'
run "$clone" ./mx run README.md
tell 'a source with faults' 1 'of which the first 20 are shown: --all shows them all'
run "$clone" ./mx run --budget=5 examples/hello.s
tell 'an option with =' 3 'cycles 5'
run "$clone" ./mx run --help
tell 'help of a command' 0 '--interrupts FILE'
run "$clone" ./mx
tell 'no words' 2 'usage: ./mx'
mkdir "$folder/bin"
for it in dirname readlink cat find sha256sum; do ln -s "$(command -v "$it")" "$folder/bin/"; done
run "$clone" env PATH="$folder/bin" /bin/sh ./mx --proved run examples/hello.s
tell 'without the toolchain it says what to install' 10 'zanderanvil: error: the command rt is missing'
run "$clone" sh -c 'git status --porcelain; echo "status of the clone"'
grep -v -e new.mxi -e 'status of the clone' "$folder/out" && status=1
tell 'nothing else was written' 0 'status of the clone'
for word in "$@"; do
    case $word in
        proved)
            run "$clone" ./mx prove
            tell './mx prove' 0 'are proved'
            run "$clone" ./mx --version
            tell 'the version says so' 0 'mx_run is proved'
            run "$clone" ./mx --proved run examples/hello.s
            tell 'the proved program' 0 'cycles 12'
            ;;
        library)
            run "$clone" sh -c './mx library lib && checks/embed.sh lib'
            tell './mx library' 0 'embed: compared'
            ;;
    esac
done
[ "$failed" -eq 0 ] && echo "fresh: compared $compared results"
exit "$failed"
