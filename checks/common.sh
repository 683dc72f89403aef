# shellcheck shell=sh
# What the checks in the shell share; each sources it, with $top as the folder of the repository. How a check ends, and which
# variables it heeds, is in common.py.
failures=0
compared=0
: "${top:?}"

# skip WHAT: ends the check, which cannot run here
skip() {
    echo "skipped: $1"
    exit 77
}

# need_tools NAME ..: skips the check where one of these commands is missing
need_tools() {
    for it; do
        command -v "$it" >/dev/null 2>&1 || skip "$it is missing"
    done
}

# wrong_arguments WHAT: ends the check, which was called with wrong arguments
wrong_arguments() {
    echo "${0##*/}: $1" >&2
    exit 2
}

# choose_program NAME GIVEN: leaves in `program` the path of a built program: GIVEN, else the proved one, else that of ./mx --quick
choose_program() {
    program=$2
    if [ -n "$program" ]; then
        program=$(command -v "$2") || wrong_arguments "$2 cannot be run"
        case $program in /*) ;; *) program=$PWD/$program ;; esac
        return
    fi
    for program in "$top/crates/$1/out/$1" "$top/.mx/$1"; do
        [ ! -x "$program" ] || return 0
    done
    skip "$1 is not built: ./mx --quick builds it"
}

# is_sample: whether a sample is enough
is_sample() {
    case ${MX_SAMPLE-} in '' | 0 | no) return 1 ;; esac
}

# tell OUTCOME NAME: counts a comparison, and prints whether it holds, where its outcome is `ok` or 0
tell() {
    compared=$((compared + 1))
    case $1 in
        ok | 0) echo "ok: $2" ;;
        *)
            echo "FAILED: $2: $1"
            failures=$((failures + 1))
            ;;
    esac
}

# finish NAME THINGS: reports how much was compared, and ends the check
finish() {
    if [ "$failures" -gt 0 ]; then
        echo "$1: $failures of $compared $2 differ"
        exit 1
    fi
    if [ "$compared" -eq 0 ]; then
        echo "$1: nothing was compared"
        exit 1
    fi
    echo "$1: compared $compared $2"
    exit 0
}
