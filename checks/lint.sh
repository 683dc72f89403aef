#!/bin/sh
# What shellcheck says of each shell script, pyflakes of each Python file, and mypy of the module for Python. Each of the three is left
# out where it is missing.
#
# usage: checks/lint.sh
top=$(CDPATH='' cd -- "$(dirname -- "$0")/.." && pwd -P) || exit 1
# shellcheck source=checks/common.sh
. "$top/checks/common.sh"
[ $# -eq 0 ] || wrong_arguments "unexpected argument $1"
folder=$(mktemp -d) || exit 1
trap 'rm -rf "$folder"' EXIT
cd "$top" || exit 1

# lint NAME LIST COMMAND ..: the command finds nothing in the files of the list
lint() {
    name=$1
    list=$2
    shift 2
    if xargs -r "$@" <"$list" >"$folder/said" 2>&1; then
        compared=$((compared + $(wc -l <"$list")))
    else
        tell "$(cat "$folder/said")" "$name"
    fi
}

# find_files PATTERN ..: the files below the repository, without what is built
find_files() {
    find . \( -name out -o -name .git -o -name .mx -o -name '.*_cache' \) -prune -o -type f \( "$@" \) -print
}

if command -v shellcheck >/dev/null 2>&1; then
    # a script without a suffix is known by its first line
    { find_files -name '*.sh'; grep -lE '^#!/bin/(ba)?sh' mx .ci/run build/* tools/* 2>/dev/null; } | sed 's,^\./,,' | sort -u >"$folder/scripts"
    # notes on style differ from version to version
    lint shellcheck "$folder/scripts" shellcheck -S warning -x -P .
else
    echo 'skipped: shellcheck is missing'
fi
if python3 -m pyflakes --version >/dev/null 2>&1; then flakes='python3 -m pyflakes'; else flakes=$(command -v pyflakes3 || command -v pyflakes); fi
if [ -n "$flakes" ]; then
    find_files -name '*.py' | sort >"$folder/modules"
    # shellcheck disable=SC2086
    lint pyflakes "$folder/modules" $flakes
else
    echo 'skipped: pyflakes is missing'
fi
if [ ! -e python/zanderanvil/py.typed ]; then
    echo 'skipped: the module for Python has no types'
elif command -v mypy >/dev/null 2>&1; then
    find python/zanderanvil -name '*.py' >"$folder/typed"
    lint 'mypy --strict' "$folder/typed" mypy --strict --cache-dir "$folder/mypy"
else
    echo 'skipped: mypy is missing'
fi
[ "$compared" -gt 0 ] || skip 'shellcheck, pyflakes and mypy are missing'
finish lint files
