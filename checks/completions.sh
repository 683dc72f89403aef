#!/bin/bash
# The completions of the installed zanderanvil: each shell that is here has to read its file, bash and fish complete commands, options
# and files whose names have blanks and apostrophes, and zsh takes each list of options as it is written.
# usage: checks/completions.sh
top=$(cd -- "$(dirname -- "$0")/.." && pwd -P) || exit 1
[ $# -eq 0 ] || { echo 'usage: checks/completions.sh' >&2; exit 2; }
folder=$(mktemp -d) || exit 1
trap 'rm -rf "$folder"' EXIT
compared=0
failed=0
skipped=

# need OUTCOME WHAT: counts what was compared, and whether it held (an outcome of 0)
need() {
    compared=$((compared + 1))
    if [ "$1" -eq 0 ]; then
        echo "ok: $2"
    else
        echo "FAILED: $2"
        failed=$((failed + 1))
    fi
}

cd "$folder" || exit 1
for shell in bash zsh fish; do
    python3 -E -s -B -c 'import sys; sys.path.insert(0, sys.argv[1]); import install; print(getattr(install, sys.argv[2])(), end="")' \
        "$top/tools" "$shell" >"$folder/completion.$shell" || exit 1
done
mkdir "$folder/files" && cd "$folder/files" || exit 1
touch 'a file.s' "it's.s" 'plain.s'

# Prints what bash completes for the last of these words, a line each.
complete_in_bash() {
    bash -c '. "$1"; shift; COMP_WORDS=("$@"); COMP_CWORD=$(($# - 1)); COMPREPLY=(); _zanderanvil; printf "%s\n" "${COMPREPLY[@]}"' \
        bash "$folder/completion.bash" "$@"
}
bash -n "$folder/completion.bash"
need $? 'bash reads its completion'
[ "$(complete_in_bash zanderanvil 'a')" = '' ] && [ "$(complete_in_bash zanderanvil draw 'a f')" = 'a file.s' ]
need $? 'bash: a file with a blank in its name is one'
[ "$(complete_in_bash zanderanvil draw "it'")" = "it's.s" ]
need $? 'bash: a file with an apostrophe in its name'
[ "$(complete_in_bash zanderanvil draw '' | wc -l)" -eq 3 ]
need $? 'bash: three files are three'
[ "$(complete_in_bash zanderanvil expl)" = explain ] && [ "$(complete_in_bash zanderanvil run --bud)" = --budget ]
need $? 'bash: a command and an option'

if command -v zsh >/dev/null 2>&1; then
    zsh -n "$folder/completion.zsh"
    need $? 'zsh reads its completion'
    # (with functions in the place of its own, each gets the words as it would)
    cat >"$folder/try.zsh" <<'END'
_arguments() { for it; do case $it in '*:file:_files' | -*) ;; *) echo "bad: $it" ;; esac; done; echo "$# options" }
_describe() { echo "${#commands} commands"; for it in $commands; do case $it in *:*) ;; *) echo "bad: $it" ;; esac; done }
compdef() { }
words=(zanderanvil); CURRENT=2
. "$1"
for it in $(sed -n "s/^        '\([a-z]*\):.*/\1/p" "$1"); do words=(zanderanvil $it x); CURRENT=3; _zanderanvil; done
END
    zsh -f "$folder/try.zsh" "$folder/completion.zsh" >"$folder/zsh" 2>&1
    count=$(sed -n "s/^        '\([a-z]*\):.*/\1/p" "$folder/completion.zsh" | wc -l)
    ! grep -q -v -E '^[0-9]+ (options|commands)$' "$folder/zsh" && [ "$(grep -c options "$folder/zsh")" -eq "$count" ] && [ "$count" -ge 20 ] \
        && grep -q "^$count commands" "$folder/zsh"
    need $? "zsh: the options of $count commands are as they were written"
else
    skipped="$skipped zsh"
fi
if command -v fish >/dev/null 2>&1; then
    fish --no-execute "$folder/completion.fish"
    need $? 'fish reads its completion'
    # shellcheck disable=SC2016
    [ "$(HOME=$folder fish -c 'source $argv[1]; complete -C "zanderanvil expl"' "$folder/completion.fish" | cut -f 1)" = explain ]
    need $? 'fish: a command'
    # shellcheck disable=SC2016
    HOME=$folder fish -c 'source $argv[1]; complete -C "zanderanvil run --bud"' "$folder/completion.fish" | grep -q -- '^--budget'
    need $? 'fish: an option'
    # shellcheck disable=SC2016
    HOME=$folder fish -c 'source $argv[1]; complete -C "zanderanvil plans "' "$folder/completion.fish" >"$folder/fish" 2>&1 && ! grep -q -i error "$folder/fish"
    need $? "fish: what has apostrophes"
else
    skipped="$skipped fish"
fi
[ -z "$skipped" ] || echo "skipped:$skipped is not there"
if [ "$failed" -ne 0 ] || [ "$compared" -eq 0 ]; then
    echo "completions: $failed of $compared failed"
    exit 1
fi
echo "completions: compared $compared results"
