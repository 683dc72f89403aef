#!/bin/bash
# The completions of bash, zsh and fish, as `./mx install` writes them, each in the shells that are there; and that the manual page and the
# syntax files have all commands and mnemonics.
#
# usage: checks/shells.sh
top=$(CDPATH='' cd -- "$(dirname -- "$0")/.." && pwd -P) || exit 1
# shellcheck source=checks/common.sh
. "$top/checks/common.sh"
[ $# -eq 0 ] || wrong_arguments "unexpected argument $1"
need_tools python3
folder=$(mktemp -d) || exit 1
trap 'rm -rf "$folder"' EXIT
cd "$folder" || exit 1

# The files of an installation, without programs.
python3 -B - "$top" <<'END_OF_SCRIPT' || exit 1
import os
import sys
sys.path.insert(0, f"{sys.argv[1]}/tools")
import install
texts = {
    "share/man/man1/zanderanvil.1": install.page_of_all("version"),
    "share/bash-completion/completions/zanderanvil": install.bash(),
    "share/zsh/site-functions/_zanderanvil": install.zsh(),
    "share/fish/vendor_completions.d/zanderanvil.fish": install.fish(),
    "share/zanderanvil/vim/syntax/mipsx.vim": install.vim(),
    "share/zanderanvil/mipsx.tmLanguage.json": install.grammar(),
}
for path, text in texts.items():
    os.makedirs(os.path.dirname(f"prefix/{path}"), exist_ok=True)
    with open(f"prefix/{path}", "w", encoding="utf-8") as it:
        it.write(text)
with open("commands", "w", encoding="utf-8") as it:
    it.writelines(f"{name} {' '.join(option.name for option in command.options)}\n" for name, command in install.COMMANDS.items())
with open("mnemonics", "w", encoding="utf-8") as it:
    it.writelines(f"{name}\n" for name in install.mnemonics())
END_OF_SCRIPT
mkdir files && : >'files/a file.s' && : >files/other.s

# complete_in_bash WORD ..: prints what bash offers for the last of these words of a command line
complete_in_bash() {
    bash --norc --noprofile -c '
        . "$1" && shift && cd files || exit 1
        COMP_WORDS=(zanderanvil "$@") COMP_CWORD=$#
        COMP_LINE="${COMP_WORDS[*]}" COMP_POINT=${#COMP_LINE} COMPREPLY=()
        _zanderanvil && printf "%s\n" "${COMPREPLY[@]}"' bash "$PWD/prefix/share/bash-completion/completions/zanderanvil" "$@"
}

# offers NAME FILE LINE ..: the file has each of these lines
offers() {
    local name=$1 file=$2 outcome=ok
    shift 2
    for it; do grep -qxF -- "$it" "$file" || outcome="$it is not offered: $(head -n 5 "$file" | tr '\n' ' ')"; done
    tell "$outcome" "$name"
}

complete_in_bash '' >offered 2>err
while read -r name _; do offers "bash: the command $name" offered "$name"; done <commands
while read -r name options; do
    complete_in_bash "$name" -- >offered 2>err
    # shellcheck disable=SC2086
    offers "bash: the options of $name" offered $options
done <commands
complete_in_bash run a >offered 2>err
offers 'bash: a file with a blank in its name' offered 'a file.s'

if command -v zsh >/dev/null 2>&1; then
    zsh -f -n prefix/share/zsh/site-functions/_zanderanvil >said 2>&1
    tell $? "zsh reads its file: $(head -n 1 said)"
    # the functions that a completion calls are replaced by ones that print what they get
    while read -r name options; do
        zsh -f -c '
            _describe() { eval "print -l -- \${(P)2}"; }
            _arguments() { print -l -- "$@"; }
            words=(zanderanvil '"$name"' --) CURRENT=3
            . ./prefix/share/zsh/site-functions/_zanderanvil' 2>err | sed -n 's/^\(--[a-z-]*\).*/\1/p' >offered
        # shellcheck disable=SC2086
        offers "zsh: the options of $name" offered $options
    done <commands
else
    echo 'skipped: zsh is missing'
fi

if command -v fish >/dev/null 2>&1; then
    file=$PWD/prefix/share/fish/vendor_completions.d/zanderanvil.fish
    fish --no-config --no-execute "$file" >said 2>&1
    tell $? "fish reads its file: $(head -n 1 said)"
    HOME=$folder fish --no-config -c "source $file; complete -C 'zanderanvil '" 2>err | cut -f 1 >offered
    while read -r name _; do offers "fish: the command $name" offered "$name"; done <commands
    while read -r name options; do
        HOME=$folder fish --no-config -c "source $file; complete -C 'zanderanvil $name --'" 2>err | cut -f 1 >offered
        # shellcheck disable=SC2086
        offers "fish: the options of $name" offered $options
    done <commands
else
    echo 'skipped: fish is missing'
fi

while read -r name _; do
    grep -qF ".B $name " prefix/share/man/man1/zanderanvil.1
    tell $? "the manual page has $name"
done <commands
if command -v man >/dev/null 2>&1 && man --version >/dev/null 2>&1; then
    MANROFFSEQ='' man --warnings -l -P cat prefix/share/man/man1/zanderanvil.1 >page 2>said
    [ -s page ] && ! [ -s said ]
    tell $? "man reads the page: $(head -n 1 said)"
else
    echo 'skipped: man is missing'
fi
while read -r name; do
    grep -qw -- "$name" prefix/share/zanderanvil/vim/syntax/mipsx.vim && grep -qw -- "$name" prefix/share/zanderanvil/mipsx.tmLanguage.json
    tell $? "the syntax files have $name"
done <mnemonics
finish shells 'commands, options, files and mnemonics'
