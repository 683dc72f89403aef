#!/usr/bin/env python3
"""Puts the proved programs below a folder, under one name, with manual pages, completions and syntax files.

usage: tools/install.py PREFIX VERSION

Below PREFIX: bin/zanderanvil, libexec/zanderanvil with the two programs, share/man/man1, completions for bash, zsh and fish, and
share/zanderanvil with syntax files for vim and for editors that read TextMate grammars. The mnemonics are read from the table of
the assembler, the commands are those of tools/commands.py. VERSION is what ./mx says of itself. All files are written beside their
places first; if one cannot be, nothing is installed.
"""
import contextlib
import errno
import hashlib
import json
import os
import re
import secrets
import sys

import commands
from processes import end_by_signals

TOP = os.path.dirname(os.path.dirname(os.path.abspath(__file__)))
sys.path.append(f"{TOP}/build")
import state  # noqa: E402

PROGRAMS = ("mx_run", "mx_lab")
# The tools that bin/zanderanvil calls.
TOOLS = ("commands.py", "errors.py", "hint.py", "launch.py", "processes.py")
WRITE_FAULT = 5
# What C programs need beside their translator stands in the repository alone.
COMMANDS = {name: it for name, it in commands.COMMANDS.items() if it.program in PROGRAMS}


def mnemonics():
    """Returns the mnemonics that the assembler knows, from its own table."""
    with open(f"{TOP}/crates/mx_lines/src/mnemonic.rt", encoding="utf-8") as it:
        table = re.search(r"const MNEMONICS.*?= \[(.*?)\n\];", it.read(), re.S)
    return re.findall(r'\("(\w+)",', table.group(1))


def launcher(version):
    """Returns the text of bin/zanderanvil, which starts the program of a command."""
    lab = "|".join(name for name, it in COMMANDS.items() if it.program == "mx_lab")
    run = "|".join(name for name, it in COMMANDS.items() if it.program == "mx_run")
    helps = "|".join(f"{name},--help,2" for name, it in COMMANDS.items() if it.program == "mx_run")
    return f"""#!/bin/sh
# Starts the program of a command: zanderanvil run SOURCE, zanderanvil draw SOURCE, and so on.
self=$0
while [ -h "$self" ]; do
    link=$(readlink "$self")
    case $link in /*) self=$link ;; *) self=$(dirname -- "$self")/$link ;; esac
done
here=$(CDPATH='' cd -- "$(dirname -- "$self")/.." && pwd -P) || exit 10
export MX_NAME=zanderanvil
# Runs a program whose command writes a file, which it writes completely or not at all: that takes Python.
launch() {{
    if command -v python3 >/dev/null 2>&1; then
        MX_TOLD=${{told-2}} python3 -E -s -B "$here/share/zanderanvil/launch.py" "$@"
    else
        "$@"
    fi
}}
# Runs the laboratory.
laboratory() {{
    for word; do
        case $word in
            build | -o* | --output | --output=*) launch "$here/libexec/zanderanvil/mx_lab" "$@"; exit ;;
        esac
    done
    exec "$here/libexec/zanderanvil/mx_lab" "$@"
}}
# Runs the toolchain: it ends where this shell is ended.
toolchain() {{
    case $1 in build | migrate) told=99; launch "$here/libexec/zanderanvil/mx_run" "$@"; return ;; esac
    if command -v setpriv >/dev/null 2>&1; then
        setpriv --pdeathsig TERM "$here/libexec/zanderanvil/mx_run" "$@"
    else
        "$here/libexec/zanderanvil/mx_run" "$@"
    fi
}}
# Says on standard error what to do about a command that ended with the status $1.
hint() {{
    command -v python3 >/dev/null 2>&1 && python3 -B "$here/share/zanderanvil/hint.py" "$@"
}}
# Ends with an error, and the status $2.
fail() {{
    echo "zanderanvil: error: $1" >&2
    exit "$2"
}}
# Runs the toolchain. What it prints goes to the file $target, if one is named, once the command has not failed.
toolchain_into() {{
    case $target in '' | -) toolchain "$@"; return ;; esac
    if command -v python3 >/dev/null 2>&1; then
        command=$1
        shift
        told=99
        launch "$here/libexec/zanderanvil/mx_run" "$command" -o "$target" "$@"
        return
    fi
    printed=$(mktemp) || exit 10
    trap 'rm -f "$printed"' EXIT
    toolchain "$@" >"$printed"
    status=$?
    case $status in
        0 | 3 | 9) {{ cat "$printed" >"$target"; }} 2>/dev/null || fail "cannot write '$target'" 5 ;;
        *) cat "$printed" ;;
    esac
    return "$status"
}}
# A command of the toolchain that names a plan file is the laboratory's.
case ${{1-}} in
    build | debug)
        for word; do
            case $word in --) break ;; --plans | --plans=*) laboratory "$@" ;; esac
        done
        ;;
esac
case ${{1-}},${{2-}},$# in
    {helps}) exec cat "$here/share/zanderanvil/help/$1" ;;
esac
case ${{1-}} in
    explain)
        # the code of a fault, which is no file
        if [ $# -eq 2 ] && [ ! -e "$2" ] && command -v python3 >/dev/null 2>&1 && python3 -B "$here/share/zanderanvil/errors.py" "$2"; then
            exit 0
        fi
        laboratory "$@"
        ;;
    {lab}) laboratory "$@" ;;
    lab) shift; laboratory "$@" ;;
    --version)
        proof='not the program that was proved: install it again'
        (cd "$here/libexec/zanderanvil" && sha256sum --status --check "$here/share/zanderanvil/proved") 2>/dev/null && proof=proved
        echo "zanderanvil {version}, $proof"
        ;;
    -h | --help) exec cat "$here/share/zanderanvil/help/all" ;;
    '') cat "$here/share/zanderanvil/help/all"; exit 2 ;;
    {run})
        # `-` is standard input, but for the file that build and migrate write
        name=$1
        left=$#
        target=
        option=
        for word; do
            shift
            left=$((left - 1))
            case $option,$name,$word in
                -o*,*) [ -n "$word" ] || fail "missing value for '-o': expected a file" 2
                    target=$word option= && continue ;;
                --,*,* | ,build,* | ,migrate,*) ;;
                ,*,-o | ,*,--output) option=-o && continue ;;
                ,*,-o=*) target=${{word#-o=}} && continue ;;
                ,*,-o*) target=${{word#-o}} && continue ;;
                ,*,--output=*) target=${{word#--output=}} && continue ;;
                ,*,--) option=-- ;;
            esac
            case $word in
                -) case $name,$left in build,0 | migrate,0) ;; *) word=/dev/stdin ;; esac ;;
            esac
            set -- "$@" "$word"
        done
        [ "$option" != -o ] || fail "missing value for '-o': expected a file" 2
        toolchain_into "$@"
        status=$?
        case $status in 99) exit 2 ;; [1-9]) hint "$status" "$@" ;; esac
        exit "$status"
        ;;
    *) hint 2 "$@"; exit 2 ;;
esac
"""


def roff(text):
    """Returns a text as a manual page takes it."""
    text = text.replace("\\", "\\e").replace("-", "\\-")
    return re.sub(r"(?m)^([.'])", r"\\&\1", text)


def page_of_all(version):
    """Returns the manual page zanderanvil(1)."""
    lines = [f'.TH ZANDERANVIL 1 "" "zanderanvil {version}"', ".SH NAME",
             "zanderanvil \\- toolchain and simulator for MIPS\\-X, proved", ".SH SYNOPSIS", ".B zanderanvil", "COMMAND ARGUMENTS",
             ".SH DESCRIPTION", roff("Assembles sequential sources, rearranges each basic block for the pipeline without interlocks, links "
                                     "them, and runs them cycle by cycle, with interrupts at the cycles asked for."), ".SH COMMANDS"]
    for name, it in COMMANDS.items():
        lines += [".TP", f".B {roff(name)} {roff(it.names)}", roff(it.text) + "."]
        for option in it.options:
            lines += [".RS", ".TP", f".B {roff(option.name)} {roff(option.value)}", roff(option.text), ".RE"]
    lines += [".SH EXIT STATUS", roff("0 done, 1 a refused source, 2 wrong arguments, 3 out of budget, 4 a read fault, 5 a write fault, "
                                      "6 no memory, 7 a faulty image file, 8 a faulty interrupt or plan file, 9 a stuck meaning.")]
    return "\n".join(lines) + "\n"


def quoted(text):
    """Returns a text as one word of bash or zsh."""
    return "'" + text.replace("'", "'\\''") + "'"


def bash():
    """Returns the completion for bash. Its lists have a word a line, since a name may have blanks."""
    cases = "\n".join(
        f"        {name}) words={quoted(' '.join([option.name for option in it.options] + ['--help']))} ;;" for name, it in COMMANDS.items())
    return f"""# bash completion for zanderanvil
_zanderanvil() {{
    local word=${{COMP_WORDS[COMP_CWORD]}} words=
    if [ "$COMP_CWORD" -eq 1 ]; then
        mapfile -t COMPREPLY < <(compgen -W {quoted(' '.join(COMMANDS) + ' lab --help --version')} -- "$word")
        return
    fi
    case ${{COMP_WORDS[1]}} in
{cases}
    esac
    case $word in
        -*) mapfile -t COMPREPLY < <(compgen -W "$words" -- "$word") ;;
        *)
            compopt -o filenames 2>/dev/null
            mapfile -t COMPREPLY < <(compgen -f -- "$word")
            ;;
    esac
}}
complete -F _zanderanvil zanderanvil
"""


def of_zsh(text):
    """Returns a text as a part of what _arguments and _describe read, where brackets and colons end a part."""
    return re.sub(r"([\\:\[\]])", r"\\\1", text)


def zsh():
    """Returns the completion for zsh."""
    commands = "\n".join(f"        {quoted(f'{name}:{of_zsh(it.text)}')}" for name, it in COMMANDS.items())
    cases = ""
    for name, it in COMMANDS.items():
        options = " ".join(
            quoted(f"{option.name}[{of_zsh(option.text)}]{f':{of_zsh(option.value)}:_files' if option.value else ''}") for option in it.options)
        cases += f"        {name}) _arguments {options} '*:file:_files' ;;\n"
    return f"""#compdef zanderanvil
_zanderanvil() {{
    local -a commands=(
{commands}
    )
    if (( CURRENT == 2 )); then
        _describe command commands
        return
    fi
    shift words; (( CURRENT-- ))
    case $words[1] in
{cases}    esac
}}
_zanderanvil "$@"
"""


def of_fish(text):
    """Returns a text as one word of fish."""
    return "'" + text.replace("\\", "\\\\").replace("'", "\\'") + "'"


def fish():
    """Returns the completion for fish."""
    lines = ["complete -c zanderanvil -n __fish_use_subcommand -l version -d 'prints the version'"]
    for name, it in COMMANDS.items():
        lines.append(f"complete -c zanderanvil -n __fish_use_subcommand -a {name} -d {of_fish(it.text)}")
        for option in it.options:
            dashes, takes = ("-l", option.name[2:]) if option.name.startswith("--") else ("-s", option.name[1:]), " -r" if option.value else ""
            lines.append(f"complete -c zanderanvil -n '__fish_seen_subcommand_from {name}' {' '.join(dashes)}{takes} -d {of_fish(option.text)}")
    return "\n".join(lines) + "\n"


def vim():
    """Returns the syntax file for vim."""
    return f"""\" Vim syntax file: MIPS-X sources of Zanderanvil
if exists("b:current_syntax") | finish | endif
syn case ignore
syn keyword mipsxMnemonic {' '.join(mnemonics())}
syn match mipsxDirective "\\.[a-z]\\+"
syn match mipsxRegister "\\<r\\([0-9]\\|[12][0-9]\\|3[01]\\)\\>"
syn keyword mipsxRegister md
syn match mipsxNumber "#\\?-\\?\\<\\(0x[0-9a-f]\\+\\|[0-9]\\+\\)\\>"
syn match mipsxLabel "^\\s*[a-z_.$][a-z0-9_.$]*:"
syn match mipsxComment ";.*$"
hi def link mipsxMnemonic Statement
hi def link mipsxDirective PreProc
hi def link mipsxRegister Identifier
hi def link mipsxNumber Number
hi def link mipsxLabel Label
hi def link mipsxComment Comment
let b:current_syntax = "mipsx"
"""


def grammar():
    """Returns the TextMate grammar."""
    return json.dumps({
        "name": "MIPS-X (Zanderanvil)",
        "scopeName": "source.mipsx",
        "fileTypes": ["s"],
        "patterns": [
            {"name": "comment.line.semicolon.mipsx", "match": ";.*$"},
            {"name": "entity.name.function.mipsx", "match": r"^\s*[A-Za-z_.$][A-Za-z0-9_.$]*(?=:)"},
            {"name": "keyword.control.mipsx", "match": rf"(?i)\b({'|'.join(mnemonics())})\b"},
            {"name": "storage.type.mipsx", "match": r"\.[a-z]+\b"},
            {"name": "variable.language.mipsx", "match": r"(?i)\b(r([0-9]|[12][0-9]|3[01])|md)\b"},
            {"name": "constant.numeric.mipsx", "match": r"#?-?\b(0x[0-9A-Fa-f]+|[0-9]+)\b"},
        ],
    }, indent=2) + "\n"


def screen():
    """Returns the screen of help, from that of ./mx."""
    text = read(f"{TOP}/mx")
    found = re.search(r"cat <<'END'\n(.*?)\nEND\n", text, re.S).group(1)
    # the workbench, the grading and the language server are in the repository alone
    found = "".join(line for line in found.splitlines(True) if not line.startswith(("  serve ", "  grade ", "  lsp ")))
    return found[:found.index("C programs")].replace("./mx [--quick | --proved]", "zanderanvil").replace("./mx", "zanderanvil").rstrip() + "\n"


def read(path):
    with open(path, encoding="utf-8") as it:
        return it.read()


def proved_programs():
    """Returns the proved programs, each with its bytes, and raises OSError where one is not what was proved."""
    found = {}
    for name in PROGRAMS:
        path, record = f"{TOP}/crates/{name}/out/{name}", state.read_record(state.record_of(name))
        if not record or state.sum_of(path) != record.get("output"):
            raise OSError(0, "changed since it was proved: run it again", path)
        with open(path, "rb") as it:
            found[name] = it.read()
    return found


def texts(version=""):
    """Returns for each file that is installed and is no program, by its path below the prefix, its text."""
    found = {
        "bin/zanderanvil": launcher(version),
        "share/man/man1/zanderanvil.1": page_of_all(version),
        "share/bash-completion/completions/zanderanvil": bash(),
        "share/zsh/site-functions/_zanderanvil": zsh(),
        "share/fish/vendor_completions.d/zanderanvil.fish": fish(),
        "share/zanderanvil/vim/syntax/mipsx.vim": vim(),
        "share/zanderanvil/mipsx.tmLanguage.json": grammar(),
        "share/zanderanvil/help/all": screen(),
        "share/zanderanvil/ERRORS.md": read(f"{TOP}/docs/ERRORS.md").replace("./mx", "zanderanvil"),
        **{f"share/zanderanvil/{name}": read(f"{TOP}/tools/{name}") for name in TOOLS},
    }
    for name, it in COMMANDS.items():
        if it.program == "mx_run":
            found[f"share/zanderanvil/help/{name}"] = commands.help_of(name).replace("./mx ", "zanderanvil ") + "\n"
    return found


def contents(version, programs):
    """Returns for each file that is installed, by its path below the prefix, its bytes. The programs are given by their names."""
    found = {name: text.encode() for name, text in texts(version).items()}
    sums = "".join(f"{hashlib.sha256(it).hexdigest()}  {name}\n" for name, it in programs.items())
    return {**found, "share/zanderanvil/proved": sums.encode(), **{f"libexec/zanderanvil/{name}": it for name, it in programs.items()}}


class Installation:
    """Files that are written beside their places, and then all put there, or all removed."""

    def __init__(self, prefix):
        self.prefix, self.written, self.folders = prefix, {}, []

    def make_folder(self, path):
        """Makes a folder and those above it, and notes which were not there."""
        if not os.path.isdir(path):
            self.make_folder(os.path.dirname(path))
            os.mkdir(path)
            self.folders.append(path)

    def write(self, name, content):
        path = f"{self.prefix}/{name}"
        self.make_folder(os.path.dirname(path))
        if os.path.isdir(path):
            raise IsADirectoryError(errno.EISDIR, os.strerror(errno.EISDIR), path)
        fresh = f"{os.path.dirname(path)}/.new-{secrets.token_hex(8)}"
        self.written[fresh] = path
        with open(fresh, "xb") as it:
            it.write(content)
        os.chmod(fresh, 0o755 if name.startswith(("bin/", "libexec/")) else 0o644)

    def put(self):
        for fresh, path in self.written.items():
            os.replace(fresh, path)

    def take_back(self):
        for fresh in self.written:
            with contextlib.suppress(FileNotFoundError):
                os.remove(fresh)
        for folder in reversed(self.folders):
            with contextlib.suppress(OSError):
                os.rmdir(folder)


def main(prefix, version):
    end_by_signals()
    prefix = os.path.abspath(prefix)
    files, installation = contents(version, proved_programs()), Installation(prefix)
    try:
        for name, content in files.items():
            installation.write(name, content)
        installation.put()
    except BaseException:
        installation.take_back()
        raise
    print(f"zanderanvil {version} is in {prefix}/bin")
    return 0


if __name__ == "__main__":
    if len(sys.argv) != 3 or not sys.argv[1]:
        sys.exit(__doc__)
    try:
        sys.exit(main(sys.argv[1], sys.argv[2]))
    except KeyboardInterrupt:
        sys.exit("mx: stopped; nothing is installed")
    except OSError as error:
        print(f"mx: {error.strerror}: {error.filename}", file=sys.stderr)
        sys.exit(WRITE_FAULT)
