#!/usr/bin/env python3
"""Compares the files of editors/ with the assembler: the mnemonics and directives that they colour are those that it knows, and the
problem matcher of VS Code finds each fault and warning in stored outputs of `check`.

usage: checks/editors.py

It prints each difference, then how much it compared, and ends with 1 if there is a difference or nothing was compared."""
import glob
import json
import os
import re
import sys

TOP = os.path.dirname(os.path.dirname(os.path.abspath(__file__)))
EDITORS = f"{TOP}/editors"


def text_of(path):
    with open(path, encoding="utf-8") as it:
        return it.read()


def mnemonics():
    """Returns the mnemonics of the assembler."""
    return set(re.findall(r'^    \("(\w+)", Mnemonic', text_of(f"{TOP}/crates/mx_lines/src/mnemonic.rt"), re.M))


def directives():
    """Returns the directives that the documents name."""
    return {".code", ".data", ".word", ".space", ".input", ".import", ".export"}


def coloured():
    """Yields each editor with the mnemonics and directives that it colours."""
    patterns = json.loads(text_of(f"{EDITORS}/vscode/syntaxes/mipsx.tmLanguage.json"))["patterns"]
    keywords = [it["match"] for it in patterns if it.get("name", "").startswith("keyword")]
    words = {word for pattern in keywords for word in re.search(r"\(([a-z|]+)\)", pattern).group(1).split("|")}
    types = next(it["match"] for it in patterns if it.get("name") == "storage.type.mipsx")
    yield "vscode", words, {"." + word for word in re.search(r"\(([a-z|]+)\)", types).group(1).split("|")}
    vim = text_of(f"{EDITORS}/vim/syntax/mipsx.vim")
    words = {word for line in re.findall(r"syn keyword mipsx(?:Transfer|Mnemonic) (.*)", vim) for word in line.split()}
    yield "vim", words, set(re.search(r"syn keyword mipsxDirective (.*)", vim).group(1).split())


def problems():
    """Yields the lines of stored outputs of `check` that report a fault or a warning."""
    for path in sorted(glob.glob(f"{TOP}/crates/test_lab_cases/data/wanted/check*")):
        for line in open(path, encoding="utf-8", errors="replace"):
            if re.match(r"[\w./-]+:\d+:\d+: ", line):
                yield line.rstrip("\n")


def main(arguments):
    if arguments:
        print(__doc__ if arguments == ["--help"] else "editors.py: unexpected argument", file=sys.stderr)
        return 2 * (arguments != ["--help"])
    compared = wrong = 0
    known = (mnemonics(), directives())
    for editor, *found in coloured():
        for ours, theirs in zip(known, found):
            compared += len(ours)
            for word in sorted(ours ^ theirs):
                wrong += 1
                print(f"{editor}: {word} is {'not coloured' if word in ours else 'unknown to the assembler'}")
    package = json.loads(text_of(f"{EDITORS}/vscode/package.json"))["contributes"]
    json.loads(text_of(f"{EDITORS}/vscode/language-configuration.json"))
    pattern = package["problemPatterns"][0]
    matched = 0
    for line in problems():
        match = re.match(pattern["regexp"], line)
        matched += 1
        if not match or match.group(pattern["severity"]) not in ("error", "warning") or not match.group(pattern["message"]):
            wrong += 1
            print(f"the problem matcher does not find: {line}")
    print(f"{compared} names, {matched} problems; {wrong} differ")
    print(f"editors: compared {compared + matched} names and problems")
    return 1 if wrong or not compared or not matched else 0


if __name__ == "__main__":
    sys.exit(main(sys.argv[1:]))
