#!/usr/bin/env python3
"""Tells where crates.txt is not what the folders say. It takes a second.

A crate has to list each crate of the repository that it names, and may list only crates that are above it in the file, which
begins below, and only crates and libraries that a file of it names. A prefix is a layer: mx_ parts of the toolchain and the machine, law_ laws alone, cmd_ what commands read and
answer, lab_ the commands for people who look, cc_ the translation of C's assembly, embed_ the library, test_ and bench_. ALLOWED says which layer may stand on which,
and EXCEPT which crates go beyond it, with the reason in crates.txt.

usage: checks/deps.py
"""
import os
import re
import sys

TOP = os.path.dirname(os.path.dirname(os.path.abspath(__file__)))
sys.path.insert(0, f"{TOP}/build")
import common  # noqa: E402
from crates import read_crates  # noqa: E402

LAYERS = ("mx", "law", "cmd", "lab", "cc", "embed", "test", "bench")
# A crate or library where a file names it: in proofs after `Rattle.`, in code before `::`.
NAMED = re.compile(r"\bRattle\.([a-z][a-z_0-9]*)\.|\b([a-z][a-z_0-9]*)::")
ALLOWED = {
    "mx": {"mx"},
    "law": {"mx", "law"},
    "cmd": {"mx", "law", "cmd"},
    "lab": {"mx", "law", "cmd", "lab"},
    "cc": {"mx", "cmd", "cc"},
    "embed": {"mx", "law", "cmd", "embed"},
    "test": set(LAYERS) - {"bench"},
    "bench": set(LAYERS) - {"test"},
}
EXCEPT = {
    ("mx_best", "law_order"),
    ("mx_tasks", "law_interrupts"),
    ("law_profile", "lab_profile"),
    ("law_certify", "lab_certify"),
    ("law_emit", "cc_lines"),
    ("law_emit", "cc_rules"),
    ("law_emit", "cc_program"),
    ("law_emit", "cc_emit"),
    ("law_emit", "cc_fits"),
    ("law_operations", "cc_lines"),
    ("law_operations", "cc_rules"),
    ("law_operations", "cc_emit"),
    ("law_operations", "cc_meaning"),
    ("law_operations", "cc_plan"),
    ("law_operations", "cc_operations"),
    ("law_accesses", "cc_lines"),
    ("law_accesses", "cc_rules"),
    ("law_accesses", "cc_emit"),
    ("law_accesses", "cc_meaning"),
    ("law_accesses", "cc_plan"),
    ("law_accesses", "cc_operations"),
    ("law_accesses", "cc_accesses"),
    ("law_code", "cc_lines"),
    ("law_code", "cc_rules"),
    ("law_code", "cc_program"),
    ("law_code", "cc_emit"),
}
# The top call and the four programs stand on all that they call.
TOPS = {"mx_command": {"law", "cmd"}, "mx_run": {"cmd"}, "mx_lab": {"cmd", "lab"}, "mx_cc": {"cmd", "cc"}, "mx_serve": {"cmd", "lab", "embed"}}


def named(crate):
    """Returns the names of crates and libraries in a crate's files, outside comments."""
    names = set()
    for at, folders, files in os.walk(f"{TOP}/crates/{crate}"):
        folders[:] = [it for it in folders if it not in ("out", "must-fail", "data")]
        for it in files:
            if it.endswith((".rt", ".antt")):
                with open(f"{at}/{it}", encoding="utf-8") as lines:
                    for line in lines:
                        text = re.split(r"//|--", line)[0]
                        names |= {one or other for one, other in NAMED.findall(text)}
    return names


def is_allowed(crate, below):
    """Tells whether a crate of this name may stand on one of that name."""
    layer, other = crate.split("_")[0], below.split("_")[0]
    return other in ALLOWED[layer] | TOPS.get(crate, set()) or (crate, below) in EXCEPT


def faults(crates):
    """Gives a line for each place where crates.txt is not what it should be."""
    above = set()
    for crate, below in crates.items():
        own = [it for it in below if it in crates]
        names = named(crate)
        missing = sorted((names & set(crates)) - set(own) - {crate})
        if missing:
            yield f"{crate} does not list {', '.join(missing)}"
        unused = [it for it in below if it not in names]
        if unused:
            yield f"{crate} lists {', '.join(unused)}, which no file of it names"
        twice = sorted({it for it in below if below.count(it) > 1})
        if twice:
            yield f"{crate} lists {', '.join(twice)} twice"
        if not os.path.isdir(f"{TOP}/crates/{crate}"):
            yield f"{crate} has no folder"
        late = [it for it in own if it not in above]
        if late:
            yield f"{crate} stands in crates.txt before {', '.join(late)}"
        wrong = [it for it in own if not is_allowed(crate, it)]
        if wrong:
            yield f"{crate} may not stand on {', '.join(wrong)}"
        above.add(crate)


def main():
    if sys.argv[1:]:
        common.wrong_arguments(f"unexpected argument {sys.argv[1]}")
    crates = read_crates()
    lines = list(faults(crates))
    lines += [f"{it} is not in crates.txt" for it in sorted(os.listdir(f"{TOP}/crates")) if it not in crates and os.path.isdir(f"{TOP}/crates/{it}/src")]
    for line in lines:
        common.tell("crates.txt", False, line)
    return common.finish("deps", "crates and libraries that crates list", sum(map(len, crates.values())))


if __name__ == "__main__":
    sys.exit(main())
