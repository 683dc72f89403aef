#!/usr/bin/env python3
"""Tells which must-fail edits cannot be applied, since what they change is not there once: in a second, and for all crates.

usage: checks/edits.py

`rt ci` tells so only at its end. The exit status is 0 where all can be applied, else 1.
"""
import glob
import os
import sys

import common

TOP = os.path.dirname(os.path.dirname(os.path.abspath(__file__)))


def fault_of(edit):
    """Returns why the edit cannot be applied, or None."""
    crate = os.path.dirname(os.path.dirname(edit))
    path, old, texts = None, None, {}
    with open(edit, encoding="utf-8") as lines:
        for line in lines.read().split("\n"):
            if line.startswith("file: "):
                path = line[len("file: "):].strip()
            elif line.startswith("old: "):
                old = line[len("old: "):]
            elif line.startswith("new:"):
                if path not in texts:
                    if not os.path.isfile(f"{crate}/{path}"):
                        return f"there is no {path}"
                    with open(f"{crate}/{path}", encoding="utf-8") as it:
                        texts[path] = it.read()
                if texts[path].count(old) != 1:
                    return f"{path} has its text {texts[path].count(old)} times"
                texts[path] = texts[path].replace(old, line[len("new:"):].removeprefix(" "))
    return None if texts else "it changes nothing"


def main():
    if sys.argv[1:]:
        common.wrong_arguments(f"unexpected argument {sys.argv[1]}")
    faults = {edit: fault_of(edit) for edit in sorted(glob.glob(f"{TOP}/crates/*/must-fail/*.edit"))}
    for edit, fault in faults.items():
        if fault:
            common.tell(os.path.relpath(edit, TOP), False, fault)
    return common.finish("edits", "edits with the files that they change", len(faults))


if __name__ == "__main__":
    sys.exit(main())
