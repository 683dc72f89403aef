#!/usr/bin/env python3
"""Writes what the page of `draw` and the workbench share, tools/serve/viewer.js, into both of them.

usage: tools/viewer.py

Each has it between two lines that name the file; what stands there is replaced. checks/viewer.py compares."""
import os
import sys

TOP = os.path.dirname(os.path.dirname(os.path.abspath(__file__)))
SHARED = "tools/serve/viewer.js"
PAGES = ("tools/serve/page.html", "crates/lab_pictures/src/script.rt")
FIRST, LAST = f"// ==== {SHARED} ====\n", f"// ==== the end of {SHARED} ====\n"


def read(name):
    """Returns the text of a file of the repository."""
    with open(f"{TOP}/{name}", encoding="utf-8") as it:
        return it.read()


def parts_of(name):
    """Returns what stands before the shared part of a page, the shared part, and what stands behind it."""
    text = read(name)
    if text.count(FIRST) != 1 or text.count(LAST) != 1:
        raise ValueError(f"{name}: expected one line {FIRST.strip()!r} and one line {LAST.strip()!r}")
    before, rest = text.split(FIRST)
    shared, behind = rest.split(LAST)
    return before, shared, behind


def main():
    shared = read(SHARED)
    for name in PAGES:
        before, old, behind = parts_of(name)
        if old != shared:
            with open(f"{TOP}/{name}", "w", encoding="utf-8") as it:
                it.write(before + FIRST + shared + LAST + behind)
            print(name)
    return 0


if __name__ == "__main__":
    sys.exit(main())
