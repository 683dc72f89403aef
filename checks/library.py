#!/usr/bin/env python3
"""Leaves the library for C and Python in a folder, built from what `rt ci` has just proved, and proves none of that again.

usage: checks/library.py FOLDER

`rt ci` leaves the library of each crate in crates/NAME/out/rlib, and of embed_library, the topmost crate, a verdict alone. Here this
crate is compiled over those libraries; that proves its one function once more. It is skipped where a library is not there, or
where it is one that `rt check` made, which may be of older sources.
"""
import os
import subprocess
import sys
import tempfile

import common
from common import TOP

sys.path.insert(0, f"{TOP}/build")
import libraries  # noqa: E402
from crates import crates_below, kit_folder, read_crates, read_lines  # noqa: E402

CRATE, KEPT = "embed_library", "rlib"


def need_libraries(listed):
    """Skips this where a library below is not there, or not one of `rt ci`."""
    for it in crates_below([CRATE], listed):
        path = libraries.library(f"{TOP}/crates", it, KEPT)
        if not os.path.isdir(path):
            common.skip(f"rt ci left no {os.path.relpath(path, TOP)}")
        if os.path.exists(f"{os.path.dirname(path)}/stamp"):
            common.skip(f"{os.path.relpath(path, TOP)} is what rt check made, not rt ci: a fresh clone has the latter")


def main():
    if len(sys.argv) != 2:
        common.wrong_arguments("expected a folder")
    common.need_tools("rt", "ar", "cc")
    lines, listed, kit = read_lines(), read_crates(), kit_folder()
    need_libraries(listed)
    with tempfile.TemporaryDirectory(prefix="mx-library-") as folder:
        archive = f"{folder}/lib{CRATE}.a"
        commands = libraries.toolchain_words(CRATE, lines, listed, kit, f"{TOP}/crates", 1, KEPT)
        for words in commands:
            # (the last word is where the archive goes: not into the repository)
            ran = subprocess.run([*words[:-1], archive], cwd=f"{TOP}/crates/{CRATE}", capture_output=True, text=True, check=False)
            if ran.returncode:
                print(ran.stdout + ran.stderr)
                return 1
        return subprocess.run([f"{TOP}/build/library.sh", archive, kit, sys.argv[1]], check=False).returncode


if __name__ == "__main__":
    sys.exit(main())
