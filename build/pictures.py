#!/usr/bin/env python3
"""Makes the pictures of README and of docs/SERVE.md anew: docs/countdown.svg, docs/sort.svg and docs/serve.png.

usage: build/pictures.py

The workbench is opened with examples/sort.s in Chromium, at a cycle late in the sort. Look at the pictures afterwards. It
needs the program chromium, and the programs as ./mx leaves them, or those that MX_SERVE, MX_RUN, MX_LAB and MX_CC name.
"""
import os
import subprocess
import sys

TOP = os.path.dirname(os.path.dirname(os.path.abspath(__file__)))
sys.path.insert(0, f"{TOP}/checks")

# pylint: disable=wrong-import-position
from chromium import Page, need_chromium
from common import program
from serve import put, serving, settled

WIDTH, HEIGHT = 1500, 1000
CYCLE = 253
DRAWINGS = {
    "countdown.svg": ("examples/countdown.s",),
    "sort.svg": ("examples/sort.s", "--from", "40", "--cycles", "40"),
}


def draw(name, words):
    """Writes a drawing of a run."""
    done = subprocess.run([program("mx_lab"), "draw", *words, "--as", "svg"], cwd=TOP, stdout=subprocess.PIPE, check=True)
    with open(f"{TOP}/docs/{name}", "wb") as it:
        it.write(done.stdout)


def take_workbench():
    """Writes the picture of the workbench."""
    with serving(f"{TOP}/examples/sort.s") as (_, url):
        page = Page(WIDTH, HEIGHT)
        try:
            page.open(url)
            if not settled(page):
                sys.exit("pictures.py: the run does not end")
            put(page, "cycle", CYCLE)
            page.ask("document.getElementById('cycle').dispatchEvent(new Event('change'))")
            page.settle()
            settled(page)
            page.settle()
            page.picture(f"{TOP}/docs/serve.png")
            print(f"docs/serve.png: cycle {page.cycle()}, {page.ask('document.title')}")
        finally:
            page.close()


def main():
    if sys.argv[1:]:
        print(__doc__.strip())
        return 0 if sys.argv[1] == "--help" else 2
    need_chromium()
    for name, words in DRAWINGS.items():
        draw(name, words)
        print(f"docs/{name}: {' '.join(words)}")
    take_workbench()
    return 0


if __name__ == "__main__":
    sys.exit(main())
