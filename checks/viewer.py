#!/usr/bin/env python3
"""Compares what the page of `draw` and the workbench share with tools/serve/viewer.js, from which tools/viewer.py writes it.

usage: checks/viewer.py

It also compares each name that the shared part defines with those that the pages define themselves: none is defined twice."""
import re
import sys

import common
from common import TOP, tell

sys.path.insert(0, f"{TOP}/tools")
import viewer  # noqa: E402

DEFINED = re.compile(r"(?m)^(?:const|let|class) (\w+)")


def main():
    if len(sys.argv) > 1:
        common.wrong_arguments(f"unexpected argument {sys.argv[1]}")
    shared = viewer.read(viewer.SHARED)
    names = DEFINED.findall(shared)
    tell("the shared part defines each name once", len(names) == len(set(names)) and len(names) > 20, names)
    # the page of `draw` holds it in a raw string of Rattle
    tell("it can stand in a raw string", '"#' not in shared)
    for name in viewer.PAGES:
        before, held, behind = viewer.parts_of(name)
        tell(f"{name}: the shared part is {viewer.SHARED} (tools/viewer.py writes it)", held == shared)
        own = DEFINED.findall(before + behind)
        twice = sorted(set(own) & set(names))
        tell(f"{name}: it defines none of these {len(names)} names itself", not twice, twice)
    return common.finish("viewer", "properties of the shared part")


if __name__ == "__main__":
    sys.exit(main())
