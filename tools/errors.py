#!/usr/bin/env python3
"""Prints what docs/ERRORS.md says of the code of a fault, as F3, BadLine or CodeOperand. Ends with 1 where it has no such code.

usage: tools/errors.py CODE
"""
import os
import re
import sys

HERE = os.path.dirname(os.path.abspath(__file__))
# (of an installed command the page is beside this file)
PAGES = (f"{os.path.dirname(HERE)}/docs/ERRORS.md", f"{HERE}/ERRORS.md")


def section_of(text, code):
    """Returns the section of a code, its heading first and its examples indented, or None."""
    found = re.search(rf"(?ms)^### ({re.escape(code)}\b[^\n]*\n.*?)(?=^##|\Z)", text, re.IGNORECASE)
    if not found:
        return None
    parts = re.split(r"(?m)^```\n", found.group(1).strip() + "\n")
    return "".join(re.sub(r"(?m)^(?=.)", "    ", part) if at % 2 else part for at, part in enumerate(parts)).strip()


def main(words):
    if len(words) != 1:
        print(__doc__.strip(), file=sys.stderr)
        return 2
    page = next((it for it in PAGES if os.path.exists(it)), None)
    if page is None or not re.fullmatch(r"[A-Za-z]+[0-9]*", words[0]):
        return 1
    with open(page, encoding="utf-8") as it:
        section = section_of(it.read(), words[0])
    if section is None:
        return 1
    print(section)
    return 0


if __name__ == "__main__":
    sys.exit(main(sys.argv[1:]))
