#!/usr/bin/env python3
"""Reads pictures of one run back and compares them with the text of `draw`.

usage: checks/cells.py PAGE TEXT CYCLE       the page that Chromium made, at a cycle: the stages beside its listing
       checks/cells.py --kanata FILE TEXT    a Kanata file: every stage that begins in every cycle
"""
import re
import sys

import common

LABEL, WIDTH = 36, 4


def need(holds, seen):
    """Ends the check where something does not hold."""
    if not holds:
        sys.exit(f"FAILED: {seen}")


def rows_of_text(path):
    """Returns for each cycle the list of (address, cell) of the rows that show something in it."""
    cells, first, count = {}, None, 0
    with open(path, encoding="ascii") as lines:
        for line in lines:
            head = re.match(r"cycles (\d+) to (\d+)", line)
            if head:
                first, count = int(head[1]), int(head[2]) - int(head[1]) + 1
            elif first is not None and re.match(r"[0-9a-f-]{8} ", line):
                for k in range(count):
                    at = LABEL + WIDTH * k
                    cell = line.rstrip("\n")[at : at + WIDTH].strip()
                    if cell:
                        cells.setdefault(first + k, []).append((line[:8], cell))
            elif not line.strip():
                first = None
    return cells


def check_page(page, text, cycle):
    with open(page, encoding="utf-8") as file:
        dom = file.read()
    listing = dom[dom.index('id="listing"') : dom.index("</section>", dom.index('id="listing"'))]
    found = re.findall(r'<span class="tag">([^<]+)</span>([0-9a-f]{4,8}) ', listing)
    seen = sorted((address.zfill(8), mark) for marks, address in found for mark in marks.split())
    wanted = sorted((address, "waits" if cell == ".." else cell) for address, cell in rows_of_text(text)[cycle])
    # Words far from the newest one are in no part of the listing that is in view.
    listed = {address for address, _ in seen}
    wanted = [(address, cell) for address, cell in wanted if address in listed]
    need(len(wanted) >= 3, wanted)
    need(seen == wanted, (seen, wanted))
    return len(wanted)


def check_kanata(path, text):
    cycle, addresses, begins, open_rows = None, {}, {}, set()
    with open(path, encoding="ascii") as file:
        lines = [line.rstrip("\n").split("\t") for line in file]
    need(lines and lines[0] == ["Kanata", "0004"], lines[:1])
    for words in lines[1:]:
        kind = words[0]
        if kind == "C=":
            cycle = int(words[1])
        elif kind == "C":
            cycle += int(words[1])
        elif kind == "I":
            need(words[1] not in addresses and len(words) == 4, words)
            addresses[words[1]] = None
            open_rows.add(words[1])
        elif kind == "L":
            if words[2] == "0":
                addresses[words[1]] = words[3].split(":")[0]
        elif kind == "S":
            need(words[1] in open_rows and words[2] == "0", words)
            if words[3] != "wait":
                begins.setdefault(cycle, []).append((addresses[words[1]], words[3]))
        elif kind == "R":
            open_rows.remove(words[1])
            need(words[3] in ("0", "1"), words)
        else:
            need(False, words)
    wanted = {c: sorted(x for x in row if x[1] != "..") for c, row in rows_of_text(text).items()}
    wanted = {c: row for c, row in wanted.items() if row}
    need({c: sorted(row) for c, row in begins.items()} == wanted, "the stages of the Kanata file are those of the text")
    return sum(map(len, wanted.values()))


def main(words):
    if len(words) != 3 or words[0] != "--kanata" and not words[2].isdigit():
        common.wrong_arguments("expected PAGE TEXT CYCLE, or --kanata KANATA TEXT")
    count = check_kanata(words[1], words[2]) if words[0] == "--kanata" else check_page(words[0], words[1], int(words[2]))
    need(count > 0, "nothing was compared")
    print(f"cells: compared {count} cells")


if __name__ == "__main__":
    main(sys.argv[1:])
