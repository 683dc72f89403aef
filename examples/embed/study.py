"""A study as one does it in a notebook: four schedulers and one of one's own, caches, and a picture (docs/LIBRARY.md).

    python3 examples/embed/study.py ./mx examples/full_slots.s full_slots.svg
"""
from __future__ import annotations

import os
import sys
from typing import Optional

try:
    from zanderanvil import Block, Laboratory, Plan
except ImportError:
    sys.path.insert(0, os.path.join(os.path.dirname(os.path.abspath(__file__)), "../../python"))
    from zanderanvil import Block, Laboratory, Plan


def transfers_first(block: Block) -> Optional[Plan]:
    """A transfer before the two instructions in front of it, which go into its slots, the later one first; a plan that is not
    valid is rejected, so nothing here has to be right."""
    last = len(block.instructions) - 1
    if not block.ends or last < 2:
        return None
    return [*range(last - 2), "/", last - 1, last - 2]


def main(program: str, path: str, picture: str) -> None:
    with open(path, "rb") as file:
        source = file.read()
    lab = Laboratory(program)
    for row in lab.compare(source):
        print(f"{row['plans']:8} {row['words']:6} words {row['cycles']:8} cycles")
    planned = lab.plans(source, transfers_first)
    print(f"{'own':8} {planned.run.counts['words']:6} words {planned.run.cycles:8} cycles, {len(planned.rejected)} plans rejected")
    fewest = min(lab.caches(source), key=lambda row: (row["misses"], row["words"]))
    print(f"misses {fewest['misses']} with {fewest['words']} words in {fewest['ways']} ways")
    lab.draw(source, cycles=40).save(picture)


if __name__ == "__main__":
    if len(sys.argv) != 4:
        sys.exit(__doc__)
    main(sys.argv[1], sys.argv[2], sys.argv[3])
