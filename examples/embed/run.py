"""Runs a source from Python, under two interrupts and by its meaning (docs/LIBRARY.md).

    python3 examples/embed/run.py built/libzanderanvil.so examples/countdown.s
"""
import os
import sys

sys.path.insert(0, os.path.join(os.path.dirname(os.path.abspath(__file__)), "../../python"))
from zanderanvil import Zanderanvil  # noqa: E402


def main(library: str, path: str) -> None:
    with open(path, "rb") as file:
        source = file.read()
    it = Zanderanvil(library)
    run, meant = it.run(source, interrupts=[5, 9]), it.meaning(source)
    print(f"console {run.console!r}, cycles {run.cycles}, interrupts {run.counts['interrupts']}")
    print(f"meant {meant.console!r} in {meant.steps} steps")
    print(f"image of {len(it.build(source))} bytes, listing of {len(it.listing(source))} lines")


if __name__ == "__main__":
    if len(sys.argv) != 3:
        sys.exit(__doc__)
    main(sys.argv[1], sys.argv[2])
