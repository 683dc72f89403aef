#!/usr/bin/env python3
"""Measures each command that simulates a program, in one session, and compares its time with that of `run` on the same cycles.

usage: bench/beside.py [CYCLES]

The program is the loop of growth.py. A figure is the processor time for about CYCLES cycles (default 16,000,000), less that for a
64th of them, so that what does not depend on cycles is left out; it is the least of three, and `run` is measured before and after each
command. MX_RUN and MX_LAB name the programs, as for checks.
"""
import os
import sys
import tempfile

import growth

CYCLES, MOST, CYCLES_OF_A_TURN = 16_000_000, 90_000_000, 5.5
EVERY_64 = "".join(f"{64 * at}\n" for at in range(65_536))
# The loop's blocks in source order, with no-ops in the slots.
PLANS = "0 1 2 3\n/ - -\n/ - -\n0 1\n0 1 / - -\n/\n"
COMMANDS = (
    ("run with an interrupt every 64 cycles", ("run", "a.s", "--interrupts", "i")),
    ("run --trace 100", ("run", "a.s", "--trace", "100")),
    ("explain", ("explain", "a.s")),
    ("profile", ("profile", "a.s")),
    ("compare, two runs", ("compare", "a.s")),
    ("plans, source order", ("plans", "a.s", "p")),
    ("caches, 20 caches", ("caches", "a.s")),
    ("draw, the last 100 cycles", ("draw", "a.s", "--from", "LAST", "--cycles", "100")),
    ("debug, a label at the end", ("debug", "a.s", "done", "--stops", "1")),
    ("interrupts, one row", ("interrupts", "a.s", "--from", "100", "--to", "100")),
    ("meaning", ("meaning", "a.s", "--steps", "100000000")),
)


def seconds(words, cycles, folder):
    """Returns the processor seconds of a command on a loop of so many cycles."""
    turns = int(cycles / CYCLES_OF_A_TURN)
    given = tuple(str(int(cycles * 0.9)) if it == "LAST" else it for it in words)
    more = () if words[0] == "meaning" else growth.BIG
    row = growth.Row(words[0], "cycles", (*given, *more), turns, lambda n: {"a.s": growth.loop(n), "i": EVERY_64, "p": PLANS})
    return growth.measure(row, growth.program_of(row), turns, folder)[0]


def figure(words, cycles, folder):
    return seconds(words, cycles, folder) - seconds(words, cycles // 64, folder)


def main(given):
    if len(given) > 1 or given and not (given[0].isdigit() and 64_000 <= int(given[0]) <= MOST):
        growth.common.wrong_arguments(f"expected a number of cycles, 64,000 to {MOST:,}")
    cycles = int(given[0]) if given else CYCLES
    print(f"{'command':42}{'seconds':>9}  times `run`")
    with tempfile.TemporaryDirectory() as folder:
        os.chdir(folder)
        before = figure(("run", "a.s"), cycles, folder)
        print(f"{'run':42}{before:9.3f}  1.0")
        for name, words in COMMANDS:
            taken = figure(words, cycles, folder)
            after = figure(("run", "a.s"), cycles, folder)
            print(f"{name:42}{taken:9.3f}  {2 * taken / (before + after):.1f}", flush=True)
            before = after
    return 0


if __name__ == "__main__":
    sys.exit(main(sys.argv[1:]))
