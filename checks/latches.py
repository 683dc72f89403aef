#!/usr/bin/env python3
"""Compares the pipeline with the turn machine on 100,000 random programs, after each cycle: latches, counts, registers, MD and input.

usage: checks/latches.py [RUNS]

The random programs are those of crates/test_pipe_cases (data/README.md): random words, instructions that depend on each other, and
random handlers, with random requests and an input. BATCH runs are one process, and each process also runs PIECES programs by many
cycles at once, in pieces of each length, and compares them with the same cycles one by one. The program is test_pipe_cases as `rt ci`
leaves it, or the one that MX_PIPE_CASES names; if there is none, the check builds one without its proof.
"""
import concurrent.futures
import os
import pathlib
import subprocess
import sys
import tempfile

import common

RUNS, SAMPLE, MOST = 100_000, 3_000, 10_000_000
# The runs of a process, the images of a process that are cut into pieces, and the cycles of each.
BATCH, PIECES, CYCLES = 1_000, 2, {"noise": 160, "hazards": 240, "handlers": 240}
FILES = ("worked.txt", "drawn.txt", "pieces.txt", "fields.txt", "traces.txt")


def built(folder):
    """Returns the path of the program, which is built in a folder if it is not there."""
    name = "test_pipe_cases"
    proved = f"{common.TOP}/crates/{name}/out/{name}"
    if named := os.environ.get("MX_PIPE_CASES"):
        return os.path.abspath(named)
    if os.access(proved, os.X_OK):
        return proved
    if subprocess.run([f"{common.TOP}/build/unproved.py", name, f"{folder}/{name}"], check=False).returncode:
        common.skip(f"{name} cannot be built")
    return f"{folder}/{name}"


def compare(program, seed, sort, runs):
    """Runs one process on so many programs of a sort. Returns the lines that say otherwise."""
    wanted = {"drawn.txt": f"{sort} {seed} {runs} {CYCLES[sort]}: alike", "pieces.txt": f"{sort} {seed + 1} {PIECES} {CYCLES[sort]}: alike"}
    with tempfile.TemporaryDirectory() as folder:
        for name in FILES:
            pathlib.Path(folder, name).write_text(wanted[name] + "\n" if name in wanted else "", encoding="utf-8")
        ended = subprocess.run([program], cwd=folder, capture_output=True, text=True, check=False)
    lines = ended.stdout.splitlines()
    expected = [f"{name}: {int(name in wanted)} of {int(name in wanted)} agree" for name in FILES]
    return [line for line in lines if line not in expected] + ([] if lines == expected else [f"{sort} {seed}: {ended.stderr.strip()}"])


def main(words):
    """Compares all batches."""
    if len(words) > 1 or words and not (words[0].isdigit() and 0 < int(words[0]) <= MOST):
        common.wrong_arguments(f"expected a number of runs, 1 to {MOST:,}")
    runs = int(words[0]) if words else SAMPLE if common.IS_SAMPLE else RUNS
    sorts = list(CYCLES)
    batches = [(number + 1, sorts[number % len(sorts)], min(BATCH, runs - at)) for number, at in enumerate(range(0, runs, BATCH))]
    with tempfile.TemporaryDirectory() as folder, concurrent.futures.ThreadPoolExecutor(os.cpu_count()) as pool:
        program = built(folder)
        results = list(pool.map(lambda it: compare(program, *it), batches))
    for (seed, sort, count), wrong in zip(batches, results):
        common.compared += count
        common.failures += count if wrong else 0
        for line in wrong:
            print(f"FAILED: {sort} {seed}: {line}")
    cut = PIECES * len(batches)
    print(f"latches.py: {cut:,} further programs were run in pieces of each length", flush=True)
    return common.finish("latches.py", "runs")


if __name__ == "__main__":
    sys.exit(main(sys.argv[1:]))
