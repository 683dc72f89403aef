#!/usr/bin/env python3
"""Draws programs in C, and compares each at -O0 to -O3 and -Os with qemu-mips: the console, which has a checksum of its data, and the status.

usage: checks/drawn.py [COUNT] [--results FILE] [--own]

COUNT programs (500) of csmith are compared; where csmith or its headers are missing, or with --own, those of checks/random_c.py. One
that does not end natively, or not within the budget at every level, is passed over, and so is one that has too many statements. Results
go to FILE (drawn.results) as they come, and a second run goes on from there. CC_JOBS says how many programs are tried side by side (2). The
programs are those of ./mx, or those that MX_RUN and MX_CC name.
"""
import json
import multiprocessing
import os
import sys
import tempfile

import common
import cprograms
import random_c
from cprograms import GCC, LEVELS, Fault

# A pointer to a field of a packed structure may be misaligned, which C does not define.
CSMITH = ["--max-funcs", "4", "--max-block-depth", "3", "--no-argc", "--no-packed-struct"]
CSMITH_HEADERS = "/usr/include/csmith"
NATIVE_SECONDS = 3
library = []


def what_is_missing():
    """Returns what csmith's programs need and is not there, or nothing."""
    if not common.shutil.which("csmith"):
        return "csmith is missing: apt-get install csmith libcsmith-dev"
    if not os.path.exists(f"{CSMITH_HEADERS}/csmith.h"):
        return "csmith's headers are missing: apt-get install libcsmith-dev"
    return ""


def draw(seed, is_own, folder):
    """Leaves the program with a seed in a file; returns it, and the options that it needs."""
    path = f"{folder}/drawn{seed}.c"
    if is_own:
        text = random_c.program(seed).encode()
    else:
        text = cprograms.shell(["csmith", "--seed", str(seed), *CSMITH], cwd=folder).stdout     # it leaves a file where it runs
    with open(path, "wb") as file:
        file.write(text)
    return path, [] if is_own else [f"-I{CSMITH_HEADERS}"]


def run_at(level, source, more, wanted, folder, seen):
    """Runs a program at one level; an assembly that another level gave too is not run again."""
    assembly, to = f"{folder}/{level}.s", f"{folder}/{level}.mx"
    cprograms.compile_to(source, level, assembly, more)
    with open(assembly, encoding="utf-8") as file:
        text = file.read()
    if text not in seen:
        cprograms.translate([assembly, *library], to)
        cprograms.compare(f"-O{level}", [cprograms.RUN, "run", to, "--budget", str(cprograms.BUDGET)], wanted)
    seen.add(text)


def try_program(job):
    """Returns the seed of a program, what became of it, and why."""
    seed, is_own = job
    with tempfile.TemporaryDirectory() as folder:
        try:
            source, more = draw(seed, is_own, folder)
            cprograms.compile_native(source, f"{folder}/native", more)
            wanted = cprograms.run_native(f"{folder}/native", b"", NATIVE_SECONDS)
            seen = set()
            for level in LEVELS:
                run_at(level, source, more, wanted, folder, seen)
        except Fault as fault:
            return seed, "passed over" if fault.is_passed_over else "FAILED", str(fault)
    return seed, "same", f"{len(seen)} assemblies"


def read_results(path, kind):
    """Returns what earlier runs found of programs of this kind."""
    found = {}
    if os.path.exists(path):
        with open(path, encoding="utf-8") as file:
            for line in file:
                row = json.loads(line)
                if row["kind"] == kind:
                    found[row["seed"]] = (row["verdict"], row["why"])
    return found


def try_all(count, is_own, results):
    """Tries programs until so many are compared; returns the verdicts by seed."""
    kind = "random_c" if is_own else "csmith"
    found, seed = read_results(results, kind), 1
    with open(results, "a", encoding="utf-8") as file, multiprocessing.Pool(int(os.environ.get("CC_JOBS", "2"))) as pool:
        while True:
            missing = count - sum(found.get(it, ("",))[0] in ("same", "FAILED") for it in range(1, seed))
            if missing <= 0:
                return {it: found[it] for it in range(1, seed)}
            seeds = range(seed, seed + missing)
            for it, verdict, why in pool.imap_unordered(try_program, [(it, is_own) for it in seeds if it not in found]):
                file.write(json.dumps({"kind": kind, "seed": it, "verdict": verdict, "why": why}) + "\n")
                file.flush()
                found[it] = (verdict, why)
                if verdict != "same":
                    print(f"{verdict}: {kind} {it}: {why}", flush=True)
            seed += missing


def main():
    words, results, is_own, count = sys.argv[1:], "drawn.results", False, 500
    while words:
        word = words.pop(0)
        if word == "--results" and words:
            results = words.pop(0)
        elif word == "--own":
            is_own = True
        elif word.isdigit():
            count = int(word)
        else:
            common.wrong_arguments(f"unknown argument '{word}'")
    common.need_tools(GCC, "qemu-mips")
    if not is_own and what_is_missing():
        print(f"{what_is_missing()}; programs of checks/random_c.py are drawn instead")
        is_own = True
    cprograms.RUN, cprograms.CC = common.program("mx_run"), [common.program("mx_cc")]
    library.extend(cprograms.compile_library())
    found = try_all(count, is_own, results)
    verdicts = [verdict for verdict, _ in found.values()]
    common.failures = verdicts.count("FAILED")
    print(f"{len(found)} programs drawn, {verdicts.count('same')} the same at all levels, {verdicts.count('passed over')} passed over")
    return common.finish("random programs in C", "programs", len(found) - verdicts.count("passed over"))


if __name__ == "__main__":
    sys.exit(main())
