#!/usr/bin/env python3
"""The models over a trace of the Python module (zanderanvil.models) at the machine's own settings, against the machine, and at others.

usage: checks/models.py

For each example, also under interrupts, and for generated sources: cycles, fetches, misses and squashes of the models are those that the
trace ends with; addresses of loads and stores and outcomes of branches are those that `run --trace` prints for the word in ALU; other
caches have the misses that `caches` prints. Caches by use are compared with stack distances, counters with a table made by hand, the
export for Dinero with the cache of replay.py. Mutated traces are refused by their record, or are read. MX_SAMPLE=1 takes fewer.
"""
import json
import os
import random
import subprocess
import sys
import tempfile

import common
import replay
from common import IS_SAMPLE, TOP, tell

sys.path.insert(0, f"{TOP}/python")
from zanderanvil import Laboratory  # noqa: E402
from zanderanvil.models import Branch, Cache, Counters, Squashing, din, main as export, measured, read_trace, turns  # noqa: E402

GENERATED, MUTATED, BUDGET = (6, 1_000, 9_000) if IS_SAMPLE else (60, 10_000, 9_000)
REQUESTS = ((), (15,), (0, 40, 41, 97, 300, 1_000))
# Settings of `caches`: words in a line, words that a miss brings, cycles of a miss.
SETTINGS = ((16, 2, 2), (8, 8, 5), (4, 1, 3))
# Exported by hand from docs/MACHINE.md's traced example: fetches of 1000 to 1005, and a store to 255.
HELLO = "2 4000\n2 4004\n2 4008\n2 400c\n2 4010\n1 3fc\n2 4014".split("\n")
OUTCOMES, WRONG = (True, True, False, False, False, True), 3


def corpus():
    """Returns sources by their names, each with its input: the examples, and generated ones."""
    found = {}
    for name in sorted(os.listdir(f"{TOP}/examples")):
        if name.endswith(".s") and name not in ("emit.s", "letters.s"):
            with open(f"{TOP}/examples/{name}", "rb") as file:
                found[name] = file.read()
    for seed in range(GENERATED):
        words = [common.program("mx_run"), "gen", str(seed), "60"]
        found[f"generated {seed}"] = subprocess.run(words, capture_output=True, check=True).stdout
    return found


def compare_counts(name, trace, end):
    """Compares the models with how the run ends. A budget may cut off the branch in ALU, and the stalled cycles of a fetch."""
    it, cut = measured(trace), not end["halted"]
    seen = (it.fetches, it.misses)
    tell(f"{name}: fetches and misses", seen == (end["fetches"], end["misses"]), f"{seen} {end}", 2)
    tell(f"{name}: cycles", 0 <= end["cycles"] - it.cycles <= 2 * cut, f"{it.cycles} {end}")
    tell(f"{name}: squashes", 0 <= end["squashes"] - it.squashes <= cut, f"{it.squashes} {end}")
    marked = sum(1 for record in trace if record.get("commit", {}).get("squashed"))
    has_interrupts = end["interrupts"] > 0 or cut
    tell(f"{name}: squashed words", marked == 2 * it.squashes or has_interrupts, f"{marked} {it.squashes}")


def printed_turns(folder, words):
    """Returns, for each turn that `run --trace` prints, the word in ALU, whether it is live, and its result."""
    said = subprocess.run([common.program("mx_run"), "run", f"{folder}/source", *words, "--trace", str(BUDGET)], capture_output=True, check=False)
    for line in said.stdout.decode("latin-1").split("\n"):
        parts = line.split(" ")
        if len(parts) == 9 and parts[0].isdigit():
            yield parts[3], int(parts[8], 16)


def compare_events(name, folder, words, trace):
    """Compares addresses and outcomes with the result of the word in ALU, a turn before it commits."""
    before, wrong, count = None, [], 0
    for turn, record, printed in zip(turns(trace), trace[1:], printed_turns(folder, words)):
        for it in (turn.load, turn.store, turn.branch and int(turn.branch.is_taken)):
            if it is not None:
                count += 1
                if before is None or before[0] != f"{record['commit']['address']:08x}" or before[1] != it:
                    wrong.append((record, it, before))
        before = printed
    tell(f"{name}: addresses and outcomes", not wrong, str(wrong[:2]), count)


def compare_caches(name, lab, source, given, trace):
    """Compares the model of a cache with the misses that `caches` prints, for each of its caches."""
    for line, brings, penalty in SETTINGS:
        rows = lab.caches(source, line=line, brings=brings, penalty=penalty, **given)
        wrong = []
        for row in rows:
            it = measured(trace, Cache(row["sets"], row["ways"], row["line"], row["brings"], row["penalty"]))
            if (it.misses, it.fetches) != (row["misses"], row["fetches"]) or (trace[-1]["halted"] and it.cycles != row["cycles"]):
                wrong.append((it, row))
        tell(f"{name}: {len(rows)} caches with lines of {line}", not wrong, str(wrong[:1]), len(rows))


def compare_data(name, trace):
    """Compares a cache of single words by use with stack distances: an access hits if fewer than `ways` others came since its last one."""
    accesses = [turn.store if turn.load is None else turn.load for turn in turns(trace) if turn.load is not None or turn.store is not None]
    for ways in (2, 8):
        model, stack, wanted = Cache(1, ways, 1, 1, by_use=True), [], 0
        for address in accesses:
            distance = stack.index(address) if address in stack else ways
            wanted += distance >= ways
            stack = [address, *(it for it in stack if it != address)]
            model.access(address)
        holds = (model.misses, model.accesses) == (wanted, len(accesses))
        tell(f"{name}: {ways} words by use", holds, f"{model.misses} {wanted}", len(accesses) or 1)


def compare_export(name, trace):
    """Compares the lines for Dinero with the turns, and the misses of their fetches with the cache of replay.py."""
    lines, cache = [line.split(" ") for line in din(trace)], replay.Cache()
    fetches = [int(address, 16) // 4 for label, address in lines if label == "2"]
    misses = sum(cache.misses(it) for it in fetches)
    tell(f"{name}: misses of the export", misses == trace[-1]["misses"], f"{misses} {trace[-1]}", len(lines))
    stores = [record["store"]["to"] for record in trace if "store" in record]
    tell(f"{name}: stores of the export", [int(address, 16) // 4 for label, address in lines if label == "1"] == stores)


def compare_schemes():
    """Compares counters with a table made by hand, and the machine's own scheme with its rule."""
    counters, own = Counters(4), Squashing()
    for taken in OUTCOMES:
        counters.decide(Branch(4096, 4100, taken, True))
        own.decide(Branch(4096, 4100, taken, True))
        own.decide(Branch(4100, 4096, taken, False))
    tell("counters: wrong three times", (counters.wrong, counters.branches) == (WRONG, len(OUTCOMES)), str(counters.wrong))
    tell("the machine's own scheme", (own.wrong, own.branches) == (OUTCOMES.count(False), 2 * len(OUTCOMES)), str(own.wrong))


def compare_delay(handler):
    """Compares the addresses of loads where one directly follows the load of its base register, which linked code never has."""
    code = [1 << 31 | base << 22 | register << 17 | offset for base, register, offset in ((0, 1, 256), (1, 2, 0), (1, 3, 0))]
    given = {"handler": handler, "code": [*code, 7 << 29], "user_data": [300], "requests": []}
    machine, trace, halted = replay.Machine(given), [given], False
    while not halted:
        done, halted = machine.turn()
        trace.append(done)
    loads = [turn.load for turn in turns([*trace, {"halted": True}]) if turn.load is not None]
    tell("a load directly after the load of its base", loads == [256, 0, 300], str(loads))


def mutate(text, rnd):
    """Returns a trace with a fault: bytes changed, a line gone, twice, or cut off."""
    lines = text.splitlines(True)
    how, at = rnd.randrange(5), rnd.randrange(len(lines))
    if how == 0:
        return "".join(lines[:at])
    if how == 1:
        return "".join([*lines[:at], lines[at], *lines[at:]])
    if how == 2:
        return text[:rnd.randrange(len(text))]
    place = rnd.randrange(len(text))
    if how == 3:
        return text[:place] + rnd.choice('0123456789{}[]",:-e.xtrue') + text[place + 1:]
    return text[:place] + rnd.choice(("null", "-1", "1e999", '"', "[", "99999999999")) + text[place:]


def refuse_mutated(trace):
    """Reads mutated traces: each is read, or refused with the number of a record."""
    rnd, text, refused, wrong = random.Random(57), "".join(json.dumps(it) + "\n" for it in trace), 0, []
    with tempfile.TemporaryDirectory() as folder:
        for _ in range(MUTATED):
            with open(f"{folder}/trace", "w", encoding="utf-8") as file:
                file.write(mutate(text, rnd))
            try:
                measured(read_trace(f"{folder}/trace"))
            except ValueError as error:
                refused += 1
                if not str(error).startswith("record "):
                    wrong.append(str(error))
            except Exception as error:  # pylint: disable=broad-except
                wrong.append(repr(error))
        tell(f"mutated traces: {refused:,} of {MUTATED:,} are refused, by their record", not wrong and refused > MUTATED / 2, str(wrong[:3]), MUTATED)
        tell("a file that is not there", "No such file" in str(export([f"{folder}/none"])))
        tell("no argument", "usage" in str(export([])))


def main():
    if len(sys.argv) > 1:
        common.wrong_arguments(f"unexpected argument {sys.argv[1]}")
    lab, last = Laboratory(common.program("mx_lab")), []
    for name, source in corpus().items():
        with tempfile.TemporaryDirectory() as folder:
            for requests in REQUESTS[:2] if name.startswith("generated") else REQUESTS:
                given = {"budget": BUDGET, "interrupts": requests, "input": b"021"}
                last = lab.trace(source, **given)
                for file, content in (("source", source), ("input", b"021"), ("interrupts", "".join(f"{it}\n" for it in requests).encode())):
                    with open(f"{folder}/{file}", "wb") as it:
                        it.write(content)
                called = f"{name}, {len(requests)} requests"
                compare_counts(called, last, last[-1])
                words = ["--budget", str(BUDGET), "--input", f"{folder}/input", "--interrupts", f"{folder}/interrupts"]
                compare_events(called, folder, words, last)
                compare_export(called, last)
                compare_data(called, last)
            if not name.startswith("generated") or not IS_SAMPLE:
                undisturbed = {"budget": BUDGET, "input": b"021"}
                compare_caches(name, lab, source, undisturbed, lab.trace(source, **undisturbed))
    with open(f"{TOP}/examples/hello.s", "rb") as file:
        hello = lab.trace(file.read())
    tell("hello.s for Dinero", list(din(hello)) == HELLO, str(list(din(hello))))
    compare_schemes()
    compare_delay(hello[0]["handler"])
    refuse_mutated(hello)
    return common.finish("models.py", "turns, caches and figures")


if __name__ == "__main__":
    sys.exit(main())
