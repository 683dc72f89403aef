#!/usr/bin/env python3
"""The module of `python` as it is installed, against itself: usage: checks/python_uses.py LIBRARY LAB

What the laboratory's program tells is held against the library's runs of the same sources, and what a sweep gives one after the
other against what executors of threads, processes and, where `distributed` is installed, a cluster of this machine give.
checks/python.sh installs the module and calls this.
"""
import os
import random
import sys
import xml.etree.ElementTree
from concurrent.futures import ProcessPoolExecutor, ThreadPoolExecutor

from zanderanvil import Case, Laboratory, Refusal, Study, Zanderanvil, survey, sweep

TOP = os.path.dirname(os.path.dirname(os.path.abspath(__file__)))
SOURCES = ("countdown.s", "full_slots.s", "calls.s", "hello.s")
COUNT_NAMES = ("cycles", "fetches", "misses", "squashes", "interrupts")
failures = []


def need(holds, what):
    print(f"{'ok' if holds else 'FAILED'}: {what}")
    if not holds:
        failures.append(what)


def refused(call, *words):
    """Whether a call is refused with all of these words in what it says."""
    try:
        call()
    except Refusal as refusal:
        return all(word in str(refusal) for word in words)
    return False


def agrees(it, lab, name, source):
    """Holds what the laboratory tells of a source against the library's run of it."""
    run, disturbed = it.run(source), it.run(source, interrupts=[3, 9])
    rows = lab.profile(source, interrupts=[3, 9])
    told = lab.document("profile", source, interrupts=[3, 9])
    need(told["counts"] == {it: disturbed.counts[it] for it in COUNT_NAMES}, f"{name}: the counts of profile are the run's")
    need(sum(row["cycles"] for row in rows) + told["waiting"] + told["spent"]["handler"] <= disturbed.cycles, f"{name}: cycles of lines")
    by_copies = [row for row in lab.compare(source) if row["plans"] == "copies"]
    need([[row[it] for it in COUNT_NAMES[:4]] for row in by_copies] == [[run.counts[it] for it in COUNT_NAMES[:4]]],
         f"{name}: compare has the run's cycles, fetches, misses and squashes")
    shipped = [(row["misses"], row["cycles"]) for row in lab.caches(source) if row["shipped"]]
    need(shipped == [(run.counts["misses"], run.cycles)], f"{name}: caches has the run's misses")
    swept = lab.interrupts(source, last=run.cycles - 1)
    need([row["cycles"] for row in swept["rows"]] == [it.run(source, interrupts=[at]).cycles for at in range(run.cycles)],
         f"{name}: each run of interrupts is the library's")
    words = [(row["address"], row["word"]) for row in lab.disassemble(source)]
    need(words == [(row["address"], row["word"]) for row in lab.disassemble(it.build(source))], f"{name}: its image has its words")
    blocks = lab.blocks(source)
    need(all(block.bound <= min(block.words.values()) for block in blocks), f"{name}: no plan is shorter than its bound")
    counts = {row["line"]: row["count"] for row in rows}
    need([block.ran for block in lab.blocks(source, interrupts=[3, 9])] == [counts[block.lines[0]] for block in blocks],
         f"{name}: a block ran as often as the line of its first statement was executed")
    need(all(row["words"] == sum(block.words[row["plans"]] for block in blocks) for row in lab.compare(source)),
         f"{name}: blocks and compare have the same words")
    by_plans = {row["plans"]: row for row in lab.compare(source)}
    need([lab.plans(source, lambda block: ["+0"]).run.cycles, lab.plans(source, lambda block: None).run.cycles]
         == [by_plans["list"]["cycles"], by_plans["copies"]["cycles"]], f"{name}: the plans of the list scheduler without and with copies")
    two = lab.plans(source, lambda block: ["+2"])
    need(all(line.startswith("copies of plan ") for line in two.rejected) and two.run.halted, f"{name}: copies that are rejected")
    need(lab.explain(source)["verdict"] == it.explain(source).verdict, f"{name}: the verdict")
    need(len(lab.trace(source)) == run.counts["fetches"] + 2, f"{name}: records of the trace for the program, each turn and the end")
    drawing = lab.draw(source, cycles=20, interrupts=[3])
    need(xml.etree.ElementTree.fromstring(drawing._repr_svg_()).tag.endswith("svg"), f"{name}: the picture of a notebook is SVG")
    need("IF" in str(drawing) and "<html" in drawing.form("html"), f"{name}: its other forms")


def schedulers(seed):
    """Gives schedulers of all kinds: in the order of the source, backwards, shuffled, nonsense, copies, and none."""
    drawn = random.Random(seed)

    def shuffled(block):
        items = [*range(len(block.instructions) - block.ends), *([None] * drawn.randrange(3)), *(["/"] * block.ends)]
        drawn.shuffle(items)
        return items

    return {
        "in order": lambda block: [*range(len(block.instructions) - block.ends), *(["/"] * block.ends)],
        "backwards": lambda block: [*reversed(range(len(block.instructions) - block.ends)), *(["/"] * block.ends)],
        "shuffled": shuffled,
        "nothing but no-ops": lambda block: [None] * 5,
        "copies chosen at random": lambda block: [f"+{drawn.randrange(3)}"],
        "none": lambda block: None,
    }


def plans_mean(it, lab, name, source):
    """Whatever a scheduler gives, the run does what the source means."""
    meant = it.meaning(source)
    for kind, scheduler in schedulers(name).items():
        planned = lab.plans(source, scheduler, interrupts=[2, 7])
        numbers = [value for value in meant.registers if not isinstance(value, str)]
        same = [value for value, known in zip(planned.run.registers, meant.registers) if not isinstance(known, str)] == numbers
        need(planned.run.halted and planned.run.console == meant.console and same, f"{name}: scheduled {kind}, as meant")


def executors():
    """Gives each executor that there is, by its name."""
    yield "threads", ThreadPoolExecutor(4)
    yield "processes", ProcessPoolExecutor(2)
    try:
        from distributed import Client, LocalCluster
    except ImportError:
        print("note: distributed is not installed, so no cluster was tried")
        return
    with LocalCluster(n_workers=2, threads_per_worker=1, dashboard_address=None) as cluster, Client(cluster) as client:
        yield "a cluster", client.get_executor()


def sweeps_agree(library, program, sources):
    """The rows of a sweep and the records of a survey are the same by each executor."""
    cases = [Case(name, source, (at,)) for name, source in sources.items() for at in range(0, 12, 3)] + [Case("faulty", b"foo\n")]
    studies = [Study(name, source, "caches", {"line": line}) for name, source in sources.items() for line in (8, 16)]
    studies += [Study(name, source, "compare") for name, source in sources.items()] + [Study("faulty", b"foo\n", "compare")]
    rows, records = sweep(library, cases), survey(program, studies)
    need(rows[-1].refused is not None and rows[0].run.halted, "a sweep has runs and what is refused")
    need("refused" in records[-1] and records[1]["line"] == 8, "a survey has records and what is refused")
    for name, executor in executors():
        with executor:
            need(sweep(library, cases, executor) == rows, f"a sweep by {name}")
            need(survey(program, studies, executor) == records, f"a survey by {name}")


def main(library, program):
    it, lab = Zanderanvil(library), Laboratory(program)
    sources = {}
    for name in SOURCES:
        with open(f"{TOP}/examples/{name}", "rb") as file:
            sources[name] = file.read()
    for name, source in sources.items():
        agrees(it, lab, name, source)
        plans_mean(it, lab, name, source)
    found = lab.check(b"adi r1,#1,r1\nhalt\n")
    need([(row["line"], row["code"]) for row in found] == [(1, "F3")], "check tells a fault with its line")
    need(lab.check(b"halt\n") == [], "and nothing of a source without one")
    need(refused(lambda: lab.profile(b"foo"), "line 1", "F3"), "a faulty source is refused with its line")
    need(refused(lambda: lab.draw(b"halt\n", cycles=0), "--cycles"), "a number out of range by its option")
    need(refused(lambda: lab.plans(b"halt\n", lambda block: ["x"]), "BadWord"), "a plan of other words")
    need(refused(lambda: it.run(b"foo\n"), "F3"), "the library refuses it too")
    sweeps_agree(library, program, sources)
    print(f"{len(failures)} failed")
    return 1 if failures else 0


if __name__ == "__main__":
    if len(sys.argv) != 3:
        sys.exit(__doc__)
    sys.exit(main(sys.argv[1], sys.argv[2]))
