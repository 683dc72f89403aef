#!/usr/bin/env python3
"""What `blocks` prints of random sources, by a second reading of the rules on blocks, dependences and plans.

usage: checks/blocks.py

How often each block ran is what `profile` has of the line of its first statement, in runs of at most 300 cycles.

The second reading is that of plans.py, written from docs/REORGANIZER.md; the lower bound is computed here, from docs/PLANS.md. Of each
block the JSON text has to have its instructions, names, heights, dependences, end, successors, labels and lengths. No plan may be
shorter than the bound: neither one of the schedulers, nor a shortest one of a block of up to eight instructions, which plans.py
finds by trying all. The last lines say how often a plan is longer than the bound. MX_SAMPLE=1 takes 1,000 blocks in place of 10,000.
"""
import collections
import json
import pathlib
import random
import subprocess
import sys
import tempfile

from common import IS_SAMPLE, finish, program, tell

HERE = pathlib.Path(__file__).resolve().parent
TEXT = (HERE / "plans.py").read_text(encoding="utf-8")
PLANS = {"__name__": "plans"}
exec(TEXT[: TEXT.index("if sys.argv[1:]==")], PLANS)
BLOCKS = 1_000 if IS_SAMPLE else 10_000
FALLS, HALT, SLOTS = 0, 1, 3
RUN = ("--budget", "300", "--as", "json")
SPELLED = {"nop": "add r0,r0,r0"}


def spelled(text):
    """A statement as the program writes it."""
    word, _, rest = text.partition(" ")
    return f"beq r0,r0,{rest}" if word == "b" else SPELLED.get(text, text)


def names(numbers):
    """The names of registers and of MD, in order."""
    return ["md" if it == PLANS["MD"] else f"r{it}" for it in sorted(numbers)]


def kind(x, y):
    """Why the second instruction depends on the first."""
    if x.writes & y.reads:
        return "true"
    if y.writes & x.reads:
        return "anti"
    return "output" if x.writes & y.writes else "memory"


def weight(x, y):
    return 2 if PLANS["feeds"](x, y) else 1


def bound(block, edges):
    """The lower bound: the number of instructions, or the greatest span of a path."""
    count, spans = len(block.insts), {}
    tail = {"falls": FALLS, "halt": HALT}.get(block.end, SLOTS)
    for x in reversed(range(count)):
        rest = tail if block.end != "falls" and x == count - 1 else 2 if block.insts[x].load else 1
        spans[x] = max([rest] + [weight(block.insts[x], block.insts[y]) + spans[y] for y in range(x + 1, count) if (x, y) in edges])
    return max(count, *spans.values())


def successors(blocks, number):
    """The numbers of the blocks that may follow this one."""
    block, of = blocks[number], {it.first: at + 1 for at, it in enumerate(blocks)}
    last, behind = block.insts[-1], number + 2 if number + 1 < len(blocks) else None
    taken = of.get(last.target) if block.end in ("branch", "call") else None
    if block.end == "branch":
        same, word = len(set(last.text.split()[1].split(",")[:2])) == 1, last.text.split()[0]
        holds = word in ("b", "beq", "bge", "bhs")
        taken = taken if word == "b" or not same or holds else None
        behind = None if word == "b" or (same and holds) else behind
    elif block.end == "halt" or last.text.startswith("jr"):
        behind = None
    return [it for it in (taken, behind) if it is not None]


def model(insts, labels, has_input):
    """What `blocks` has to print of a source, without its lines."""
    blocks = PLANS["blocks"](insts, {at for _, at in labels}, has_input)
    plans, starts, at = [PLANS["greedy"](it) for it in blocks], [], 4096
    for items, _ in plans:
        starts.append(at)
        at += len(items)
    for number, block in enumerate(blocks):
        edges = PLANS["edges"](block)
        heights, size = PLANS["heights"](block, edges), len(block.insts)
        length = len(plans[number][0])
        yield {
            "block": number + 1,
            "labels": [name for name, place in labels if place == block.first],
            "instructions": [{"text": spelled(it.text), "reads": names(it.reads), "writes": names(it.writes), "height": height}
                             for it, height in zip(block.insts, heights)],
            "dependences": [{"from": x, "to": y, "kind": kind(block.insts[x], block.insts[y]), "weight": weight(block.insts[x], block.insts[y])}
                            for y in range(size) for x in range(y) if (x, y) in edges],
            "end": block.end,
            "successors": successors(blocks, number),
            "bound": bound(block, edges),
            "words": {"padded": len(PLANS["padded"](block)[0]), "list": length, "copies": length,
                      "best": PLANS["shortest"](block) if size <= 8 else length},
            "copied": PLANS["copies"](blocks, plans, starts, number)[1],
        }


def drawn(rnd):
    """A random source: its text, its instructions, its labels, and whether it has input."""
    has_input, count = rnd.random() < 0.2, rnd.choice((6, 20, 60, 200))
    registers = [0, *range(1, rnd.choice((3, 6, 12)))]
    registers += [7] * (3 - len(registers))
    labels = [(f"L{k}", at) for k, at in enumerate(sorted(rnd.sample(range(count + 1), 3)))]
    insts = [PLANS["draw"](rnd, labels, has_input, registers) for _ in range(count)]
    lines = [".input"] if has_input else []
    for at, inst in enumerate(insts):
        lines += [f"{name}:" for name, place in labels if place == at] + [inst.text]
    lines += [f"{name}:" for name, place in labels if place == count]
    return "".join(f"{line}\n" for line in lines), insts, labels, has_input


def printed(lab, text):
    """What the program prints of a source, without its lines and runs; nothing where it prints no JSON text. The runs come beside it,
    and what they have to be."""
    with tempfile.NamedTemporaryFile("w", suffix=".s") as file:
        file.write(text)
        file.flush()
        said, costs = (subprocess.run([lab, command, file.name, *RUN], capture_output=True) for command in ("blocks", "profile"))
    try:
        found, counts = json.loads(said.stdout)["blocks"], {row["line"]: row["count"] for row in json.loads(costs.stdout)["rows"]}
        ran = [(it.pop("ran"), counts[it["instructions"][0]["line"]]) for it in found]
        for row in (row for it in found for row in it["instructions"]):
            del row["line"]
        return found, ran
    except (ValueError, KeyError, TypeError):
        return [{"output": (said.stdout + said.stderr)[:200].decode("utf-8", "replace")}], []


def main():
    lab, rnd, above, long, large = program("mx_lab"), random.Random(57), collections.Counter(), 0, collections.Counter()
    count = seed = times = 0
    while count < BLOCKS:
        seed += 1
        text, insts, labels, has_input = drawn(rnd)
        wanted, (found, ran) = list(model(insts, labels, has_input)), printed(lab, text)
        if not tell(f"source {seed}", wanted == found, next(((a, b) for a, b in zip(wanted, found) if a != b), (len(wanted), len(found))), len(wanted)):
            break
        if not tell(f"how often the blocks of source {seed} ran", all(seen == told for seen, told in ran), ran, 0):
            break
        times += sum(seen for seen, _ in ran)
        for it in found:
            shortest, size = it["words"]["best"], len(it["instructions"])
            long += any(words < it["bound"] for words in it["words"].values())
            (above if size <= 8 else large)[shortest - it["bound"]] += 1
        count += len(found)
    print(f"{count:,} blocks ran {times:,} times")
    tell("no plan is shorter than its bound", not long, f"{long} are", 0)
    for name, by in (("up to 8 instructions, a shortest plan", above), ("more, the greedy plan", large)):
        print(f"of {by.total():,} blocks of {name} is longer than the bound by " + ", ".join(f"{d} in {by[d]:,}" for d in sorted(by)))
    return finish("blocks", "blocks")


if __name__ == "__main__":
    sys.exit(main())
