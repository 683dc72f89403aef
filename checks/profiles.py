#!/usr/bin/env python3
"""Compares `profile` with `run`, `list`, `meaning` and a small interpreter on generated sources.

usage: checks/profiles.py [SOURCES]

It needs mx_lab and mx_run as ./mx leaves them, or the programs that MX_LAB and MX_RUN name. The sources, 300 of them if no number is
given and 40 in a sample, are those of `gen`, each with random interrupts. Of each profile: the sums are the counts of `run`; each line's count is how often the interpreter, which is
written from docs/SOURCE.md, executes it, and all together are the steps of `meaning`; the copies stand where `list` has them.
"""
import random
import re
import subprocess
import sys
import tempfile

import common

COST = re.compile(r".{6} +(\d+) +(\d+) +(?:\d+\.\d|-) +(\d+) +(?:\d+\.\d\d|-) +(\d+) +(\d+) +(\d+) +(\d+)  (.*)")
HEAD = ["line", "count", "cycles", "%", "caused", "CPI", "stalls", "no-ops", "squashed", "killed", "source"]
COUNTS = ("cycles", "fetches", "misses", "squashes", "interrupts")
WORD = 2**32
PROGRAMS = {it: common.program(it) for it in ("mx_lab", "mx_run")}


def answered(program, *words):
    """Returns the exit status of a program and what it prints."""
    done = subprocess.run([PROGRAMS[program], *words], capture_output=True, check=False)
    return done.returncode, done.stdout.decode("latin-1")


def need(holds, what, seen=""):
    """Ends the check where something does not hold; an assertion would not, under PYTHONOPTIMIZE."""
    if not holds:
        sys.exit(f"FAILED: {what}" + (f": {seen}" if seen else ""))


def signed(word):
    return word - WORD if word >= WORD // 2 else word


class Meaning:
    """Executes the sources of `gen`, and counts how often each line is executed."""

    def __init__(self, text):
        self.labels, self.items = {}, []
        for number, line in enumerate(text.splitlines(), 1):
            if line.endswith(":"):
                self.labels[line[:-1]] = len(self.items)
            else:
                name, _, operands = line.partition(" ")
                self.items.append((number, name, [it.lstrip("#") for it in operands.split(",")]))
        self.registers, self.data, self.executed = {"r0": 0}, {}, {}

    def value(self, register):
        return self.registers.get(register, 0)

    def keep(self, register, value):
        if register != "r0":
            self.registers[register] = value % WORD

    def address(self, operand):
        offset, base = operand.rstrip("]").split("[")
        return (int(offset) + self.value(base)) % WORD

    def step(self, name, given, after):
        """Executes an item and returns the index of the next one."""
        if name in ("bne", "blt"):
            a, b = self.value(given[0]), self.value(given[1])
            holds = a != b if name == "bne" else signed(a) < signed(b)
            return self.labels[given[2]] if holds else after
        if name == "ld":
            self.keep(given[1], self.data.get(self.address(given[0]), 0))
        elif name == "st":
            self.data[self.address(given[0])] = self.value(given[1])
        elif name == "addi":
            self.keep(given[2], self.value(given[0]) + int(given[1]))
        else:
            a, b = self.value(given[0]), self.value(given[1])
            self.keep(given[2], {"add": a + b, "sub": a - b, "xor": a ^ b}[name])
        return after

    def run(self):
        at = 0
        while True:
            number, name, given = self.items[at]
            self.executed[number] = self.executed.get(number, 0) + 1
            if name == "halt":
                return
            at = self.step(name, given, at + 1)


def counts_of(text):
    """Returns the numbers of the lines `NAME N`."""
    return {name: int(n) for name, n in re.findall(r"^([a-z ]+) (\d+)$", text, re.M)}


def profiled(source, text):
    """Returns the costs and the copies of the lines of a profile, the costs of its named rows, and its counts."""
    rows = text.split("\n")
    need(rows.pop(0).split() == HEAD, "the head of a profile")
    costs, copies, named = {}, {}, {}
    for number, line in enumerate(source.splitlines(), 1):
        row = rows.pop(0)
        found = COST.fullmatch(row)
        need((found[8] if found else row.lstrip()) == line, "the line of a row", (row, line))
        if found:
            need(int(row[:6]) == number, "the number of a row", row)
            costs[number] = [int(it) for it in found.groups()[:7]]
        if rows[0].strip().startswith("copies at "):
            copies[number] = [it.removeprefix("0x") for it in rows.pop(0).split()[2:]]
    while COST.fullmatch(rows[0]):
        *numbers, name = COST.fullmatch(rows.pop(0)).groups()
        named[name] = [int(it) for it in numbers]
    return costs, copies, named, counts_of("\n".join(rows))


def check(seed, count, folder):
    source = answered("mx_run", "gen", str(seed), str(count))[1]
    path, at = f"{folder}/a.s", f"{folder}/at"
    draw = random.Random(seed)
    requests = sorted(draw.sample(range(draw.choice((60, 600, 6000))), draw.randrange(1, 40)))
    with open(path, "w", encoding="ascii") as file:
        file.write(source)
    with open(at, "w", encoding="ascii") as file:
        file.write("".join(f"{it}\n" for it in requests))
    meaning = Meaning(source)
    meaning.run()
    status, text = answered("mx_lab", "profile", path, "--interrupts", at)
    run = answered("mx_run", "run", path, "--interrupts", at)
    need(status == run[0] == 0, f"gen {seed} {count} halts", (status, run[0]))
    costs, copies, named, counts = profiled(source, text)
    ran = counts_of(run[1])
    where = f"of gen {seed} {count}"
    compare_sums(costs, named, counts, ran, where)
    compare_causes(costs, meaning, where)
    # the lines
    executed = {number: meaning.executed.get(number, 0) for number, *_ in meaning.items}
    need({number: cost[0] for number, cost in costs.items()} == executed, f"how often each line is executed {where}")
    steps = counts_of(answered("mx_run", "meaning", path)[1])["steps"]
    need(sum(cost[0] for cost in costs.values()) == steps, f"the steps {where}")
    listed = {}
    for address, line in re.findall(r"^([0-9a-f]{8}) [0-9a-f]{8} \+(\d+)$", answered("mx_run", "list", path)[1], re.M):
        listed.setdefault(int(line), []).append(address)
    need(copies == listed, f"the copies {where}")
    return ran["interrupts"], sum(len(it) for it in copies.values()), ran["squashes"]


def compare_sums(costs, named, counts, ran, where):
    """Compares the sums of a profile with the counts of the run."""
    need({it: counts[it] for it in COUNTS} == {it: ran[it] for it in COUNTS}, f"the counts {where}")
    columns = [sum(column) for column in zip(*costs.values(), named["the handler"], named["behind the code"])]
    need(columns == named["together"], f"the sums of the columns {where}")
    # the cycles of a row are those of its other columns
    for count, cycles, _, *others in [*costs.values(), *named.values()]:
        need(cycles == count + sum(others), f"the cycles of a row {where}")
    _, cycles, caused, stalls, noops, squashed, _ = columns
    need(cycles + counts["waiting"] == ran["cycles"], f"all cycles {where}")
    need(caused == cycles, f"the cycles by what causes them {where}")
    need(cycles - stalls == ran["fetches"], f"the fetches {where}")
    need(stalls <= 2 * ran["misses"] <= stalls + counts["waiting"], f"the stalls {where}")
    need(noops == counts["noops passed"], f"the no-ops {where}")
    need(squashed <= 2 * ran["squashes"] and (ran["interrupts"] > 0) == (named["the handler"][1] > 0), f"the squashed words {where}")


def compare_causes(costs, meaning, where):
    """Compares what lines cause with what they are: a branch causes at most two squashed words each time, other lines none."""
    branches = {number for number, name, *_ in meaning.items if name in ("bne", "blt")}
    for number, (count, cycles, caused, _, _, squashed, killed) in costs.items():
        penalty = caused - (cycles - squashed)
        most = 2 * (count + killed) if number in branches else 0
        need(0 <= penalty <= most, f"what line {number} causes {where}", penalty)


def main(words):
    if len(words) > 1 or words and not re.fullmatch("[1-9][0-9]{0,5}", words[0]):
        common.wrong_arguments(f"expected a number of sources above 0, found {' '.join(words)}")
    sources = int(words[0]) if words else 40 if common.IS_SAMPLE else 300
    totals = [0, 0, 0]
    with tempfile.TemporaryDirectory() as folder:
        for seed in range(1, sources + 1):
            found = check(seed, 1 + seed * 7 % 120, folder)
            totals = [a + b for a, b in zip(totals, found)]
    print(f"{totals[0]} interrupts, {totals[1]} copies, {totals[2]} squashes")
    need(sources < 10 or all(totals), "interrupts, copies and squashes are among them")
    return common.finish("profiles", "sources", sources)


sys.exit(main(sys.argv[1:]))
