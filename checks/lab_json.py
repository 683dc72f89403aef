#!/usr/bin/env python3
"""Compares what `mx_lab` prints as JSON, and its traces, with docs/lab.schema.json and each other.

usage: checks/lab_json.py [SOURCE..]

It needs mx_lab as ./mx leaves it, or the program that MX_LAB names, and Debian's python3-jsonschema. Without sources it takes those
of examples/ that halt, a few of them in a sample. Of each: every text fits the schema; a profile's columns are the sums of its words', and those of each row make its
cycles; of `caches` the machine's own has the run's figures; of `interrupts` some rows are those of single runs and their traces, and
the sums those of the rows; of all sources together, `compare` has the rows of each by itself, and their sums; what `disassemble` prints assembles to its words by the table of
docs/MACHINE.md; a trace is replayed by checks/replay.py, also with interrupts; callgrind_annotate, where it is installed, reads the
profile.
"""
import collections
import glob
import itertools
import json
import os
import re
import shutil
import subprocess
import sys
import tempfile

import common
import replay
from common import TOP

try:
    import jsonschema
except ImportError:
    common.skip("python3-jsonschema is missing")

LAB = common.program("mx_lab")
# What a sample takes of the examples, and how few of them there may be at all.
SAMPLE, FEWEST = ("countdown.s", "echo.s", "full_slots.s"), 8
COLUMNS = {"count": "executed", "squashed": "squashed", "squashes": "squashes", "penalty": "penalty", "cycles": "cycles"}
WORD = 1 << 32


def printed(*words, wanted=(0, 3)):
    done = subprocess.run([LAB, *words], capture_output=True, check=False)
    if done.returncode not in wanted:
        sys.exit(f"{' '.join(words)}: status {done.returncode}: {done.stdout.decode()}{done.stderr.decode()}")
    return done.stdout.decode("latin-1")


def need(holds, what):
    if not holds:
        sys.exit(f"not so: {what}")


class Assembler:
    """Assembles one word of a listing, by the table of docs/MACHINE.md."""

    BRANCHES = ("beq", "bne", "blt", "bge", "blo", "bhs")
    THREE = {"add": 0, "sub": 1, "subnc": 2, "and": 3, "or": 4, "xor": 5, "bic": 6, "rotlb": 8, "mstep": 10, "dstep": 11}
    SPECIAL = ("md", "pc1", "pc2", "pc3")

    def __init__(self, labels, user_data):
        self.labels, self.user_data = labels, user_data

    def number(self, text):
        text = text.lstrip("#")
        name, _, behind = text.partition("+")
        if name in self.labels or name in self.user_data:
            return (self.labels.get(name) or self.user_data.get(name)) + int(behind or 0)
        return int(text, 0)

    def word(self, text, address):
        name, _, rest = text.partition(" ")
        given = re.split(r"[,\[\]]+", rest)
        register = [int(it[1:]) if re.fullmatch(r"r\d+", it) else None for it in given]
        stem = name.removesuffix("sq")
        if name == ".word":
            return int(given[0], 0)
        if stem in self.BRANCHES:
            by = self.number(given[2]) - address
            return self.BRANCHES.index(stem) << 27 | register[0] << 22 | register[1] << 17 | (name != stem) << 16 | by % 65536
        if name in self.THREE:
            return 8 << 27 | register[0] << 22 | register[1] << 17 | register[2] << 12 | self.THREE[name]
        if name == "not":
            return 8 << 27 | register[0] << 22 | register[1] << 12 | 7
        if name == "mstart":
            return 8 << 27 | register[0] << 17 | register[1] << 12 | 9
        if name == "asr":
            return 9 << 27 | register[0] << 22 | register[2] << 12 | self.number(given[1])
        if name == "sh":
            return 9 << 27 | register[0] << 22 | register[1] << 17 | register[3] << 12 | 256 + self.number(given[2])
        if name == "movfrs":
            return 10 << 27 | register[1] << 12 | self.SPECIAL.index(given[0])
        if name == "movtos":
            return 11 << 27 | register[0] << 22 | self.SPECIAL.index(given[1])
        if name in ("ld", "st"):
            return (16 + (name == "st")) << 27 | register[1] << 22 | register[2] << 17 | self.number(given[0]) % (1 << 17)
        if name in ("addi", "jspci"):
            return (24 + (name == "jspci")) << 27 | register[0] << 22 | register[2] << 17 | self.number(given[1]) % (1 << 17)
        if name == "la":
            return 24 << 27 | register[1] << 17 | self.number(given[0]) % (1 << 17)
        if name in ("jr", "callr"):
            return 25 << 27 | register[0] << 22 | (register[1] << 17 if name == "callr" else 0)
        if name == "call":
            return 25 << 27 | register[1] << 17 | self.number(given[0]) % (1 << 17)
        return {"jpc": 26, "jpcrs": 27, "halt": 28}[name] << 27


def data_labels(source):
    """The data labels of a source in the forms that the examples have."""
    with open(source, encoding="latin-1") as text:
        lines = [line.split(";")[0].strip() for line in text]
    labels, address, in_data = {}, 256, False
    for line in lines:
        if line in (".data", ".code"):
            in_data = line == ".data"
            continue
        while match := re.match(r"([\w.]+)\s*:\s*(.*)", line):
            if in_data:
                labels[match.group(1)] = address
            line = match.group(2)
        if in_data and line.startswith(".word"):
            address += len(line.split(","))
        elif in_data and line.startswith(".space"):
            address += int(line.split()[1].lstrip("#"), 0)
    return labels


def check_words(listing, user_data):
    labels = {label: word["address"] for word in listing["words"] for label in word["labels"]}
    assembler = Assembler(labels, user_data)
    for it in listing["words"]:
        need(assembler.word(it["text"], it["address"]) == it["word"], f"`{it['text']}` at {it['address']:#x} is {it['word']:#010x}")


def check_profile(profile):
    rows = [*profile["rows"], profile["handler"], profile["behind"]]
    for row in rows:
        parts = sum(row[it] for it in ("count", "stalls", "noops", "squashed", "killed"))
        need(row["cycles"] == parts, f"the columns of {row['name']} make its cycles")
        need(row["caused"] == row["cycles"] - row["squashed"] + row["penalty"], f"the cycles that {row['name']} causes")
    words = profile["words"]
    own = [it for it in words if it["kind"] != "noop"]
    for column, field in COLUMNS.items():
        told = sum(row[column] for row in profile["rows"])
        need(told == sum(it[field] for it in (own if column == "count" else words)), f"{column} of the rows is that of the words")
    # a branch causes what is squashed in its two slots
    squashed = {it["address"]: it["squashed"] for it in words}
    for it in words:
        slots = sum(squashed.get(it["address"] + slot, 0) for slot in (1, 2)) if it["squashes"] else 0
        need(it["penalty"] == slots, f"the penalty of the word at {it['address']:#x}")
    noops = sum(it["executed"] for it in words if it["kind"] == "noop")
    need(noops == sum(row["noops"] for row in profile["rows"]), "the no-ops of the rows are those of the words")
    need(sum(row["cycles"] for row in rows) + profile["waiting"] == profile["counts"]["cycles"], "all cycles are those of the run")
    need(sum(profile["spent"].values()) == profile["counts"]["cycles"], "what cycles were spent on are those of the run")


def check_caches(caches):
    own = [it for it in caches["caches"] if it["shipped"]]
    need(len(own) == 1, "one cache is the machine's")
    need(own[0]["misses"] == caches["misses"], "its misses are the run's")
    need(not caches["halted"] or own[0]["cycles"] == caches["cycles"], "its cycles are the run's")


def traced(source, path):
    """The turns of a run, and its last line."""
    lines = [json.loads(line) for line in printed("trace", source, "--interrupts", path).splitlines()]
    return lines[1:-1], lines[-1]


def interrupt_of(turns, last):
    """When the interrupt of a request in cycle `last` is taken, and when the handler is fetched; and what ALU holds."""
    for at, turn in enumerate(turns):
        if turn["cycle"] >= last and turn["interrupt"]:
            if at + 1 == len(turns):
                return None
            return turn["cycle"], turns[at + 1]["cycle"], turns[at - 2]["fetch"]
    return None


def check_row(source, row, undisturbed, folder):
    path = f"{folder}/requests"
    with open(path, "w", encoding="ascii") as file:
        file.writelines(f"{cycle}\n" for cycle in row["requests"])
    turns, end = traced(source, path)
    where = f"of {source} under {row['requests']}"
    need((row["cycles"], row["halted"]) == (end["cycles"], end["halted"]), f"the cycles {where}")
    wanted = row["cycles"] - undisturbed["cycles"] if row["halted"] and undisturbed["halted"] else None
    need(row["cost"] == wanted, f"the cost {where}")
    entry, told = interrupt_of(turns, row["requests"][-1]), row["interrupt"]
    need((entry is None) == (told is None), f"whether there is an interrupt {where}")
    if told:
        need(entry == (told["taken"], told["handler"], told["address"]), f"how it is interrupted {where}: {entry}")
        need(told["wait"] == told["handler"] - row["requests"][-1], f"the wait {where}")
    return [turn["byte"] for turn in turns if turn.get("byte") is not None]


def check_spread(spread, bins, numbers, what):
    numbers.sort()
    need([(it["cycles"], it["runs"]) for it in bins] == sorted(collections.Counter(numbers).items()), f"the histogram of {what}")
    wanted = {"least": numbers[0], "median": numbers[(len(numbers) - 1) // 2], "greatest": numbers[-1]} if numbers else None
    need(spread == wanted, f"the spread of {what}")


def check_interrupts(source, told, listing, folder):
    rows, sums, undisturbed = told["rows"], told["sums"], told["undisturbed"]
    cycles = list(range(told["from"], told["to"] + 1, told["step"]))
    wanted = [list(it) for it in itertools.combinations(cycles, 2)] if told["pairs"] else [[it] for it in cycles]
    need([it["requests"] for it in rows] == wanted, f"the requests of {source}")
    turns, _ = traced(source, "/dev/null")
    console = [turn["byte"] for turn in turns if turn.get("byte") is not None]
    lines, line = {}, 0
    for word in listing["words"]:
        line = word["place"]["line"] if word["place"]["kind"] == "own" else line
        lines[word["address"]] = word["place"]["line"] or line
    for row in [*rows[:40], *rows[40:: 1 + len(rows) // 40]]:
        need((check_row(source, row, undisturbed, folder) == console) == row["same_console"], f"the console of {source}")
        if row["interrupt"]:
            need(row["interrupt"]["line"] == lines.get(row["interrupt"]["address"], 0), f"the line of {source} under {row['requests']}")
    entered = [it for it in rows if it["interrupt"]]
    other = [it for it in rows if it["halted"] and not it["same_console"]]
    counts = len(rows), sum(it["halted"] for it in rows), len(other), len(entered)
    need(counts == tuple(sums[it] for it in ("runs", "halted", "other_console", "interrupted")), f"the sums of {source}")
    need(not other, f"the console of {source}")
    check_spread(sums["cost"], told["costs"], [it["cost"] for it in rows if it["cost"] is not None], "costs")
    check_spread(sums["wait"], told["waits"], [it["interrupt"]["wait"] for it in entered], "waits")
    longest = max(entered, key=lambda it: it["interrupt"]["wait"], default=None)
    need(sums["longest_wait"] == longest, f"the longest wait of {source}")


def added(first, second):
    """The sums of the fields of two records."""
    return {key: added(value, second[key]) if isinstance(value, dict) else value if isinstance(value, str) else
            value and second[key] if isinstance(value, bool) else value + second[key] for key, value in first.items()}


def check_several(sources, schema):
    """Compares sources together, and each by itself."""
    told = json.loads(printed("compare", *sources, "--as", "json"))
    schema.validate(told)
    alone = [json.loads(printed("compare", it, "--as", "json")) for it in sources]
    need(told["sources"] == [{"source": it["source"], "schedulers": it["schedulers"]} for it in alone], "the records of each source")
    sums, halted = None, 0
    for it in alone:
        runs = all(plans["halted"] for plans in it["schedulers"])
        halted += runs
        if not runs:
            for plans in it["schedulers"]:
                plans.update(cycles=0, fetches=0, misses=0, squashes=0)
        sums = [added(*pair) for pair in zip(sums, it["schedulers"])] if sums else it["schedulers"]
    need(told["sums"] == {"sources": len(sources), "halted": halted, "schedulers": sums}, "the sums of the sources")
    rows = printed("compare", *sources, "--as", "csv").splitlines()
    need(rows[1:] == [row for it in sources for row in printed("compare", it, "--as", "csv").splitlines()[1:]], "the rows of all sources")
    print(f"{len(sources)} sources together")


def check_trace(source, words, schema):
    lines = printed("trace", source, *words).splitlines()
    for line in [lines[0], *lines[1:200], lines[-1]]:
        schema.validate(json.loads(line))
    return replay.replay(iter(lines))


def check_callgrind(source, folder):
    path = f"{folder}/callgrind.out"
    for by in ("line", "c"):
        with open(path, "w", encoding="latin-1") as file:
            file.write(printed("profile", source, "--as", "callgrind", "--by", by))
        done = subprocess.run(["callgrind_annotate", path], capture_output=True, text=True, check=False)
        cycles = json.loads(printed("profile", source, "--as", "json"))
        total = sum(row["cycles"] for row in [*cycles["rows"], cycles["handler"], cycles["behind"]])
        need(done.returncode == 0 and f"{total:,} (100.0%)" in done.stdout, f"callgrind_annotate reads {source}")


def check_own(source, compared, schema, folder):
    """Compares columns of plan files: with the list scheduler's plans it is that scheduler's, and with a plan that is rejected the run's own."""
    lines = printed("plans", source, "--print").splitlines()
    # (a no-op more than the padded plan has, or a third slot, breaks a rule)
    files = {"same": lines, "spoiled": [f"{lines[0]} -", *lines[1:]], "plain": [f"{line} +0" for line in lines]}
    for name, own_lines in files.items():
        with open(f"{folder}/{name}", "w", encoding="ascii") as file:
            file.write("".join(f"{line}\n" for line in own_lines))
    own = [word for name in files for word in ("--plans", f"{name}={folder}/{name}")]
    told = json.loads(printed("compare", source, *own, "--as", "json"))
    schema.validate(told)
    need(told["schedulers"][:4] == compared["schedulers"], "the schedulers beside plans of files")
    same, spoiled, plain = told["schedulers"][4:]
    need({**same, "plans": "copies"} == compared["schedulers"][2], "the plans of the list scheduler from a file")
    need({**plain, "plans": "list"} == compared["schedulers"][1], "the same plans without copies")
    report = printed("plans", source, f"{folder}/spoiled").splitlines()
    rejections = [line for line in report if " rejected by " in line]
    counts = dict(line.split(" ", 1) for line in report if line.count(" ") == 1)
    need(spoiled["rejected"] == len(rejections), "how many plans are rejected")
    need(all(int(counts[it]) == spoiled[it] for it in ("words", "noops", "cycles", "fetches", "misses", "squashes")), "the figures of the run by plans")
    text = printed("compare", source, *own).splitlines()
    need([line for line in text if " rejected by " in line] == [f"spoiled: {line}" for line in rejections], "the rejected plans of a file")
    profile = json.loads(printed("profile", source, "--plans", f"{folder}/spoiled", "--as", "json"))
    need(profile["counts"]["cycles"] == spoiled["cycles"], "the profile of plans from a file")


def check_ran(source, told, words=()):
    """Holds how often blocks ran against how often `profile` has the lines of their first statements executed."""
    profile = json.loads(printed("profile", source, *words, "--as", "json"))
    counts = {row["line"]: row["count"] for row in profile["rows"]}
    need(told["halted"] == profile["halted"], f"whether the run of the blocks of {source} halted")
    need([it["ran"] for it in told["blocks"]] == [counts[it["instructions"][0]["line"]] for it in told["blocks"]], f"how often the blocks of {source} ran")


def check(source, schema, folder):
    texts = [("profile", "--by", by) for by in ("line", "label", "function", "c")] + [("compare",), ("blocks",), ("disassemble",), ("caches",)]
    found = {}
    for command, *words in texts:
        found[command] = json.loads(printed(command, source, *words, "--as", "json"))
        schema.validate(found[command])
        if command == "profile":
            check_profile(found[command])
    for command in ("explain", "draw"):
        schema.validate(json.loads(printed(command, source, "--as", "json")))
    for line in printed("check", source, "--as", "json", "--all").splitlines():
        schema.validate(json.loads(line))
    check_words(found["disassemble"], data_labels(source))
    check_caches(found["caches"])
    check_own(source, found["compare"], schema, folder)
    check_ran(source, found["blocks"])
    for words in (["--step", str(1 + found["caches"]["cycles"] // 2000)], ["--pairs", "--step", str(1 + found["caches"]["cycles"] // 20)]):
        told = json.loads(printed("interrupts", source, *words, "--as", "json"))
        schema.validate(told)
        check_interrupts(source, told, found["disassemble"], folder)
    turns, _ = check_trace(source, [], schema)
    need(turns > 0, f"the trace of {source} has turns")
    requests = f"{folder}/requests"
    with open(requests, "w", encoding="ascii") as file:
        file.writelines(f"{cycle}\n" for cycle in range(5, 3 * turns, 41))
    check_profile(json.loads(printed("profile", source, "--interrupts", requests, "--as", "json")))
    check_ran(source, json.loads(printed("blocks", source, "--interrupts", requests, "--as", "json")), ["--interrupts", requests])
    _, interrupts = check_trace(source, ["--interrupts", requests], schema)
    if shutil.which("callgrind_annotate"):
        check_callgrind(source, folder)
    print(f"{os.path.basename(source)}: {turns} turns; {interrupts} interrupts")


def ends_well(*words):
    return subprocess.run([LAB, *words], capture_output=True, check=False).returncode == 0


def is_source(path):
    """Whether a file is a source by itself, and no module, whose run halts soon: two of the examples wait for each other for ever."""
    return ends_well("check", path) and ends_well("explain", path, "--budget", "10000")


def sources_of_examples():
    """The examples that are compared."""
    names = [f"{TOP}/examples/{it}" for it in SAMPLE] if common.IS_SAMPLE else sorted(glob.glob(f"{TOP}/examples/*.s"))
    found = [it for it in names if is_source(it)]
    need(len(found) >= (len(SAMPLE) if common.IS_SAMPLE else FEWEST), f"the examples halt, but for modules: {found}")
    return found


def main():
    for it in sys.argv[1:]:
        if not os.path.isfile(it):
            common.wrong_arguments(f"{it}: no such file")
    with open(f"{TOP}/docs/lab.schema.json", encoding="utf-8") as text:
        schema = json.load(text)
    # made once, since it is slow to make
    kind = jsonschema.validators.validator_for(schema)
    kind.check_schema(schema)
    schema = kind(schema)
    sources = sys.argv[1:] or sources_of_examples()
    with tempfile.TemporaryDirectory() as folder:
        for source in sources:
            check(source, schema, folder)
    if len(sources) > 1:
        check_several(sources, schema)
    return common.finish("JSON", "sources, each with all its documents and traces", len(sources))


if __name__ == "__main__":
    sys.exit(main())
