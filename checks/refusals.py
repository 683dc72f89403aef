#!/usr/bin/env python3
"""Keeps which clause refused each mutant, and reports where another one does.

usage: checks/refusals.py [--write] LOG..

LOG is what `rt must-fail` or `rt ci` printed, or `-` for the standard input. checks/refused.txt keeps the refusals, a line for each
mutant: its crate and name, then the file and the clause that the prover could not prove first. With --write the refusals of the logs
go into that file, and the lines of removed mutants are dropped. Without it the script prints where they differ from what is kept: a
mutant that another clause refuses may be hollow now, so read it against its name.

Only a clause of the changed function or of its caller counts. A limit of the prover does not, nor a lemma whose own lemma was
rejected, nor a proof file that misses a name, nor a loop's invariant, a `requires` or an overflow. A log that lacks a mutant of one
of its crates is cut off.

The exit status is 0 where nothing differs, each mutant of the crates in the logs was refused by a clause, and each mutant has a
line with one, else 1.
"""
import glob
import os
import re
import sys

import common

TOP = os.path.dirname(os.path.dirname(os.path.abspath(__file__)))
KEPT = f"{TOP}/checks/refused.txt"
TOLD = re.compile(r"(?:rt: )?must-fail ([a-z0-9_]+)/(\S+)\.edit: (.*)")
REFUSED = re.compile(r"refused, as it must be(?: \((.*?)\))?(?:: (.*))?$")
PLACE = re.compile(r"^(?:note: )?(\S+?):\d+:\d+: (?:error(?:\[[\w-]+\])?: )?(.*)")
# What `rt ci` says of a crate before it tries its mutants, and instead of trying those that it has tried before.
TRIES = re.compile(r"(?:rt: )?(\w+): (?:trying its must-fail edits \(\d+\)|\d+ of its \d+ must-fail edits were tried)")
# The goal of a clause, as a refusal names it: behind the file, or in brackets behind what is not proved.
CLAUSE = re.compile(r"^\S+: (?:`returns[\w-]*`: |it is not proved that .*\(`returns[\w-]*`\))")
UNREFUSED = "NOT REFUSED"


def goal_of(message):
    """Returns the file and the goal that a refusal names, without the lines, which any other change moves."""
    found = PLACE.match(message or "")
    if not found:
        return message or "no goal told"
    return re.sub(r"\s+", " ", f"{found[1].removeprefix('./')}: {found[2]}").strip()


def refusals(lines):
    """Returns what became of each edit that a log tells: the goal that refused it, or why none did."""
    found = {}
    for line in lines:
        told = TOLD.match(line.strip())
        if not told:
            continue
        refused = REFUSED.match(told[3])
        if not refused:
            found[f"{told[1]}/{told[2]}"] = UNREFUSED
        elif refused[1]:
            found[f"{told[1]}/{told[2]}"] = f"{refused[1].split(' (')[0].split(',')[0].split(':')[0]}: {goal_of(refused[2])}"
        else:
            found[f"{told[1]}/{told[2]}"] = goal_of(refused[2])
    return found


def fault_of(goal):
    """Returns why a refusal shows nothing of a clause, or None."""
    if goal == UNREFUSED:
        return "not refused"
    if goal.startswith("only by a limit"):
        return "refused by a limit of the prover alone"
    if goal.startswith("only because a proof file"):
        return "refused since a proof misses a name"
    if "which was rejected" in goal:
        return "refused by what depends on another refusal"
    return None if CLAUSE.match(goal) else "refused by no clause"


def lacking(text, found):
    """Returns the mutants that a log lacks: those of the crates whose mutants were tried, or of which it reports another one."""
    crates = {it[1] for it in map(TRIES.match, text.splitlines()) if it} | {it.split("/")[0] for it in found}
    return [it for it in edits() if it.split("/")[0] in crates and it not in found]


def kept():
    """Returns the refusals that are kept."""
    if not os.path.isfile(KEPT):
        return {}
    with open(KEPT, encoding="utf-8") as lines:
        return dict(line.rstrip("\n").split(" ", 1) for line in lines if " " in line)


def edits():
    """Returns the names of all edits."""
    paths = glob.glob(f"{TOP}/crates/*/must-fail/*.edit")
    return sorted(f"{it.split('/')[-3]}/{os.path.basename(it).removesuffix('.edit')}" for it in paths)


def read(logs):
    """Returns what became of the mutants that these logs report, a later log before an earlier one, and those that a log lacks."""
    found, cut = {}, []
    for log in logs:
        if log == "-":
            text = sys.stdin.read()
        else:
            with open(log, encoding="utf-8", errors="replace") as given:
                text = given.read()
        told = refusals(text.splitlines())
        found.update(told)
        cut += lacking(text, told)
    return found, [it for it in cut if it not in found]


def write(found, before):
    """Keeps the refusals by a clause, and returns all that are kept then."""
    now = {**before, **{name: goal for name, goal in found.items() if not fault_of(goal)}}
    rows = [f"{name} {now[name]}\n" for name in edits() if name in now]
    with open(KEPT, "w", encoding="utf-8") as out:
        out.writelines(rows)
    return now


def compare(found, before, writes):
    """Prints where the refusals of the logs differ from those that are kept, or show nothing of a clause, and returns how many do."""
    bad = 0
    for name, goal in sorted(found.items()):
        was, fault = before.get(name), fault_of(goal)
        if fault:
            bad += 1
            print(f"{name}: {fault}" + ("" if goal == UNREFUSED else f": {goal}"))
        elif was is None and not writes:
            bad += 1
            print(f"{name}: not kept yet: {goal}")
        elif was is not None and was != goal:
            bad += not writes
            print(f"{name}: refused elsewhere\n    before: {was}\n    now:    {goal}")
    return bad


def main(words):
    writes = "--write" in words
    logs = [it for it in words if it != "--write"]
    if not logs:
        common.wrong_arguments("no log: usage: checks/refusals.py [--write] LOG..")
    for it in logs:
        if it != "-" and not os.path.exists(it):
            common.wrong_arguments(f"{it}: no such file")
    (found, cut), before = read(logs), kept()
    if not found:
        print("refusals: nothing was compared: the logs have no edit")
        return 1
    bad = compare(found, before, writes) + len(cut)
    for name in cut:
        print(f"{name}: the log lacks it, so it is cut off")
    now = write(found, before) if writes else {**found, **before}
    hollow = [it for it in edits() if it in now and it not in found and fault_of(now[it])]
    for name in hollow:
        print(f"{name}: kept as {fault_of(now[name])}: {now[name]}")
    missing = len(set(edits()) - set(now))
    told = f", {missing} of {len(edits())} edits have no line" if missing else ""
    print(f"refusals: compared {len(found)} edits of the logs{told}")
    return 1 if bad or hollow or missing else 0


if __name__ == "__main__":
    sys.exit(main(sys.argv[1:]))
