#!/usr/bin/env python3
"""Mutated plan files and exercises: what `plans`, `build --plans` and `grade` say of them.

usage: checks/mutated.py

A plan file is read here a second time, from docs/PLANS.md and docs/REORGANIZER.md alone. Of each mutated one `plans` has to say the same: the
first faulty line with its fault, else each rejected plan and each forbidden count with its rule. Of some that are read `build --plans`
writes an image; it has to be, word for word, the one that is linked here (checks/certificates.py, the linker for random images).

A mutated exercise is graded, or refused in one line that names its file; points never exceed what there is to reach.
"""
import contextlib
import io
import json
import os
import pathlib
import random
import re
import sys
import tempfile

import certificates
import common
from common import IS_SAMPLE, TOP, tell

CHECKER = certificates.CHECKER
SOURCES, MUTATED, EXERCISES = (20, 25, 600) if IS_SAMPLE else (100, 100, 10_000)
# Of how many plan files that are read one is also built.
BUILT = 4
MOST_ITEMS, BUDGET, OUT_OF_BUDGET = 131, 2_000, 3
WORDS = ("-", "/", "0", "1", "2", "3", "07", "63", "64", "007", "x", "+", "+0", "+1", "+2", "+3", "+01", "1+", "--", "//", "-1", "")
FAULT = re.compile(rb"plans:(\d+): error\[(\w+)\]")
REJECTED = re.compile(rb"(plan|copies of plan) (\d+) \(line (\d+)\) rejected by (\w+): ")


# A second reader of plan files

class Faulty(Exception):
    """The first faulty line of a plan file, and its fault."""


def words_of(parts, number):
    """The items of a plan and the count of copies that the words of a line say."""
    items, count = [], None
    for word in parts:
        if re.fullmatch(rb"\+[012]", word):
            if count is not None:
                raise Faulty((number, "TwoCounts"))
            count = int(word[1:])
        elif not re.fullmatch(rb"-|/|[0-5]?[0-9]|6[0-3]", word):
            raise Faulty((number, "BadWord"))
        elif len(items) >= MOST_ITEMS:
            raise Faulty((number, "TooLong"))
        elif word == b"/" and word in items:
            raise Faulty((number, "TwoPlaces"))
        else:
            items.append(word)
    return items, count


def read_plans(text, blocks):
    """What each line of a plan file says."""
    lines = []
    for number, line in enumerate(text.split(b"\n"), 1):
        items, count = words_of(re.findall(rb"[^ \t\r]+", line), number)
        if number > len(blocks) and (items or count is not None):
            raise Faulty((number, "NoBlock"))
        lines.append((items, count))
    return (lines + [([], None)] * len(blocks))[:len(blocks)]


def plan_of(items, block):
    """The plan that items of a line say."""
    last = len(block.insts) - 1
    place = items.index(b"/") if b"/" in items else len(items)
    return [None if it == b"-" else last if it == b"/" else int(it) for it in items], place


def most_copies(block, link, goal, blocks, links):
    """How many words the linker copies where nothing is chosen."""
    if block.tail != 3:
        return 0
    for count in (2, 1):
        rule = CHECKER.forbidden(block, link._replace(copies=count), goal, blocks, links)
        if rule not in ("Target", "Room", "Front"):
            return 0 if rule else count
    return 0


def linked(text, program, greedy):
    """The links of a program by a plan file, and what is rejected: a plan or a count, the line of the file, the rule."""
    blocks, links, rejected, at = program.blocks, [], [], CHECKER.CODE
    lines = read_plans(text, blocks)
    for number, (block, (items, _)) in enumerate(zip(blocks, lines), 1):
        plan = plan_of(items or greedy[number - 1], block)
        rule = block.broken(*plan)
        if rule:
            rejected.append((b"plan", number, rule))
            plan = certificates.padded_plan(block)
        links.append(CHECKER.Link(at, 0, False, *plan))
        at += len(plan[0])
    numbers, chosen = {it.first: number for number, it in enumerate(blocks)}, []
    for number, (block, link, (_, count)) in enumerate(zip(blocks, links, lines), 1):
        goal = numbers.get(block.insts[-1].label) if block.tail == 3 else None
        if count is None:
            count = most_copies(block, link, goal, blocks, links)
        elif count:
            rule = CHECKER.forbidden(block, link._replace(copies=count), goal, blocks, links) if block.tail == 3 else "Target"
            if rule:
                rejected.append((b"copies of plan", number, rule))
                count = 0
        chosen.append(link._replace(copies=count, squashes=count > 0 and block.is_conditional))
    return chosen, rejected


# Mutated plan files

def mutate(text, rnd):
    """A plan file with up to four changes."""
    for _ in range(rnd.choice((1, 1, 2, 4))):
        lines, how = text.split(b"\n"), rnd.randrange(9)
        at = rnd.randrange(len(lines))
        parts = lines[at].split(b" ")
        spot, other = rnd.randrange(len(parts)), rnd.randrange(len(parts))
        if how == 0:
            parts[spot] = rnd.choice(WORDS).encode()
        elif how == 1:
            parts.insert(spot, rnd.choice(WORDS).encode())
        elif how == 2:
            del parts[spot]
        elif how == 3:
            parts[spot], parts[other] = parts[other], parts[spot]
        elif how == 4:
            parts.append(rnd.choice((b"+0", b"+1", b"+2")))
        elif how == 5 and rnd.random() < 0.1:
            parts *= rnd.choice((2, 40))
        lines[at] = b" ".join(parts)
        if how == 6:
            lines[at:at + 1] = rnd.choice(([], [lines[at]] * 2, [b""], [lines[rnd.randrange(len(lines))]]))
        text = b"\n".join(lines)
        if how == 7 and text:
            place = rnd.randrange(len(text))
            text = text[:place] + bytes([rnd.choice(b"0123456789 -/+\n\t\rx") if rnd.random() < 0.8 else rnd.randrange(256)]) + text[place + 1:]
        elif how == 8:
            text = text[:rnd.randrange(len(text) + 1)]
    return text


def said_of(done):
    """What `plans` says of a file: its first faulty line, or what is rejected; None where it says something else."""
    found = FAULT.search(done.stderr)
    if found:
        return int(found[1]), found[2].decode() if done.returncode == 8 and not done.stdout else None
    if done.returncode not in (0, OUT_OF_BUDGET):
        return None
    lines, said = done.stdout.split(b"\n"), []
    for line in lines:
        found = REJECTED.match(line)
        if not found:
            return said if line in (b"halted", b"out of budget") else None
        said.append((found[1], int(found[2]), found[4].decode()))
    return None


def wanted_of(text, program, greedy):
    try:
        links, rejected = linked(text, program, greedy)
    except Faulty as fault:
        return None, fault.args[0]
    return links, rejected


def try_built(program, links, folder):
    """Whether `build --plans` writes the image that is linked here."""
    done = certificates.run("mx_lab", "build", f"{folder}/source", f"{folder}/built", "--plans", f"{folder}/plans")
    built = pathlib.Path(f"{folder}/built")
    return done.returncode == 0 and built.exists() and built.read_bytes() == program.image(links)


def try_plans(folder):
    rnd, made = random.Random(71), certificates.sources(random.Random(72))
    wrong, images, kinds, built, count = [], [], {}, 0, 0
    for _ in range(SOURCES):
        name, text, _ = next(made)
        program = certificates.Program(text, folder)
        printed = certificates.run("mx_lab", "plans", f"{folder}/source", "--print")
        if printed.returncode or certificates.run("mx_run", "list", f"{folder}/source").returncode:
            continue
        greedy = [line.split() for line in printed.stdout.split(b"\n")]
        for _ in range(MUTATED):
            plans = mutate(printed.stdout, rnd)
            pathlib.Path(f"{folder}/plans").write_bytes(plans)
            links, wanted = wanted_of(plans, program, greedy)
            said = said_of(certificates.run("mx_lab", "plans", f"{folder}/source", f"{folder}/plans", "--budget", str(BUDGET)))
            count += 1
            for it in [wanted[1]] if links is None else {rule for _, _, rule in wanted} or {"accepted"}:
                kinds[it] = kinds.get(it, 0) + 1
            if said != wanted:
                wrong.append((name, plans, said, wanted))
            if links is not None and count % BUILT == 0:
                built += 1
                if not try_built(program, links, folder):
                    images.append((name, plans))
    tell(f"{count:,} mutated plan files: the fault, or what is rejected", not wrong, str(wrong[:2])[:1500], count)
    print("    " + ", ".join(f"{it} {kinds[it]:,}" for it in sorted(kinds)))
    missing = {"BadWord", "TwoCounts", "TwoPlaces", "NoBlock", "Once", "Order", "Target", "Room", "Front", "accepted"} - set(kinds)
    tell("each common fault and rule is among them", not missing, str(missing))
    tell(f"{built:,} of them are built as they are linked here", built > count / 10 and not images, str(images[:2])[:1500], built)


# Mutated exercises

def grader():
    """tools/grade.py, with each answer of the programs kept."""
    sys.path.insert(0, f"{TOP}/tools")
    grade = certificates.module(f"{TOP}/tools/grade.py")
    kept, asked = {}, grade.Laboratory.answer

    def answer(laboratory, *words, files):
        key = (words, tuple(sorted(files.items())))
        if key not in kept:
            try:
                kept[key] = (True, asked(laboratory, *words, files=files))
            except (grade.Refusal, TimeoutError) as refusal:
                kept[key] = (False, refusal)
        is_answer, found = kept[key]
        if not is_answer:
            raise found
        return found
    grade.Laboratory.answer = answer
    return grade


VALUES = (0, 1, -1, 7, 10 ** 30, 1.5, True, None, "", "x", "cycles", "exercise.json", "no\0name", "../..", [], {}, [1], [{}], {"points": 1}, [[]] * 3)


def members(value, path=()):
    """The paths of all members of a JSON value."""
    inside = value.items() if isinstance(value, dict) else enumerate(value) if isinstance(value, list) else ()
    return [path] * bool(path) + [it for name, other in inside for it in members(other, (*path, name))]


def mutate_exercise(text, rnd):
    """An exercise with up to three changes, of its members or of its bytes."""
    if rnd.random() < 0.2:
        at = rnd.randrange(len(text))
        return rnd.choice((text[:at], text[:at] + rnd.choice(("{", "[" * 2000, '"', ",", "\x00", "9" * 50, "\ud800")) + text[at:], text[:at] + text[at + 3:]))
    said = json.loads(text)
    for _ in range(rnd.choice((1, 1, 2, 3))):
        *path, last = rnd.choice(members(said) or [("kind",)])
        at = said
        for it in path:
            at = at[it]
        if rnd.random() < 0.25:
            del at[last]
        else:
            at[last] = json.loads(json.dumps(rnd.choice(VALUES if rnd.random() < 0.7 else list(said.values()))))
        if not said:
            break
        said = json.loads(json.dumps(said))
    return json.dumps(said)


def graded(grade, folder, submission):
    """The status, the output and the errors of a grading as JSON."""
    out, errors = io.StringIO(), io.StringIO()
    with contextlib.redirect_stdout(out), contextlib.redirect_stderr(errors):
        status = grade.main(["--as", "json", folder, submission])
    return status, out.getvalue(), errors.getvalue()


def is_sound(status, output, errors):
    """Whether a grading is one line of points, or one line that says what is wrong with the exercise."""
    if status == 2:
        return not output and errors.count("\n") == 1 and errors.startswith("zanderanvil: error: ") and len(errors) < 10_000
    said = json.loads(output)
    return not errors and output.count("\n") == 1 and 0 <= said["points"] <= said["of"] and (status == 1) == (said["points"] < said["of"])


def try_exercises(folder):
    os.environ.update({"MX_RUN": common.program("mx_run"), "MX_LAB": common.program("mx_lab"), "MX_QUIET": "1"})
    grade, rnd, wrong, refused = grader(), random.Random(73), [], 0
    names = sorted(it for it in os.listdir(f"{TOP}/exercises") if os.path.isdir(f"{TOP}/exercises/{it}"))
    for name in names:
        copy = f"{folder}/{name}"
        os.makedirs(copy)
        for it in os.listdir(f"{TOP}/exercises/{name}"):
            if os.path.isfile(f"{TOP}/exercises/{name}/{it}"):
                pathlib.Path(f"{copy}/{it}").write_bytes(pathlib.Path(f"{TOP}/exercises/{name}/{it}").read_bytes())
    for number in range(EXERCISES):
        name = names[number % len(names)]
        answers = sorted(it for it in os.listdir(f"{TOP}/exercises/{name}/answers") if it != "grades.txt")
        text = mutate_exercise(pathlib.Path(f"{TOP}/exercises/{name}/exercise.json").read_text(encoding="utf-8"), rnd)
        pathlib.Path(f"{folder}/{name}/exercise.json").write_text(text, encoding="utf-8", errors="surrogatepass")
        try:
            said = graded(grade, f"{folder}/{name}", f"{TOP}/exercises/{name}/answers/{rnd.choice(answers)}")
            refused += said[0] == 2
            holds = is_sound(*said)
        except Exception as error:  # pylint: disable=broad-except
            said, holds = (type(error).__name__, str(error)[:200]), False
        if not holds:
            wrong.append((name, text[:600], said))
    tell(f"{EXERCISES:,} mutated exercises are graded, or refused in one line ({refused:,})", not wrong, f"{len(wrong)}: {sorted({str(it[2])[:150] for it in wrong})[:8]} {wrong[:1]}"[:3000], EXERCISES)
    tell("many of them are refused", refused > EXERCISES / 10, str(refused))


def main():
    if sys.argv[1:]:
        common.wrong_arguments(f"unexpected argument {sys.argv[1]}")
    with tempfile.TemporaryDirectory(prefix="mutated-") as folder:
        try_exercises(folder)
        try_plans(folder)
    return common.finish("mutated.py", "mutated files")


if __name__ == "__main__":
    sys.exit(main())
