#!/usr/bin/env python3
"""Runs gcc's torture tests, each as ./mx c runs it, and compares what does not end well with checks/cc/torture.txt, which has the
reason of each.

usage: checks/torture.py FOLDER [--level N] [--results FILE] [--write] [NAME ..]

FOLDER is gcc.c-torture/execute of gcc's sources; of Debian, `apt-get download gcc-12-source` has them in a package that
`dpkg-deb -x` and `tar` unpack. A test that ends with 0 and has the console of qemu-mips agrees. Results go to FILE
(torture.results) as they come, and a second run goes on from there; --write adds lines without a reason to torture.txt, for what is not
there. CC_JOBS says how many tests run side by side (2). The programs are those of ./mx, or those that MX_RUN and MX_CC name.
"""
import json
import multiprocessing
import os
import re
import subprocess
import sys
import tempfile

import common
import cprograms
from common import TOP
from cprograms import GCC, Fault

REASONS = f"{TOP}/checks/cc/torture.txt"
SECONDS = 120
# What a test asks of the compiler, for every machine or for this one.
OPTIONS = re.compile(r'dg-(?:additional-)?options\s+\{?\s*"([^"]*)"\s*\}?\s*(\{[^}]*\{?[^}]*\}?[^}]*\})?')
FLAGS = re.compile(r'^(?:lappend|set) additional_flags "([^"]*)"', re.M)
EXTRA = {"": [], "ieee": ["-fno-inline"]}
DEFINED = re.compile(r"^\s*\.(?:globl|global|weak|comm)\s+([\w.$]+)", re.M)
library = {}


def options_of(path):
    """Returns the options that a test asks for."""
    with open(path, encoding="latin-1") as file:
        text = file.read()
    beside = f"{path[:-2]}.x"
    flags = []
    if os.path.exists(beside):
        with open(beside, encoding="latin-1") as file:
            flags = [word for words in FLAGS.findall(file.read()) for word in words.split()]
    return flags + [word for words, target in OPTIONS.findall(text) if "target" not in target for word in words.split() if not word.startswith("-Wl")]


def run(words, folder):
    """Returns what a command prints, its status and what it says, or None where it takes too long."""
    try:
        done = subprocess.run(words, cwd=folder, capture_output=True, stdin=subprocess.DEVNULL, timeout=SECONDS * common.PATIENCE)
    except subprocess.TimeoutExpired:
        return None
    return done.stdout, done.returncode, done.stderr.decode(errors="replace").strip().splitlines()


def native(path, options, folder):
    """Returns the console and the status under qemu-mips, or None where gcc refuses the test or it does not end."""
    words = [GCC, "-static", *options, path, "-o", f"{folder}/native", "-lm"]
    built = run(words, folder)
    return run(["qemu-mips", f"{folder}/native"], folder) if built and built[1] == 0 else None


def ends_well(path, options, folder):
    """Whether a test ends with 0 and prints nothing, by the programs themselves. Where it is not so, or a test has a name of the library's,
    ./mx c says what is wrong, which takes three times as long."""
    assembly, source, report = f"{folder}/test.s", f"{folder}/test.mx", ["run", f"{folder}/test.mx", "--budget", str(cprograms.BUDGET)]
    try:
        cprograms.compile_to(path, "2", assembly, options)
        with open(assembly, encoding="latin-1") as file:
            text = file.read()
        if library["names"] & set(DEFINED.findall(text)):
            return False
        cprograms.translate([assembly, *library["files"]], source)
        with open(source, encoding="latin-1") as file:
            given = ["--input", "/dev/null"] if "\n.input\n" in file.read() else []
        counts, console = cprograms.report([cprograms.RUN, *report, *given])
    except Fault:
        return False
    return counts["end"] == "halted" and int(counts["r2"], 16) & 255 == 0 and not console


def verdict_of(job):
    """Returns the name of a test, what became of it, and the first line of why."""
    name, path, level = job
    options = [f"-O{level}", "-w", *EXTRA[os.path.dirname(name)], *options_of(path)]
    with tempfile.TemporaryDirectory() as folder:
        if ends_well(path, options, folder):
            return name, "same", ""
        ours = run([f"{TOP}/mx", "c", *options, path], folder)
        if ours is None:
            return name, "unanswered", f"more than {SECONDS} seconds"
        console, status, said = ours
        why = next((line for line in said if "error" in line or re.match(r".*:\d+: ", line)), said[0] if said else "")
        if status == 0 and not console:
            return name, "same", ""
        theirs = native(path, options, folder)
    if theirs is None:
        return name, "no program", "gcc gives no program for qemu-mips"
    if (console, status) == theirs[:2]:
        return name, "same", "" if status == 0 else f"both end with {status}"
    if status == 3:
        return name, "unanswered", why
    if status in (1, 2, 4, 10) and why and not console:
        return name, "refused", why.replace(os.path.dirname(path) + "/", "")
    return name, "differs", f"status {status}, under qemu-mips {theirs[1]}: {why}"[:200]


def tests_of(folder, names):
    """Returns the tests with their files."""
    found = []
    for part in EXTRA:
        for file in sorted(os.listdir(os.path.join(folder, part))):
            name = os.path.join(part, file[:-2])
            if file.endswith(".c") and (not names or name in names):
                found.append((name, os.path.join(folder, part, file)))
    return found


def read_results(path, level):
    """Returns what earlier runs found at a level."""
    found = {}
    if os.path.exists(path):
        with open(path, encoding="utf-8") as file:
            for line in file:
                row = json.loads(line)
                if row["level"] == level:
                    found[row["test"]] = (row["verdict"], row["why"])
    return found


def read_reasons():
    """Returns the reason of each test that does not agree."""
    with open(REASONS, encoding="utf-8") as file:
        rows = [line.rstrip("\n").split(" | ", 2) for line in file if line.strip() and not line.startswith("#")]
    return {row[0]: (row[1], row[2]) for row in rows}


def run_tests(jobs, level, results, found):
    """Runs the tests that have no result, and keeps what each gives."""
    count = int(os.environ.get("CC_JOBS", "2"))
    with open(results, "a", encoding="utf-8") as file, multiprocessing.Pool(count) as pool:
        for name, verdict, why in pool.imap_unordered(verdict_of, jobs):
            file.write(json.dumps({"test": name, "level": level, "verdict": verdict, "why": why}) + "\n")
            file.flush()
            found[name] = (verdict, why)
            if verdict != "same":
                print(f"{verdict}: {name}: {why}", flush=True)


def main():
    words, level, results, is_written = sys.argv[1:], "2", "torture.results", False
    names = []
    while words:
        word = words.pop(0)
        if word in ("--level", "--results") and words:
            level, results = (words.pop(0), results) if word == "--level" else (level, words.pop(0))
        elif word == "--write":
            is_written = True
        elif word.startswith("-"):
            common.wrong_arguments(f"unknown option '{word}'")
        else:
            names.append(word)
    if not names or not os.path.isdir(names[0]):
        common.wrong_arguments("FOLDER has to be the folder gcc.c-torture/execute of gcc's sources")
    common.need_tools(GCC, "qemu-mips")
    cprograms.RUN, cprograms.CC = common.program("mx_run"), [common.program("mx_cc")]
    os.environ.update(MX_RUN=cprograms.RUN, MX_CC=cprograms.CC[0])
    library["files"] = cprograms.compile_library()
    with open(f"{os.path.dirname(library['files'][0])}/names", encoding="latin-1") as file:
        library["names"] = set(file.read().split())
    tests = tests_of(names[0], names[1:])
    found = read_results(results, level)
    run_tests([(name, path, level) for name, path in tests if name not in found], level, results, found)
    reasons = read_reasons()
    for name, _ in tests:
        verdict, why = found[name]
        if is_written and verdict != "same" and name not in reasons:
            with open(REASONS, "a", encoding="utf-8") as file:
                file.write(f"{name} | {verdict} | {why}\n")
        wanted = reasons.get(name, ("same", ""))[0]
        if verdict != wanted:
            common.tell(name, False, f"{verdict}, expected {wanted}: {why}", 0)
    same = sum(found[name][0] == "same" for name, _ in tests)
    print(f"{same} of {len(tests)} tests agree, {len(tests) - same} are in {os.path.relpath(REASONS, TOP)} with a reason each")
    return common.finish("gcc's torture tests", "tests", len(tests))


if __name__ == "__main__":
    sys.exit(main())
