#!/usr/bin/env python3
"""The semantics of compiled assembly against qemu-mips: what `mx_cc meaning` prints of programs in C that gcc compiled, and its status.

usage: checks/meaning.py [DRAWN] [NAME ..]

The rows of checks/cc/worked.txt, which were worked by hand, have to hold. The examples of examples/c and the tests of checks/cc, or those
that are named, and DRAWN random programs (300), each at -O2 with the library, have to print what the native program prints, and to end
with its status. Random programs are those of csmith, or where it or its headers are missing those of checks/random_c.py; one that does
not end natively is passed over. MX_CC names the program, and CC_JOBS says how many programs are tried side by side (2).
"""
import multiprocessing
import os
import sys
import tempfile

import cc
import common
import cprograms
import drawn as drawing
from cprograms import GCC, TOP, Fault

LEVEL = "2"
STEPS = 1_000_000_000
SECONDS = 600
library = []


# Sends the word in register 2, most significant byte first, and ends.
SENDS = "srl $5,$2,24; sw $5,1020($0); srl $5,$2,16; sw $5,1020($0); srl $5,$2,8; sw $5,1020($0); sw $2,1020($0); li $2,0; jr $31"
WORKED = "\t.text\n\t.globl main\nmain: {}; {}\nother: li $2,9; jr $31\n\t.data\n\t.align 2\nx:\t.word 0x81828384\n\t.byte 0x85\n"


def try_worked(folder):
    """Tries the rows that were worked by hand; returns their verdicts."""
    verdicts = []
    with open(f"{TOP}/checks/cc/worked.txt", encoding="utf-8") as rows:
        for row in rows:
            if row.startswith("#"):
                continue
            instructions, _, wanted = (it.strip() for it in row.partition("|"))
            with open(f"{folder}/worked.s", "w", encoding="utf-8") as file:
                file.write(WORKED.format(instructions, SENDS))
            done = cprograms.shell([*cprograms.CC, "meaning", f"{folder}/worked.s"])
            seen = done.stderr.decode().strip().rpartition(": ")[2] or done.stdout.hex()
            verdicts.append("same" if seen == wanted else "FAILED")
            if seen != wanted:
                print(f"FAILED: {instructions}: {seen}, and not {wanted}", flush=True)
    return verdicts


def execute(assembly, given):
    """What the semantics prints of a program with the library, and its status."""
    words = ["--input", given] if given else []
    done = cprograms.shell([*cprograms.CC, "meaning", assembly, *library, "--steps", str(STEPS), *words], SECONDS)
    if done.stderr:
        raise Fault(done.stderr.decode(errors="replace").strip().replace(f"{TOP}/", ""), b"the steps are spent" in done.stderr)
    return done.stdout, done.returncode


def compare(base, source, given, wanted, more=()):
    """Compares a program with what is wanted."""
    cprograms.compile_to(source, LEVEL, f"{base}.s", more)
    console, status = execute(f"{base}.s", given)
    os.remove(f"{base}.s")
    if console != wanted[0]:
        pairs = zip(console, wanted[0])
        at = next((i for i, (a, b) in enumerate(pairs) if a != b), min(len(console), len(wanted[0])))
        raise Fault(f"byte {at} of the console: {console[at:at + 40]!r}, natively {wanted[0][at:at + 40]!r}")
    if status != wanted[1]:
        raise Fault(f"status {status}, natively {wanted[1]}")


def try_stored(job):
    """A stored program with its inputs."""
    folder, name, source, inputs = job
    base = f"{folder}/{name}"
    try:
        cprograms.compile_native(source, f"{base}.native")
        for given in inputs:
            compare(base, source, given, cc.answer_of(source, f"{base}.native", given))
        os.remove(f"{base}.native")
    except Fault as fault:
        return name, "FAILED", str(fault)
    return name, "same", ""


def try_drawn(job):
    """A random program."""
    folder, seed, is_own = job
    base, name = f"{folder}/drawn{seed}", f"{'random_c' if is_own else 'csmith'} {seed}"
    try:
        source, more = drawing.draw(seed, is_own, folder)
        cprograms.compile_native(source, f"{base}.native", more)
        compare(base, source, None, cprograms.run_native(f"{base}.native", b"", drawing.NATIVE_SECONDS), more)
        os.remove(f"{base}.native")
        os.remove(source)
    except Fault as fault:
        return name, "passed over" if fault.is_passed_over else "FAILED", str(fault)
    return name, "same", ""


def try_all(pool, folder, drawn, names, is_own):
    """Tries all programs; returns their verdicts."""
    verdicts = []
    stored = pool.imap_unordered(try_stored, cc.examples(folder, names))
    random = pool.imap_unordered(try_drawn, ((folder, seed, is_own) for seed in range(1, drawn + 1)))
    for results in (stored, random):
        for name, verdict, why in results:
            verdicts.append(verdict)
            if verdict != "same":
                print(f"{verdict}: {name}: {why}", flush=True)
    return verdicts


def main():
    words = sys.argv[1:]
    drawn = int(words.pop(0)) if words and words[0].isdigit() else 300
    common.need_tools(GCC, "qemu-mips")
    cprograms.CC = [common.program("mx_cc")]
    missing = drawing.what_is_missing() if drawn else ""
    if missing:
        print(f"{missing}; programs of checks/random_c.py are drawn instead")
    library.extend(cprograms.compile_library())
    with tempfile.TemporaryDirectory() as folder:
        for seed in range(cc.SEEDS):
            with open(f"{folder}/{seed}", "w", encoding="utf-8") as file:
                file.write(f"{seed * 7919 + 1}\n")
        verdicts = [] if words else try_worked(folder)
        with multiprocessing.Pool(int(os.environ.get("CC_JOBS", "2"))) as pool:
            verdicts += try_all(pool, folder, drawn, words, bool(missing))
    common.failures = verdicts.count("FAILED")
    print(f"{len(verdicts)} rows and programs, {verdicts.count('same')} the same, {verdicts.count('passed over')} passed over")
    return common.finish("semantics of compiled assembly", "rows and programs", verdicts.count("same") + common.failures)


if __name__ == "__main__":
    sys.exit(main())
