#!/usr/bin/env python3
"""Host instructions per simulated cycle of `run` on five loops, and of the same machine in C, by callgrind.

usage: bench/lane.py [PROGRAM]      PROGRAM is a built mx_run, else the proved one, which is proved and built where it is not there

The loops are those of bench/lane: counting, two lines of the cache, calls, loads and stores, and a C program. Each runs for two
numbers of cycles. A figure is what the longer run executes more, divided by the cycles that it simulates more. The second column is
`run` with an interrupt every 64 cycles, the last one turn_machine.c by cc -O2. Needs valgrind, cc and, for the C program, what
`./mx cc` needs.
"""
import os
import re
import subprocess
import sys
import tempfile

BENCH = os.path.dirname(os.path.abspath(__file__))
TOP = os.path.dirname(BENCH)
LOOPS = ("counting.s", "two_lines.s", "calls.s", "memory.s", "sorting.c")
SHORT, LONG = 100_000, 300_000
BETWEEN_REQUESTS = 64


def output_of(*words, text=None):
    """Returns what a command prints. A run that is out of budget ends with 3."""
    ran = subprocess.run(words, input=text, capture_output=True, text=True)
    if ran.returncode not in (0, 3):
        sys.exit(f"{' '.join(words)}: {ran.stderr}")
    return ran.stdout + ran.stderr


def instructions(folder, *words, text=None):
    """Returns how many instructions a command executes."""
    said = output_of("valgrind", "--tool=callgrind", f"--callgrind-out-file={folder}/callgrind", *words, text=text)
    return int(re.search(r"Collected : (\d+)", said).group(1))


def per_cycle(count):
    """Returns the instructions per cycle, by how many it takes to simulate so many cycles."""
    return (count(LONG) - count(SHORT)) / (LONG - SHORT)


def words_of(program, source):
    """Returns the code words of a source, and after a - its data words."""
    lines = [line.split() for line in output_of(program, "list", source).splitlines()]
    words = [line[1] for line in lines if len(line) == 3 and line[2] != "h"]
    with open(source, encoding="latin-1") as text:
        data = text.read().partition(".data")[2]
    words.append("-")
    for kind, numbers in re.findall(r"\.(word|space) ([-\d,]+)", data):
        words += [f"{int(n) % (1 << 32):x}" for n in numbers.split(",")] if kind == "word" else ["0"] * int(numbers)
    return "\n".join(words)


def measure(folder, program, machine, name):
    """Returns the three figures of a loop."""
    source = f"{BENCH}/lane/{name}"
    if name.endswith(".c"):
        source = f"{folder}/{name}.s"
        output_of(f"{TOP}/mx", "cc", f"{BENCH}/lane/{name}", "-o", source)
    requests, words = f"{folder}/requests", words_of(program, source)
    with open(requests, "w", encoding="ascii") as text:
        text.writelines(f"{cycle}\n" for cycle in range(0, LONG, BETWEEN_REQUESTS))

    def run(*options):
        return per_cycle(lambda n: instructions(folder, program, "run", source, "--budget", str(n), *options))

    return run(), run("--interrupts", requests), per_cycle(lambda n: instructions(folder, machine, str(n), text=words))


def main():
    program = os.path.abspath(sys.argv[1]) if sys.argv[1:] else f"{TOP}/crates/mx_run/out/mx_run"
    if not sys.argv[1:]:
        subprocess.run([f"{TOP}/mx", "prove", "mx_run"], check=True, stdout=subprocess.DEVNULL, stderr=subprocess.DEVNULL)
    with tempfile.TemporaryDirectory() as folder:
        machine = f"{folder}/turn_machine"
        subprocess.run(["cc", "-O2", "-o", machine, f"{BENCH}/turn_machine.c"], check=True)
        print(f"{'instructions per cycle':24}{'run':>10}{'interrupted':>14}{'C':>10}")
        for name in LOOPS:
            run, interrupted, other = measure(folder, program, machine, name)
            print(f"{name:24}{run:10.1f}{interrupted:14.1f}{other:10.1f}")


if __name__ == "__main__":
    main()
