#!/usr/bin/env python3
"""Measures a unit, in which proofs are measured on any machine, and then what a command takes in units.

usage: bench/unit.py [COMMAND ..]

A unit is the check of mx_text from nothing, alone on the machine: `rt check` in a new clone. Prints its seconds of the clock and of the
processor. Then runs COMMAND in the folder of the repository and prints the same for it, and its units of processor time: for example
`bench/unit.py rt ci`. A machine on which other programs run says little, so their load is printed. Ends with COMMAND's status.
"""
import os
import resource
import subprocess
import sys
import tempfile
import time

TOP = os.path.dirname(os.path.dirname(os.path.abspath(__file__)))
USAGE = 2


def measured(command, folder, **streams):
    """Runs a command in a folder. Returns its status, its seconds of the clock, and those of processors."""
    before, start = resource.getrusage(resource.RUSAGE_CHILDREN), time.monotonic()
    status = subprocess.run(command, cwd=folder, check=False, **streams).returncode
    after = resource.getrusage(resource.RUSAGE_CHILDREN)
    seconds = after.ru_utime + after.ru_stime - before.ru_utime - before.ru_stime
    return status, time.monotonic() - start, seconds


def unit():
    """Checks mx_text in a new clone. Returns the seconds of the clock and of the processor."""
    with tempfile.TemporaryDirectory(prefix="mx-unit-") as folder:
        subprocess.run(["git", "clone", "-q", TOP, folder], check=True)
        status, clock, processor = measured(["rt", "check"], f"{folder}/crates/mx_text", stdout=subprocess.PIPE, stderr=subprocess.STDOUT)
    if status:
        sys.exit(f"bench/unit.py: 'rt check' of mx_text failed with {status}: run it in crates/mx_text to see why")
    return clock, processor


def main(command):
    """Prints the unit and the figures of a command."""
    if command and command[0] in ("-h", "--help"):
        print(__doc__.strip())
        return 0
    if command and command[0].startswith("-"):
        print(f"bench/unit.py: unknown option {command[0]}: --help lists what there is", file=sys.stderr)
        return USAGE
    print(f"{os.cpu_count()} processors, load {os.getloadavg()[0]:.1f}", flush=True)
    clock, processor = unit()
    print(f"unit: {clock:.1f} s, {processor:.1f} processor s", flush=True)
    if not command:
        return 0
    try:
        status, taken, used = measured(command, TOP)
    except OSError as error:
        print(f"bench/unit.py: {command[0]}: {error.strerror}", file=sys.stderr)
        return 1
    print(f"{' '.join(command)}: {taken:.1f} s, {used:.1f} processor s, {used / processor:.1f} units of processor time", flush=True)
    return status


if __name__ == "__main__":
    sys.exit(main(sys.argv[1:]))
