#!/usr/bin/env python3
"""Runs all tests, stored cases and checks without proofs and without wrong bodies, for those who change code: the gate stays .ci/run.

usage: build/run_tests.py [CRATE ..]      without names: each program that has stored output, each crate with tests, and then
                                          the checks (checks/all.sh)

A program is built without its proof (build/unproved.py), and run as the gate runs it: in a folder with the files of its folder
data/, the arguments of its file args and the bytes of stdin. Its output and its status have to be the stored ones. The programs of
./mx are kept for it.
"""
import concurrent.futures
import os
import shutil
import subprocess
import sys
import tempfile
import time

import state
import unproved
from crates import TOP, read_crates
sys.path.append(f"{TOP}/tools")
from processes import Commands, end_by_signals  # noqa: E402

LIMIT = 120
# The programs of ./mx, which keeps them.
KEPT = ("mx_run", "mx_lab", "mx_cc", "mx_serve")
COMMANDS = Commands()


def read(path, otherwise=""):
    """Returns the text of a file, or something else where it is not there."""
    try:
        with open(path, "rb") as it:
            return it.read()
    except FileNotFoundError:
        return otherwise.encode()


def has_tests(crate):
    """Tells whether a crate has #[test] functions."""
    folder = f"{TOP}/crates/{crate}/src"
    return any(b"#[test]" in read(f"{at}/{it}") for at, _, files in os.walk(folder) for it in files)


def run_tests(crate):
    """Runs the #[test] functions of a crate, and returns what is wrong."""
    words = ["rt", "try", "--test", "--seconds", "300"]
    status, said = COMMANDS.run(f"{TOP}/crates/{crate}", *words)
    return "" if status == 0 else said[-2000:]


def build(crate, at):
    """Builds a program, and returns where it is: at this place, or where ./mx takes it from; None where it does not compile."""
    path = f"{state.KEPT}/{crate}"
    if crate in KEPT and os.access(TOP, os.W_OK):
        return None if unproved.kept(crate, path, COMMANDS) else path
    return None if unproved.main(crate, at, COMMANDS) else at


def run_program(crate):
    """Builds and runs a program on its stored words, and returns what is wrong."""
    folder = f"{TOP}/crates/{crate}"
    with tempfile.TemporaryDirectory(prefix="mx-test-") as at:
        program = build(crate, f"{at}/program")
        if program is None:
            return "it does not compile"
        os.mkdir(f"{at}/run")
        if os.path.isdir(f"{folder}/data"):
            shutil.copytree(f"{folder}/data", f"{at}/run", dirs_exist_ok=True)
        words = read(f"{folder}/args").decode().splitlines()
        with open(f"{at}/errors", "w+b") as errors:
            how = {"stdin": subprocess.PIPE, "stderr": errors, "text": False, "errors": None}
            status, printed = COMMANDS.run(f"{at}/run", program, *words, given=read(f"{folder}/stdin"), seconds=LIMIT, **how)
            errors.seek(0)
            said = printed.decode(errors="replace")[-1500:] + errors.read().decode(errors="replace")[-500:]
    wanted = int(read(f"{folder}/status", "0"))
    if status != wanted:
        return f"status {status} for {wanted}\n{said}"
    return "" if printed == read(f"{folder}/stdout") else f"other output:\n{said}"


def work(crate):
    """Runs one crate's tests or program, and returns its name, what is wrong, and how long it took."""
    began = time.monotonic()
    try:
        wrong = run_tests(crate) if has_tests(crate) else run_program(crate)
    except (OSError, subprocess.SubprocessError) as error:
        wrong = str(error)
    return crate, wrong, time.monotonic() - began


def crates():
    """Returns the crates that have tests, and the programs that measure nothing."""
    names = read_crates()
    programs = [it for it in names if os.path.exists(f"{TOP}/crates/{it}/src/main.rt") and not it.startswith("bench_")]
    return [it for it in names if it in programs or has_tests(it)]


def main(names):
    unknown = [it for it in names if it not in crates()]
    if unknown:
        print(f"mx: there are no tests in {', '.join(unknown)}\n{__doc__}", file=sys.stderr)
        return 2
    end_by_signals()
    failed = 0
    with concurrent.futures.ThreadPoolExecutor(os.cpu_count()) as pool, COMMANDS:
        for done in concurrent.futures.as_completed([pool.submit(work, it) for it in names or crates()]):
            crate, wrong, seconds = done.result()
            print(f"{'FAIL' if wrong else 'ok  '} {crate} ({seconds:.0f} s)", flush=True)
            if wrong:
                failed += 1
                print(wrong, flush=True)
    print(f"{failed} failed" if failed else "all as stored; nothing here is proved: that is rt ci", flush=True)
    if not failed and not names:
        # (it takes this process, so whatever ends ./mx ends it; the programs that were just built serve it)
        os.execv(f"{TOP}/checks/all.sh", ["checks/all.sh"])
    return 1 if failed else 0


if __name__ == "__main__":
    try:
        sys.exit(main(sys.argv[1:]))
    except KeyboardInterrupt:
        sys.exit("mx: stopped")
