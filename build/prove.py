#!/usr/bin/env python3
"""Proves and builds crates and those below them, side by side: each as soon as those that it depends on are done. Those that the
first crate needs come first, and among them those on which the longest chain of others waits, by the seconds that each took when it
was last proved here (.mx/seconds.json), or by its lines.

usage: build/prove.py [--for-check] CRATE .. LOG

A crate is proved by the toolchain's rattle, and what others read of it is kept in its out/statements: statements without proofs,
which load in a third of the time. With --for-check the libraries are those that rt check and rt test take, and hold proofs. Only
one rt works in a crate at a time, and it holds the crates below
too. So each crate is then proved in a folder of its own, with the files of the crate and of those below it, and links to what was
built of these.

A program is built to out/NAME, a static library to out/libNAME.a. What the toolchain prints goes to the file LOG. Standard error
has a line for each crate that is done. The exit status is 0 where all are proved, else 1; after an interrupt what is done stays.
While it runs it holds the lock .mx/prove.lock. A crate whose files, or those below it, change while it is proved is not recorded.
"""
import concurrent.futures
import contextlib
import json
import os
import sys
import time

from crates import TOP, crates_below, is_program, read_crates
from libraries import Rooms, Statements
from state import files_of, replace
sys.path.append(f"{TOP}/tools")
from processes import Commands, end_by_signals, locked, print_failure  # noqa: E402

# On four processors; bench/README.md has the figures.
ABOUT = "From nothing the toolchain takes some half an hour, and with the laboratory three quarters; what is done is kept"
# What a check takes of memory, and how many jobs are of use to one.
BYTES_A_JOB = 2_000_000_000
MOST_JOBS = 4
# About what a check takes, in hundredths of seconds: the libraries, a line of code, a line of a definition or a proof.
COST_OF_LIBRARIES, COST_OF_CODE, COST_OF_PROOF = 1500, 8, 1
# A program is of one function, but its check reads the code of all crates below it, and clang compiles it: for a line there.
COST_OF_COMPILING = 0.6

# What each crate took when it was last proved, in seconds of processors.
SECONDS = f"{TOP}/.mx/seconds.json"


def read_seconds():
    """Returns for crates that were proved here what each took; nothing where that was not kept, or is damaged."""
    with contextlib.suppress(OSError, ValueError, TypeError, AttributeError), open(SECONDS, encoding="utf-8") as it:
        return {crate: float(seconds) for crate, seconds in json.load(it).items()}
    return {}


def keep_seconds(taken):
    """Keeps what crates took, beside what is known of others."""
    with contextlib.suppress(OSError):
        replace(SECONDS, json.dumps({**read_seconds(), **taken}, indent=0, sort_keys=True) + "\n")


def places():
    """Returns how many checks this machine has room for."""
    memory = os.sysconf("SC_PAGE_SIZE") * os.sysconf("SC_PHYS_PAGES")
    return max(1, min(os.cpu_count() or 1, memory // BYTES_A_JOB))


def lines(folder):
    """Returns how many lines of code the crate in this folder has, and how many of other files."""
    found = {True: 0, False: 0}
    for file in files_of(folder):
        with open(file, "rb") as it:
            found[file.endswith(".rt")] += sum(1 for _ in it)
    return found[True], found[False]


def costs(crates, listed, folder):
    """Returns about what the check of each of these crates takes, in hundredths of seconds."""
    found, code, known = {}, {}, read_seconds()
    for crate in crates:
        code[crate], proof = lines(f"{folder}/{crate}")
        found[crate] = COST_OF_LIBRARIES + COST_OF_CODE * code[crate] + COST_OF_PROOF * proof
        if is_program(f"{folder}/{crate}"):
            found[crate] += COST_OF_COMPILING * sum(code[it] for it in crates_below([crate], listed))
        found[crate] = 100 * known.get(crate, found[crate] / 100)
    return found


def ranks(listed, asked):
    """Returns for each crate how many of those asked for come before the first that needs it."""
    found = {}
    for place, it in enumerate(asked):
        for crate in [*crates_below([it], listed), it]:
            found.setdefault(crate, place)
    return found


def chains(crates, listed, rank, folder):
    """Returns what the dearest chain of crates costs that begins with each of these, and that the same one asked for needs."""
    cost, found = costs(crates, listed, folder), {}
    for crate in reversed(crates):
        above = [found[it] for it in found if crate in listed[it] and rank[it] == rank[crate]]
        found[crate] = cost[crate] + max(above, default=0)
    return found


def prove(prover, crates, asked, log):
    """Proves these crates, tells each that is done, and returns whether all are."""
    rank, began = ranks(prover.listed, asked), time.monotonic()
    chain = chains(crates, prover.listed, rank, prover.files)
    waits = {crate: [it for it in prover.listed[crate] if it in prover.listed] for crate in crates}
    done, running, failed, idle, taken = set(), {}, [], places(), {}
    with concurrent.futures.ThreadPoolExecutor(idle) as pool, prover.commands:
        while True:
            started = {crate for crate, *_ in running.values()} | done
            ready = [it for it in crates if it not in started and done.issuperset(waits[it])]
            ready.sort(key=lambda it: (-rank[it], chain[it]))
            while ready and idle > 0 and not failed:
                # (where there are more places than crates that can begin, a crate takes several; a program reads more than it checks)
                share = max(1, min(idle // len(ready), MOST_JOBS))
                crate = ready.pop()
                jobs = 1 if is_program(f"{prover.files}/{crate}") else share
                running[pool.submit(prover.prove, crate, jobs)] = crate, jobs, time.monotonic()
                idle -= jobs
            if not running:
                keep_seconds(taken)
                # (what went wrong comes last)
                log.writelines(failed)
                if failed:
                    print_failure("\n".join(failed))
                else:
                    print(f"mx: all {len(crates)} are proved", file=sys.stderr)
                return not failed
            for run in concurrent.futures.wait(running, return_when=concurrent.futures.FIRST_COMPLETED).done:
                (crate, jobs, start), (is_proved, said) = running.pop(run), run.result()
                idle += jobs
                if is_proved:
                    log.write(said)
                    if said:
                        taken[crate] = round((time.monotonic() - start) * jobs, 1)
                    done.add(crate)
                    how = f"is done, {len(done)} of {len(crates)},"
                else:
                    failed.append(said)
                    how = "is not proved,"
                if said:
                    print(f"mx: {crate} {how} after {time.monotonic() - began:.0f} s", file=sys.stderr, flush=True)


def prove_locked(crates, asked, log_name, for_check):
    """Proves these crates, and returns the exit status. The caller holds the lock."""
    commands = Commands()
    prover = Rooms(commands, crates) if for_check else Statements(commands)
    try:
        if all(map(prover.is_done, crates)):
            print(f"mx: all {len(crates)} are proved", file=sys.stderr)
            return 0
        left = sum(not prover.is_done(it) for it in crates)
        said = f"mx: {' and '.join(asked)} with the crates below: {len(crates)}, of which {left} {'is' if left == 1 else 'are'} to be proved"
        print(f"{said}. {ABOUT}" if left == len(crates) else said, file=sys.stderr, flush=True)
        with open(log_name, "w", encoding="utf-8") as log:
            return 0 if prove(prover, crates, asked, log) else 1
    finally:
        prover.close()


def main(asked, log_name, for_check):
    listed = read_crates()
    unknown = [it for it in asked if it not in listed]
    if unknown:
        print(f"mx: crates.txt has no crate {', '.join(unknown)}", file=sys.stderr)
        return 1
    end_by_signals()
    below = crates_below(asked, listed)
    crates = [it for it in listed if it in below or it in asked]
    try:
        # (in a clone that cannot be written there is nothing to hold a lock for where all is done, and else nothing to be done)
        if not for_check and all(map(Statements(None).is_done, crates)):
            print(f"mx: all {len(crates)} are proved", file=sys.stderr)
            return 0
        with locked(f"{TOP}/.mx/prove.lock", "proves"):
            return prove_locked(crates, asked, log_name, for_check)
    except KeyboardInterrupt:
        print("mx: stopped; the next call goes on after the crates that are done", file=sys.stderr)
        return 1
    except OSError as error:
        print(f"mx: {error.strerror}: {error.filename}", file=sys.stderr)
        return 1


if __name__ == "__main__":
    WORDS = [it for it in sys.argv[1:] if it != "--for-check"]
    if len(WORDS) < 2:
        sys.exit(__doc__)
    sys.exit(main(WORDS[:-1], WORDS[-1], "--for-check" in sys.argv))
