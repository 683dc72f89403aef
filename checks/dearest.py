#!/usr/bin/env python3
"""Tells which functions of some crates are the dearest to prove: the processor's time that each took from nothing.

usage: checks/dearest.py CRATE..

In a copy of the repository each crate stands again under another name, so that nothing that was proved before counts, and
is checked by one job. What a function takes is the time from the end of the one before it; so the first that stands on a
file of lemmas has their time, and the first of all that of reading what the crate stands on, which takes a few seconds.
"""
import os
import re
import shutil
import signal
import subprocess
import sys
import tempfile

TOP = os.path.dirname(os.path.dirname(os.path.abspath(__file__)))
TICKS = os.sysconf("SC_CLK_TCK")
LINE = re.compile(r"^checked (\S+), \d+ of \d+")


def spent(session):
    """Returns the seconds that all processes of a session have taken so far."""
    ticks = 0
    for entry in os.listdir("/proc"):
        if entry.isdigit():
            try:
                with open(f"/proc/{entry}/stat", encoding="utf-8", errors="replace") as stat:
                    fields = stat.read().rsplit(")", 1)[1].split()
            except OSError:
                continue
            if int(fields[3]) == session:
                ticks += sum(int(it) for it in fields[11:15])
    return ticks / TICKS


def copy_all(folder):
    """Makes a copy of the repository in the folder, with what is built."""
    for it in ("HANDLES", "crates.txt"):
        shutil.copy(f"{TOP}/{it}", folder)
    shutil.copytree(f"{TOP}/crates", f"{folder}/crates")


def add_again(crate, folder):
    """Adds the crate to the copy under another name."""
    name = f"again_{crate}"
    for at, folders, files in os.walk(f"{TOP}/crates/{crate}"):
        folders[:] = [it for it in folders if it not in ("out", "must-fail")]
        to = at.replace(f"{TOP}/crates/{crate}", f"{folder}/crates/{name}", 1)
        os.makedirs(to, exist_ok=True)
        for it in files:
            with open(f"{at}/{it}", "rb") as given, open(f"{to}/{it}", "wb") as made:
                made.write(re.sub(rb"\bRattle\.%b\." % crate.encode(), b"Rattle.%b." % name.encode(), given.read()))
    with open(f"{folder}/crates.txt", encoding="utf-8") as given:
        rows = [line for line in given if re.match(rf"{crate}\b", line)]
    with open(f"{folder}/crates.txt", "a", encoding="utf-8") as made:
        made.write(rows[0].replace(crate, name, 1))
    return name


def measure(crate, folder):
    """Returns the seconds and the function of each line of a check of the crate."""
    rows = []
    name = add_again(crate, folder)
    check = subprocess.Popen(
        ["rt", "check", "--jobs", "1"], cwd=f"{folder}/crates/{name}", text=True,
        stdin=subprocess.DEVNULL, stdout=subprocess.PIPE, stderr=subprocess.STDOUT, start_new_session=True)
    try:
        before, last = 0.0, ""
        for line in check.stdout:
            found = LINE.match(line)
            if found:
                now = spent(check.pid)
                if found[1].startswith(f"{name}::"):
                    rows.append((now - before, found[1].replace(name, crate, 1)))
                before = now
            last = line.strip()
    finally:
        if check.poll() is None:
            os.killpg(check.pid, signal.SIGTERM)
    if check.wait() != 0:
        print(f"{crate}: {last}", file=sys.stderr)
    shutil.rmtree(f"{folder}/crates/{name}/out", ignore_errors=True)
    dearest = ", ".join(f"{it[1].removeprefix(crate + '::')} {it[0]:.0f}" for it in sorted(rows, reverse=True)[:6])
    print(f"{crate}: {sum(it[0] for it in rows):.0f} s, {len(rows)} functions: {dearest}", file=sys.stderr, flush=True)
    return rows


def main(crates):
    with tempfile.TemporaryDirectory() as folder:
        copy_all(folder)
        rows = sorted((row for crate in crates for row in measure(crate, folder)), reverse=True)
    for seconds, function in rows[:20]:
        print(f"| `{function}` | {seconds:.0f} |")


if __name__ == "__main__":
    if len(sys.argv) < 2:
        sys.exit(__doc__)
    main(sys.argv[1:])
