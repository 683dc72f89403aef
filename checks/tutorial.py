#!/usr/bin/env python3
"""Runs every command that the documents show with its output, and compares what it prints.

usage: checks/tutorial.py [--write] [FILE.md ..]

A block of code that is marked `console` has commands, each after `$ `, and after each what it prints, on standard output and
standard error together. A line `..` is any number of lines. A command that does not end with 0 has a comment `# exit N`.
The commands of a document run in a folder of their own, in order, which has links to the files of the repository: so a
command may write a file, and no tracked file is changed. Commands in C need gcc-mips-linux-gnu, and are left out without it.
The programs are those that ./mx takes: of MX_RUN, MX_LAB and MX_CC if these are set.
It prints how many commands ran and how many lines it compared, and ends with 1 if one differs, or if a lesson has none.
With --write it puts the most similar printed lines in the place of those that differ; read what it wrote, and the text around it.
With MX_SAMPLE=1 it takes README and the first three lessons."""
import difflib
import os
import re
import shutil
import subprocess
import sys
import tempfile
from typing import NamedTuple

TOP = os.path.dirname(os.path.dirname(os.path.abspath(__file__)))
LESSONS = "docs/tutorial/"
SAMPLE = r"README.md|docs/tutorial/[123]"


class Step(NamedTuple):
    """A command of a document: its line, the exit status that it has to have, and the lines that it has to print."""
    number: int
    command: str
    status: int
    wanted: list


def documents():
    """Returns the documents that show a command with its output."""
    found = []
    for folder, inner, names in os.walk(TOP):
        inner[:] = sorted(name for name in inner if name not in (".git", ".mx", "out", "built", "crates"))
        found += [os.path.relpath(f"{folder}/{name}", TOP) for name in sorted(names) if name.endswith(".md")]
    found = [name for name in found if "```console" in open(f"{TOP}/{name}", encoding="utf-8").read()]
    return [name for name in found if re.match(SAMPLE, name)] if os.environ.get("MX_SAMPLE") == "1" else found


def steps(path):
    """Returns the commands of a document, in order."""
    found, inside = [], False
    for number, line in enumerate(open(f"{TOP}/{path}", encoding="utf-8"), 1):
        line = line.rstrip("\n")
        if line.startswith("```"):
            inside = line == "```console"
        elif inside and line.startswith("$ "):
            command, _, status = line[2:].partition("  # exit ")
            found.append(Step(number, command, int(status or 0), []))
        elif inside and found:
            found[-1].wanted.append(line)
    return found


def fits(wanted, printed):
    """Whether printed lines are the wanted ones, of which `..` is any number of lines."""
    pattern = "".join(r"(?:.*\n)*" if line == ".." else re.escape(line.rstrip()) + r"[ \t]*\n" for line in wanted)
    return re.fullmatch(pattern, "".join(line + "\n" for line in printed)) is not None


def renewed(wanted, printed):
    """Returns the wanted lines, each replaced by the most similar printed line after the one before; None where that does not fit."""
    found, begin = [], 0
    for line in wanted:
        if line == "..":
            found.append(line)
            continue
        rest = printed[begin:]
        if not rest:
            return None
        words = line.split()
        likeness = [difflib.SequenceMatcher(None, words, it.split()).ratio() + difflib.SequenceMatcher(None, line, it).ratio() for it in rest]
        at = likeness.index(max(likeness))
        found.append(rest[at].rstrip())
        begin += at + 1
    return found if fits(found, printed) else None


def write(path, step, found):
    """Writes other lines after a command of a document."""
    with open(f"{TOP}/{path}", encoding="utf-8") as it:
        lines = it.read().split("\n")
    lines[step.number:step.number + len(step.wanted)] = found
    with open(f"{TOP}/{path}", "w", encoding="utf-8") as it:
        it.write("\n".join(lines))


def room():
    """Makes a folder with links to what is in the repository."""
    folder = tempfile.mkdtemp()
    for name in os.listdir(TOP):
        if name not in (".git", "out"):
            os.symlink(f"{TOP}/{name}", f"{folder}/{name}")
    return folder


def run(command, folder):
    """Runs a command, and returns its status and the lines that it prints."""
    env = dict(os.environ, MX_QUIET="1", LC_ALL="C.UTF-8", NO_COLOR="1")
    done = subprocess.run(["bash", "-c", command], cwd=folder, env=env, stdin=subprocess.DEVNULL, timeout=900,
                          stdout=subprocess.PIPE, stderr=subprocess.STDOUT, check=False)
    return done.returncode, done.stdout.decode("utf-8", "replace").split("\n")[:-1]


def main(arguments):
    if "--help" in arguments:
        print(__doc__)
        return 0
    is_writing = "--write" in arguments
    chosen = [os.path.relpath(os.path.abspath(name), TOP) for name in arguments if name != "--write"] or documents()
    for path in chosen:
        if not os.path.isfile(f"{TOP}/{path}"):
            print(f"tutorial.py: there is no document {path}", file=sys.stderr)
            return 2
    has_gcc = shutil.which("mips-linux-gnu-gcc") is not None
    commands = lines = left = wrong = 0
    for path in chosen:
        folder, count = room(), 0
        for step in steps(path):
            if not has_gcc and re.search(r"\./mx (c|cc) |from_c", step.command):
                left += 1
                continue
            status, printed = run(step.command, folder)
            commands, count, lines = commands + 1, count + 1, lines + len(step.wanted)
            if status != step.status or not fits(step.wanted, printed):
                found = renewed(step.wanted, printed) if is_writing and status == step.status else None
                if found:
                    write(path, step, found)
                    print(f"{path}:{step.number}: {step.command}: written")
                    continue
                wrong += 1
                print(f"{path}:{step.number}: {step.command}: exit {status}, expected {step.status}; it prints")
                print("\n".join("    " + line for line in printed[:40]))
        shutil.rmtree(folder)
        if not count and path.startswith(LESSONS) and not left:
            wrong += 1
            print(f"{path} has no command")
    print(f"{len(chosen)} documents, {commands} commands, {left} left out; {wrong} differ")
    print(f"tutorial: compared {lines:,} lines")
    return 1 if wrong or not commands or not lines else 0


if __name__ == "__main__":
    sys.exit(main(sys.argv[1:]))
