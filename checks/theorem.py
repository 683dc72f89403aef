#!/usr/bin/env python3
"""Compares docs/THEOREM.md with the code: its laws, its quoted clauses, its runs and its figures.

usage: checks/theorem.py    refuses a law that does not exist, a quotation that is not in the code, and a run or a figure that differs

In the page, `law` (`crate`) names laws of a crate: functions with clauses of its src/*.rt. Every other name in code with an underscore
has to be a name of the code too. The line that begins a block of code says what the block is:

    quote FILE      the block is in that file, but for spaces
    file FILE       the block's lines are lines of that file, in order
    run COMMAND     the block's lines are lines that the command prints, in order; one that ends with two dots is the beginning of one
    figure FILE     the block is the command that writes the file
    source FILE     the block is a command that writes FILE, which a later run reads

Runs and figures need the programs, which MX_RUN and MX_LAB name; else those of ./mx are taken, or of .mx. Without a program they are
left out, and the last line says so.
"""
import os
import pathlib
import re
import subprocess
import sys
import tempfile

ROOT = pathlib.Path(__file__).resolve().parent.parent
PAGE = ROOT / "docs/THEOREM.md"
BLOCK = re.compile(r"(?m)^```(quote|file|run|figure) (.+)\n((?:.*\n)*?)```$")
SOURCE = re.compile(r"(?m)^```source (\S+)\n(.*) > \1\n```$")
LAW = re.compile(r"((?:`\w+`(?:, | and )?)+) \(`(\w+)`\)")
NAME = re.compile(r"`([a-z]\w*_\w*)`")
OF_LAB = ("draw", "plans")
SECONDS = 60


def joined(text):
    return " ".join(text.split())


def program_of(command):
    """Returns the program that runs a command of ./mx, if it is built."""
    name = "mx_lab" if command in OF_LAB else "mx_run"
    named = os.environ.get(name.upper())
    places = [pathlib.Path(named)] if named else [ROOT / "crates" / name / "out" / name, ROOT / ".mx" / name]
    return next((str(it) for it in places if it.exists()), None)


def printed(line, folder):
    """Returns what a command line of ./mx prints, or nothing where the program is not built."""
    program = program_of(re.search(r"\./mx (\w+)", line)[1])
    if program is None:
        return None
    line = re.sub(r" > \S+$", "", line).replace("./mx", program)
    for made in pathlib.Path(folder).iterdir():
        line = line.replace(f" {made.name}", f" {made}")
    return subprocess.run(["sh", "-c", line], cwd=ROOT, capture_output=True, text=True, timeout=SECONDS).stdout


def is_line(line, other):
    """Whether a line of the page is the other one, or its beginning where it ends with two dots."""
    return other.startswith(line[:-2]) if line.endswith(" ..") else other == line


def are_in(lines, others):
    """Returns the first of the lines that is not among the others, in order."""
    others = iter(others)
    return next((line for line in lines if not any(is_line(line, other) for other in others)), None)


def code_of(crate):
    return "\n".join(path.read_text() for path in sorted((ROOT / "crates" / crate / "src").rglob("*.rt")))


def is_law(name, code):
    """Whether the code has a public function of this name with a clause."""
    found = re.search(rf"(?m)^\s*pub (?:extern \"C\" )?fn {name}\b(?:[^{{]|\n)*?^\s+ensures ", code)
    return found is not None


def wrong_laws(page, counts):
    for row in LAW.finditer(page):
        if not (ROOT / "crates" / row[2]).is_dir():
            continue
        code = code_of(row[2])
        for name in re.findall(r"`(\w+)`", row[1]):
            counts["laws"] += 1
            if not is_law(name, code):
                yield f"crates/{row[2]} has no law {name}"


def wrong_names(page, counts):
    """Names of the page that are neither crates nor names of the code or of its definitions."""
    text = "\n".join(path.read_text() for pattern in ("crates/*/src/**/*.rt", "crates/*/specs/*.antt") for path in ROOT.glob(pattern))
    words = set(re.findall(r"\w+", text))
    for name in sorted(set(NAME.findall(page))):
        counts["names"] += 1
        if name not in words and not (ROOT / "crates" / name).is_dir():
            yield f"the code has no {name}"


def wrong_block(kind, what, block, folder, counts):
    """Returns what differs of a block, if anything does."""
    lines = block.splitlines()
    if kind == "quote":
        counts["quotes"] += 1
        text = re.sub(r"(?m)^\s*(?:--|//).*\n", "", (ROOT / what).read_text())
        return None if joined(block) in joined(text) else f"{what} does not have: {lines[0]}"
    if kind == "file":
        counts["quotes"] += 1
        missing = are_in(lines, (ROOT / what).read_text().splitlines())
        return missing and f"{what} does not have: {missing}"
    output = printed(what if kind == "run" else block.strip(), folder)
    if output is None:
        counts["left out"] += 1
        return None
    counts["runs" if kind == "run" else "figures"] += 1
    if kind == "figure":
        return None if output == (ROOT / what).read_text() else f"{what} is not what its command draws: {block.strip()}"
    missing = are_in(lines, output.splitlines())
    return missing and f"{what} does not print: {missing}"


def main(arguments):
    if arguments:
        print(f"theorem.py: unknown arguments: {' '.join(arguments)}", file=sys.stderr)
        return 2
    page = PAGE.read_text()
    counts = {"laws": 0, "names": 0, "quotes": 0, "runs": 0, "figures": 0, "left out": 0}
    faults = list(wrong_laws(page, counts)) + list(wrong_names(page, counts))
    with tempfile.TemporaryDirectory() as folder:
        for made in SOURCE.finditer(page):
            output = subprocess.run(["sh", "-c", made[2]], capture_output=True, text=True, timeout=SECONDS).stdout
            (pathlib.Path(folder) / made[1]).write_text(output)
        for block in BLOCK.finditer(page):
            if fault := wrong_block(block[1], block[2], block[3], folder, counts):
                faults.append(fault)
    marks = len(re.findall(r"(?m)^```", page))
    read = len(BLOCK.findall(page)) + len(SOURCE.findall(page))
    if marks != 2 * read:
        faults.append(f"{marks} lines begin or end a block, and {read} blocks are read")
    faults += [f"no {it} were compared" for it in ("laws", "quotes") if not counts[it]]
    for fault in faults:
        print(f"docs/THEOREM.md: {fault}")
    if counts["left out"]:
        print(f"{counts['left out']} runs and figures were left out, since no program is built (MX_RUN, MX_LAB)")
    print("theorem.py: compared " + ", ".join(f"{number} {what}" for what, number in counts.items() if what != "left out"))
    return 1 if faults else 0


if __name__ == "__main__":
    sys.exit(main(sys.argv[1:]))
