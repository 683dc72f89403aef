#!/usr/bin/env python3
"""Compares docs/PROMISES.md with the code: the contracts that it names, and its numbers of crates.

usage: checks/promises.py            refuses a contract, a crate or a file that does not exist, and numbers of crates that differ
       checks/promises.py --write    writes the numbers of crates again

Every name in code of the page has to be a crate, a file, a command, or a name of the code: a function, a type, a clause, a field or a
definition. A function that the column of contracts names has to have a clause. Every crate of crates.txt has to be in a row of the
table of what is proved and tested, but for the crates of tests and measurements.
"""
import re
import sys

from definitions import ROOT

PAGE = ROOT / "docs/PROMISES.md"
HELPERS = ("test_", "bench_")
SECTION = re.compile(r"(?s)<!-- crates -->\n(.*?)<!-- end -->")
FUNCTION = re.compile(r"(?ms)^( *)pub (?:const )?(?:extern \"C\" )?fn (\w+)\b(.*?)^\1(?:\{|\}|    \{\})")
CODE = re.compile(r"`([^`\n]+)`")
PROMISE = re.compile(r"(?m)^\| ([^|]+) \| ([^|]+) \|(?: [^|]+ \|)?$")
PROVED_OF = "## What is proved of the crates"
# What a row may name that is no function: states, statuses and programs of other people.
OUTSIDE = {"qemu-mips", "Memory", "WriteFault", "Usage", "Halted", "OutOfBudget", "no code label"}


def crates():
    """Returns the crates of crates.txt, in order."""
    return re.findall(r"(?m)^(\w+)(?: \w+)?:", (ROOT / "crates.txt").read_text())


def sources_of(crate):
    return "\n".join(path.read_text() for path in sorted((ROOT / "crates" / crate / "src").rglob("*.rt")))


def contracts_of(crate):
    """Returns how many public functions a crate has, and how many of them have a clause."""
    functions = FUNCTION.findall(sources_of(crate))
    return len(functions), sum("ensures " in head for _, _, head in functions)


def numbers():
    """Returns how many public functions each crate has, and how many of them have a contract."""
    found = [(crate, *contracts_of(crate)) for crate in crates() if not crate.startswith(HELPERS)]
    functions, proved = sum(row[1] for row in found), sum(row[2] for row in found)
    others = "\n".join(f"{crate:<17}{own:>3} of {number}" for crate, number, own in found if own < number)
    none = ", ".join(f"`{crate}`" for crate, number, _ in found if not number)
    return (f"{len(found)} crates have {functions:,} public functions, of which {proved:,} have a contract. No public function: {none}. Some without a"
            f" contract:\n\n```text\n{others}\n```\n")


def known():
    """Returns the words of all code and definitions, and the functions that have a clause."""
    words, proved, functions = set(), set(), set()
    for crate in crates():
        text = sources_of(crate)
        words.update(re.findall(r"\w+", text))
        for head in re.finditer(r"(?ms)^( *)(?:pub(?:\(crate\))? )?(?:const )?(?:extern \"C\" )?fn (\w+)\b(.*?)(?:^\1\{|;$|^\1\}|\{\}$)", text):
            functions.add(head[2])
            if "ensures " in head[3]:
                proved.add(head[2])
        for path in (ROOT / "crates" / crate / "specs").glob("*.antt"):
            words.update(re.findall(r"\w+", path.read_text()))
    return words, functions, proved


def is_there(name, words):
    """Whether a name in code is a crate, a file, or a name of the code."""
    if name in OUTSIDE or (ROOT / "crates" / name).is_dir() or (ROOT / name).exists() or (ROOT / "docs" / name).exists():
        return True
    return all(part in words for part in name.split("::"))


def wrong_names(page, counts):
    words, functions, proved = known()
    listed = set(re.findall(r"`(\w+)`", (ROOT / "docs/COMMANDS.md").read_text() + (ROOT / "docs/LAB.md").read_text()))
    for name in sorted(set(CODE.findall(page))):
        counts["names"] += 1
        if not is_there(name, words) and name not in listed and name != "-":
            yield f"the code has no {name}"
    laws, _, of_crates = page.partition(PROVED_OF)
    for row in PROMISE.finditer(laws):
        for name in re.findall(r"`(?:\w+::)?([a-z]\w*)`", row[2]):
            if name in functions:
                counts["contracts"] += 1
                if name not in proved:
                    yield f"{name} has no clause"
    rows = set(re.findall(r"`(\w+)`", "\n".join(line.split(" | ")[0] for line in of_crates.partition("## Crates")[0].splitlines() if line.startswith("| `"))))
    for crate in crates():
        if not crate.startswith(HELPERS):
            counts["crates"] += 1
            if crate not in rows:
                yield f"{crate} is in no row of what is proved and tested"


def main(arguments):
    if arguments not in ([], ["--write"]):
        print(f"promises.py: unknown arguments: {' '.join(arguments)}", file=sys.stderr)
        return 2
    page, wanted = PAGE.read_text(), numbers()
    if arguments:
        page = SECTION.sub(lambda _: f"<!-- crates -->\n\n{wanted}\n<!-- end -->", page)
        PAGE.write_text(page)
    counts = {"names": 0, "contracts": 0, "crates": 0}
    faults = list(wrong_names(page, counts))
    own = SECTION.search(page)
    if own is None or own[1].strip() != wanted.strip():
        faults.append("the numbers of crates differ from the code (checks/promises.py --write)")
    faults += [f"no {what} were compared" for what, number in counts.items() if not number]
    for fault in faults:
        print(f"docs/PROMISES.md: {fault}")
    print("promises.py: compared " + ", ".join(f"{number} {what}" for what, number in counts.items()))
    return 1 if faults else 0


if __name__ == "__main__":
    sys.exit(main(sys.argv[1:]))
