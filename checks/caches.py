#!/usr/bin/env python3
"""The stored answers of `caches` on sources with loops, by a linker, a machine and caches of their own, written from docs/.

usage: checks/caches.py           compares the lines of test_lab_cases/data/sources.txt that begin with `caches source`
       checks/caches.py --write   prints them with the answers that belong there

The linker and the machine are those of soak.py, written from docs/REORGANIZER.md and docs/MACHINE.md: the machine gives the
addresses that are fetched, one after the other. Each cache is a list of lines for each set, written from docs/LAB.md: of a full
set the line that was allocated first is replaced. None of this reads the code, or an output of the toolchain.
"""
import pathlib
import re
import sys

HERE = pathlib.Path(__file__).resolve().parent
CASES = HERE.parent / "crates/test_lab_cases/data/sources.txt"
SOAK = {"__file__": str(HERE / "soak.py"), "__name__": "soak"}
exec((HERE / "soak.py").read_text(encoding="utf-8"), SOAK)
SIZES, WAYS = (128, 256, 512, 1024, 2048), (1, 2, 4, 8)
SHIPPED = (4, 8, 16, 2, 2)
HEAD = "   words  sets  ways  line  brings  penalty     misses  of fetches      cycles     CPF"
STATEMENT = re.compile(r"(?:(\w+): ?)?(?:(addi|add|bne|halt)(?: (\S+))?)?$")


def source(text):
    """The statements of a source that is given by its lines, and the indices that have labels."""
    lines = []
    for part in text.split(" / "):
        count, line = re.match(r"(?:(\d+) \* )?(.*)$", part).groups()
        lines += [line] * int(count or 1)
    rows, labels = [], {}
    for line in lines:
        label, name, given = STATEMENT.match(line).groups()
        if label:
            labels[label] = len(rows)
        if name:
            rows.append((name, (given or "").split(",")))
    items = []
    for name, given in rows:
        numbers = [int(it[1:]) for it in given if it[:1] in ("r", "#")]
        goal = labels.get(given[-1])
        items.append(SOAK["make"](name, *numbers, **({} if goal is None else {"target": goal})))
    return items, set(labels.values())


def fetched(items, labelled):
    """The machine after a run, and the addresses that it fetched."""
    machine, addresses = SOAK["Machine"](SOAK["linked"](items, labelled)), []
    while not machine.halted:
        before, address = machine.fetches, machine.next[0]
        machine.cycle(False)
        if machine.fetches > before:
            addresses.append(address)
    return machine, addresses


def misses(geometry, addresses):
    """How many of the fetches miss, and how many lines are replaced."""
    count, ways, line, brings, _ = geometry
    sets, missed, replaced = [[] for _ in range(count)], 0, 0
    for address in addresses:
        number, word = divmod(address, line)
        held = sets[number % count]
        valid = next((valid for it, valid in held if it == number), None)
        if valid is not None and word in valid:
            continue
        missed += 1
        if valid is None:
            valid = set()
            held.append((number, valid))
            if len(held) > ways:
                held.pop(0)
                replaced += 1
        first = word - word % brings
        valid.update(range(first, min(first + brings, line)))
    return missed, replaced


def geometries(line, brings, penalty):
    """The caches that the table has."""
    rows = [(size // (ways * line), ways, line, brings, penalty) for size in SIZES for ways in WAYS if size % (ways * line) == 0]
    rows = [row for row in rows if row[0]]
    return rows if SHIPPED in rows else [SHIPPED, *rows]


def rounded(part, whole, digits):
    value = (2 * part * 10**digits + whole) // (2 * whole)
    return f"{value // 10**digits}.{value % 10**digits:0{digits}}"


def answer(words, text):
    """What `caches` prints, on one line, and of each cache how many lines it replaced."""
    option = dict(zip(words[2::2], map(int, words[3::2])))
    machine, addresses = fetched(*source(text))
    said, replaced = [HEAD], []
    for row in geometries(option.get("--line", 16), option.get("--brings", 2), option.get("--penalty", 2)):
        missed, gone = misses(row, addresses)
        replaced.append(gone)
        cycles = len(addresses) + missed * row[4]
        numbers = (row[0] * row[1] * row[2], *row, missed)
        front = "".join(f"{number:{width}}" for number, width in zip(numbers, (7, 6, 6, 6, 8, 9, 11)))
        share, each = rounded(100 * missed, len(addresses), 2), rounded(cycles, len(addresses), 2)
        said.append(("*" if row == SHIPPED else " ") + f"{front}{share + '%':>12}{cycles:12}{each:>8}")
    if machine.misses != misses(SHIPPED, addresses)[0]:
        sys.exit(f"caches: the machine of soak.py misses {machine.misses} times")
    said += ["* the machine's own cache", "halted", f"cycles {machine.cycles}", f"fetches {machine.fetches}", f"misses {machine.misses}"]
    return "0 " + " / ".join(said), replaced


def main(writes):
    compared = replacing = differing = 0
    for case in CASES.read_text().splitlines():
        if not case.startswith("caches source"):
            continue
        asked, _, stored = case.partition(" -> ")
        words, _, text = asked.partition(": ")
        made, replaced = answer(words.split(), text)
        compared, replacing = compared + len(replaced), replacing + sum(map(bool, replaced))
        differing += made != stored
        if writes:
            print(f"{asked} -> {made}")
        elif made != stored:
            print(f"{words}: the stored answer is another one")
            print("\n".join(f"  stored {it}\n  model  {other}" for it, other in zip(stored.split(" / "), made.split(" / ")) if it != other))
    print(f"caches: compared {compared} rows, of which {replacing} are of caches that replaced a line; {differing} cases differ", file=sys.stderr)
    return compared == 0 or replacing == 0 or differing > 0 and not writes


if sys.argv[1:] not in ([], ["--write"]):
    print(f"caches.py: unexpected argument {sys.argv[1]}", file=sys.stderr)
    sys.exit(2)
sys.exit(main(bool(sys.argv[1:])))
