#!/usr/bin/env python3
"""Measures how the time and the memory of each command grow with each kind of size, and fails where doubling takes more than 2.6 times as much.

usage: bench/growth.py [--table] [NAME ..]

Each row is a command and a kind of size, run at n, 2n and 4n. Its figures are processor seconds and peak memory, less those of the same
command on the smallest input. A difference that is too small to measure counts as no growth. NAME chooses rows whose name begins so;
--table prints the rows as bench/README.md has them. MX_RUN, MX_LAB and MX_CC name the programs, as for checks.
"""
import math
import os
import sys
import tempfile
from typing import Callable, NamedTuple

BENCH = os.path.dirname(os.path.abspath(__file__))
sys.path.insert(0, f"{BENCH}/../checks")
import common  # noqa: E402

MOST = 2.6
# Differences below these say nothing: seconds and kilobytes.
LEAST_SECONDS, LEAST_MEMORY = 0.04, 4096
TIMES = 3
GOOD = (0, 1, 3, 9)
HALT = "        halt\n"


class Row(NamedTuple):
    """A measurement: a command with its arguments, FILE names standing for files; the size n; and what makes the files of a size."""

    name: str
    kind: str
    words: tuple
    size: int
    files: Callable[[int], dict]


def straight(n):
    """So many statements in blocks of sixteen."""
    rows = ["        addi r1,#1,r1\n" if at % 16 else f"l{at}:     addi r1,#1,r1\n" for at in range(n)]
    return "".join(rows) + HALT


def labelled(n):
    """So many code labels, each at a statement of its own."""
    return "".join(f"label{at}: xor r1,r2,r3\n" for at in range(n)) + HALT


def blocks(n):
    """So many blocks of three statements, each ended by a branch that is not taken."""
    return "".join(f"b{at}:     ld 256[r0],r1\n        add r1,r2,r2\n        bne r0,r0,b{at}\n" for at in range(n)) + HALT


def loop(n):
    """A loop of so many turns: cycles grow with them."""
    high, low = divmod(n, 32768)
    text = f"        addi r0,#{high},r1\n        addi r0,#32767,r4\n        addi r4,#1,r4\n        addi r0,#{low},r2\n"
    text += "next:   bne r2,r0,on\n        beq r1,r0,done\n        addi r1,#-1,r1\n        mov r4,r2\non:     addi r2,#-1,r2\n        st r2,r2\n" \
        .replace("st r2,r2", "st 256[r0],r2")
    return f"{text}        b next\ndone:   halt\n"


def calls(n):
    """A recursion so deep, with its return addresses on a stack."""
    return f"""        addi r0,#{n % 32768},r1
        addi r0,#{n // 32768},r3
        la   stack,r30
deeper: st   0[r30],r31
        addi r30,#1,r30
        beq  r1,r0,back
        addi r1,#-1,r1
        call deeper,r31
back:   addi r30,#-1,r30
        ld   0[r30],r31
        la   stack,r4
        beq  r30,r4,done
        jr   r31
done:   halt
        .data
stack:  .space {n + 8}
"""


def echo(_n):
    return "        .input\n        addi r0,#-1,r2\nnext:   ld 254[r0],r1\n        beq r1,r2,done\n        st 255[r0],r1\n        b next\ndone:   halt\n"


def of_c(n, files):
    """So many statements, each after a comment that names a line of C, of so many files."""
    return "".join(f"; f{at % files}.c:{at // files + 1}\n        addi r1,#1,r1\n" for at in range(n)) + HALT


def faulty(n):
    return "        frob r1\n" * n


def data(n):
    return HALT + "        .data\n" + "".join(f"        .word {at},{at},{at},{at},{at},{at},{at},{at}\n" for at in range(n // 8))


def module(n, number):
    return f"        .export m{number}\nm{number}:\n" + straight(n // 2).replace(HALT, "" if number == 1 else HALT)


def requests(n):
    return "".join(f"{100 * at}\n" for at in range(n))


def plans(n):
    return "0 - 1 / - -\n" * n


def assembly(n):
    """A function of so many instructions of a compiler."""
    body = "\taddiu\t$2,$2,1\n\txor\t$3,$3,$2\n" * (n // 2)
    return f"\t.text\n\t.globl\tmain\n\t.ent\tmain\n\t.type\tmain, @function\nmain:\n\t.frame\t$sp,0,$31\n{body}\tjr\t$31\n\tnop\n\t.end\tmain\n"


def source(text):
    return lambda n: {"a.s": text(n)}


BIG = ("--budget", "100000000")
ROWS = (
    *(Row(name, "statements", (name, "a.s", *more), 5000, source(straight)) for name, more in (
        ("run", ()), ("meaning", ()), ("list", ()), ("best", ()), ("check", ()), ("explain", ()), ("profile", ()), ("disassemble", ()),
        ("compare", ()), ("draw", ("--as", "json")), ("draw", ("--as", "html")), ("caches", ()), ("trace", ()))),
    Row("build", "statements", ("build", "a.s", "a.mxi"), 5000, source(straight)),
    Row("plans --print", "statements", ("plans", "a.s", "--print"), 5000, source(straight)),
    *(Row(name, "labels", (name, "a.s", *more), 5000, source(labelled)) for name, more in (
        ("run", ()), ("list", ()), ("check", ()), ("profile", ("--by", "label")), ("profile", ("--by", "function")), ("disassemble", ()),
        ("draw", ("--as", "json")), ("explain", ()))),
    *(Row(name, "blocks", (name, "a.s", *more), 1600, source(blocks)) for name, more in (("list", ()), ("best", ()), ("compare", ()))),
    Row("plans", "blocks", ("plans", "a.s", "p"), 1600, lambda n: {"a.s": blocks(n), "p": plans(n)}),
    *(Row(f"{name}", "cycles", (name, "a.s", *more, *BIG), size, source(loop)) for name, size, more in (
        ("run", 1_000_000, ()), ("profile", 250_000, ()), ("explain", 250_000, ()), ("compare", 100_000, ()), ("caches", 250_000, ()),
        ("trace", 10_000, ()), ("interrupts", 100_000, ("--from", "1000", "--to", "1010")), ("debug", 100_000, ("next", "--stops", "1000")))),
    Row("meaning", "steps", ("meaning", "a.s", "--steps", "100000000"), 1_000_000, source(loop)),
    Row("draw", "cycles before", ("draw", "a.s", "--from", "99000000", *BIG), 250_000, source(loop)),
    *(Row(f"draw --as {form}", "cycles drawn", ("draw", "a.s", "--as", form, "--cycles", "N"), 5000, lambda n: {"a.s": loop(100_000)})
      for form in ("text", "svg", "html", "json", "kanata", "vcd")),
    Row("run --trace", "cycles", ("run", "a.s", "--trace", "N"), 2500, lambda n: {"a.s": loop(100_000)}),
    Row("interrupts", "rows", ("interrupts", "a.s", "--rows", "--to", "N"), 500, lambda n: {"a.s": loop(1000)}),
    Row("interrupts --pairs", "rows", ("interrupts", "a.s", "--pairs", "--step", "100", "--as", "csv", "--to", "PAIRED"), 500,
        lambda n: {"a.s": loop(3000)}),
    *(Row(f"{name}", "requests", (name, "a.s", *more, "--interrupts", "i", *BIG), 10_000, lambda n: {"a.s": loop(1_000_000), "i": requests(n)})
      for name, more in (("run", ()), ("explain", ()), ("profile", ()))),
    Row("share", "requests", ("share", "a.s", "a.s", "--interrupts", "i", *BIG), 5000, lambda n: {"a.s": loop(30_000), "i": requests(n)}),
    Row("debug", "stops", ("debug", "a.s", "next", "--stops", "N"), 250, source(lambda n: loop(100_000))),
    *(Row(f"profile {' '.join(more)}", "calls", ("profile", "a.s", *more), 10_000, source(calls)) for more in (
        ("--by", "function"), ("--as", "callgrind"), ("--by", "line"))),
    Row("profile --by c", "lines of C", ("profile", "a.s", "--by", "c"), 4000, source(lambda n: of_c(n, 10))),
    Row("profile --by c", "files", ("profile", "a.s", "--by", "c"), 1000, source(lambda n: of_c(4000, n))),
    Row("check --all", "faults", ("check", "a.s", "--all"), 5000, source(faulty)),
    Row("check --all --as json", "faults", ("check", "a.s", "--all", "--as", "json"), 5000, source(faulty)),
    *(Row(name, "data words", (name, "a.s", *more), 15_000, source(data)) for name, more in (("run", ()), ("list", ()), ("draw", ("--as", "json")))),
    Row("build", "data words", ("build", "a.s", "a.mxi"), 15_000, source(data)),
    *(Row(name, "input bytes", (name, "a.s", "--input", "x", *BIG), 100_000, lambda n: {"a.s": echo(n), "x": "x" * n}) for name in ("run", "explain")),
    Row("join", "statements", ("join", "a.s", "b.s"), 5000, lambda n: {"a.s": module(n, 1), "b.s": module(n, 2)}),
    Row("gen", "items", ("gen", "1", "N"), 1000, lambda n: {}),
    Row("soak", "items", ("soak", "1", "N"), 500, lambda n: {}),
    Row("translate", "instructions", ("a.asm",), 4000, lambda n: {"a.asm": assembly(n)}),
)
LABORATORY = ("check", "explain", "profile", "disassemble", "compare", "draw", "caches", "trace", "plans", "interrupts")


def program_of(row):
    """Returns the path of the program that answers a row."""
    if row.name == "translate":
        return common.program("mx_cc")
    return common.program("mx_lab" if row.words[0] in LABORATORY else "mx_run")


def measure(row, program, size, folder):
    """Returns the processor seconds and the peak kilobytes of a row at a size: the least of some times."""
    for name, text in row.files(size).items():
        with open(f"{folder}/{name}", "w", encoding="ascii") as file:
            file.write(text)
    # So many pairs are those of the square root of twice as many cycles, which are 100 apart.
    given = {"N": str(size), "PAIRED": f"{100 * math.isqrt(2 * size)}"}
    words = [program, *(given.get(it, it) for it in row.words)]
    seconds, memory = [], []
    for _ in range(TIMES):
        process = os.posix_spawn(program, words, os.environ, file_actions=[
            (os.POSIX_SPAWN_OPEN, 1, "/dev/null", os.O_WRONLY, 0), (os.POSIX_SPAWN_OPEN, 2, f"{folder}/errors", os.O_WRONLY | os.O_CREAT | os.O_TRUNC, 0o644)])
        _, status, used = os.wait4(process, 0)
        if os.waitstatus_to_exitcode(status) not in GOOD:
            with open(f"{folder}/errors", encoding="utf-8", errors="replace") as file:
                raise SystemExit(f"growth.py: {' '.join(words[1:])} at {size:,} ends with {os.waitstatus_to_exitcode(status)}: {file.read(200)}")
        seconds.append(used.ru_utime + used.ru_stime)
        memory.append(used.ru_maxrss)
        if seconds[0] > 2:
            break
    return min(seconds), min(memory)


def growth(values, least, first):
    """Returns by how much each doubling multiplies what comes on top of the first figure; None where that is too little to say."""
    above = [it - first for it in values]
    return [two / one if one >= least else None for one, two in zip(above, above[1:])]


def judge(row):
    """Measures a row, prints it, and returns the cells of its line in the table."""
    program = program_of(row)
    with tempfile.TemporaryDirectory() as folder:
        cwd = os.getcwd()
        os.chdir(folder)
        try:
            found = [measure(row, program, size, folder) for size in (max(row.size // 64, 1), row.size, 2 * row.size, 4 * row.size)]
        finally:
            os.chdir(cwd)
    seconds, memory = [it[0] for it in found], [it[1] for it in found]
    times = growth(seconds[1:], LEAST_SECONDS, seconds[0])
    spaces = growth(memory[1:], LEAST_MEMORY, memory[0])
    wrong = [it for it in (*times, *spaces) if it is not None and it > MOST]
    spelled = [" ".join(f"{it:.1f}" if it is not None else "-" for it in some) for some in (times, spaces)]
    cells = (row.name, row.kind, f"{4 * row.size:,}", f"{seconds[-1]:.3f}", spelled[0], f"{memory[-1] / 1024:.0f}", spelled[1])
    common.tell(f"{row.name} by {row.kind}", not wrong, " | ".join(cells))
    return cells


def main(words):
    is_table = words[:1] == ["--table"]
    names = words[1:] if is_table else words
    rows = [it for it in ROWS if not names or any(f"{it.name} by {it.kind}".startswith(name) for name in names)]
    if not rows:
        common.wrong_arguments(f"no row begins with {' or '.join(names)}")
    lines = [judge(it) for it in rows]
    if is_table:
        print(f"{'command':24}{'size':16}{'4n':>10}{'seconds':>9}  {'growth':9}{'MB':>4}  growth")
        print("\n".join(f"{name:24}{kind:16}{size:>10}{seconds:>9}  {times:9}{space:>4}  {spaces}" for name, kind, size, seconds, times, space, spaces in lines))
    return common.finish("growth.py", "rows")


if __name__ == "__main__":
    sys.exit(main(sys.argv[1:]))
