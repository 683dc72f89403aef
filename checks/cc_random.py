#!/usr/bin/env python3
"""Makes random programs of instructions that GNU's assembler makes of others, as mul, rem, seq, rol and ulw, on random registers and numbers,
and compares what they leave in registers and memory with qemu-mips.

usage: checks/cc_random.py [COUNT [SEED]]      COUNT programs (30) of 60 instructions each, from SEED (1)

It takes mx_run and mx_cc as ./mx takes them, or the programs that MX_RUN and MX_CC name. A program in which GNU's sums trap, as abs of
-2^31, is passed over.
"""
import random
import signal
import subprocess
import sys
import tempfile

import common

GCC = "mips-linux-gnu-gcc"
FOLDER = f"{common.TOP}/crates/test_cc_cases/data/files"
REGISTERS = [f"$t{i}" for i in range(6)] + ["$s3", "$s4", "$s5", "$v0", "$v1", "$a2", "$a3"]
KEPT = ["$ra"] + [f"$s{i}" for i in range(6)]
LINES, BYTES, FRAME = 60, 48, 64
PUT = "#include <stdio.h>\nvoid put(int c) { putchar(c); }\n"
SETS = ("seq", "sne", "sge", "sgeu", "sgt", "sgtu", "sle", "sleu")
QUOTIENTS = ("div", "divu", "rem", "remu")


def number(draw):
    """Returns a word, often one at an edge."""
    return draw.choice((0, 1, -1, 2, -2, 7, -7, 2**31 - 1, -2**31, draw.randrange(-2**31, 2**31), draw.randrange(-300, 300)))


def quotient(draw, name, result, first, second):
    """Returns a quotient or a rest, never by 0 or by -1."""
    by = number(draw)
    if draw.random() < 0.5 and by not in (0, -1):
        return [f"{name} {result},{first},{by}"]
    return [f"ori $t6,{second},2", "srl $t6,$t6,1", "ori $t6,$t6,1", f"{name} {result},{first},$t6"]


def word_anywhere(draw, result, first):
    """Returns a load or a store of a word at any address; the address may be in the register that is loaded."""
    at = draw.randrange(BYTES - 8)
    place = draw.choice((f"{at}($t7)", f"bytes+{at}"))
    kind = draw.randrange(3)
    if kind == 0:
        return [f"usw {first},{place}"]
    if kind == 1:
        return [f"ulw {result},{place}"]
    return [f"addiu {result},$t7,{at + 3}", f"ulw {result},{draw.randrange(-3, 4)}({result})"]


def branch(draw, result, first, second):
    """Returns a branch by a comparison that nothing else reads, with instructions between them that need registers of their own."""
    others = [it for it in REGISTERS if it not in (result, first, second)]
    between = draw.choice((f"li {second},{number(draw)}", f"ulw {others[0]},bytes+{draw.randrange(BYTES - 8)}", f"sb {others[1]},bytes+3",
                           f"rol {others[2]},{first},{second}", f"mul {others[3]},{first},{number(draw)}"))
    compared = f"{draw.choice(SETS)} {result},{first},{draw.choice((second, number(draw)))}"
    return [compared, between, f"{draw.choice(('bnez', 'beqz'))} {result},1f", f"addiu {second},{second},1", f"1: li {result},{number(draw)}"]


def statement(draw):
    """Returns the lines of one instruction, and of what it needs before."""
    result, first, second = (draw.choice(REGISTERS) for _ in range(3))
    name = draw.choice(("mul", "abs", "rol", "ror", "word", "addu", "mult", "branch", "branch") + SETS + QUOTIENTS)
    if name == "abs":
        return [f"abs {result},{first}"]
    if name == "word":
        return word_anywhere(draw, result, first)
    if name == "branch":
        return branch(draw, result, *draw.sample([it for it in REGISTERS if it != result], 2))
    if name == "addu":
        return [f"addu {result},{first},{second}"]
    if name == "mult":
        return [f"mult {first},{second}", f"mfhi {result}"]
    if name in QUOTIENTS:
        return quotient(draw, name, result, first, second)
    other = draw.randrange(32) if name in ("rol", "ror") else number(draw)
    return [f"{name} {result},{first},{draw.choice((second, other))}"]


def program(draw, shown):
    """Returns a program that prints all registers and the data after its instructions, with this function to print."""
    lines = [f"addiu $sp,$sp,-{FRAME}"] + [f"sw {it},{4 * i}($sp)" for i, it in enumerate(KEPT)]
    lines += [f"li {it},{number(draw)}" for it in REGISTERS] + ["la $t7,bytes"]
    for _ in range(LINES):
        lines += statement(draw)
    lines += [f"addiu $sp,$sp,-{FRAME}"] + [f"sw {it},{4 * i}($sp)" for i, it in enumerate(REGISTERS)]
    for i in range(len(REGISTERS)):
        lines += [f"lw $a0,{4 * i}($sp)", "jal show"]
    for at in range(0, BYTES, 4):
        lines += [f"lw $a0,bytes+{at}", "jal show"]
    lines += [f"addiu $sp,$sp,{FRAME}"] + [f"lw {it},{4 * i}($sp)" for i, it in enumerate(KEPT)]
    lines += [f"addiu $sp,$sp,{FRAME}", "li $v0,0", "jr $ra"]
    data = ",".join(str(draw.randrange(256)) for _ in range(BYTES))
    return "        .text\n        .globl main\nmain:\n" + "".join(f"        {it}\n" for it in lines) + shown + f"bytes:  .byte {data}\n"


def show():
    """Returns the function of the stored case that prints a word, up to its data."""
    with open(f"{FOLDER}/pseudo.s", encoding="utf-8") as file:
        text = file.read()
    return text[text.index("show:"):text.index("bytes:")]


def run(words, folder):
    """Returns what a command ends with, and prints."""
    done = subprocess.run(words, cwd=folder, capture_output=True, text=True, stdin=subprocess.DEVNULL, timeout=60 * common.PATIENCE)
    return done.returncode, done.stdout


def fault_of(text, programs, folder):
    """Returns what differs, or None; and whether the program was compared."""
    with open(f"{folder}/random.s", "w", encoding="utf-8") as file:
        file.write(text)
    options = ["-static", "-mno-abicalls", "-fno-pic", "-Wl,--no-warn-mismatch"]
    subprocess.run([GCC, *options, "random.s", "put.c", "-o", "native"], cwd=folder, check=True, capture_output=True)
    status, wanted = run(["qemu-mips", "native"], folder)
    if status == -signal.SIGFPE:
        return None, False
    translated = run([programs[1], "random.s", f"{FOLDER}/put.s", "-o", "source.s"], folder)
    if translated[0] != 0:
        return f"refused: {translated[1].strip()}", True
    said = run([programs[0], "run", "source.s"], folder)[1]
    return (None if wanted and f"console {len(wanted)}\n{wanted}" in said else f"other words: {said[:200]!r}"), True


def main():
    words = sys.argv[1:]
    if len(words) > 2 or not all(map(str.isdigit, words)):
        common.wrong_arguments(f"expected a count and a seed: {' '.join(words)}")
    count, seed = (int(it) for it in words + ["30", "1"][len(words):])
    common.need_tools(GCC, "qemu-mips")
    programs, draw, shown, compared = (common.program("mx_run"), common.program("mx_cc")), random.Random(seed), show(), 0
    with tempfile.TemporaryDirectory() as folder:
        with open(f"{folder}/put.c", "w", encoding="utf-8") as file:
            file.write(PUT)
        for number_of_it in range(count):
            text = program(draw, shown)
            fault, is_compared = fault_of(text, programs, folder)
            compared += is_compared
            if fault:
                kept = f"{tempfile.gettempdir()}/cc_random.{seed}.{number_of_it}.s"
                with open(kept, "w", encoding="utf-8") as file:
                    file.write(text)
                common.tell(f"program {number_of_it} of seed {seed}, kept as {kept}", False, fault)
    return common.finish("random assembly", "programs", compared)


if __name__ == "__main__":
    sys.exit(main())
