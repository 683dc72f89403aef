#!/usr/bin/env python3
"""Changes the assembly that gcc wrote of the stored programs, at random, and translates each text: the translator has to end by itself
in a time that its length bounds, and to give a source, or one line with the number of a line of the text.

usage: checks/cc_mutated.py [COUNT [SEED]]      COUNT texts (400), from SEED (1)
       checks/cc_mutated.py --file FILE         one text, which is printed with what is said of it

It takes mx_cc as ./mx takes it, or the program that MX_CC names. What it changes: bytes, words, lines and pieces of lines are left
out, said twice, exchanged, taken from another place, or made long.
"""
import os
import random
import re
import subprocess
import sys
import tempfile
import time

import common

TOP = os.path.dirname(os.path.dirname(os.path.abspath(__file__)))
FOLDER = f"{TOP}/crates/test_cc_cases/data/files"
SECONDS = 20 * common.PATIENCE      # for a text of 1,048,576 bytes; a shorter one gets its part, but never less than the tenth
WHOLE = 1_048_576
MOST_TEXT = 4_000_000
REFUSED = re.compile(r"text\.s:([0-9]+): [^\n]*: [^\n]+")
OTHERS = re.compile(r"no file defines main|[0-9]+ statements, and a source has at most .*|[0-9]+ data words, and a source has at most .*")
PIECES = ("$", "$L1", "$31", "%lo(", "1b", "1f", "1:", "'", "'\\", '"', "\\", ";", "#", ",", "=", ".", "x=5", "-", "0x", "99999999999",
          "(", ")", "\0", "\xff", ".set push", ".set pop", ".data", ".text", ".word .", ".fill 9,9,9", ".space 4000000", ".align 31",
          ".section .init_array", "_end", "main", "mul $2,$3,$4", "ulw $2,3($2)", "rol $2,$3,$4", "seq $2,$3,-1", "bal main")


def cut(draw, items):
    """Returns a place, and one behind it, in a list."""
    first = draw.randrange(len(items) + 1)
    return first, min(len(items), first + draw.choice((1, 1, 1, 2, 5, 40)))


def changed_line(draw, line):
    """Returns a line with a change."""
    words = re.findall(r"[\w$.]+|\s+|.", line) or [""]
    at = draw.randrange(len(words))
    kind = draw.randrange(7)
    if kind == 0:
        del words[at]
    elif kind == 1:
        words[at] = draw.choice(PIECES)
    elif kind == 2:
        words.insert(at, draw.choice(PIECES))
    elif kind == 3:
        other = draw.randrange(len(words))
        words[at], words[other] = words[other], words[at]
    elif kind == 4:
        words[at] = str(draw.choice((0, 1, -1, 2**15, 2**16, 2**31, 2**32, 2**64, draw.randrange(2**33))))
    elif kind == 5:
        words[at] = words[at] * draw.choice((2, 30, 3000))
    else:
        letters = list(line) or [""]
        letters[draw.randrange(len(letters))] = chr(draw.randrange(256))
        return "".join(letters)
    return "".join(words)


def changed(draw, lines):
    """Makes a change in a list of lines."""
    kind = draw.randrange(8)
    first, end = cut(draw, lines)
    if kind == 0:
        del lines[first:end]
    elif kind == 1:
        lines[first:first] = lines[first:end] * draw.choice((1, 2, 200))
    elif kind == 2:
        other, _ = cut(draw, lines)
        lines[other:other] = lines[first:end]
    elif kind == 3:
        lines.insert(first, draw.choice(PIECES))
    elif lines:
        at = draw.randrange(len(lines))
        lines[at] = changed_line(draw, lines[at])


def drawn(draw, texts):
    """Returns a text with a few changes."""
    lines = list(draw.choice(texts))
    for _ in range(draw.choice((1, 1, 1, 2, 3, 10, 50))):
        changed(draw, lines)
    text = "\n".join(lines) + draw.choice(("\n", ""))
    return text.encode("latin-1")[:MOST_TEXT]


def fault_of(program, text, folder):
    """Returns what is wrong with how a text is translated, or None, and whether it was."""
    with open(f"{folder}/text.s", "wb") as file:
        file.write(text)
    seconds = SECONDS * max(0.1, len(text) / WHOLE)
    started = time.monotonic()
    try:
        done = subprocess.run([program, "text.s"], cwd=folder, capture_output=True, timeout=seconds, stdin=subprocess.DEVNULL)
    except subprocess.TimeoutExpired:
        return f"{len(text)} bytes took more than {seconds:.0f} seconds", False
    took = time.monotonic() - started
    said = done.stdout.decode("latin-1")
    if done.stderr:
        return f"said {done.stderr[:200]!r} on standard error", False
    if done.returncode == 0:
        return (None if said.startswith("; ") else "no source"), True
    if done.returncode != 1 or took > seconds:
        return f"status {done.returncode} after {took:.1f} seconds, {said[:200]!r}", False
    line = REFUSED.fullmatch(said[:-1]) if said.endswith("\n") and said.count("\n") == 1 else None
    if line is None:
        return (None if OTHERS.fullmatch(said.strip("\n")) else f"said {said[:200]!r}"), False
    number = int(line[1])
    return (None if 1 <= number <= text.count(b"\n") + 1 else f"line {number} of {text.count(10)}"), False


def texts_of(folder):
    """Returns the lines of each stored text of assembly."""
    found = []
    for name in sorted(os.listdir(folder)):
        if name.endswith(".s") and name != "many.s":
            with open(f"{folder}/{name}", encoding="latin-1") as file:
                found.append(file.read().split("\n"))
    return found


def main():
    words = sys.argv[1:]
    program = common.program("mx_cc")
    with tempfile.TemporaryDirectory() as folder:
        if words[:1] == ["--file"] and len(words) == 2:
            with open(words[1], "rb") as file:
                fault, is_source = fault_of(program, file.read(), folder)
            print(fault or ("a source" if is_source else "refused"))
            return 1 if fault else 0
        if len(words) > 2 or not all(map(str.isdigit, words)):
            common.wrong_arguments(f"expected a count and a seed: {' '.join(words)}")
        count, seed = (int(it) for it in words + ["400", "1"][len(words):])
        draw, texts, sources = random.Random(seed), texts_of(FOLDER), 0
        for number in range(count):
            text = drawn(draw, texts)
            fault, is_source = fault_of(program, text, folder)
            sources += is_source
            if fault:
                kept = f"{tempfile.gettempdir()}/cc_mutated.{seed}.{number}.s"
                with open(kept, "wb") as file:
                    file.write(text)
                common.tell(f"text {number} of seed {seed}, kept as {kept}", False, fault)
    print(f"{sources} of them are sources")
    return common.finish("mutated assembly", "texts", count)


if __name__ == "__main__":
    sys.exit(main())
