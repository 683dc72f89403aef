#!/usr/bin/env python3
"""Compares what `soak SEED COUNT` prints with the counts of an interpreter and a machine written from docs/ and not from the code.

usage: checks/soak.py [SEED COUNT]

It needs mx_run, as ./mx leaves it, or the program that MX_RUN names. Without arguments it takes SEEDS seeds, a few in a sample.
The blocks, plans and copies are those of the second reading of the rules in plans.py. The rest is written from docs/COMMANDS.md
(the generator), docs/SOURCE.md (the meaning) and docs/MACHINE.md (turns, interrupts, the cache and the handler).
"""
import pathlib
import re
import subprocess
import sys

import common

SEEDS, SAMPLE, LONGEST = 60, 10, 400
RULES = {}
exec(  # the part of plans.py that has the rules, without the cases that it draws
    (pathlib.Path(__file__).parent / "plans.py").read_text(encoding="utf-8").partition("# --- making sources")[0], RULES
)
Item = RULES["I"]
WORD = 2**32
CODE = 4096


def signed(word):
    return word - WORD if word >= WORD // 2 else word


def make(name, *given, target=None):
    """An instruction: its name and operands, with what it reads and writes."""
    if name in ("add", "sub", "xor"):
        item = Item(name, given[:2], given[2:])
    elif name == "addi":
        item = Item(name, given[:1], given[2:])
    elif name == "ld":
        item = Item(name, given[1:2], given[2:], (given[1], given[0]), load=True)
    elif name == "st":
        item = Item(name, given[1:], [], (given[1], given[0]), store=True)
    elif name in ("bne", "blt"):
        item = Item(name, given, [], kind="branch", target=target)
    else:
        item = Item(name, kind="halt" if name == "halt" else "plain")
    item.given = given
    return item


def generated(seed, count):
    """The statements, and the indices that have labels."""
    items = [make("addi", 0, n * n, n) for n in range(1, 9)]
    labelled = set()
    x = seed
    for _ in range(count):
        x = (x * 1664525 + 1013904223) % WORD
        a, b, c = (1 + (x >> shift) % 8 for shift in (8, 11, 14))
        d = 256 + (x >> 17) % 64
        kind = x >> 29
        if kind < 3:
            items.append(make(("add", "sub", "xor")[kind], a, b, c))
        elif kind == 3:
            items.append(make("st", d, 0, a))
        elif kind == 4:
            items.append(make("ld", d, 0, c))
        elif kind == 5:
            items.append(make("addi", 0, 3, 9))
            labelled.add(len(items))
            items.append(make("add", a, b, c))
            items.append(make("addi", 9, -1, 9))
            items.append(make("bne", 9, 0, target=len(items) - 2))
        elif kind == 6:
            items.append(make("st", 255, 0, a))
        else:
            labelled.add(len(items) + 2)
            items.append(make("blt", a, b, target=len(items) + 2))
            items.append(make("add", c, b, a))
    return items + [make("halt")], labelled


def result(name, given, registers):
    """What an instruction puts into a register: the register and its value."""
    a, b = registers[given[0]], registers[given[1]] if name != "addi" else given[1]
    value = {"add": a + b, "addi": a + b, "sub": a - b, "xor": a ^ (b % WORD)}[name]
    return given[2], value % WORD


def goes(name, given, registers):
    a, b = registers[given[0]], registers[given[1]]
    return a != b if name == "bne" else signed(a) < signed(b)


def meaning(items):
    """How many statements are executed, and the console."""
    registers, data, console = [0] * 32, {}, []
    at = steps = 0
    while True:
        item = items[at]
        steps, at = steps + 1, at + 1
        name, given = item.text, item.given
        if name == "halt":
            return steps, console
        if name in ("bne", "blt"):
            at = item.target if goes(name, given, registers) else at
        elif name == "ld":
            registers[given[2]] = data.get(given[0], 0)
        elif name == "st":
            if given[0] == 255:
                console.append(registers[given[2]] % 256)
            else:
                data[given[0]] = registers[given[2]]
        else:
            register, value = result(name, given, registers)
            registers[register] = value
        registers[0] = 0


def linked(items, labelled):
    """The words from 4096 on, each an instruction, a branch with its target's address and whether it squashes, or None."""
    blocks = RULES["blocks"](items, labelled, False)
    plans = [RULES["greedy"](block) for block in blocks]
    starts, at = [], CODE
    for plan in plans:
        starts.append(at)
        at += len(plan[0])
    begins = {block.first: start for block, start in zip(blocks, starts)}
    words = []
    for n, block in enumerate(blocks):
        copied, count, squashes = RULES["copies"](blocks, plans, starts, n)
        place = plans[n][1]
        for p, k in enumerate(plans[n][0]):
            word = None if k is None else block.insts[k]
            if p - place in (1, 2) and block.end == "branch" and copied[p - place - 1] is not None:
                goal = next(goal for goal in blocks if goal.first == block.insts[-1].target)
                word = goal.insts[copied[p - place - 1]]
            if word is not None and word.kind == "branch":
                words.append((word.text, word.given, begins[word.target] + count, squashes))
            else:
                words.append(None if word is None else (word.text, word.given))
    return words


HANDLER = [
    ("st", (1, 0, 1)), ("st", (2, 0, 2)), ("movfrs", (1, 1)), ("movfrs", (2, 2)), ("st", (3, 0, 1)), ("st", (4, 0, 2)),
    ("movfrs", (3, 1)), ("st", (5, 0, 1)), ("ld", (0, 0, 2)), ("ld", (3, 0, 1)), ("addi", (2, 1, 2)), ("st", (0, 0, 2)),
    ("movtos", (1, 1)), ("ld", (4, 0, 2)), ("ld", (5, 0, 1)), ("movtos", (2, 2)), ("movtos", (1, 3)), ("ld", (2, 0, 2)),
    ("ld", (1, 0, 1)), None, ("jpc", ()), ("jpc", ()), ("jpcrs", ()),
]  # fmt: skip


class Cache:
    """4 sets of 8 lines of 16 words; the line allocated first is replaced; a miss brings a word and its pair."""

    def __init__(self):
        self.sets = [[], [], [], []]

    def holds(self, address):
        line = address // 16
        return any(held == line and address % 16 in valid for held, valid in self.sets[line % 4])

    def fetch(self, address):
        """Whether the fetch hits."""
        if self.holds(address):
            return True
        line = address // 16
        ways = self.sets[line % 4]
        valid = next((valid for held, valid in ways if held == line), None)
        if valid is None:
            valid = set()
            ways.append((line, valid))
            del ways[:-8]
        valid.update((address % 16, address % 16 ^ 1))
        return False


class Machine:
    """The turns of the machine. A fetch is an address and whether it is squashed."""

    def __init__(self, words):
        self.words = words
        self.cache = Cache()
        self.next, self.stall = (CODE, False), 2
        self.fetch = self.rf = self.alu = self.mem = None
        self.registers, self.data, self.console = [0] * 32, {}, []
        self.loaded = None
        self.chain, self.latch = [0, 0, 0], False
        self.user, self.on, self.other = True, True, (False, False)
        self.halted = False
        self.cycles = self.fetches = self.misses = self.squashes = self.interrupts = 0

    def word(self, fetch):
        if fetch is None or fetch[1]:
            return None
        address = fetch[0]
        if address < CODE:
            return HANDLER[address] if address < len(HANDLER) else None
        return self.words[address - CODE] if address - CODE < len(self.words) else None

    def seen(self):
        """The registers, of which a load that has just committed is not seen yet."""
        registers = list(self.registers)
        if self.loaded:
            registers[self.loaded[0]] = self.loaded[1]
        return registers

    def commit(self):
        word, registers = self.word(self.mem), self.seen()
        self.loaded = None
        if word is None:
            return
        name, given = word[:2]
        if name == "halt":
            self.halted = True
        elif name == "ld":
            reached = not self.user or given[0] >= 256
            self.loaded = (given[2], self.registers[given[2]])
            self.registers[given[2]] = self.data.get(given[0], 0) if reached else 0
        elif name == "st":
            if given[0] == 255:
                self.console.append(registers[given[2]] % 256)
            elif not self.user or given[0] >= 256:
                self.data[given[0]] = registers[given[2]]
        elif name == "movfrs":
            self.registers[given[1]] = self.chain[given[0] - 1]
        elif name == "movtos":
            self.chain[given[1] - 1] = registers[given[0]]
        elif name in ("add", "addi", "sub", "xor"):
            register, value = result(name, given, registers)
            self.registers[register] = value
        self.registers[0] = 0

    def interrupt(self):
        def entry(fetch):
            return (0 if fetch is None else fetch[0]) + (2**31 if fetch is not None and fetch[1] else 0)

        self.chain = [entry(self.alu), entry(self.rf), entry(self.fetch)]
        self.other, self.user, self.on = (self.user, self.on), False, False
        self.alu = self.rf = self.fetch = None
        self.next, self.latch = (0, False), False
        self.interrupts += 1

    def decide(self):
        word = self.word(self.alu)
        self.next = ((self.fetch[0] + 1) % 2**31, False)
        if word is None:
            return
        name, given = word[:2]
        if name in ("bne", "blt"):
            if goes(name, given, self.seen()):
                self.next = (word[2], False)
            elif word[3]:
                self.rf, self.fetch = ((it[0], True) if it else None for it in (self.rf, self.fetch))
                self.squashes += 1
        elif name in ("jpc", "jpcrs") and not self.user:
            self.next = (self.chain[0] % 2**31, self.chain[0] >= 2**31)
            self.chain = [self.chain[1], self.chain[2], self.chain[2]]
            if name == "jpcrs":
                self.user, self.on = self.other

    def cycle(self, request):
        if self.halted:
            return
        self.cycles += 1
        self.latch = self.latch or request
        if self.stall:
            self.stall -= 1
            return
        self.fetches += 1
        self.misses += not self.cache.fetch(self.next[0])
        self.mem, self.alu, self.rf, self.fetch = self.alu, self.rf, self.fetch, self.next
        self.commit()
        if self.halted:
            return
        if self.on and self.latch and self.alu is not None:
            self.interrupt()
        else:
            self.decide()
        self.stall = 0 if self.cache.holds(self.next[0]) else 2


def counted(seed, count):
    """Returns the lines that `soak` has to print."""
    items, labelled = generated(seed, count)
    steps, console = meaning(items)
    words = linked(items, labelled)
    machine = Machine(words)
    for cycle in range(9 * steps + 96016):
        machine.cycle(cycle % 97 == 0 and 0 < cycle <= 97000)
    if not machine.halted or machine.console != console:
        sys.exit(f"FAILED: the machine of soak.py does not run gen {seed} {count} as it means")
    names = ("cycles", "fetches", "misses", "squashes", "interrupts")
    return [f"steps {steps}", *(f"{name} {getattr(machine, name)}" for name in names), f"words {len(words)}", f"noops {words.count(None)}",
            f"bytes {len(console)}"]


def main(words):
    if words and (len(words) != 2 or not all(re.fullmatch("[0-9]{1,9}", it) for it in words)):
        common.wrong_arguments(f"expected a seed and a count, found {' '.join(words)}")
    program = common.program("mx_run")
    seeds = range(1, 1 + (SAMPLE if common.IS_SAMPLE else SEEDS))
    for seed, count in [tuple(map(int, words))] if words else [(it, 1 + it * 37 % LONGEST) for it in seeds]:
        ran = subprocess.run([program, "soak", str(seed), str(count)], stdin=subprocess.DEVNULL, capture_output=True, text=True, check=False)
        wanted = counted(seed, count)
        common.tell(f"soak {seed} {count}", (ran.returncode, ran.stdout.splitlines()) == (0, wanted), (ran.returncode, ran.stdout, wanted))
    return common.finish("soak", "runs")


if __name__ == "__main__":
    sys.exit(main(sys.argv[1:]))
