#!/usr/bin/env python3
"""Replays a trace, and reports the first line in which it is not what docs/MACHINE.md says.

usage: checks/replay.py [TRACE]

TRACE, or standard input, is what `mx_lab trace SOURCE` prints: what the run is given, a line for each turn, and how it ends.
The machine here is written from docs/MACHINE.md alone: the words, the cache, the turns, the modes and the chain.
"""
import json
import sys

WORD = 1 << 32
CODE, DATA, END = 4096, 256, 65536
CONSOLE, INPUT = 255, 254
SQUASHED = 1 << 31
CONDITIONS = (
    lambda a, b: a == b,
    lambda a, b: a != b,
    lambda a, b: signed(a) < signed(b),
    lambda a, b: signed(a) >= signed(b),
    lambda a, b: a < b,
    lambda a, b: a >= b,
)


class Differs(Exception):
    pass


def signed(word, bits=32):
    """Returns what the low bits of a word are in two's complement."""
    word &= (1 << bits) - 1
    return word - (1 << bits) if word >> (bits - 1) else word


def decode(word):
    """Returns the kind of the instruction that a word spells, and its fields; None where no row of the table fits it."""
    row, a, b = word >> 27, word >> 22 & 31, word >> 17 & 31
    immediate, dest, function = signed(word, 17), word >> 12 & 31, word & 4095
    if row < 6:
        return "branch", {"a": a, "b": b, "cond": row, "squash": word >> 16 & 1, "by": signed(word, 16)}
    if row == 8 and function <= 11 and not (function == 7 and b) and not (function == 9 and a):
        return "compute", {"a": a, "b": b, "dest": dest, "function": function}
    if row == 9 and (function < 32 and b == 0 or 256 <= function < 288):
        return "shift", {"a": a, "b": b, "dest": dest, "function": function}
    if row == 10 and a == b == 0 and function < 4:
        return "movfrs", {"dest": dest, "special": function}
    if row == 11 and b == dest == 0 and function < 4:
        return "movtos", {"a": a, "special": function}
    if row in (16, 17):
        return ("ld", "st")[row - 16], {"a": a, "b": b, "by": immediate}
    if row in (24, 25):
        return ("addi", "jspci")[row - 24], {"a": a, "dest": b, "by": immediate}
    if row in (26, 27, 28) and word & 0x7FFFFFF == 0:
        return ("jpc", "jpcrs", "halt")[row - 26], {}
    return None


class Cache:
    """The lines of each set in the order of their allocation, with their valid words."""

    def __init__(self):
        self.sets = [[] for _ in range(4)]

    def misses(self, address):
        line, word = divmod(address, 16)
        held = self.sets[line % 4]
        valid = next((words for number, words in held if number == line), None)
        if valid is None:
            valid = set()
            held.append((line, valid))
            del held[:-8]
        if word in valid:
            return False
        valid.update((word, word ^ 1))
        return True


class Machine:
    def __init__(self, given):
        self.code = dict(enumerate(given["handler"]))
        self.code.update(enumerate(given["code"], CODE))
        self.memory = [0] * END
        self.memory[DATA:DATA + len(given["user_data"])] = given["user_data"]
        self.input, self.taken = given.get("input"), 0
        self.requests = set(given["requests"])
        self.registers, self.old, self.md = [0] * 32, None, 0
        self.cache, self.chain = Cache(), [0, 0, 0]
        self.user, self.on, self.other = True, True, (False, False)
        self.latch, self.cycle, self.next = False, 0, (CODE, False)
        self.stages = [None] * 5        # IF, RF, ALU, MEM, WB: an address and whether it is squashed
        self.counts = dict.fromkeys(("cycles", "fetches", "misses", "squashes", "interrupts"), 0)

    def read(self, register):
        """A register as the words behind a load see it: the load's own is the old one for a turn."""
        if self.old and self.old[0] == register:
            return self.old[1]
        return self.registers[register]

    def word(self, stage):
        """The instruction of a stage that is live, and its address."""
        if stage is None or stage[1]:
            return None, 0
        return decode(self.code.get(stage[0], 0xFFFFFFFF)), stage[0]

    def pass_cycle(self):
        """A cycle begins."""
        self.latch |= self.cycle in self.requests
        self.cycle += 1
        self.counts["cycles"] += 1

    def compute(self, fields, kind):
        a, b, md, function = self.read(fields["a"]), self.read(fields["b"]), self.md, fields["function"]
        if kind == "shift":
            if function < 32:
                return signed(a) >> function, md
            n = function - 256
            return (b << (32 - n) | a >> n) if n else a, md
        high, doubled = md >> 31, md << 1
        twice = 2 * a + high
        turns = 8 * (b & 3)
        return (
            (a + b, md), (a - b, md), (a - b - 1, md), (a & b, md), (a | b, md), (a ^ b, md), (a & ~b, md), (~a, md),
            (a << turns | a >> 32 - turns, md), (-b if high else 0, doubled), (2 * a + (b if high else 0), doubled),
            (twice - b, doubled + 1) if twice >= b else (twice, doubled),
        )[function]

    def load(self, address):
        if address == INPUT and self.user:
            if self.input is None:
                return 0
            if self.taken == len(self.input):
                return WORD - 1
            self.taken += 1
            return self.input[self.taken - 1]
        if address < (DATA if self.user else CONSOLE) or address == CONSOLE or address >= END:
            return self.memory[address] if not self.user and address < CONSOLE else 0
        return self.memory[address]

    def store(self, address, value, done):
        done["store"] = {"to": address, "value": value}
        if address == CONSOLE:
            done["byte"] = value & 255
        elif address < END and (address >= DATA or not self.user):
            self.memory[address] = value

    def write(self, register, value, done):
        if register:
            self.registers[register] = value % WORD
            done["register"] = {"to": register, "value": value % WORD}

    def commit(self, done):
        """The word in MEM does what it does; answers whether it halts."""
        inst, address = self.word(self.stages[3])
        if inst is None:
            self.old = None
            return False
        kind, fields = inst
        loaded = None
        if kind in ("compute", "shift"):
            value, md = self.compute(fields, kind)
            if kind == "compute" and fields["function"] >= 9:
                self.md = done["md"] = md % WORD
            self.write(fields["dest"], value, done)
        elif kind == "addi":
            self.write(fields["dest"], self.read(fields["a"]) + fields["by"], done)
        elif kind == "jspci":
            self.write(fields["dest"], address + 3, done)
        elif kind == "ld":
            before = self.registers[fields["b"]]
            self.write(fields["b"], self.load((self.read(fields["a"]) + fields["by"]) % WORD), done)
            loaded = (fields["b"], before) if fields["b"] else None
        elif kind == "st":
            self.store((self.read(fields["a"]) + fields["by"]) % WORD, self.read(fields["b"]), done)
        elif kind == "movfrs" and (fields["special"] == 0 or not self.user):
            self.write(fields["dest"], [self.md, *self.chain][fields["special"]], done)
        elif kind == "movtos" and fields["special"] == 0:
            self.md = done["md"] = self.read(fields["a"])
        elif kind == "movtos" and not self.user:
            self.chain[fields["special"] - 1] = self.read(fields["a"])
        self.old = loaded
        return kind == "halt"

    def interrupt(self):
        self.chain = [address | SQUASHED * mark for address, mark in (self.stages[2], self.stages[1], self.stages[0])]
        self.stages[0] = self.stages[1] = self.stages[2] = None
        self.other, self.user, self.on, self.latch = (self.user, self.on), False, False, False
        self.counts["interrupts"] += 1
        self.next = (0, False)

    def decide(self):
        """The word in ALU says where the next fetch goes."""
        inst, address = self.word(self.stages[2])
        behind = (self.stages[0][0] + 1) % SQUASHED
        self.next = (behind, False)
        if inst is None:
            return
        kind, fields = inst
        if kind == "branch":
            if CONDITIONS[fields["cond"]](self.read(fields["a"]), self.read(fields["b"])):
                self.next = ((address + fields["by"]) % SQUASHED, False)
            elif fields["squash"]:
                self.stages[0], self.stages[1] = ((stage[0], True) if stage else None for stage in self.stages[:2])
                self.counts["squashes"] += 1
        elif kind == "jspci":
            self.next = ((self.read(fields["a"]) + fields["by"]) % SQUASHED, False)
        elif kind in ("jpc", "jpcrs") and not self.user:
            self.next = (self.chain[0] % SQUASHED, self.chain[0] >= SQUASHED)
            self.chain = [self.chain[1], self.chain[2], self.chain[2]]
            if kind == "jpcrs":
                self.user, self.on = self.other

    def turn(self):
        """A turn; answers the line of it, and whether the machine has halted."""
        missed = self.cache.misses(self.next[0])
        for _ in range(2 if missed else 0):
            self.pass_cycle()
        done = {"cycle": self.cycle, "stalls": 2 if missed else 0, "fetch": self.next[0], "interrupt": False}
        self.pass_cycle()
        self.counts["fetches"] += 1
        self.counts["misses"] += missed
        self.stages = [self.next, *self.stages[:4]]
        if self.stages[3]:
            done["commit"] = {"address": self.stages[3][0], "squashed": self.stages[3][1]}
        if self.commit(done):
            return done, True
        if self.latch and self.on and self.stages[2]:
            done["interrupt"] = True
            self.interrupt()
        else:
            self.decide()
        return done, False


def replay(lines):
    """Returns how many turns a trace has, each as the machine does it."""
    first = next(lines, None)
    if first is None:
        raise Differs("the trace is empty")
    machine = Machine(json.loads(first))
    halted, number = False, 1
    for number, line in enumerate(lines, 2):
        told = json.loads(line)
        if "halted" in told:
            # a budget may cut off a turn in its stalled cycles, which no line tells
            stalled = told["cycles"] - machine.counts["cycles"]
            if told["halted"] != halted or not 0 <= stalled <= (0 if halted else 2):
                raise Differs(f"line {number}: the run ends otherwise")
            wanted = {**machine.counts, "cycles": told["cycles"], "halted": halted, "md": machine.md}
            if told != wanted:
                raise Differs(f"line {number}: {wanted} is wanted, not {told}")
            return machine.counts["fetches"], machine.counts["interrupts"]
        if halted:
            raise Differs(f"line {number}: a turn behind the halt")
        wanted, halted = machine.turn()
        if told != wanted:
            raise Differs(f"line {number}: {json.dumps(wanted)} is wanted")
    raise Differs(f"line {number}: the trace has no end")


def main():
    try:
        with (open(sys.argv[1], encoding="utf-8") if sys.argv[1:] else sys.stdin) as trace:
            turns, interrupts = replay(iter(trace))
    except (Differs, KeyError, OSError, ValueError) as fault:
        sys.exit(f"{fault}")
    if turns == 0:
        sys.exit("replay: nothing was compared")
    print(f"replay: compared {turns} turns with {interrupts} interrupts")


if __name__ == "__main__":
    main()
