"""Models over a trace: what each turn fetches, loads, stores and decides; caches; branch schemes; and Dinero's format.

    trace = Laboratory().trace(source)
    print(measured(trace))                                          # the machine's own cycles, misses and squashes
    print(measured(trace, data=Cache(sets=64, ways=2, line=4, brings=4, penalty=10), scheme=Counters(256)))

`python3 -m zanderanvil.models TRACE` prints what `./mx trace SOURCE` printed in Dinero's format.
"""
from __future__ import annotations

import json
import sys
from dataclasses import dataclass, field
from typing import Any, Dict, Iterable, Iterator, Mapping, Optional, Sequence, Set, Union

Record = Mapping[str, Any]
# docs/MACHINE.md: where code begins, how many words data memory has, and the words that are no memory.
CODE, WORDS, DEVICES = 4096, 65536, (254, 255)
LOAD, STORE, BRANCHES = 16, 17, 6
MASK, ADDRESSES = 0xFFFFFFFF, 0x7FFFFFFF
# What a squashing branch that is not taken loses, and how many bytes of Dinero's addresses a word has.
SLOTS, BYTES = 2, 4


def _signed(word: int, bits: int = 32) -> int:
    word &= (1 << bits) - 1
    return word - (1 << bits) if word >> (bits - 1) else word


def _holds(condition: int, a: int, b: int) -> bool:
    """Whether beq, bne, blt, bge, blo or bhs goes to its target."""
    equal, less, lower = a == b, _signed(a) < _signed(b), a < b
    return (equal, not equal, less, not less, lower, not lower)[condition]


@dataclass(frozen=True)
class Branch:
    """A conditional branch in MEM: its address, its target, whether its condition holds, and whether it squashes its slots if not."""

    address: int
    target: int
    is_taken: bool
    squashes: bool


@dataclass(frozen=True)
class Turn:
    """A turn: the address that it fetches, and what the word in MEM loads, stores, or has decided in the turn before. The cycle is the one in
    which the turn acts."""

    cycle: int
    fetch: int
    load: Optional[int] = None
    store: Optional[int] = None
    branch: Optional[Branch] = None


def _number(record: Record, name: str) -> int:
    """A member of a record that is a word of 32 bits."""
    value = record[name]
    if type(value) is not int or not 0 <= value <= MASK:
        raise ValueError(f"{name} is not a number of 32 bits")
    return value


class _Machine:
    """What the words of a trace see: the code, and the registers, which the trace says."""

    def __init__(self, first: Record) -> None:
        self.code = {**dict(enumerate(first["handler"])), **dict(enumerate(first["code"], CODE))}
        self.registers, self.old = [0] * 32, (0, 0)

    def turn(self, record: Record) -> Turn:
        """The turn of a record. A word sees the registers that all words before it left, but directly after a load the old value."""
        load = store = branch = None
        before, self.old = self.old, (0, 0)
        if "commit" in record and not record["commit"]["squashed"]:
            address = _number(record["commit"], "address")
            word = self.code.get(address, MASK)
            kind, a, b = word >> 27, word >> 22 & 31, word >> 17 & 31
            first, second = (before[1] if before[0] and it == before[0] else self.registers[it] for it in (a, b))
            if kind == LOAD:
                load, self.old = (first + _signed(word, 17)) & MASK, (b, self.registers[b])
            elif kind == STORE:
                store = _number(record["store"], "to")
            elif kind < BRANCHES:
                branch = Branch(address, (address + _signed(word, 16)) & ADDRESSES, _holds(kind, first, second), bool(word >> 16 & 1))
        if "register" in record:
            self.registers[_number(record["register"], "to")] = _number(record["register"], "value")
        return Turn(_number(record, "cycle"), _number(record, "fetch"), load, store, branch)


def turns(trace: Iterable[Record]) -> Iterator[Turn]:
    """Gives the turns of a trace (docs/JSON.md). The addresses of loads and the outcomes of branches come from the registers (docs/MACHINE.md).
    Of anything else `ValueError` names the first record that is none of a trace, from 1 on."""
    number, is_over, machine = 0, False, None
    for number, record in enumerate(trace, 1):
        try:
            if is_over:
                raise ValueError("it comes after the end of the run")
            if machine is None:
                machine = _Machine(record)
            elif "halted" in record:
                is_over = True
            else:
                yield machine.turn(record)
        except (KeyError, TypeError, AttributeError, IndexError, ValueError) as error:
            raise ValueError(f"record {number} is none of a trace: {error}") from None
    if not is_over:
        raise ValueError(f"record {number + 1} is missing: the trace has no end")


@dataclass
class Cache:
    """A cache: its sets, lines in a set, and words in a line; how many words, aligned, a miss brings; the cycles that it costs; and whether
    the line that was used longest ago is replaced, or the one that was allocated longest ago. Without arguments it is the machine's own for
    instructions. `access` answers whether an address misses."""

    sets: int = 4
    ways: int = 8
    line: int = 16
    brings: int = 2
    penalty: int = 2
    by_use: bool = False
    accesses: int = 0
    misses: int = 0
    _held: Dict[int, Dict[int, Set[int]]] = field(default_factory=dict, repr=False)

    def access(self, address: int) -> bool:
        self.accesses += 1
        number, word = divmod(address, self.line)
        held = self._held.setdefault(number % self.sets, {})
        group = word // self.brings
        if number not in held:
            if len(held) == self.ways:
                del held[next(iter(held))]
            held[number] = set()
        elif self.by_use:
            held[number] = held.pop(number)
        if group in held[number]:
            return False
        held[number].add(group)
        self.misses += 1
        return True


class Squashing:
    """The machine's own scheme: a branch with the squash bit is taken to be taken, and loses its two slots if it is not; one without it
    loses nothing, since its slots are always executed."""

    def __init__(self) -> None:
        self.branches = self.wrong = 0

    def predicts(self, branch: Branch) -> bool:
        """Whether the slots of a squashing branch are those of its target."""
        return True

    def learns(self, branch: Branch) -> None:
        """Takes note of what a branch did."""

    def decide(self, branch: Branch) -> bool:
        """Answers whether the branch loses its slots."""
        self.branches += 1
        is_wrong = branch.squashes and self.predicts(branch) != branch.is_taken
        self.wrong += is_wrong
        self.learns(branch)
        return is_wrong


class Counters(Squashing):
    """A table of counters from 0 to 3 for squashing branches, one for each address modulo its size: 2 and 3 say that a branch is taken."""

    def __init__(self, size: int = 256) -> None:
        super().__init__()
        self.table = [2] * size

    def predicts(self, branch: Branch) -> bool:
        return self.table[branch.address % len(self.table)] >= 2

    def learns(self, branch: Branch) -> None:
        at = branch.address % len(self.table)
        self.table[at] = min(3, self.table[at] + 1) if branch.is_taken else max(0, self.table[at] - 1)


@dataclass(frozen=True)
class Measured:
    """What models make of a trace: the fetches of the run and those that missed; loads, stores, and those that missed; conditional branches,
    those taken, and those that lost their slots; and the cycles up to the end of the last turn."""

    cycles: int
    fetches: int
    misses: int
    loads: int
    stores: int
    data_misses: int
    branches: int
    taken: int
    squashes: int


def measured(trace: Iterable[Record], instructions: Optional[Cache] = None, data: Optional[Cache] = None,
             scheme: Optional[Squashing] = None) -> Measured:
    """Measures a trace with a cache for instructions, one for data, and a branch scheme; the machine's own where they are left out, which has
    no cache for data. The order of the fetches stays that of the trace. A misprediction costs the two slots."""
    instructions, scheme, own = instructions or Cache(), scheme or Squashing(), Squashing()
    fetches = loads = stores = taken = cycles = 0
    for turn in turns(trace):
        fetches += 1
        cycles += 1 + (instructions.penalty if instructions.access(turn.fetch) else 0)
        loads, stores = loads + (turn.load is not None), stores + (turn.store is not None)
        address = turn.store if turn.load is None else turn.load
        if data and address is not None and address < WORDS and address not in DEVICES and data.access(address):
            cycles += data.penalty
        if turn.branch:
            taken += turn.branch.is_taken
            cycles += SLOTS * (scheme.decide(turn.branch) - own.decide(turn.branch))
    return Measured(cycles, fetches, instructions.misses, loads, stores, data.misses if data else 0, scheme.branches, taken, scheme.wrong)


def din(trace: Iterable[Record], scale: int = BYTES) -> Iterator[str]:
    """Gives the lines of Dinero's format: `2` and the address of each fetch, then `0` or `1` and that of the load or store in MEM. Addresses
    are hexadecimal and count bytes, four a word. Code and data are two memories whose addresses overlap."""
    for turn in turns(trace):
        for label, address in ((2, turn.fetch), (0, turn.load), (1, turn.store)):
            if address is not None:
                yield f"{label} {address * scale:x}"


def read_trace(path: str) -> Iterator[Record]:
    """Gives the records of a file that has what `./mx trace SOURCE` printed; `ValueError` names the first line that is not JSON."""
    with open(path, encoding="utf-8", errors="replace") as file:
        for number, line in enumerate(file, 1):
            try:
                yield json.loads(line)
            except (ValueError, RecursionError):
                raise ValueError(f"record {number} is not JSON") from None


def main(words: Sequence[str]) -> Union[int, str]:
    if len(words) != 1 or words[0].startswith("-"):
        return "usage: python3 -m zanderanvil.models TRACE"
    try:
        for line in din(read_trace(words[0])):
            print(line)
    except (OSError, ValueError) as error:
        return f"{words[0]}: {getattr(error, 'strerror', None) or error}"
    return 0


if __name__ == "__main__":
    sys.exit(main(sys.argv[1:]))
