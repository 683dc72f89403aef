#!/usr/bin/env python3
"""Checks that an image is a source, linked by the plans and copies of a certificate: prints `accepted`, or what is wrong first.

usage: check_certificate.py SOURCE IMAGE CERTIFICATE

It is written from the documents alone (SOURCE, MACHINE, REORGANIZER, FORMATS). It ends with 0 if it accepts, with 1 if not, with 2 without a file.
"""
import hashlib
import re
import sys
from collections import namedtuple

CODE, DATA, END, MOST_INSTS, MD, NOOP = 4096, 256, 65536, 20_000, 32, 1 << 30
MOST_BYTES, MOST_CERTIFICATE, LINE, ITEMS, RUN, REACH = 4_194_304, 1_048_576, 255, 131, 64, (-32768, 32768)
THREE = ("add", "sub", "subnc", "and", "or", "xor", "bic", "not", "rotlb", "mstart", "mstep", "dstep")
BRANCHES = ("beq", "bne", "blt", "bge", "blo", "bhs")
SWAPPED = {"bgt": "blt", "ble": "bge", "bhi": "blo", "blos": "bhs"}
SHAPES = {**dict.fromkeys(THREE, "R,R,R"), "not": "R,R", "mstart": "R,R", "mov": "R,R", "nop": "", "asr": "R,#N,R", "sh": "R,R,#N,R",
          "addi": "R,#I,R", "movfrs": "S,R", "movtos": "R,S", "ld": "O[R],R", "st": "O[R],R", "la": "A,R",
          **dict.fromkeys((*BRANCHES, *SWAPPED), "R,R,L"), "b": "L", "call": "L,R", "callr": "R,R", "jr": "R", "halt": ""}
TOKEN = re.compile(rb"[ \t]*([A-Za-z_.][\w.]*|-?(?:0[xX][0-9a-fA-F]+|[0-9]+)(?![\w.])|[][,#:])")


# An instruction: its word without what a label decides, its kind (`plain`, `la`, `branch`, `call`, `jump`, `halt`), the names that it reads and
# writes, the statement of its label, its access to memory (base and offset), and whether it loads or stores.
Inst = namedtuple("Inst", "word kind reads writes label access is_load is_store", defaults=(None, None, False, False))
# A line of a certificate: an address, how many words are copied, whether the branch squashes, the items of the plan, and its place.
Link = namedtuple("Link", "address copies squashes items place")


class Wrong(Exception):
    """What is wrong first."""


def need(holds, what=""):
    if not holds:
        raise Wrong(what)


def value_of(number):
    return int(number, 16 if "x" in number.lower() else 10)


def feeds(one, other):
    """Whether the second instruction reads what the first loads."""
    return one.is_load and bool(one.writes & other.reads)


def instruction(name, found):
    """The instruction of a statement by its operands (docs/MACHINE.md, Instruction words)."""
    def inst(kind, row, a=0, b=0, low=0, reads=(), writes=(), **more):
        return Inst(row << 27 | a << 22 | b << 17 | low & 0x1FFFF, kind, frozenset(reads) - {0}, frozenset(writes) - {0}, **more)
    if name in SWAPPED:
        name, found = SWAPPED[name], [found[1], found[0], found[2]]
    name, found = {"b": ("beq", [0, 0, *found]), "mov": ("add", [*found[:1], 0, *found[1:]]), "nop": ("add", [0, 0, 0])}.get(name, (name, found))
    if name in BRANCHES:
        return inst("branch", BRANCHES.index(name), *found[:2], 0, found[:2], label=found[2][1])
    if name in THREE:
        a, b, d = [found[0], 0, found[1]] if name == "not" else [0, *found] if name == "mstart" else found
        more = [MD] * (name in ("mstart", "mstep", "dstep"))
        return inst("plain", 8, a, b, d << 12 | THREE.index(name), [a, b, *more], [d, *more])
    first, last = found[:1], found[-1:]
    if name in ("asr", "sh"):
        sources, low = ([*first, 0], found[1]) if name == "asr" else (found[:2], 256 + found[2])
        return inst("plain", 9, *sources, last[0] << 12 | low, sources, last)
    if name in ("movfrs", "movtos"):
        return inst("plain", 10, 0, 0, last[0] << 12, [MD], last) if name == "movfrs" else inst("plain", 11, *first, 0, 0, first, [MD])
    if name in ("ld", "st"):
        offset, base = found[0][1] if isinstance(found[0], tuple) else found[0], found[1]
        is_store, reads, writes = (False, [base], last) if name == "ld" else (True, found[1:], [])
        return inst("plain", 16 + is_store, base, *last, offset, reads, writes, access=(base, offset), is_load=not is_store, is_store=is_store)
    if name in ("la", "call") and found[0][0] == "code":
        return inst(name, 24 + (name == "call"), 0, *last, 0, (), last, label=found[0][1])
    if name in ("addi", "la"):
        a, value = found[:2] if name == "addi" else (0, found[0][1])
        return inst("plain", 24, a, *last, value, [a], last)
    written = last if name == "callr" else [0]
    return inst("halt", 28) if name == "halt" else inst("jump", 25, *first, *written, 0, first, written)


class Source:
    """A source (docs/SOURCE.md): its instructions, its data words, its labels with section, index or address, and line; whether it has input."""
    def __init__(self, text):
        need(len(text) <= MOST_BYTES, "refused: the source is too long")
        lines = [it[:-1] if it.endswith(b"\r") else it for it in text.split(b"\n")]
        self.insts, self.data, self.has_input, self.labels = [], [], False, {}
        parts, section, at = [], "code", {"code": 0, "data": DATA}
        for number, (labels, tokens) in enumerate(map(self.split, lines)):      # (where a label is counts only if no line is faulty)
            self.labels.update({name: (section, at[section], number) for name in labels if name not in self.labels})
            word, size = tokens[0].lower() if tokens else "", len(tokens)
            parts.append((section, word, labels, tokens[1:]))
            section = word[1:] if size == 1 and word in (".code", ".data") else section
            at["code"] += word[:1] not in ("", ".")
            at["data"] += size // 2 if word == ".word" else value_of(tokens[1]) if (word, size) == (".space", 2) and tokens[1][0].isdigit() else 0
        for number, (line, (section, word, labels, tokens)) in enumerate(zip(lines, parts)):
            try:
                need(len(line) <= LINE and word != "?" and len(set(labels)) == len(labels))
                need(all(name[0] != "." and self.labels[name][1] < END and self.labels[name][2] == number for name in labels))
                self.statement(section, word, tokens)
            except Wrong:
                raise Wrong(f"refused: line {number + 1}") from None

    @staticmethod
    def split(line):
        """The labels at the front of a line, and the tokens after them; the token `?` alone if it does not split into tokens."""
        text, labels = line.split(b";")[0], []
        tokens = [it.decode() for it in TOKEN.findall(text)] if not TOKEN.sub(b"", text).strip(b" \t") else ["?"]
        while len(tokens) > 1 and tokens[1] == ":" and (tokens[0][0].isalpha() or tokens[0][0] in "_."):
            labels.append(tokens[0])
            del tokens[:2]
        return labels, tokens

    def statement(self, section, word, tokens):
        """Takes a statement."""
        if word in ("", ".code", ".data", ".input"):
            need(not tokens)
            self.has_input |= word == ".input"
        elif word in (".word", ".space"):
            need(section == "data" and len(tokens) % 2 and set(tokens[1::2]) <= {","} and (word == ".word" or len(tokens) == 1))
            values = [self.operand("W" if word == ".word" else "K", it) for it in tokens[::2]]
            self.data += [0] * values[0] if word == ".space" else values
            need(DATA + len(self.data) <= END)
        else:
            need(word in SHAPES and section == "code" and len(self.insts) < MOST_INSTS and len(SHAPES[word]) == len(tokens))
            pairs = list(zip(SHAPES[word], tokens))
            need(all(what == token for what, token in pairs if not what.isalpha()))
            self.insts.append(instruction(word, [self.operand(*it) for it in pairs if it[0].isalpha()]))

    def operand(self, what, token):
        """A register, a number, or a label as its section and its index or address."""
        if what in "RS":
            need(re.fullmatch(r"[rR](\d|[12]\d|3[01])" if what == "R" else r"[mM][dD]", token, re.ASCII))
            return int(token[1:]) if what == "R" else MD
        if what in "INOWK" and re.match(r"-?\d", token):
            low, high = {"N": (0, 31), "W": (-(1 << 31), (1 << 32) - 1), "K": (0, END - DATA)}.get(what, (-END, END - 1))
            need(low <= value_of(token) <= high)
            return value_of(token)
        need(what in "LAOW" and token in self.labels)
        need(what in "AW" or (what == "L") == (self.labels[token][0] == "code"))
        return self.labels[token][:2]


class Block:
    """A block (docs/REORGANIZER.md): the number of its first statement, its instructions, what ends it, and the padded plan's place."""
    def __init__(self, first, insts, has_input):
        self.first, self.insts, self.has_input, self.end = first, insts, has_input, insts[-1].kind
        self.tail = {"plain": 0, "la": 0, "halt": 1}.get(self.end, 3)
        self.padded = len(insts) - (self.tail > 0) + sum(it.is_load for it in insts)
        self.is_conditional = self.end == "branch" and insts[-1].word != 0

    def is_free(self, one, other):
        """Whether two instructions are independent."""
        are_ordered = one.access and other.access and (one.is_store or other.is_store or self.has_input)
        are_apart = not are_ordered or (one.access[0] == other.access[0] and one.access[1] != other.access[1])
        return are_apart and not (one.writes & (other.reads | other.writes) or other.writes & one.reads)

    def broken(self, items, place):
        """The first rule that a plan breaks."""
        insts, last, numbers = self.insts, len(self.insts) - 1, [it for it in items if it is not None]
        pairs = [(insts[x], insts[y]) for x, y in zip(items, items[1:]) if None not in (x, y) and max(x, y) <= last]
        rules = (
            ("Once", lambda: sorted(numbers) == list(range(last + 1))),
            ("Terminator", lambda: not self.tail or items[place:place + 1] == [last]),
            ("Tail", lambda: len(items) == place + self.tail),
            ("Order", lambda: all(x < y or self.is_free(insts[x], insts[y]) for at, x in enumerate(numbers) for y in numbers[at + 1:])),
            ("Delay", lambda: not any(feeds(*it) for it in pairs)),
            ("LastLoad", lambda: items[-1] is None or not insts[items[-1]].is_load),
            ("Room", lambda: place <= self.padded))
        return next((name for name, holds in rules if not holds()), None)


def blocks_of(source):
    leaders, labelled = [], {index for section, index, _ in source.labels.values() if section == "code"}
    for at in range(len(source.insts)):
        if at == 0 or at in labelled or source.insts[at - 1].kind not in ("plain", "la") or at - leaders[-1] == RUN:
            leaders.append(at)
    return [Block(at, source.insts[at:end], source.has_input) for at, end in zip(leaders, [*leaders[1:], len(source.insts)])]


def certificate(text, blocks):
    """The hash and the links of a certificate (docs/FORMATS.md); the item `/` is the last instruction of its block."""
    need(len(text) <= MOST_CERTIFICATE, "refused: the certificate is too long")
    lines, links = [*text.split(b"\n"), b""], []
    found = re.fullmatch(rb"source ([0-9a-f]{64})", lines[1])
    need(lines[0] == b"zanderanvil certificate 1", "refused: certificate line 1: BadHeader")
    need(found, "refused: certificate line 2: BadHash")
    for number, parts in enumerate((re.findall(rb"[^ \t\r]+", line) for line in lines[2:]), 3):
        at, items, place = f"refused: certificate line {number}: ", [], None
        if parts:
            need(parts[0] == b"block", at + "BadLine")
            need(len(parts) > 1 and re.fullmatch(rb"\d{1,5}", parts[1]) and int(parts[1]) < END, at + "BadAddress")
            need(len(parts) > 2 and re.fullmatch(rb"0|[12]s?", parts[2]), at + "BadCopies")
            for item in parts[3:]:
                need(re.fullmatch(rb"-|/|[0-5]?\d|6[0-3]", item), at + "BadItem")
                need(len(items) < ITEMS, at + "TooLong")
                need(item != b"/" or place is None, at + "TwoPlaces")
                place = len(items) if item == b"/" else place
                last = len(blocks[len(links)].insts) - 1 if len(links) < len(blocks) else 0
                items.append(None if item == b"-" else last if item == b"/" else int(item))
            need(items, at + "NoPlan")
            links.append(Link(int(parts[1]), int(parts[2][:1]), len(parts[2]) > 1, items, len(items) if place is None else place))
    return found[1].decode(), links


def image(text):
    """The code words and the data words of an image file, and whether it has an input."""
    def number(at, low=0, high=(1 << 32) - 1):
        need(len(text) >= at + 4, f"refused: image: Truncated at {len(text)}")
        value = int.from_bytes(text[at:at + 4], "big")
        need(low <= value <= high, f"refused: image: BadRange at {at}")
        return value
    need(text[:4] == b"MXIM"[:len(text)], "refused: image: BadMagic")
    second = number(4, 1, 2) - 1
    counts = [number(8 + 4 * at, 0, most) for at, most in enumerate((1, 60_000, 65_280, 20_001) if second else (60_000, 65_280))]
    (code, data, links), at = counts[1:] if second else [*counts, 0], 8 + 4 * len(counts)
    end = at + 4 * (code + data + links)
    need(len(text) >= end, f"refused: image: Truncated at {len(text)}")
    for it in range(end - 4 * links, end, 4):
        number(it, CODE, CODE + code)
    need(len(text) == end, f"refused: image: Trailing at {end}")
    words = [number(it) for it in range(at, end, 4)]
    return words[:code], words[code:code + data], bool(second and counts[0])


def forbidden(block, given, goal, blocks, links):
    """The first rule that forbids the copies of a block from the block with the number `goal`, if there are some."""
    if goal is None:
        return "Target"
    slots, to = [given.items[given.place + it] for it in (1, 2)], links[goal]
    if slots[1] is not None or (slots[0] is not None and (block.is_conditional or given.copies == 2)):
        return "Room"
    front = [it for it in to.items[:min(given.copies, to.place)] if it is not None]
    if len(front) < given.copies:
        return "Front"
    if block.end == "branch" and not REACH[0] <= to.address + given.copies - given.address - given.place < REACH[1]:
        return "Reach"
    return "Load" if slots[0] is not None and feeds(block.insts[slots[0]], blocks[goal].insts[front[0]]) else None


def linked(block, given, goal, where, blocks, links):
    """The words of a block (docs/REORGANIZER.md, The layout and Copies); `where` has the address of each labelled statement."""
    items = [None if it is None else block.insts[it] for it in given.items]
    slot = given.place + 1 + (given.copies == 1 and items[given.place + 1] is not None)
    items[slot:slot + given.copies] = [blocks[goal].insts[it] for it in links[goal].items[:given.copies]] if given.copies else []
    for it in items:
        to = 0 if it is None or it.label is None else where[it.label] + (given.copies if it.kind != "la" else 0)
        if it and it.kind == "branch":
            to = to - given.address - given.place & 0xFFFF | given.squashes << 16
        yield NOOP if it is None else it.word | to


def check(text, image_file, certificate_file):
    """Raises `Wrong` with what is wrong first."""
    source = Source(text)
    blocks, at, padded = blocks_of(source), CODE, {}
    for it in blocks:
        padded[it.first], at = at, at + it.padded + it.tail
    padded[len(source.insts)] = at
    distances = [padded[it.insts[-1].label] - padded[it.first] - it.padded for it in blocks if it.end == "branch"]
    need(all(REACH[0] <= it < REACH[1] for it in distances), "refused: a branch does not reach its target")
    code, data, has_input = image(image_file)
    hashed, links = certificate(certificate_file, blocks)
    need(hashlib.sha256(text).hexdigest() == hashed, "rejected: source")
    need(len(links) == len(blocks), f"rejected: blocks: the source has {len(blocks)}; found {len(links)}")
    numbers, at, where = {it.first: number for number, it in enumerate(blocks)}, CODE, {}
    rows = list(zip(range(1, len(blocks) + 1), blocks, links, [numbers.get(it.insts[-1].label) if it.tail == 3 else None for it in blocks]))
    for number, block, given, _ in rows:
        rule = block.broken(given.items, given.place)
        need(rule is None, f"rejected: plan: block {number}: {rule}")
    for number, block, given, _ in rows:
        need(given.address == at, f"rejected: address: block {number}")
        where[block.first], at = at, at + len(given.items)
    where[len(source.insts)] = at
    for number, block, given, goal in rows:
        rule = forbidden(block, given, goal, blocks, links) if given.copies else None
        need(rule is None, f"rejected: copies: block {number}: {rule}")
        need(given.squashes == (given.copies > 0 and block.is_conditional), f"rejected: squash: block {number}")
    wanted = [word for _, *it in rows for word in linked(*it, where, blocks, links)]
    values = [it if isinstance(it, int) else where[it[1]] if it[0] == "code" else it[1] for it in source.data]
    for name, first, seen, words in (("code", CODE, code, wanted), ("data", DATA, data, [it % (1 << 32) for it in values])):
        same = [a == b for a, b in zip(seen, words)] + [len(seen) == len(words)]
        need(all(same), f"rejected: {name}: word {first + (same + [False]).index(False)}")
    need(has_input == source.has_input, "rejected: input")


def main(words):
    try:
        need(len(words) == 3, "usage: check_certificate.py SOURCE IMAGE CERTIFICATE")
        check(*(open(it, "rb").read() for it in words))
    except (OSError, Wrong) as wrong:
        print(wrong)
        return 1 if isinstance(wrong, Wrong) else 2
    print("accepted")
    return 0


if __name__ == "__main__":
    sys.exit(main(sys.argv[1:]))
