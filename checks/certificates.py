#!/usr/bin/env python3
"""Images by other plans, copies and squashes than any scheduler here chooses, their certificates, and mutated ones: what checkers say of them.

usage: checks/certificates.py [--write FOLDER]

The checkers are examples/check_certificate.py, written from the documents alone, and `verify` where the laboratory has it; both have to
say the same of each image. Sources are examples, generated ones and random ones. Their images are made here: each block gets a random
valid plan and copies some of the words that it may copy. The words of statements are those of `disassemble`; only branches, calls and
addresses of code are put together here. All are accepted, and run as their source means (`meaning`, `exec`). What `build` makes is
accepted too. Mutated images and certificates are accepted only if they are what this script links. Of the stored wrong ones, each is
rejected by the stated rule. MX_SAMPLE=1 takes fewer. --write leaves the files of each wrong one in a folder.
"""
import hashlib
import importlib.util
import json
import os
import pathlib
import random
import re
import struct
import subprocess
import sys
import tempfile
import types

import common
import wrong_certificates
from common import IS_SAMPLE, TOP, tell

# How many images, and how many mutated ones of each.
IMAGES, MUTATED = (120, 5) if IS_SAMPLE else (2_000, 10)
BUDGET, TRIES, MOST_NOOPS, NOOP = 20_000, 12, 3, 0x40000000
# Texts that a mutated source gets somewhere.
PIECES = (b"r32", b"#", b",", b":", b" ", b"x", b"-1", b"65536", b".word 1", b".data\n", b".code\n", b".space 70000", b";", b"\r", b"\x80", b"la ",
          b"halt\n", b"[", b"]", b"next", b"next: ", b"#65536", b"0x1F", b"0x", b"jpc", b"movtos r1,pc1\n", b"MOVFRS MD,R3\n", b".input\n", b".x:",
          b"nop " * 64, b"99999999999")
HEADER = "zanderanvil certificate 1\nsource {}\n"


def module(path):
    """Returns a script as a module."""
    spec = importlib.util.spec_from_file_location(pathlib.Path(path).stem, path)
    found = importlib.util.module_from_spec(spec)
    spec.loader.exec_module(found)
    return found


CHECKER = module(f"{TOP}/examples/check_certificate.py")
# The random sources of plans.py, as checks/blocks.py takes them.
PLANS = types.SimpleNamespace(__name__="plans")
exec((pathlib.Path(TOP) / "checks/plans.py").read_text(encoding="utf-8").split("if sys.argv[1:]==")[0], PLANS.__dict__)


def run(program, *words, **more):
    return subprocess.run([common.program(program), *words], capture_output=True, check=False, **more)


# Sources

def drawn(rnd):
    """A random source, which need not run."""
    has_input, count = rnd.random() < 0.3, rnd.choice((3, 8, 20, 70))
    labels = [(f"L{k}", at) for k, at in enumerate(sorted(rnd.sample(range(count + 1), 3)))]
    insts = [PLANS.draw(rnd, labels, has_input, [0, 1, 2, 3, 4, 5][:rnd.choice((4, 6))]) for _ in range(count)]
    lines = [".input"] if has_input else []
    for at, inst in enumerate(insts):
        lines += [f"{name}:" for name, place in labels if place == at] + [inst.text]
    lines += [f"{name}:" for name, place in labels if place == count]
    return "".join(f"{line}\n" for line in [*lines, ".data", f".word L0,{rnd.randrange(1 << 32)},L2", ".space 3"]).encode()


def sources(rnd):
    """Gives sources without end: the examples first, each with whether it is to be run."""
    for name in sorted(os.listdir(f"{TOP}/examples")):
        if name.endswith(".s") and name not in ("emit.s", "letters.s", "ping.s", "pong.s"):
            with open(f"{TOP}/examples/{name}", "rb") as file:
                yield name, file.read(), True
    seed = 0
    while True:
        seed += 1
        yield f"generated {seed}", run("mx_run", "gen", str(seed), str(rnd.choice((10, 40, 120)))).stdout, True
        yield f"random {seed}", drawn(rnd), False


# Plans and copies

def random_order(block, rnd):
    """A random order of a block's instructions before its terminator that keeps dependences."""
    left, order = list(range(len(block.insts) - (block.tail > 0))), []
    while left:
        ready = [x for x in left if all(y >= x or block.is_free(block.insts[y], block.insts[x]) for y in left)]
        order.append(rnd.choice(ready))
        left.remove(order[-1])
    return order


def random_plan(block, rnd):
    """A random valid plan: the padded one where none of some tries is valid."""
    last = len(block.insts) - 1
    for _ in range(TRIES):
        order, slots = random_order(block, rnd), []
        if block.tail == 3:
            slots = [order.pop() for _ in range(min(rnd.choice((0, 0, 1, 2)), len(order)))][::-1]
            slots = rnd.sample([*slots, *[None] * (2 - len(slots))], 2) if len(slots) < 2 else slots
        items = []
        for x in order:
            if items and items[-1] is not None and CHECKER.feeds(block.insts[items[-1]], block.insts[x]):
                items.append(None)
            items.append(x)
        for _ in range(rnd.randrange(MOST_NOOPS)):
            items.insert(rnd.randrange(len(items) + 1), None)
        if block.tail == 0 and items[-1] is not None and block.insts[items[-1]].is_load:
            items.append(None)
        place = len(items)
        items += [last, *slots] if block.tail == 3 else [last] if block.tail else []
        if block.broken(items, place) is None:
            return items, place
    return padded_plan(block)


def padded_plan(block):
    """The source order, with a no-op after each load and two after a transfer."""
    items, place, last = [], 0, len(block.insts) - 1
    for x, inst in enumerate(block.insts):
        place = len(items) if x == last and block.tail else place
        items += [x, None] if inst.is_load else [x]
    return items + [None] * max(0, block.tail - 1), place if block.tail else len(items)


def random_links(blocks, rnd):
    """A line of a certificate for each block: a random plan, and some of the copies that are allowed."""
    links, at = [], CHECKER.CODE
    for block in blocks:
        items, place = random_plan(block, rnd)
        links.append(CHECKER.Link(at, 0, False, items, place))
        at += len(items)
    numbers = {block.first: number for number, block in enumerate(blocks)}
    for number, block in enumerate(blocks):
        if block.tail == 3:
            goal = numbers.get(block.insts[-1].label)
            for copies in rnd.sample((2, 1), 2) if rnd.random() < 0.8 else ():
                given = links[number]._replace(copies=copies, squashes=block.is_conditional)
                if CHECKER.forbidden(block, given, goal, blocks, links) is None:
                    links[number] = given
                    break
    return links


# The linker

class Program:
    """A source with its blocks, the word of each statement as `disassemble` prints it, and its lines of a certificate."""

    def __init__(self, text, folder):
        self.text, self.source = text, CHECKER.Source(text)
        self.blocks = CHECKER.blocks_of(self.source)
        with open(f"{folder}/source", "wb") as file:
            file.write(text)
        lines = [number for number, line in enumerate(text.split(b"\n"), 1) if has_statement(line)]
        shown = json.loads(run("mx_lab", "disassemble", f"{folder}/source", "--as", "json").stdout)["words"]
        found = {it["place"]["line"]: it["word"] for it in shown if it["place"]["kind"] == "own"}
        self.words = [found[line] for line in lines]

    def image(self, links, version=2):
        """The bytes of the image file that these plans and copies make."""
        starts = {block.first: it.address for block, it in zip(self.blocks, links)}
        starts[len(self.source.insts)] = links[-1].address + len(links[-1].items) if links else CHECKER.CODE
        code = []
        for block, it in zip(self.blocks, links):
            words = [NOOP if item is None else self.word(block.first + item, it, starts) for item in it.items]
            if it.copies:
                goal = next(at for at, other in enumerate(self.blocks) if other.first == block.insts[-1].label)
                copied = [self.word(self.blocks[goal].first + item, links[goal], starts) for item in links[goal].items[:it.copies]]
                at = it.place + (2 if it.copies == 1 and it.items[it.place + 1] is not None else 1)
                words[at:at + it.copies] = copied
            code += words
        data = [it if isinstance(it, int) else starts[it[1]] if it[0] == "code" else it[1] for it in self.source.data]
        addresses, at = [], 0
        for number, block in enumerate(self.blocks):
            addresses += [links[number].address] * len(block.insts)
        return packed(code, [it % (1 << 32) for it in data], [*addresses, starts[len(self.source.insts)]], self.source.has_input, version)

    def word(self, statement, link, starts):
        """The word of a statement of the block of a link."""
        inst, word = self.source.insts[statement], self.words[statement]
        if inst.label is None:
            return word
        if inst.kind == "la":
            return word & ~0x1FFFF | starts[inst.label]
        to = starts[inst.label] + link.copies
        return word & ~0x1FFFF | (to if inst.kind == "call" else link.squashes << 16 | (to - link.address - link.place) & 0xFFFF)

    def certificate(self, links):
        return (HEADER.format(hashlib.sha256(self.text).hexdigest()) + "".join(line(it, block) for it, block in zip(links, self.blocks))).encode()


def has_statement(text):
    """Whether a line has an instruction after its labels."""
    rest = re.sub(rb"^([ \t]*[\w.]+[ \t]*:)*[ \t]*", b"", text.split(b";")[0]).strip()
    return bool(rest) and not rest.startswith(b".")


def line(link, block):
    """The line of a certificate."""
    items = ["-" if it is None else "/" if at == link.place and block.tail else str(it) for at, it in enumerate(link.items)]
    return f"block {link.address} {link.copies}{'s' if link.squashes else ''} {' '.join(items)}\n"


def packed(code, data, links, has_input, version):
    """An image file."""
    head = [2, int(has_input), len(code), len(data), len(links)] if version == 2 else [1, len(code), len(data)]
    words = [*head, *code, *data, *(links if version == 2 else [])]
    return b"MXIM" + struct.pack(f">{len(words)}I", *words)


# What the checkers say

class Checkers:
    """Both checkers, over the files of a folder."""

    def __init__(self, folder):
        self.folder = folder
        self.has_verify = run("mx_lab", "verify", "--help").returncode == 0
        self.differing, self.count = [], 0

    def answer(self, text, image, certificate):
        """What the checker of examples says, and in `differing` where `verify` says something else."""
        self.count += 1
        try:
            CHECKER.check(text, image, certificate)
            said = "accepted"
        except CHECKER.Wrong as wrong:
            said = str(wrong)
        if self.has_verify:
            for name, content in (("source", text), ("image", image), ("certificate", certificate)):
                with open(f"{self.folder}/{name}", "wb") as file:
                    file.write(content)
            done = run("mx_lab", "verify", f"{self.folder}/source", f"{self.folder}/image", f"{self.folder}/certificate")
            other = (done.stdout + done.stderr).decode("latin-1").replace(f"{self.folder}/", "").splitlines()
            other = other[0] if other else f"status {done.returncode}"
            if normal(other) != normal(said):
                self.differing.append((said, other))
        return said


def normal(said):
    """What both checkers say alike: accepted; rejected, with what, where and by which rule; or refused, with the file, line and fault."""
    if said in ("accepted", "verified"):
        return ("accepted",)
    if said.startswith("rejected: "):
        where, rule = re.search(r"\d+", said), re.search(r"\b[A-Z]\w+\b", said)
        return "rejected", re.split(r"\W", said[10:])[0], where and where[0], rule and rule[0]
    found = re.search(r"certificate(?: line |:)(\d+): (?:error\[)?(\w+)", said)
    if found:
        return "refused", "certificate", found[1], found[2]
    if "[L1]" in said or "does not reach" in said:
        return "refused", "source", "a branch"
    if "image" in said:
        return "refused", "image"
    found = re.search(r"(?:source:|line )(\d+)", said)
    return "refused", "source", found[1] if found else said


def run_as_meant(name, program, image, folder):
    """Compares a run of the image with what the source means: the console and the registers that hold no address."""
    for file, content in (("source", program.text), ("image", image), ("input", b"021")):
        with open(f"{folder}/{file}", "wb") as it:
            it.write(content)
    given = ["--input", f"{folder}/input"] if program.source.has_input else []
    meant = run("mx_run", "meaning", f"{folder}/source", "--steps", str(BUDGET), *given).stdout
    done = run("mx_run", "exec", f"{folder}/image", "--budget", str(10 * BUDGET), *given).stdout
    if not meant.startswith(b"halted\n"):
        return None
    wanted, found = ([it[it.find(b"\nconsole "):].split(b"\n")] for it in (meant, done))
    same = len(wanted[0]) == len(found[0]) and all(a == b or b" code " in a for a, b in zip(wanted[0], found[0]))
    return same and done.startswith(b"halted\n") or f"{name}: {meant[-400:]!r} {done[-400:]!r}"


# Mutations

def mutate_image(image, rnd):
    """An image file with one fault."""
    words, how = len(image) // 4, rnd.randrange(6)
    at = 4 * rnd.randrange(words)
    if how == 0:
        return image[:rnd.randrange(len(image))]
    if how == 1:
        return image + bytes(rnd.randrange(1, 9))
    if how == 2:
        other = 4 * rnd.randrange(6, words) if words > 6 else at
        return swapped(image, at, other)
    if how == 3:
        return image[:at] + struct.pack(">I", rnd.choice((0, NOOP, 0xE0000000, 1, 0xFFFFFFFF, rnd.randrange(1 << 32)))) + image[at + 4:]
    bit = rnd.randrange(8 * len(image))
    return image[:bit // 8] + bytes([image[bit // 8] ^ 1 << bit % 8]) + image[bit // 8 + 1:]


def swapped(image, at, other):
    at, other = min(at, other), max(at, other)
    return image[:at] + image[other:other + 4] + image[at + 4:other] + image[at:at + 4] + image[other + 4:] if at < other else image


def mutate_certificate(text, rnd):
    """A certificate with one fault."""
    lines, how = text.decode("latin-1").split("\n"), rnd.randrange(8)
    at = rnd.randrange(len(lines))
    parts = lines[at].split(" ")
    spot = rnd.randrange(len(parts))
    if how == 0:
        parts[spot] = rnd.choice(("-", "/", "0", "1", "2", "1s", "2s", "4096", "63", "64", "x", "", "block", "65536", "00", "-1", "0s"))
    elif how == 1:
        del parts[spot]
    elif how == 2:
        parts.insert(spot, rnd.choice(("-", "/", "0", "1", "7")))
    elif how == 3 and len(parts) > 3:
        other = rnd.randrange(len(parts))
        parts[spot], parts[other] = parts[other], parts[spot]
    lines[at] = " ".join(parts)
    if how == 4:
        del lines[at]
    elif how == 5:
        lines.insert(at, lines[rnd.randrange(len(lines))])
    elif how == 6:
        place = rnd.randrange(len(text))
        return text[:place] + bytes([rnd.choice(b"0123456789 s-/\n\t\rx") if rnd.random() < 0.8 else rnd.randrange(256)]) + text[place + 1:]
    elif how == 7:
        return text[:rnd.randrange(len(text))]
    return "\n".join(lines).encode("latin-1")


def try_mutated(program, links, image, checkers, rnd):
    """What is said of mutated files; returns those that are accepted and are not what is linked here."""
    wrong, certificate = [], program.certificate(links)
    for _ in range(MUTATED):
        other = (mutate_image(image, rnd), certificate) if rnd.random() < 0.4 else (image, mutate_certificate(certificate, rnd))
        said = checkers.answer(program.text, *other)
        if said == "accepted":
            read = CHECKER.certificate(other[1], program.blocks)[1]
            # (an image file may have other links: these are no words of the program)
            if CHECKER.image(other[0]) != CHECKER.image(program.image(read)):
                wrong.append((program.text, other))
    return wrong


def mutate_source(text, rnd):
    """A source with up to three faults."""
    for _ in range(rnd.randrange(1, 4)):
        at, how = rnd.randrange(len(text) + 1), rnd.randrange(4)
        if how == 0:
            text = text[:at] + rnd.choice(PIECES) + text[at:]
        elif how == 1:
            text = text[:at] + text[at + rnd.randrange(1, 4):]
        else:
            lines = text.split(b"\n")
            spot, other = rnd.randrange(len(lines)), rnd.randrange(len(lines))
            lines[spot] = rnd.choice((lines[other], lines[spot] + b" " + lines[other], rnd.choice(PIECES), lines[spot].upper()))
            text = b"\n".join(lines)
    return text


def try_sources(folder):
    """Compares which line of mutated sources is refused with what the toolchain says."""
    rnd, made, wrong, refused = random.Random(60), sources(random.Random(61)), [], 0
    for _ in range(IMAGES):
        _, text, _ = next(made)
        text = mutate_source(text, rnd)
        with open(f"{folder}/source", "wb") as file:
            file.write(text)
        said = run("mx_run", "list", f"{folder}/source").stdout.decode("latin-1").split("\n")[0]
        found = re.match(r"line (\d+): F\d+", said)
        try:
            CHECKER.Source(text)
            seen = None
        except CHECKER.Wrong as fault:
            seen, refused = str(fault), refused + 1
        if seen != (f"refused: line {found[1]}" if found else None):
            wrong.append((said, seen, text))
    tell(f"mutated sources: the {refused:,} that are refused, and the line", not wrong and refused > IMAGES / 4, str(wrong[:1])[:1500], IMAGES)


def try_images(checkers, folder):
    """Makes images, and has them checked, run and mutated."""
    rnd, made, ran, wrong, others = random.Random(57), sources(random.Random(58)), 0, [], []
    for number in range(IMAGES):
        name, text, is_run = next(made)
        program = Program(text, folder)
        if run("mx_run", "list", f"{folder}/source").returncode:
            continue
        links = random_links(program.blocks, rnd)
        image = program.image(links, 2 if number % 3 or program.source.has_input else 1)
        said = checkers.answer(text, image, program.certificate(links))
        if said != "accepted":
            wrong.append((name, said))
        if is_run:
            same = run_as_meant(name, program, image, folder)
            ran += same is True
            wrong += [same] if isinstance(same, str) else []
        others += try_mutated(program, links, image, checkers, rnd)
    tell(f"{IMAGES:,} images by random plans and copies are accepted", not wrong, str(wrong[:2]), IMAGES)
    tell(f"{ran:,} of them run as their source means", ran > IMAGES / 4, str(ran), ran)
    tell("mutated ones are accepted only if they are what is linked here", not others, str(others[:1])[:900], IMAGES * MUTATED)


def built_certificate(program, folder):
    """The certificate of what `build` makes, by the plans and words that the laboratory prints."""
    plans = run("mx_lab", "plans", f"{folder}/source", "--print").stdout.decode().split("\n")
    words = json.loads(run("mx_lab", "disassemble", f"{folder}/source", "--as", "json").stdout)["words"]
    links, at = [], CHECKER.CODE
    for block, plan in zip(program.blocks, plans):
        parts = plan.split()
        place = parts.index("/") if "/" in parts else len(parts)
        items = [None if it == "-" else len(block.insts) - 1 if it == "/" else int(it) for it in parts]
        copies = sum(it["place"]["kind"] == "copy" for it in words[at - CHECKER.CODE:at - CHECKER.CODE + len(items)])
        links.append(CHECKER.Link(at, copies, copies > 0 and block.is_conditional, items, place))
        at += len(items)
    return program.certificate(links)


def try_built(checkers, folder):
    """What `build` makes is accepted."""
    wrong, made, count = [], sources(random.Random(59)), IMAGES // 4
    for _ in range(count):
        name, text, _ = next(made)
        program = Program(text, folder)
        if run("mx_run", "build", f"{folder}/source", f"{folder}/built").returncode == 0:
            with open(f"{folder}/built", "rb") as file:
                said = checkers.answer(text, file.read(), built_certificate(program, folder))
            if said != "accepted":
                wrong.append((name, said))
    tell(f"{count:,} images of `build` are accepted", not wrong, str(wrong[:2]), count)


def try_wrong(checkers, folder, target):
    """Each stored wrong one is rejected by its rule."""
    for number, case in enumerate(wrong_certificates.CASES, 1):
        text, certificate, image = case.files(lambda it: Program(it, folder), lambda *given: CHECKER.certificate(*given)[1])
        said = checkers.answer(text, image, certificate)
        tell(f"{case.name}: {case.wanted}", said == case.wanted, said)
        if target:
            for end, content in (("s", text), ("mxi", image), ("certificate", certificate)):
                with open(f"{target}/{number:02}.{end}", "wb") as file:
                    file.write(content)


def main():
    words = sys.argv[1:]
    if words and (words[0] != "--write" or len(words) != 2):
        common.wrong_arguments(f"unexpected argument {words[0]}")
    with tempfile.TemporaryDirectory(prefix="certificates-") as folder:
        checkers = Checkers(folder)
        try_wrong(checkers, folder, words[1] if words else None)
        try_sources(folder)
        try_built(checkers, folder)
        try_images(checkers, folder)
        if checkers.has_verify:
            tell(f"`verify` says the same {checkers.count:,} times", not checkers.differing, str(checkers.differing[:3]), checkers.count)
        else:
            print("skipped: the laboratory has no `verify`, so nothing was compared with it")
    return common.finish("certificates.py", "verdicts and runs")


if __name__ == "__main__":
    sys.exit(main())
