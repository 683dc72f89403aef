"""Wrong images and certificates for checks/certificates.py, each with the answer of examples/check_certificate.py: by the rules of
docs/FORMATS.md, written by hand. A case changes one thing of a source, its image or its certificate that belong together."""
import hashlib
import struct
from typing import Callable, NamedTuple, Optional

HEADER = "zanderanvil certificate 1"


class Sound(NamedTuple):
    """A source, and the lines of its certificate."""
    text: str
    lines: tuple


# One block: a load, its reader, a store and a halt.
ONE = Sound("ld 256[r0],r1\naddi r1,#1,r2\nst 255[r0],r2\nhalt\n.data\n.word 64,65\n", ("block 4096 0 0 - 1 2 /",))
# A loop whose branch squashes two copies.
LOOP = Sound("addi r0,#51,r1\naddi r0,#48,r2\nnext: st 255[r0],r1\naddi r1,#-1,r1\nbne r1,r2,next\nhalt\n",
             ("block 4096 0 0 1", "block 4098 2s 0 1 / - -", "block 4103 0 /"))
# The same loop with a store in its first slot.
FULL = Sound("next: addi r1,#-1,r1\nst 255[r0],r3\nbne r1,r2,next\nhalt\n", ("block 4096 0 0 / 1 -", "block 4100 0 /"))
# A call with two copies, a jump back, a branch that is always taken to a halt, addresses of code in a register and in the data.
CALL = Sound("la f,r3\ncall f,r31\nb end\nf: ld 256[r0],r4\naddi r0,#1,r5\nadd r4,r5,r6\njr r31\nend: halt\n.data\n.word f,7\n",
             ("block 4096 2 0 / - -", "block 4100 0 / - -", "block 4103 0 0 1 2 / - -", "block 4109 0 /"))
# A branch that is always taken, with an instruction that fits its slots: one that loads, and one that does not.
LOADED = Sound("ld 256[r0],r1\nb go\ngo: add r1,r1,r2\nhalt\n", ("block 4096 0 0 / - -", "block 4100 0 0 /"))
PLAIN = Sound("addi r0,#1,r1\nb go\ngo: addi r0,#2,r2\nhalt\n", ("block 4096 1 / 0 -", "block 4099 0 0 /"))
# A label after the last statement.
OUT = Sound("b end\nhalt\nend:\n", ("block 4096 0 / - -", "block 4099 0 /"))
# A branch that just reaches its target.
LOADS, RUN = 16_382, 64
PLANS = [" ".join(f"{it} -" for it in range(min(RUN, LOADS - at))) for at in range(0, LOADS, RUN)]
FAR = Sound("beq r1,r2,far\n" + "ld 256[r0],r3\n" * LOADS + "far: addi r0,#1,r1\nhalt\n",
            ("block 4096 0 / - -", *(f"block {4099 + 2 * RUN * at} 0 {plan}" for at, plan in enumerate(PLANS)), f"block {4099 + 2 * LOADS} 0 0 /"))


class Case(NamedTuple):
    """A wrong one: its name, what it changes, and the answer. `lines` replaces the line of a block in the certificate, `certificate` changes
    its text, `image` its file, `code` and `data` their words, `source` the text."""
    name: str
    sound: Sound
    wanted: str
    lines: Optional[dict] = None
    certificate: Optional[Callable] = None
    image: Optional[Callable] = None
    code: Optional[Callable] = None
    data: Optional[Callable] = None
    source: Optional[Callable] = None

    def files(self, program_of, links_of):
        """The source, the certificate and the image: `program_of` gives the program of a source, `links_of` the links of a certificate."""
        text, lines = self.sound.text, list(self.sound.lines)
        program = program_of(text.encode())
        image = program.image(links_of(full(text, lines).encode(), program.blocks))
        for number, other in (self.lines or {}).items():
            lines[number - 1] = other
        certificate = full(text, lines)
        if self.code or self.data:
            image = changed(image, self.code or same, self.data or same)
        image = self.image(image) if self.image else image
        certificate = self.certificate(certificate) if self.certificate else certificate
        text = self.source(text) if self.source else text
        return text.encode(), certificate.encode("latin-1"), image


def full(text, lines):
    return "".join(f"{it}\n" for it in (HEADER, f"source {hashlib.sha256(text.encode()).hexdigest()}", *lines))


def same(words):
    return words


def changed(image, code, data):
    """An image file with other code and data words, whose links are left out."""
    head = struct.unpack(">5I", image[4:24])
    words = list(struct.unpack(f">{head[2] + head[3]}I", image[24:24 + 4 * (head[2] + head[3])]))
    parts = code(words[:head[2]]), data(words[head[2]:])
    return b"MXIM" + struct.pack(f">{5 + len(parts[0]) + len(parts[1])}I", 2, head[1], len(parts[0]), len(parts[1]), 0, *parts[0], *parts[1])


def put(at, change):
    """Changes the word with a number."""
    return lambda words: [*words[:at], change(words[at]), *words[at + 1:]]


def replaced(old, new):
    return lambda text: text.replace(old, new, 1)


def number(at, value):
    """Puts a number at an offset of an image file."""
    return lambda image: image[:at] + struct.pack(">I", value) + image[at + 4:]


LINE3, LINE4 = "refused: certificate line 3: ", "refused: certificate line 4: "
CASES = (
    # certificates that are none
    Case("another version", LOOP, "refused: certificate line 1: BadHeader", certificate=replaced("certificate 1", "certificate 2")),
    Case("an empty certificate", LOOP, "refused: certificate line 1: BadHeader", certificate=lambda it: ""),
    Case("a CR after line 1", LOOP, "refused: certificate line 1: BadHeader", certificate=replaced("1\n", "1\r\n")),
    Case("a certificate without a hash", LOOP, "refused: certificate line 2: BadHash", certificate=lambda it: HEADER + "\n"),
    Case("a hash in upper case", LOOP, "refused: certificate line 2: BadHash", certificate=lambda it: it[:33] + it[33:97].upper() + it[97:]),
    Case("a hash of 63 digits", LOOP, "refused: certificate line 2: BadHash", certificate=lambda it: it[:40] + it[41:]),
    Case("another word than block", LOOP, LINE4 + "BadLine", lines={2: "Block 4098 2s 0 1 / - -"}),
    Case("an address of letters", LOOP, LINE3 + "BadAddress", lines={1: "block start 0 0 1"}),
    Case("an address above the most", LOOP, LINE3 + "BadAddress", lines={1: "block 65536 0 0 1"}),
    Case("an address of six digits", LOOP, LINE3 + "BadAddress", lines={1: "block 004096 0 0 1"}),
    Case("no address", LOOP, LINE3 + "BadAddress", lines={1: "block"}),
    Case("three copies", LOOP, LINE4 + "BadCopies", lines={2: "block 4098 3 0 1 / - -"}),
    Case("no copies that squash", LOOP, LINE4 + "BadCopies", lines={2: "block 4098 0s 0 1 / - -"}),
    Case("no number of copies", LOOP, LINE4 + "BadCopies", lines={2: "block 4098"}),
    Case("the item 64", LOOP, LINE4 + "BadItem", lines={2: "block 4098 2s 0 64 / - -"}),
    Case("an item of three digits", LOOP, LINE4 + "BadItem", lines={2: "block 4098 2s 000 1 / - -"}),
    Case("132 items", LOOP, LINE4 + "TooLong", lines={2: "block 4098 2s 0 1 /" + " -" * 129}),
    Case("two places", LOOP, LINE4 + "TwoPlaces", lines={2: "block 4098 2s 0 / 1 / -"}),
    Case("no plan", LOOP, LINE4 + "NoPlan", lines={2: "block 4098 2s"}),
    # image files that are none
    Case("another magic", ONE, "refused: image: BadMagic", image=lambda it: b"MXIN" + it[4:]),
    Case("version 3", ONE, "refused: image: BadRange at 4", image=number(4, 3)),
    Case("a header that is cut off", ONE, "refused: image: Truncated at 18", image=lambda it: it[:18]),
    Case("an image that is cut off", ONE, "refused: image: Truncated at 71", image=lambda it: it[:-1]),
    Case("a byte more", ONE, "refused: image: Trailing at 72", image=lambda it: it + b"\0"),
    Case("a link before the code", ONE, "refused: image: BadRange at 52", image=number(52, 4095)),
    Case("the flag of an input that the source does not have", ONE, "rejected: input", image=number(8, 1)),
    Case("an unknown flag", ONE, "refused: image: BadRange at 8", image=number(8, 2)),
    # the source
    Case("a faulty line", LOOP, "refused: line 5", source=replaced("bne r1,r2,next", "bne r1,r2,nxt")),
    Case("a branch out of reach", FAR, "refused: a branch does not reach its target", source=replaced("far:", "ld 256[r0],r3\nfar:")),
    Case("another source with the same statements", LOOP, "rejected: source", source=lambda it: it + "\n"),
    # blocks
    Case("a block less", LOOP, "rejected: blocks: the source has 3; found 2", lines={3: ""}),
    Case("a block more", LOOP, "rejected: blocks: the source has 3; found 4", lines={3: "block 4103 0 /\nblock 4104 0 /"}),
    # plans
    Case("an instruction twice", ONE, "rejected: plan: block 1: Once", lines={1: "block 4096 0 0 - 1 2 2 /"}),
    Case("an instruction that is left out", ONE, "rejected: plan: block 1: Once", lines={1: "block 4096 0 0 - 1 /"}),
    Case("an instruction of another block", LOOP, "rejected: plan: block 1: Once", lines={1: "block 4096 0 0 1 2"}),
    Case("no place of the halt", ONE, "rejected: plan: block 1: Terminator", lines={1: "block 4096 0 0 - 1 2 3"}),
    Case("a no-op after the halt", ONE, "rejected: plan: block 1: Tail", lines={1: "block 4096 0 0 - 1 2 / -"}),
    Case("one slot", LOOP, "rejected: plan: block 2: Tail", lines={2: "block 4098 0 0 1 / -"}),
    Case("three slots", LOOP, "rejected: plan: block 2: Tail", lines={2: "block 4098 0 0 1 / - - -"}),
    Case("a place in a block that falls through", LOOP, "rejected: plan: block 1: Tail", lines={1: "block 4096 0 / 0"}),
    Case("a reader before its writer", ONE, "rejected: plan: block 1: Order", lines={1: "block 4096 0 0 - 2 1 /"}),
    Case("a slot that writes what its branch reads", LOOP, "rejected: plan: block 2: Order", lines={2: "block 4098 0 0 / 1 -"}),
    Case("a load directly before its reader", ONE, "rejected: plan: block 1: Delay", lines={1: "block 4096 0 0 1 2 /"}),
    Case("a load in the second slot", LOADED, "rejected: plan: block 1: LastLoad", lines={1: "block 4096 0 / - 0"}),
    Case("a no-op too many", ONE, "rejected: plan: block 1: Room", lines={1: "block 4096 0 0 - - 1 2 /"}),
    Case("two rules in two blocks", LOOP, "rejected: plan: block 1: Once", lines={1: "block 4097 0 0", 2: "block 4098 2 0 1 / - - -"}),
    # addresses
    Case("a first block elsewhere", ONE, "rejected: address: block 1", lines={1: "block 4097 0 0 - 1 2 /"}),
    Case("a gap", LOOP, "rejected: address: block 3", lines={3: "block 4104 0 /"}),
    Case("blocks that overlap", LOOP, "rejected: address: block 2", lines={2: "block 4097 2s 0 1 / - -"}),
    # copies
    Case("copies after a halt", ONE, "rejected: copies: block 1: Target", lines={1: "block 4096 1 0 - 1 2 /"}),
    Case("copies after a jump by register", CALL, "rejected: copies: block 3: Target", lines={3: "block 4103 1 0 1 2 / - -"}),
    Case("copies of a block that falls through", LOOP, "rejected: copies: block 1: Target", lines={1: "block 4096 2 0 1"}),
    Case("copies from the end", OUT, "rejected: copies: block 1: Target", lines={1: "block 4096 1 / - -"}),
    Case("a copy beside an instruction of a conditional branch", FULL, "rejected: copies: block 1: Room", lines={1: "block 4096 1s 0 / 1 -"}),
    Case("a copy before an instruction", PLAIN, "rejected: copies: block 1: Room", lines={1: "block 4096 1 / - 0"}),
    Case("two copies in one slot", PLAIN, "rejected: copies: block 1: Room", lines={1: "block 4096 2 / 0 -"}),
    Case("a copy of a halt", CALL, "rejected: copies: block 2: Front", lines={2: "block 4100 1 / - -"}),
    Case("a copy of a no-op", CALL, "rejected: copies: block 1: Front",
         lines={3: "block 4103 0 0 - 1 2 / - -", 4: "block 4110 0 /"}),
    Case("a copy past the reach", FAR, "rejected: copies: block 1: Reach", lines={1: "block 4096 1s / - -"}),
    Case("a copy that reads a load too early", LOADED, "rejected: copies: block 1: Load",
         lines={1: "block 4096 1 / 0 -", 2: "block 4099 0 0 /"}),
    # squashes
    Case("a branch that does not squash its copies", LOOP, "rejected: squash: block 2", lines={2: "block 4098 2 0 1 / - -"}),
    Case("a branch that is always taken and squashes", PLAIN, "rejected: squash: block 1", lines={1: "block 4096 1s / 0 -"}),
    Case("a call that squashes", CALL, "rejected: squash: block 1", lines={1: "block 4096 2s 0 / - -"}),
    # words
    Case("another register", ONE, "rejected: code: word 4096", code=put(0, lambda it: it ^ 1 << 17)),
    Case("a branch without its squash bit", LOOP, "rejected: code: word 4100", code=put(4, lambda it: it & ~(1 << 16))),
    Case("a branch to the copied words", LOOP, "rejected: code: word 4100", code=put(4, lambda it: it - 2 & 0xFFFF | it & ~0xFFFF)),
    Case("a no-op where a copy should be", LOOP, "rejected: code: word 4102", code=put(6, lambda it: 1 << 30)),
    Case("a call of the copied words", CALL, "rejected: code: word 4097", code=put(1, lambda it: it - 2)),
    Case("another address of a statement", CALL, "rejected: code: word 4096", code=put(0, lambda it: it + 1)),
    Case("a word instead of a no-op", ONE, "rejected: code: word 4097", code=put(1, lambda it: 0)),
    Case("a word of code less", ONE, "rejected: code: word 4100", code=lambda it: it[:-1]),
    Case("a word of code more", ONE, "rejected: code: word 4101", code=lambda it: [*it, 7 << 29]),
    Case("another word of data", ONE, "rejected: data: word 257", data=put(1, lambda it: it + 1)),
    Case("another address in the data", CALL, "rejected: data: word 256", data=put(0, lambda it: it + 1)),
    Case("a word of data less", ONE, "rejected: data: word 257", data=lambda it: it[:-1]),
    Case("a word of data more", ONE, "rejected: data: word 258", data=lambda it: [*it, 0]),
    Case("code and data", ONE, "rejected: code: word 4098", code=put(2, lambda it: it + 1), data=lambda it: []),
)
