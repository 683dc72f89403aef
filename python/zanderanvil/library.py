"""The library for C, by ctypes: each command as a method, its answer as Python values."""
from __future__ import annotations

import ctypes
import mmap
import os
from dataclasses import dataclass, field
from typing import Dict, Iterable, List, Mapping, Optional, Tuple, Type, Union

DONE, OUT_OF_BUDGET, MEMORY, NOT_TEXT, TOO_SHORT = 0, 3, 6, 10, 11

FILES = ("source", "second", "input", "interrupts", "image")
# How much an answer may have so that it comes at the first call. The system gives such memory only as it is written to.
OUTPUT_ROOM, FILE_ROOM = 64 << 20, 2 << 20


class _Bytes(ctypes.Structure):
    _fields_ = [("bytes", ctypes.c_char_p), ("length", ctypes.c_size_t)]


class _Call(ctypes.Structure):
    _fields_ = [(name, _Bytes) for name in ("words",) + FILES]


class _Outcome(ctypes.Structure):
    _fields_ = [("status", ctypes.c_uint32)] + [
        (name, ctypes.c_size_t) for name in ("output", "output_needed", "file", "file_needed")
    ]


class Refusal(Exception):
    """A command that gave no result: the status's number, and the line that it printed."""

    def __init__(self, status: int, output: bytes) -> None:
        super().__init__(output.decode("utf-8", "replace").strip() or f"status {status}")
        self.status = status
        self.output = output

    def __reduce__(self) -> Tuple[Type[Refusal], Tuple[int, bytes]]:
        """So that it goes from one process to another."""
        return Refusal, (self.status, self.output)


@dataclass
class Run:
    """The report of a run. Without a halt there are no registers."""

    halted: bool
    counts: dict[str, int]  # cycles, fetches, misses, squashes, interrupts, words, noops
    console: bytes
    registers: list[int] = field(default_factory=list)  # registers[n] is r[n], and registers[0] is 0
    md: int = 0
    data: dict[int, int] = field(default_factory=dict)  # dumped words by their addresses
    trace: list[list[str]] = field(default_factory=list)  # the words of each line

    @property
    def cycles(self) -> int:
        """How many cycles the run took, the one that halted among them."""
        return self.counts["cycles"]


@dataclass
class Meaning:
    """What a source means: how it ended, as `halted`, `running` or `stuck line N WHY`."""

    ended: str
    steps: int
    console: bytes
    registers: list[Union[int, str]] = field(default_factory=list)  # numbers, or `code I` for a place of code
    md: int = 0

    @property
    def halted(self) -> bool:
        """Whether it halted within the steps asked for."""
        return self.ended == "halted"


@dataclass
class Explained:
    """How a run stands to the meaning of its source, in one word: `as meant`, `out of budget`, `stuck` or `running`."""

    verdict: str
    run: Run
    meaning: Meaning
    enough: Optional[int]  # the budget with which the run halts for sure, where the meaning halts


class _Reader:
    """A printed text, from its front on."""

    def __init__(self, text: bytes) -> None:
        self.text = text

    def line(self) -> str:
        line, _, self.text = self.text.partition(b"\n")
        return line.decode("ascii")

    def count(self, name: str) -> int:
        word, number = self.line().split(" ")
        if word != name:
            raise ValueError(f"{name} was expected, and {word} was found")
        return int(number)

    def console(self) -> bytes:
        size = self.count("console")
        console, self.text = self.text[:size], self.text[size + 1 :]
        return console

    def registers(self) -> Tuple[List[Union[int, str]], int]:
        """r0 to r31, and MD; none where the text ends here."""
        if self.text == b"":
            return [], 0
        self.line()
        values = [self.line().split(" ", 1)[1] for _ in range(32)]
        read: List[Union[int, str]] = [value if value.startswith("code") else int(value, 16) for value in values]
        return [0, *read[:31]], _number(read[31])


def _number(value: Union[int, str]) -> int:
    """A register that holds no place of code, as MD never does, nor any of a run."""
    if isinstance(value, str):
        raise ValueError(f"a number was expected, and {value} was found")
    return value


def encoded(name: str, content: bytes) -> bytes:
    """The bytes of a file. A str has none before its caller encodes it."""
    if isinstance(content, str):
        raise TypeError(f"{name} is a str, and bytes are expected: give text.encode()")
    return content


class _Room:
    """A buffer for an answer: memory that the system gives as it is written to."""

    def __init__(self, size: int) -> None:
        self.size = size
        self.memory = mmap.mmap(-1, max(size, 1))
        self.buffer = (ctypes.c_char * max(size, 1)).from_buffer(self.memory)

    def take(self, length: int) -> bytes:
        """The first bytes. The buffer is gone after that."""
        taken = self.memory[:length]
        del self.buffer
        self.memory.close()
        return taken


def read_run(status: int, output: bytes, trace: int = 0) -> Run:
    """Reads the report of a run that ended with a status, with so many lines of its trace before it, or fewer where it halted."""
    told = _Reader(output)
    lines: List[List[str]] = []
    line = told.line()
    while len(lines) < trace and line not in ("halted", "out of budget"):
        lines.append(line.split(" "))
        line = told.line()
    names = ("cycles", "fetches", "misses", "squashes", "interrupts", "words", "noops")
    counts = {name: told.count(name) for name in names}
    console = told.console()
    registers, md = told.registers()
    words = [line.split(" ") for line in told.text.decode("ascii").splitlines()[1:]]
    data = {int(address, 16): int(word, 16) for address, word in words}
    return Run(status == DONE, counts, console, [_number(it) for it in registers], md, data, lines)


# A block has at most 64 statements: a run is told by its meaning where that is not stuck within so many more than its budget.
BLOCK = 64


class Zanderanvil:
    """The library in a file, as ./mx library leaves it; without a path, the file that the variable ZANDERANVIL names."""

    def __init__(self, path: Optional[str] = None) -> None:
        path = path or os.environ.get("ZANDERANVIL")
        if path is None:
            raise FileNotFoundError("give the path of libzanderanvil.so, or set ZANDERANVIL to it (./mx library DIR makes it)")
        self.path = os.path.abspath(path)
        self._command = ctypes.CDLL(self.path).zanderanvil_command
        self._command.restype = _Outcome
        self._command.argtypes = [
            ctypes.POINTER(_Call), ctypes.POINTER(ctypes.c_char), ctypes.c_size_t, ctypes.POINTER(ctypes.c_char), ctypes.c_size_t,
        ]

    def answer(self, words: Iterable[str], room: int = OUTPUT_ROOM, file_room: int = FILE_ROOM,
               **files: bytes) -> Tuple[_Outcome, bytes, bytes]:
        """Answers a command as (outcome, output, file), in buffers of this room, whatever its status.

        The words are the command's, and the files are bytes by their names: source, second, input, interrupts, image.
        """
        return self._answer(list(words), room, file_room, files)

    def _answer(self, words: List[str], room: int, file_room: int, files: Mapping[str, bytes]) -> Tuple[_Outcome, bytes, bytes]:
        if any("\n" in word or word.endswith("\r") for word in words):
            raise ValueError("a word with a line end")
        unknown = sorted(files.keys() - set(FILES))
        if unknown:
            raise TypeError(f"unknown file {unknown[0]}: there are {', '.join(FILES)}")
        text = "".join(word + "\n" for word in words).encode("utf-8", "surrogateescape")
        lent = {"words": text, **dict.fromkeys(FILES, b""), **{name: encoded(name, content) for name, content in files.items()}}
        call = _Call(**{name: _Bytes(content, len(content)) for name, content in lent.items()})
        output, file = _Room(room), _Room(file_room)
        outcome: _Outcome = self._command(ctypes.byref(call), output.buffer, room, file.buffer, file_room)
        return outcome, output.take(outcome.output), file.take(outcome.file)

    def command(self, *words: str, **files: bytes) -> Tuple[int, bytes, bytes]:
        """Answers a command as (status, output, file), in buffers that are long enough: a second call is made only for an answer
        of more than 64 MiB."""
        outcome, output, file = self._answer(list(words), OUTPUT_ROOM, FILE_ROOM, files)
        if outcome.status == TOO_SHORT:
            outcome, output, file = self._answer(list(words), outcome.output_needed, outcome.file_needed, files)
        if outcome.status in (MEMORY, NOT_TEXT):
            raise Refusal(outcome.status, b"")
        return outcome.status, output, file

    def run(self, source: bytes, budget: int = 1000000, interrupts: Iterable[int] = (), input: Optional[bytes] = None,
            trace: int = 0, dump: Optional[int] = None, count: int = 1) -> Run:
        """Runs a source, with an interrupt requested in each of these cycles, which are told in ascending order."""
        return self._run("run", "source", {"source": source}, budget, interrupts, input, trace, dump, count)

    def exec(self, image: bytes, budget: int = 1000000, interrupts: Iterable[int] = (), input: Optional[bytes] = None,
             trace: int = 0, dump: Optional[int] = None, count: int = 1) -> Run:
        """Runs an image file."""
        return self._run("exec", "image", {"image": image}, budget, interrupts, input, trace, dump, count)

    def meaning(self, source: bytes, steps: int = 1000000, input: Optional[bytes] = None) -> Meaning:
        """Tells what a source means after so many steps."""
        words, files = ["meaning", "source", "--steps", str(steps)], {"source": source}
        self._lend(words, files, input)
        status, output, _ = self.command(*words, **files)
        if not output.startswith((b"halted\n", b"running\n", b"stuck ")):
            raise Refusal(status, output)
        told = _Reader(output)
        ended, taken, console = told.line(), told.count("steps"), told.console()
        registers, md = told.registers()
        return Meaning(ended, taken, console, registers, md)

    def explain(self, source: bytes, budget: int = 1000000, interrupts: Iterable[int] = (), input: Optional[bytes] = None) -> Explained:
        """Runs a source and its meaning, and tells how they stand to each other."""
        requests = list(interrupts)
        meant = self.meaning(source, budget + BLOCK, input)
        run = self.run(source, budget, requests, input)
        if meant.halted:
            enough = 9 * meant.steps + 96 * len(requests) + 16
            return Explained("as meant" if run.halted else "out of budget", run, meant, enough)
        return Explained("stuck" if meant.ended.startswith("stuck") else "running", run, meant, None)

    def listing(self, source: bytes) -> list[list[str]]:
        """The listing of a source, each line as its words."""
        status, output, _ = self.command("list", "source", source=source)
        if status != DONE:
            raise Refusal(status, output)
        return [line.split(" ") for line in output.decode("ascii").splitlines()]

    def build(self, source: bytes) -> bytes:
        """The image file of a source."""
        status, output, file = self.command("build", "source", "built", source=source)
        if status != DONE:
            raise Refusal(status, output)
        return file

    @staticmethod
    def _lend(words: List[str], files: Dict[str, bytes], input: Optional[bytes]) -> None:
        if input is not None:
            words += ["--input", "input"]
            files["input"] = input

    def _run(self, word: str, name: str, files: Dict[str, bytes], budget: int, interrupts: Iterable[int], input: Optional[bytes],
             trace: int, dump: Optional[int], count: int) -> Run:
        words = [word, name, "--budget", str(budget), "--trace", str(trace), "--interrupts", "interrupts"]
        files["interrupts"] = "".join(f"{cycle}\n" for cycle in interrupts).encode("ascii")
        self._lend(words, files, input)
        if dump is not None:
            words += ["--dump", str(dump), "--count", str(count)]
        status, output, _ = self.command(*words, **files)
        if status not in (DONE, OUT_OF_BUDGET):
            raise Refusal(status, output)
        return read_run(status, output, min(trace, budget))
