"""The laboratory's commands, by its program: profiles, comparisons, pictures and plans as Python values (docs/LAB.md)."""
from __future__ import annotations

import contextlib
import json
import os
import pathlib
import shutil
import signal
import subprocess
import sys
import tempfile
import threading
from dataclasses import dataclass, field
from typing import IO, Any, Callable, Dict, Iterable, List, Mapping, Optional, Sequence, Tuple, Union, cast

from .library import DONE, OUT_OF_BUDGET, Refusal, Run, encoded, read_run

FAULTY = 1
SOURCE = "source.s"
# What ./mx prints as it builds a program at its first call, for people who wait.
PROGRESS = b"mx: "
Record = Dict[str, Any]


@dataclass(frozen=True)
class Dependence:
    """What a later instruction of a block needs of an earlier one: `true`, `anti`, `output` or `memory`, and how many places the two are
    apart, at least."""

    earlier: int
    later: int
    kind: str
    weight: int


@dataclass(frozen=True)
class Block:
    """A basic block of a source, as `blocks` shows it (docs/PLANS.md): its number from 1 on, the text of its instructions, whether the
    last one is a transfer or a halt; for each instruction its line, the names that it reads and writes, and its height; what depends on
    what; the labels, what ends it (`falls`, `halt`, `branch`, `call`, `jump`), the numbers of the blocks that may follow; the number of
    words that every valid plan has, at least, and those that the schedulers of `compare` make of it, of which so many are copies; and how
    often it ran in the run of the source."""

    number: int
    instructions: Sequence[str]
    ends: bool
    lines: Sequence[int] = ()
    reads: Sequence[Sequence[str]] = ()
    writes: Sequence[Sequence[str]] = ()
    heights: Sequence[int] = ()
    dependences: Sequence[Dependence] = ()
    labels: Sequence[str] = ()
    end: str = ""
    successors: Sequence[int] = ()
    bound: int = 0
    words: Mapping[str, int] = field(default_factory=dict)
    copied: int = 0
    ran: int = 0


# The items of a plan in their order: the number of an instruction of the block, None for a no-op, "/" for the transfer or halt.
# "+0", "+1" or "+2" among them chooses how many words of the target the slots copy; without other items the list scheduler plans.
Plan = Sequence[Union[int, str, None]]
# A scheduler gives a plan for a block, or None, which leaves the block to the list scheduler.
Scheduler = Callable[[Block], Optional[Plan]]
# A plan file (docs/PLANS.md): its bytes, or its path.
PlanFile = Union[bytes, str, "os.PathLike[str]"]


@dataclass
class Planned:
    """A run by a scheduler's plans, and a line for each plan that was rejected, and for copies that were."""

    run: Run
    rejected: list[str]


@dataclass
class Drawing:
    """A picture of a run, which shows itself as SVG in a notebook; the other forms are made as they are asked for."""

    laboratory: "Laboratory"
    words: list[str]
    files: dict[str, bytes]
    made: dict[str, str] = field(default_factory=dict, repr=False)

    def form(self, name: str) -> str:
        """The picture as `svg`, `html`, `text`, `json`, `kanata` or `vcd`. Each is made once."""
        if name not in self.made:
            self.made[name] = self.laboratory.printed(*self.words, "--as", name, files=self.files).decode("utf-8")
        return self.made[name]

    def _repr_svg_(self) -> str:
        return self.form("svg")

    def __str__(self) -> str:
        return self.form("text")

    def save(self, path: str) -> None:
        """Writes the form that the end of the file's name says, text where it says none."""
        name = os.path.splitext(path)[1].lstrip(".")
        known = {"svg", "html", "json", "kanata", "vcd"}
        with open(path, "w", encoding="utf-8", newline="") as file:
            file.write(self.form(name if name in known else "text"))


def _flat(record: Mapping[str, Any], before: str = "") -> Record:
    """A record without records in it: their members' names follow their own."""
    flat: Record = {}
    for name, value in record.items():
        flat.update(_flat(value, f"{before}{name}_") if isinstance(value, Mapping) else {before + name: value})
    return flat


def _records(output: bytes) -> List[Record]:
    """The JSON objects that a command printed: one for each line, or one for all."""
    try:
        try:
            found = [json.loads(output)]
        except ValueError:
            found = [json.loads(line) for line in output.splitlines()]
    except ValueError:
        raise Refusal(DONE, b"the program printed no JSON: " + output[:100]) from None
    if not all(isinstance(it, dict) for it in found):
        raise Refusal(DONE, b"the program printed no JSON objects: " + output[:100])
    return found


def _rows(document: Record, name: str) -> List[Record]:
    """The records of a document that has a list of them."""
    rows = document.get(name)
    if not isinstance(rows, list):
        raise Refusal(DONE, f"the program printed a document without {name}".encode())
    return rows


def _plan_files(plans: Mapping[str, PlanFile]) -> Tuple[List[str], Dict[str, bytes]]:
    """The options of `compare` that name plan files, and these files."""
    options: List[str] = []
    files: Dict[str, bytes] = {}
    for number, (name, file) in enumerate(plans.items(), 1):
        options.append(f"--plans={name}=plans{number}")
        files[f"plans{number}"] = file if isinstance(file, bytes) else pathlib.Path(file).read_bytes()
    return options, files


def _block(record: Record) -> Block:
    """A block by its record."""
    rows, dependences = _rows(record, "instructions"), _rows(record, "dependences")
    try:
        return Block(
            number=record["block"],
            instructions=tuple(row["text"] for row in rows),
            ends=record["end"] != "falls",
            lines=tuple(row["line"] for row in rows),
            reads=tuple(tuple(row["reads"]) for row in rows),
            writes=tuple(tuple(row["writes"]) for row in rows),
            heights=tuple(row["height"] for row in rows),
            dependences=tuple(Dependence(it["from"], it["to"], it["kind"], it["weight"]) for it in dependences),
            labels=tuple(record["labels"]),
            end=record["end"],
            successors=tuple(record["successors"]),
            bound=record["bound"],
            words=record["words"],
            copied=record["copied"],
            ran=record["ran"],
        )
    except KeyError as missing:
        raise Refusal(DONE, f"the program printed a block without {missing}".encode()) from None


def _end(process: subprocess.Popen[bytes]) -> None:
    """Ends a process that leads a session of its own, and all that it started."""
    with contextlib.suppress(ProcessLookupError):
        os.killpg(process.pid, signal.SIGKILL)


def _copy(source: IO[bytes], kept: List[bytes]) -> None:
    """Keeps the lines of standard error, and prints those of a build as they come."""
    for line in source:
        kept.append(line)
        if line.startswith(PROGRESS):
            sys.stderr.write(line.decode("utf-8", "replace"))
            sys.stderr.flush()


class Laboratory:
    """The laboratory's program: a path or words to start it, or what the variable ZANDERANVIL_LAB names, or `zanderanvil` of the
    PATH, as `./mx install` leaves it. `mx` of a checkout serves as well; what it prints as it builds its program at the first call,
    which takes minutes, goes to standard error.

    Every method runs the program once, on files of its own, for at most `timeout` seconds where that is given; after these the
    program is ended, and TimeoutError is raised. A source that is refused raises `Refusal`, and so does a program that is no
    laboratory.
    """

    def __init__(self, program: Union[str, Sequence[str], None] = None, timeout: Optional[float] = None) -> None:
        given = program or os.environ.get("ZANDERANVIL_LAB") or shutil.which("zanderanvil")
        if not given:
            raise FileNotFoundError("give the path of mx or mx_lab, set ZANDERANVIL_LAB to it, or install it (./mx install PREFIX)")
        words = [given] if isinstance(given, str) else list(given)
        self.program = [os.path.abspath(words[0]) if os.path.exists(words[0]) else words[0], *words[1:]]
        self.timeout = timeout
        self._is_known = False

    def answer(self, *words: str, files: Optional[Mapping[str, bytes]] = None) -> Tuple[int, bytes, bytes]:
        """Answers a command as (status, output, errors), in a folder that holds just these files."""
        with tempfile.TemporaryDirectory(prefix="zanderanvil-") as folder:
            for name, content in (files or {}).items():
                with open(os.path.join(folder, name), "wb") as file:
                    file.write(encoded(name, content))
            return self._run(words, folder)

    def _run(self, words: Sequence[str], folder: str) -> Tuple[int, bytes, bytes]:
        """Runs the program in a folder."""
        errors: List[bytes] = []
        # (what is printed goes to a file: so there is one pipe alone to be read as it comes)
        with tempfile.TemporaryFile() as output, subprocess.Popen(
            [*self.program, *words], cwd=folder, env={**os.environ, "MX_QUIET": "1"}, stdin=subprocess.DEVNULL, stdout=output,
            stderr=subprocess.PIPE, start_new_session=True,
        ) as process:
            reader = threading.Thread(target=_copy, args=(cast("IO[bytes]", process.stderr), errors), daemon=True)
            reader.start()
            try:
                status = process.wait(self.timeout)
            except BaseException as error:
                _end(process)
                if isinstance(error, subprocess.TimeoutExpired):
                    raise TimeoutError(f"{' '.join(words[:1])} took more than {self.timeout} seconds") from None
                raise
            reader.join()
            output.seek(0)
            return status, output.read(), b"".join(errors)

    def _know(self) -> None:
        """Raises `Refusal` where the program is no laboratory: one that prints nothing says nothing of a source."""
        if not self._is_known:
            self.document("disassemble", b"halt\n")
            self._is_known = True

    def printed(self, *words: str, files: Optional[Mapping[str, bytes]] = None) -> bytes:
        """What a command prints that ends well, out of budget among that."""
        status, output, errors = self.answer(*words, files=files)
        if status not in (DONE, OUT_OF_BUDGET):
            raise Refusal(status, errors or output)
        return output

    def document(self, command: str, source: bytes, *options: str, **given: Any) -> Record:
        """The JSON document of a command on a source (docs/JSON.md)."""
        return self._document(*self._lent(command, source, options, **given))

    def _document(self, words: Sequence[str], files: Mapping[str, bytes]) -> Record:
        """The JSON document of a command, by its words and the files that they name."""
        output = self.printed(*words, "--as", "json", files=files)
        found = _records(output)
        if len(found) != 1:
            raise Refusal(DONE, b"the program printed no JSON document: " + output[:100])
        return found[0]

    def check(self, source: bytes) -> List[Record]:
        """The faults and warnings of a source: `file`, `line`, `column`, `end_column`, `severity`, `code`, `name`, `message`, `hint`."""
        status, output, errors = self.answer("check", SOURCE, "--all", "--as", "json", files={SOURCE: source})
        found = _records(output)
        if status not in (DONE, FAULTY) or (status == FAULTY and not found):
            raise Refusal(status, errors or output)
        if not found:
            self._know()
        return found

    def explain(self, source: bytes, **given: Any) -> Record:
        """How a run stands to the meaning of its source; of a source that is stuck, the line and what helps."""
        return self.document("explain", source, **given)

    def profile(self, source: bytes, by: str = "line", **given: Any) -> List[Record]:
        """A record for each `line`, `label`, `function`, or line of C (`c`), with what its cycles were spent on."""
        return _rows(self.document("profile", source, "--by", by, **given), "rows")

    def compare(self, sources: Union[bytes, Mapping[str, bytes]], plans: Optional[Mapping[str, PlanFile]] = None, **given: Any) -> List[Record]:
        """A record for each source, by its name where there are several, and each scheduler; with one source also for each plan file,
        by the name that it is given here."""
        if plans and isinstance(sources, Mapping):
            raise ValueError("plan files are those of one source: give its bytes alone")
        named = sources if isinstance(sources, Mapping) else {"": sources}
        options, lent = _plan_files(plans or {})
        records: List[Record] = []
        for name, source in named.items():
            words, files = self._lent("compare", source, options, **given)
            for row in _rows(self._document(words, {**files, **lent}), "schedulers"):
                records.append({"source": name, **_flat(row)} if name else _flat(row))
        return records

    def caches(self, source: bytes, line: int = 16, brings: int = 2, penalty: int = 2, **given: Any) -> List[Record]:
        """A record for each cache, with the misses and cycles that a run would have with it, and its `fetches`; `miss_rate` is
        misses per fetch, None without fetches."""
        options = ("--line", str(line), "--brings", str(brings), "--penalty", str(penalty))
        document = self.document("caches", source, *options, **given)
        fetches = document.get("fetches")
        return [{**row, "fetches": fetches, "miss_rate": row["misses"] / fetches if fetches else None} for row in _rows(document, "caches")]

    def interrupts(self, source: bytes, first: int = 0, last: Optional[int] = None, step: int = 1, pairs: bool = False,
                   **given: Any) -> Record:
        """What a request costs in each cycle from the first to the last in turn, or in each two: sums, histograms, and each run."""
        options = ["--rows", "--from", str(first), "--step", str(step), *(["--pairs"] if pairs else [])]
        options += [] if last is None else ["--to", str(last)]
        return self.document("interrupts", source, *options, **given)

    def disassemble(self, source: bytes) -> List[Record]:
        """A record for each word of a source's image, or of an image file: address, word, text, labels, and what its place is."""
        return _rows(self.document("disassemble", source), "words")

    def trace(self, source: bytes, **given: Any) -> List[Record]:
        """A record for the program, one for each turn of a run, and one for its end."""
        words, files = self._lent("trace", source, (), **given)
        found = _records(self.printed(*words, files=files))
        if len(found) < 2:
            raise Refusal(DONE, b"the program printed no trace")
        return found

    def draw(self, source: bytes, first: int = 0, cycles: int = 64, **given: Any) -> Drawing:
        """The pipeline in so many cycles from the first one on."""
        words, files = self._lent("draw", source, ("--from", str(first), "--cycles", str(cycles)), **given)
        drawing = Drawing(self, words, files)
        drawing.form("text")
        return drawing

    def blocks(self, source: bytes, **given: Any) -> list[Block]:
        """The blocks of a source, as a scheduler gets them, and how often each ran."""
        return [_block(it) for it in _rows(self.document("blocks", source, **given), "blocks")]

    def plans(self, source: bytes, scheduler: Scheduler, **given: Any) -> Planned:
        """Runs a source by a scheduler's plans. A plan that is not valid is rejected, and its block is padded: so every run does
        what the source means, whatever the scheduler gives."""
        lines = []
        for block in self.blocks(source, **given):
            plan = scheduler(block)
            lines.append("" if plan is None else " ".join("-" if item is None else str(item) for item in plan))
        words, files = self._lent("plans", source, (), **given)
        words.insert(2, "plans")
        files["plans"] = "".join(f"{line}\n" for line in lines).encode("ascii", "replace")
        status, output, errors = self.answer(*words, files=files)
        rejected = []
        while output.startswith((b"plan ", b"copies of plan ")):
            line, _, output = output.partition(b"\n")
            rejected.append(line.decode("ascii"))
        if status not in (DONE, OUT_OF_BUDGET):
            raise Refusal(status, errors or output)
        return Planned(read_run(status, output), rejected)

    @staticmethod
    def _lent(command: str, source: bytes, options: Iterable[str], budget: Optional[int] = None,
              interrupts: Iterable[int] = (), input: Optional[bytes] = None) -> tuple[list[str], dict[str, bytes]]:
        """The words of a command on a source, and the files that they name."""
        words, files = [command, SOURCE, *options], {SOURCE: source}
        requests = "".join(f"{cycle}\n" for cycle in interrupts).encode("ascii")
        if budget is not None:
            words += ["--budget", str(budget)]
        if requests:
            words, files["interrupts"] = [*words, "--interrupts", "interrupts"], requests
        if input is not None:
            words, files["input"] = [*words, "--input", "input"], input
        return words, files
