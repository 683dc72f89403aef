#!/usr/bin/env python3
"""Grades a submission: usage: grade.py [--as text|json] EXERCISE SUBMISSION

EXERCISE is a folder with exercise.json (docs/EXERCISES.md); SUBMISSION is a source, a plan file, or a file of answers. It prints the
points, and of each lost point why it is lost: the line, and what the machine did. It ends with 0 where all points are reached, with 1
where some are lost, and with 2 where the exercise or the arguments are wrong.
"""
import json
import os
import re
import sys
from typing import Any, Dict, List, NamedTuple, Optional, Tuple

TOP = os.path.dirname(os.path.dirname(os.path.abspath(__file__)))
sys.path.insert(0, f"{TOP}/python")
from zanderanvil.laboratory import Laboratory, Record  # noqa: E402
from zanderanvil.library import DONE, OUT_OF_BUDGET, Refusal, Run, read_run  # noqa: E402

LOST, WRONG = 1, 2
KINDS = ("source", "plans", "answers")
FIGURES = ("cycles", "fetches", "misses", "squashes", "words", "noops")
BUDGET, MOST_BUDGET = 100_000, 100_000_000
MOST_POINTS, MOST_FIGURE = 1_000_000, 1_000_000_000
# How long a command may take, in seconds: the first one may build its program.
PATIENCE = 900
MOST_SUBMISSION = 4_194_304
# How much of a console a sentence shows, and of how many lines it says what they cost.
SHOWN, DEAREST = 24, 3


class Fault(Exception):
    """What is wrong with an exercise or with the arguments."""


class Part(NamedTuple):
    """A part of an exercise: what it asks, its points, those reached, and, where some are lost, the line of the submission and why."""

    name: str
    of: int
    points: int
    line: Optional[int] = None
    why: str = ""


def lost(name: str, of: int, why: str, line: Optional[int] = None) -> Part:
    return Part(name, of, 0, line, why)


def read_bytes(path: str) -> bytes:
    """Returns what a file holds."""
    try:
        with open(path, "rb") as file:
            content = file.read(MOST_SUBMISSION + 1)
    except OSError as error:
        raise Fault(f"cannot read '{path}': {(error.strerror or 'it failed').lower()}") from None
    except ValueError:
        raise Fault(f"cannot read {shown(path.encode(errors='replace'))}: the name of a file has no byte 0") from None
    if len(content) > MOST_SUBMISSION:
        raise Fault(f"'{path}' has more than {MOST_SUBMISSION:,} bytes")
    return content


class Exercise:
    """What exercise.json of a folder says, and the files that it names."""

    def __init__(self, folder: str) -> None:
        self.folder, path = folder, os.path.join(folder, "exercise.json")
        try:
            self.said = json.loads(read_bytes(path))
        except ValueError as error:
            raise Fault(f"{path}: invalid JSON: {error}") from None
        except RecursionError:
            raise Fault(f"{path}: invalid JSON: too many levels") from None
        if not isinstance(self.said, dict) or self.said.get("kind") not in KINDS:
            raise Fault(f"{path}: expected an object whose kind is {', '.join(KINDS[:-1])} or {KINDS[-1]}")
        self.kind, self.path = self.said["kind"], path
        if not all(isinstance(it, dict) for name in ("runs", "limits", "questions") for it in self.records(name)):
            raise Fault(f"{path}: runs, limits and questions are lists of objects")

    def records(self, name: str) -> List[Record]:
        found = self.said.get(name, [])
        if not isinstance(found, list):
            raise Fault(f"{self.path}: {name} is a list")
        return found

    def value(self, record: Record, name: str, kind: type, default: Any = None) -> Any:
        """Returns a member of a record that has to be of a kind."""
        found = record.get(name, default)
        if not isinstance(found, kind) or isinstance(found, bool):
            raise Fault(f"{self.path}: '{name}' is {'left out' if name not in record else 'of the wrong kind'}: expected {kind.__name__}")
        return found

    def number(self, record: Record, name: str, most: int, default: Any = None) -> int:
        """Returns a member of a record that has to be a number from 0 on."""
        found = int(self.value(record, name, int, default))
        if not 0 <= found <= most:
            raise Fault(f"{self.path}: '{name}' is {shown(str(found).encode())}: expected 0 to {most:,}")
        return found

    def file(self, record: Record, name: str) -> Optional[bytes]:
        """Returns what the file holds that a member names, if there is one."""
        return read_bytes(os.path.join(self.folder, self.value(record, name, str))) if name in record else None

    def given(self, run: Record) -> Dict[str, Any]:
        """Returns what a run is given: its budget, its input, and the cycles of its requests."""
        requests = self.file(run, "interrupts")
        try:
            cycles = [int(line) for line in (requests or b"").split()]
        except ValueError:
            raise Fault(f"{self.path}: an interrupt file has a cycle in each line") from None
        return {"budget": self.number(run, "budget", MOST_BUDGET, BUDGET), "input": self.file(run, "input"), "interrupts": cycles}


def shown(text: bytes) -> str:
    """Returns the beginning of a console as it is printed in a sentence."""
    spelled = text[:SHOWN].decode("latin-1").encode("unicode_escape").decode("ascii")
    return f"'{spelled}'" + (" .." if len(text) > SHOWN else "")


def counted(count: int, thing: str) -> str:
    """Returns a number of things: `1 cycle`, `2 cycles`, `2 misses`."""
    return f"{count:,} {thing if count == 1 else thing + ('es' if thing.endswith('s') else 's')}"


class Grader:
    """Grades submissions of an exercise by the commands of ./mx."""

    def __init__(self, exercise: Exercise, submission: bytes) -> None:
        self.exercise, self.submission = exercise, submission
        self.laboratory = Laboratory(f"{TOP}/mx", timeout=PATIENCE)

    def grade(self) -> List[Part]:
        by = {"source": self.source, "plans": self.plans, "answers": self.answers}
        return by[self.exercise.kind]()

    # A submission that is a source

    def source(self) -> List[Part]:
        exercise = self.exercise
        fault = self.fault_in(self.submission)
        runs, parts, ended = exercise.records("runs"), [], []
        for number, run in enumerate(runs, 1):
            name, of = exercise.value(run, "name", str, f"run {number}"), exercise.number(run, "points", MOST_POINTS)
            if fault:
                parts.append(lost(name, of, *fault))
            else:
                ended.append(self.run(self.submission, exercise.given(run)))
                parts.append(self.judge_console(name, of, run, ended[-1]))
        for limit in exercise.records("limits"):
            number = exercise.number(limit, "run", MOST_FIGURE, 1)
            if not 1 <= number <= len(runs):
                raise Fault(f"{exercise.path}: there is no run {number}")
            name = self.name_of(limit)
            if fault:
                parts.append(lost(name, exercise.number(limit, "points", MOST_POINTS), "the source is refused"))
            elif parts[number - 1].points < parts[number - 1].of:
                parts.append(lost(name, exercise.number(limit, "points", MOST_POINTS), f"'{parts[number - 1].name}' is not right, so this is not measured"))
            else:
                parts.append(self.judge_limit(limit, ended[number - 1], runs[number - 1]))
        return parts

    def fault_in(self, source: bytes) -> Optional[Tuple[str, Optional[int]]]:
        """Returns why a source is refused, and the line; None where it has no error."""
        for it in self.laboratory.check(source):
            if it.get("severity") == "error":
                hint = f" ({it['hint']})" if it.get("hint") else ""
                return f"{it['code']}: {it['message']}{hint}", it["line"]
        return None

    def run(self, source: bytes, given: Dict[str, Any]) -> Run:
        words, files = self.laboratory._lent("run", source, (), **given)
        status, output, errors = self.laboratory.answer(*words, files=files)
        if status not in (DONE, OUT_OF_BUDGET):
            raise Refusal(status, errors or output)
        return read_run(status, output)

    def judge_console(self, name: str, of: int, run: Record, ended: Run) -> Part:
        """Compares the console of a run with the expected one."""
        expected = self.exercise.file(run, "console")
        if expected is None:
            raise Fault(f"{self.exercise.path}: 'console' is left out")
        given = self.exercise.given(run)
        if ended.console == expected and ended.halted:
            return Part(name, of, of)
        said = f"the console is {shown(ended.console)}, expected {shown(expected)}"
        if not ended.halted:
            why, line = self.why_it_runs(given)
            return lost(name, of, f"{why}; {said}", line)
        at = next((n for n, (one, other) in enumerate(zip(ended.console, expected)) if one != other), min(len(ended.console), len(expected)))
        line = self.line_that_acts(at, given)
        if at >= len(ended.console):
            return lost(name, of, f"{said}: the run halts after {counted(at, 'byte')}", line)
        return lost(name, of, f"{said}: byte {at + 1} is {shown(ended.console[at:at + 1])}", line)

    def line_that_acts(self, at: int, given: Dict[str, Any]) -> Optional[int]:
        """Returns the line of the store that sent a byte of the console, or of the halt where so many were not sent."""
        lines = {it["address"]: it["place"]["line"] for it in self.laboratory.disassemble(self.submission)}
        acts = [it for it in self.laboratory.trace(self.submission, **given)[1:-1] if it.get("commit")]
        sends = [it for it in acts if it.get("byte") is not None]
        act = sends[at] if at < len(sends) else acts[-1]
        return lines.get(act["commit"]["address"]) or None

    def why_it_runs(self, given: Dict[str, Any]) -> Tuple[str, Optional[int]]:
        """Returns why a run does not halt, and the line: where its source is stuck, or what takes most of its cycles."""
        verdict = self.laboratory.explain(self.submission, **given)
        if verdict["verdict"] == "stuck":
            return f"the run does not halt: {verdict['message']}", verdict["line"]
        where = self.dearest(given)
        which = f": {self.spent_on(where[0])}" if where else ""
        return f"the run does not halt within {counted(given['budget'], 'cycle')}{which}", where[0]["line"] if where else None

    def dearest(self, given: Dict[str, Any]) -> List[Record]:
        """Returns the lines on which a run spent most cycles."""
        rows = [it for it in self.laboratory.profile(self.submission, **given) if it["cycles"]]
        return sorted(rows, key=lambda it: -int(it["cycles"]))[:DEAREST]

    @staticmethod
    def spent_on(row: Record) -> str:
        """Says what a line of a profile costs."""
        parts = [f"{row[it]:,} {word}" for it, word in (("stalls", "stalled"), ("noops", "no-ops"), ("squashed", "squashed")) if row[it]]
        return f"line {row['line']} takes {row['cycles']:,} of them" + (f" ({', '.join(parts)})" if parts else "")

    def name_of(self, limit: Record) -> str:
        figure, most = self.exercise.value(limit, "figure", str), self.exercise.number(limit, "most", MOST_FIGURE)
        if figure not in FIGURES:
            raise Fault(f"{self.exercise.path}: unknown figure {shown(figure.encode(errors='replace'))}: expected {', '.join(FIGURES)}")
        return f"at most {most:,} {figure if figure != 'noops' else 'no-ops'}"

    def judge_limit(self, limit: Record, ended: Run, run: Record) -> Part:
        """Compares a figure of a run with the most that is allowed."""
        figure, most, of = limit["figure"], limit["most"], self.exercise.number(limit, "points", MOST_POINTS)
        name, seen = self.name_of(limit), ended.counts[figure]
        if seen <= most:
            return Part(name, of, of)
        if figure in ("words", "noops"):
            return self.lost_to_noops(name, of, figure, seen)
        where = self.dearest(self.exercise.given(run))
        said = "; ".join(self.spent_on(it) for it in where) if figure == "cycles" else ""
        return lost(name, of, f"{seen:,}" + (f": {said}" if said else ""), int(where[0]["line"]) if where else None)

    def lost_to_noops(self, name: str, of: int, figure: str, seen: int) -> Part:
        """Says of too many words which of them are no-ops, and after which lines they are."""
        line, after = 0, []
        for it in self.laboratory.disassemble(self.submission):
            place = it["place"]
            if place["kind"] == "noop":
                after.append((line, place["why"]))
            line = place["line"] or line
        why = {"load": "after a load", "slot": "in a slot"}
        said = [f"a no-op {why.get(it, 'as padding')} of line {at}" for at, it in after[:DEAREST]]
        which = f": {'; '.join(said)}" if said else ""
        return lost(name, of, f"{seen:,}{which}", after[0][0] if after else None)

    # A submission that is a plan file

    def plans(self) -> List[Part]:
        exercise = self.exercise
        source = exercise.file(exercise.said, "source")
        if source is None:
            raise Fault(f"{exercise.path}: 'source' is left out")
        of = exercise.number(exercise.said, "points", MOST_POINTS)
        words, files = self.laboratory._lent("plans", source, ())
        words.insert(2, "plans")
        files["plans"] = self.submission
        status, output, errors = self.laboratory.answer(*words, files=files)
        rejected = []
        while output.startswith((b"plan ", b"copies of plan ")):
            verdict, _, output = output.partition(b"\n")
            rejected.append(verdict.decode("ascii"))
        limits = exercise.records("limits")
        if status not in (DONE, OUT_OF_BUDGET):
            said = (errors or output).decode("utf-8", "replace").strip().splitlines()
            found = re.search(r"plans:(\d+): (.*)", said[0] if said else "")
            why, line = (found[2], int(found[1])) if found else (said[0] if said else f"status {status}", None)
            return [lost("valid plans", of, why, line)] + [
                lost(self.name_of(it), exercise.number(it, "points", MOST_POINTS), "the plans cannot be read") for it in limits]
        parts = [self.judge_plan(of, rejected)]
        ended = read_run(status, output)
        for it in limits:
            part = Part(self.name_of(it), exercise.number(it, "points", MOST_POINTS), 0)
            seen = ended.counts[it["figure"]]
            if rejected:
                parts.append(part._replace(why="a rejected plan is not measured"))
            elif seen <= it["most"]:
                parts.append(part._replace(points=part.of))
            else:
                parts.append(part._replace(why=f"{seen:,}"))
        return parts

    @staticmethod
    def judge_plan(of: int, rejected: List[str]) -> Part:
        """Loses the points of valid plans where a plan or its copies are rejected, with the line of its block and the rule."""
        if not rejected:
            return Part("valid plans", of, of)
        found = re.match(r"(copies of )?plan (\d+) \(line (\d+)\) rejected by (.*)", rejected[0])
        if found is None:
            return lost("valid plans", of, rejected[0])
        what = "the copies of the plan" if found[1] else "the plan"
        return lost("valid plans", of, f"{what} of the block in line {found[3]} {'are' if found[1] else 'is'} rejected by {found[4]}", int(found[2]))

    # A submission that is a file of answers

    def answers(self) -> List[Part]:
        """Compares answers, lines `NAME = ANSWER`, with the expected ones."""
        exercise = self.exercise
        given: Dict[str, Tuple[int, str]] = {}
        for number, line in enumerate(self.submission.decode("utf-8", "replace").splitlines(), 1):
            name, is_answer, value = line.partition("=")
            if is_answer:
                given[name.strip().lower()] = (number, value)
        parts = []
        for question in exercise.records("questions"):
            name, of = exercise.value(question, "name", str), exercise.number(question, "points", MOST_POINTS)
            if name not in given:
                parts.append(lost(name, of, f"there is no line '{name} = ..'"))
                continue
            at, value = given[name]
            if is_answer_to(value, exercise.value(question, "answer", str)):
                parts.append(Part(name, of, of))
            else:
                parts.append(lost(name, of, f"'{value.strip()}' is not right: {exercise.value(question, 'because', str)}", at))
        return parts


def is_answer_to(said: str, expected: str) -> bool:
    """Tells whether an answer is the expected one: the same number, or the same words in any case and order of blanks."""
    one, other = (" ".join(it.lower().split()) for it in (said, expected))
    try:
        return int(one.replace(",", ""), 0) == int(other, 0)
    except ValueError:
        return one == other


def as_text(name: str, parts: List[Part]) -> str:
    """Returns the points in words."""
    of, points = sum(it.of for it in parts), sum(it.points for it in parts)
    lines = [f"{name}: {points} of {counted(of, 'point')}"]
    for it in parts:
        where = f"line {it.line}: " if it.line else ""
        lines.append(f"  {it.points} of {it.of}  {it.name}" + (f": {where}{it.why}" if it.why else ""))
    return "\n".join(lines)


def as_json(name: str, parts: List[Part]) -> str:
    """Returns the points as a JSON object in one line."""
    rows = [{"name": it.name, "points": it.points, "of": it.of, "line": it.line, "why": it.why or None} for it in parts]
    return json.dumps({"exercise": name, "points": sum(it.points for it in parts), "of": sum(it.of for it in parts), "parts": rows})


def first_line(said: str) -> str:
    """Returns what is wrong in one line, without the beginning that each message of ./mx has."""
    return (said.splitlines() or [""])[0].replace("zanderanvil: error: ", "", 1)


def main(words: List[str]) -> int:
    form = as_text
    if words[:1] == ["--as"] and words[1:2] in (["text"], ["json"]):
        form, words = {"text": as_text, "json": as_json}[words[1]], words[2:]
    if len(words) != 2 or words[0].startswith("--"):
        print("zanderanvil: error: usage: ./mx grade [--as text|json] EXERCISE SUBMISSION", file=sys.stderr)
        return WRONG
    folder, submission = words
    try:
        exercise = Exercise(folder)
        parts = Grader(exercise, read_bytes(submission)).grade()
    except (Fault, Refusal, TimeoutError) as error:
        print(f"zanderanvil: error: {first_line(str(error))}", file=sys.stderr)
        return WRONG
    print(form(os.path.basename(os.path.abspath(folder)), parts))
    return LOST if any(it.points < it.of for it in parts) else 0


if __name__ == "__main__":
    sys.exit(main(sys.argv[1:]))
