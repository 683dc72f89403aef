#!/usr/bin/env python3
"""Grades the answers of each exercise, right and wrong ones, and compares the points and their reasons with the stored ones.

usage: checks/exercises.py            compares with exercises/*/answers/grades.txt
       checks/exercises.py --write    writes them; read what changed

Each exercise has one right answer, which gets all points, and at least three wrong ones, of which each loses some, with a reason for
each part that loses. It also tries exercises and submissions that cannot be read.
"""
import json
import os
import re
import subprocess
import sys
import tempfile

import common
from common import TOP, tell

EXERCISES, FEWEST, GRADES = f"{TOP}/exercises", 12, "grades.txt"
LOST, WRONG = 1, 2
PARTS = re.compile(r"^  (\d+) of (\d+)  ([^:\n]+)(?:: (.+))?$", re.M)


def grade(*words):
    """Returns the status, the output and the errors of a grading."""
    environment = {**os.environ, "MX_RUN": common.program("mx_run"), "MX_LAB": common.program("mx_lab"), "MX_QUIET": "1"}
    ended = subprocess.run([sys.executable, "-B", f"{TOP}/tools/grade.py", *words], capture_output=True, env=environment, check=False)
    return ended.returncode, ended.stdout.decode(), ended.stderr.decode()


def answers_of(exercise):
    return sorted(it for it in os.listdir(f"{EXERCISES}/{exercise}/answers") if it != GRADES)


def judge(exercise, name):
    """Grades an answer, tells whether it gets what its name says, and returns the text."""
    status, output, errors = grade(f"{EXERCISES}/{exercise}", f"{EXERCISES}/{exercise}/answers/{name}")
    parts = PARTS.findall(output)
    whole = bool(parts) and all(int(points) == int(of) for points, of, _, _ in parts)
    said = all(why for points, of, _, why in parts if int(points) < int(of))
    is_right = name.startswith("right")
    tell(f"{exercise}/{name}: its status", status == (0 if is_right else LOST) and not errors, f"{status}: {errors}")
    tell(f"{exercise}/{name}: {'all points' if is_right else 'points are lost, each with a reason'}", bool(parts) and whole == is_right and said, output)
    return f"== {name}\n{output}"


def compare(exercise, is_written):
    names = answers_of(exercise)
    right = [it for it in names if it.startswith("right")]
    tell(f"{exercise}: one right answer and three wrong ones", len(right) == 1 and len(names) >= 4, str(names))
    seen = "".join(judge(exercise, it) for it in names)
    path = f"{EXERCISES}/{exercise}/answers/{GRADES}"
    if is_written:
        with open(path, "w", encoding="utf-8") as file:
            file.write(seen)
    with open(path, encoding="utf-8") as file:
        stored = file.read()
    tell(f"{exercise}: as stored", seen == stored, "\n".join(it for it in seen.splitlines() if it not in stored.splitlines()))
    said = json.loads(grade("--as", "json", f"{EXERCISES}/{exercise}", f"{EXERCISES}/{exercise}/answers/{right[0]}")[1])
    tell(f"{exercise}: JSON", said["points"] == said["of"] == sum(it["of"] for it in said["parts"]) and said["exercise"] == exercise, str(said))


def refuse_bad_input():
    """Tries what cannot be graded: each is refused with one line that names it."""
    with tempfile.TemporaryDirectory() as folder:
        def case(name, text, submission, wanted):
            at = f"{folder}/{name}"
            os.mkdir(at)
            if text is not None:
                with open(f"{at}/exercise.json", "w", encoding="utf-8") as file:
                    file.write(text)
            with open(f"{at}/x.s", "w", encoding="utf-8") as file:
                file.write("halt\n")
            with open(f"{at}/empty", "w", encoding="utf-8"):
                pass
            status, output, errors = grade(at, submission.format(at))
            holds = status == WRONG and not output and errors.count("\n") == 1 and wanted in errors
            tell(f"bad input: {name}", holds, f"{status} {output} {errors}")

        run = '{"kind": "source", "runs": [{"points": 1, "console": "1.out"%s}]%s}'
        case("none", None, "{}/x.s", "exercise.json': no such file")
        case("no JSON", "{", "{}/x.s", "invalid JSON")
        case("a list", "[]", "{}/x.s", "expected an object whose kind is")
        case("another kind", '{"kind": "essay"}', "{}/x.s", "expected an object whose kind is")
        case("no console", run % ("", ""), "{}/x.s", "1.out': no such file")
        case("no points", '{"kind": "source", "runs": [{}]}', "{}/x.s", "'points' is left out")
        case("points of a text", '{"kind": "source", "runs": [{"points": "1"}]}', "{}/x.s", "'points' is of the wrong kind")
        case("runs of no list", '{"kind": "source", "runs": 3}', "{}/x.s", "runs is a list")
        run = run.replace("1.out", "empty")
        case("another figure", run % ("", ', "limits": [{"figure": "speed", "most": 1, "points": 1}]'), "{}/x.s", "unknown figure 'speed'")
        case("another run", run % ("", ', "limits": [{"figure": "cycles", "run": 2, "most": 1, "points": 1}]'), "{}/x.s", "there is no run 2")
        case("no submission", run % ("", ""), "{}/none.s", "none.s': no such file")
        case("a folder as submission", run % ("", ""), "{}", "is a directory")
        for words in ((), ("x",), ("--as", "xml", "x", "y"), ("x", "y", "z")):
            status, _, errors = grade(*words)
            tell(f"bad arguments: {' '.join(words) or 'none'}", status == WRONG and errors.count("\n") == 1, f"{status} {errors}")


def main():
    words = sys.argv[1:]
    if words not in ([], ["--write"]):
        common.wrong_arguments(f"unexpected argument {words[0]}")
    exercises = sorted(it for it in os.listdir(EXERCISES) if os.path.isdir(f"{EXERCISES}/{it}"))
    tell(f"at least {FEWEST} exercises", len(exercises) >= FEWEST, str(exercises))
    for it in exercises:
        compare(it, bool(words))
    refuse_bad_input()
    return common.finish("exercises.py", "gradings")


if __name__ == "__main__":
    sys.exit(main())
