#!/usr/bin/env python3
"""The module of `python` where its programs refuse, hang, build or are none: with a library and programs of this check.

usage: checks/python_module.py

Where the environment has MX_LAB, the laboratory's program, it is asked as well. The types are those of `mypy --strict` where mypy is
installed. The version has to be that of the file VERSION in every place that has one.
"""
import contextlib
import io
import json
import os
import pickle
import re
import shutil
import subprocess
import sys
import tempfile
import time
from concurrent.futures import ProcessPoolExecutor, ThreadPoolExecutor

from tiny import TOP, Tally, is_alive, read, write

sys.path.insert(0, f"{TOP}/python")
import zanderanvil  # noqa: E402
from zanderanvil import Case, Laboratory, Refusal, Study, Zanderanvil, survey, sweep  # noqa: E402

# A library that counts its calls, and answers as many bytes as the text of the source says; `refuse` is refused.
LIBRARY = r"""
#include <stdlib.h>
#include <zanderanvil.h>
static size_t calls;
size_t count_calls(void) { return calls; }
zanderanvil_outcome zanderanvil_command(const zanderanvil_call *call, uint8_t *output, size_t room, uint8_t *file, size_t file_room)
{
    zanderanvil_outcome it = {0, 0, 0, 0, 0};
    calls++;
    (void)file, (void)file_room;
    it.output_needed = call->source.length ? (size_t)strtoul((const char *)call->source.bytes, NULL, 10) : 0;
    if (call->source.length == 6) {
        it.status = ZANDERANVIL_REFUSED;
        it.output_needed = 8;
    }
    it.output = it.output_needed < room ? it.output_needed : room;
    memset(output, 'x', it.output);
    if (it.output_needed > room)
        it.status = ZANDERANVIL_TOO_SHORT;
    return it;
}
"""
# A laboratory that counts its calls and takes as long as its source says.
LABORATORY = """#!/bin/sh
echo "$*" >>COUNT
case $1 in
    check) [ "$(cat source.s)" = slow ] && { echo $$ >PID; sleep 60 & echo $! >>PID; wait; }
        [ "$(cat source.s)" = build ] && { echo 'mx: building mx_lab, without its proof' >&2; sleep 2; echo '{"line": 1}'; exit 1; }
        exit 0 ;;
    disassemble) echo '{"words": []}' ;;
    draw) echo "picture $*" ;;
    refuse) exit 1 ;;
esac
"""


def raised(kind, call, *words):
    """Tells whether a call raises this, with these words in what it says."""
    try:
        call()
    except kind as error:
        return all(word in str(error) for word in words)
    return False


def refusals(tally):
    refusal = Refusal(1, b"line 1: F3")
    again = pickle.loads(pickle.dumps(refusal))
    tally.need((again.status, again.output, str(again)) == (1, b"line 1: F3", "line 1: F3"), "a refusal is pickled as it is")
    with ProcessPoolExecutor(2) as pool:
        found = [pool.submit(refuse, it) for it in (1, 2)]
        caught = [it.exception() for it in found]
        tally.need([getattr(it, "status", None) for it in caught] == [1, 2], "a pool of processes hands refusals on", caught)
        tally.need(pool.submit(abs, -3).result() == 3, "and goes on after them")
    for program in ("/bin/false", "/bin/true", "/bin/echo"):
        lab = Laboratory(program)
        calls = {"check": lab.check, "profile": lab.profile, "compare": lab.compare, "caches": lab.caches, "trace": lab.trace,
                 "explain": lab.explain, "disassemble": lab.disassemble, "interrupts": lab.interrupts}
        for name, call in calls.items():
            tally.need(raised(Refusal, lambda: call(b"halt\n")), f"{program} is no laboratory: {name} raises")


def refuse(status):
    raise Refusal(status, b"of a process")


def programs(tally, folder):
    """What is asked of a program: once, for so long, and with what it says as it builds."""
    program, count, pid = f"{folder}/lab", f"{folder}/count", f"{folder}/pid"
    write(program, LABORATORY.replace("COUNT", count).replace("PID", pid), 0o755)
    lab = Laboratory(program)
    drawing = lab.draw(b"halt\n")
    for _ in range(3):
        str(drawing), drawing._repr_svg_(), drawing.form("svg")
    forms = sorted(line.split()[-1] for line in read(count).splitlines())
    tally.need(forms == ["svg", "text"], "a picture is made once in each form", forms)
    write(count, "")
    tally.need(lab.check(b"halt\n") == [] and lab.check(b"halt\n") == [], "a source without a fault has none")
    tally.need(read(count).count("disassemble") == 1, "an empty answer is believed after one question", read(count))
    began = time.monotonic()
    holds = raised(TimeoutError, lambda: Laboratory(program, timeout=1).check(b"slow"), "check", "1 seconds")
    tally.need(holds and time.monotonic() - began < 30, "a program that takes too long is ended")
    tally.need(not any(is_alive(int(it)) for it in read(pid).split()), "with all that it started")
    studies = [Study("slow", b"slow", "check"), Study("fine", b"build", "check")]
    with ThreadPoolExecutor(2) as pool, contextlib.redirect_stderr(io.StringIO()) as said:
        records = survey(program, studies, pool, timeout=20)
    tally.need(["refused" in it for it in records] == [True, False] and records[1]["line"] == 1, "a survey goes on after it", records)
    tally.need("mx: building mx_lab" in said.getvalue(), "what a first build says goes to standard error", said.getvalue())
    shown = subprocess.Popen([sys.executable, "-c", f"import sys; sys.path.insert(0, {TOP + '/python'!r})\nfrom zanderanvil import Laboratory\n"
                              f"print(Laboratory({program!r}).check(b'build'))"], stdout=subprocess.PIPE, stderr=subprocess.PIPE, text=True)
    line = shown.stderr.readline()
    tally.need("building" in line and shown.poll() is None, "while it builds", line)
    shown.communicate()


def library(tally, folder):
    """What is asked of a library: once."""
    if not shutil.which("cc"):
        print("skipped: cc is missing")
        return
    write(f"{folder}/library.c", LIBRARY)
    path = f"{folder}/library.so"
    subprocess.run(["cc", "-Wall", "-Wextra", "-Werror", "-shared", "-fPIC", f"-I{TOP}/include", f"{folder}/library.c", "-o", path], check=True)
    it = Zanderanvil(path)
    import ctypes
    calls = ctypes.CDLL(path).count_calls
    for size in (0, 1, 65536, 65537, 10_000_000):
        before = calls()
        status, output, file = it.command("list", "source", source=b"%d" % size)
        tally.need((status, len(output), file) == (0, size, b"") and calls() == before + 1, f"an answer of {size} bytes takes one call")
    size = (64 << 20) + 1
    tally.need(len(it.command("list", "source", source=b"%d" % size)[1]) == size, "and a larger one comes too")
    tally.need(raised(TypeError, lambda: it.command("list", "source", sources=b""), "sources"), "a file of another name is refused")
    tally.need(raised(TypeError, lambda: it.command("list", "source", source="halt"), "source is a str"), "a str is refused with a sentence")
    tally.need(raised(Refusal, lambda: it.listing(b"refuse"), "xxxxxxxx"), "a refused source is refused")
    rows = [Case("a", b"refuse"), Case("b", b"refuse")]
    with ProcessPoolExecutor(2) as pool:
        found = sweep(path, rows, pool)
    tally.need([row.refused for row in found] == ["xxxxxxxx", "xxxxxxxx"], "a sweep by processes has what was refused")


def versions(tally, folder):
    version = read(f"{TOP}/VERSION").strip()
    major, minor = version.split(".")
    tally.need(zanderanvil.__version__ == version, "the module has the version of VERSION", zanderanvil.__version__)
    project = re.search(r'^version = "(.*)"$', read(f"{TOP}/python/pyproject.toml"), re.M)
    tally.need(project is not None and project[1] == version, "pyproject.toml has the version of VERSION", project)
    header = dict(re.findall(r'#define ZANDERANVIL_VERSION(_MAJOR|_MINOR|_TEXT|) (.*)', read(f"{TOP}/include/zanderanvil.h")))
    tally.need(header.get("_MAJOR") == major and header.get("_MINOR") == minor and header.get("_TEXT") == f'"{version}"',
               "the header has it", header)
    words = re.search(r'\.version\("([^"]*)"\)', read(f"{TOP}/crates/lab_line/src/words.rt")).group(1)
    tally.need(words == version, "the laboratory has it", words)
    tally.need(f"libzanderanvil.so.{major}" in read(f"{TOP}/build/library.sh"), "the soname has its first number")
    header = " ".join(read(f"{TOP}/include/zanderanvil.h").replace("*", " ").split())
    bounds = ("`length` is at most PTRDIFF_MAX", "a room is at most PTRDIFF_MAX")
    tally.need(all(it in header for it in bounds), "the header bounds the lengths and rooms that a call may have")
    if not shutil.which("cc"):
        return
    write(f"{folder}/version.c", f"""#include <zanderanvil.h>
_Static_assert(ZANDERANVIL_VERSION == {major} * 1000 + {minor}, "");
int main(void) {{ return sizeof ZANDERANVIL_VERSION_TEXT != {len(version) + 1}; }}
""")
    done = subprocess.run(["cc", "-std=c11", "-pedantic", "-Wall", "-Wextra", "-Werror", f"-I{TOP}/include", "-c", f"{folder}/version.c", "-o",
                           f"{folder}/version.o"], capture_output=True, text=True)
    tally.need(done.returncode == 0, "as numbers that a program can compare", done.stderr)


def types(tally):
    tally.need(os.path.isfile(f"{TOP}/python/zanderanvil/py.typed"), "the module says that it has types")
    if not shutil.which("mypy"):
        print("skipped: mypy is not there")
        return
    words = ["mypy", "--strict", "--cache-dir=/dev/null", f"{TOP}/python/zanderanvil", f"{TOP}/examples/embed/run.py", f"{TOP}/examples/embed/study.py"]
    done = subprocess.run(words, capture_output=True, text=True, env={**os.environ, "MYPYPATH": f"{TOP}/python"}, cwd="/")
    tally.need(done.returncode == 0, "mypy --strict passes", done.stdout)


def real(tally):
    lab = Laboratory(os.environ["MX_LAB"])
    found = lab.check(b"adi r1,#1,r1\nhalt\n")
    tally.need([(row["line"], row["code"]) for row in found] == [(1, "F3")], "the laboratory's check has a fault with its line")
    tally.need(lab.check(b"halt\n") == [], "and nothing of a source without one")
    fields = json.loads(read(f"{TOP}/docs/lab.schema.json"))["$defs"]["finding"]["required"]
    tally.need(len(fields) > 8 and set(fields) == set(found[0]), "it has each field of the schema")
    caches = lab.caches(b"loop: addi r1,#1,r1\nadd r0,r0,r2\nbeq r1,r2,loop\nhalt\n")
    tally.need(all(round(row["miss_rate"] * row["fetches"]) == row["misses"] > 0 for row in caches), "each cache has its fetches and its miss rate")
    tally.need({row["miss_rate"] for row in lab.caches(b"halt\n", budget=1)} == {None}, "which nothing has without a fetch")
    tally.need(raised(Refusal, lambda: lab.profile(b"foo"), ":1:1: error[F3]"), "a faulty source is refused with its line")
    tally.need(len(lab.trace(b"halt\n")) > 2 and lab.plans(b"halt\n", lambda block: None).run.halted, "its trace and plans")
    plan_files(tally, lab)


def plan_files(tally, lab):
    """Compares plan files with the schedulers, by their bytes and by their path."""
    source, path = read(f"{TOP}/examples/full_slots.s").encode("ascii"), f"{TOP}/examples/rejected.plans"
    rows = {row["plans"]: row for row in lab.compare(source, plans={"mine": b"/ 1 0\n/\n", "-none": b"\n", "file": path})}
    tally.need([*rows] == ["padded", "list", "copies", "best", "mine", "-none", "file"], "compare has a record for each plan file", [*rows])
    tally.need(rows["mine"]["words"] + 1 == rows["copies"]["words"] == rows["-none"]["words"], "with the words of its plans", rows)
    tally.need((rows["mine"]["rejected"], rows["file"]["rejected"]) == (0, 1), "and how many of them are rejected", rows["file"])
    ran = [block.ran for block in lab.blocks(b"addi r0,#3,r1\nloop: addi r1,#-1,r1\nbne r1,r0,loop\nhalt\n")]
    tally.need(ran == [1, 3, 1], "blocks say how often they ran", ran)
    tally.need(raised(ValueError, lambda: lab.compare({"a": source}, plans={"mine": b""}), "one source"), "plan files are of one source")
    tally.need(raised(Refusal, lambda: lab.compare(source, plans={"a/b": b""}), "a/b"), "a name that is none is refused")
    tally.need(raised(FileNotFoundError, lambda: lab.compare(source, plans={"a": "missing"})), "so is a file that is missing")


def main():
    if len(sys.argv) != 1:
        print(__doc__.strip(), file=sys.stderr)
        return 2
    tally = Tally("python_module")
    tally.run(refusals)
    with tempfile.TemporaryDirectory(prefix="mx-python-") as folder:
        for case in (programs, library, versions):
            tally.run(case, folder)
    tally.run(types)
    if os.environ.get("MX_LAB"):
        tally.run(real)
    return tally.status()


if __name__ == "__main__":
    sys.exit(main())
