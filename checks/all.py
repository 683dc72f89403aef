#!/usr/bin/env python3
"""Runs the checks side by side, and reports which hold, which fail, and what is skipped since a tool is missing.

usage: checks/all.sh [--full] [NAME ..]
       checks/all.sh --self-test [NAME ..]
       checks/all.sh --list

Without names it runs all checks, the slow ones on a sample; with --full the whole of each. With --self-test it plants a fault for each
check in a copy, and the check has to find it (checks/planted.py). The programs are those that MX_RUN, MX_LAB, MX_CC and MX_SERVE
name, or proved ones, or built without proof in a temporary folder. Nothing is written into the repository.

A check has to end with 0 and to report `compared N ..` at its end, with N above 0; it is skipped where it ends with 77. One that fails
is tried once more when nothing else runs, and the last lines name it also if it then holds. With --self-test nothing is tried twice.
"""
import concurrent.futures
import os
import re
import shutil
import signal
import subprocess
import sys
import tempfile
import threading
import time
from typing import NamedTuple

import common
from common import TOP

PROGRAMS = ("mx_run", "mx_lab", "mx_cc", "mx_serve")
# The folder of the library for C, which checks are given like a program.
LIBRARY = "mx_embed"
COMPARED = re.compile(r"\bcompared ([0-9][0-9,]*)\b")
SKIPPED = re.compile(r"^skipped: (.*)$", re.M)
# How long a check may take on a machine that takes NOMINAL seconds for a loop of Python; a slower one has more time.
MINUTE, NOMINAL, LOOP = 60, 0.25, 5_000_000
# A last resort: checks that have not begun by then are skipped.
LATEST = 90 * MINUTE
LINES_OF_FAILURE = 40
SECONDS_TO_CLEAR = 5


class Check(NamedTuple):
    """A check: the words that run it, the programs it needs, its minutes on a sample, whether it runs alone, after all others, the
    commands without which nothing of it can run, and the programs without which a part of it is left out."""
    name: str
    words: tuple
    programs: tuple = ()
    minutes: int = 10
    is_alone: bool = False
    tools: tuple = ()
    wishes: tuple = ()
    # what is run with --full, if it is something else
    full: tuple = ()


MIPS = ("mips-linux-gnu-gcc", "qemu-mips")
TINY = ("git", "cc", "ar")
CHECKS = (
    # what the folders and documents say
    Check("deps", ("deps.py",)),
    Check("edits", ("edits.py",)),
    Check("reading", ("reading.py",)),
    Check("promises", ("promises.py",)),
    Check("trusted parts", ("trusted.py",)),
    Check("theorem", ("theorem.py",), ("mx_run", "mx_lab")),
    Check("style", ("style.py",)),
    Check("links", ("links.py",)),
    Check("editors", ("editors.py",)),
    Check("tables", ("tables.py",)),
    Check("viewer", ("viewer.py",)),
    Check("lint", ("lint.sh",)),
    Check("completions", ("completions.sh",)),
    Check("shells", ("shells.sh",)),
    Check("plan cases", ("plans.py",)),
    Check("caches", ("caches.py",)),
    # the toolchain
    Check("rows", ("rows.sh",), ("mx_run",), 15),
    Check("edges", ("edge.sh",), ("mx_run",)),
    Check("memory", ("memory.sh",), ("mx_run",), tools=("bash", "cc")),
    Check("soak", ("soak.py",), ("mx_run",)),
    Check("latches", ("latches.py",), (), 30),
    Check("messages", ("messages.py",), ("mx_run", "mx_lab")),
    Check("package", ("package.py",), ("mx_run", "mx_lab"), tools=("dpkg-deb",)),
    Check("tutorial", ("tutorial.py",), PROGRAMS),
    Check("exercises", ("exercises.py",), ("mx_run", "mx_lab")),
    Check("language server", ("lsp.py",), ("mx_run", "mx_lab")),
    Check("CI file", ("ci.py",), ("mx_run", "mx_lab"), tools=("bash", "awk", "dpkg-deb")),
    # the laboratory
    Check("arguments", ("words.sh",), ("mx_lab",)),
    Check("plans", ("planned.sh",), ("mx_run", "mx_lab")),
    Check("blocks", ("blocks.py",), ("mx_lab",)),
    Check("certificates", ("certificates.py",), ("mx_run", "mx_lab"), 15),
    Check("mutated files", ("mutated.py",), ("mx_run", "mx_lab"), 10),
    Check("profiles", ("profiles.py",), ("mx_run", "mx_lab")),
    Check("JSON", ("lab_json.py",), ("mx_lab",)),
    Check("drawing", ("draw.sh",), ("mx_lab",), is_alone=True),
    # C programs, the libraries
    Check("stored C programs", ("cc_cases.py",), ("mx_run", "mx_cc"), 15, tools=MIPS),
    Check("C programs", ("cc.sh", "0"), ("mx_run", "mx_cc"), 15, tools=MIPS, full=("cc.sh",)),
    Check("compiled assembly", ("meaning.py", "20"), ("mx_cc",), 15, tools=MIPS, full=("meaning.py",)),
    Check("C commands", ("cc_uses.sh",), ("mx_run", "mx_cc"), 15, tools=MIPS),
    Check("study", ("study.py", "--compare", "callbacks", "jumps", "lz", "mandel", "pi"), ("mx_run", "mx_lab", "mx_cc"), full=("study.py", "--compare", "all")),
    Check("models", ("models.py",), ("mx_run", "mx_lab")),
    Check("notebook", ("notebook.py",)),
    Check("library", ("embed.sh",), (LIBRARY,), tools=("cc", "c++", "ar", "nm", "readelf")),
    Check("Python", ("python.sh",), ("mx_lab",), wishes=(LIBRARY,)),
    Check("schedulers", ("evaluate.py",), ("mx_run", "mx_lab")),
    # what is called proved, processes that are ended, and files that are written meanwhile
    Check("proved", ("proved.py",), (), 15, tools=TINY),
    Check("processes", ("processes.py",), is_alone=True, tools=TINY),
    Check("files", ("files.py",), ("mx_run", "mx_lab"), tools=(*TINY, "readelf")),
    # the workbench
    Check("workbench's faults", ("serve_faults.py",), ("mx_run", "mx_serve", "mx_cc"), is_alone=True),
    Check("clients", ("clients.py",), ("mx_run", "mx_serve", "mx_cc"), 15, is_alone=True),
    Check("workbench", ("serve.py",), PROGRAMS, 20, is_alone=True, tools=("chromium",)),
    Check("panels", ("panels.py",), PROGRAMS, 20, is_alone=True, tools=("chromium",)),
)


class Result(NamedTuple):
    """How a check ended: `ok`, `WRONG` or `skipped`, what it said last, all that it said, its seconds, those that its processes took of
    processors, and what was wrong when it was tried before."""
    state: str
    said: str
    output: str = ""
    seconds: float = 0
    of_processors: float = 0
    before: str = ""


def slowness():
    """Returns how much slower than usual this machine is now, or 1."""
    began, total = time.monotonic(), 0
    for it in range(LOOP):
        total += it
    return max(1.0, (time.monotonic() - began) / NOMINAL)


class Runner:
    """Where checks run: a temporary folder, an environment, and what is running."""

    def __init__(self, is_full):
        self.folder = tempfile.mkdtemp(prefix="mx-checks-")
        # a check may run a part as another user
        os.chmod(self.folder, 0o755)
        self.is_full, self.began, self.patience = is_full, time.monotonic(), slowness()
        self.running, self.lock, self.is_ended, self.count = set(), threading.RLock(), False, 0
        self.programs = {}

    def environment(self, programs):
        """Returns the environment of a check, with these programs, and a home and a folder for temporary files of its own."""
        with self.lock:
            if self.is_ended:
                raise KeyboardInterrupt
            self.count += 1
            at = f"{self.folder}/{self.count}"
        os.makedirs(f"{at}/home")
        os.makedirs(f"{at}/tmp")
        kept = {name: value for name, value in os.environ.items() if not name.startswith(("MX_", "PYTHON", "LC_", "LANG"))}
        given = {"HOME": f"{at}/home", "TMPDIR": f"{at}/tmp", "LC_ALL": "C.UTF-8", "MX_QUIET": "1", "MX_TIMES": "no", "NO_COLOR": "1",
                 "PYTHONDONTWRITEBYTECODE": "1", "MX_SAMPLE": "" if self.is_full else "1"}
        return {**kept, **given, **{name.upper(): self.programs[name] for name in programs}}

    def run(self, words, minutes, cwd=TOP, programs=(), **more):
        """Runs words, and returns the status, the output, and the seconds that this took of processors; None as the status where the
        time is over."""
        environment = {**self.environment(programs), **more}
        name = f"{environment['TMPDIR']}/../output"
        with open(name, "wb") as output:
            process = subprocess.Popen(words, stdin=subprocess.DEVNULL, stdout=output, stderr=subprocess.STDOUT, cwd=cwd, env=environment,
                                       start_new_session=True)
        with self.lock:
            self.running.add(process)
            if self.is_ended:
                end(process)
        is_in_time = wait(process.pid, minutes * MINUTE * self.patience)
        with self.lock:
            self.running.discard(process)
        end(process)
        _, status, used = os.wait4(process.pid, 0)
        process.returncode = os.waitstatus_to_exitcode(status)
        with open(name, encoding="utf-8", errors="replace") as it:
            said = it.read()
        shutil.rmtree(environment["TMPDIR"], ignore_errors=True)
        return process.returncode if is_in_time else None, said, used.ru_utime + used.ru_stime

    def check(self, check):
        """Runs a check, and returns its result."""
        if time.monotonic() - self.began > LATEST * self.patience:
            return Result("skipped", "no time is left")
        words = check.full if self.is_full and check.full else check.words
        absent = [it for it in check.tools if shutil.which(it) is None]
        if absent:
            return Result("skipped", f"{', '.join(absent)} is missing")
        program = interpreter(words[0])
        if program is None:
            return Result("skipped", f"{words[0]} is not there, or the program that runs it")
        missing = [it for it in check.programs if it not in self.programs]
        if missing:
            return Result("skipped", f"{', '.join(missing)} is not built")
        began = time.monotonic()
        given = [*check.programs, *(it for it in check.wishes if it in self.programs)]
        status, said, used = self.run([*program, *words[1:]], check.minutes * (10 if self.is_full else 1), programs=given)
        return judged(status, said, time.monotonic() - began)._replace(of_processors=used)

    def end(self):
        """Ends all that runs, and takes the folder away."""
        with self.lock:
            self.is_ended = True
            for it in self.running:
                end(it)
        ends = time.monotonic() + SECONDS_TO_CLEAR
        while os.path.exists(self.folder) and time.monotonic() < ends:
            shutil.rmtree(self.folder, ignore_errors=True)
            time.sleep(0.1)


def wait(pid, seconds):
    """Waits until a process of ours has ended, but leaves it to be asked for its status; returns whether it has in so many seconds."""
    ends = time.monotonic() + seconds
    while not os.waitid(os.P_PID, pid, os.WEXITED | os.WNOHANG | os.WNOWAIT):
        if time.monotonic() > ends:
            return False
        time.sleep(0.05)
    return True


def end(process):
    """Ends a process and all of its session's group."""
    try:
        os.killpg(process.pid, signal.SIGKILL)
    except (ProcessLookupError, PermissionError):
        pass  # nothing of it is left


def interpreter(name):
    """Returns the words that run a script of this folder, or None where it or its interpreter is missing."""
    path = f"{TOP}/checks/{name}"
    if not os.path.isfile(path):
        return None
    if name.endswith(".py"):
        return [sys.executable, "-B", path]
    with open(path, encoding="utf-8") as it:
        shell = "bash" if "bash" in it.readline() else "sh"
    return [shell, path] if shutil.which(shell) else None


def judged(status, said, seconds):
    """Returns the result of a check that ended so."""
    lines = said.strip().splitlines()
    last = lines[-1] if lines else "it printed nothing"
    if status is None:
        return Result("WRONG", f"it takes more than {seconds:.0f} s", said, seconds)
    if status == common.SKIPPED:
        return Result("skipped", SKIPPED.findall(said)[-1] if SKIPPED.search(said) else last, said, seconds)
    if status != 0:
        return Result("WRONG", f"status {status}: {last}", said, seconds)
    found = COMPARED.search(last)
    if not found or int(found[1].replace(",", "")) == 0:
        return Result("WRONG", f"it reports nothing that it compared: {last}", said, seconds)
    return Result("ok", last, said, seconds)


def prepare_library(runner):
    """Returns the folder of the library for C, which is put together from what is proved, and what is wrong."""
    named, folder, home = os.environ.get(LIBRARY.upper()), f"{runner.folder}/library", os.environ.get("HOME", "/")
    if named:
        return (os.path.abspath(named), "") if os.path.isdir(named) else (None, f"{LIBRARY.upper()}: {named} is no folder")
    if os.environ.get("MX_RLIBS"):
        words = [sys.executable, "-B", f"{TOP}/checks/library.py", folder]
    elif runner.run([sys.executable, "-E", "-s", "-B", f"{TOP}/build/state.py", "proved", "embed_library"], 5, HOME=home)[0] == 0:
        words = [f"{TOP}/mx", "library", folder]
    else:
        return None, "skipped: the library is not proved here (./mx library DIR proves it)"
    status, said, _ = runner.run(words, 30, HOME=home)
    return (folder, "") if status == 0 else (None, said.strip() or f"status {status}")


def prepare(name, runner):
    """Returns the path of a program, which is built where that has to be, and what is wrong."""
    if name == LIBRARY:
        return prepare_library(runner)
    named = os.environ.get(name.upper())
    if named:
        path = shutil.which(named)
        return (os.path.abspath(path), "") if path else (None, f"{name.upper()}: {named} cannot be run")
    if shutil.which("rt") is None:
        return None, "skipped: rt is missing"
    # mx answers where a program is, if it has to without proof; where it cannot, the program is built here
    status, said, _ = runner.run([f"{TOP}/mx", "where", name], 30, HOME=os.environ.get("HOME", "/"))
    path = said.strip().splitlines()[-1:] or [""]
    if status == 0 and os.access(path[0], os.X_OK):
        return path[0], ""
    out = f"{runner.folder}/programs/{name}"
    for _ in range(2):
        status, said, _ = runner.run([sys.executable, "-B", f"{TOP}/build/unproved.py", name, out], 30, HOME=os.environ.get("HOME", "/"))
        if status == 0 and os.access(out, os.X_OK):
            return out, ""
    return None, said or f"status {status}"


def print_result(name, result):
    """Prints how a check ended, with its output where it fails."""
    print(f"{result.state}: {name} ({result.seconds:.0f} s, {result.of_processors:.0f} s of processors): {result.said}", flush=True)
    if result.state == "WRONG":
        lines = [it for it in result.output.splitlines() if not it.startswith("ok: ")]
        print("\n".join(f"    {it[:400]}" for it in lines[-LINES_OF_FAILURE:]), flush=True)


def run_together(checks, runner, go, keep):
    """Builds the programs that checks need, and runs each check that need not be alone as soon as its programs are built, or cannot be."""
    # (a check that is skipped needs no program)
    needed = [it for it in (*PROGRAMS, LIBRARY)
              if any(it in (*check.programs, *check.wishes) and all(map(shutil.which, check.tools)) for check in checks)]
    # (the longest first)
    left = sorted((it for it in checks if not it.is_alone), key=lambda it: -it.minutes)
    jobs, going = max(2, min(8, os.cpu_count() or 2)), []
    with concurrent.futures.ThreadPoolExecutor(len(needed) or 1) as builders, concurrent.futures.ThreadPoolExecutor(jobs) as pool:
        building = {builders.submit(prepare, name, runner): name for name in needed}
        while True:
            ready = [it for it in left if not {*it.programs, *it.wishes}.intersection(building.values())]
            left = [it for it in left if it not in ready]
            going += [pool.submit(go, it) for it in ready]
            if not building:
                break
            for built in concurrent.futures.wait(building, return_when=concurrent.futures.FIRST_COMPLETED).done:
                name, (path, wrong) = building.pop(built), built.result()
                if path:
                    runner.programs[name] = path
                elif wrong.startswith("skipped: "):
                    keep(f"build {name}", Result("skipped", wrong.removeprefix("skipped: ")))
                else:
                    keep(f"build {name}", Result("WRONG", "it cannot be built", wrong))
        for it in going:
            it.result()


def work_through(checks, runner):
    """Prepares the programs and runs the checks; returns the result of each."""
    results, lock = {}, threading.Lock()

    def keep(name, result):
        with lock:
            results[name] = result
            print_result(name, result)

    again = []

    def go(check):
        result = runner.check(check)
        if result.state == "WRONG":
            # (it may lack memory or time beside the others, but not twice)
            print_result(f"{check.name}, the first time", result)
            again.append((check, result.said))
        else:
            keep(check.name, result)

    run_together(checks, runner, go, keep)
    for check in checks:
        if check.is_alone:
            go(check)
    for check, before in again:
        keep(check.name, runner.check(check)._replace(before=before))
    return results


def report(results):
    """Prints what is skipped and what fails, and returns the exit status."""
    skipped = [f"{name}: {it.said}" for name, it in results.items() if it.state == "skipped"]
    skipped += [f"a part of {name}: {part}" for name, it in results.items() if it.state == "ok" for part in SKIPPED.findall(it.output)]
    wrong = sorted(name for name, it in results.items() if it.state == "WRONG")
    for name, it in results.items():
        if it.state != "WRONG" and it.before:
            print(f"held at the second try: {name}: the first time {it.before}")
    held = sum(it.state == "ok" for it in results.values())
    for it in skipped:
        print(f"skipped: {it}")
    if skipped:
        print("checks/tools.sh installs the tools of all checks")
    if wrong:
        print(f"WRONG: {', '.join(wrong)}")
    twice = sum(it.state == "ok" and it.before != "" for it in results.values())
    print(f"{held} checks hold, {twice} of them at the second try, {len(wrong)} fail, {len(skipped)} are skipped")
    return 1 if wrong or held + len(skipped) == 0 else 0


def main(words):
    options = {it for it in words if it.startswith("-")}
    names = [it for it in words if not it.startswith("-")]
    known = {it.name: it for it in CHECKS}
    if "--self-test" in options:
        import planted
        known.update(dict.fromkeys(it.name for it in planted.CASES))
    unknown = [it for it in options if it not in ("--full", "--self-test", "--list")] + [it for it in names if it not in known]
    if unknown or len(options) > 1:
        common.wrong_arguments(f"unknown check or option: {', '.join(unknown) or 'two options'}; checks/all.sh --list prints the checks")
    if "--list" in options:
        print("\n".join(known))
        return 0
    # (whoever starts this may ignore the ends of processes, or have letters that cannot be written)
    signal.signal(signal.SIGCHLD, signal.SIG_DFL)
    sys.stdout.reconfigure(errors="replace")
    runner = Runner("--full" in options)

    def stop(_number, _frame):
        # at once, since a way out of the threads would wait for what they run
        runner.end()
        if os.path.exists(runner.folder):
            # (a thread may write there until this process is gone)
            subprocess.Popen(["sh", "-c", 'sleep 1; exec rm -rf "$1"', "sh", runner.folder], start_new_session=True)
        os._exit(1)

    for number in (signal.SIGINT, signal.SIGTERM, signal.SIGHUP):
        signal.signal(number, stop)
    try:
        if "--self-test" in options:
            return planted.run(runner, names)
        return report(work_through([known[it] for it in names] or CHECKS, runner))
    finally:
        runner.end()


if __name__ == "__main__":
    sys.exit(main(sys.argv[1:]))
