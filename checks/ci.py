#!/usr/bin/env python3
"""Runs the commands of the example workflow for a user's repository (examples/ci), as they are written, in copies of that repository.

usage: checks/ci.py

The copy gets the Debian package that ./mx makes of the programs that are built. A `sudo` of this check unpacks it into a folder of its
own, whose commands are then the first of PATH. Each step runs as GitHub runs it, by `bash -e`, and the first that fails ends the job.
The job holds for the repository as it is, and fails for each planted fault at the right step, with a line that names the source.
"""
import os
import re
import shutil
import subprocess
import sys
import tempfile

import common
from common import TOP, tell

EXAMPLE = f"{TOP}/examples/ci"
WORKFLOW = f"{EXAMPLE}/.github/workflows/assembly.yml"
INSTALL, FAULTS, CYCLES = "Install the simulator", "No source has a fault", "Each program halts within its cycles"
SUDO = """#!/bin/sh
[ "$1 $2 $3" = 'apt-get install -y' ] && [ $# -eq 4 ] || { echo "unexpected: sudo $*" >&2; exit 1; }
exec dpkg-deb --extract "$4" "$UNPACKED"
"""


def steps(text):
    """Returns the steps of the workflow that run something: the name of each and its commands."""
    found, lines = [], iter(text.splitlines())
    for line in lines:
        name, begun = re.match(r"      - name: (.*)$", line), re.match(r"        run: (.*)$", line)
        if name:
            found.append((name[1], ""))
        elif begun and begun[1] != "|":
            found[-1] = (found[-1][0], f"{begun[1]}\n")
        elif found and line.startswith(" " * 10):
            found[-1] = (found[-1][0], f"{found[-1][1]}{line[10:]}\n")
    return found


def compare_steps(text):
    """Compares the steps with those that a library for YAML reads, where there is one."""
    found = steps(text)
    tell("the steps of the workflow", [name for name, _ in found] == [INSTALL, FAULTS, CYCLES], str(found))
    try:
        import yaml
    except ImportError:
        print("skipped: python3-yaml is missing, so the workflow is read as lines alone")
        return found
    read = yaml.safe_load(text)["jobs"]["assembly"]["steps"]
    wanted = [(it["name"], it["run"].rstrip("\n") + "\n") for it in read if "run" in it]
    tell("a library for YAML reads the same steps", wanted == found, str(wanted))
    return found


def run_job(folder, found, environment):
    """Runs the steps in a folder; returns the name of the step that fails, or nothing, and what was printed."""
    said = ""
    for number, (name, commands) in enumerate(found):
        script = f"{environment['RUNNER_TEMP']}/{number}.sh"
        with open(script, "w", encoding="utf-8") as file:
            file.write(commands)
        done = subprocess.run(["bash", "-e", script], cwd=folder, env=environment, stdin=subprocess.DEVNULL, stdout=subprocess.PIPE,
                              stderr=subprocess.STDOUT, check=False)
        said += done.stdout.decode("utf-8", "replace")
        if done.returncode:
            return name, said
    return "", said


def package(folder):
    """Makes the package in a folder."""
    done = subprocess.run([f"{TOP}/mx", "package", "--unproved", folder], capture_output=True, text=True, check=False)
    return tell("the package is made", done.returncode == 0 and len(os.listdir(folder)) == 1, done.stderr)


def try_cases(room, found):
    """Runs the job in a copy of the repository for each case."""
    def case(name, path, change, step, wanted):
        at = f"{room}/{name}"
        shutil.copytree(EXAMPLE, at)
        shutil.copytree(f"{room}/made", f"{at}/tools")
        if path:
            with open(f"{at}/{path}", encoding="utf-8") as file:
                text = change(file.read())
            with open(f"{at}/{path}", "w", encoding="utf-8") as file:
                file.write(text)
        os.makedirs(f"{at}.temporary/unpacked/usr/bin")
        path = f"{at}.temporary/unpacked/usr/bin:{room}/bin:{os.environ['PATH']}"
        environment = {"PATH": path, "HOME": room, "UNPACKED": f"{at}.temporary/unpacked", "RUNNER_TEMP": f"{at}.temporary", "LC_ALL": "C.UTF-8"}
        failed, said = run_job(at, found, environment)
        tell(f"{name}: the step that fails", failed == step, f"{failed}: {said}")
        for it in wanted:
            tell(f"{name}: {it}", it in said, said)

    sources, limits = "programs/sum.s", "limits"
    case("as it is", "", None, "", ("the text has no fault", "programs/countdown.s: cycles 29 of 30", "programs/sum.s: cycles 39 of 39"))
    case("a fault", sources, lambda it: it.replace("ld   0[r1]", "lw   0[r1]"), FAULTS, ("programs/sum.s:4:9: error[F3]",))
    case("one cycle less", limits, lambda it: it.replace("39", "38"), CYCLES, ("programs/sum.s: does not halt within 38 cycles", "29 of 30"))
    case("a slower program", sources, lambda it: it.replace("#4", "#5"), CYCLES, ("programs/sum.s: does not halt within 39 cycles",))
    case("a program that never halts", sources, lambda it: it.replace("halt", "b next"), CYCLES, ("programs/sum.s: does not halt within",))
    case("no limit", limits, lambda it: it.replace("programs/sum.s 39\n", ""), CYCLES, ("programs/sum.s: the file limits has no line for it",))


def main():
    if len(sys.argv) > 1:
        common.wrong_arguments(f"unexpected argument {sys.argv[1]}")
    common.need_tools("bash", "awk", "dpkg-deb")
    os.environ.update(MX_RUN=common.program("mx_run"), MX_LAB=common.program("mx_lab"), MX_QUIET="1")
    with open(WORKFLOW, encoding="utf-8") as file:
        found = compare_steps(file.read())
    with tempfile.TemporaryDirectory(prefix="ci-") as room:
        os.makedirs(f"{room}/bin")
        os.makedirs(f"{room}/made")
        with open(f"{room}/bin/sudo", "w", encoding="utf-8") as file:
            file.write(SUDO)
        os.chmod(f"{room}/bin/sudo", 0o755)
        if package(f"{room}/made"):
            try_cases(room, found)
    return common.finish("ci.py", "results of the workflow")


if __name__ == "__main__":
    sys.exit(main())
