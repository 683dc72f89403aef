"""What the checks share: where the programs are, whether a sample is enough, and how a check ends.

A check that holds ends with 0, and its last line reports how much it compared: `NAME: compared N THINGS`. It ends with 1 where something
differs or nothing was compared, with 2 where its arguments are wrong, and with 77 where a tool or a part of the kernel that it needs is
missing; then its last line is `skipped: WHAT`. The environment chooses: MX_RUN, MX_LAB, MX_CC and MX_SERVE name programs, MX_SAMPLE=1
asks for a sample, and MX_TIMES=no has no check fail since something takes long.
"""
import os
import shutil
import sys

TOP = os.path.dirname(os.path.dirname(os.path.abspath(__file__)))
WRONG_ARGUMENTS, SKIPPED = 2, 77
IS_SAMPLE = os.environ.get("MX_SAMPLE", "") not in ("", "0", "no")
HAS_TIMES = os.environ.get("MX_TIMES", "yes") != "no"
# How often a slow machine may take longer than a limit that is only there against waiting for ever.
PATIENCE = 1 if HAS_TIMES else 10

compared, failures = 0, 0


def skip(what):
    """Ends the check, which cannot run here."""
    print(f"skipped: {what}", flush=True)
    sys.exit(SKIPPED)


def need_tools(*names):
    """Skips the check where one of these commands is missing."""
    for name in names:
        if shutil.which(name) is None:
            skip(f"{name} is missing")


def wrong_arguments(what):
    """Ends the check, which was called with wrong arguments."""
    print(f"{os.path.basename(sys.argv[0])}: {what}", file=sys.stderr)
    sys.exit(WRONG_ARGUMENTS)


def program(name):
    """Returns the path of a built program: the one that the environment names, else the proved one, else the one of ./mx --quick."""
    named = os.environ.get(name.upper())
    if named:
        if not os.access(shutil.which(named) or named, os.X_OK):
            wrong_arguments(f"{name.upper()}: {named} cannot be run")
        return os.path.abspath(shutil.which(named) or named)
    for path in (f"{TOP}/crates/{name}/out/{name}", f"{TOP}/.mx/{name}"):
        if os.access(path, os.X_OK):
            return path
    skip(f"{name} is not built: ./mx --quick builds it")
    return ""


def tell(name, holds, seen="", count=1):
    """Prints whether something holds, and counts it."""
    global compared, failures
    compared += count
    if not holds:
        failures += 1
    print(f"{'ok' if holds else 'FAILED'}: {name}" + ("" if holds else f": {seen}"), flush=True)
    return holds


def finish(name, things, count=None):
    """Reports how much was compared, and returns the exit status."""
    count = compared if count is None else count
    if failures:
        print(f"{name}: {failures} of {count} {things} differ", flush=True)
        return 1
    if count == 0:
        print(f"{name}: nothing was compared", flush=True)
        return 1
    print(f"{name}: compared {count:,} {things}", flush=True)
    return 0
