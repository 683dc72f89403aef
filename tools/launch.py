#!/usr/bin/env python3
"""Runs a program's command, and lets it write its file completely or not at all.

usage: tools/launch.py PROGRAM COMMAND [ARGUMENT ..]

Where the command writes a file that is a regular one or is not there yet, the program writes a new file beside it, which takes its
place once the program has ended and has not failed to write. Devices and pipes are written as they are; a link stays one, and the
file that it leads to is replaced. What the toolchain's commands print goes to the file of -o, which they do not know themselves,
unless they end with an error. A file that the command also reads is refused with one line on standard error, and status 2, or that
of the environment's MX_TOLD; `migrate` alone may write over what it reads. Else the exit status is the program's. The program ends
where this one is ended.
"""
import contextlib
import os
import pty
import secrets
import shutil
import stat
import subprocess
import sys
import tempfile
import tty

import commands
from processes import end_by_signals, held

USAGE, WRITE_FAULT = 2, 5
# Done, out of budget, stuck: what a command of the toolchain then prints is its answer.
ANSWERS = (0, 3, 9)
# Of a shell: the status of a program that a signal ended.
BY_SIGNAL = 128
MOST_LINKS = 40
CHUNK = 65536
NEW_FILE = 0o666
# Their files are those of open descriptors: to replace one would not be to write to it.
SPECIAL = ("/dev/", "/proc/")
OUTPUT = ("-o", "--output")
# The programs whose commands take -oFILE as well.
WITH_SHORT = ("mx_run", "mx_lab")
# The commands whose last argument is the file that they write.
WRITERS = ("build", "migrate")


class Place:
    """Where an argument names a file: the argument's number, what comes before the name in it, and the first argument of its option."""

    def __init__(self, number, before, name, first=None):
        self.number, self.before, self.name = number, before, name
        self.first = number if first is None else first


class Told(Exception):
    """What is wrong with the arguments."""


def is_file(value):
    """Tells whether a file follows an option."""
    return value in ("FILE", "NAME=FILE")


def name_before(value, word):
    """Returns what is before the file in the word that follows an option: a name and its sign, or nothing."""
    name, sign, _ = word.partition("=")
    return name + sign if value == "NAME=FILE" and sign else ""


def read_arguments(arguments):
    """Returns the places of the files that a command reads, and that of the one that it writes, None if there is none. Arguments that
    the table of commands does not have are left to the program, which refuses them."""
    command = commands.COMMANDS.get(arguments[0])
    if command is None:
        return [], None
    options, names, reads, writes = {it.name: it.value for it in command.options}, [], [], []
    number, is_ended = 1, False
    while number < len(arguments):
        word = arguments[number]
        option, sign, value = word.partition("=") if word.startswith("--") else (word[:2], "", word[2:])
        if is_ended or word == "-" or not word.startswith("-"):
            names.append(Place(number, "", word))
        elif word == "--":
            is_ended = True
        elif option == "-o" and word != "-o" and command.program in WITH_SHORT:
            before = word[:3] if value.startswith("=") else option
            writes.append(Place(number, before, word[len(before):]))
        elif sign and option in options:
            before = f"{option}={name_before(options[option], value)}"
            (writes if option == "--output" else reads if is_file(options[option]) else []).append(Place(number, before, f"{option}={value}"[len(before):]))
        elif word in OUTPUT or word in options:
            first = number
            if word in OUTPUT or options[word]:
                number += 1
            if number == len(arguments) and word in OUTPUT and command.program == "mx_run":
                raise Told(f"missing value for '{word}': expected a file")
            if number < len(arguments) and (word in OUTPUT or is_file(options[word])):
                before = name_before(options.get(word), arguments[number])
                (writes if word in OUTPUT else reads).append(Place(number, before, arguments[number][len(before):], first))
        else:
            return [], None
        number += 1
    if arguments[0] in WRITERS:
        if len(names) != 2 or writes:
            return [], None
        writes.append(names.pop())
    return reads + names, writes[0] if len(writes) == 1 else None


def read_twice(arguments, reads, target):
    """Tells whether the file that is written is one that is read."""
    if arguments[0] == "migrate":
        return False
    for it in reads:
        with contextlib.suppress(OSError):
            if os.path.samefile("/dev/stdin" if it.name == "-" else it.name, target):
                return True
    return False


def real_path(name):
    """Returns the file that a name leads to, or None where that goes by a descriptor or a device."""
    path = os.path.abspath(name)
    for _ in range(MOST_LINKS):
        path = os.path.join(os.path.realpath(os.path.dirname(path)), os.path.basename(path))
        if path.startswith(SPECIAL):
            return None
        if not os.path.islink(path):
            return path
        path = os.path.normpath(os.path.join(os.path.dirname(path), os.readlink(path)))
    return None


def replaceable(name):
    """Returns the file that is to be replaced where this name is written to, or None where it has to be written to as it is."""
    path = real_path(name)
    if not name or name.endswith("/") or path is None or not os.access(os.path.dirname(path), os.W_OK | os.X_OK):
        return None
    if not os.path.lexists(path):
        return path
    return path if stat.S_ISREG(os.stat(path).st_mode) and os.access(path, os.W_OK) else None


def copy_errors(source, fresh, name):
    """Copies what the program prints on standard error, with the name that the user gave in the place of the new file's."""
    left = b""
    while True:
        try:
            piece = os.read(source, CHUNK)
        except OSError:
            piece = b""  # (a terminal whose other end is closed)
        text = (left + piece).replace(fresh, name)
        # (a part of the name may be all that has come of it)
        held = next((size for size in range(len(fresh) - 1, 0, -1) if piece and text.endswith(fresh[:size])), 0)
        left, text = text[len(text) - held:], text[: len(text) - held]
        with contextlib.suppress(OSError):
            while text:
                text = text[os.write(2, text):]
        if not piece:
            return


def run(words, fresh=None, name=None, output=None):
    """Runs a program to its end, and returns its status. Where the name of a new file is given, messages have the user's name."""
    ours, theirs = (None, None) if fresh is None else pty.openpty() if os.isatty(2) else os.pipe()
    if fresh is not None and os.isatty(2):
        tty.setraw(theirs)
    process = None
    try:
        with held():
            process = subprocess.Popen(words, stdout=output, stderr=theirs)
        if ours is not None:
            os.close(theirs)
            copy_errors(ours, os.fsencode(fresh), os.fsencode(name))
        status = process.wait()
    except KeyboardInterrupt:
        if process:
            process.terminate()
            process.wait()
        raise
    return status if status >= 0 else BY_SIGNAL - status


def put(fresh, path):
    """Puts a new file that is complete in the place of another, with that one's owner and permissions."""
    with open(fresh, "rb") as it:
        os.fsync(it.fileno())
    with contextlib.suppress(OSError):
        was = os.stat(path)
        os.chmod(fresh, stat.S_IMODE(was.st_mode))
        if (was.st_uid, was.st_gid) != (os.geteuid(), os.getegid()):
            os.chown(fresh, was.st_uid, was.st_gid)
    os.replace(fresh, path)


def run_beside(program, arguments, target, path):
    """Runs a program that writes a new file beside the one at this path, and replaces that one."""
    fresh = os.path.join(os.path.dirname(path), f".mx-{secrets.token_hex(8)}")
    changed = list(arguments)
    changed[target.number] = target.before + fresh
    try:
        status = run([program, *changed], fresh, target.name)
        if status != WRITE_FAULT and status < BY_SIGNAL and os.path.lexists(fresh):
            put(fresh, path)
        return status
    finally:
        with contextlib.suppress(OSError):
            os.remove(fresh)


def run_printed(program, arguments, target, path):
    """Runs a command of the toolchain, whose answer goes to the file that is named, and anything else to standard output."""
    left = arguments[:target.first] + arguments[target.number + 1:]
    if target.name == "-":
        return run([program, *left])
    with tempfile.NamedTemporaryFile(prefix=".mx-", dir=os.path.dirname(path) if path else None, delete=False) as printed:
        try:
            status = run([program, *left], output=printed)
            if status not in ANSWERS:
                printed.seek(0)
                shutil.copyfileobj(printed, sys.stdout.buffer)
                return status
            if path is None:
                printed.seek(0)
                with open(target.name, "wb") as it:
                    shutil.copyfileobj(printed, it)
            else:
                if not os.path.lexists(path):
                    os.chmod(printed.name, NEW_FILE & ~mask())
                put(printed.name, path)
            return status
        finally:
            with contextlib.suppress(OSError):
                os.remove(printed.name)


def mask():
    """Returns the permissions that new files of this process do not have."""
    now = os.umask(0)
    os.umask(now)
    return now


def refuse(why, status):
    print(f"zanderanvil: error: {why}", file=sys.stderr)
    return status


def main(program, arguments):
    try:
        reads, target = read_arguments(arguments) if arguments else ([], None)
    except Told as told:
        return refuse(told, int(os.environ.get("MX_TOLD", USAGE)))
    if target is None:
        return run([program, *arguments])
    if read_twice(arguments, reads, target.name):
        return refuse(f"'{target.name}' is both an input and the output: name another output file", int(os.environ.get("MX_TOLD", USAGE)))
    is_printed = arguments[0] not in WRITERS and commands.COMMANDS[arguments[0]].program == "mx_run"
    path = None if target.name == "-" and arguments[0] not in WRITERS else replaceable(target.name)
    try:
        if is_printed:
            return run_printed(program, arguments, target, path)
        return run([program, *arguments]) if path is None else run_beside(program, arguments, target, path)
    except OSError as error:
        return refuse(f"cannot write '{target.name}': {error.strerror}", WRITE_FAULT)


if __name__ == "__main__":
    if len(sys.argv) < 2:
        sys.exit(__doc__)
    end_by_signals()
    try:
        sys.exit(main(sys.argv[1], sys.argv[2:]))
    except KeyboardInterrupt as interrupt:
        # (as a shell says of a program that a signal ended)
        sys.exit(BY_SIGNAL + (interrupt.args[0] if interrupt.args else 2))
