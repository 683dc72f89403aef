#!/usr/bin/env python3
"""Runs a program that can read no file but those below some folders, and write none but those below the folder that it works in.

usage: confined.py FOLDER .. -- PROGRAM WORD ..

The kernel keeps it to that (Landlock, Linux 5.13 or later). Where a kernel has no Landlock the program runs as any other; `--kept`
as the only word tells by the exit status whether it has."""
import ctypes
import os
import struct
import sys

CREATE_RULESET, ADD_RULE, RESTRICT_SELF = 444, 445, 446  # system calls, the same ones on every processor that Debian has
VERSION, BENEATH, NO_NEW_PRIVILEGES = 1, 1, 38
EXECUTE, WRITE_FILE, READ_FILE, READ_DIR = 1, 2, 4, 8
# All accesses to files that the first version of Landlock knows; later ones add those by name.
ALL = (1 << 13) - 1
LATER = ((2, 1 << 13), (3, 1 << 14), (5, 1 << 15))
READS = EXECUTE | READ_FILE | READ_DIR
# What a program needs to start. Files beside folders: only the accesses that a file has.
FILES = (("/etc/ld.so.cache", READ_FILE), ("/dev/null", READ_FILE | WRITE_FILE))

libc = ctypes.CDLL(None, use_errno=True)


def version():
    """Returns the version of the kernel's Landlock, or a number below 1 where it has none."""
    return libc.syscall(CREATE_RULESET, None, 0, VERSION)


def allow(rules, path, accesses):
    """Allows these accesses below a path, where it is there."""
    try:
        place = os.open(path, os.O_PATH | os.O_CLOEXEC)
    except OSError:
        return
    rule = struct.pack("=Qi", accesses, place)
    if libc.syscall(ADD_RULE, rules, BENEATH, rule, 0) != 0:
        raise OSError(ctypes.get_errno(), f"no rule for {path}")
    os.close(place)


def confine(folders):
    """Takes every other access to files from this process and those that it starts."""
    known = ALL | sum(access for since, access in LATER if version() >= since)
    handled = struct.pack("=Q", known)
    rules = libc.syscall(CREATE_RULESET, handled, len(handled), 0)
    if rules < 0:
        raise OSError(ctypes.get_errno(), "no rules")
    for folder in folders:
        allow(rules, folder, READS)
    for name, accesses in FILES:
        allow(rules, name, accesses)
    allow(rules, os.getcwd(), known)
    if libc.prctl(NO_NEW_PRIVILEGES, 1, 0, 0, 0) != 0 or libc.syscall(RESTRICT_SELF, rules, 0) != 0:
        raise OSError(ctypes.get_errno(), "the rules are not taken")
    os.close(rules)


def main(words):
    if words == ["--kept"]:
        return 0 if version() >= 1 else 1
    behind = words.index("--")
    if version() >= 1:
        confine(words[:behind])
    os.execvp(words[behind + 1], words[behind + 1 :])


if __name__ == "__main__":
    sys.exit(main(sys.argv[1:]))
