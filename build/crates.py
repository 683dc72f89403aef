"""What crates.txt lists, and where the toolchain is."""
import os
import re
import subprocess

TOP = os.path.dirname(os.path.dirname(os.path.abspath(__file__)))
LINE = re.compile(r"([a-z_0-9]+)(?: staticlib)?:(.*)$")


def kit_folder():
    """Returns the folder of the toolchain, which `rt doc` names."""
    page = subprocess.run(["rt", "doc"], capture_output=True, text=True, check=True).stdout.strip()
    return os.path.dirname(page)


def read_lines():
    """Returns for each crate of crates.txt its line, in the file's order, which is from below."""
    with open(f"{TOP}/crates.txt", encoding="utf-8") as lines:
        return {found.group(1): line for line in lines if (found := LINE.match(line))}


def read_crates():
    """Returns for each crate of crates.txt the crates and libraries that its line lists, in the file's order."""
    return {crate: LINE.match(line).group(2).split() for crate, line in read_lines().items()}


def crates_below(asked, crates):
    """Returns all crates of the repository that these depend on, in order from below."""
    found, left = set(), [below for crate in asked for below in crates[crate]]
    while left:
        it = left.pop()
        if it in crates and it not in found:
            found.add(it)
            left += crates[it]
    return [it for it in crates if it in found]


def is_program(folder):
    """Tells whether the crate in this folder is a program."""
    return os.path.isfile(f"{folder}/src/main.rt")


def is_static(line):
    """Tells whether the crate of a line of crates.txt is a static library for other languages."""
    return "staticlib" in line.split(":")[0]
