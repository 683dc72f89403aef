#!/usr/bin/env python3
"""Gives the cases of crates/test_command_cases to the library in a file: checks/embed_cases.py LIBRARY.

The files of a case get the names of the library. What a case has to answer stands in its data. The cases of faults in
reading and writing, `failing.txt` and `puts.txt`, have no counterpart here.
"""
import os
import re
import sys

TOP = os.path.dirname(os.path.dirname(os.path.abspath(__file__)))
DATA = f"{TOP}/crates/test_command_cases/data"
sys.path.insert(0, f"{TOP}/python")

from zanderanvil import Zanderanvil  # noqa: E402

# the commands that name an image first; all others name sources
IMAGES = ("exec", "migrate")


def read(path):
    with open(path, "rb") as file:
        return file.read()


def stored(name):
    """Returns the bytes of a stored file, or None."""
    if name and os.path.isfile(f"{DATA}/files/{name}"):
        return read(f"{DATA}/files/{name}")
    if name and os.path.isfile(f"{DATA}/files/{name}.hex"):
        return bytes.fromhex(read(f"{DATA}/files/{name}.hex").decode())
    return None


def lines(name):
    return read(f"{DATA}/{name}").decode().splitlines()


def lent(words):
    """Returns the words with the names of the library, and the files by these; None where there are too many."""
    if not words:
        return [], {}
    names = ["image"] if words[0] in IMAGES else ["source", "second"]
    given, files, option = list(words), {}, None
    if words[0] in ("build", "migrate"):
        words = words[:-1] + [None]
    for place, word in enumerate(words):
        if place == 0 or word is None:
            continue
        prefix, value = "", word
        match = re.fullmatch(r"--(input|interrupts)=(.*)", word, re.DOTALL)
        if match:
            option, prefix, value = match[1], word[: match.start(2)], match[2]
        bytes_ = stored(value)
        if bytes_ is not None:
            if option is None and not names:
                return None
            name = option or names.pop(0)
            given[place], files[name] = prefix + name, bytes_
        option = word[2:] if word in ("--input", "--interrupts") else None
    return given, files


class Tally:
    def __init__(self, kind):
        self.kind, self.right, self.all, self.left_out = kind, 0, 0, 0

    def add(self, holds, line):
        self.all += 1
        self.right += holds
        if not holds:
            print(f"{self.kind}: {line}")

    def tell(self):
        print(f"{self.kind}: {self.right} of {self.all} agree" + (f", {self.left_out} left out" if self.left_out else ""))
        return self.right == self.all > 0


def runs(library):
    tally = Tally("runs.txt")
    for line in lines("runs.txt"):
        status, rest = line.split(" ", 1)
        name, words = rest.split(":", 1)
        found = lent(words.split())
        if found is None:
            tally.left_out += 1
            continue
        wanted_file = f"{DATA}/wanted/{name}.hex"
        file = bytes.fromhex(read(wanted_file).decode()) if os.path.isfile(wanted_file) else b""
        wanted = (int(status), read(f"{DATA}/wanted/{name}"), file)
        tally.add(library.command(*found[0], **found[1]) == wanted, line)
    return tally.tell()


def built(library):
    tally = Tally("built.txt")
    for line in lines("built.txt"):
        words, files = lent(("run " + line).split(" "))
        image = library.build(files["source"])
        again = dict(files, image=image)
        tally.add(library.command(*words, **files) == library.command("exec", "image", *words[2:], **again), line)
    return tally.tell()


def images(library):
    tally = Tally("images.txt")
    for line in lines("images.txt"):
        text, answer = line.split(" -> ", 1)
        status, output, _ = library.command("exec", "image", "--budget", "100", image=bytes.fromhex(text))
        tally.add(f"{status} {output.decode().splitlines()[0]}" == answer, line)
    return tally.tell()


def fronts(library):
    tally = Tally("fronts.txt")
    for line in lines("fronts.txt"):
        name, count = line.split(" ")
        image = stored(name)
        refused = [
            library.command(*words, image=image[:length]) == (7, b"image: Truncated at %d\n" % length, b"")
            for length in range(len(image))
            for words in (["exec", "image"], ["migrate", "image", "image"])
        ]
        tally.add(all(refused) and len(refused) == 2 * int(count), line)
    return tally.tell()


def repeated(text):
    """Returns the source that `LINE / COUNT * LINE / ..` spells."""
    made = []
    for line in text.split(" / "):
        match = re.fullmatch(r"(\d+) \* (.*)", line)
        made += [match[2]] * int(match[1]) if match else [line]
    return "".join(line + "\n" for line in made).encode("ascii")


def long_sources(library):
    tally = Tally("repeated.txt")
    for line in lines("repeated.txt"):
        text, answer = line.split(" -> ", 1)
        word, text = text.split(": ", 1)
        words = word.split(" ")
        words += ([] if "source" in words else ["source"]) + (["built"] if word == "build" else [])
        status, output, _ = library.command(*words, source=repeated(text))
        tally.add(f"{status} {output.decode().split(chr(10))[0]}" == answer, line)
    return tally.tell()


def listed(library):
    tally = Tally("listed.txt")
    for line in lines("listed.txt"):
        text, wanted = line.split(" -> ", 1)
        listing = {" ".join(words) for words in library.listing(repeated(text))}
        tally.add(listing.issuperset(wanted.split(" / ")), line)
    return tally.tell()


def noise(library):
    tally = Tally("long.txt")
    for line in lines("long.txt"):
        count, answer = line.split(" -> ", 1)
        seed, made = 1, bytearray()
        for _ in range(int(count)):
            seed = (seed * 1664525 + 1013904223) % 2**32
            made.append(seed >> 24)
        status, output, _ = library.command("exec", "image", "--budget", "100", image=bytes(made))
        tally.add(f"{status} {output.decode().splitlines()[0]}" == answer, line)
    return tally.tell()


def stops(library):
    tally = Tally("stops.txt")
    for line in lines("stops.txt"):
        words, told = line.split(" -> ", 1)
        name = told.split(" ", 1)[0]
        given, files = lent(words.split(" "))
        _, output, _ = library.command(*given, **files)
        values = [row.split(" ", 1)[1] for row in output.decode("latin-1").split("\n") if row.startswith(name + " ")]
        tally.add(" ".join([name] + values) == told, line)
    return tally.tell()


if __name__ == "__main__":
    if len(sys.argv) != 2:
        sys.exit(__doc__)
    it = Zanderanvil(sys.argv[1])
    sys.exit(0 if all([kind(it) for kind in (runs, built, images, fronts, noise, stops, long_sources, listed)]) else 1)
