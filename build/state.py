#!/usr/bin/env python3
"""What a program was built from and what came of it, as checksums, and whether both are still the same.

usage: build/state.py proved|unproved CRATE [SEEN]      status 0 where the program is what its record says, else 1

A record has four checksums: of the sources (the crate and all crates below it: names and contents of their files, their lines of
crates.txt, HANDLES), of the toolchain, of the flags, and of the output. It is written once a build is done and the first three are
the same as before the build. Nothing here goes by dates.

SEEN is what ./mx saw of all these files on the disk (sizes, times and numbers) before it called this. If the record holds, SEEN is
kept in .mx/seen, so that ./mx need not call again while it sees the same. A file that changed a moment ago may change once more
without a trace in its times, so SEEN is then not kept.
"""
import contextlib
import hashlib
import json
import os
import subprocess
import sys
import threading
import time

from crates import TOP, crates_below, is_program, is_static, kit_folder, read_crates, read_lines

PARTS = ("src", "specs", "proofs")
KEPT = f"{TOP}/.mx"
# How old a change has to be until the times of a file show the next one for sure: some ticks of the system's clock.
SETTLED_SECONDS = 1.0
CHUNK = 1 << 20
# What of the toolchain makes programs, below its folder: all files of these folders.
KIT_PARTS = ("KIT-ID", "bin", "c", "toolchain/bin")


def sum_of(path):
    """Returns a checksum of a file and of whether it can be executed, or of a folder; "" where there is nothing, or an empty file."""
    if os.path.isdir(path):
        return Folders().sum(path)
    found, size = hashlib.sha256(), 0
    try:
        with open(path, "rb") as it:
            while piece := it.read(CHUNK):
                found.update(piece)
                size += len(piece)
    except OSError:
        return ""
    return "" if size == 0 else found.hexdigest() + ("x" if os.access(path, os.X_OK) else "")


def look(path):
    """Returns what the disk says of a file: it changes whenever the file does, also where its date is set back."""
    try:
        it = os.stat(path)
    except OSError:
        return None
    return [path, it.st_size, it.st_mtime_ns, it.st_ctime_ns, it.st_ino, it.st_dev]


class Folders:
    """The checksums of folders, as libraries are: of their files and these's names. They are large: a checksum is kept, and is made
    again where the disk says anything else of a file."""

    def __init__(self):
        self.path, self.kept = f"{KEPT}/seen/folders.json", {}
        with contextlib.suppress(OSError, ValueError), open(self.path, encoding="utf-8") as it:
            self.kept = json.load(it)

    def sum(self, path):
        began = time.time()
        files = sorted(f"{at}/{name}" for at, _, names in os.walk(path) for name in names)
        looks = [look(file) for file in files]
        seen = hashlib.sha256(json.dumps(looks).encode()).hexdigest()
        known = self.kept.get(path)
        if known and known[0] == seen:
            return known[1]
        found = hashlib.sha256()
        for file in files:
            found.update(f"{os.path.relpath(file, path)}\0{sum_of(file)}\0".encode())
        if max((it[3] for it in looks if it), default=0) < (began - SETTLED_SECONDS) * 1e9:
            self.kept[path] = [seen, found.hexdigest()]
            with contextlib.suppress(OSError):
                replace(self.path, json.dumps(self.kept))
        return found.hexdigest() if files else ""


def files_of(folder, parts=PARTS):
    """Returns all files that the proof of the crate in this folder reads, in their order."""
    return sorted(f"{at}/{name}" for part in parts for at, _, names in os.walk(f"{folder}/{part}") for name in names)


def replace(path, text):
    """Writes a file completely or not at all."""
    os.makedirs(os.path.dirname(path), exist_ok=True)
    fresh = f"{path}.{os.getpid()}.{threading.get_ident()}"
    with open(fresh, "w", encoding="utf-8") as it:
        it.write(text)
    os.replace(fresh, path)


def kit_files(folder):
    """Returns the files of the toolchain that make programs."""
    found = []
    for part in KIT_PARTS:
        path = f"{folder}/{part}"
        found += [path] if os.path.isfile(path) else [f"{at}/{name}" for at, _, names in os.walk(path) for name in names]
    return sorted(found)


class Kit:
    """The toolchain: its folder, what it says of itself, and a checksum of its programs. They are large: the checksum is kept, and
    is made again where the disk says anything else of a file."""

    def __init__(self):
        rt = next((f"{at}/rt" for at in os.environ.get("PATH", "").split(":") if at and os.access(f"{at}/rt", os.X_OK)), None)
        self.folder, self.version, self.sum = None, "", None
        if rt is None:
            return
        kept, now = {}, None
        with contextlib.suppress(OSError, ValueError), open(f"{KEPT}/seen/kit.json", encoding="utf-8") as it:
            kept = json.load(it)
        if kept.get("rt") == look(rt) and kept.get("files") == [look(it) for it in kit_files(kept.get("folder", ""))]:
            now = kept
        if now is None:
            now = self.made(rt)
            with contextlib.suppress(OSError):
                replace(f"{KEPT}/seen/kit.json", json.dumps(now))
                replace(f"{KEPT}/seen/kit", now["folder"] + "\n")
        self.folder, self.version, self.sum = now["folder"], now["version"], now["sum"]

    @staticmethod
    def made(rt):
        """Returns all that is said of the toolchain, from its files."""
        before = look(rt)
        try:
            folder = kit_folder()
            version = subprocess.run(["rt", "version"], capture_output=True, text=True, check=True).stdout
        except subprocess.CalledProcessError:
            raise OSError(0, "the toolchain's command does not answer", rt) from None
        files = [look(it) for it in kit_files(folder)]
        found = hashlib.sha256(version.encode())
        for path, *_ in files:
            found.update(f"{os.path.relpath(path, folder)}\0{sum_of(path)}\0".encode())
        return {"rt": before, "folder": folder, "version": version, "files": files, "sum": found.hexdigest()}


class Sources:
    """The checksums of crates as the disk has them at this moment: each file is read once. A crate's own checksum has its line and
    its files, the whole one also HANDLES and the whole ones of all crates below."""

    def __init__(self, parts=PARTS):
        self.parts, self.lines, self.listed = parts, read_lines(), read_crates()
        self.handles = sum_of(f"{TOP}/HANDLES")
        self.wholes, self.seen = {}, {}

    def own(self, crate):
        folder = f"{TOP}/crates/{crate}"
        files = files_of(folder, self.parts)
        # (looked at before they are read, so that a change while they are read shows)
        self.seen[crate] = [look(file) for file in files]
        found = hashlib.sha256(f"{self.lines[crate]}\0".encode())
        for file in files:
            found.update(f"{os.path.relpath(file, folder)}\0{sum_of(file)}\0".encode())
        return found.hexdigest()

    def whole(self, crate):
        if crate not in self.wholes:
            found = hashlib.sha256(f"{self.handles}\0{self.own(crate)}\0".encode())
            for it in self.listed[crate]:
                if it in self.listed:
                    found.update(self.whole(it).encode())
            self.wholes[crate] = found.hexdigest()
        return self.wholes[crate]

    def is_same(self, crate, other):
        """Tells whether these and other sources, read at another time, are the same for a crate, with no change in between, not even
        one that was taken back."""
        below = [*crates_below([crate], self.listed), crate]
        try:
            return self.whole(crate) == other.whole(crate) and all(self.seen.get(it) == other.seen.get(it) for it in below)
        except (KeyError, OSError):
            return False


def flags_of(words):
    """Returns the checksum of the words of commands."""
    return hashlib.sha256(json.dumps(words).encode()).hexdigest()


def read_record(path):
    """Returns the checksums of a record by their names: none where there is no record."""
    try:
        with open(path, encoding="utf-8") as it:
            return dict(line.split() for line in it)
    except (OSError, ValueError):
        return {}


def write_record(path, sources, kit, flags, output):
    """Records what was built. Its output is read from the disk again, where the next call will read it."""
    found = sum_of(output)
    replace(path, f"sources {sources}\nkit {kit}\nflags {flags}\noutput {found}\n")


def holds(path, sources, kit, flags, output):
    """Tells whether a record has these checksums and that of the output. Without a toolchain (kit is None) nothing is said of it."""
    record = read_record(path)
    return (record.get("sources") == sources and record.get("flags") == flags and kit in (None, record.get("kit"))
            and record.get("output", "") != "" and record["output"] == sum_of(output))


def output_of(crate, line):
    """Returns what the proof of a crate leaves: its program, its static library, or its library of statements."""
    out = f"{TOP}/crates/{crate}/out"
    if is_static(line):
        return f"{out}/lib{crate}.a"
    return f"{out}/{crate}" if is_program(f"{TOP}/crates/{crate}") else f"{out}/statements/{crate}.rlib"


def record_of(crate):
    """Returns where the record of a crate's proof is."""
    return f"{TOP}/crates/{crate}/out/statements/sum"


def is_proved(crate):
    """Tells whether what the proof of a crate left is there and is what its record says."""
    import libraries
    sources = Sources()
    if crate not in sources.listed:
        return False
    flags = flags_of(libraries.toolchain_words(crate, sources.lines, sources.listed))
    return holds(record_of(crate), sources.whole(crate), Kit().sum, flags, output_of(crate, sources.lines[crate]))


def is_unproved(crate):
    """Tells whether the program of a crate that is not proved is there and is what its record says."""
    import unproved
    sources = Sources(unproved.PARTS)
    if crate not in sources.listed:
        return False
    return holds(f"{KEPT}/{crate}.sum", sources.whole(crate), Kit().sum, unproved.FLAGS, f"{KEPT}/{crate}")


def is_settled(crate, began):
    """Tells whether all that ./mx looked at was last changed long enough before a time."""
    own = [f"{KEPT}/{crate}", f"{KEPT}/{crate}.sum", f"{TOP}/crates/{crate}/out/{crate}", record_of(crate), f"{TOP}/crates.txt", f"{TOP}/HANDLES"]
    files = [it for name in read_crates() for it in files_of(f"{TOP}/crates/{name}")]
    newest = max((it[3] for it in map(look, own + files) if it), default=0)
    return newest < (began - SETTLED_SECONDS) * 1e9


def main(kind, crate, seen):
    began = time.time()
    try:
        if not (is_proved if kind == "proved" else is_unproved)(crate):
            return 1
    except OSError as error:
        print(f"mx: {error.strerror}: {error.filename}", file=sys.stderr)
        return 1
    if seen and is_settled(crate, began):
        # (in a clone that cannot be written, the checksums are made at every call)
        with contextlib.suppress(OSError):
            replace(f"{KEPT}/seen/{kind}-{crate}", seen + "\n")
    return 0


if __name__ == "__main__":
    if len(sys.argv) not in (3, 4) or sys.argv[1] not in ("proved", "unproved"):
        sys.exit(__doc__)
    sys.exit(main(sys.argv[1], sys.argv[2], sys.argv[3] if len(sys.argv) == 4 else ""))
