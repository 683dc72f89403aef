"""The two ways in which build/prove.py proves a crate over those below it, and what it keeps of it."""
import contextlib
import os
import shutil
import tempfile

import state
from crates import TOP, crates_below, is_program, is_static, read_crates, read_lines

# The toolchain's own C code, which every program is linked with.
OF_C = ("libos_c.a", "liblibc_c.a")
CHANGED = "changed while proving: run it again"


def link(source, target):
    """Links a file, or copies it where the disk has no links."""
    try:
        os.link(source, target)
    except OSError:
        shutil.copy2(source, target)


def library(files, crate, kept="statements"):
    """Returns where the library of a crate is kept, below the folder of all crates: ./mx prove keeps `statements`, rt keeps `rlib`."""
    return f"{files}/{crate}/out/{kept}/{crate}.rlib"


def toolchain_words(crate, lines, listed, kit="KIT", files="FILES", jobs="JOBS", kept="statements"):
    """Returns the commands, each as its words, that prove and build a crate in its folder, over libraries that were kept. With the
    names that stand for the folders of this machine they are what a record calls its flags."""
    own = [it for it in listed[crate] if it in listed]
    others = ["std", *(it for it in listed[crate] if it not in listed)]
    is_main, toolchain = is_program(f"{TOP}/crates/{crate}"), ["--toolchain", f"{kit}/toolchain"]
    words = [f"{kit}/bin/rattle", "build", "--crate-name", crate, "src/main.rt" if is_main else "src/lib.rt"]
    words += [word for it in others for word in ("--extern", f"{it}={kit}/rlibs/{it}.rlib")]
    words += [word for it in own for word in ("--extern", f"{it}={library(files, it, kept)}")]
    words += ["-L", f"dependency={kit}/rlibs"]
    words += [word for it in crates_below([crate], listed) for word in ("-L", f"dependency={os.path.dirname(library(files, it, kept))}")]
    words += ["--antt-project", f"{kit}/rattle/logic/antt-project.json", "--logic-built", f"{kit}/logic_built"]
    words += ["--links", f"{crate}=", "--jobs", str(jobs)]
    if is_static(lines[crate]):
        return [[*words, "--crate-type", "staticlib", *toolchain, "-o", f"out/lib{crate}.a"]]
    if not is_main:
        return [[*words, "--statements", "-o", library(files, crate)]]
    link_words = [f"{kit}/bin/rattle-link", "--target", "x86_64-unknown-linux-gnu", *toolchain, "-o", f"out/{crate}", f"out/{crate}.o"]
    return [[*words, *toolchain, "-o", f"out/{crate}.o"], [*link_words, *(f"{kit}/c/{it}" for it in OF_C)]]


class Statements:
    """Proves crates by rattle itself, and keeps of each what others read of it, and a record of what was proved."""

    def __init__(self, commands):
        self.lines, self.listed, self.commands = read_lines(), read_crates(), commands
        self.files, self.kit = f"{TOP}/crates", state.Kit()
        # What all crates are made of as this begins: a crate that is proved over libraries must still be over the same at its end.
        self.sources = state.Sources()

    def flags(self, crate):
        return state.flags_of(toolchain_words(crate, self.lines, self.listed))

    def output(self, crate):
        return state.output_of(crate, self.lines[crate])

    def is_done(self, crate):
        """Tells whether the crate is proved, and what that left is as its record says."""
        return state.holds(state.record_of(crate), self.sources.whole(crate), self.kit.sum, self.flags(crate), self.output(crate))

    def build(self, crate, jobs):
        """Proves and builds the crate, and returns the status and what was printed."""
        told = ""
        for words in toolchain_words(crate, self.lines, self.listed, self.kit.folder, self.files, jobs):
            status, said = self.commands.run(f"{self.files}/{crate}", *words)
            told += said
            if status:
                return status, told
        return 0, told

    def prove(self, crate, jobs):
        """Proves the crate, and returns whether it is proved, and what was printed: nothing where it is what was proved."""
        if self.is_done(crate):
            return True, ""
        os.makedirs(os.path.dirname(state.record_of(crate)), exist_ok=True)
        with contextlib.suppress(FileNotFoundError):
            os.remove(state.record_of(crate))
        status, said = self.build(crate, jobs)
        said = f"== {crate}\n{said}"
        if status:
            return False, said
        if not self.sources.is_same(crate, state.Sources()) or state.Kit().sum != self.kit.sum:
            return False, f"{said}\nmx: {crate}: {CHANGED}\n"
        if not state.sum_of(self.output(crate)):
            return False, f"{said}\nmx: {crate}: the toolchain left no {self.output(crate)}\n"
        state.write_record(state.record_of(crate), self.sources.whole(crate), self.kit.sum, self.flags(crate), self.output(crate))
        return True, said

    def close(self):
        """Leaves what was built where it is."""


class Rooms:
    """Proves crates by rt, each in a room of its own, from a copy of all crates' files: what rt check and rt test take."""

    def __init__(self, commands, crates):
        self.lines, self.listed, self.commands = read_lines(), read_crates(), commands
        # on the same disk as the repository, where that has a folder that nothing else reads
        self.folder = tempfile.mkdtemp(prefix="mx-prove-", dir=f"{TOP}/.git" if os.path.isdir(f"{TOP}/.git") else None)
        self.files = f"{self.folder}/files"
        for crate in crates:
            shutil.copytree(f"{TOP}/crates/{crate}", f"{self.files}/{crate}", ignore=shutil.ignore_patterns("out", "must-fail"))

    def furnish(self, crate):
        """Makes the crate's room, and returns its folder there, which has what earlier runs left in out/."""
        room, below = f"{self.folder}/{crate}", crates_below([crate], self.listed)
        for it in [*below, crate]:
            shutil.copytree(f"{self.files}/{it}", f"{room}/crates/{it}", copy_function=link)
        for it in below:
            shutil.copytree(f"{TOP}/crates/{it}/out/rlib", f"{room}/crates/{it}/out/rlib", copy_function=link)
        with open(f"{room}/crates.txt", "w", encoding="utf-8") as file:
            file.writelines(self.lines[it] for it in [*below, crate])
        shutil.copy(f"{TOP}/HANDLES", room)
        if os.path.isdir(f"{TOP}/crates/{crate}/out"):
            shutil.move(f"{TOP}/crates/{crate}/out", f"{room}/crates/{crate}/out")
        return f"{room}/crates/{crate}"

    def clear(self, crate):
        """Moves what was built of the crate to the repository, and removes its room."""
        room = f"{self.folder}/{crate}"
        if os.path.isdir(f"{room}/crates/{crate}/out"):
            shutil.move(f"{room}/crates/{crate}/out", f"{TOP}/crates/{crate}/out")
        shutil.rmtree(room, ignore_errors=True)

    def is_done(self, crate):
        """Leaves it to rt what is done."""
        return False

    def prove(self, crate, jobs):
        """Proves and builds the crate, and returns whether that went well, and what rt printed."""
        try:
            folder = self.furnish(crate)
            if not is_program(folder):
                status, said = self.commands.run(folder, "rt", "lib", "--jobs", str(jobs))
                return status == 0, f"== {crate}\n{said}"
            # rt run also runs the program that it builds: what that prints here is not wanted, nor its status.
            _, said = self.commands.run(folder, "rt", "run", "--jobs", str(jobs), "--", "--help")
            return f"rt: running out/{crate};" in said, f"== {crate}\n{said}"
        finally:
            self.clear(crate)

    def close(self):
        """Removes the copy of the crates' files."""
        shutil.rmtree(self.folder, ignore_errors=True)
