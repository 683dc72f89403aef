"""Compiles a text in C with gcc for MIPS, and translates what it writes to a source, in a folder of its own that is taken away."""
import contextlib
import glob
import itertools
import json
import os
import re
import shutil
import subprocess
import sys
import tempfile
import threading
import time

from directives import find_refused
from fields import Refused
from slots import has_gone

FOLDER = os.path.dirname(os.path.abspath(__file__))
TOP = os.path.dirname(os.path.dirname(FOLDER))
GCC = "mips-linux-gnu-gcc"
PACKAGE = "C programs need the Debian package gcc-mips-linux-gnu: apt-get install gcc-mips-linux-gnu, and start ./mx serve again"
NOT_KEPT = "C programs are compiled for this machine alone, since its kernel cannot keep gcc from other files (it has no Landlock)"
LEVEL = "-O2"
# What gcc and what it loads are below.
READ = ("/usr/bin", "/usr/lib", "/usr/libexec", "/usr/mips-linux-gnu", "/lib", "/lib64")
SECONDS, MOST_MEMORY, MOST_WRITTEN = 10, 1_073_741_824, 4_194_304
MOST_TEXT, MOST_FAULTS, MOST_MESSAGE = 262_144, 30, 1000
MOST_TURNS, TURN_SECONDS, LOOK_SECONDS = 3, 20, 0.05
TEXT, ASSEMBLY = "source.c", "source.s"
SECTION = re.compile(r"\s*\.(text|s?data|rdata|s?bss|section|previous)\b")
LOCATION = re.compile(r"\s*\.loc\s+(\d+)\s+(\d+)")
FILE = re.compile(r'\s*\.file\s+(\d+)\s+"(.*)"')
WORD = re.compile(rb"[A-Za-z0-9_$]+|.")


def finding(line, message, column=1, behind=1, severity="error"):
    """Returns what is wrong on a line, or with the whole where the line is 0, from a column to the one behind; both count bytes from 1."""
    return {"severity": severity, "line": line, "column": column, "end_column": behind, "message": message[:MOST_MESSAGE]}


def finding_of_line(line, message, content):
    """Returns what is wrong with a whole line."""
    words = content[line - 1] if 0 < line <= len(content) else b""
    return finding(line, message, len(words) - len(words.lstrip()) + 1, max(1, len(words.rstrip()) + 1))


class Turns:
    """Who may compile now: one text of a client at a time, and a few in all."""

    def __init__(self):
        self.changed = threading.Condition()
        self.clients = set()

    @contextlib.contextmanager
    def taken(self, client, connection):
        """Waits for a client's turn, and has it for a while; ends where the client has gone."""
        ends = time.monotonic() + TURN_SECONDS
        with self.changed:
            while client in self.clients or len(self.clients) >= MOST_TURNS:
                if has_gone(connection):
                    raise ConnectionError("the client has gone")
                if time.monotonic() > ends:
                    raise Refused(503, "other texts are compiled")
                self.changed.wait(LOOK_SECONDS)
            self.clients.add(client)
        try:
            yield
        finally:
            with self.changed:
                self.clients.discard(client)
                self.changed.notify_all()


def objects_in(line):
    """Returns the list of objects that a line of gcc spells, or None where it is another one, as one that was cut off."""
    try:
        told = json.loads(line)
    except ValueError:
        return None
    return told if isinstance(told, list) else None


def lines_from_gcc(text, content):
    """Returns the findings that gcc tells as JSON, and those lines of it that are none."""
    found, others = [], []
    for line in text.splitlines():
        told = objects_in(line)
        if told is None:
            others.append(line)
        else:
            found += [from_gcc(it, content) for it in told if it["kind"] != "note"]
    return found, others


def from_gcc(told, content):
    """Returns the finding that an object of gcc tells."""
    severity = "warning" if told["kind"] == "warning" else "error"
    message = told["message"] + (f" [{told['option']}]" if "option" in told else "")
    for it in told["locations"]:
        caret, finish = it["caret"], it.get("finish", it["caret"])
        if caret["file"] != TEXT or not 0 < caret["line"] <= len(content):
            continue
        if finish["line"] != caret["line"]:
            return {**finding_of_line(caret["line"], message, content), "severity": severity}
        column = max(1, caret["byte-column"])
        word = WORD.match(content[caret["line"] - 1], column - 1)
        behind = word.end() + 1 if word and "finish" not in it else finish["byte-column"] + 1
        return finding(caret["line"], message, column, max(column, behind), severity)
    return finding(0, message, severity=severity)


def line_of_c(assembly, line):
    """Returns the line of the text that a line of gcc's assembly comes from, or 0 where gcc tells none, as of data."""
    files, place = {}, (0, 0)
    for number, it in enumerate(assembly.splitlines(), 1):
        if found := FILE.match(it):
            files[int(found[1])] = found[2]
        elif number <= line and SECTION.match(it):
            place = (0, 0)
        elif number <= line and (found := LOCATION.match(it)):
            place = (int(found[1]), int(found[2]))
    return place[1] if files.get(place[0]) == TEXT else 0


def from_translator(said, assembly, content):
    """Returns the finding that a refusal of the translator tells."""
    found = re.fullmatch(rf"{re.escape(ASSEMBLY)}:(\d+): (.*)", said, re.S)
    if not found:
        return finding(0, said)
    return finding_of_line(line_of_c(assembly, int(found[1])), found[2], content)


class Translator:
    """Compiles and translates texts, where gcc for MIPS and the program mx_cc are there."""

    def __init__(self, program, programs, is_local):
        self.program, self.programs = program, programs
        self.turns, self.preparing = Turns(), threading.Lock()
        self.folders = set()
        self.headers = set(os.listdir(f"{TOP}/lib/include"))
        with open(f"{TOP}/lib/flags", encoding="ascii") as it:
            self.flags = it.read().split()
        self.missing = self.why_not(is_local)

    def why_not(self, is_local):
        """Returns why nothing can be translated here, or None."""
        if not self.program or not shutil.which(GCC):
            return PACKAGE
        kept = subprocess.run([sys.executable, "-I", f"{FOLDER}/confined.py", "--kept"], stdin=subprocess.DEVNULL, check=False)
        return None if is_local or kept.returncode == 0 else NOT_KEPT

    def answer(self, text, client, connection):
        """Returns the answer to a text: the source that it is translated to, if it is, and what is wrong with it."""
        if self.missing:
            raise Refused(501, self.missing)
        if len(text) > MOST_TEXT:
            raise Refused(400, f"source: a text in C has at most {MOST_TEXT} bytes", "source")
        refused, content = list(itertools.islice(find_refused(text.decode(), self.headers), MOST_FAULTS)), text.splitlines()
        if refused:
            return self.document(None, [finding_of_line(line, why, content) for line, why in refused])
        with self.turns.taken(client, connection), self.folder() as folder:
            return self.document(*self.translate(text, folder, connection))

    @contextlib.contextmanager
    def folder(self):
        """Has a folder for a text for a while; `end` takes it away as well."""
        folder = tempfile.mkdtemp(prefix="mx-serve-")
        self.folders.add(folder)
        try:
            yield folder
        finally:
            shutil.rmtree(folder, ignore_errors=True)
            self.folders.discard(folder)

    def end(self):
        """Takes the folders away of texts that were still compiled."""
        for folder in list(self.folders):
            shutil.rmtree(folder, ignore_errors=True)

    def document(self, source, findings):
        told = {"command": "translate", "status": 1 if source is None else 0, "output": {"source": source, "findings": findings}}
        return json.dumps(told).encode() + b"\n"

    def translate(self, text, folder, connection):
        """Returns the source of a text, or None, and the findings."""
        with open(f"{folder}/{TEXT}", "wb") as it:
            it.write(text)
        said, content = self.compile(folder, connection), text.splitlines()
        findings, others = lines_from_gcc(said.errors, content)
        if said.status != 0:
            if not any(it["severity"] == "error" for it in findings):
                findings.append(finding(0, "gcc gives up: " + (" ".join(others)[:300] or f"status {said.status}")))
            return None, findings[:MOST_FAULTS]
        library = self.library(folder, connection)
        done = self.programs.run_in([self.program, ASSEMBLY, *library], folder, connection, (SECONDS, MOST_MEMORY, MOST_WRITTEN))
        if done.status == 0:
            return done.output, findings[:MOST_FAULTS]
        with open(f"{folder}/{ASSEMBLY}", encoding="utf-8", errors="replace") as it:
            return None, [from_translator((done.output or done.errors).strip(), it.read(), content), *findings[: MOST_FAULTS - 1]]

    def compile(self, folder, connection):
        """Compiles the text of a folder, and returns how that ended."""
        words = [sys.executable, "-I", f"{FOLDER}/confined.py", *READ, f"{TOP}/lib/include", "--", GCC, "-S", *self.flags, "-nostdinc", "-isystem",
                 f"{TOP}/lib/include", "-g1", LEVEL, f"-fmax-errors={MOST_FAULTS}", "-fdiagnostics-format=json", TEXT, "-o", ASSEMBLY]
        return self.programs.run_in(words, folder, connection, (SECONDS, MOST_MEMORY, MOST_WRITTEN))

    def library(self, folder, connection):
        """Returns the names of the library's assembly. tools/cc.sh compiles it if it is not kept yet, and prints the folder that has it."""
        with self.preparing:
            done = self.programs.run_in([f"{TOP}/tools/cc.sh", TOP, "library"], folder, connection)
        kept = sorted(glob.glob(f"{glob.escape(done.output.strip())}/*.s")) if done.status == 0 else []
        if not kept:
            raise Refused(500, f"the library is not compiled: {(done.errors or done.output)[:300]}")
        return kept
