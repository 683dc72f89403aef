"""What the workbench asks of the toolchain's program: one source of several modules, and the shortest plans of a source's blocks."""
import contextlib
import json
import shutil
import tempfile

from fields import Refused

SECONDS, MOST_MEMORY, MOST_WRITTEN = 10, 1_073_741_824, 16_777_216
MISSING = "the toolchain's program is not given: start the workbench by ./mx serve"
# The commands, each with its field; those of the toolchain that read sources and print a text.
COMMANDS = {"join": "sources", "best": "source"}
# What the command calls each module, and the only source.
MODULE, SOURCE = "module{}.s", "source.s"


class Toolchain:
    """Runs a command of the toolchain on texts, where its program is given."""

    def __init__(self, program, programs):
        self.program, self.programs = program, programs
        self.folders = set()

    def answer(self, command, sources, connection):
        """Returns the answer of a command to sources: its status, and what it printed."""
        if not self.program:
            raise Refused(501, MISSING)
        with self.folder() as folder:
            names = [MODULE.format(k) for k in range(1, len(sources) + 1)] if command == "join" else [SOURCE]
            for name, source in zip(names, sources):
                with open(f"{folder}/{name}", "wb") as it:
                    it.write(source)
            done = self.programs.run_in([self.program, command, *names], folder, connection, (SECONDS, MOST_MEMORY, MOST_WRITTEN))
        told = {"command": command, "status": done.status, "text": done.output, "errors": done.errors}
        return json.dumps(told).encode() + b"\n"

    @contextlib.contextmanager
    def folder(self):
        """Has a folder for texts for a while; `end` takes it away as well."""
        folder = tempfile.mkdtemp(prefix="mx-serve-")
        self.folders.add(folder)
        try:
            yield folder
        finally:
            shutil.rmtree(folder, ignore_errors=True)
            self.folders.discard(folder)

    def end(self):
        """Takes the folders away of commands that were still run."""
        for folder in list(self.folders):
            shutil.rmtree(folder, ignore_errors=True)
