"""Starts programs on files in memory, within limits: the one that answers requests, and those of the translation."""
import contextlib
import errno
import os
import resource
import select
import signal
import subprocess
import threading
from typing import NamedTuple

import slots
from fields import Refused

# What the program answers, from the bytes of a body to those of an answer (crates/lab_request).
COMMANDS = ("check", "run", "explain", "draw", "profile", "compare", "disassemble", "blocks", "plans", "caches", "interrupts")
# Its exit status where it answers, where it refuses, and where it gets no more memory.
ANSWERED, REFUSED, NO_MEMORY = 0, 1, 6
SECONDS = 60
MOST_OUTPUT = 67_108_864
MOST_MEMORY = 2_147_483_648
# What nearly every run needs less than: it is tried with this first, so that many can run at once also on a small machine.
LITTLE_MEMORY = 268_435_456
CHUNK = 262_144


def memory_file(name, content=b""):
    """Returns a new file in memory, which no folder holds."""
    number = os.memfd_create(name)
    with open(number, "wb", closefd=False) as it:
        it.write(content)
    return number


class Ran(NamedTuple):
    """How a program of the translation ended, and the texts that it printed."""
    status: int
    output: str
    errors: str


class Programs:
    """The program that answers requests, and the runs that are going on. Each run has its share of the memory of all."""

    def __init__(self, program):
        self.program = program
        self.running, self.is_ending = set(), False
        self.lock = threading.Lock()
        self.memory = slots.memory_of_runs()
        # A run and its answer, which is kept in memory, on a small machine as on a large one.
        self.most_memory = min(MOST_MEMORY, max(self.memory.most - MOST_OUTPUT, self.memory.most // 2))

    def answer(self, command, body, client):
        """Has a request of a command answered whose body is in a memory file. Returns the status of the answer, and the memory file
        with its bytes; the run ends where the client has gone."""
        output = memory_file("answer")
        try:
            for memory in sorted({min(LITTLE_MEMORY, self.most_memory), self.most_memory}):
                ended = self.run(command, (body, output), client, memory)
                if ended != NO_MEMORY:
                    break
            status = status_of(ended, memory)
            if size_of(output) == 0:
                raise Refused(500, f"the program {os.path.basename(self.program)} has printed nothing")
            return status, output
        except BaseException:
            os.close(output)
            raise

    def run(self, command, files, client, memory):
        """Runs the program from the beginning of its body to an answer, with this much memory, and returns its status."""
        body, output = files
        os.lseek(body, 0, os.SEEK_SET)
        os.lseek(output, 0, os.SEEK_SET)
        os.ftruncate(output, 0)
        with self.memory.share(memory + MOST_OUTPUT, client):
            process = start([self.program, command], stdin=body, stdout=output, stderr=subprocess.DEVNULL)
            return self.wait(process, client, (SECONDS, memory, MOST_OUTPUT))

    def run_in(self, words, folder, client, limits=(SECONDS, MOST_MEMORY, MOST_OUTPUT)):
        """Runs a program in a folder, with nothing of this one's environment but the path, and returns how it ended."""
        environment = {"PATH": os.environ.get("PATH", os.defpath), "LC_ALL": "C.UTF-8", "TMPDIR": folder, "HOME": folder, "MX_QUIET": "1"}
        seconds, memory, written = limits
        limits = seconds, min(memory, self.most_memory), written
        output, errors = memory_file("output"), None
        try:
            errors = memory_file("errors")
            with self.memory.share(memory + 2 * written, client):
                process = start(words, stdin=subprocess.DEVNULL, stdout=output, stderr=errors, cwd=folder, env=environment)
                return Ran(self.wait(process, client, limits), text_of(output), text_of(errors))
        finally:
            for it in (output, errors):
                if it is not None:
                    os.close(it)

    def wait(self, process, client, limits):
        """Waits for a process within its limits, and returns its status; ends it where they are over, or where the client has gone.
        What it started ends with it."""
        try:
            with self.lock:
                self.running.add(process)
                if self.is_ending:
                    raise ConnectionError("the server ends")
            limit(process.pid, limits)
            self.watch(process, client)
        finally:
            with self.lock:
                self.running.discard(process)
            end(process)
            process.wait()
        if process.returncode < 0:
            seconds, _, output = limits
            raise Refused(507, f"the run was ended: it takes more than {seconds} seconds of a processor, or its answer {output} bytes")
        return process.returncode

    def watch(self, process, client):
        """Returns once a process has ended, which still has its number then."""
        ended = os.pidfd_open(process.pid)
        try:
            poll = select.poll()
            poll.register(ended, select.POLLIN)
            poll.register(client, select.POLLRDHUP)
            events = dict(poll.poll(SECONDS * 1000))
        finally:
            os.close(ended)
        if not events:
            raise Refused(504, f"the run takes more than {SECONDS} seconds")
        if ended not in events:
            raise ConnectionError("the client has gone")

    def end(self):
        """Ends all runs, and those that would begin."""
        with self.lock:
            self.is_ending = True
            for process in self.running:
                end(process)


def start(words, **how):
    """Starts a program in a session of its own."""
    try:
        return subprocess.Popen(words, start_new_session=True, **how)
    except OSError as error:
        if error.errno == errno.ENOENT and error.filename == words[0]:
            raise Refused(500, f"the program {os.path.basename(words[0])} does not exist: start ./mx serve again") from None
        raise Refused(500, f"the program {os.path.basename(words[0])} cannot be started: {error.strerror}") from None


def status_of(ended, memory):
    """Returns the status of the answer that the program printed before it ended so."""
    if ended == NO_MEMORY:
        raise Refused(507, f"the run was ended: it takes more than {memory} bytes of memory")
    if ended not in (ANSWERED, REFUSED):
        raise Refused(500, f"the program has ended with {ended}")
    return 200 if ended == ANSWERED else 400


def end(process):
    """Ends a process that was not waited for, and those that it started."""
    with contextlib.suppress(ProcessLookupError):
        os.killpg(process.pid, signal.SIGKILL)


def limit(process, limits):
    """Limits what a process, and each one that it starts, may take: seconds of a processor, memory, and bytes of a file."""
    kinds = (resource.RLIMIT_CPU, resource.RLIMIT_AS, resource.RLIMIT_FSIZE, resource.RLIMIT_CORE)
    try:
        for kind, most in zip(kinds, (*limits, 0)):
            resource.prlimit(process, kind, (most, most))
    except ProcessLookupError:
        pass  # it has ended


def size_of(number):
    return os.fstat(number).st_size


def pieces_of(number):
    """Yields what a memory file holds."""
    for begin in range(0, size_of(number), CHUNK):
        yield os.pread(number, CHUNK, begin)


def text_of(number):
    """Returns what a memory file holds, as a text."""
    return b"".join(pieces_of(number)).decode("utf-8", "replace")
