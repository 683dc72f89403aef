#!/usr/bin/env python3
"""What the workbench does where something fails on its own side, or others take what they can: no program, no more files or memory,
silent connections, files that are none, signals.

usage: checks/serve_faults.py

It needs mx_serve, as ./mx leaves it, or the program that MX_SERVE names; texts in C are tried where gcc-mips-linux-gnu is there.
"""
import json
import os
import resource
import selectors
import shutil
import signal
import socket
import subprocess
import sys
import tempfile
import threading
import time

import common
from clients import ENDLESS, SLOW_TEXT, SOURCE, Client, children_of, good, read_log, wait_until
from common import HAS_TIMES, IS_SAMPLE, PATIENCE, TOP, tell
from serve import environment, need_kernel, serving
from tiny import is_alive

sys.path.insert(0, f"{TOP}/tools/serve")
import directives  # noqa: E402
import fields  # noqa: E402
import slots  # noqa: E402

SILENT, SILENT_SECONDS, ANSWER_SECONDS = 64, 15 if IS_SAMPLE else 60, 2 if HAS_TIMES else 20
# When a request that began before the silent connections sends its last bytes.
SLOW_SECONDS = 4
FEW_FILES, SOME_MEMORY = 28, 3 << 30
# A text in C, and whether it is refused: what one reading of the numbers takes for a comment or a string, the other does not.
PASSWD = '#include "/etc/passwd"\n'
TEXTS = [
    ("int a = 1'0; char *s = \"'/*\";\n" + PASSWD + "//*/\n", True),
    ("int a = 0x1'f; \"'\" /* \n" + PASSWD + "*/\n", True),
    ("int a = '/*';\n" + PASSWD, True),
    ("int a = 1'000'000; /* it */\n#include <stdio.h>\n", False),
    ("/*\n" + PASSWD + "*/ int a = 1'000;\n", False),
    ("char *s = \"\\\n" + PASSWD.replace('"', "") + "\"; char c = '\"';\n", False),
]


def ended(words, **given):
    """Returns the status of a workbench that ends by itself, and what it says on standard error; None where it goes on."""
    program = [sys.executable, f"{TOP}/tools/serve/serve.py", *words]
    process = subprocess.Popen(program, stdin=subprocess.DEVNULL, stdout=subprocess.DEVNULL, stderr=subprocess.PIPE, text=True, env=environment(**given))
    try:
        return process.wait(20 * PATIENCE), process.stderr.read()
    except subprocess.TimeoutExpired:
        process.kill()
        process.wait()
        return None, ""
    finally:
        process.stderr.close()


def try_arguments(folder):
    """Files that are none, an empty address, and options that are not a user's."""
    os.mkfifo(f"{folder}/fifo")
    for name in (f"{folder}/fifo", folder, f"{folder}/none", os.devnull):
        status, said = ended([name])
        tell(f"{os.path.basename(name)} as FILE is refused with one line that names it", status == 4 and said.count("\n") == 1 and name in said, (status, said))
    for words in (["--host", ""], ["--host", " "], ["--proved"], ["--program", "/bin/echo"], ["--cc", "x"], ["--port", "65536"], ["--port", "x"]):
        status, said = ended(words)
        tell(f"{' '.join(words)!r} is refused", status == 2 and words[0] in said, (status, said))
    status, said = ended([], MX_SERVE_PROGRAM="")
    tell("without the program of ./mx it does not start", status == 2 and said.count("\n") == 1, (status, said))
    status, said = ended(["--host", "999.1.1.1"])
    tell("an address that is none is named", status == 10 and "999.1.1.1" in said and said.count("\n") == 1, (status, said))


def try_program(folder):
    """A program that cannot be started, and one that is no more: an answer, and a line in the log."""
    program = shutil.copy(common.program("mx_serve"), f"{folder}/mx_serve")
    with tempfile.TemporaryFile("w+") as log, serving(errors=log, MX_SERVE_PROGRAM=program) as (_, address):
        client = Client(address)
        tell("the copy of the program answers", good(client) == 200)
        os.chmod(program, 0o644)
        for what in ("is not executable", "does not exist"):
            status, body = client.send(client.post({"source": SOURCE}))
            told = json.loads(body or b"{}").get("error", "")
            tell(f"a program that {what} is answered with 500 and one line", status == 500 and "mx_serve" in told and "\n" not in told, (status, body))
            tell("it is logged", told and told in read_log(log), read_log(log))
            if what == "is not executable":
                os.remove(program)


def try_silence():
    """A program that prints nothing, or dies: an answer, and a line in the log."""
    for program in ("/bin/true", "/bin/false"):
        with tempfile.TemporaryFile("w+") as log, serving(errors=log, MX_SERVE_PROGRAM=program) as (_, address):
            client = Client(address)
            status, body = client.send(client.post({"source": SOURCE}))
            told = json.loads(body or b"{}").get("error", "")
            tell(f"a program that prints nothing is answered with 500: {program}", status == 500 and told and told in read_log(log), (status, body))


def try_files():
    """No more files can be opened: each request gets an answer, and once there are files again a good one."""
    def limit():
        resource.setrlimit(resource.RLIMIT_NOFILE, (FEW_FILES, FEW_FILES))

    with tempfile.TemporaryFile("w+") as log, serving(errors=log, before=limit) as (_, address):
        client, held, got, empty = Client(address), [], [], []
        for _ in range(FEW_FILES):
            status, body = client.send(client.post({"source": SOURCE}))
            got.append(status)
            if status != 200 and "error" not in json.loads(body or b"{}"):
                empty.append((len(held), status, body))
            held.append(client.connect())
        tell("where files are few each request is answered", not empty and set(got) <= {200, 500} and {200, 500} <= set(got), (got, empty))
        tell("a lack of files is logged", "open files" in read_log(log).lower(), read_log(log)[:300])
        for it in held:
            it.close()
        ends, status = time.monotonic() + 20 * PATIENCE, 0
        while status != 200 and time.monotonic() < ends:
            status = client.send(client.post({"source": SOURCE}))[0]
        tell("with files again it answers", status == 200, status)


class Refill(threading.Thread):
    """Keeps silent connections open: each one that the server closes is opened again at once."""

    def __init__(self, client):
        super().__init__(daemon=True)
        self.client, self.opened, self.ends = client, 0, threading.Event()

    def run(self):
        with selectors.DefaultSelector() as selector:
            for _ in range(SILENT):
                self.open(selector)
            while not self.ends.is_set():
                for key, _ in selector.select(0.1):
                    selector.unregister(key.fileobj)
                    key.fileobj.close()
                    self.open(selector)
            for key in list(selector.get_map().values()):
                key.fileobj.close()

    def open(self, selector):
        connection = socket.socket()
        connection.setblocking(False)
        connection.connect_ex((self.client.host, self.client.port))
        selector.register(connection, selectors.EVENT_READ)
        self.opened += 1


def try_silent():
    """Silent connections that are opened again and again keep nobody with the token from an answer."""
    with serving() as (_, address):
        client = Client(address)
        refill = Refill(client)
        refill.start()
        whole = client.post({"source": SOURCE})
        with client.connect() as slow:
            slow.sendall(whole[:-5])
            took, wrong, is_whole, start = [], [], False, time.monotonic()
            ends = start + SILENT_SECONDS
            while time.monotonic() < ends or len(took) < 10:
                began = time.monotonic()
                status, body = client.send(whole)
                took.append(time.monotonic() - began)
                if status != 200 or took[-1] > ANSWER_SECONDS:
                    wrong.append((status, body[:80], took[-1]))
                # (the server waits ten seconds for the body)
                if not is_whole and (len(took) == 10 or time.monotonic() > start + SLOW_SECONDS):
                    is_whole = True
                    slow.sendall(whole[-5:])
                    status = client.receive(slow)[0]
                    tell("a request that was begun before keeps its connection", status == 200, status)
        refill.ends.set()
        refill.join()
        print(f"    {len(took)} requests beside {refill.opened} silent connections; the slowest answer after {max(took):.2f} s")
        tell("the silent connections were opened again", refill.opened > 2 * SILENT, refill.opened)
        tell(f"beside {SILENT} silent connections each request is answered within {ANSWER_SECONDS} s", not wrong, wrong[:5], len(took))


def try_slots():
    """Requests with the token have 16 slots; one more is refused, and gets a slot when one is free."""
    with serving() as (_, address):
        client = Client(address)
        held = [client.connect() for _ in range(slots.MOST_SERVED)]
        for it in held:
            it.sendall(client.head(Content_Length=100))
        status, ends = 200, time.monotonic() + 5
        while status == 200 and time.monotonic() < ends:
            status, _ = client.send(client.post({"source": SOURCE}))
        tell("a request beyond the slots is refused", status == 503, status)
        for it in held:
            it.close()
        ends = time.monotonic() + 20 * PATIENCE
        while status != 200 and time.monotonic() < ends:
            status, _ = client.send(client.post({"source": SOURCE}))
        tell("once a slot is free it is answered", status == 200, status)


def try_memory():
    """All runs together have their limit: the server says it, and no more runs go on at once than it allows."""
    def limit():
        resource.setrlimit(resource.RLIMIT_AS, (SOME_MEMORY, SOME_MEMORY))

    most = SOME_MEMORY // 4 * 3
    with tempfile.TemporaryFile("w+") as log, serving(errors=log, before=limit) as (process, address):
        tell("the limit of all runs is reported", wait_until(lambda: f"{most // slots.MEBIBYTE:,} MiB" in read_log(log)), read_log(log))
        client, seen = Client(address), []
        held = [client.connect() for _ in range(slots.MOST_SERVED)]
        for it in held:
            it.sendall(client.post({"source": ENDLESS, "budget": 100_000_000}))
        wait_until(lambda: children_of(process), 20)
        ends = time.monotonic() + 3
        while time.monotonic() < ends:
            seen.append(len(children_of(process)))
        for it in held:
            it.close()
        # a run has 256 MiB, and its answer 64 MiB
        allowed = most // (320 * slots.MEBIBYTE)
        tell(f"of {len(held)} runs at most {allowed} go on at once, and some do", 0 < max(seen) <= allowed < len(held), max(seen))
    memory = slots.Memory(100)
    slots.SHARE_SECONDS = 0.2
    with socket.create_server(("127.0.0.1", 0)) as server, socket.create_connection(server.getsockname()) as connection:
        with memory.share(70, connection):
            try:
                with memory.share(31, connection):
                    refused = "it was given"
            except fields.Refused as error:
                refused = error.status
        tell("a run that gets no share is refused", refused == 503, refused)
        with memory.share(1000, connection):
            tell("a run larger than all has all", memory.taken == 100, memory.taken)
        tell("each share is given back", memory.taken == 0, memory.taken)


def try_texts():
    """What a text in C may include, whether gcc takes 1'000 for a number or not."""
    for text, is_refused in TEXTS:
        found = list(directives.find_refused(text, {"stdio.h"}))
        tell(f"{'refused' if is_refused else 'taken'}: {text.splitlines()[0]}", bool(found) == is_refused, found)


def try_signals(folder):
    """A signal ends the workbench, what it runs, and takes the folders of texts away."""
    is_c = shutil.which("mips-linux-gnu-gcc") is not None
    path, body = ("/api/translate", {"source": SLOW_TEXT}) if is_c else ("/api/run", {"source": ENDLESS, "budget": 100_000_000})
    for number in (signal.SIGINT, signal.SIGTERM, signal.SIGHUP):
        temporary = f"{folder}/{number.name}"
        os.mkdir(temporary)
        with serving(TMPDIR=temporary) as (process, address):
            client = Client(address)
            with client.connect() as connection:
                connection.sendall(client.post(body, path))
                ends = time.monotonic() + 20 * PATIENCE
                while not children_of(process) and time.monotonic() < ends:
                    time.sleep(0.01)
                runs = children_of(process)
                process.send_signal(number)
                status = process.wait(20 * PATIENCE)
            tell(f"{number.name} ends it", status == 0 and bool(runs), (status, runs))
            tell(f"{number.name} leaves no folder", not os.listdir(temporary), os.listdir(temporary))
            tell(f"{number.name} leaves no run", wait_until(lambda: not any(map(is_alive, runs))), runs)


def main():
    if sys.argv[1:]:
        common.wrong_arguments(f"unexpected argument {sys.argv[1]}")
    need_kernel()
    common.program("mx_serve")
    with tempfile.TemporaryDirectory() as folder:
        try_arguments(folder)
        try_program(folder)
        try_signals(folder)
    try_silence()
    try_files()
    try_slots()
    try_memory()
    try_texts()
    try_silent()
    return common.finish("workbench's faults", "answers and ends")


if __name__ == "__main__":
    sys.exit(main())
