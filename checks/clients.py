#!/usr/bin/env python3
"""Sends the workbench the requests of eight clients that do not behave: each gets the answer that docs/SERVE.md states, the server stays
below 200 MB, and still answers.

usage: checks/clients.py [COUNT]      10,000 requests if no number is given, 600 in a sample

It needs mx_serve, as ./mx leaves it, or the program that MX_SERVE names; texts in C are tried where gcc-mips-linux-gnu is there.
"""
import concurrent.futures
import glob
import json
import os
import random
import re
import signal
import socket
import sys
import tempfile
import threading
import time
from urllib.parse import urlsplit

import common
from common import HAS_TIMES, IS_SAMPLE, PATIENCE, TOP, tell
from serve import need_kernel, serving

CLIENTS, MOST_MEMORY = 8, 200  # and megabytes
COUNT = 600 if IS_SAMPLE else 10_000
SOURCE = "        addi r0,#72,r1\n        st   255[r0],r1\n        halt\n"
ENDLESS = "loop:   b    loop\n"
TEXT = "#include <stdio.h>\nint main(void) { puts(\"x\"); return 0; }\n"
# What gcc takes seconds for, unless it is ended.
SLOW_TEXT = "#define A(x) x x x x x x x x x x\nint main(void) { return 0; }\nint a[] = { A(A(A(A(A(A(A(1,))))))) };\n"
SLOW = 8 if IS_SAMPLE else 24  # how many of the requests are slow ones, which take seconds


class Client:
    """What sends requests to the server."""

    def __init__(self, address):
        parts = urlsplit(address)
        self.host, self.port, self.token = parts.hostname, parts.port, parts.query.removeprefix("token=")

    def head(self, path="/api/run", method="POST", **headers):
        """Returns a head: a name of None leaves a header out."""
        told = {"Host": f"{self.host}:{self.port}", "X-Token": self.token, **{name.replace("_", "-"): value for name, value in headers.items()}}
        lines = [f"{method} {path} HTTP/1.1", *(f"{name}: {value}" for name, value in told.items() if value is not None)]
        return "\r\n".join(lines).encode() + b"\r\n\r\n"

    def post(self, body, path="/api/run", **headers):
        body = body if isinstance(body, bytes) else json.dumps(body).encode()
        return self.head(path, Content_Length=len(body), **headers) + body

    def connect(self):
        connection = socket.create_connection((self.host, self.port), timeout=60 * PATIENCE)
        return connection

    def receive(self, connection):
        """Returns the status of an answer, and its body; 0 where there is none."""
        got = b""
        try:
            while piece := connection.recv(65536):
                got += piece
        except ConnectionError:
            pass
        found = re.match(rb"HTTP/1\.[01] (\d{3}) ", got)
        return int(found[1]) if found else 0, got.partition(b"\r\n\r\n")[2]

    def send(self, content, shut=False):
        with self.connect() as connection:
            try:
                connection.sendall(content)
                if shut:
                    connection.shutdown(socket.SHUT_WR)
            except ConnectionError:
                pass  # it was refused before all was sent
            return self.receive(connection)

    def drip(self, content, seconds, front=b""):
        """Sends the bytes one by one behind the front, so slowly that they take these seconds."""
        with self.connect() as connection:
            try:
                connection.sendall(front)
                for place in range(len(content)):
                    connection.sendall(content[place : place + 1])
                    time.sleep(seconds / len(content))
            except ConnectionError:
                pass
            return self.receive(connection)


# The fields of the answers to good requests.
ANSWERS = set()


def good(client):
    status, body = client.send(client.post({"source": SOURCE, "budget": random.randrange(20, 1000)}))
    told = json.loads(body)
    ANSWERS.add(tuple(told))
    return status if told.get("text", "").startswith("halted\ncycles 12\n") else 0


def drawn(client):
    status, body = client.send(client.post({"source": SOURCE, "cycles": 1000, "interrupts": [3, 5]}, "/api/draw"))
    return status if json.loads(body)["output"]["from"] == 0 else 0


def translated(client, text):
    """Returns 200 where a text in C is answered as it should be: by a source, or by what is wrong; also where there is no gcc."""
    status, body = client.send(client.post({"source": text}, "/api/translate"))
    told = json.loads(body)
    if status == 501 and "gcc-mips-linux-gnu" in told["error"]:
        return 200
    return status if (told["output"]["source"] is None) == bool(told["status"]) == bool(told["output"]["findings"]) else 0


def left_in_c(client):
    """Goes away while its text is compiled."""
    with client.connect() as connection:
        connection.sendall(client.post({"source": SLOW_TEXT}, "/api/translate"))
        time.sleep(random.random() / 5)
    return 0


def left(client):
    """Goes away before the run of its request ends."""
    with client.connect() as connection:
        connection.sendall(client.post({"source": ENDLESS, "budget": 100_000_000}))
        time.sleep(random.random() / 5)
    return 0


def nested(depth):
    return b'{"source":' + b"[" * depth + b"]" * depth + b"}"


# What a client does, and the status that it gets.
TRIES = {
    "a good request": (200, good),
    "a good drawing": (200, drawn),
    "a faulty source": (200, lambda client: client.send(client.post({"source": "x", "input": "a"}))[0]),
    "a good check": (200, lambda client: client.send(client.post({"source": "x"}, "/api/check"))[0]),
    "a client that leaves": (0, left),
    "a client that leaves gcc": (0, left_in_c),
    "a good text in C": (200, lambda client: translated(client, TEXT)),
    "a faulty text in C": (200, lambda client: translated(client, TEXT.replace("0", "zero"))),
    "a file in C that is not the library's": (200, lambda client: translated(client, '#include "/etc/passwd"\n' + TEXT)),
    "the same by a macro": (200, lambda client: translated(client, '#define NAME "/etc/passwd"\n#include NAME\n' + TEXT)),
    "a name that is a path": (400, lambda client: client.send(client.post({"source": SOURCE, "name": "../source"}))[0]),
    "a name": (200, lambda client: client.send(client.post({"source": SOURCE, "name": "sum.s"}))[0]),
    "no token": (403, lambda client: client.send(client.post({"source": SOURCE}, X_Token=None))[0]),
    "another token": (403, lambda client: client.send(client.post({"source": SOURCE}, X_Token="x" * 32))[0]),
    "a token in the address alone": (403, lambda client: client.send(client.post({"source": SOURCE}, f"/api/run?token={client.token}", X_Token=None))[0]),
    "a page without a token": (403, lambda client: client.send(client.head("/", "GET", X_Token=None))[0]),
    "a page": (200, lambda client: client.send(client.head(f"/?token={client.token}", "GET", X_Token=None))[0]),
    "a bearer": (200, lambda client: client.send(client.post({"source": SOURCE}, X_Token=None, Authorization=f"Bearer {client.token}"))[0]),
    "another host": (403, lambda client: client.send(client.post({"source": SOURCE}, Host="example.org"))[0]),
    "another port": (403, lambda client: client.send(client.post({"source": SOURCE}, Host=f"127.0.0.1:{client.port + 1}"))[0]),
    "no host": (403, lambda client: client.send(client.post({"source": SOURCE}, Host=None))[0]),
    "another origin": (403, lambda client: client.send(client.post({"source": SOURCE}, Origin="http://example.org"))[0]),
    "its own origin": (200, lambda client: client.send(client.post({"source": SOURCE}, Origin=f"http://{client.host}:{client.port}"))[0]),
    "another path": (404, lambda client: client.send(client.head("/api/../fields.py", "GET"))[0]),
    "a command that is none": (404, lambda client: client.send(client.post({"source": SOURCE}, "/api/build"))[0]),
    "GET where POST is answered": (405, lambda client: client.send(client.head("/api/run", "GET"))[0]),
    "POST where GET is answered": (405, lambda client: client.send(client.post({}, "/"))[0]),
    "DELETE": (405, lambda client: client.send(client.head("/api/run", "DELETE"))[0]),
    "no length": (411, lambda client: client.send(client.head())[0]),
    "a length that is none": (411, lambda client: client.send(client.head(Content_Length="-1"))[0]),
    "chunks": (411, lambda client: client.send(client.head(Transfer_Encoding="chunked") + b"0\r\n\r\n")[0]),
    "a body that is too long": (413, lambda client: client.send(client.head(Content_Length=4_194_305) + b"x" * 4_194_305)[0]),
    "a length that is too long": (413, lambda client: client.send(client.head(Content_Length=999_999_999_999))[0]),
    "the longest body": (400, lambda client: client.send(client.post(b"[" + b"0," * 2_097_151 + b"0"))[0]),
    "a long source": (200, lambda client: client.send(client.post({"source": "; line\n" * 400_000}, "/api/check"))[0]),
    "a body that is cut short": (400, lambda client: client.send(client.post({"source": SOURCE})[:-5], shut=True)[0]),
    "an empty body": (400, lambda client: client.send(client.post(b""))[0]),
    "no JSON": (400, lambda client: client.send(client.post(b"{\"source\": halt}"))[0]),
    "no UTF-8": (400, lambda client: client.send(client.post(b'{"source": "\xff"}'))[0]),
    "a list": (400, lambda client: client.send(client.post([SOURCE]))[0]),
    "a deep body": (400, lambda client: client.send(client.post(nested(100_000)))[0]),
    "many quotes": (400, lambda client: client.send(client.post(b'"\\"' * 1_000_000))[0]),
    "no source": (400, lambda client: client.send(client.post({"budget": 1}))[0]),
    "another field": (400, lambda client: client.send(client.post({"source": SOURCE, "path": "/etc/passwd"}))[0]),
    "half a pair": (400, lambda client: client.send(client.post(b'{"source": "\\ud800"}'))[0]),
    "a budget out of range": (400, lambda client: client.send(client.post({"source": SOURCE, "budget": 100_000_001}))[0]),
    "a budget that is no number": (400, lambda client: client.send(client.post({"source": SOURCE, "budget": True}))[0]),
    "a number that is not one": (400, lambda client: client.send(client.post(b'{"source": "halt", "budget": NaN}'))[0]),
    "many digits": (400, lambda client: client.send(client.post(b'{"source": "halt", "budget": ' + b"9" * 100_000 + b"}"))[0]),
    "interrupts out of order": (400, lambda client: client.send(client.post({"source": SOURCE, "interrupts": [5, 5]}))[0]),
    "an input that is no byte": (400, lambda client: client.send(client.post({"source": SOURCE, "input": [256]}))[0]),
    "another form": (400, lambda client: client.send(client.post({"source": SOURCE, "as": ["svg"]}, "/api/draw"))[0]),
    "no HTTP": (400, lambda client: client.send(bytes(random.randrange(1, 256) for _ in range(200)).replace(b"\n", b"") + b"\r\n\r\n")[0]),
    "an old version": (400, lambda client: client.send(b"GET /\r\n\r\n")[0]),
    "a long address": (414, lambda client: client.send(b"GET /" + b"x" * 70_000 + b" HTTP/1.1\r\n\r\n")[0]),
    "many headers": (431, lambda client: client.send(client.head(**{f"a{n}": n for n in range(200)}))[0]),
}
SLOW_TRIES = {
    "a slow head": (408, lambda client: client.drip(client.head()[:40], 15)),
    "a slow body": (408, lambda client: client.drip(b"{" * 40, 30, client.head(Content_Length=100))),
    "a body that does not come": (408, lambda client: client.send(client.head(Content_Length=100))),
    "nothing at all": (408, lambda client: client.send(b"")),
}


class Tally:
    """What the clients have got that they should not."""

    def __init__(self):
        self.wrong, self.seen, self.lock = [], {}, threading.Lock()

    def attempt(self, client, name, wanted, action):
        try:
            got = action(client)
            got = got[0] if isinstance(got, tuple) else got
        except Exception as error:  # whatever it is, a client has not got what it should
            got = repr(error)
        with self.lock:
            self.seen[name] = self.seen.get(name, 0) + 1
            if got != wanted:
                self.wrong.append((name, wanted, got))


def run_clients(client, count, tally):
    """Makes the requests, eight at a time."""
    names = random.Random(count).choices(list(TRIES), k=max(0, count - SLOW)) + random.Random(count).choices(list(SLOW_TRIES), k=min(SLOW, count))
    random.Random(7).shuffle(names)
    # Each kind is among them, however few there are.
    names[: len(TRIES)] = list(TRIES)
    with concurrent.futures.ThreadPoolExecutor(CLIENTS) as pool:
        tried = [pool.submit(tally.attempt, client, name, *(TRIES.get(name) or SLOW_TRIES[name])) for name in names]
    for it in tried:
        it.result()


def memory_of(process):
    """Returns the most memory that the server had, in megabytes."""
    with open(f"/proc/{process.pid}/status", encoding="ascii") as lines:
        return int(re.search(r"VmHWM:\s+(\d+) kB", lines.read())[1]) / 1024


def children_of(process):
    """Returns the numbers of the processes that a process has started, whichever of its threads did, and that have not ended."""
    found = []
    for entry in filter(str.isdecimal, os.listdir("/proc")):
        try:
            with open(f"/proc/{entry}/stat", encoding="utf-8", errors="replace") as it:
                state, parent = it.read().rpartition(")")[2].split()[:2]
        except OSError:
            continue  # it has ended
        if int(parent) == process.pid and state not in "ZX":
            found.append(entry)
    return found


def read_log(log):
    """Returns what a process has written to a file that is open here."""
    return os.pread(log.fileno(), 1 << 20, 0).decode("utf-8", "replace")


def answer_to(client, command, field, value):
    """Returns the status of a request in which a field has this value, and the field that its refusal names, if it is one."""
    status, answer = client.send(client.post({"source": SOURCE} | {field: value}, f"/api/{command}"))
    return status, json.loads(answer).get("field")


def values_of(told):
    """Returns for each field values that the schema allows, and values that it does not, at the ends of its range."""
    numbers = {name: it for name, it in told.items() if it.get("type") == "integer"}
    most, count = told["interrupts"]["items"]["maximum"], told["interrupts"]["maxItems"]
    longest = told["input"]["oneOf"][0]["maxLength"]
    return {
        "source": (["", "halt\n", "; \u00e4"], [1, None, [SOURCE]]),
        "name": (["a", "_" * 64, "a.-s"], ["", "a" * 65, ".a", "-a", "a/b", "\u00e4", 1]),
        "interrupts": ([[], [0, most], list(range(count))], [[5, 5], [6, 5], [-1], [most + 1], [1.0], "1", list(range(count + 1))]),
        "input": (["", "\u00e4", [], [0, 255], "a" * longest], [[256], [-1], [""], 1, "a" * (longest + 1)]),
        "as": (told["as"]["enum"], ["png", "", 1, ["svg"]]),
        "plans": (["", "/\n", "\u00e4", "a" * told["plans"]["maxLength"]], [1, None, ["/"], "a" * (told["plans"]["maxLength"] + 1)]),
        **{name: ([it["minimum"], it["maximum"]], [it["minimum"] - 1, it["maximum"] + 1, 1.5, "1", True, None]) for name, it in numbers.items()},
    }


def wrong_answers(client, command, fields, values):
    """Yields the fields of a command whose answers are not those that its fields of the schema ask for, each with the value."""
    for field, (inside, outside) in values.items():
        good = (200, None) if field in fields else (400, field)
        for value, wanted in [*((it, good) for it in inside), *((it, (400, field)) for it in outside)]:
            if answer_to(client, command, field, value) != wanted:
                yield command, field, str(value)[:40]


def try_schema(client):
    """Each command has the fields of the schema, with just their ranges."""
    with open(f"{TOP}/docs/serve.schema.json", encoding="utf-8") as it:
        told = json.load(it)["$defs"]
    values = values_of(told["fields"])
    commands = ("check", "run", "explain", "draw", "profile", "compare", "disassemble", "blocks", "plans", "caches", "interrupts")
    wrong = [it for command in commands for it in wrong_answers(client, command, told[command]["properties"], values)]
    tell("each command has the fields of the schema, with their ranges", not wrong, wrong[:10])
    tell("each answer is one that it has", all(set(it) <= set(told["answer"]["properties"]) for it in ANSWERS), ANSWERS)


def try_crowd(client):
    """Forty silent connections at once: the oldest are dropped, the others are told that they take too long."""
    connections = [client.connect() for _ in range(40)]
    with concurrent.futures.ThreadPoolExecutor(40) as pool:
        got = sorted(status for status, _ in pool.map(client.receive, connections))
    for it in connections:
        it.close()
    tell("of forty silent connections the oldest are dropped", 0 < got.count(0) <= 10 and set(got) <= {0, 408}, got)


def try_long(process, client):
    """A long run keeps nobody waiting, and ends with its client."""
    with client.connect() as connection:
        connection.sendall(client.post({"source": ENDLESS, "budget": 100_000_000}))
        ends = time.monotonic() + 20 * PATIENCE
        while not children_of(process) and time.monotonic() < ends:
            time.sleep(0.01)
        tell("the long run is seen", children_of(process))
        took = []
        for _ in range(5):
            began = time.monotonic()
            good(client)
            took.append(time.monotonic() - began)
    tell("beside a long run a short one is answered within 200 ms, at the best of five", min(took) <= 0.2 or not HAS_TIMES, took)
    print(f"    answered after {min(took) * 1000:.0f} ms")


def wait_until(holds, seconds=5):
    """Waits until something holds, and returns whether it came to hold."""
    ends = time.monotonic() + seconds * PATIENCE
    while not holds() and time.monotonic() < ends:
        time.sleep(0.02)
    return holds()


def try_clients(process, client, count, folder):
    """All requests, and what is left of them."""
    tally = Tally()
    if not tell("a good request is answered", good(client) == 200):
        return
    try_schema(client)
    began = time.monotonic()
    run_clients(client, count, tally)
    took = time.monotonic() - began
    tell(f"{count} requests of {CLIENTS} clients get the stated answers, after {took:.0f} s", not tally.wrong, (len(tally.wrong), tally.wrong[:10]),
         sum(tally.seen.values()))
    tell("each kind was tried", set(TRIES) <= set(tally.seen) and sum(tally.seen.values()) == count, sorted(tally.seen))
    try_crowd(client)
    try_long(process, client)
    tell("no run is left", wait_until(lambda: not children_of(process)), children_of(process))
    tell("no text is left", wait_until(lambda: not glob.glob(f"{folder}/mx-serve-*")))
    memory = memory_of(process)
    tell(f"the server has at most {MOST_MEMORY} MB", memory <= MOST_MEMORY, memory)
    print(f"    it had {memory:.0f} MB")
    tell("it still answers", good(client) == 200)


def main():
    if len(sys.argv) > 2 or sys.argv[1:] and not re.fullmatch("[0-9]{1,7}", sys.argv[1]):
        common.wrong_arguments(f"expected a number of requests, found {' '.join(sys.argv[1:])}")
    count = int(sys.argv[1]) if sys.argv[1:] else COUNT
    if count < len(TRIES) + SLOW:
        common.wrong_arguments(f"expected at least {len(TRIES) + SLOW} requests, found {count}")
    need_kernel()
    with tempfile.TemporaryDirectory() as folder, serving(f"{TOP}/examples/countdown.s", TMPDIR=folder) as (process, address):
        try_clients(process, Client(address), count, folder)
        began = time.monotonic()
        process.send_signal(signal.SIGINT)
        status, took = process.wait(5 * PATIENCE), time.monotonic() - began
        tell("an interrupt ends it at once", status == 0 and (took < 1 or not HAS_TIMES), (status, took))
    return common.finish("clients", "answers")


if __name__ == "__main__":
    sys.exit(main())
