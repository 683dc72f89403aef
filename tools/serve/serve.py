#!/usr/bin/env python3
"""The workbench: a server on this machine alone, whose answers are those of the built program mx_serve.

usage: ./mx serve [--port N] [--host H] [FILE]

It prints the address of its page, with a token that every request must have, and goes on until it is interrupted. Of the disk it
reads FILE, and at its start its own page and the examples. What it writes are texts in C for gcc, in folders for temporary files, which
it takes away.
"""
import argparse
import base64
import contextlib
import errno
import glob
import hashlib
import hmac
import http
import http.server
import io
import ipaddress
import json
import os
import re
import resource
import secrets
import signal
import socket
import socketserver
import stat
import sys
import threading
import time
from urllib.parse import parse_qs, urlsplit

import fields
import modules
import programs
import slots
import translate
from fields import Refused

FOLDER = os.path.dirname(os.path.abspath(__file__))
TOP = os.path.dirname(os.path.dirname(FOLDER))
HEAD_SECONDS, BODY_SECONDS, ANSWER_SECONDS, LINGER_SECONDS = 5, 10, 30, 1
RETRY_SECONDS = 0.05
MOST_SOURCE = 4_194_304
WRONG_ARGUMENTS, READ_FAULT, NOT_STARTED = 2, 4, 10
# How long requests have to clean up after an interrupt.
END_SECONDS = 2
COMMANDS = (*programs.COMMANDS, *modules.COMMANDS, "translate")
# No page of another server may hold the page, learn its address, or get what it is answered.
HEADERS = {
    "Cache-Control": "no-store",
    "Connection": "close",
    "Cross-Origin-Resource-Policy": "same-origin",
    "Referrer-Policy": "no-referrer",
    "X-Content-Type-Options": "nosniff",
    "X-Frame-Options": "DENY",
}


class TimedReader(io.RawIOBase):
    """What a client sends, up to a time."""

    def __init__(self, connection):
        super().__init__()
        self.connection = connection
        self.ends = 0

    def give(self, seconds):
        """Sets from now on the time that is left."""
        self.ends = time.monotonic() + seconds

    def readable(self):
        return True

    def readinto(self, buffer):
        left = self.ends - time.monotonic()
        if left <= 0:
            raise TimeoutError
        self.connection.settimeout(left)
        return self.connection.recv_into(buffer)


def policy(page):
    """Returns the content policy of the page: only its own script and style, and requests to this server."""
    def digest(element):
        text = re.search(rf"<{element}>(.*?)</{element}>", page, re.S).group(1)
        return base64.b64encode(hashlib.sha256(text.encode()).digest()).decode()
    return (f"default-src 'none'; script-src 'sha256-{digest('script')}'; style-src 'sha256-{digest('style')}'; connect-src 'self'; "
            "img-src data:; base-uri 'none'; form-action 'none'; frame-ancestors 'none'")


def read_text(name):
    """Returns the text of a file of the repository."""
    with open(name, encoding="utf-8") as it:
        return it.read()


def read_source(name):
    """Returns the text of a source, and raises OSError where it cannot be read, is no regular file, or is too long."""
    # A pipe that nobody writes to would keep an open without this flag waiting.
    number = os.open(name, os.O_RDONLY | os.O_NONBLOCK | os.O_CLOEXEC)
    try:
        if not stat.S_ISREG(os.fstat(number).st_mode):
            raise OSError(errno.EINVAL, "expected a regular file", name)
        with open(number, "rb", closefd=False) as it:
            content = it.read(MOST_SOURCE + 1)
    finally:
        os.close(number)
    if len(content) > MOST_SOURCE:
        raise OSError(errno.EFBIG, f"it has more than {MOST_SOURCE:,} bytes", name)
    return content.decode("utf-8", "replace")


def log(what):
    """Says on standard error what has failed here."""
    with contextlib.suppress(OSError):
        print(f"mx: serve: {what}", file=sys.stderr, flush=True)


class Workbench(socketserver.ThreadingTCPServer):
    """The server, and what it keeps: the page, the examples, the programs, the token."""
    daemon_threads = True
    block_on_close = False
    allow_reuse_address = True
    # Connections that wait here lose nothing while others are admitted.
    request_queue_size = 256

    def __init__(self, words):
        self.address_family = socket.AF_INET6 if ":" in words.host else socket.AF_INET
        super().__init__((words.host, words.port), Handler)
        self.host, self.port = words.host, self.server_address[1]
        self.file, self.is_proved = words.file, words.proved
        self.token = secrets.token_urlsafe(24)
        self.programs = programs.Programs(words.program)
        self.translator = translate.Translator(words.cc, self.programs, is_loopback(words.host))
        self.toolchain = modules.Toolchain(words.run, self.programs)
        self.page = read_text(f"{FOLDER}/page.html")
        self.policy = policy(self.page)
        self.examples = [*examples_in("examples", ".s"), *examples_in("examples/c", ".c")]
        self.slots = slots.Slots()
        # One body with a text in C is read at a time: its object takes some times its size, and hundredths of a second.
        self.reading = threading.Lock()
        # Where no more files can be opened, this one is closed, so that a connection can be accepted and answered.
        self.spare = os.open(os.devnull, os.O_RDONLY | os.O_CLOEXEC)

    def address(self):
        """Returns the address of the page."""
        host = f"[{self.host}]" if ":" in self.host else self.host
        return f"http://{host}:{self.port}/?token={self.token}"

    def is_own(self, host):
        """Tells whether a Host header names this server. Where it listens at every address, each address does, and no other name."""
        found = re.fullmatch(r"(\[[0-9a-fA-F:.]+\]|[^:\[\]]+)(?::([0-9]{1,5}))?", host)
        if not found or int(found.group(2) or 80) != self.port:
            return False
        name = found.group(1).strip("[]").lower()
        if name in ("127.0.0.1", "localhost", self.host.lower()):
            return True
        return self.server_address[0] in ("0.0.0.0", "::") and is_address(name)

    def page_now(self):
        """Returns the page with what it begins with."""
        given = {"examples": self.examples, "proved": self.is_proved, "file": None, "source": None, "missing": self.translator.missing,
                 "joins": bool(self.toolchain.program)}
        if self.file:
            given["file"] = os.path.basename(self.file)
            try:
                given["source"] = read_source(self.file)
            except OSError:
                pass  # it was there at the start; the page begins with an example
        return self.page.replace('"GIVEN"', json.dumps(given).replace("<", "\\u003c"), 1)

    def get_request(self):
        """Accepts a connection; where no file can be opened for it, it is answered so and closed."""
        try:
            return super().get_request()
        except OSError as error:
            if error.errno in (errno.EMFILE, errno.ENFILE):
                self.refuse_without_files(error)
            raise

    def refuse_without_files(self, error):
        """Answers the next connection that there are no more files."""
        log(f"a connection is refused: {error.strerror}")
        if self.spare is not None:
            os.close(self.spare)
            self.spare = None
        try:
            connection, _ = self.socket.accept()
            answer_and_close(connection, error.strerror)
        except OSError:
            time.sleep(RETRY_SECONDS)
        with contextlib.suppress(OSError):
            self.spare = os.open(os.devnull, os.O_RDONLY | os.O_CLOEXEC)

    def process_request(self, request, client_address):
        """Serves a connection in a thread of its own."""
        self.slots.admit(request)
        try:
            super().process_request(request, client_address)
        except RuntimeError as error:
            log(f"a connection is refused: {error}")
            answer_and_close(request, str(error))
            self.slots.leave(request)

    def shutdown_request(self, request):
        self.slots.leave(request)
        super().shutdown_request(request)

    def handle_error(self, request, client_address):
        """Logs what has failed. A client that has gone, or does not read, is no fault of the server's."""
        error = sys.exc_info()[1]
        if not isinstance(error, (ConnectionError, TimeoutError)):
            log(f"a request failed: {type(error).__name__}: {error}")

    def end(self):
        """Ends all runs, waits a little for what answers requests, and takes away what those leave that go on."""
        self.programs.end()
        ends = time.monotonic() + END_SECONDS
        while (self.translator.folders or self.toolchain.folders) and time.monotonic() < ends:
            time.sleep(0.01)
        self.translator.end()
        self.toolchain.end()


def answer_and_close(connection, what):
    """Answers a connection for which there is no thread or no file that the server has failed."""
    body = json.dumps({"error": f"the server has failed: {what}"}) + "\n"
    head = "HTTP/1.1 500 Internal Server Error\r\nContent-Type: application/json\r\nConnection: close\r\n\r\n"
    with connection, contextlib.suppress(OSError):
        connection.settimeout(LINGER_SECONDS)
        connection.sendall((head + body).encode())
        connection.shutdown(socket.SHUT_WR)
        connection.recv(65536)


def examples_in(folder, suffix):
    """Returns the sources of a folder of the repository, each with its name, its text and its input, if there is one."""
    found = []
    for name in sorted(glob.glob(f"{TOP}/{folder}/*{suffix}")):
        given = name.removesuffix(suffix) + ".in"
        found.append({"name": os.path.basename(name), "source": read_text(name), "input": read_text(given) if os.path.exists(given) else ""})
    return found


def is_loopback(host):
    """Tells whether an address is this machine's own."""
    return host == "localhost" or is_address(host) and ipaddress.ip_address(host).is_loopback


def is_address(name):
    try:
        ipaddress.ip_address(name)
    except ValueError:
        return False
    return True


class Handler(http.server.BaseHTTPRequestHandler):
    """One connection, which has one request."""
    protocol_version = "HTTP/1.1"
    server_version, sys_version = "zanderanvil", ""

    def setup(self):
        super().setup()
        self.timed = TimedReader(self.connection)
        self.rfile = io.BufferedReader(self.timed)

    def log_message(self, format, *args):
        pass

    def handle(self):
        """Reads a request, and answers it."""
        self.close_connection = True
        self.requestline, self.request_version, self.command = "", "HTTP/1.1", ""
        self.is_answered = False
        try:
            self.read_request()
        except TimeoutError:
            self.refuse(Refused(408, "the request takes too long"))
        except Refused as refused:
            if refused.status == 500:
                log(refused.wrong)
            self.refuse(refused)
        except ConnectionError:
            raise
        except Exception as error:
            # whatever fails here is no fault of the client's: it gets an answer, if it has none yet
            log(f"a request failed: {type(error).__name__}: {error}")
            if self.is_answered:
                raise ConnectionError("an answer was cut off") from None
            self.refuse(Refused(500, f"the server has failed: {getattr(error, 'strerror', None) or type(error).__name__}"))
        self.linger()

    def read_request(self):
        """Reads the head of a request, and has it answered."""
        self.timed.give(HEAD_SECONDS)
        self.raw_requestline = self.rfile.readline(65537)
        if not self.raw_requestline:
            return
        if len(self.raw_requestline) > 65536:
            raise Refused(414, "the address is too long")
        if self.parse_request():
            self.answer_request()

    def send_error(self, code, message=None, explain=None):
        """Answers what the library refuses of a head."""
        self.refuse(Refused(code, message or http.HTTPStatus(code).phrase))

    def handle_expect_100(self):
        """Asks for the body of a request only where it is to be read."""
        self.check()
        return super().handle_expect_100()

    def answer_request(self):
        if self.request_version == "HTTP/0.9":
            raise Refused(400, "no version of HTTP")
        path = self.check()
        if path == "/":
            return self.answer_page()
        command = path.removeprefix("/api/")
        if command == "translate":
            return self.answer_translation()
        if command in modules.COMMANDS:
            return self.answer_texts(command)
        return self.answer_command(command)

    def answer_command(self, command):
        """Answers a request of a command, by the program: its body goes there and the answer comes back as they are."""
        body = programs.memory_file("body", self.read_body())
        try:
            status, answer = self.server.programs.answer(command, body, self.connection)
        finally:
            os.close(body)
        try:
            self.send_pieces(status, "application/json", programs.pieces_of(answer))
        finally:
            os.close(answer)

    def answer_translation(self):
        """Answers what a text in C is translated to."""
        body = self.read_body()
        with self.server.reading:
            text = fields.read_text(body)
        answer = self.server.translator.answer(text, self.client_address[0], self.connection)
        self.send_pieces(200, "application/json", [answer])

    def answer_texts(self, command):
        """Answers what the toolchain prints of one text, or of several."""
        body = self.read_body()
        with self.server.reading:
            texts = fields.read_texts(body) if command == "join" else [fields.read_text(body, command)]
        self.send_pieces(200, "application/json", [self.server.toolchain.answer(command, texts, self.connection)])

    def check(self):
        """Returns the path of a request that is to be answered: it is meant for this server, has the token, and names something."""
        hosts, origins = self.headers.get_all("Host", []), self.headers.get_all("Origin", [])
        if len(hosts) != 1 or not self.server.is_own(hosts[0]):
            raise Refused(403, "Host names another server")
        if any(origin != f"http://{hosts[0]}" for origin in origins):
            raise Refused(403, "Origin is another server")
        try:
            address = urlsplit(self.path)
        except ValueError:
            raise Refused(400, "the address is none") from None
        if not self.has_token(address):
            raise Refused(403, "no token, or another one")
        self.server.slots.serve(self.request)
        named = address.path.removeprefix("/api/")
        if address.path != "/" and (named == address.path or named not in COMMANDS):
            raise Refused(404, "there is nothing at this path")
        wanted = "GET" if address.path == "/" else "POST"
        if self.command != wanted:
            raise Refused(405, f"only {wanted} is answered here", wanted)
        return address.path

    def has_token(self, address):
        """Tells whether a request has the token: in a header, or for the page in its address."""
        given = [self.headers.get("X-Token", ""), self.headers.get("Authorization", "").removeprefix("Bearer ")]
        if address.path == "/":
            given += parse_qs(address.query).get("token", [])
        return any(hmac.compare_digest(it.encode(errors="replace"), self.server.token.encode()) for it in given)

    def read_body(self):
        """Returns the body of a request."""
        if self.headers.get("Transfer-Encoding") is not None:
            raise Refused(411, "the header Content-Length is missing or invalid")
        length = self.headers.get("Content-Length", "")
        if not re.fullmatch("[0-9]{1,12}", length, re.ASCII):
            raise Refused(411, "the header Content-Length is missing or invalid")
        if int(length) > fields.MOST_BODY:
            raise Refused(413, f"a body has at most {fields.MOST_BODY} bytes")
        self.timed.give(BODY_SECONDS)
        body, read = bytearray(int(length)), 0
        while read < len(body):
            got = self.rfile.readinto(memoryview(body)[read:])
            if not got:
                raise Refused(400, "the body ends too soon")
            read += got
        return body

    def answer_page(self):
        headers = {"Content-Security-Policy": self.server.policy}
        self.send_pieces(200, "text/html; charset=utf-8", [self.server.page_now().encode()], headers)

    def refuse(self, refused):
        """Answers with a refusal."""
        told = {"error": refused.wrong}
        headers = {}
        if refused.status == 405:
            headers["Allow"] = refused.field
        elif refused.field is not None:
            told["field"] = refused.field
        if self.request_version == "HTTP/0.9":
            self.request_version = "HTTP/1.0"
        self.send_pieces(refused.status, "application/json", [json.dumps(told).encode() + b"\n"], headers)

    def send_pieces(self, status, kind, pieces, headers=()):
        """Sends an answer, which the end of the connection ends."""
        ends = time.monotonic() + ANSWER_SECONDS
        self.is_answered = True
        self.send_response(status)
        for name, value in {"Content-Type": kind, **HEADERS, **dict(headers)}.items():
            self.send_header(name, value)
        try:
            self.connection.settimeout(ANSWER_SECONDS)
            self.end_headers()
            for piece in () if self.command == "HEAD" else pieces:
                self.connection.settimeout(max(0.001, ends - time.monotonic()))
                self.connection.sendall(piece)
        except TimeoutError:
            raise ConnectionError("the client does not read") from None

    def linger(self):
        """Takes what a client still sends, for a while: else it might not get the answer."""
        try:
            self.connection.shutdown(socket.SHUT_WR)
            self.timed.give(LINGER_SECONDS)
            while self.timed.read(65536):
                pass
        except OSError:
            pass  # it has gone, or goes on for too long


def read_words():
    """Returns what the command line says. ./mx names the programs in the environment, and whether they are proved."""
    given = [os.environ.pop(f"MX_SERVE_{name}", "") for name in ("PROGRAM", "CC", "PROVED", "RUN")]
    if not given[0]:
        print("mx: start the workbench by ./mx serve", file=sys.stderr)
        sys.exit(WRONG_ARGUMENTS)
    parser = argparse.ArgumentParser(prog="mx serve", description="starts the workbench: a page in the browser, on this machine alone")
    parser.add_argument("--port", type=int, default=0, metavar="N", help="0 to 65535: the port; a free one if it is 0 or left out")
    parser.add_argument("--host", default="127.0.0.1", metavar="H", help="the address to listen at (127.0.0.1, which only this machine reaches)")
    parser.add_argument("file", nargs="?", metavar="FILE", help="the source that the page begins with; it is read only")
    words = parser.parse_args()
    if not 0 <= words.port <= 65535:
        parser.error(f"invalid value '{words.port}' for '--port': expected 0 to 65,535")
    if not words.host.strip():
        # the system takes an empty name for every address of the machine
        parser.error(f"invalid value '{words.host}' for '--host': expected an address, such as 127.0.0.1")
    words.program, words.cc, words.proved, words.run = given[0], given[1], given[2] == "yes", given[3]
    return words


def interrupted(_number, _frame):
    raise KeyboardInterrupt


def fault_of(error):
    """Returns what an error of the system says, with the file's name, if it has one."""
    return f"{error.filename}: {error.strerror}" if error.filename is not None else str(error.strerror or error)


def listen_to_signals():
    """Has signals end the server as an interrupt does; a hang-up only if the one who started it does not ignore that."""
    signal.signal(signal.SIGINT, interrupted)
    signal.signal(signal.SIGTERM, interrupted)
    if signal.getsignal(signal.SIGHUP) != signal.SIG_IGN:
        signal.signal(signal.SIGHUP, interrupted)


def main():
    words = read_words()
    _, most = resource.getrlimit(resource.RLIMIT_NOFILE)
    resource.setrlimit(resource.RLIMIT_NOFILE, (most, most))
    try:
        if words.file:
            read_source(words.file)
    except (OSError, ValueError) as error:
        print(f"mx: {fault_of(error) if isinstance(error, OSError) else error}", file=sys.stderr)
        return READ_FAULT
    try:
        server = Workbench(words)
    except (OSError, UnicodeError) as error:
        where = f"{words.host}, port {words.port}"
        print(f"mx: the workbench cannot listen at {where}: {fault_of(error) if isinstance(error, OSError) else 'no address'}", file=sys.stderr)
        return NOT_STARTED
    try:
        listen_to_signals()
        print(f"The workbench is at {server.address()}", flush=True)
        print(f"All runs together take at most {server.programs.memory.said()} of memory.", file=sys.stderr)
        print("Ctrl-C ends it.", file=sys.stderr, flush=True)
        server.serve_forever()
    except KeyboardInterrupt:
        pass
    finally:
        server.end()
    return 0


if __name__ == "__main__":
    sys.exit(main())
