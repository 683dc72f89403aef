#!/usr/bin/env python3
"""A language server for sources, over standard input and output: usage: ./mx lsp

It reports faults and warnings as a text changes, and answers what an editor asks of a place: hover (what an instruction does, its words,
the plan of its block; a label's address), the definition of a label, its references, and the labels of a text (editors/README.md). The
answers come from `check`, `disassemble`, `draw` and `plans` of ./mx.
"""
import json
import os
import re
import select
import sys
from typing import Any, BinaryIO, Dict, List, NamedTuple, Optional, Tuple

TOP = os.path.dirname(os.path.dirname(os.path.abspath(__file__)))
sys.path.insert(0, f"{TOP}/python")
from zanderanvil.laboratory import Laboratory, Record  # noqa: E402
from zanderanvil.library import Refusal  # noqa: E402

# How long a text has to stay unchanged before it is checked, in seconds, and the most bytes of a message.
PAUSE, MOST_MESSAGE, MOST_HEADER = 0.15, 64 * 1024 * 1024, 1 << 16
PATIENCE = 900
NAME = re.compile(r"[A-Za-z_.][\w.]*", re.ASCII)
LABEL = re.compile(r"\s*([A-Za-z_][\w.]*)\s*:", re.ASCII)
# Of the protocol: kinds of a diagnostic and of a symbol, faults of a message, how a text is sent.
ERROR, WARNING = 1, 2
FUNCTION, VARIABLE = 12, 13
PARSE_ERROR, INVALID_REQUEST, NO_METHOD, INTERNAL = -32700, -32600, -32601, -32603
WHOLE_TEXT = 1


class Broken(Exception):
    """A message that cannot be read: the number of its fault, and what is wrong."""


class Text(NamedTuple):
    """A text in the editor: its version and its lines."""

    version: Optional[int]
    lines: List[str]


def code_of(line: str) -> str:
    """Returns a line without its comment."""
    return line.partition(";")[0]


def units(line: str, count: int) -> int:
    """Returns how many UTF-16 units the first so many bytes of a line have: what an editor counts."""
    return len(line.encode("utf-8")[:max(count, 0)].decode("utf-8", "ignore").encode("utf-16-le")) // 2


def index_of(line: str, unit: int) -> int:
    """Returns the index of the character at a UTF-16 unit of a line."""
    seen = 0
    for index, it in enumerate(line):
        if seen >= unit:
            return index
        seen += 2 if ord(it) > 0xFFFF else 1
    return len(line)


def units_to(line: str, index: int) -> int:
    return len(line[:index].encode("utf-16-le")) // 2


class Input:
    """Bytes from a file descriptor, and what was read of them ahead."""

    def __init__(self, number: int) -> None:
        self.number, self.ahead = number, b""

    def is_there(self, seconds: float) -> bool:
        """Tells whether something comes before so many seconds are over."""
        return bool(self.ahead) or bool(select.select([self.number], [], [], seconds)[0])

    def more(self) -> bool:
        """Reads on, and tells whether there was anything."""
        came = os.read(self.number, 1 << 16)
        self.ahead += came
        return bool(came)

    def take(self, count: int) -> bytes:
        taken, self.ahead = self.ahead[:count], self.ahead[count:]
        return taken

    def line(self) -> bytes:
        """Returns a line with its end, or nothing at the end of the input."""
        while b"\n" not in self.ahead:
            if len(self.ahead) > MOST_HEADER or not self.more():
                return b""
        return self.take(self.ahead.index(b"\n") + 1)

    def bytes(self, count: int) -> bytes:
        pieces = [self.take(count)]
        count -= len(pieces[0])
        while count > 0 and self.more():
            pieces.append(self.take(count))
            count -= len(pieces[-1])
        return b"".join(pieces)


def read_message(stream: Input) -> Optional[Any]:
    """Reads a message; None at the end of the input."""
    length = None
    while True:
        line = stream.line()
        if not line:
            return None
        name, _, value = line.partition(b":")
        if not line.strip():
            break
        if name.strip().lower() == b"content-length" and value.strip().isdigit():
            length = int(value)
    if length is None or length > MOST_MESSAGE:
        raise Broken(INVALID_REQUEST, "expected a header Content-Length of at most 64 MB")
    content = stream.bytes(length)
    if len(content) < length:
        return None
    try:
        return json.loads(content)
    except (ValueError, RecursionError):
        raise Broken(PARSE_ERROR, "invalid JSON") from None


def effects() -> Dict[str, str]:
    """Returns of each mnemonic the row of docs/SOURCE.md that says what it does."""
    found: Dict[str, str] = {}
    with open(f"{TOP}/docs/SOURCE.md", encoding="utf-8") as file:
        for line in file:
            cells = [it.strip() for it in line.strip().strip("|").split("|")]
            if line.startswith("| `") and len(cells) >= 2:
                for form in re.findall(r"`([^`]+)`", cells[0]):
                    found.setdefault(form.split()[0].lower(), f"`{form}`: {cells[1]}")
    return found


class Facts(NamedTuple):
    """What is known of a text without errors: its words by their lines, the plan of each block, and the labels' addresses and kinds."""

    words: Dict[int, List[Record]]
    plans: List[str]
    labels: Dict[str, Tuple[int, str]]


class Server:
    """The texts that are open, and the answers to what an editor asks."""

    def __init__(self, source: Input, sink: BinaryIO) -> None:
        self.source, self.sink = source, sink
        self.laboratory = Laboratory(f"{TOP}/mx", timeout=PATIENCE)
        self.texts: Dict[str, Text] = {}
        self.waiting: List[str] = []
        self.facts: Dict[str, Optional[Facts]] = {}
        self.effects = effects()
        self.is_ending, self.is_begun = False, False
        self.requests = {
            "initialize": self.initialize, "shutdown": self.shutdown, "textDocument/hover": self.hover,
            "textDocument/definition": self.definition, "textDocument/references": self.references,
            "textDocument/documentSymbol": self.symbols,
        }
        self.notices = {"textDocument/didOpen": self.opened, "textDocument/didChange": self.changed, "textDocument/didClose": self.closed}

    def send(self, **members: Any) -> None:
        content = json.dumps({"jsonrpc": "2.0", **members}).encode()
        self.sink.write(b"Content-Length: %d\r\n\r\n" % len(content) + content)
        self.sink.flush()

    def serve(self) -> int:
        """Answers until the editor ends; returns the exit status, 0 where it asked for that first."""
        while True:
            if self.waiting and not self.source.is_there(PAUSE):
                self.publish(self.waiting.pop(0))
                continue
            try:
                message = read_message(self.source)
            except Broken as broken:
                self.send(id=None, error={"code": broken.args[0], "message": broken.args[1]})
                if broken.args[0] == INVALID_REQUEST:
                    return 1
                continue
            if message is None or (isinstance(message, dict) and message.get("method") == "exit"):
                return 0 if self.is_ending else 1
            self.take(message)

    def take(self, message: Any) -> None:
        """Answers a request, or takes a notice."""
        if not isinstance(message, dict) or not isinstance(message.get("method", ""), str):
            self.send(id=None, error={"code": INVALID_REQUEST, "message": "expected an object with a method"})
            return
        method, number = message.get("method", ""), message.get("id")
        given = message.get("params")
        given = given if isinstance(given, dict) else {}
        if number is None:
            if method in self.notices:
                self.try_to(self.notices[method], given)
            return
        if method not in self.requests:
            self.send(id=number, error={"code": NO_METHOD, "message": f"unknown method {method[:80]}"})
            return
        answered, result = self.try_to(self.requests[method], given)
        self.send(id=number, **({"result": result} if answered else {"error": {"code": INTERNAL, "message": result}}))

    @staticmethod
    def try_to(call: Any, given: Record) -> Tuple[bool, Any]:
        """Makes a call, and returns whether it was answered, and the answer or what is wrong."""
        try:
            return True, call(given)
        except (Refusal, TimeoutError, OSError) as error:
            return False, str(error)[:200]
        except (KeyError, TypeError, IndexError, AttributeError, ValueError):
            return False, "a member is missing or of the wrong kind"

    # What the editor does

    def initialize(self, _given: Record) -> Record:
        return {"capabilities": {"textDocumentSync": {"openClose": True, "change": WHOLE_TEXT}, "hoverProvider": True, "definitionProvider": True,
                                 "referencesProvider": True, "documentSymbolProvider": True},
                "serverInfo": {"name": "zanderanvil"}}

    def shutdown(self, _given: Record) -> None:
        self.is_ending = True

    def opened(self, given: Record) -> None:
        self.keep(given["textDocument"]["uri"], given["textDocument"].get("version"), given["textDocument"]["text"])

    def changed(self, given: Record) -> None:
        self.keep(given["textDocument"]["uri"], given["textDocument"].get("version"), given["contentChanges"][-1]["text"])

    def closed(self, given: Record) -> None:
        uri = given["textDocument"]["uri"]
        self.texts.pop(uri, None)
        self.facts.pop(uri, None)
        self.waiting = [it for it in self.waiting if it != uri]
        self.send(method="textDocument/publishDiagnostics", params={"uri": uri, "diagnostics": []})

    def keep(self, uri: str, version: Optional[int], text: str) -> None:
        """Keeps a text, and has it checked once it stays as it is."""
        self.texts[uri] = Text(version, text.split("\n"))
        self.facts.pop(uri, None)
        self.waiting = [it for it in self.waiting if it != uri] + [uri]

    def publish(self, uri: str) -> None:
        """Checks a text, and reports its faults and warnings."""
        text = self.texts[uri]
        try:
            found = [self.diagnostic(text, it) for it in self.laboratory.check(self.bytes_of(text))]
        except (Refusal, TimeoutError, OSError) as error:
            found = [{"range": self.range(text, 0, 0, 0), "severity": ERROR, "source": "zanderanvil", "message": str(error)[:200]}]
        self.send(method="textDocument/publishDiagnostics", params={"uri": uri, "version": text.version, "diagnostics": found})

    @staticmethod
    def bytes_of(text: Text) -> bytes:
        return "\n".join(text.lines).encode("utf-8", "surrogatepass")

    def diagnostic(self, text: Text, found: Record) -> Record:
        number = found["line"] - 1
        line = text.lines[number] if number < len(text.lines) else ""
        begin, end = units(line, found["column"] - 1), units(line, found["end_column"] - 1)
        hint = f" ({found['hint']})" if found.get("hint") else ""
        return {"range": self.range(text, number, begin, max(end, begin)), "severity": ERROR if found["severity"] == "error" else WARNING,
                "code": found["code"], "source": "zanderanvil", "message": f"{found['message']}{hint}"}

    @staticmethod
    def range(_text: Text, line: int, begin: int, end: int) -> Record:
        return {"start": {"line": line, "character": begin}, "end": {"line": line, "character": end}}

    # What the editor asks

    def place_of(self, given: Record) -> Tuple[str, Text, int, int]:
        """Returns of a request the text, the line and the index in it."""
        uri, at = given["textDocument"]["uri"], given["position"]
        text = self.texts[uri]
        line = min(max(int(at["line"]), 0), len(text.lines) - 1)
        return uri, text, line, index_of(text.lines[line], int(at["character"]))

    @staticmethod
    def name_at(line: str, index: int) -> Optional[str]:
        """Returns the name at an index of a line, outside its comment."""
        return next((it[0] for it in NAME.finditer(code_of(line)) if it.start() <= index <= it.end()), None)

    def definitions(self, text: Text) -> Dict[str, Tuple[int, int]]:
        """Returns where each label is defined first: its line, and the index in it."""
        found: Dict[str, Tuple[int, int]] = {}
        for number, line in enumerate(text.lines):
            code, at = code_of(line), 0
            while True:
                label = LABEL.match(code, at)
                if label is None:
                    break
                found.setdefault(label[1], (number, label.start(1)))
                at = label.end()
        return found

    def location(self, uri: str, text: Text, name: str, line: int, index: int) -> Record:
        begin = units_to(text.lines[line], index)
        return {"uri": uri, "range": self.range(text, line, begin, begin + len(name))}

    def definition(self, given: Record) -> Optional[Record]:
        uri, text, line, index = self.place_of(given)
        name = self.name_at(text.lines[line], index)
        place = self.definitions(text).get(name or "")
        return self.location(uri, text, name, *place) if name and place else None

    def references(self, given: Record) -> List[Record]:
        uri, text, line, index = self.place_of(given)
        name = self.name_at(text.lines[line], index)
        known = self.definitions(text)
        if name not in known:
            return []
        is_whole = given.get("context", {}).get("includeDeclaration", True)
        return [self.location(uri, text, name, number, it.start()) for number, said in enumerate(text.lines)
                for it in NAME.finditer(code_of(said)) if it[0] == name and (is_whole or (number, it.start()) != known[name])]

    def symbols(self, given: Record) -> List[Record]:
        uri = given["textDocument"]["uri"]
        text = self.texts[uri]
        facts = self.facts_of(uri)
        found = []
        for name, (line, index) in self.definitions(text).items():
            kind = facts.labels[name][1] if facts and name in facts.labels else "code"
            found.append({"name": name, "kind": FUNCTION if kind == "code" else VARIABLE, "location": self.location(uri, text, name, line, index)})
        return found

    def facts_of(self, uri: str) -> Optional[Facts]:
        """Returns what is known of a text, or None where it has errors."""
        if uri not in self.facts:
            try:
                self.facts[uri] = self.learn(self.bytes_of(self.texts[uri]))
            except (Refusal, TimeoutError, OSError):
                self.facts[uri] = None
        return self.facts[uri]

    def learn(self, source: bytes) -> Facts:
        words: Dict[int, List[Record]] = {}
        for it in self.laboratory.disassemble(source):
            words.setdefault(it["place"]["line"], []).append(it)
        plans = self.laboratory.printed("plans", "source.s", "--print", files={"source.s": source}).decode("ascii").splitlines()
        drawn = self.laboratory.document("draw", source, "--cycles", "1", budget=1)
        return Facts(words, plans, {name: (address, kind) for name, address, kind in drawn["labels"]})

    def hover(self, given: Record) -> Optional[Record]:
        uri, text, line, index = self.place_of(given)
        name = self.name_at(text.lines[line], index)
        if name is None:
            return None
        facts = self.facts_of(uri)
        said = self.say_label(text, facts, name) or self.say_instruction(facts, name, line + 1)
        return {"contents": {"kind": "markdown", "value": said}} if said else None

    def say_label(self, text: Text, facts: Optional[Facts], name: str) -> Optional[str]:
        place = self.definitions(text).get(name)
        if place is None:
            return None
        if facts is None or name not in facts.labels:
            return f"label `{name}`, line {place[0] + 1}"
        address, kind = facts.labels[name]
        return f"{kind} label `{name}`, line {place[0] + 1}: address {address:#x} ({address:,})"

    def say_instruction(self, facts: Optional[Facts], name: str, line: int) -> Optional[str]:
        """Says what an instruction does, which words are linked of its line, and the plan of its block."""
        effect = self.effects.get(name.lower())
        if effect is None:
            return None
        said = [effect]
        words = facts.words.get(line, []) if facts else []
        if facts and words:
            rows = [f"{it['address']:08x}  {it['word']:08x}  {it['text']}{self.origin(it['place'])}" for it in words]
            said.append("```\n" + "\n".join(rows) + "\n```")
            block = words[0]["place"]["block"]
            if block <= len(facts.plans):
                said.append(f"block {block}, its plan: `{facts.plans[block - 1]}`")
        return "\n\n".join(said)

    @staticmethod
    def origin(place: Record) -> str:
        """Says of a word whether it is in a slot, and whether it is a copy."""
        slot = f" in slot {place['slot']}" if place["slot"] else ""
        return f"  ; a copy{slot}" if place["kind"] == "copy" else f"  ;{slot}" if slot else ""


def main(words: List[str]) -> int:
    if words:
        print("zanderanvil: error: usage: ./mx lsp (an editor starts it, and talks to it over standard input and output)", file=sys.stderr)
        return 2
    try:
        return Server(Input(sys.stdin.fileno()), sys.stdout.buffer).serve()
    except (BrokenPipeError, KeyboardInterrupt):
        return 1


if __name__ == "__main__":
    sys.exit(main(sys.argv[1:]))
