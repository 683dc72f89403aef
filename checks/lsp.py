#!/usr/bin/env python3
"""Drives the language server as an editor does, and compares its answers.

usage: checks/lsp.py
"""
import json
import os
import select
import subprocess
import sys
import time

import common
from common import TOP, tell

SECONDS = 60 * common.PATIENCE
URI = "file:///x.s"
GOOD = """; sends two letters, é
start:  addi r0,#72,r1
        st   255[r0],r1
        ld   word[r0],r2
        bne  r1,r0,start
        halt
        .data
word:   .word 105,start
"""


class Editor:
    """A server that is started, and the messages that go to it and come from it."""

    def __init__(self):
        environment = {**os.environ, "MX_RUN": common.program("mx_run"), "MX_LAB": common.program("mx_lab"), "MX_QUIET": "1"}
        self.process = subprocess.Popen([sys.executable, "-B", f"{TOP}/tools/lsp.py"], stdin=subprocess.PIPE, stdout=subprocess.PIPE, env=environment)
        self.ahead, self.number = b"", 0

    def write(self, content):
        self.process.stdin.write(content)
        self.process.stdin.flush()

    def send(self, **members):
        content = json.dumps({"jsonrpc": "2.0", **members}).encode()
        self.write(b"Content-Length: %d\r\n\r\n" % len(content) + content)

    def message(self, seconds=SECONDS):
        """Returns the next message, or None where none comes, or the server has ended."""
        end = time.monotonic() + seconds
        while True:
            head, found, rest = self.ahead.partition(b"\r\n\r\n")
            length = int(head.split(b":")[1]) if found else 0
            if found and len(rest) >= length:
                self.ahead = rest[length:]
                return json.loads(rest[:length])
            if not select.select([self.process.stdout], [], [], max(0, end - time.monotonic()))[0]:
                return None
            came = os.read(self.process.stdout.fileno(), 65536)
            if not came:
                return None
            self.ahead += came

    def ask(self, method, **params):
        self.number += 1
        self.send(id=self.number, method=method, params=params)
        while True:
            answer = self.message()
            if answer is None or answer.get("id") == self.number:
                return answer

    def at(self, method, line, character, **params):
        answer = self.ask(f"textDocument/{method}", textDocument={"uri": URI}, position={"line": line, "character": character}, **params)
        return answer["result"] if answer and "result" in answer else answer

    def change(self, text, version, method="didChange"):
        opened = {"uri": URI, "languageId": "mips-x", "version": version, "text": text}
        changed = {"textDocument": {"uri": URI, "version": version}, "contentChanges": [{"text": text}]}
        self.send(method=f"textDocument/{method}", params={"textDocument": opened} if method == "didOpen" else changed)

    def diagnostics(self, version):
        """Returns the diagnostics of a version."""
        while True:
            said = self.message()
            if said is None:
                return None
            if said.get("method") == "textDocument/publishDiagnostics" and said["params"].get("version") == version:
                return said["params"]["diagnostics"]


def drive_texts(editor):
    answer = editor.ask("initialize", capabilities={})
    can = answer["result"]["capabilities"] if answer else {}
    wanted = ("hoverProvider", "definitionProvider", "referencesProvider", "documentSymbolProvider")
    tell("initialize", all(can.get(it) for it in wanted), str(answer))
    editor.send(method="initialized", params={})
    editor.change("é: frob r1\n", 1, "didOpen")
    found = editor.diagnostics(1)
    tell("a faulty text", bool(found) and found[0]["severity"] == 1 and found[0]["range"]["start"]["line"] == 0, str(found))
    editor.change("        frob r1\n", 2)
    editor.change("        nop ; é\n        adi r0,#1,r1\n        halt\n", 3)
    found = editor.diagnostics(3)
    holds = bool(found) and found[0]["code"] == "F3" and "addi" in found[0]["message"]
    tell("the last version alone is checked: its code and its hint", holds, str(found))
    tell("its range", holds and found[0]["range"] == {"start": {"line": 1, "character": 8}, "end": {"line": 1, "character": 11}}, str(found))
    editor.change(GOOD, 4)
    found = editor.diagnostics(4)
    tell("a good text has no error", found is not None and not [it for it in found if it["severity"] == 1], str(found))


def drive_places(editor):
    said = editor.at("hover", 1, 9)
    text = said["contents"]["value"] if said else ""
    tell("hover: what addi does", "the sum of the first register and the number" in text, text)
    tell("hover: its word, its block's plan", "00001000" in text and "block 1, its plan: `" in text, text)
    text = editor.at("hover", 4, 20)["contents"]["value"]
    tell("hover: a code label", text == "code label `start`, line 2: address 0x1000 (4,096)", text)
    text = editor.at("hover", 3, 14)["contents"]["value"]
    tell("hover: a data label", text == "data label `word`, line 8: address 0x100 (256)", text)
    tell("hover: a comment", editor.at("hover", 0, 4) is None)
    tell("hover: a blank", editor.at("hover", 5, 0) is None)
    tell("hover: past the end", editor.at("hover", 99, 99) is None)
    found = editor.at("definition", 4, 20)
    start = {"start": {"line": 1, "character": 0}, "end": {"line": 1, "character": 5}}
    tell("definition", found is not None and found["range"] == start, str(found))
    tell("definition: none of a register", editor.at("definition", 1, 14) is None)
    lines = [it["range"]["start"]["line"] for it in editor.at("references", 1, 2, context={"includeDeclaration": True})]
    tell("references", lines == [1, 4, 7], str(lines))
    lines = [it["range"]["start"]["line"] for it in editor.at("references", 1, 2, context={"includeDeclaration": False})]
    tell("references without the definition", lines == [4, 7], str(lines))
    found = editor.ask("textDocument/documentSymbol", textDocument={"uri": URI})["result"]
    tell("symbols", [(it["name"], it["kind"]) for it in found] == [("start", 12), ("word", 13)], str(found))


def drive_bad_input(editor):
    answer = editor.ask("textDocument/dance")
    tell("an unknown method", answer is not None and answer.get("error", {}).get("code") == -32601, str(answer))
    for name, params in (("no text", {}), ("an unknown text", {"textDocument": {"uri": "file:///none"}, "position": {"line": 0, "character": 0}}),
                         ("a place of words", {"textDocument": {"uri": URI}, "position": {"line": "a", "character": None}})):
        answer = editor.ask("textDocument/hover", **params)
        tell(f"hover with {name}", answer is not None and ("error" in answer or answer.get("result") is None), str(answer))
    editor.send(method="textDocument/didChange", params={"textDocument": 7})
    editor.write(b"Content-Length: 5\r\n\r\n{nope")
    answer = editor.message()
    tell("invalid JSON", answer is not None and answer["error"]["code"] == -32700, str(answer))
    editor.write(b"Content-Length: 2\r\n\r\n[]")
    answer = editor.message()
    tell("a list", answer is not None and answer["error"]["code"] == -32600, str(answer))
    editor.change("        frob\n" * 20_000, 5)
    found = editor.diagnostics(5)
    tell("20,000 faulty lines", found is not None and len(found) > 1000, str(found and len(found)))
    editor.change("x" * 5_000_000, 6)
    found = editor.diagnostics(6)
    tell("a text that is too long", bool(found) and found[0]["severity"] == 1, str(found)[:300])
    tell("it still answers", editor.at("hover", 0, 0) is None)


def end_well(editor):
    editor.ask("shutdown")
    editor.send(method="exit")
    tell("exit after shutdown ends with 0", editor.process.wait(SECONDS) == 0)
    other = Editor()
    other.process.stdin.close()
    tell("the end of the input without shutdown ends with 1", other.process.wait(SECONDS) == 1)
    third = Editor()
    third.write(b"Content-Length: 99999999999\r\n\r\n")
    answer = third.message()
    tell("a message that is too long", answer is not None and third.process.wait(SECONDS) == 1, str(answer))
    words = [sys.executable, "-B", f"{TOP}/tools/lsp.py", "x"]
    ended = subprocess.run(words, stdin=subprocess.DEVNULL, capture_output=True, check=False)
    tell("an argument", ended.returncode == 2 and ended.stderr.count(b"\n") == 1, str(ended))


def main():
    if len(sys.argv) > 1:
        common.wrong_arguments(f"unexpected argument {sys.argv[1]}")
    editor = Editor()
    try:
        drive_texts(editor)
        drive_places(editor)
        drive_bad_input(editor)
        end_well(editor)
    finally:
        editor.process.kill()
    return common.finish("lsp.py", "answers")


if __name__ == "__main__":
    sys.exit(main())
