#!/usr/bin/env python3
"""Starts headless Chromium, and drives a page in it over its remote debugging port: for the checks of pages.

usage: checks/chromium.py ADDRESS PICTURE [DOM]

leaves the picture of a page, 1600 by 900, in the file PICTURE, and what its document has become, in the file DOM. Beside Python's
library it needs the program chromium."""
import base64
import ctypes
import json
import os
import signal
import socket
import struct
import subprocess
import sys
import tempfile
import time
import urllib.request

from common import PATIENCE, need_tools, skip

CONTRAST = 4.5  # the least contrast of a text
NAMED = ("button", "textbox", "spinbutton", "slider", "combobox", "region")


def end_with_parent():
    """Has the kernel end this process when the one that started it ends, however that ends: a Chromium that is left grows without limit."""
    ctypes.CDLL(None).prctl(1, signal.SIGKILL)  # PR_SET_PDEATHSIG


class NotStarted(SystemExit):
    """Chromium is there, and does not start."""


def need_chromium():
    """Skips the check where there is no Chromium, or none that starts."""
    need_tools("chromium")
    try:
        Page(200, 200).close()
    except NotStarted as error:
        skip(str(error))


class Page:
    """A page in a Chromium of its own, and what is asked of it."""

    def __init__(self, width, height, dark=False):
        self.folder = tempfile.TemporaryDirectory()
        words = ["chromium", "--headless", "--no-sandbox", "--disable-gpu", "--disable-dev-shm-usage", "--remote-debugging-port=0"]
        words += ["--remote-allow-origins=*", "--user-data-dir=" + self.folder.name, "about:blank"]
        # It gets a home of its own, since this one may be read-only.
        self.process = subprocess.Popen(words, stdout=subprocess.DEVNULL, stderr=subprocess.DEVNULL, preexec_fn=end_with_parent,
                                        env={**os.environ, "HOME": self.folder.name})
        port = self.port()
        self.connect(port)
        self.number = 0
        self.faults = []
        self.call("Page.enable")
        self.call("Runtime.enable")
        self.call("Emulation.setDeviceMetricsOverride", width=width, height=height, deviceScaleFactor=1, mobile=False)
        scheme = {"name": "prefers-color-scheme", "value": "dark" if dark else "light"}
        self.call("Emulation.setEmulatedMedia", features=[scheme])

    def port(self):
        name = os.path.join(self.folder.name, "DevToolsActivePort")
        for _ in range(300 * PATIENCE):
            if os.path.exists(name):
                with open(name, encoding="ascii") as it:
                    lines = it.read().split("\n")
                if len(lines) > 1:
                    return int(lines[0])
            if self.process.poll() is not None:
                break
            time.sleep(0.1)
        self.close()
        raise NotStarted("Chromium does not start")

    def connect(self, port):
        pages = []
        while not pages:
            listed = json.load(urllib.request.urlopen(f"http://127.0.0.1:{port}/json"))
            pages = [page["webSocketDebuggerUrl"] for page in listed if page["type"] == "page"]
        path = pages[0].split(str(port), 1)[1]
        self.socket = socket.create_connection(("127.0.0.1", port))
        key = base64.b64encode(os.urandom(16)).decode()
        head = f"GET {path} HTTP/1.1\r\nHost: 127.0.0.1:{port}\r\nUpgrade: websocket\r\nConnection: Upgrade\r\n"
        self.socket.sendall((head + f"Sec-WebSocket-Key: {key}\r\nSec-WebSocket-Version: 13\r\n\r\n").encode())
        got = b""
        while b"\r\n\r\n" not in got:
            got += self.socket.recv(1)

    def exactly(self, count):
        got = b""
        while len(got) < count:
            piece = self.socket.recv(count - len(got))
            if not piece:
                raise SystemExit("Chromium has ended")
            got += piece
        return got

    def receive(self):
        whole = b""
        while True:
            first, second = self.exactly(2)
            count = second & 127
            if count == 126:
                count = struct.unpack(">H", self.exactly(2))[0]
            elif count == 127:
                count = struct.unpack(">Q", self.exactly(8))[0]
            whole += self.exactly(count)
            if first & 128:
                return json.loads(whole)

    def call(self, method, **params):
        self.number += 1
        body = json.dumps({"id": self.number, "method": method, "params": params}).encode()
        if len(body) < 126:
            head = bytes([129, 128 | len(body)])
        elif len(body) < 65536:
            head = bytes([129, 254]) + struct.pack(">H", len(body))
        else:
            head = bytes([129, 255]) + struct.pack(">Q", len(body))
        # A mask of zeros leaves the body as it is.
        self.socket.sendall(head + bytes(4) + body)
        while True:
            answer = self.receive()
            if answer.get("method") == "Runtime.exceptionThrown":
                details = answer["params"]["exceptionDetails"]
                self.faults.append(details["text"] + " " + details.get("exception", {}).get("description", ""))
            if answer.get("id") == self.number:
                if "error" in answer:
                    raise SystemExit(f"{method}: {answer['error']}")
                return answer["result"]

    def ask(self, text):
        answer = self.call("Runtime.evaluate", expression=text, returnByValue=True, awaitPromise=True)
        if "exceptionDetails" in answer:
            raise SystemExit(f"{text}: {answer['exceptionDetails']}")
        return answer["result"].get("value")

    def open(self, url):
        self.call("Page.navigate", url=url)
        for _ in range(200):
            if self.ask("location.href !== 'about:blank' && document.readyState === 'complete'"):
                break
            time.sleep(0.05)
        self.settle()

    def settle(self):
        self.ask("new Promise(done => setTimeout(() => requestAnimationFrame(() => requestAnimationFrame(done)), 250))")

    def key(self, key, modifiers=0):
        for kind in ("keyDown", "keyUp"):
            self.call("Input.dispatchKeyEvent", type=kind, key=key, modifiers=modifiers)
        self.settle()

    def cycle(self):
        return int(self.ask("document.getElementById('cycle').value"))

    def picture(self, name):
        with open(name, "wb") as file:
            file.write(base64.b64decode(self.call("Page.captureScreenshot", format="png")["data"]))

    def close(self):
        self.process.terminate()
        self.process.wait()
        # Chromium's other processes may still write into its folder as it is taken away.
        for _ in range(50):
            try:
                return self.folder.cleanup()
            except OSError:
                time.sleep(0.1)
        return None


# Texts whose contrast with what is behind them is too low.
TOO_FAINT = """(() => {
  const light = colour => {
    const parts = colour.match(/[\\d.]+/g).map(Number);
    const [r, g, b] = parts.map(v => v / 255).map(v => v <= 0.03928 ? v / 12.92 : ((v + 0.055) / 1.055) ** 2.4);
    return { light: 0.2126 * r + 0.7152 * g + 0.0722 * b, clear: parts[3] === 0 };
  };
  const faint = [];
  for (const element of document.querySelectorAll('body *')) {
    if (!element.textContent.trim() || element.children.length || ['SCRIPT', 'STYLE', 'OPTION'].includes(element.tagName)) continue;
    let behind = element;
    while (behind.parentElement && light(getComputedStyle(behind).backgroundColor).clear) behind = behind.parentElement;
    const a = light(getComputedStyle(element).color).light, b = light(getComputedStyle(behind).backgroundColor).light;
    const ratio = (Math.max(a, b) + 0.05) / (Math.min(a, b) + 0.05);
    if (ratio < LEAST) faint.push(element.className + ' ' + element.textContent.slice(0, 20) + ' ' + ratio.toFixed(2));
  }
  return faint;
})()""".replace("LEAST", str(CONTRAST))

# The middle one of the times of 200 steps, each with its layout.
STEP_TIME = """(() => {
  const times = [];
  for (let k = 0; k < 200; k++) {
    const start = performance.now();
    document.getElementById('on').click();
    document.body.getBoundingClientRect();
    times.push(performance.now() - start);
  }
  return times.sort((a, b) => a - b)[100];
})()"""

def main():
    if len(sys.argv) < 3:
        sys.exit(__doc__)
    page = Page(1600, 900)
    page.open(sys.argv[1])
    page.picture(sys.argv[2])
    if len(sys.argv) > 3:
        with open(sys.argv[3], "w", encoding="utf-8") as it:
            it.write(page.ask("document.documentElement.outerHTML"))
    page.close()


if __name__ == "__main__":
    main()
