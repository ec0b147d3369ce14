"""Drives a Chromium without a window by its debugging protocol, with Python's standard library alone."""
from __future__ import annotations

import base64
import json
import os
import shutil
import signal
import socket
import struct
import subprocess
import tempfile
import time
from pathlib import Path
from typing import Any
from urllib.request import urlopen

NAMES = ("chromium", "chromium-browser", "google-chrome")
SECONDS = 30


def program() -> str | None:
    """The browser that is here, if one is."""
    return next(filter(None, map(shutil.which, NAMES)), None)


class Socket:
    """A WebSocket to this machine: texts in both directions, in whole frames."""

    def __init__(self, port: int, path: str) -> None:
        self.link = socket.create_connection(("127.0.0.1", port), SECONDS)
        key = base64.b64encode(os.urandom(16)).decode()
        lines = [f"GET {path} HTTP/1.1", f"Host: 127.0.0.1:{port}", "Upgrade: websocket", "Connection: Upgrade",
                 f"Sec-WebSocket-Key: {key}", "Sec-WebSocket-Version: 13", "", ""]  # fmt: skip
        self.link.sendall("\r\n".join(lines).encode())
        self.stream = self.link.makefile("rb")
        while self.stream.readline() != b"\r\n":
            pass

    def send(self, text: str) -> None:
        data, mask = text.encode(), os.urandom(4)
        size = bytes([0x80 | len(data)]) if len(data) < 126 else b"\xfe" + struct.pack(">H", len(data))
        if len(data) >= 1 << 16:
            size = b"\xff" + struct.pack(">Q", len(data))
        self.link.sendall(b"\x81" + size + mask + bytes(byte ^ mask[place % 4] for place, byte in enumerate(data)))

    def receive(self) -> str:
        text, is_last = b"", False
        while not is_last:
            head = self.stream.read(2)
            is_last, size = bool(head[0] & 0x80), head[1] & 0x7F
            if size > 125:
                (size,) = struct.unpack(">H" if size == 126 else ">Q", self.stream.read(2 if size == 126 else 8))
            text += self.stream.read(size)
        return text.decode()


class Browser:
    """A page in a browser of its own, which ends with it."""

    def __init__(self, width: int = 1200, height: int = 900, is_dark: bool = False) -> None:
        self.folder = tempfile.TemporaryDirectory(ignore_cleanup_errors=True)
        words = ["--headless", "--no-sandbox", "--disable-gpu", "--hide-scrollbars", "--remote-debugging-port=0",
                 f"--user-data-dir={self.folder.name}", "--no-first-run", "about:blank"]  # fmt: skip
        quiet: dict[str, Any] = {
            "stdin": subprocess.DEVNULL,
            "stdout": subprocess.DEVNULL,
            "stderr": subprocess.DEVNULL,
        }
        self.process = subprocess.Popen([program() or NAMES[0], *words], start_new_session=True, **quiet)
        self.number = 0
        self.socket = self.connect()
        self.call("Page.enable")
        self.call("Runtime.enable")
        self.shape(width, height, is_dark)

    def connect(self) -> Socket:
        """The socket of its page, once it listens."""
        told = Path(self.folder.name) / "DevToolsActivePort"
        end = time.monotonic() + SECONDS
        while not (told.exists() and told.read_text().count("\n")):
            if time.monotonic() > end:
                raise TimeoutError("the browser doesn't listen")
            time.sleep(0.05)
        port = int(told.read_text().split("\n")[0])
        while True:
            with urlopen(f"http://127.0.0.1:{port}/json/list", timeout=SECONDS) as answer:
                pages = [it for it in json.load(answer) if it["type"] == "page"]
            if pages:
                return Socket(port, "/" + pages[0]["webSocketDebuggerUrl"].split("/", 3)[3])
            time.sleep(0.05)

    def call(self, method: str, **words: Any) -> Any:
        """What a method of the protocol gives."""
        self.number += 1
        self.socket.send(json.dumps({"id": self.number, "method": method, "params": words}))
        while True:
            got = json.loads(self.socket.receive())
            if got.get("id") == self.number:
                if "error" in got:
                    raise RuntimeError(f"{method}: {got['error']}")
                return got["result"]

    def shape(self, width: int, height: int, is_dark: bool) -> None:
        """The size of the window, and whether the system wishes dark pages."""
        self.call(
            "Emulation.setDeviceMetricsOverride", width=width, height=height, deviceScaleFactor=1, mobile=width < 600
        )
        feature = {"name": "prefers-color-scheme", "value": "dark" if is_dark else "light"}
        self.call("Emulation.setEmulatedMedia", features=[feature])

    def go(self, address: str) -> None:
        self.call("Page.navigate", url=address)

    def value(self, script: str) -> Any:
        """The value of an expression in the page."""
        got = self.call("Runtime.evaluate", expression=script, returnByValue=True, awaitPromise=True)
        if "exceptionDetails" in got:
            raise RuntimeError(json.dumps(got["exceptionDetails"])[:500])
        return got["result"].get("value")

    def wait(self, script: str, seconds: float = SECONDS) -> Any:
        """The value of an expression, once it is true."""
        end = time.monotonic() + seconds
        while time.monotonic() < end:
            try:
                if value := self.value(script):
                    return value
            except RuntimeError:  # The page isn't there yet.
                pass
            time.sleep(0.05)
        raise TimeoutError(f"never true: {script}; the page has {self.value('document.body.innerText')[:800]}")

    def shot(self, name: str | Path, is_whole: bool = True) -> None:
        """A picture of the whole page, or of what the window shows of it."""
        got = self.call("Page.captureScreenshot", format="png", captureBeyondViewport=is_whole)
        Path(name).write_bytes(base64.b64decode(got["data"]))

    def end(self) -> None:
        """Ends the browser with all its processes, which are a group of their own."""
        self.socket.link.close()
        os.killpg(self.process.pid, signal.SIGKILL)
        self.process.wait()
        self.folder.cleanup()
