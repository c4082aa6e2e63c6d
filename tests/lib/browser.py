"""A Chromium without a window, told what to do over a pipe (Chrome DevTools Protocol)."""
from __future__ import annotations

import base64
import fcntl
import json
import os
import select
import shutil
import struct
import subprocess
import tempfile
import time
import zlib
from typing import Any

CHROMIUM = "chromium"
FIRST_FREE = 10  # Below it a descriptor of ours might be one of the two that the browser has its pipe at.
WORDS = ["--headless=new", "--no-sandbox", "--disable-gpu", "--no-first-run", "--disable-extensions", "--disable-dev-shm-usage",
         "--disable-background-networking", "--disable-component-update", "--remote-debugging-pipe"]


class Failed(Exception):
    """The browser answered with an error, or not in time."""


def pipe() -> tuple[int, int]:
    """A pipe whose ends are descriptors from FIRST_FREE on."""
    ends = os.pipe()
    try:
        reads, writes = (fcntl.fcntl(it, fcntl.F_DUPFD_CLOEXEC, FIRST_FREE) for it in ends)
    finally:
        for it in ends:
            os.close(it)
    return reads, writes


class Browser:
    """One page in a browser of its own. `width` and `height` are the window's, in pixels."""

    def __init__(self, width: int, height: int) -> None:
        self.room = tempfile.mkdtemp(prefix="srtgw-browser-")
        told, self.tells = pipe()
        self.hears, said = pipe()
        words = [CHROMIUM, *WORDS, f"--user-data-dir={self.room}", f"--window-size={width},{height}", "about:blank"]
        nothing = dict(stdin=subprocess.DEVNULL, stdout=subprocess.DEVNULL, stderr=subprocess.DEVNULL)
        self.process = subprocess.Popen(words, close_fds=False, preexec_fn=lambda: (os.dup2(told, 3), os.dup2(said, 4)), **nothing)
        for it in (told, said):
            os.close(it)
        self.rest, self.count, self.session = b"", 0, ""
        self.complaints: list[str] = []
        targets = self.call("Target.getTargets")["targetInfos"]
        target = next(it["targetId"] for it in targets if it["type"] == "page")
        self.session = self.call("Target.attachToTarget", targetId=target, flatten=True)["sessionId"]
        for domain in ("Page", "Runtime", "Log"):
            self.call(f"{domain}.enable")
        self.call("Emulation.setDeviceMetricsOverride", width=width, height=height, deviceScaleFactor=1, mobile=False)

    def __enter__(self) -> Browser:
        return self

    def __exit__(self, *why: object) -> None:
        self.session = ""
        try:
            self.call("Browser.close", 5)
            self.process.wait(5)
        except (Failed, OSError, subprocess.TimeoutExpired):
            self.process.kill()
            self.process.wait()
        for it in (self.tells, self.hears):
            os.close(it)
        shutil.rmtree(self.room, ignore_errors=True)

    def message(self, until: float) -> dict[str, Any]:
        """The next message of the browser."""
        while b"\0" not in self.rest:
            if not select.select([self.hears], [], [], max(0.0, until - time.monotonic()))[0]:
                raise Failed("the browser doesn't answer")
            piece = os.read(self.hears, 1 << 16)
            if not piece:
                raise Failed("the browser ended")
            self.rest += piece
        text, _, self.rest = self.rest.partition(b"\0")
        return json.loads(text)

    def note(self, message: dict[str, Any]) -> None:
        """Keeps what the page's script or the browser itself complains of."""
        if message.get("method") == "Runtime.exceptionThrown":
            self.complaints.append(str(message["params"]["exceptionDetails"].get("exception", {}).get("description", "an exception")))
        if message.get("method") == "Log.entryAdded" and message["params"]["entry"]["level"] == "error":
            self.complaints.append(message["params"]["entry"]["text"])

    def call(self, method: str, seconds: float = 30.0, **parameters: Any) -> dict[str, Any]:
        """Calls a method of the protocol, and returns its result."""
        self.count += 1
        asked = {"id": self.count, "method": method, "params": parameters, **({"sessionId": self.session} if self.session else {})}
        os.write(self.tells, json.dumps(asked).encode() + b"\0")
        until = time.monotonic() + seconds
        while True:
            message = self.message(until)
            if message.get("id") == self.count:
                break
            self.note(message)
        if "error" in message:
            raise Failed(f"{method}: {message['error']}")
        return message["result"]

    def opens(self, address: str) -> None:
        """Begins to load a page."""
        error = self.call("Page.navigate", url=address).get("errorText")
        if error:
            raise Failed(f"{address}: {error}")

    def value(self, expression: str) -> Any:
        """The value of an expression of JavaScript in the page."""
        result = self.call("Runtime.evaluate", expression=expression, returnByValue=True, awaitPromise=True)
        if "exceptionDetails" in result:
            raise Failed(f"{expression}: {result['exceptionDetails']['text']}")
        return result["result"].get("value")

    def text(self) -> str:
        """What a reader of the page sees, as text."""
        return self.value("document.body ? document.body.innerText : ''")

    def waits(self, expression: str, seconds: float) -> bool:
        """Waits until an expression is true, for at most so many seconds. Returns whether it is."""
        until = time.monotonic() + seconds
        while not self.value(expression):
            if time.monotonic() >= until:
                return False
            time.sleep(0.05)
        return True

    def picture(self) -> bytes:
        """What the window shows, as PNG."""
        return base64.b64decode(self.call("Page.captureScreenshot", format="png")["data"])


def shown_in(picture: bytes) -> tuple[int, int, int]:
    """The width and the height of a picture in PNG, and how many different lines it has as they are stored: an empty one has at
    most three."""
    at, data, size = 8, b"", (0, 0)
    while at < len(picture):
        length, kind = struct.unpack_from("!I4s", picture, at)
        contents = picture[at + 8:at + 8 + length]
        if kind == b"IHDR":
            size = struct.unpack_from("!2I", contents)
        elif kind == b"IDAT":
            data += contents
        at += 12 + length
    lines = zlib.decompress(data)
    width = len(lines) // size[1]
    return size[0], size[1], len({lines[first:first + width] for first in range(0, len(lines), width)})
