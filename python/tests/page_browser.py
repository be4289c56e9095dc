"""Drives a headless Chromium over its debugging pipe, for the tests of pages."""

import base64
import json
import os
import select
import shutil
import subprocess
import tempfile
import time
from collections.abc import Callable
from pathlib import Path
from typing import Any

NAMES = ["chromium", "chromium-browser", "google-chrome", "chrome"]
WORDS = [
    "--headless=new",
    "--no-sandbox",
    "--no-first-run",
    "--disable-gpu",
    "--disable-dev-shm-usage",
    "--disable-extensions",
    "--hide-scrollbars",
    "--force-color-profile=srgb",
    "--remote-debugging-pipe",
]
# The numbers of the pipes that the browser reads and writes.
READS, WRITES = 3, 4
# After so many seconds without a word the browser hangs.
PATIENCE = 120


def chromium() -> str | None:
    """The path of a Chromium, if there is one."""
    return next(filter(None, map(shutil.which, NAMES)), None)


class Browser:
    """A browser with one page; each message ends with a zero byte."""

    def __init__(self, wide: int = 1200, high: int = 760) -> None:
        self.folder = tempfile.mkdtemp(prefix="mftb-browser-")
        theirs_in, self.out = os.pipe()
        self.into, theirs_out = os.pipe()

        def place() -> None:
            first, second = os.dup(theirs_in), os.dup(theirs_out)
            os.dup2(first, READS)
            os.dup2(second, WRITES)

        command = [str(chromium()), *WORDS, f"--user-data-dir={self.folder}", f"--window-size={wide},{high}"]
        self.run = subprocess.Popen(
            [*command, "about:blank"],
            preexec_fn=place,
            close_fds=False,
            stdout=subprocess.DEVNULL,
            stderr=subprocess.DEVNULL,
        )
        os.close(theirs_in)
        os.close(theirs_out)
        self.number, self.rest, self.session = 0, b"", None
        self.events: list[dict[str, Any]] = []
        target = next(it for it in self.call("Target.getTargets")["targetInfos"] if it["type"] == "page")
        attached = self.call("Target.attachToTarget", targetId=target["targetId"], flatten=True)
        self.session = attached["sessionId"]
        for name in ("Page", "Runtime", "Network", "Log"):
            self.call(f"{name}.enable")
        self.size(wide, high)

    def close(self) -> None:
        """Ends the browser."""
        try:
            self.call("Browser.close")
            self.run.wait(PATIENCE)
        except (RuntimeError, OSError, subprocess.TimeoutExpired):
            self.run.kill()
            self.run.wait()
        os.close(self.out)
        os.close(self.into)
        shutil.rmtree(self.folder, ignore_errors=True)

    def call(self, method: str, **words: Any) -> Any:
        """Asks the browser for something, and returns its answer."""
        self.number += 1
        asked: dict[str, Any] = {"id": self.number, "method": method, "params": words}
        if self.session:
            asked["sessionId"] = self.session
        self.send(json.dumps(asked))
        while True:
            said = self.message()
            if said.get("id") == self.number:
                if "error" in said:
                    raise RuntimeError(f"{method}: {said['error']}")
                return said["result"]
            self.events.append(said)

    def send(self, text: str) -> None:
        """Writes a message."""
        raw = text.encode() + b"\0"
        while raw:
            raw = raw[os.write(self.out, raw) :]

    def message(self) -> dict[str, Any]:
        """Reads a message."""
        while b"\0" not in self.rest:
            if not select.select([self.into], [], [], PATIENCE)[0]:
                raise RuntimeError("the browser says nothing")
            more = os.read(self.into, 1 << 20)
            if not more:
                raise RuntimeError("the browser has ended")
            self.rest += more
        text, self.rest = self.rest.split(b"\0", 1)
        return json.loads(text)

    # What a page is asked, and what is done to it

    def size(self, wide: int, high: int, ratio: float = 1) -> None:
        """Sets the size of the page in pixels."""
        self.call("Emulation.setDeviceMetricsOverride", width=wide, height=high, deviceScaleFactor=ratio, mobile=False)

    def prefer(self, scheme: str) -> None:
        """Sets what the reader prefers: light or dark."""
        features = [{"name": "prefers-color-scheme", "value": scheme}]
        self.call("Emulation.setEmulatedMedia", features=features)

    def open(self, path: str | Path) -> None:
        """Opens a file, and waits until the page is there."""
        self.events.clear()
        self.call("Page.navigate", url=Path(path).resolve().as_uri())
        self.wait("Boolean(window.mftbPage)")

    def ask(self, expression: str) -> Any:
        """The value of an expression in the page."""
        said = self.call("Runtime.evaluate", expression=expression, returnByValue=True, awaitPromise=True)
        if "exceptionDetails" in said:
            raise RuntimeError(said["exceptionDetails"].get("exception", said))
        return said["result"].get("value")

    def wait(self, expression: str, seconds: float = 120) -> None:
        """Waits until an expression holds in the page."""
        self.until(lambda: bool(self.ask(expression)), expression, seconds)

    def until(self, holds: Callable[[], bool], what: str, seconds: float) -> None:
        """Waits until something holds."""
        end = time.monotonic() + seconds
        while not holds():
            if time.monotonic() > end:
                raise AssertionError(f"never: {what}; {self.faults()}")
            time.sleep(0.05)

    def painted(self) -> None:
        """Waits until all that was asked for is painted."""
        self.ask("new Promise((done) => requestAnimationFrame(() => requestAnimationFrame(done)))")

    def mouse(self, kind: str, x: float, y: float, **words: Any) -> None:
        """Moves, presses or releases the mouse, or turns its wheel."""
        self.call("Input.dispatchMouseEvent", type=kind, x=x, y=y, **words)

    def click(self, x: float, y: float) -> None:
        """Clicks at a pixel."""
        self.mouse("mouseMoved", x, y)
        for kind in ("mousePressed", "mouseReleased"):
            self.mouse(kind, x, y, button="left", clickCount=1)
        self.painted()

    def drag(self, x: float, y: float, right: float, down: float) -> None:
        """Drags from a pixel."""
        self.mouse("mousePressed", x, y, button="left", clickCount=1)
        for step in (0.25, 0.5, 0.75, 1):
            self.mouse("mouseMoved", x + right * step, y + down * step, button="left", buttons=1)
        self.mouse("mouseReleased", x + right, y + down, button="left", clickCount=1)
        self.painted()

    def key(self, name: str, text: str = "") -> None:
        """Presses a key."""
        words = {"key": name, "text": text} if text else {"key": name, "code": name}
        self.call("Input.dispatchKeyEvent", type="keyDown", **words)
        self.call("Input.dispatchKeyEvent", type="keyUp", key=name)
        self.painted()

    def picture(self, path: str | Path) -> None:
        """Writes a picture of the page."""
        raw = base64.b64decode(self.call("Page.captureScreenshot", format="png")["data"])
        Path(path).write_bytes(raw)

    # What went wrong

    def faults(self) -> list[str]:
        """What the page said that went wrong."""
        found = []
        for event in self.events:
            if event.get("method") == "Runtime.exceptionThrown":
                details = event["params"]["exceptionDetails"]
                found.append(details.get("exception", {}).get("description", details["text"]))
            if event.get("method") == "Log.entryAdded" and event["params"]["entry"]["level"] == "error":
                found.append(event["params"]["entry"]["text"])
        return found

    def fetched(self) -> list[str]:
        """What the page asked the network for, but for its own file."""
        asked = [
            it["params"]["request"]["url"] for it in self.events if it.get("method") == "Network.requestWillBeSent"
        ]
        return [url for url in asked if not url.startswith(("file:", "data:", "blob:"))]
