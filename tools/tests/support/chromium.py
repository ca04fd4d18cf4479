"""A browser for tests: opens a page in headless Chromium, and reports what it fetched, logged and shows."""

import base64
import contextlib
import fcntl
import json
import os
import select
import shutil
import signal
import subprocess
import sys
import tempfile
import time
from typing import Any, Callable, Dict, List, Optional, Tuple

#: A message of the DevTools protocol.
Message = Dict[str, Any]
#: Seconds for the browser to start, or to reply.
LIMIT = 60
#: Gives the browser its two pipes under the numbers that it expects them at.
START = """
import os, sys
into, out, *words = sys.argv[1:]
os.dup2(int(into), 3)
os.dup2(int(out), 4)
os.execv(words[0], words)
"""
OPTIONS = [
    "--headless",
    "--no-sandbox",
    "--disable-gpu",
    "--disable-dev-shm-usage",
    "--disable-background-networking",
    "--disable-component-update",
    "--disable-sync",
    "--no-first-run",
    "--hide-scrollbars",
    "--proxy-server=127.0.0.1:9",
    "--remote-debugging-pipe",
]
#: The events of a page that logs something, fails, or opens a dialog.
LOGGED = ("Log.entryAdded", "Runtime.consoleAPICalled", "Runtime.exceptionThrown", "Page.javascriptDialogOpening")
FRAME = "new Promise(done => requestAnimationFrame(() => requestAnimationFrame(done)))"


def found() -> Optional[str]:
    """Returns the path of a Chromium, or `None`."""
    return next(filter(None, map(shutil.which, ("chromium", "chromium-browser", "google-chrome"))), None)


def pipe() -> Tuple[int, int]:
    """Returns the ends of a new pipe, whose numbers are not those at which the browser expects its pipes."""
    low = os.pipe()
    reader, writer = (fcntl.fcntl(end, fcntl.F_DUPFD_CLOEXEC, 10) for end in low)
    for end in low:
        os.close(end)
    return reader, writer


class Chromium:
    """A running browser with one page. Its messages are those of the DevTools protocol."""

    def __init__(self, program: str) -> None:
        self.room = tempfile.TemporaryDirectory()
        self.number, self.rest = 0, b""
        self.events: List[Message] = []
        self.target: Optional[str] = None
        self.session: Optional[str] = None
        theirs, self.into = pipe()
        self.out, theirs_too = pipe()
        words = [sys.executable, "-c", START, str(theirs), str(theirs_too), program, *OPTIONS]
        self.process = subprocess.Popen(
            [*words, f"--user-data-dir={self.room.name}"],
            pass_fds=(theirs, theirs_too),
            stdin=subprocess.DEVNULL,
            stdout=subprocess.DEVNULL,
            stderr=subprocess.DEVNULL,
            start_new_session=True,
        )
        os.close(theirs)
        os.close(theirs_too)

    def close(self) -> None:
        """Ends the browser."""
        with contextlib.suppress(ProcessLookupError):
            os.killpg(self.process.pid, signal.SIGKILL)
        self.process.wait()
        os.close(self.into)
        os.close(self.out)
        with contextlib.suppress(OSError):  # a process of the browser may still write
            self.room.cleanup()

    def send(self, method: str, **parameters: Any) -> int:
        """Sends a request, and returns its number."""
        self.number += 1
        message: Message = {"id": self.number, "method": method, "params": parameters}
        if self.session:
            message["sessionId"] = self.session
        rest = json.dumps(message).encode() + b"\0"
        while rest:
            rest = rest[os.write(self.into, rest) :]
        return self.number

    def call(self, method: str, **parameters: Any) -> Message:
        """Sends a request, and returns the reply."""
        number = self.send(method, **parameters)
        reply = self.wait_for(lambda message: message.get("id") == number)
        if "error" in reply:
            raise RuntimeError(f"{method}: {reply['error']}")
        result: Message = reply["result"]
        return result

    def wait_for(self, is_wanted: Callable[[Message], bool]) -> Message:
        """Returns the next message that is wanted. Keeps the events of the page."""
        ends = time.monotonic() + LIMIT
        while True:
            message = self.next_message(ends)
            if "method" in message and message.get("sessionId") == self.session:
                self.events.append(message)
            if message.get("method") == "Page.javascriptDialogOpening":
                self.send("Page.handleJavaScriptDialog", accept=True)
            if is_wanted(message):
                return message

    def next_message(self, ends: float) -> Message:
        """Reads a message. Raises `TimeoutError` if none came by the time `ends`."""
        while b"\0" not in self.rest:
            ready, _, _ = select.select([self.out], [], [], max(0, ends - time.monotonic()))
            more = os.read(self.out, 1 << 20) if ready else b""
            if not more:
                raise TimeoutError("the browser ended, or does not reply")
            self.rest += more
        text, _, self.rest = self.rest.partition(b"\0")
        message: Message = json.loads(text)
        return message

    def open(self, url: str) -> None:
        """Opens a page, on a wide and light screen."""
        self.session = None
        if self.target:
            self.call("Target.closeTarget", targetId=self.target)
        self.target = self.call("Target.createTarget", url="about:blank")["targetId"]
        self.session = self.call("Target.attachToTarget", targetId=self.target, flatten=True)["sessionId"]
        self.events = []
        for domain in "Page", "Network", "Log", "Runtime", "Accessibility":
            self.call(f"{domain}.enable")
        self.call("Page.setLifecycleEventsEnabled", enabled=True)
        self.show()
        loader = self.call("Page.navigate", url=url)["loaderId"]
        loaded = {"name": "load", "loaderId": loader}
        while not any(loaded.items() <= event["params"].items() for event in self.events):
            self.wait_for(lambda message: "method" in message)
        self.value(FRAME)

    def show(self, width: int = 1280, dark: bool = False, media: str = "screen") -> None:
        """Shows the page in a window of this width, in the dark or not, on a screen or as printed (`media`)."""
        self.call("Emulation.setDeviceMetricsOverride", width=width, height=900, deviceScaleFactor=1, mobile=False)
        scheme = {"name": "prefers-color-scheme", "value": "dark" if dark else "light"}
        self.call("Emulation.setEmulatedMedia", media=media, features=[scheme])
        self.value(FRAME)

    def value(self, expression: str) -> Any:
        """Returns the value of an expression in the page."""
        result = self.call("Runtime.evaluate", expression=expression, returnByValue=True, awaitPromise=True)
        if "exceptionDetails" in result:
            raise RuntimeError(str(result["exceptionDetails"])[:2000])
        return result["result"].get("value")

    def fetched(self) -> List[str]:
        """Returns the addresses that the page requested."""
        requests = [event for event in self.events if event["method"] == "Network.requestWillBeSent"]
        return [event["params"]["request"]["url"] for event in requests]

    def logged(self) -> List[str]:
        """Returns what the page logged: what it was refused, too."""
        return [json.dumps(event["params"])[:500] for event in self.events if event["method"] in LOGGED]

    def named(self) -> List[Tuple[Optional[str], str]]:
        """Returns the role and the name of each part of the page that a screen reader finds."""
        nodes = self.call("Accessibility.getFullAXTree")["nodes"]
        parts = [(node.get("role", {}), node.get("name", {})) for node in nodes if not node.get("ignored")]
        return [(role.get("value"), name.get("value", "")) for role, name in parts]

    def picture(self, scale: float = 1) -> bytes:
        """Returns a picture of the whole page, as PNG, a pixel of which is 1 / `scale` pixels of the window."""
        box = self.value("(it => [it.clientWidth, it.scrollHeight])(document.documentElement)")
        clip = {"x": 0, "y": 0, "width": box[0], "height": box[1], "scale": scale}
        shot = self.call("Page.captureScreenshot", format="png", captureBeyondViewport=True, clip=clip)
        return base64.b64decode(shot["data"])

    def printed(self) -> bytes:
        """Returns the page as it is printed, as PDF."""
        return base64.b64decode(self.call("Page.printToPDF", printBackground=False, preferCSSPageSize=True)["data"])
