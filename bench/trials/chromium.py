"""A headless Chromium, driven over two pipes by its DevTools protocol."""

import json
import os
import select
import shutil
import subprocess
import tempfile
import time
from typing import Any, Optional

from harness import Wrong

NAMES = ("chromium", "chromium-browser", "google-chrome", "chrome")
# As root Chromium has no sandbox; the pages are those of the gateway alone.
FLAGS = ["--headless=new", "--no-sandbox", "--disable-gpu", "--disable-dev-shm-usage",
         "--hide-scrollbars", "--no-first-run", "--disable-background-networking", "--lang=en-GB",
         "--remote-debugging-pipe"]
# (A machine that does much else takes a while to begin.)
SECONDS = 90
READ_BYTES = 1 << 16
# Keys by their names, with their codes and what they write.
KEYS = {"Tab": (9, ""), "Enter": (13, "\r"), " ": (32, " "), "Escape": (27, ""),
        "ArrowUp": (38, ""), "ArrowDown": (40, "")}

# What Chromium says: an answer to a question, or an event.
Message = dict[str, Any]


class Failed(Wrong):
    """Chromium doesn't do what it is asked."""


def found() -> Optional[str]:
    """The path of a Chromium; None where there is none."""
    return next(filter(None, map(shutil.which, NAMES)), None)


class Browser:
    """One page. `events` are those that came since they were taken last."""

    def __init__(self, path: str) -> None:
        self.folder = tempfile.TemporaryDirectory()
        to_browser, self.to = os.pipe()
        self.come, from_browser = os.pipe()
        self.process = subprocess.Popen(
            ["sh", "-c", 'exec "$@" 3<&%d 4>&%d' % (to_browser, from_browser), "sh", path, *FLAGS,
             "--user-data-dir=" + self.folder.name, "about:blank"],
            pass_fds=(to_browser, from_browser), stdin=subprocess.DEVNULL,
            stdout=subprocess.DEVNULL, stderr=subprocess.DEVNULL)
        os.close(to_browser)
        os.close(from_browser)
        self.rest, self.number = b"", 0
        self.events: list[Message] = []
        self.session: Optional[str] = None
        target = self.ask("Target.createTarget", url="about:blank")["targetId"]
        self.session = self.ask("Target.attachToTarget", targetId=target, flatten=True)["sessionId"]
        for domain in ("Page", "Log", "Runtime", "Accessibility"):
            self.ask(domain + ".enable")

    def close(self) -> None:
        self.process.kill()
        self.process.wait()
        os.close(self.to)
        os.close(self.come)
        shutil.rmtree(self.folder.name, ignore_errors=True)

    def message(self, end: float) -> Message:
        """The next message, until a moment."""
        while b"\0" not in self.rest:
            if not select.select([self.come], [], [], max(end - time.monotonic(), 0))[0]:
                raise Failed("Chromium says nothing for %d seconds" % SECONDS)
            part = os.read(self.come, READ_BYTES)
            if not part:
                raise Failed("Chromium has ended")
            self.rest += part
        text, _, self.rest = self.rest.partition(b"\0")
        found: Message = json.loads(text)
        return found

    def ask(self, method: str, **parameters: Any) -> Any:
        """What Chromium answers. Events that come before the answer are kept."""
        self.number += 1
        question = {"id": self.number, "method": method, "params": parameters}
        if self.session:
            question["sessionId"] = self.session
        os.write(self.to, json.dumps(question).encode() + b"\0")
        end = time.monotonic() + SECONDS
        while True:
            message = self.message(end)
            if message.get("id") == self.number:
                if "error" in message:
                    raise Failed("%s: %s" % (method, message["error"].get("message")))
                return message["result"]
            if "method" in message:
                self.events.append(message)

    def wait(self, method: str) -> None:
        """Waits for an event of this name, and keeps it with the others."""
        end = time.monotonic() + SECONDS
        while not any(event["method"] == method for event in self.events):
            message = self.message(end)
            if "method" in message:
                self.events.append(message)

    def open(self, address: str) -> list[Message]:
        """Opens the address, and waits until all of it is there. Returns the events meanwhile."""
        self.events = []
        failed = self.ask("Page.navigate", url=address).get("errorText")
        if failed:
            raise Failed("%s: %s" % (address, failed))
        self.wait("Page.loadEventFired")
        return self.events

    def value(self, script: str) -> Any:
        """What an expression of JavaScript is in the page."""
        found = self.ask(
            "Runtime.evaluate", expression=script, returnByValue=True, awaitPromise=True)
        if "exceptionDetails" in found:
            raise Failed("%s: %s" % (script[-60:], found["exceptionDetails"].get("text")))
        return found["result"].get("value")

    def press(self, key: str) -> None:
        """Presses a key: one of KEYS, or a digit."""
        number, text = KEYS.get(key) or (ord(key), key)
        for kind, written in (("keyDown", text), ("keyUp", "")):
            self.ask("Input.dispatchKeyEvent", type=kind, key=key, text=written,
                     windowsVirtualKeyCode=number)

    def write(self, text: str) -> None:
        """Writes a text where the focus is."""
        self.ask("Input.insertText", text=text)

    def media(self, kind: str = "", scheme: str = "light") -> None:
        """Shows pages as on a screen, or as on paper with `print`, in light or dark colours."""
        wanted = [{"name": "prefers-color-scheme", "value": scheme}]
        self.ask("Emulation.setEmulatedMedia", media=kind, features=wanted)

    def width(self, pixels: int, is_phone: bool = False) -> None:
        self.ask("Emulation.setDeviceMetricsOverride", width=pixels, height=900,
                 deviceScaleFactor=1, mobile=is_phone)
