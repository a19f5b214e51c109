"""A store of made-up releases with its hub and its gateway, and the ways to ask them."""

import http.client
import json
import os
import re
import signal
import socket
import subprocess
import sys
import tempfile
import threading
import time
from collections.abc import Callable, Iterable, Iterator, Sequence
from contextlib import contextmanager
from pathlib import Path
from typing import Any
from urllib.parse import urlencode

from sctd_service.protocol import HubClient, last_line

from . import demo_members, demo_releases
from .recorder import Recorder

Json = dict[str, Any]
SERVICE = Path(__file__).resolve().parent.parent
SCT, EDITION = "http://snomed.info/sct", "900000000000207008"
FHIR_JSON = "application/fhir+json"
# The head of a $lookup by POST, without what says how long its body is.
POST = (
    b"POST /fhir/CodeSystem/$lookup HTTP/1.1\r\nHost: x\r\n" b"Content-Type: application/json\r\n")
# What is empty in JSON, and no quotation mark at the end of a text.
EMPTY = re.compile(rb'\[\]|null|\{\}|(?<!\\)""')
# How long an answer may take here: more than the gateway's own limit.
SECONDS = 60
PROGRAM_AND_HUB = ("SCTD_PROGRAM", "SCTD_HUB")


def program_and_hub() -> tuple[str, str]:
    program, hub = (os.environ[name] for name in PROGRAM_AND_HUB)
    return program, hub


class Gateway:
    """A gateway that runs, and what it writes to standard error."""

    def __init__(self, hub: str, folder: Path, listen: str = "", words: Sequence[str] = ()) -> None:
        self.socket = listen or str(folder / "http")
        self.log = folder / "log"
        with open(self.log, "wb") as log:
            self.process = subprocess.Popen(
                [sys.executable, "-m", "sctd_service.gateway", "--socket", hub, "--edition",
                 EDITION, "--listen", self.socket, *words],
                cwd=SERVICE, stdout=subprocess.PIPE, stderr=log, text=True)
        assert self.process.stdout is not None
        assert self.process.stdout.readline() == "OK ready\n", self.told()

    def told(self) -> str:
        return self.log.read_text("utf-8", "backslashreplace")

    def connect(self, seconds: float = SECONDS) -> socket.socket:
        connection = socket.socket(socket.AF_UNIX)
        connection.settimeout(seconds)
        connection.connect(self.socket)
        return connection

    def send(self, method: str, target: str, body: bytes | None = None,
             headers: dict[str, str] | None = None) -> "Answer":
        connection = http.client.HTTPConnection("x", timeout=SECONDS)
        connection.sock = self.connect()
        try:
            connection.request(method, target, body, headers or {})
            answer = connection.getresponse()
            names = {name.lower(): value for name, value in answer.getheaders()}
            return Answer(answer.status, names, answer.read())
        finally:
            connection.close()

    def raw(self, data: bytes, seconds: float = 20) -> bytes:
        """What comes back for these bytes, up to the end of the connection."""
        with self.connect(seconds) as connection:
            connection.sendall(data)
            got = b""
            while part := connection.recv(1 << 16):
                got += part
            return got

    def fhir(self, path: str, base: str = "/fhir/", **words: Any) -> tuple[int, Json]:
        pairs = [(name.replace("_", "-") if name == "system_version" else name, one)
                 for name, value in words.items()
                 for one in (value if isinstance(value, list) else [value])]
        answer = self.send("GET", base + path + ("?" + urlencode(pairs) if pairs else ""))
        assert answer.headers["content-type"] == FHIR_JSON + "; charset=utf-8", answer.headers
        # FHIR's JSON has nothing that is empty.
        assert not EMPTY.search(answer.body), answer.body
        return answer.status, answer.json()

    def posted(self, path: str, *parts: Json) -> tuple[int, Json]:
        body = json.dumps({"resourceType": "Parameters", "parameter": list(parts)}).encode()
        answer = self.send("POST", "/fhir/" + path, body, {"Content-Type": FHIR_JSON})
        return answer.status, answer.json()

    def stop(self) -> int:
        self.process.terminate()
        status = self.process.wait(SECONDS)
        assert self.process.stdout is not None
        self.process.stdout.close()
        return status


class Answer:
    def __init__(self, status: int, headers: dict[str, str], body: bytes) -> None:
        self.status, self.headers, self.body = status, headers, body

    def json(self) -> Json:
        found: Json = json.loads(self.body)
        return found

    @property
    def text(self) -> str:
        return self.body.decode()


class Service:
    """A store of a layout, its hub and its gateway. What the gateway asks is recorded, and the
    releases are whole packages, if that is wanted."""

    def __init__(self, is_recorded: bool = False, layout: int = 3, is_whole: bool = False,
                 words: Sequence[str] = (), hub_words: Sequence[str] = ()) -> None:
        self.program, self.hub_script = program_and_hub()
        self.folder = tempfile.TemporaryDirectory()
        root = Path(self.folder.name)
        self.socket, self.questions = str(root / "hub"), str(root / "questions")
        self.store, self.releases = str(root / "store"), root / "releases"
        self.layout = layout
        demo = demo_members if is_whole else demo_releases
        self.codes: dict[str, str] = demo.make(self.releases)
        self.make_store(*demo_releases.RELEASES)
        self.hub: subprocess.Popen[str] | None = None
        self.hub_words = hub_words
        self.start_hub()
        self.recorder = Recorder(str(root / "recorded"), self.questions) if is_recorded else None
        asked = self.recorder.path if self.recorder else self.questions
        self.gateway = Gateway(asked, root, words=words)

    def run(self, *words: str) -> None:
        subprocess.run([self.program, *words], check=True, capture_output=True, timeout=SECONDS)

    def make_store(self, *releases: str) -> None:
        """Makes a store of releases, without a list of imports, as an older program left it."""
        self.run("init", "--layout", str(self.layout), "--store", self.store)
        for name in releases:
            self.run("import", "--quiet", "--store", self.store, str(self.releases / name))
        Path(self.store + ".imports").unlink(missing_ok=True)

    def start_hub(self) -> None:
        sockets = ("--socket", self.socket, "--questions", self.questions)
        words = (self.hub_script, self.program, self.store, str(self.releases), *sockets)
        self.hub = begun_hub(*words, *self.hub_words)

    def asked(self, line: str) -> str:
        """The last line of the reply to a line on the hub's own socket, or without a hub that of
        the program."""
        if self.hub is None:
            words = [self.program, "serve", "--store", self.store, "--releases", "."]
            done = subprocess.run(
                words, input="0 %s\n" % line, text=True, stdout=subprocess.PIPE, check=True
            )
            last: str = done.stdout.splitlines()[-1]
            return last
        with HubClient(self.socket) as hub:
            hub.send([line.encode()])
            return last_line(hub.reply()).decode()

    def stop_hub(self) -> None:
        if self.hub and self.hub.stdout:
            self.hub.terminate()
            self.hub.wait(SECONDS)
            self.hub.stdout.close()
            self.hub = None

    @contextmanager
    def stopped_program(self) -> Iterator[None]:
        """The program answers nothing meanwhile."""
        assert self.hub
        with open("/proc/%d/task/%d/children" % (self.hub.pid, self.hub.pid)) as ids:
            program = int(ids.read().split()[0])
        os.kill(program, signal.SIGSTOP)
        try:
            yield
        finally:
            os.kill(program, signal.SIGCONT)

    def end(self) -> None:
        self.gateway.stop()
        if self.recorder:
            self.recorder.stop()
        self.stop_hub()
        self.folder.cleanup()


def begun_hub(hub: str, program: str, store: str, releases: str,
              *options: str) -> "subprocess.Popen[str]":
    """Starts a hub with these options, and waits until it answers."""
    words = ["--program", program, "--store", store, "--releases", releases, *options]
    begun = subprocess.Popen([sys.executable, hub, *words], stdout=subprocess.PIPE, text=True)
    assert begun.stdout is not None
    assert begun.stdout.readline() == "OK ready\n"
    return begun


def version(day: str) -> str:
    return "%s/%s/version/%s" % (SCT, EDITION, day)


def with_hyphens(day: str) -> str:
    return "%s-%s-%s" % (day[:4], day[4:6], day[6:])


def value(part: Json) -> Any:
    return next(one for name, one in part.items() if name.startswith("value"))


def told(resource: Json, name: str) -> list[Any]:
    """The values of the parameters of that name."""
    return [value(part) for part in resource["parameter"] if part["name"] == name]


def properties(resource: Json) -> dict[str, list[Any]]:
    found: dict[str, list[Any]] = {}
    for words in parts_of(resource, "property"):
        found.setdefault(words["code"], []).append(words["value"])
    return found


def parts_of(resource: Json, name: str) -> list[Json]:
    """The parts of each parameter of that name, by their names."""
    return [{one["name"]: value(one) for one in part["part"]} for part in resource["parameter"]
            if part["name"] == name]


def issue(resource: Json) -> str:
    code: str = resource["issue"][0]["code"]
    return code


def together(count: int, task: Callable[[int], Any]) -> list[Any]:
    """What the task returns for each number, all at the same time."""
    found: list[Any] = [None] * count

    def run(number: int) -> None:
        found[number] = task(number)

    threads = [threading.Thread(target=run, args=(number,)) for number in range(count)]
    for thread in threads:
        thread.start()
    for thread in threads:
        thread.join(SECONDS)
    return found


def until(condition: Callable[[], bool], seconds: float = 10.0) -> bool:
    """Whether the condition comes to hold in that time."""
    end = time.monotonic() + seconds
    while time.monotonic() < end:
        if condition():
            return True
        time.sleep(0.05)
    return condition()


def close_all(connections: Iterable[socket.socket]) -> None:
    for connection in connections:
        connection.close()
