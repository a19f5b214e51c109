"""Hubs that say nothing, or what isn't a reply: the client is told so in time, and nothing else
ends."""

import socket
import tempfile
import threading
import time
from pathlib import Path

import pytest
from sctd_service.gateway import limits

from .fixtures import Gateway, issue, together

# What a hub says to whatever it is asked but WATCH, and how long its client waits at most.
LATE_SECONDS = 6.0
SILENT = limits.SCTD_SECONDS + LATE_SECONDS
AT_ONCE = 10.0
CASES = (
    (b"", SILENT),
    (b"nonsense\n" * 3, AT_ONCE),
    (b"OK\nOK x\n", AT_ONCE),
    (b"\xff\xfe\nEND\n", AT_ONCE),
    (b"ROW 1\nEND 1\nOK 1\n", AT_ONCE),
    (b"OK\nERR 41 Session\n", AT_ONCE),
    (b"OK\nERR 1 OutOfMemory\n", AT_ONCE),
    (b"OK 1 6 1 -\nEND 0\nOK 1 x y\n", AT_ONCE),
    (b"OK 1 6 1 -\nROW 1\nEND 1\nOK 1 6 20200131\n", AT_ONCE),
    (b"ROW " + b"x" * (3 << 20), AT_ONCE),
    (b"OK 1 6 1 -\n", SILENT))
# What it says to WATCH, where no number of imports comes.
WATCH_CASES = ((b"", SILENT), (b"nonsense\n", AT_ONCE), (b"OK\n", AT_ONCE),
               (b"OK 1 6 1 -\n", AT_ONCE), (b"END 1\n", AT_ONCE), (b"\xff\xfe\n", AT_ONCE),
               (b"ERR 41 Session\n", AT_ONCE), (b"OK " + b"1" * (3 << 20), AT_ONCE))


class FalseHub:
    """Says the same to whoever says something, and how many imports there are to who watches."""

    def __init__(self, path: str, said: bytes, imports: bytes = b"OK 1\n") -> None:
        self.said, self.imports, self.kept = said, imports, list[socket.socket]()
        self.listening = socket.socket(socket.AF_UNIX)
        self.listening.bind(path)
        self.listening.listen()
        threading.Thread(target=self.talk, daemon=True).start()

    def talk(self) -> None:
        while True:
            try:
                client = self.listening.accept()[0]
            except OSError:
                return  # It has ended.
            self.kept.append(client)
            threading.Thread(target=self.say, args=(client,), daemon=True).start()

    def say(self, client: socket.socket) -> None:
        try:
            while data := client.recv(1 << 16):
                client.sendall(self.imports if data == b"WATCH\n" else self.said)
        except OSError:
            pass  # The gateway has left.

    def stop(self) -> None:
        for one in (self.listening, *self.kept):
            one.close()


class TestSilentHub:
    def test_each_is_told_in_time(self) -> None:
        for found in together(len(CASES) + len(WATCH_CASES), self.one):
            assert found == ""

    @pytest.mark.parametrize("imports", (b"", b"OK 1\n"))
    def test_health_of_a_hub_that_hangs(self, imports: bytes) -> None:
        """It is told as JSON in time, and that the gateway runs at once."""
        with tempfile.TemporaryDirectory() as folder:
            hub = FalseHub(folder + "/hub", b"", imports)
            gateway = Gateway(folder + "/hub", Path(folder))
            try:
                began = time.monotonic()
                live = gateway.send("GET", "/live")
                assert (live.status, live.json()) == (200, {"live": True})
                assert time.monotonic() - began < limits.HEALTH_SECONDS
                health = gateway.send("GET", "/health")
                assert (health.status, [*health.json()]) == (503, ["problem"])
                assert time.monotonic() - began < 2 * limits.HEALTH_SECONDS
            finally:
                gateway.stop()
                hub.stop()

    def test_rows_without_end(self) -> None:
        """A hub that says more than an answer may be made of costs that answer alone."""
        rows = b"ROW " + b"x" * 1_000 + b"\n"
        with tempfile.TemporaryDirectory() as folder:
            hub = FalseHub(folder + "/hub", rows * (limits.REPLIES_BYTES // len(rows) + 1))
            gateway = Gateway(folder + "/hub", Path(folder))
            try:
                answer = gateway.send("GET", "/fhir/metadata")
                assert (answer.status, issue(answer.json())) == (422, "too-costly")
                assert gateway.send("GET", "/page.css").status == 200
                assert gateway.told() == ""
            finally:
                gateway.stop()
                hub.stop()

    def one(self, number: int) -> str:
        """What is wrong, or nothing."""
        cases = [(said, b"OK 1\n", most) for said, most in CASES]
        cases += [(b"", imports, most) for imports, most in WATCH_CASES]
        said, imports, most = cases[number]
        first = (said or imports)[:20]
        with tempfile.TemporaryDirectory() as folder:
            hub = FalseHub(folder + "/hub", said, imports)
            gateway = Gateway(folder + "/hub", Path(folder))
            try:
                began = time.monotonic()
                answer = gateway.send("GET", "/fhir/metadata")
                took = time.monotonic() - began
                again = gateway.send("GET", "/page.css")
                if answer.status != 503 or "retry-after" not in answer.headers or took > most:
                    return "%r: %d after %.1f s: %r" % (first, answer.status, took, answer.body)
                if most == SILENT and took < limits.SCTD_SECONDS - 0.5:
                    return "%r: after %.1f s already" % (first, took)
                if again.status != 200 or "Traceback" in gateway.told():
                    return "%r: %s" % (first, gateway.told())
                return ""
            finally:
                gateway.stop()
                hub.stop()
