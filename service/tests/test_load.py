"""Many clients at once, and clients that are slow or read nothing."""

import socket
import time
from contextlib import suppress

from sctd_service.gateway import limits

from .asked import Asked
from .fixtures import SCT, Answer, Json, close_all, issue, together, told, until, version

CLIENTS = 200
# More than the gateway takes.
CONNECTIONS = 700
SLOW_CLIENTS = 300
# How long another client may wait beside slow ones.
BESIDE_SECONDS = 1.5


class TestLoad(Asked):
    asked = 0

    def test_many_clients(self) -> None:
        names = {"20180101": "Fracture of wrist (disorder)",
                 "20220731": "Fracture of wrist joint region (disorder)"}

        def ask(number: int) -> Json | None:
            day = ("20180101", "20220731")[number % 2]
            for _ in range(5):
                status, said = self.gateway.fhir("CodeSystem/$lookup", system=SCT,
                                                 code=self.codes["wrist"], version=version(day))
                if (status, told(said, "display")) != (200, [names[day]]):
                    return {"status": status, "said": said}
            return {}

        assert [one for one in together(CLIENTS, ask) if one != {}] == []

    def test_slow_clients_block_nobody(self) -> None:
        slow = [self.gateway.connect() for _ in range(SLOW_CLIENTS)]
        for one in slow:
            one.sendall(b"GET /fhir/metadata HTTP/1.1\r\nHost: x\r\nX: ")
        end = time.monotonic() + 2
        while time.monotonic() < end:
            for one in slow[:20]:
                one.sendall(b"y")
            asked = time.monotonic()
            assert self.gateway.send("GET", "/health").status == 200
            assert time.monotonic() - asked < BESIDE_SECONDS
            time.sleep(0.2)
        close_all(slow)

    def test_more_connections_than_places(self) -> None:
        many = [self.gateway.connect() for _ in range(CONNECTIONS)]
        assert self.gateway.send("GET", "/health").status == 200
        close_all(many)

    def test_places_that_are_all_in_use(self) -> None:
        """Where each place has a request that goes on, one more is told to come again."""
        many, answers = list[socket.socket](), list[Answer]()

        def is_refused() -> bool:
            while len(many) < limits.CONNECTIONS:
                many.append(self.busy())
            try:
                answers.append(self.gateway.send("GET", "/page.css"))
            except ConnectionError:  # It was refused before all of it was sent.
                return False
            if answers[-1].status != 503:
                # One of them wasn't at work yet, and has made room.
                many.append(self.busy())
            return answers[-1].status == 503

        with self.service.stopped_program():
            assert until(is_refused, limits.SCTD_SECONDS - 2)
        assert issue(answers[-1].json()) == "throttled"
        assert "retry-after" in answers[-1].headers
        for one in many:
            with suppress(ConnectionError):  # It has made room.
                one.recv(1)
        close_all(many)

    def busy(self) -> socket.socket:
        """A client whose request goes on as long as the program is stopped."""
        client = self.gateway.connect()
        client.sendall(b"GET %s HTTP/1.1\r\nHost: x\r\n\r\n" % self.unknown())
        return client

    def unknown(self) -> bytes:
        """The address of what no request before it has asked."""
        self.asked += 1
        return b"/suggest?text=never%d" % self.asked

    def test_client_that_reads_nothing(self) -> None:
        target = "/?q=%s" % self.codes["evil"]
        with socket.socket(socket.AF_UNIX) as client:
            client.setsockopt(socket.SOL_SOCKET, socket.SO_RCVBUF, 4096)
            client.connect(self.gateway.socket)
            for _ in range(50):
                client.sendall(b"GET %s HTTP/1.1\r\nHost: x\r\n\r\n" % target.encode())
            assert self.gateway.send("GET", "/health").status == 200
