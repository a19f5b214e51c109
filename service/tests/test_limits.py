"""The limits of sizes, and of the time to take an answer, each met for real."""

import socket
import time

import pytest
from sctd_service.gateway import limits

from .asked import Asked
from .fixtures import until

# How much later than its limit something may end on a busy machine.
LATE_SECONDS = 6.0
GET = b"GET /health HTTP/1.1\r\nHost: x\r\n"
LISTED = {
    "HEAD_BYTES": 16 << 10, "BODY_BYTES": 64 << 10, "ANSWER_BYTES": 4 << 20, "HEAD_SECONDS": 10,
    "BODY_SECONDS": 10, "TAKE_SECONDS": 20, "IDLE_SECONDS": 60, "SCTD_SECONDS": 30,
    "CONNECTIONS": 512, "WALKS": 3, "PAGE_CONCEPTS": 1000, "WALK_CONCEPTS": 20_000,
    "FILTER_TERMS": 10_000, "LANGUAGES": 8, "REFSET_MEMBERS": 200_000, "REFSET_CHOICE": 4_000,
    "REFSET_CONCEPTS": 200_000, "EXPRESSION_LETTERS": 20_000, "EXPRESSION_DEPTH": 60,
    "EXPRESSION_LINES": 20_000, "TOLD_REFSETS": 100, "TOLD_MEMBERS": 20, "TOLD_CONCEPTS": 50,
    "DELTA_ROWS": 200_000, "CHANGED_CONCEPTS": 500, "CHANGES_QUESTIONS": 20_000, "RECORDS": 1_000,
    "RECORD_CHARACTERS": 5_000, "RECORDS_BYTES": 256 << 10, "RECORDS_BODY_BYTES": 1 << 20,
    "FHIR_BODY_BYTES": 256 << 10, "RECORDS_QUESTIONS": 20_000}


class TestLimits(Asked):
    @pytest.mark.parametrize("name, value", LISTED.items())
    def test_they_are_those_of_the_guide(self, name: str, value: int) -> None:
        assert getattr(limits, name) == value, name

    def test_heads_and_bodies_up_to_their_limits(self) -> None:
        gateway = self.gateway
        room = limits.HEAD_BYTES - len(GET) - len(b"A: \r\nConnection: close\r\n\r\n")
        for more, status in ((0, 200), (1, 431)):
            got = gateway.raw(
                GET + b"A: " + b"b" * (room + more) + b"\r\nConnection: close\r\n\r\n")
            assert got.split(b" ")[1] == b"%d" % status
        for length, status in ((limits.FHIR_BODY_BYTES, 400), (limits.FHIR_BODY_BYTES + 1, 413)):
            answer = gateway.send("POST", "/fhir/CodeSystem/$lookup", b" " * length,
                                  {"Content-Type": "application/json"})
            assert answer.status == status

    def test_answers_that_are_not_taken(self) -> None:
        """A client that asks and doesn't read loses its connection; what it left isn't kept."""
        gateway = self.gateway
        with socket.socket(socket.AF_UNIX) as client:
            client.setsockopt(socket.SOL_SOCKET, socket.SO_RCVBUF, 4096)
            client.connect(gateway.socket)
            client.settimeout(1)
            began, asked = time.monotonic(), 0
            try:
                while time.monotonic() < began + limits.TAKE_SECONDS + LATE_SECONDS:
                    client.sendall(b"GET /page.css HTTP/1.1\r\nHost: x\r\n\r\n")
                    asked += 1
            except TimeoutError:
                pass  # It takes no more, since nothing of what it said is read.
            except OSError:
                pytest.fail("it has ended after %d answers" % asked)
            client.setblocking(False)
            assert until(lambda: is_ended(client), limits.TAKE_SECONDS + LATE_SECONDS)
            assert time.monotonic() - began > limits.TAKE_SECONDS - 0.5


def is_ended(client: socket.socket) -> bool:
    try:
        client.send(b"G")
    except BlockingIOError:
        return False
    except OSError:
        return True
    return False
