"""The limits of the times that clients have, each met for real and all at once."""

import time

from sctd_service.gateway import limits

from .asked import Asked
from .fixtures import POST, close_all

# How much later than its limit something may end on a busy machine.
LATE_SECONDS = 6.0
GET = b"GET /health HTTP/1.1\r\nHost: x\r\n"


class TestWaits(Asked):
    def test_waits(self) -> None:
        """Half a head, half a body, and nothing: each ends in its time and not before."""
        gateway = self.gateway
        cases = [
            (GET[:30], limits.HEAD_SECONDS, b"HTTP/1.1 408 "),
            (POST + b"Content-Length: 9\r\n\r\nabc", limits.BODY_SECONDS, b"HTTP/1.1 408 "),
            (POST + b"Transfer-Encoding: chunked\r\n\r\n3\r\nab", limits.BODY_SECONDS,
             b"HTTP/1.1 408 "),
            (b"", limits.IDLE_SECONDS, b""),
            (GET + b"\r\n", limits.IDLE_SECONDS, b"HTTP/1.1 200 ")]
        began = time.monotonic()
        clients = [gateway.connect() for _ in cases]
        for client, (data, _, _) in zip(clients, cases):
            client.sendall(data)
        for client, (data, seconds, start) in zip(clients, cases):
            client.settimeout(seconds + LATE_SECONDS)
            got = b""
            while part := client.recv(1 << 16):
                got += part
            took = time.monotonic() - began
            assert got.startswith(start) and (start or not got), (data, got)
            assert seconds - 0.5 < took < seconds + LATE_SECONDS, (data, took)
        close_all(clients)
