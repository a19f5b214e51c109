"""How answers are delivered: compressed, named so that a client can ask whether they still hold, to
other sites' pages, beside others, and when the gateway ends."""

import asyncio
import gzip
import time
from pathlib import Path
from tempfile import TemporaryDirectory
from typing import Any

from sctd_service.gateway import limits
from sctd_service.gateway.fhir.outputs import dumped, written

from .asked import Asked
from .fixtures import POST, SCT, SECONDS, Gateway, Service, close_all

GATEWAY_WORDS = ("--cors", "https://forms.example.org")
METADATA = "/fhir/metadata"
SITE, OTHER = GATEWAY_WORDS[1], "https://other.example.org"
# How long what was sent may take until the gateway has read it.
READ_SECONDS = 0.5


class TestDelivery(Asked):
    of = "own_service"

    def test_compressed(self) -> None:
        plain = self.gateway.send("GET", METADATA)
        assert len(plain.body) > limits.PACKED_BYTES
        assert "content-encoding" not in plain.headers
        for takes, is_packed in (
                ("gzip", True), ("br, gzip;q=0.5", True), ("*", True), ("gzip;q=0", False),
                ("gzip;q=0.000", False), ("br", False), ("xgzip", False)):
            answer = self.gateway.send("GET", METADATA, headers={"Accept-Encoding": takes})
            packed = answer.headers.get("content-encoding") == "gzip"
            assert packed == is_packed, takes
            body = gzip.decompress(answer.body) if packed else answer.body
            assert body == plain.body
        small = self.gateway.send("GET", "/live", headers={"Accept-Encoding": "gzip"})
        assert "content-encoding" not in small.headers

    def test_kept(self) -> None:
        """An answer has the name of its pin and address. Below a pin it holds for good."""
        tags = set()
        for target, lasting in ((METADATA, "private, no-cache"),
                                (METADATA + "?mode=terminology", "private, no-cache"),
                                ("/pin/1" + METADATA, "private, max-age=31536000, immutable"),
                                ("/pin/2" + METADATA, "private, max-age=31536000, immutable")):
            first = self.gateway.send("GET", target)
            assert (first.status, first.headers["cache-control"]) == (200, lasting)
            tag = first.headers["etag"]
            for known in (tag, 'W/"x", ' + tag, tag.removeprefix("W/")):
                again = self.gateway.send("GET", target, headers={"If-None-Match": known})
                assert (again.status, again.body) == (304, b"")
                assert again.headers["etag"] == tag
            other = self.gateway.send("GET", target, headers={"If-None-Match": 'W/"x"'})
            assert other.status == 200
            tags.add(tag)
        assert len(tags) == 4
        for target in ("/fhir/nothing", "/pin/1/fhir/CodeSystem/$lookup", "/?q=1105007", "/health"):
            answer = self.gateway.send("GET", target)
            assert answer.headers["cache-control"] == "private, no-store", target
            assert "etag" not in answer.headers, target

    def test_pages_of_other_sites(self, service: Service) -> None:
        asks = {"Origin": SITE, "Access-Control-Request-Method": "POST"}
        preflight = self.gateway.send("OPTIONS", METADATA, headers=asks)
        assert (preflight.status, preflight.body) == (204, b"")
        assert "POST" in preflight.headers["access-control-allow-methods"]
        assert "Content-Type" in preflight.headers["access-control-allow-headers"]
        for target in (METADATA, "/fhir/nothing"):
            answer = self.gateway.send("GET", target, headers={"Origin": SITE})
            assert answer.headers["access-control-allow-origin"] == SITE, target
            assert answer.headers["cross-origin-resource-policy"] == "cross-origin"
        for origin in (OTHER, "null", SITE + ".evil.example"):
            answer = self.gateway.send("GET", METADATA, headers={"Origin": origin})
            assert "access-control-allow-origin" not in answer.headers, origin
            assert answer.headers["cross-origin-resource-policy"] == "same-origin"
        alone = service.gateway.send("GET", METADATA, headers={"Origin": SITE})
        assert "access-control-allow-origin" not in alone.headers

    def test_slow_bodies_make_room(self) -> None:
        """Where bodies that come slowly have all places, others are answered all the same."""
        head = POST + b"Content-Length: 9\r\n\r\nabc"
        slow = []
        try:
            for _ in range(limits.CONNECTIONS):
                slow.append(self.gateway.connect())
                slow[-1].sendall(head)
            time.sleep(READ_SECONDS)
            assert self.gateway.send("GET", "/live").status == 200
        finally:
            close_all(slow)

    def test_end_while_a_request_is_answered(self) -> None:
        """What has come is answered, and nothing comes any more."""
        with TemporaryDirectory() as folder:
            gateway = Gateway(self.service.questions, Path(folder))
            assert gateway.send("GET", METADATA).status == 200
            client, idle = gateway.connect(), gateway.connect()
            code = self.service.codes["wrist"]
            target = "/fhir/CodeSystem/$lookup?system=%s&code=%s" % (SCT, code)
            with self.service.stopped_program():
                client.sendall(b"GET %s HTTP/1.1\r\nHost: x\r\n\r\n" % target.encode())
                time.sleep(READ_SECONDS)
                gateway.process.terminate()
                assert idle.recv(1) == b""
                assert gateway.process.poll() is None
            got = b""
            while part := client.recv(1 << 16):
                got += part
            assert got.startswith(b"HTTP/1.1 200 "), got[:40]
            assert b"Connection: close\r\n" in got
            assert gateway.process.wait(SECONDS) == 0
            close_all((client, idle))
            gateway.stop()


class TestParts:
    def test_long_lists_are_written_in_parts(self) -> None:
        """Others have their turn meanwhile, and what is written is the same."""
        contains: list[Any] = [{"code": str(one), "display": '\u00e9"x'} for one in range(1000)]
        resource = {"resourceType": "ValueSet", "expansion": {"total": 1000, "contains": contains}}
        found, turns = asyncio.run(self.written_beside(resource))
        assert found == dumped(resource)
        assert turns >= len(contains) // limits.SLICE_CONCEPTS

    async def written_beside(self, resource: dict[str, Any]) -> tuple[bytes, int]:
        """What is written, and how many turns another task had meanwhile."""
        turns = 0

        async def count() -> None:
            nonlocal turns
            while True:
                turns += 1
                await asyncio.sleep(0)

        counting = asyncio.create_task(count())
        try:
            return await written(resource), turns
        finally:
            counting.cancel()
