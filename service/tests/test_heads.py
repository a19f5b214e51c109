"""Heads with some bytes changed: the gateway takes just those that a strict reader takes, and reads
them alike. h11 alone takes more of them, in its own way."""

import asyncio
import random

from sctd_service.gateway.http import BadRequestError, Client, ClientLeftError, Request

from .strict_heads import CHUNKS, Head, strictly_read

HEADS, SEED = 20_000, 1
# At least so many have to be taken, and so many refused.
AT_LEAST = 3_000
SEEDS = (
    b"GET /fhir/metadata HTTP/1.1\r\nHost: a\r\nAccept: */*\r\n\r\n",
    b"POST /fhir/CodeSystem/$lookup?x=1 HTTP/1.1\r\nHost: a:80\r\nContent-Length: 12\r\n"
    b"Content-Type: application/json\r\n\r\n",
    b"HEAD / HTTP/1.0\r\nConnection: close\r\nContent-Length: 0\r\n\r\n",
    b"POST / HTTP/1.1\r\nHost: a\r\nTransfer-Encoding: chunked\r\n\r\n",
    b"GET / HTTP/1.1\r\nHost: a\r\nContent-Length: 3\r\nExpect: 100-continue\r\nX: y\r\n\r\n",
)
PIECES = (b"\r\n", b"\n", b"\r", b" ", b"\t", b":", b"\x00", b"\x0b", b"\x85",
          b"Content-Length: 4\r\n", b"content-length:5\r\n", b"Content-Length: 4, 4\r\n",
          b"Transfer-Encoding: chunked\r\n", b"Transfer-Encoding: identity\r\n", b"Host: b\r\n",
          b" folded\r\n", b"HTTP/1.1", b"0", b"-", b"+", b"\xc3\xa4", b",", b"\x7f",
          b"Connection: close\r\n", b"Connection: keep-alive\r\n", b"/", b"http://b/", b"_")
END_OF_HEAD = b"\r\n\r\n"


def changed(chance: random.Random) -> bytes:
    """A good head, with some bytes put in, taken away or exchanged, or a line twice."""
    data = bytearray(chance.choice(SEEDS))
    for _ in range(chance.choice((0, 1, 1, 1, 2, 3, 5))):
        at, act = chance.randrange(len(data)), chance.random()
        if act < 0.5:
            data[at:at] = chance.choice(PIECES)
        elif act < 0.7:
            del data[at : at + chance.randint(1, 4)]
        elif act < 0.85:
            data[at] = chance.randrange(256)
        else:
            lines = bytes(data).split(b"\r\n")
            lines.insert(chance.randrange(len(lines)), chance.choice(lines))
            data = bytearray(b"\r\n".join(lines))
        if not data:
            break
    return bytes(data)


class NoWriter:
    """Takes the answer `100 Continue`."""

    def write(self, data: bytes) -> None:
        pass


async def read(head: bytes, length: int) -> tuple[Request, bool] | None:
    """How the gateway reads the head with a body of this length, and whether the connection
    stays."""
    reader = asyncio.StreamReader()
    reader.feed_data(head + (b"0\r\n\r\n" if length == CHUNKS else b"x" * length) + b"NEXT")
    reader.feed_eof()
    client = Client(reader, NoWriter())  # type: ignore[arg-type]
    try:
        await client.wait()
        request = await client.request(await client.head())
    except (BadRequestError, ClientLeftError):
        return None
    rest = client.rest + await reader.read()
    assert rest == b"NEXT", (head, rest)
    return request, client.stays


class TestHeads:
    def test_they_are_read_as_a_strict_reader_reads_them(self) -> None:
        taken, refused = asyncio.run(self.compared())
        assert taken > AT_LEAST
        assert refused > AT_LEAST

    async def compared(self) -> tuple[int, int]:
        chance, taken, refused = random.Random(SEED), 0, 0
        for _ in range(HEADS):
            data = changed(chance)
            end = data.find(END_OF_HEAD)
            if end < 0:
                continue
            head = data[: end + len(END_OF_HEAD)]
            wanted = strictly_read(head)
            found = await read(head, wanted.length if wanted else 0)
            self.alike(head, found, wanted)
            taken, refused = taken + (found is not None), refused + (found is None)
        return taken, refused

    def alike(self, head: bytes, found: tuple[Request, bool] | None, wanted: Head | None) -> None:
        if found is None or wanted is None:
            assert (found, wanted) == (None, None), head
            return
        request, stays = found
        assert (request.method, request.target, stays) == (
            wanted.method, wanted.target, wanted.stays), head
        assert len(request.body) == max(wanted.length, 0), head
        headers = {name: ", ".join(values) for name, values in wanted.headers.items()}
        if "transfer-encoding" in headers:  # h11 writes it in small letters.
            headers["transfer-encoding"] = headers["transfer-encoding"].lower()
        assert request.headers == headers, head
