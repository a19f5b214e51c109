"""HTTP/1.1 for a few methods. h11 reads what comes; the limits of time and size are set here.

A head that two programs could read differently is refused, also where h11 reads it: a bare line
end, a folded header, two lengths, a length beside chunks. Every wait has its limit, so that a slow
client costs its own connection and nothing else. Where all places are taken, the connection whose
next request has been awaited longest makes room, also where a part of that has come.
"""

import asyncio
import re
import time
from collections.abc import Awaitable, Callable, Iterable, Sequence
from email.utils import formatdate
from http import HTTPStatus
from typing import NamedTuple

import h11

from . import limits
from ..logs import tell

READ_BYTES = 1 << 16
END_OF_HEAD = b"\r\n\r\n"
# Where bodies are sent to that may be longer than others, and how long: FHIR and lists.
LONGER = {
    re.compile(rb"(?:https?://[^/?#]+)?(?:/pin/[0-9]{1,10})?" + path + rb"(?:\?|\Z)"): most
    for path, most in (
        (rb"/fhir(?:/[^?]*)?", limits.FHIR_BODY_BYTES),
        (rb"/records", limits.RECORDS_BODY_BYTES))}
# A path, behind a scheme and an authority where a client sends them too.
TARGET = re.compile(rb"(?:https?://[^/?#\x00-\x20\x7f-\xff]+)?(/[\x21-\x7e]*)\Z", re.I)
# What a head is made of: lines of printable ASCII and tabs, each of which ends with CR LF. A line
# that begins with a space goes on with the header before it, which not every program knows.
HEAD = re.compile(rb"(?:[\x21-\x7e][\t\x20-\x7e]*\r\n)+\r\n\Z")
# Headers that say where a request ends, or whose it is, and so may stand there once.
SINGLE = re.compile(
    rb"^(host|content-length|transfer-encoding|content-type|expect)[ \t]*:", re.I | re.M)
# The length as it came: h11 reads one that is told twice, such as `3, 3`, as told once.
LENGTH = re.compile(rb"^content-length:[ \t]*[0-9]{1,12}[ \t]*\r$", re.I | re.M)


class Request(NamedTuple):
    """A request. The names of its headers are in small letters; `has_left` says whether the client
    has ended its side of the connection since."""

    method: str
    target: str
    headers: dict[str, str]
    body: bytes
    has_left: Callable[[], bool]


Headers = tuple[tuple[str, str], ...]


class Response(NamedTuple):
    status: int
    kind: str
    body: bytes
    headers: Headers = ()


class BadRequestError(Exception):
    """A request that isn't one, or that is too large or too slow."""

    def __init__(self, status: int, text: str) -> None:
        super().__init__(text)
        self.status, self.text = status, text


class ClientLeftError(Exception):
    """The client has left."""


Answer = Callable[[Request], Awaitable[Response]]
Refusal = Callable[[int, str], Response]
# Is told of each answer: to which request, if that could be read, and how long it took.
Observer = Callable[[Request | None, Response, float], None]


def check_head(head: bytes) -> None:
    """Refuses a head that not every program reads as h11 does."""
    if not HEAD.match(head):
        raise BadRequestError(
            400, "the head isn't made of lines of printable ASCII that end with CR LF")
    single = [found.lower() for found in SINGLE.findall(head)]
    if len(set(single)) < len(single):
        raise BadRequestError(400, "a header stands twice")
    if b"content-length" in single:
        if not LENGTH.search(head):
            raise BadRequestError(400, "Content-Length isn't a number")
        if b"transfer-encoding" in single:
            raise BadRequestError(400, "a length and chunks")


def check_request(request: h11.Request) -> None:
    """Refuses what isn't answered whatever it asks."""
    if request.http_version not in (b"1.0", b"1.1"):
        raise BadRequestError(505, "HTTP/1.1 is spoken here")
    if not TARGET.match(request.target):
        raise BadRequestError(400, "the target isn't a path, nor an address with one")
    headers = dict(request.headers)
    if b"content-encoding" in headers:
        raise BadRequestError(415, "a compressed body isn't read")
    if b"transfer-encoding" in headers:
        if request.http_version != b"1.1":
            raise BadRequestError(400, "HTTP/1.0 has no chunks")
        return
    length = headers.get(b"content-length")
    if length is None and request.method in (b"POST", b"PUT", b"PATCH"):
        raise BadRequestError(411, "a body needs the header Content-Length")
    if length and int(length) > (most := room_for(request)):
        raise BadRequestError(413, "a body may have %d bytes" % most)


def room_for(request: h11.Request) -> int:
    longer = LONGER.items() if request.method == b"POST" else ()
    return next((most for target, most in longer if target.match(request.target)),
                limits.BODY_BYTES)


class Client:
    """A connection of a client. `rest` is what has come and isn't read yet; `stays` says whether
    the connection is open for another request after this one."""

    def __init__(self, reader: asyncio.StreamReader, writer: asyncio.StreamWriter) -> None:
        self.reader, self.writer = reader, writer
        self.rest, self.stays = b"", False

    async def more(self) -> bytes:
        data = await self.reader.read(READ_BYTES)
        if not data:
            raise ClientLeftError
        return data

    async def wait(self) -> None:
        """Waits for the first byte of a request."""
        if self.rest:
            # Others have their turn between the requests that one client has sent together.
            await asyncio.sleep(0)
        else:
            async with asyncio.timeout(limits.IDLE_SECONDS):
                self.rest = await self.more()

    async def head(self) -> bytes:
        """The head of the next request, with the empty line that ends it."""
        if END_OF_HEAD not in self.rest:
            try:
                async with asyncio.timeout(limits.HEAD_SECONDS):
                    while END_OF_HEAD not in self.rest and len(self.rest) <= limits.HEAD_BYTES:
                        self.rest += await self.more()
            except TimeoutError:
                raise BadRequestError(408, "the head came too slowly") from None
        end = self.rest.find(END_OF_HEAD) + len(END_OF_HEAD)
        if not len(END_OF_HEAD) <= end <= limits.HEAD_BYTES:
            raise BadRequestError(431, "a head may have %d bytes" % limits.HEAD_BYTES)
        head, self.rest = self.rest[:end], self.rest[end:]
        return head

    async def body(self, parser: h11.Connection, most: int) -> bytes:
        """What follows the head. Bytes behind it are those of the next request."""
        if self.rest:
            parser.receive_data(self.rest)
        self.rest, found, chunks = b"", b"", 0
        while not isinstance(event := parser.next_event(), h11.EndOfMessage):
            if event is h11.NEED_DATA:
                parser.receive_data(await self.more())
            elif isinstance(event, h11.Data):
                found, chunks = found + event.data, chunks + event.chunk_start
                if len(found) > most or chunks > limits.BODY_CHUNKS:
                    raise BadRequestError(413, "a body may have %d bytes in %d chunks" % (
                        most, limits.BODY_CHUNKS))
        if list(event.headers):
            raise BadRequestError(400, "headers behind a body")
        self.rest = parser.trailing_data[0]
        return found

    async def request(self, head: bytes) -> Request:
        check_head(head)
        parser = h11.Connection(h11.SERVER, limits.HEAD_BYTES)
        try:
            parser.receive_data(head)
            event = parser.next_event()
            if not isinstance(event, h11.Request):
                raise BadRequestError(400, "the head isn't one of HTTP")
            check_request(event)
            headers = joined(event.headers)
            # (A wish to speak another protocol from then on is passed over.)
            wishes = map(str.strip, headers.get("connection", "").lower().split(","))
            self.stays = event.http_version == b"1.1" and "close" not in wishes
            if parser.they_are_waiting_for_100_continue:
                self.writer.write(b"HTTP/1.1 100 Continue\r\n\r\n")
            async with asyncio.timeout(limits.BODY_SECONDS):
                body = await self.body(parser, room_for(event))
        except h11.RemoteProtocolError as error:
            raise BadRequestError(error.error_status_hint, str(error)) from None
        except TimeoutError:
            raise BadRequestError(408, "the body came too slowly") from None
        found = TARGET.match(event.target)
        assert found
        method, target = event.method.decode(), found[1].decode()
        return Request(method, target, headers, body, self.reader.at_eof)

    async def send(self, response: Response, stays: bool, with_body: bool) -> None:
        lines = ["HTTP/1.1 %d %s" % (response.status, HTTPStatus(response.status).phrase),
                 "Date: " + formatdate(usegmt=True)]
        if response.status not in (204, 304):
            lines += ["Content-Type: " + response.kind, "Content-Length: %d" % len(response.body)]
        lines += ["%s: %s" % header for header in response.headers]
        lines += [] if stays else ["Connection: close"]
        head = "\r\n".join(lines).encode("ascii") + END_OF_HEAD
        self.writer.write(head + response.body if with_body else head)
        if self.writer.transport.get_write_buffer_size():
            async with asyncio.timeout(limits.TAKE_SECONDS):
                await self.writer.drain()

    async def linger(self) -> None:
        """Reads for a while what the client still sends, so that it sees the answer."""
        self.writer.write_eof()
        async with asyncio.timeout(limits.LINGER_SECONDS):
            while await self.reader.read(READ_BYTES):
                pass

    def close(self) -> None:
        """Ends the connection, at once where the client doesn't take what was sent."""
        if self.writer.transport.get_write_buffer_size():
            self.writer.transport.abort()
        else:
            self.writer.close()


class Server:
    """Answers clients. `waiting` are those whose next request isn't whole, the longest first."""

    def __init__(self, answer: Answer, refusal: Refusal,
                 observers: Sequence[Observer] = ()) -> None:
        self.answer, self.refusal, self.observers = answer, refusal, observers
        self.waiting: dict[Client, None] = {}
        self.open: dict[Client, asyncio.Task[None] | None] = {}
        self.untaken, self.is_ending = 0, False

    async def connected(self, reader: asyncio.StreamReader, writer: asyncio.StreamWriter) -> None:
        client = Client(reader, writer)
        self.open[client] = asyncio.current_task()
        if len(self.open) > limits.CONNECTIONS and self.waiting:
            oldest = next(iter(self.waiting))
            self.leave(oldest)
            oldest.writer.transport.abort()
        try:
            if len(self.open) > limits.CONNECTIONS:
                refused = self.refusal(503, "too many connections")
                self.observe(None, refused, 0.0)
                await client.send(refused, False, True)
            else:
                while await self.turn(client):
                    pass
        except (OSError, ClientLeftError, asyncio.CancelledError):
            pass
        finally:
            self.leave(client)
            client.close()

    def leave(self, client: Client) -> None:
        self.open.pop(client, None)
        self.waiting.pop(client, None)

    async def turn(self, client: Client) -> bool:
        """Answers one request. Returns whether the connection stays."""
        self.waiting[client] = None
        await client.wait()
        began, request, stays, with_body = time.monotonic(), None, False, True
        try:
            head = await client.head()
            with_body = not head.startswith(b"HEAD ")
            # One that sends its body has waited since its head.
            self.waiting[client] = self.waiting.pop(client, None)
            request = await client.request(head)
            began = time.monotonic()
            self.waiting.pop(client, None)
            response = await self.answer(request)
            stays = client.stays and not self.is_ending
        except BadRequestError as bad:
            response, stays = self.refusal(bad.status, bad.text), False
        self.waiting.pop(client, None)
        if self.untaken + len(response.body) > limits.UNTAKEN_BYTES:
            response = self.refusal(503, "too many answers wait to be taken")
        self.observe(request, response, time.monotonic() - began)
        await self.send(client, response, stays, with_body)
        if not stays:
            await client.linger()
        return stays

    async def send(self, client: Client, response: Response, stays: bool, with_body: bool) -> None:
        """Sends an answer, which waits to be taken meanwhile."""
        self.untaken += len(response.body)
        try:
            await client.send(response, stays, with_body)
        finally:
            self.untaken -= len(response.body)

    def observe(self, request: Request | None, response: Response, seconds: float) -> None:
        for observer in self.observers:
            observer(request, response, seconds)

    async def stop(self) -> None:
        """Ends all connections, those from which a request has come once it is answered."""
        self.is_ending = True
        # (What has come by now is read first.)
        await asyncio.sleep(limits.LAST_LOOK_SECONDS)
        for client, task in list(self.open.items()):
            if client in self.waiting and task:
                task.cancel()
        end = time.monotonic() + limits.END_SECONDS
        while self.open and time.monotonic() < end:
            await asyncio.sleep(limits.LAST_LOOK_SECONDS)
        tasks = [task for task in self.open.values() if task]
        for task in tasks:
            task.cancel()
        await asyncio.gather(*tasks, return_exceptions=True)


def joined(headers: Iterable[tuple[bytes, bytes]]) -> dict[str, str]:
    """The headers by their names. Those of one name are one list."""
    found: dict[str, str] = {}
    for name, value in headers:
        key, text = name.decode(), value.decode()
        found[key] = "%s, %s" % (found[key], text) if key in found else text
    return found


def log(request: Request | None, response: Response, seconds: float) -> None:
    """A line of a request to standard error. The words of the query aren't told."""
    method, target = (request.method, request.target) if request else ("-", "-")
    tell("%s %.200s %d %d bytes %.1f ms"
         % (method, target.partition("?")[0], response.status, len(response.body), seconds * 1e3))
