"""Sessions with the hub, and a bounded memory of its replies.

What one request is told comes from one `Session`, which has a pin: each of its questions is asked
`AT` this number of imports, so all its answers are of the same ones. A reply is remembered by its
pin and its question, and can't go stale, since at a pin a question has one answer for good. How
many imports there are the hub tells by itself, of each import before it is answered: so a request
that names no pin is answered as of the last import that anybody was told of, and nothing is asked
for that. All that is remembered is forgotten when the hub ends, since another store may answer from
then on.
"""

import asyncio
import math
import re
from collections import OrderedDict
from collections.abc import AsyncIterator, Awaitable, Callable, Sequence
from contextlib import asynccontextmanager
from typing import Generic, NamedTuple, TypeVar, cast

from .. import sockets
from ..protocol import NotAReply, Replies
from . import limits
from .hub import Connection, HubGone, Reply, refusal
from .problems import not_now, too_costly

# What the hub says of a store in which something is wrong.
UNLISTED, DAMAGED = "Unlisted", "Damaged"
STATUS = re.compile(
    r"OK [0-9]{1,10} [0-9]{1,10} [0-9]{1,10} (?:[0-9]{1,10}|-)((?: %s)?(?: %s)?)\Z"
    % (UNLISTED, DAMAGED), re.ASCII)
IMPORTS = re.compile(rb"OK ([0-9]{1,10})\n\Z")
RECEIPT = re.compile(r"OK [0-9]{1,10} [0-9]{1,10} (?:[0-9]{8}|-)\Z", re.ASCII)
DATE = re.compile(r"DATE ([0-9]{8})\Z", re.ASCII)
# Of an entry of the memory, of a line, and of a letter.
ENTRY_BYTES, LINE_BYTES, LETTER_BYTES = 400, 80, 2


class Member(NamedTuple):
    code: str
    is_active: bool


Members = tuple[Member, ...]
Codes = tuple[str, ...]
# A pin with a line; or with a day, and the top or the reference set of a value set.
Key = tuple[int, str] | tuple[int, str, str]
Kept = TypeVar("Kept", Reply, Members, Codes)


class Recent(Generic[Kept]):
    """What was used last: so many values, of so much size together."""

    def __init__(self, most: float, room: int) -> None:
        self.most, self.room, self.used = most, room, 0
        self.kept: OrderedDict[Key, tuple[Kept, int]] = OrderedDict()

    def get(self, key: Key) -> Kept | None:
        found = self.kept.get(key)
        if found is None:
            return None
        self.kept.move_to_end(key)
        return found[0]

    def put(self, key: Key, value: Kept, size: int) -> None:
        if key in self.kept:
            return
        self.kept[key] = (value, size)
        self.used += size
        while len(self.kept) > self.most or self.used > self.room:
            self.used -= self.kept.popitem(last=False)[1][1]


class Watch(asyncio.Protocol):
    """A connection by which the hub tells how many imports there are. `known` ends with its first
    word, `is_open` with the hub."""

    def __init__(self, on_end: Callable[[], None]) -> None:
        self.on_end, self.replies = on_end, Replies()
        self.known: asyncio.Future[None] = asyncio.get_running_loop().create_future()
        self.imports, self.is_open = 0, True
        self.identity: sockets.Identity | None = None

    def connection_made(self, transport: asyncio.BaseTransport) -> None:
        self.transport = cast(asyncio.Transport, transport)
        self.transport.write(b"WATCH\n")

    def data_received(self, data: bytes) -> None:
        try:
            for reply in self.replies.feed(data):
                self.told(reply)
            if len(self.replies.rest) > limits.REPLY_LINE_BYTES:
                raise NotAReply
        except NotAReply:
            self.end(HubGone("the hub says what isn't a number of imports", True))

    def told(self, reply: bytes) -> None:
        found = IMPORTS.match(reply)
        if found:
            self.imports = int(found[1])
            if not self.known.done():
                self.known.set_result(None)
        elif reply.startswith(b"ERR "):
            self.end(refusal(reply.decode("ascii", "replace").rstrip("\n")))
        else:
            raise NotAReply

    def connection_lost(self, why: Exception | None) -> None:
        self.end(HubGone("the hub has left", True))

    def end(self, why: Exception) -> None:
        if self.is_open:
            self.is_open = False
            self.transport.abort()
            self.on_end()
        if not self.known.done():
            self.known.set_exception(why)


class Pool:
    """The connections to the hub, and what it has said."""

    def __init__(self, socket: str) -> None:
        self.socket = socket
        self.places = asyncio.Semaphore(limits.HUB_CONNECTIONS)
        self.idle: list[Connection] = []
        self.beginning = asyncio.Lock()
        self.forget()

    def is_of_this_hub(self, connection: Connection) -> bool:
        return self.watch is not None and connection.identity == self.watch.identity

    def forget(self) -> None:
        """What comes next may be told of another store."""
        self.watch: Watch | None = None
        self.memory: Recent[Reply] = Recent(math.inf, limits.MEMORY_BYTES)
        self.subtrees: Recent[Members] = Recent(limits.SUBTREES, limits.SUBTREE_CONCEPTS)
        self.refsets: Recent[Codes] = Recent(limits.REFSETS, limits.REFSET_CONCEPTS)
        for connection in self.idle:
            connection.close()
        self.idle.clear()

    async def watched(self) -> Watch:
        """The hub that tells of its imports. (One that has ended may not be seen to have.)"""
        async with self.beginning:
            if self.watch and self.watch.identity != sockets.identity_of(self.socket):
                self.watch.end(HubGone("another hub has its socket", False))
            if self.watch is None:
                self.watch = await self.begun()
            return self.watch

    async def begun(self) -> Watch:
        """Begins to watch. The socket identifies the hub, since each hub makes one of its own."""
        identity, loop = sockets.identity_of(self.socket), asyncio.get_running_loop()
        try:
            _, watch = await loop.create_unix_connection(lambda: Watch(self.forget), self.socket)
        except OSError as error:
            # (Clients aren't told the socket's path.)
            raise HubGone(error.strerror or "the hub can't be reached", True) from error
        try:
            await watch.known
            if identity is None or sockets.identity_of(self.socket) != identity:
                raise HubGone("a hub was started in between", False)
        except BaseException:
            watch.transport.abort()
            raise
        watch.identity = identity
        return watch

    async def connection(self, watch: Watch) -> Connection:
        while self.idle:
            found = self.idle.pop()
            if found.is_open() and found.identity == watch.identity:
                found.received = 0
                return found
            found.close()
        try:
            reader, writer = await asyncio.open_unix_connection(self.socket)
        except OSError as error:
            raise HubGone(error.strerror or "the hub can't be reached", True) from error
        if watch.identity is None or sockets.identity_of(self.socket) != watch.identity:
            writer.close()
            self.forget()
            raise HubGone("a hub was started in between", False)
        return Connection(reader, writer, watch.identity)

    @asynccontextmanager
    async def session(self, pin: int | None) -> AsyncIterator["Session"]:
        """The store as its first `pin` imports left it, or as it is now."""
        async with self.places, self.opened(pin) as session:
            yield session

    @asynccontextmanager
    async def opened(self, pin: int | None) -> AsyncIterator["Session"]:
        """The same without waiting for a place."""
        watch = await self.watched()
        if pin is not None and pin > watch.imports:
            # Another machine may have them, or this one later. A balancer asks the next one.
            raise not_now("there are %d imports here so far, not %d" % (watch.imports, pin))
        async with self.connected(watch) as connection:
            session = Session(self, connection, watch.imports if pin is None else pin)
            await session.begin()
            yield session

    async def asked(self, line: str) -> Reply:
        """The hub's own reply to a line, which isn't as of any pin."""
        async with self.connected(await self.watched()) as connection:
            return (await connection.ask([line]))[0]

    @asynccontextmanager
    async def connected(self, watch: Watch) -> AsyncIterator[Connection]:
        """A connection, which is kept afterwards where nothing is outstanding."""
        connection = await self.connection(watch)
        try:
            yield connection
        finally:
            if connection.whole and self.is_of_this_hub(connection):
                self.idle.append(connection)
            else:
                connection.close()


class Session:
    def __init__(self, pool: Pool, connection: Connection, pin: int) -> None:
        self.pool, self.connection, self.pin = pool, connection, pin
        # How many lines were asked, and how many may be.
        self.asked, self.most = 0, math.inf
        # The days that the pin shows rows of, ascending, and the receipt of its last import.
        self.days: Sequence[str] = ()
        self.receipt = "-"

    async def begin(self) -> None:
        """Learns what the pin shows. Where that is remembered nothing is asked."""
        lines = ["DATES", *(["RECEIPT %d" % self.pin] if self.pin else [])]
        dates, *receipts = await self.ask(lines)
        days = [DATE.match(line) for line in dates[:-1]]
        if not all(days) or not dates[-1].startswith("END "):
            raise HubGone("the hub says what isn't a day", True)
        self.days = [day[1] for day in days if day]
        if receipts:
            receipt = receipts[0][-1]
            if not RECEIPT.match(receipt):
                raise HubGone("the hub says what isn't a receipt", True)
            self.receipt = "RECEIPT %d: %s" % (self.pin, receipt)

    async def troubles(self) -> list[str]:
        """What the hub says is wrong with the store. It has to answer for that."""
        found = STATUS.match((await self.connection.ask(["STATUS"]))[0][-1])
        if not found:
            raise HubGone("the hub says what isn't the store's state", True)
        return found[1].split()

    async def ask(self, lines: Sequence[str], keep: bool = True) -> list[Reply]:
        """The reply to each line, those that are remembered without asking."""
        remembers, memory = self.pool.is_of_this_hub(self.connection), self.pool.memory
        known = [memory.get((self.pin, line)) if remembers else None for line in lines]
        missing = [line for line, reply in zip(lines, known) if reply is None]
        self.asked += len(lines)
        if self.asked > self.most:
            raise too_costly("the answer takes more than %d questions: ask for less" % self.most)
        if missing:
            told = await self.connection.ask(["AT %d %s" % (self.pin, line) for line in missing])
            if keep and self.pool.is_of_this_hub(self.connection):
                for line, reply in zip(missing, told):
                    if (size := size_of(reply)) <= limits.REMEMBERED_BYTES:
                        self.pool.memory.put((self.pin, line), reply, size)
            new = iter(told)
            known = [next(new) if reply is None else reply for reply in known]
        return [reply for reply in known if reply is not None]

    def remembered_set(self, sets: Recent[Kept], day: str, code: str) -> Kept | None:
        remembers = self.pool.is_of_this_hub(self.connection)
        return sets.get((self.pin, day, code)) if remembers else None

    def remember_set(self, sets: Recent[Kept], day: str, code: str, found: Kept) -> None:
        if self.pool.is_of_this_hub(self.connection):
            sets.put((self.pin, day, code), found, len(found))

    async def recalled(self, sets: Recent[Kept], day: str, code: str,
                       make: Callable[[], Awaitable[Kept]]) -> Kept:
        found = self.remembered_set(sets, day, code)
        if found is None:
            found = await make()
            self.remember_set(sets, day, code, found)
        return found


def size_of(reply: Reply) -> int:
    """Roughly what Python takes for a reply that is remembered."""
    return ENTRY_BYTES + sum(LINE_BYTES + LETTER_BYTES * len(line) for line in reply)
