"""The digests that clients ask for.

As one line a digest would keep all others waiting while the program reads each row. So the hub asks
for pages of rows, each in its turn between the lines of others, and hashes them. Each page names
the pin, so that no import in between is seen, and the row before it, which no merge changes.
"""

import asyncio
import hashlib
import time
from typing import Any, Protocol

from ..logs import log
from ..protocol import FIRST_KEY, LATER_LAYOUT, REFUSED, last_line
from .lines import pin_named, shown, without_cr
from .program import SLOW_SECONDS, Program

# The kinds in the order of the digest's text. A store below layout 3 has no members, and refuses to
# be asked for them.
MEMBERS = b"M"
KINDS = (b"C", b"D", b"R", b"A", b"V", MEMBERS)
# What stands for the row before the first one.
FIRST = FIRST_KEY.encode()
# How many rows are asked for at a time.
PAGE_ROWS = 250
# How many digests are computed at a time. The others wait.
MOST_DIGESTS = 2
LINE_END, ROW = b"\n", b"ROW "


class Waiter(Protocol):
    """A client that waits for a digest, and may leave."""

    session: int
    user: str
    pin: bytes | None
    is_gone: bool

    def end_if_left(self) -> None:
        """Ends its connection if nobody reads what it is answered."""


class PageRefused(Exception):
    """What a page was answered instead of rows."""

    def __init__(self, reply: bytes) -> None:
        super().__init__()
        self.reply = reply


class Digests:
    """Computes some digests at a time, for clients of `asking`, each of which waits for a place."""

    def __init__(self, program: Program) -> None:
        self.program, self.places = program, asyncio.Semaphore(MOST_DIGESTS)
        self.asking: "dict[Waiter, asyncio.Task[Any]]" = {}

    async def reply(self, client: Waiter, line: bytes, imports: int) -> bytes:
        """The reply to a DIGEST that comes after so many imports; nothing if the client leaves."""
        pin = pin_named(line) or client.pin or b"%d" % imports
        place = self.asking[client] = asyncio.create_task(self.places.acquire())
        try:
            await asyncio.wait([place])
            return b"" if place.cancelled() else await self.in_turn(client, line, pin)
        finally:
            del self.asking[client]

    async def in_turn(self, client: Waiter, line: bytes, pin: bytes) -> bytes:
        """The reply for a client that has a place, which it gives back."""
        began = time.monotonic()
        try:
            return await self.computed(client, pin)
        except PageRefused as refused:
            return refused.reply
        finally:
            self.places.release()
            if (took := time.monotonic() - began) > SLOW_SECONDS:
                log("%.1f s for %s of %s" % (took, shown(without_cr(line)), client.user))

    def end_left(self) -> None:
        for client in list(self.asking):
            client.end_if_left()

    def end_waiting(self, client: Waiter) -> None:
        """Ends the waiting of a client that has left."""
        if client in self.asking:
            self.asking[client].cancel()

    async def computed(self, client: Waiter, pin: bytes) -> bytes:
        """The reply of the rows at a pin, of no use once the client has left."""
        text = hashlib.sha256()
        for kind in KINDS:
            last = FIRST
            while last and not client.is_gone:
                rows = await self.page(client, pin, kind, last)
                text.update(text_of(kind, rows))
                last = key_of(rows) if rows.count(LINE_END) == PAGE_ROWS else b""
        return b"OK %s\n" % text.hexdigest().encode()

    async def page(self, client: Waiter, pin: bytes, kind: bytes, last: bytes) -> bytes:
        line = b"AT %s ROWS %s %s %d" % (pin, kind, last, PAGE_ROWS)
        reply = await self.program.ask(client.session, line, client.user)
        end = last_line(reply)
        if kind == MEMBERS and end.startswith(LATER_LAYOUT):
            return b""
        if end.startswith(REFUSED):
            raise PageRefused(end + LINE_END)
        return reply[: -len(end + LINE_END)]


def text_of(kind: bytes, rows: bytes) -> bytes:
    """The text of rows that is hashed. (No row has a line's end.)"""
    return (LINE_END + rows).replace(LINE_END + ROW, LINE_END + kind + b" ")[1:]


def key_of(rows: bytes) -> bytes:
    """The id and the date of the last row, as words of a line."""
    return b" ".join(last_line(rows).removeprefix(ROW).split(b"\t", 2)[:2])
