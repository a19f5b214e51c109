"""The hub's clients: connections, each of which is a session of the program."""

import asyncio
import os
import select
import socket
import struct
import time
from collections import Counter
from collections.abc import Callable, Coroutine, Sequence
from typing import cast

from ..logs import log, tell
from .checking import without_notes
from .digests import Digests
from .lines import (
    LINE_LIMIT, NOT_A_QUESTION, QUESTION, TOO_LONG, Lines, Sort, date_after, pin_after, without_cr)
from .program import Program, ProgramEndedError
from .store import Store

# Session 0 is the hub's own. Clients that only ask leave some of the others to those that import.
SESSIONS = range(1, 1024)
KEPT_SESSIONS = 23
NO_SESSION = b"ERR 41 Session\n"
# So many lines of one client are on their way at most. Once half of them are answered, more go.
LINES_A_CLIENT = 32
# So many lines of a client are kept until they are sent. Then it is read no further.
KEPT_LINES = 256
# How many bytes of replies may wait to be read by the clients.
UNREAD_LIMIT = 256 << 20
# How long clients have time to read what was answered when the hub ends.
LAST_SECONDS, WAIT_SECONDS = 2, 0.01
# A client of the socket for questions that says nothing for so long is hung up on, or for so long
# where few sessions are left.
IDLE_SECONDS, IDLE_SECONDS_IF_FULL = 600, 10
FEW_SESSIONS = 100
# How often that is looked at, who has left while its digest is computed, and whether the store's
# file is still there.
LOOK_SECONDS = 2
# For how long what is counted is told as it was made.
METRICS_SECONDS = 0.1
PEER = struct.Struct("3i")


class Client(asyncio.Protocol):
    transport: asyncio.Transport
    goes_alone = False

    def __init__(self, hub: "Hub", may_change: bool) -> None:
        self.hub, self.may_change, self.inputs = hub, may_change, hub.program.inputs
        self.session, self.user, self.lines = 0, "nobody", Lines(LINE_LIMIT, may_change)
        self.pin: bytes | None = None
        # How many lines are on their way, and what they were answered that isn't sent yet.
        self.flying, self.replies = 0, list[bytes]()
        # Whether it waits for a turn, has a line that the hub carries out, has replies to read.
        self.waits, self.is_busy, self.has_unread = False, False, False
        # Whether it isn't read for now, since it has sent many lines, and whether it is told notes.
        self.is_held, self.is_at_end, self.is_gone, self.watches = False, False, False, False
        self.has_notes, self.asks_ahead = False, False
        self.heard, self.before_line = time.monotonic(), b""

    def connection_made(self, transport: asyncio.BaseTransport) -> None:
        self.transport = cast(asyncio.Transport, transport)
        peer = transport.get_extra_info("socket")
        found = peer.getsockopt(socket.SOL_SOCKET, socket.SO_PEERCRED, PEER.size)
        self.user = "user %d" % PEER.unpack(found)[1]
        # A client has its session until all that it was answered is sent.
        self.transport.set_write_buffer_limits(high=0)
        self.session, self.number = self.hub.joined(self), peer.fileno()
        if not self.session:
            self.transport.write(NO_SESSION)
            self.transport.close()
            return
        self.before_line = b"%d " % self.session
        self.lines.limit = LINE_LIMIT - len(self.before_line)
        self.hub.loop.call_soon(self.begin)

    def begin(self) -> None:
        """Begins to be read, by the hub instead of by its transport."""
        self.transport.pause_reading()
        if not self.transport.is_closing():
            self.inputs.add(self.number, self.take)

    def take(self, data: bytes) -> None:
        """Takes what was read; at the end the lines that have come are answered all the same."""
        if data:
            self.heard = time.monotonic()
            self.lines.feed(data)
        else:
            self.is_at_end = True
            self.inputs.remove(self.number)
        self.go_on()

    def go_on(self) -> None:
        """Does what can be done now: answers lines, or waits for a turn to send questions."""
        for _ in range(LINES_A_CLIENT):
            if not self.lines or self.waits or self.is_busy or self.has_unread or self.is_gone:
                break
            sort, line = self.lines[0]
            if sort is QUESTION:
                if self.flying <= LINES_A_CLIENT // 2:
                    self.waits = True
                    self.hub.program.wait(self)
                break
            if self.flying:
                break
            self.lines.popleft()
            self.carry_out(sort, line)
        else:
            # Others have their turn between the lines of one client.
            self.hub.loop.call_soon(self.go_on)
        if self.is_held or self.is_at_end or len(self.lines) > KEPT_LINES:
            self.read_on()

    def read_on(self) -> None:
        """Reads no more lines than are kept, and ends where there will be none."""
        if self.is_gone:
            return
        if len(self.lines) > KEPT_LINES:
            self.is_held = True
            self.inputs.remove(self.number)
        elif not self.is_at_end:
            if self.is_held:
                self.is_held = False
                self.inputs.add(self.number, self.take)
        elif not (self.lines or self.flying or self.waits or self.is_busy):
            self.transport.close()

    def turn(self, room: int) -> Sequence[bytes]:
        self.waits = False
        lines, before, found = self.lines, self.before_line, list[bytes]()
        most = min(room, LINES_A_CLIENT - self.flying)
        while lines and lines[0][0] is QUESTION and len(found) < most:
            line = lines.popleft()[1]
            if not self.asks_ahead and (date := date_after(self.hub.today, line)):
                # (The same question may be answered otherwise later.)
                self.asks_ahead = True
                log("%s asks about %s, which is yet to come" % (self.user, date.decode()))
            found.append(before + line + b"\n")
        self.flying += len(found)
        return found

    def answered(self, line: bytes, reply: bytes) -> bool:
        """Takes the reply; whether it is that to the last line on its way."""
        self.flying -= 1
        if reply.startswith(b"OK"):
            self.pin = pin_after(line, reply, self.pin)
            if (words := self.hub.troubles()) and without_cr(line[:-1]).endswith(b" STATUS"):
                reply = b"%s%s\n" % (reply[:-1], words)
        self.replies.append(reply)
        return self.flying == 0

    def flush(self) -> None:
        if self.replies:
            replies, self.replies = self.replies, []
            self.send(b"".join(replies))
            if self.lines or self.is_at_end:
                self.go_on()

    def send(self, reply: bytes) -> None:
        """Sends it. What can't be sent now is left to the transport, and so is what goes wrong."""
        if self.is_gone:
            return
        try:
            sent = 0 if self.has_unread else os.write(self.number, reply)
        except OSError:
            sent = 0
        if sent < len(reply):
            self.transport.write(reply[sent:])
            if self.has_unread:
                self.hub.end_slowest()

    def pause_writing(self) -> None:
        self.has_unread = True
        self.hub.unread[self] = None
        self.hub.end_slowest()

    def resume_writing(self) -> None:
        self.has_unread = False
        self.hub.unread.pop(self, None)
        self.heard = time.monotonic()
        if not self.is_gone:
            self.go_on()

    def connection_lost(self, why: Exception | None) -> None:
        self.is_gone = True
        self.inputs.remove(self.number)
        self.lines.clear()
        self.hub.unread.pop(self, None)
        self.hub.digests.end_waiting(self)
        if self.session and not self.is_busy:
            self.hub.begin(self.hub.left(self))

    def carry_out(self, sort: Sort, line: bytes) -> None:
        """Answers a line that isn't sent among others."""
        if sort is Sort.WATCH:
            self.watches = True
            self.hub.watchers[self] = None
        elif sort is Sort.NOTES:
            self.has_notes = True
        if sort in AT_ONCE:
            self.send(AT_ONCE[sort](self.hub, line))
        else:
            self.is_busy = True
            self.hub.begin(self.carried_out(sort, line))

    async def carried_out(self, sort: Sort, line: bytes) -> None:
        try:
            reply = await self.hub.reply(self, sort, line)
        except ProgramEndedError:
            self.transport.close()
            raise
        self.is_busy = False
        self.send(reply)
        if self.is_gone:
            await self.hub.left(self)
        else:
            self.go_on()

    def end(self) -> None:
        """Ends it once the line is answered that the hub carries out."""
        self.lines.clear()
        self.is_at_end, self.flying, self.waits = True, 0, False
        self.read_on()

    def end_if_left(self) -> None:
        """Ends it if nobody reads what it is answered. (One that sends no more may still read.)"""
        if not self.is_gone:
            seen = select.poll()
            seen.register(self.transport.get_extra_info("socket"), 0)
            if seen.poll(0):
                self.transport.abort()

    def is_idle(self, seconds: float) -> bool:
        """Whether it has said nothing for so long, and waits for nothing."""
        works = self.flying or self.lines or self.is_busy or self.watches or self.has_unread
        return not works and time.monotonic() - self.heard > seconds


def day_now() -> bytes:
    return time.strftime("%Y%m%d", time.gmtime()).encode()


class Hub:
    def __init__(self, program: Program, store: Store, most_a_user: int) -> None:
        self.program, self.store, self.most_a_user = program, store, most_a_user
        self.digests = Digests(program)
        self.loop = asyncio.get_running_loop()
        self.free = list(reversed(SESSIONS))
        self.clients: dict[Client, None] = {}
        # How many connections each user has on the socket for questions, and who has too many.
        self.users: Counter[str] = Counter()
        self.told_users: set[str] = set()
        # The clients that haven't read their replies, longest first; those told of imports.
        self.unread: dict[Client, None] = {}
        self.watchers: dict[Client, None] = {}
        # The reply to METRICS, and when it was made.
        self.metrics, self.metrics_made = b"", -METRICS_SECONDS
        # The day that it is, by UTC, as questions have dates.
        self.today = day_now()
        self.tasks: set["asyncio.Task[None]"] = set()
        self.ended: "asyncio.Future[int]" = self.loop.create_future()
        store.on_import = self.tell_watchers

    def troubles(self) -> bytes:
        """What STATUS says of an import whose line couldn't be written, and of a damaged store."""
        return b" Unlisted" * bool(self.store.list.unwritten) + (
            b" Damaged" * bool(self.program.damaged_at))

    def end(self, status: int) -> None:
        if not self.ended.done():
            self.ended.set_result(status)

    def joined(self, client: Client) -> int:
        """The session of a new client; 0 where it can have none."""
        kept = 0 if client.may_change else KEPT_SESSIONS
        if self.ended.done() or len(self.free) <= kept or self.has_too_many(client):
            return 0
        self.clients[client] = None
        if not client.may_change:
            self.users[client.user] += 1
        return self.free.pop()

    def has_too_many(self, client: Client) -> bool:
        """Whether the user of one that asks has all connections that a user may have."""
        if client.may_change or self.users[client.user] < self.most_a_user:
            return False
        if client.user not in self.told_users:
            self.told_users.add(client.user)
            log("%s has %d connections, and gets no other one" % (client.user, self.most_a_user))
        return True

    async def left(self, client: Client) -> None:
        self.watchers.pop(client, None)
        self.clients.pop(client, None)
        self.store.note_left(client.session)
        await self.program.ask(client.session, b"UNPIN")
        self.free.append(client.session)
        if not client.may_change:
            self.users[client.user] -= 1
            self.told_users.discard(client.user)

    def begin(self, work: Coroutine[None, None, None]) -> None:
        task = self.loop.create_task(self.done(work))
        self.tasks.add(task)
        task.add_done_callback(self.tasks.discard)

    async def done(self, work: Coroutine[None, None, None]) -> None:
        """Does it, and ends the hub where that fails."""
        try:
            await work
        except ProgramEndedError as ended:
            self.end(ended.status)
        except asyncio.CancelledError:
            pass  # The hub ends.
        except Exception as fault:
            tell("hub: %r" % fault)
            self.end(1)

    async def reply(self, client: Client, sort: Sort, line: bytes) -> bytes:
        """The reply to a line that isn't sent among others."""
        if sort is Sort.BACKUP:
            return await self.store.backup(line)
        if sort is Sort.CHANGE:
            reply = await self.store.change(client.session, line, client.user)
            return reply if client.has_notes else without_notes(reply)
        return await self.digests.reply(client, line, self.store.imports)

    def metrics_told(self) -> bytes:
        """What METRICS is answered, which isn't made each time, so that many cost as little."""
        now = self.loop.time()
        if now - self.metrics_made >= METRICS_SECONDS:
            self.metrics, self.metrics_made = self.counted(), now
        return self.metrics

    def counted(self) -> bytes:
        """What is counted, each line as a row. The program isn't asked for it."""
        store = self.store
        now = (
            ("pin", "Imports, which are the pin of a question without one.", store.imports),
            ("rows", "Rows of the store.", int(store.state[2])),
            ("segments", "Segments of the store.", int(store.state[3])),
            ("bytes", "Bytes of the store's file.", store.size()),
            ("damaged", "Whether somebody was told that the store is damaged.",
             int(bool(self.program.damaged_at))),
            ("unlisted", "Imports that have no line in the list of imports.",
             len(store.list.missing(store.imports)) + store.list.unwritten.count(b"\n")),
            ("connections", "Connections of clients.", len(self.clients)))
        rows = self.program.metrics.text(now).encode().splitlines()
        return b"".join((*(b"ROW %s\n" % row for row in rows), b"END %d\n" % len(rows)))

    def tell_watchers(self) -> None:
        """Tells of an import, before it is answered."""
        for watcher in list(self.watchers):
            watcher.send(self.store.imports_told())

    def end_slowest(self) -> None:
        """Where clients leave too much unread, hangs up on who has done so for longest."""
        while sum(one.transport.get_write_buffer_size() for one in self.unread) > UNREAD_LIMIT:
            slowest = next(iter(self.unread))
            del self.unread[slowest]
            slowest.transport.abort()

    async def follow(self) -> None:
        self.end(await self.program.ended)

    async def look(self) -> None:
        """Hangs up on clients that have said nothing for long, and ends the hub where another file
        has taken the place of the store's."""
        while True:
            await asyncio.sleep(LOOK_SECONDS)
            if self.store.is_replaced():
                log("the store's file was replaced: the hub ends")
                return self.end(1)
            self.digests.end_left()
            self.today = day_now()
            is_full = len(self.free) <= KEPT_SESSIONS + FEW_SESSIONS
            seconds = IDLE_SECONDS_IF_FULL if is_full else IDLE_SECONDS
            for client in list(self.clients):
                if not client.may_change and client.is_idle(seconds):
                    client.transport.close()

    async def stop(self) -> None:
        """Ends the program after the lines that it answers, and then the clients."""
        self.store.stop()
        await self.program.stop()
        await self.store.stop_listing()
        for client in list(self.clients):
            client.end()
        end = self.loop.time() + LAST_SECONDS
        while self.loop.time() < end and not all(one.is_gone for one in self.clients):
            await asyncio.sleep(WAIT_SECONDS)
        for client in list(self.clients):
            client.transport.abort()
        tasks = list(self.tasks)
        for task in tasks:
            task.cancel()
        await asyncio.gather(*tasks, return_exceptions=True)


# What is answered at once to a line that isn't sent among others.
AT_ONCE: dict[Sort, Callable[[Hub, bytes], bytes]] = {
    Sort.REFUSED: lambda hub, line: NOT_A_QUESTION,
    Sort.LONG: lambda hub, line: TOO_LONG,
    Sort.NOTES: lambda hub, line: b"OK\n",
    Sort.WATCH: lambda hub, line: hub.store.imports_told(),
    Sort.METRICS: lambda hub, line: hub.metrics_told(),
    Sort.IMPORTS: lambda hub, line: hub.store.list.told(hub.store.imports),
    Sort.KNOWN: lambda hub, line: hub.store.list.known_told(line, hub.store.imports)}
