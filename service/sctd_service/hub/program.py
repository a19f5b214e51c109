"""`sctd serve`, and the queue of the lines that it answers.

The program answers one line after the other, in their order. So a line is written as soon as there
is room for it on its way, and whoever stands first in `on_their_way` is told the next reply: no
line waits for the reply to another one. A line that may change the store goes alone: it waits until
all lines before it are answered, and lines after it wait for its reply. Who has lines to send waits
for a turn behind those that came before, and sends some of them in a turn.
"""

import asyncio
import os
import time
from collections import deque
from collections.abc import Sequence
from typing import Protocol, cast

from ..logs import log, tell
from ..protocol import DAMAGED, DISK_FAULT, REFUSED, NotAReply, Replies, last_line
from .checking import Told
from .inputs import Inputs
from .lines import shown
from .metrics import Metrics

# The session of the hub's own lines.
HUB_SESSION = 0
# How many lines may be on their way, to the program or back.
MOST_ON_THEIR_WAY = 1024
# A line that takes longer is logged.
SLOW_SECONDS = 1.0
# How long what the program has said is read once it has ended.
LAST_SECONDS = 2


class ProgramEndedError(Exception):
    """The program has ended, or has to be started again."""

    def __init__(self, status: int, line: bytes = b"") -> None:
        super().__init__()
        self.status, self.line = status, line


class Asker(Protocol):
    """Who sends lines in its turns, and is told the replies in the order of its lines. Where it
    goes alone there is no line of another one on its way."""

    user: str
    goes_alone: bool

    def turn(self, room: int) -> Sequence[bytes]:
        """The lines that it sends now, with the number of its session: not more than these."""

    def answered(self, line: bytes, reply: bytes) -> bool:
        """Takes the reply to the first line that isn't answered yet; whether that is the last."""

    def flush(self) -> None:
        """Is called once the last line is answered, or all replies that came together are told."""


class Single:
    """One line whose reply is awaited."""

    def __init__(self, session: int, line: bytes, user: str, goes_alone: bool) -> None:
        self.line, self.user, self.goes_alone = b"%d %s\n" % (session, line), user, goes_alone
        self.reply: "asyncio.Future[bytes]" = asyncio.get_running_loop().create_future()

    def turn(self, room: int) -> Sequence[bytes]:
        return [self.line]

    def answered(self, line: bytes, reply: bytes) -> bool:
        if not self.reply.done():
            self.reply.set_result(reply)
        return True

    def flush(self) -> None:
        pass

    def end(self, status: int) -> None:
        """There is no reply any more."""
        if not self.reply.done():
            self.reply.set_exception(ProgramEndedError(status))


class Program(asyncio.SubprocessProtocol):
    """The program that serves the store."""

    def __init__(self) -> None:
        self.inputs = Inputs(self.give_turns)
        self.replies, self.metrics = Replies(), Metrics()
        self.on_their_way: deque[tuple[Asker, bytes]] = deque()
        self.waiting: deque[Asker] = deque()
        # Whether the line that is on its way goes alone.
        self.is_alone = False
        # Whether it is asked nothing any more, and since when the store is known to be damaged.
        self.is_over, self.is_open, self.damaged_at = False, False, ""
        # Whether all that it has said is read.
        self.is_read_out = False
        # Since when the first line is answered that isn't answered yet.
        self.began = 0.0
        loop = asyncio.get_running_loop()
        self.exited: "asyncio.Future[None]" = loop.create_future()
        # The status to end with, once the program has ended or its replies are of no use.
        self.ended: "asyncio.Future[int]" = loop.create_future()

    @classmethod
    async def start(cls, words: Sequence[str]) -> "Program":
        (output, its_end), notes = os.pipe(), Told()
        os.set_blocking(output, False)
        transport, program = await asyncio.get_running_loop().subprocess_exec(
            cls, *words, stdout=its_end, stderr=notes.writer, start_new_session=True)
        os.close(its_end)
        notes.begin()
        program.transport, program.output, program.notes = transport, output, notes
        program.input = cast(asyncio.WriteTransport, transport.get_pipe_transport(0))
        # (Nothing is read before the first line is sent, even if the program answers that at once.)
        program.inputs.add(output, program.told)
        return program

    transport: asyncio.SubprocessTransport
    notes: Told
    input: asyncio.WriteTransport
    output: int

    async def opened(self) -> bytes:
        """The reply to STATUS, once the store is open."""
        reply = await self.ask(HUB_SESSION, b"STATUS")
        if reply.startswith(REFUSED):
            await self.exited
            raise ProgramEndedError(self.status(), reply)
        self.is_open = True
        return reply

    async def ask(self, session: int, line: bytes, user: str = "hub", alone: bool = False) -> bytes:
        """The reply to a line, with its line ends."""
        if self.is_over:
            raise ProgramEndedError(1)
        asked = Single(session, line, user, alone)
        self.wait(asked)
        return await asked.reply

    def wait(self, asker: Asker) -> None:
        """Gives a turn to whoever has a line, behind all who wait for one."""
        self.waiting.append(asker)
        if not self.inputs.is_due:
            self.inputs.soon()

    def give_turns(self) -> None:
        """Sends lines of those that wait, as far as these may be on their way now. All are written
        at once."""
        waiting, sent, all_lines = self.waiting, self.on_their_way, list[bytes]()
        if not sent:
            self.began = time.monotonic()
        while waiting and not self.is_alone and not self.is_over:
            room, first = MOST_ON_THEIR_WAY - len(sent), waiting[0]
            if room <= 0 or (first.goes_alone and sent):
                break
            waiting.popleft()
            self.is_alone = first.goes_alone
            lines = first.turn(room)
            sent.extend([(first, line) for line in lines])
            all_lines += lines
        if all_lines and not self.input.is_closing():
            self.input.write(b"".join(all_lines))

    def told(self, data: bytes) -> None:
        """Tells each reply to whoever asked for it."""
        if not data:
            self.at_end()
        told: dict[Asker, None] = {}
        try:
            for reply in self.replies.feed(data):
                if not self.is_read():
                    break
                asker, line = self.on_their_way.popleft()
                self.is_alone = False
                self.look_at(asker, line, reply)
                if asker.answered(line, reply):
                    asker.flush()
                else:
                    told[asker] = None
        except NotAReply:
            tell("hub: the program has said what isn't a reply")
            self.end(1)
        for asker in told:
            asker.flush()

    def is_read(self) -> bool:
        """Whether a reply that comes now is told to somebody."""
        if not self.on_their_way and not self.ended.done():
            tell("hub: the program has said more than was asked")
            self.end(1)
        return not self.ended.done()

    def look_at(self, asker: Asker, line: bytes, reply: bytes) -> None:
        """Notes how long a line took, and what its reply says of the disk."""
        now = time.monotonic()
        took, self.began = now - self.began, now
        if self.is_open:
            self.metrics.took(line, took)
        if took > SLOW_SECONDS:
            log("%.1f s for %s of %s" % (took, without_session(line), asker.user))
        if reply.startswith(REFUSED, reply.rfind(b"\n", 0, -1) + 1):
            self.look_at_refusal(asker, line, last_line(reply))

    def look_at_refusal(self, asker: Asker, line: bytes, last: bytes) -> None:
        if (last + b" ").startswith(DISK_FAULT):
            # It is told, and no reply after it.
            self.end(1)
        elif last.startswith(DAMAGED) and self.is_open:
            self.note_damage(without_session(line), asker.user, last)

    def note_damage(self, line: str, user: str, reply: bytes) -> None:
        """Tells the first time that the store was found to be damaged."""
        if not self.damaged_at:
            self.damaged_at = log(
                "the store is damaged: %s of %s was answered %s. Restore your copy: `sctd status` "
                "tells of a copy of the file which segment it is" % (line, user, shown(reply)))

    def end(self, status: int) -> None:
        """Ends the waiting of all who would be told a reply."""
        self.is_over = True
        if not self.ended.done():
            self.ended.set_result(status)
        for asker in (*self.waiting, *(asker for asker, _ in self.on_their_way)):
            if isinstance(asker, Single):
                asker.end(status)

    def at_end(self) -> None:
        """What the program has said is read."""
        self.inputs.remove(self.output)
        os.close(self.output)
        self.is_over = self.is_read_out = True
        if self.exited.done():
            self.end(self.status())

    def process_exited(self) -> None:
        self.exited.set_result(None)
        # (Another process may still have its output.)
        self.notes.read()
        seconds = 0 if self.is_read_out else LAST_SECONDS
        asyncio.get_running_loop().call_later(seconds, lambda: self.end(self.status()))

    def status(self) -> int:
        """The status to end with where the program ended by itself; 1 where a signal ended it."""
        return max(self.transport.get_returncode() or 0, 1)

    async def stop(self) -> None:
        """Ends the program after the lines that are on their way."""
        self.is_over = True
        self.input.close()
        await self.exited


def without_session(line: bytes) -> str:
    """A line as it stands in the log, without the number of its session."""
    return shown(line.rstrip(b"\r\n").partition(b" ")[2])
