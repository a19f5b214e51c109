"""A connection to the hub of `sctd`: lines go out, replies come back."""

import asyncio
import re
from collections.abc import Sequence

from ..protocol import READ_BYTES, NotAReply, Replies
from ..sockets import Identity
from . import limits
from .problems import too_costly

# The lines of one reply, the last of which is `OK`, `END` or `ERR` with their numbers.
Reply = tuple[str, ...]
# Nothing else is ever sent: one line without control characters.
LINE = re.compile("[^\x00-\x1f\x7f-\x9f\u2028\u2029]+\\Z")

# Numbers of refusals: the disk, memory, and a hub whose sessions are all taken.
OUT_OF_MEMORY = 1
STORE_IS_GONE = (2, 3, 41)
# What `sctd` refuses of a store whose layout keeps no members of reference sets, of one whose words
# aren't kept, and a line whose words don't fit its command.
NEEDS_LATER_LAYOUT, NOT_KEPT, ARGUMENTS = 14, 16, 43


class HubGone(Exception):
    """The hub can't be reached or has left. `fresh` says whether a new connection met that; an
    older one may be of a hub that was started again since."""

    def __init__(self, why: str, fresh: bool) -> None:
        super().__init__(why)
        self.fresh = fresh


class HubRefused(Exception):
    """`sctd` or the hub refused a line."""

    def __init__(self, line: str) -> None:
        super().__init__(line)
        words = line.split(" ")
        self.number = int(words[1]) if len(words) > 1 and words[1].isdecimal() else None


class Connection:
    """One connection, which keeps no pin. `whole` is false while replies are outstanding."""

    def __init__(self, reader: asyncio.StreamReader, writer: asyncio.StreamWriter,
                 identity: Identity) -> None:
        self.reader, self.writer, self.identity = reader, writer, identity
        self.whole, self.fresh = True, True
        self.received = 0

    def is_open(self) -> bool:
        return not self.reader.at_eof() and not self.writer.is_closing()

    def close(self) -> None:
        self.writer.close()

    async def ask(self, lines: Sequence[str]) -> list[Reply]:
        """The reply to each line. The lines of a batch are sent together, in one round trip."""
        replies: list[Reply] = []
        for start in range(0, len(lines), limits.HUB_BATCH):
            batch = lines[start : start + limits.HUB_BATCH]
            self.whole = False
            try:
                self.writer.write(encoded(batch))
                replies += await self.replies(len(batch))
            except (OSError, EOFError) as gone:
                raise HubGone(str(gone), self.fresh) from gone
            except (NotAReply, UnicodeDecodeError):
                raise HubGone("the hub says what isn't a reply", self.fresh) from None
            self.whole = True
        self.fresh = False
        return replies

    async def replies(self, count: int) -> list[Reply]:
        """So many replies. Those behind a refusal are read, so that no later line gets them."""
        done: list[Reply] = []
        refused = list[HubRefused]()
        replies = Replies()
        while len(done) < count:
            for reply in replies.feed(await self.more(len(replies.rest))):
                lines = reply.decode().split("\n")[:-1]
                done.append(tuple(lines))
                if lines[-1].startswith("ERR "):
                    error = refusal(lines[-1])
                    if not isinstance(error, HubRefused):
                        raise error
                    refused.append(error)
        if refused:
            raise refused[0]
        return done

    async def more(self, kept: int) -> bytes:
        data = await self.reader.read(READ_BYTES)
        if not data:
            raise EOFError("the hub has left")
        if kept > limits.REPLY_LINE_BYTES:
            raise EOFError("the hub sends a line without an end")
        self.received += len(data)
        if self.received > limits.REPLIES_BYTES:
            raise too_costly("the answer is made of more than %d bytes" % limits.REPLIES_BYTES)
        return data


def encoded(lines: Sequence[str]) -> bytes:
    """The lines as they are sent. A line that could be read as two is a fault of the gateway."""
    data = [line.encode() for line in lines]
    if not all(LINE.match(line) for line in lines) or max(map(len, data)) > limits.HUB_LINE_BYTES:
        raise ValueError("a line that can't be sent")
    return b"\n".join(data) + b"\n"


def refusal(line: str) -> HubGone | HubRefused:
    refused = HubRefused(line)
    return HubGone(line, True) if refused.number in STORE_IS_GONE else refused
