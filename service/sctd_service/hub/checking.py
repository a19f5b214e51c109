"""What is told beside a reply, and lines for releases that are carried out on a copy of the store,
so that no other line waits for them."""

import asyncio
import contextlib
import os
import re
from collections import Counter, deque
from collections.abc import Iterable
from pathlib import Path
from typing import NamedTuple

from ..logs import pass_on
from ..protocol import NOTE, last_line


class Task(NamedTuple):
    """How a line is carried out on a copy: the words of the program's task, whether the program
    that serves the store knows the line too, and carries it out where there can be no copy, and
    whether the line may say how many are told of each sort."""

    words: tuple[str, ...]
    is_served: bool
    has_list: bool = False


# The lines that are carried out on a copy, each for the release that it names.
TASKS = {b"CHECK": Task(("import", "--check", "--quiet"), is_served=True),
         b"VERIFY": Task(("verify",), is_served=False, has_list=True)}
# The name of a release, and how many are told of each sort.
LISTED = re.compile(rb"(\S+) ([0-9]{1,6})")
# What a part of a release's name is made of, and which parts lead to another folder.
NAME_PART, NO_PARTS = re.compile(rb"[A-Za-z0-9_.-]+"), (b".", b"..")
NAME_BYTES = 1024
# What stands behind the store's name in the name of the copy.
COPY_ENDING = ".checked"
# How many seconds a line may be carried out on a copy, so that no import waits for it forever.
LONGEST_CHECK = 3600
# Where memory runs out, what is carried out on a copy is killed first.
KILLED_FIRST, SCORE = "1000", "/proc/%d/oom_score_adj"
# How many lines are told beside a reply: the last ones.
MOST_NOTES = 2000
READ_BYTES, LONGEST_NOTE = 1 << 16, 1 << 20
# What is told where an import has only what needs no store.
UNCOMPARED = "the release wasn't compared with the store's modules and dates"
# Where a line about a row ends that contradicts another one: behind it only a check says which.
CONTRADICTING = b": the row differs from another one of the same id and date"


class Told:
    """What a process says on standard error: it is passed on, and its last lines are kept until
    they are taken. `known` are lines that were told before, and aren't told again."""

    def __init__(self) -> None:
        self.reader, self.writer = os.pipe()
        os.set_blocking(self.reader, False)
        self.lines: deque[bytes] = deque(maxlen=MOST_NOTES)
        self.rest, self.known = b"", Counter[bytes]()

    def begin(self) -> None:
        """Reads on by itself, once the process has the end to write to."""
        os.close(self.writer)
        asyncio.get_running_loop().add_reader(self.reader, self.read)

    def read(self) -> None:
        """Passes on the lines that have come, and what has no end as the process ends."""
        with contextlib.suppress(BlockingIOError):
            while data := os.read(self.reader, READ_BYTES):
                *lines, self.rest = (self.rest + data).split(b"\n")
                self.tell(lines)
                if len(self.rest) > LONGEST_NOTE:
                    self.tell_rest()
            self.tell_rest()
            asyncio.get_running_loop().remove_reader(self.reader)

    def tell_rest(self) -> None:
        if self.rest:
            self.tell([self.rest])
            self.rest = b""

    def tell(self, lines: Iterable[bytes]) -> None:
        """Passes lines on and keeps them, each but as often as it was told before."""
        for line in lines:
            if self.known[known_by(line)]:
                self.known[known_by(line)] -= 1
            else:
                pass_on(line + b"\n")
                self.lines.append(line)

    def taken(self) -> list[bytes]:
        """The lines that have come since they were last taken."""
        self.read()
        lines = list(self.lines)
        self.lines.clear()
        return lines


def is_name(name: bytes) -> bool:
    """Whether the program takes this as the name of a release."""
    return len(name) <= NAME_BYTES and all(
        NAME_PART.fullmatch(part) and part not in NO_PARTS for part in name.split(b"/"))


def known_by(line: bytes) -> bytes:
    """What is the same in a line about a release, whether a check tells it or an import."""
    return b"".join(line.partition(CONTRADICTING)[:2])


async def carried_out(*words: str | bytes) -> tuple[bytes, bytes]:
    """What a process says on standard output and on standard error, or why there is none. It
    doesn't outlive who waits for it."""
    try:
        process = await asyncio.create_subprocess_exec(
            *words, stdin=asyncio.subprocess.DEVNULL, stdout=asyncio.subprocess.PIPE,
            stderr=asyncio.subprocess.PIPE)
    except OSError as why:
        return b"", b"hub: %s: %s\n" % (os.fsencode(words[0]), (why.strerror or "").encode())
    with contextlib.suppress(OSError):
        Path(SCORE % process.pid).write_text(KILLED_FIRST, encoding="ascii")
    try:
        return await process.communicate()
    except asyncio.CancelledError:
        process.kill()
        await process.wait()
        raise


def with_notes(notes: Iterable[bytes], reply: bytes) -> bytes:
    """A reply with the last lines of what is told beside it, which stand first."""
    return b"".join((*(NOTE + note + b"\n" for note in deque(notes, MOST_NOTES)), reply))


def without_notes(reply: bytes) -> bytes:
    """A reply of one line, for those that haven't asked for more."""
    return last_line(reply) + b"\n"
