"""What is at hand of the clients and of the program, which is read together.

A transport of asyncio is read by an object made for each time, and the loop looks for more after
each one. Here transports only write. What they would read is in a list of the system's (epoll), at
which the loop looks as at one file: all that has something is read once, and then what came of it
is written.
"""

import asyncio
import os
import select
from collections.abc import Callable

from ..protocol import READ_BYTES

# Takes what was read of a file, which is nothing at its end.
Taker = Callable[[bytes], None]


class Inputs:
    """The files that are read, and who takes what is in them. `after` is called when all are read
    that were at hand, or `soon`."""

    def __init__(self, after: Callable[[], None]) -> None:
        self.loop, self.poll, self.after = asyncio.get_running_loop(), select.epoll(), after
        self.takers: dict[int, Taker] = {}
        # Whether `after` will be called.
        self.is_due = False
        self.loop.add_reader(self.poll.fileno(), self.look)

    def add(self, number: int, taker: Taker) -> None:
        self.takers[number] = taker
        self.poll.register(number, select.EPOLLIN)

    def remove(self, number: int) -> None:
        """Reads a file no longer, if it was read."""
        if self.takers.pop(number, None):
            self.poll.unregister(number)

    def look(self) -> None:
        self.is_due, takers = True, self.takers
        try:
            for number, _ in self.poll.poll(0):
                # (Who was read before may have ended this one.)
                if (taker := takers.get(number)) and (data := read(number)) is not None:
                    taker(data)
        finally:
            self.call_after()

    def soon(self) -> None:
        """Has `after` called, once for all who want that."""
        if not self.is_due:
            self.is_due = True
            self.loop.call_soon(self.call_after)

    def call_after(self) -> None:
        self.is_due = False
        self.after()


def read(number: int) -> bytes | None:
    """What is at hand. (Who resets a connection has left.)"""
    try:
        return os.read(number, READ_BYTES)
    except BlockingIOError:
        return None
    except ConnectionError:
        return b""
