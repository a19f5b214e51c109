"""The names of Unix sockets: which socket a path names, and when a new one may take its place."""

import errno
import os
import socket
import stat

# What tells a socket from any other that has its name later: its device, its number there, and when
# it changed, in nanoseconds.
Identity = tuple[int, int, int]


def identity_of(path: str) -> Identity | None:
    """That of the socket which a path names; None where there is none."""
    try:
        found = os.lstat(path)
    except OSError:
        return None
    return found.st_dev, found.st_ino, found.st_ctime_ns


def clear(path: str) -> None:
    """Removes the socket that an earlier program left behind. Anything else stays, and is told."""
    if not os.path.lexists(path):
        return
    if not stat.S_ISSOCK(os.lstat(path).st_mode):
        raise OSError("there is something that is no socket")
    with socket.socket(socket.AF_UNIX) as earlier:
        # (A program that hangs, and takes no more connections, isn't waited for.)
        earlier.setblocking(False)
        if earlier.connect_ex(path) != errno.ECONNREFUSED:
            raise OSError("another program listens on it")
    os.unlink(path)


def remove(path: str, own: Identity | None) -> None:
    """Removes a socket's name, if it is still that of the own socket."""
    if own is not None and identity_of(path) == own:
        os.unlink(path)
