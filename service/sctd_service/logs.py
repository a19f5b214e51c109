"""What goes to standard error while clients are answered."""

import contextlib
import sys
import time


def tell(text: str) -> None:
    """Writes lines to standard error, or nothing where that can't be, as on a full disk."""
    with contextlib.suppress(OSError):
        print(text, file=sys.stderr, flush=True)


def pass_on(data: bytes) -> None:
    """Writes what another process has said to standard error, in the same way."""
    with contextlib.suppress(OSError):
        sys.stderr.buffer.write(data)
        sys.stderr.buffer.flush()


def now() -> str:
    """The time (UTC)."""
    return time.strftime("%Y-%m-%dT%H:%M:%SZ", time.gmtime())


def log(text: str) -> str:
    """Writes a line of the log, with the time, which it returns."""
    said = now()
    tell("%s %s" % (said, text))
    return said
