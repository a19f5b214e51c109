#!/usr/bin/env python3
"""Sends the lines of standard input to the hub, and prints the replies.

client.py [--known DAY] SOCKET

The lines have no session number:
`echo 'GET C 138875005 20250101' | python3 client.py /run/sctd/questions.sock`. They are sent as
they are, whatever the locale: the store's texts are UTF-8. With --known they are answered as of the
last import that was made by the end of that day (UTC), written 2020-10-15, as the hub's list of
imports says; standard error says which import that is, and what is told of a release that a line
imports, checks or compares. The status is 1 where a line was answered `ERR`, where the list doesn't
say what was known, where the hub can't be reached or ends before each line is answered, and where
the replies can't be printed; else it is 0. It takes the folder `service/` beside its own.
"""

import argparse
import os
import signal
import sys
from pathlib import Path

sys.path.append(str(Path(__file__).resolve().parent.parent / "service"))
from sctd_service.protocol import NOTE, REFUSED, HubClient, HubFailed, last_line  # noqa: E402

# The lines of whose releases something is told.
OF_RELEASES = (b"IMPORT ", b"CHECK ", b"VERIFY ")


def show(reply: bytes) -> None:
    try:
        sys.stdout.buffer.write(reply)
        sys.stdout.buffer.flush()
    except OSError as why:
        # Python writes the rest once more when it ends.
        os.dup2(os.open(os.devnull, os.O_WRONLY), sys.stdout.fileno())
        raise HubFailed("standard output: %s" % why.strerror) from None


def show_notes(reply: bytes) -> bytes:
    """Prints what is told beside a reply, and answers the reply."""
    while reply.startswith(NOTE):
        note, _, reply = reply.partition(b"\n")
        print(note.removeprefix(NOTE).decode("utf-8", "backslashreplace"), file=sys.stderr)
    return reply


def pin_known(hub: HubClient, day: str) -> None:
    """Pins the session to what was known on a day."""
    _, pin, made = hub.ask("KNOWN %s" % day.replace("-", ""))[-1].decode().split()
    hub.ask("PIN %s" % pin)
    print("client: known on %s: pin %s, import made at %s" % (day, pin, made), file=sys.stderr)


def answer_all(path: str, known: str | None) -> int:
    """Prints the replies to all lines, and answers the status to end with."""
    status, has_notes = 0, False
    hub = HubClient(path)
    if known is not None:
        pin_known(hub, known)
    for line in sys.stdin.buffer:
        if line.startswith(OF_RELEASES) and not has_notes:
            hub.ask("NOTES")
            has_notes = True
        hub.send([line.removesuffix(b"\n")])
        reply = show_notes(hub.reply())
        show(reply)
        if last_line(reply).startswith(REFUSED):
            status = 1
    return status


def main() -> int:
    words = argparse.ArgumentParser(description="Sends lines to the hub, and prints the replies.")
    words.add_argument("--known", metavar="DAY")
    words.add_argument("socket", metavar="SOCKET")
    asked = words.parse_args()
    # An interrupt ends it as it ends other programs.
    signal.signal(signal.SIGINT, signal.SIG_DFL)
    try:
        return answer_all(asked.socket, asked.known)
    except (HubFailed, OSError) as why:
        print("client: %s" % why, file=sys.stderr)
        return 1


if __name__ == "__main__":
    sys.exit(main())
