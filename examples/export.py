#!/usr/bin/env python3
"""Prints every row of a store, all versions, as the first imports left it.

export.py SOCKET [--pin N] [--limit N] [--check] > rows.txt

SOCKET is a socket of the hub; that for questions suffices. Each line is the letter of a kind, a
space, and the row as its release file had it, by kinds in the order C, D, R, A, V, M, by id and by
date. `sed -n 's/^C //p' rows.txt` are the lines of a Full file of all concepts but its first one.

The SHA-256 of the output is the store's digest at that pin: `sha256sum rows.txt` says what
`AT N DIGEST` does, which --check asks and compares; other clients wait for the reply. Without --pin
it is the present imports, and what is imported meanwhile isn't printed. --limit is the most rows of
one question. Standard error says the pin, the number of rows and their SHA-256, and the status is
0; it is 1 where the hub refuses a line, can't be reached or ends, or the output can't be written or
has another digest: then it isn't the whole store. It takes the folder `service/` beside its own.
"""

import argparse
import hashlib
import os
import signal
import sys
from pathlib import Path

sys.path.append(str(Path(__file__).resolve().parent.parent / "service"))
from sctd_service.protocol import HubClient, HubFailed  # noqa: E402

MOST_ROWS = 1000


class Wrong(Exception):
    """Why the output isn't all rows."""


def export(hub: HubClient, pin: int | None, limit: int, is_checked: bool) -> str:
    """Prints the rows, and says what they are."""
    found = hub.ask("PIN" if pin is None else "PIN %d" % pin)[-1].split()[1].decode()
    digest, count = hashlib.sha256(), 0
    for kind, page in hub.pages_of_all("ROWS", limit):
        lines = b"".join(b"%s %s\n" % (kind.encode(), row) for row in page)
        digest.update(lines)
        sys.stdout.buffer.write(lines)
        count += len(page)
    sys.stdout.buffer.flush()
    told = hub.ask("DIGEST")[-1].split()[1].decode() if is_checked else digest.hexdigest()
    if told != digest.hexdigest():
        raise Wrong("what was printed has another digest than the store: %s" % told)
    return "pin %s, %d rows, SHA-256 %s" % (found, count, told)


def main() -> int:
    words = argparse.ArgumentParser(description="Prints every row of a store.")
    words.add_argument("socket", metavar="SOCKET")
    words.add_argument("--pin", type=int, metavar="N")
    words.add_argument("--limit", type=int, default=MOST_ROWS, metavar="N")
    words.add_argument("--check", action="store_true")
    asked = words.parse_args()
    signal.signal(signal.SIGINT, signal.SIG_DFL)
    try:
        with HubClient(asked.socket) as hub:
            said = export(hub, asked.pin, asked.limit, asked.check)
    except (HubFailed, Wrong, OSError) as why:
        # Python writes the rest once more when it ends.
        os.dup2(os.open(os.devnull, os.O_WRONLY), 1)
        print("export: %s" % why, file=sys.stderr)
        return 1
    print("export: %s" % said, file=sys.stderr)
    return 0


if __name__ == "__main__":
    sys.exit(main())
