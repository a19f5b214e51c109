#!/usr/bin/env python3
"""Keeps the rows of a store in an SQLite file beside it: takes each import once, by ADDED.

follow.py SOCKET FILE [--limit N] [--stay]

SOCKET is a socket of the hub; that for questions suffices. FILE is made where it is missing. Its
table `rows` has each row and the import that was the first to bring it, and `imports` the receipts.
The rows of an import and its receipt come in one transaction: whenever a run ends, the next one
goes on behind the last import that was taken whole. With --stay it waits for further imports. (For
an index of one's own the table `rows` is another one.)

The status is 1 where the hub refuses a line, can't be reached or ends, where FILE can't be written,
and where it followed another store. It takes the folder `service/` beside its own.
"""

import argparse
import signal
import sqlite3
import sys
from collections.abc import Iterator
from pathlib import Path

sys.path.append(str(Path(__file__).resolve().parent.parent / "service"))
from sctd_service.protocol import HubClient, HubFailed  # noqa: E402

TABLES = """
create table if not exists imports (number integer primary key, receipt text not null);
create table if not exists rows (kind text, id text, day text, row text not null,
    import integer not null, primary key (kind, id, day)) without rowid;
"""


def added(hub: HubClient, number: int, limit: int) -> Iterator[tuple[str, str, str, str, int]]:
    """The rows that an import was the first to bring."""
    for kind, page in hub.pages_of_all("ADDED %d" % number, limit):
        for row in map(bytes.decode, page):
            name, day, _ = row.split("\t", 2)
            yield kind, name, day, row, number


def take(hub: HubClient, file: sqlite3.Connection, imports: int, limit: int) -> None:
    """Takes the imports that weren't taken yet."""
    found = file.execute("select number, receipt from imports order by number desc limit 1")
    last, receipt = found.fetchone() or (0, "")
    if last > imports or last and hub.ask("RECEIPT %d" % last)[-1].decode() != receipt:
        raise HubFailed("the file followed another store: its import %d is %s" % (last, receipt))
    for number in range(last + 1, imports + 1):
        receipt = hub.ask("RECEIPT %d" % number)[-1].decode()
        with file:
            file.executemany("insert into rows values (?, ?, ?, ?, ?)", added(hub, number, limit))
            file.execute("insert into imports values (?, ?)", (number, receipt))
        print(receipt, flush=True)


def main() -> int:
    words = argparse.ArgumentParser(description="Keeps the rows of a store in an SQLite file.")
    words.add_argument("socket", metavar="SOCKET")
    words.add_argument("file", metavar="FILE")
    words.add_argument("--limit", type=int, default=1000, metavar="N")
    words.add_argument("--stay", action="store_true")
    asked = words.parse_args()
    signal.signal(signal.SIGINT, signal.SIG_DFL)
    try:
        file = sqlite3.connect(asked.file)
        file.executescript(TABLES)
        with HubClient(asked.socket) as watch:
            watch.send([b"WATCH"])
            while True:
                imports = int(watch.reply().split()[1])
                with HubClient(asked.socket) as hub:
                    take(hub, file, imports, asked.limit)
                if not asked.stay:
                    return 0
    except (HubFailed, OSError, sqlite3.Error) as why:
        print("follow: %s" % why, file=sys.stderr)
        return 1


if __name__ == "__main__":
    sys.exit(main())
