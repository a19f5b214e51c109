#!/usr/bin/env python3
"""Imports a package into a new store, and compares what that says with the package's own files.

check_edition.py [--program SCTD] [--without-digest] STORE PACKAGE > page.txt

PACKAGE is an unpacked package with the folders Full and Snapshot, and STORE a file that isn't there
yet. The Full is imported. Then the rows of each kind are asked of the program page by page, as of
each day of the release, and compared with the latest versions that the Full's files have up to
that day; as of the last day also with the Snapshot's files. The digest that the program gives is
compared with that of `digest.py`, which takes 440 bytes of memory for each row.

What is printed is one page of counts, seconds, days and digests, without a code, a term or another
part of the release, so that it may be sent to others. Standard error says what is being done. The
status is 0 where all is the same, and 1 where something differs or can't be done. 100,000 rows of
32 days took 8 seconds of a processor. It takes the folder `service/` and the script `digest.py`
beside its own.
"""

import argparse
import hashlib
import os
import subprocess
import sys
import time
import zlib
from collections import Counter
from collections.abc import Iterable, Iterator, Sequence
from pathlib import Path
from typing import NamedTuple

sys.path.append(str(Path(__file__).resolve().parent.parent / "service"))
from digest import ORDER, rows_of  # noqa: E402
from sctd_service.protocol import REFUSED, Replies, last_line  # noqa: E402

FULL, SNAPSHOT = "Full", "Snapshot"
# The most rows whose versions are in memory at a time, and that are asked for at once.
ROWS_AT_A_TIME, PAGE_ROWS, READ_BYTES = 500_000, 1_000, 1 << 16
DIGEST = Path(__file__).resolve().parent / "digest.py"
WIDTH = 10


class NotChecked(Exception):
    """Why the package can't be checked."""


class Sum(NamedTuple):
    """What tells some rows from others, in whichever order: how many they are, and the sum of
    their hashes."""

    rows: int = 0
    hashes: int = 0

    def plus(self, other: "Sum", times: int = 1) -> "Sum":
        return Sum(self.rows + times * other.rows, self.hashes + times * other.hashes)


# The rows of each kind by days, and the kinds in the order of ORDER by one day.
Sums = dict[str, list[Sum]]
NOTHING = [Sum()] * len(ORDER)


def of_row(row: bytes) -> Sum:
    return Sum(1, int.from_bytes(hashlib.sha256(row).digest()))


def run(words: Sequence[str | Path]) -> tuple[str, float]:
    """What a command prints, and how many seconds it took."""
    print("check_edition: %s" % " ".join(map(str, words)), file=sys.stderr)
    began = time.monotonic()
    done = subprocess.run(words, stdout=subprocess.PIPE, stdin=subprocess.DEVNULL, check=False)
    if done.returncode:
        raise NotChecked("%s: %s" % (words[1], done.stdout.decode().strip() or done.returncode))
    return done.stdout.decode().strip(), time.monotonic() - began


# ---- What the files say


def changes_by_day(full: Path) -> Sums:
    """By each day of a Full what came on it less what that replaced, some rows at a time."""
    count = sum(1 for _ in rows_of(full, True, FULL))
    parts = 1 + count // ROWS_AT_A_TIME
    found: Sums = {}
    for part in range(parts):
        versions: dict[tuple[int, bytes], dict[bytes, Sum]] = {}
        for place, identifier, columns in rows_of(full, True, FULL):
            if zlib.crc32(identifier) % parts == part:
                day = columns.split(b"\t", 2)[1]
                versions.setdefault((place, identifier), {})[day] = of_row(identifier + columns)
        for (place, _), days in versions.items():
            before = Sum()
            for day, row in sorted(days.items()):
                sums = found.setdefault(day.decode(), [*NOTHING])
                sums[place] = sums[place].plus(row).plus(before, -1)
                before = row
    return found


def snapshots_of(full: Path) -> Sums:
    """The latest versions up to each day of a Full."""
    found: Sums = {}
    before = NOTHING
    for day, sums in sorted(changes_by_day(full).items()):
        before = found[day] = [one.plus(change) for one, change in zip(before, sums)]
    return found


def snapshot_files(folder: Path) -> list[Sum]:
    """What the files of a Snapshot have."""
    found = [*NOTHING]
    for place, identifier, columns in rows_of(folder, True, SNAPSHOT):
        found[place] = found[place].plus(of_row(identifier + columns))
    return found


# ---- What the program says


class Server:
    """`sctd serve`, which is asked one line after the other."""

    def __init__(self, program: str, store: Path) -> None:
        words = [program, "serve", "--store", str(store), "--releases", str(store.parent)]
        self.process = subprocess.Popen(words, stdin=subprocess.PIPE, stdout=subprocess.PIPE)
        assert self.process.stdin and self.process.stdout
        self.input, self.output = self.process.stdin, self.process.stdout.fileno()

    def __enter__(self) -> "Server":
        return self

    def __exit__(self, *_: object) -> None:
        self.input.close()
        self.process.wait()

    def ask(self, line: str) -> list[bytes]:
        """The lines of the reply but its last one."""
        self.input.write(b"0 %s\n" % line.encode())
        self.input.flush()
        replies = Replies()
        while data := os.read(self.output, READ_BYTES):
            for reply in replies.feed(data):
                if last_line(reply).startswith(REFUSED):
                    raise NotChecked("%s: %s" % (line, last_line(reply).decode()))
                return reply.split(b"\n")[:-2]
        raise NotChecked("%s: the program has ended" % line)

    def days(self) -> list[str]:
        return [line.split()[1].decode() for line in self.ask("DATES")]

    def rows(self, kind: str, day: str) -> Iterator[bytes]:
        """The rows of a kind as of a day."""
        after = "-"
        while after:
            page = self.ask("PAGE %s %s %s %d" % (kind, day, after, PAGE_ROWS))
            rows = [line.removeprefix(b"ROW ") for line in page]
            yield from rows
            after = rows[-1].partition(b"\t")[0].decode() if len(rows) == PAGE_ROWS else ""

    def snapshot(self, day: str) -> list[Sum]:
        print("check_edition: as of %s" % day, file=sys.stderr)
        return [total(self.rows(kind, day)) for kind in ORDER]


def total(rows: Iterable[bytes]) -> Sum:
    found = Sum()
    for row in rows:
        found = found.plus(of_row(row))
    return found


# ---- The page


class Page:
    """What is printed, and whether all was the same."""

    def __init__(self) -> None:
        self.outcomes: Counter[bool] = Counter()

    def say(self, what: str, text: object) -> None:
        print("%-24s %s" % (what, text))

    def compare(self, what: str, found: Sequence[Sum], wanted: Sequence[Sum]) -> None:
        """A line of the table: how many rows there are of each kind, or how many there are and
        should be."""
        cells = []
        for one, other in zip(found, wanted, strict=True):
            self.outcomes[one == other] += 1
            differs = "%d, not %d" % (one.rows, other.rows)
            if one.rows == other.rows:
                differs = "%d differ" % one.rows
            cells.append(str(one.rows) if one == other else differs)
        self.say(what, " ".join(cell.rjust(WIDTH) for cell in cells))


def check(program: str, store: Path, package: Path, with_digest: bool) -> int:
    page = Page()
    run([program, "init", "--store", store])
    imported, seconds = run([program, "import", "--quiet", "--store", store, package / FULL])
    _, opening = run([program, "status", "--store", store])
    page.say("package", package.resolve().name)
    page.say("checked on", time.strftime("%Y-%m-%d", time.gmtime()))
    page.say("program", run([program, "--version"])[0].replace("\n", "; "))
    memory = os.sysconf("SC_PAGE_SIZE") * os.sysconf("SC_PHYS_PAGES")
    page.say("machine", "%s processors, %.0f GB" % (os.cpu_count(), memory / 1e9))
    page.say("rows, lines again", " ".join(imported.split()[2:]))
    page.say("bytes of the store", store.stat().st_size)
    page.say("seconds of the import", "%.1f" % seconds)
    page.say("seconds of an opening", "%.1f" % opening)
    wanted = snapshots_of(package / FULL)
    page.say("rows as of", " ".join(kind.rjust(WIDTH) for kind in ORDER))
    with Server(program, store) as server:
        days = server.days()
        if days != sorted(wanted):
            raise NotChecked("the program has other days than the files")
        found = NOTHING
        for day in days:
            found = server.snapshot(day)
            page.compare(day, found, wanted[day])
    page.compare(SNAPSHOT, found, snapshot_files(package / SNAPSHOT))
    if with_digest:
        compare_digests(page, program, store, package)
    page.say("compared", "%d, of which %d differ" % (page.outcomes.total(), page.outcomes[False]))
    return 1 if page.outcomes[False] else 0


def compare_digests(page: Page, program: str, store: Path, package: Path) -> None:
    told, seconds = run([program, "digest", "--store", store])
    page.say("digest by the program", "%s, %.1f seconds" % (told.removeprefix("OK "), seconds))
    told_by_files, seconds = run([sys.executable, DIGEST, "--all", package / FULL])
    page.say("digest by digest.py", "%s, %.1f seconds" % (told_by_files, seconds))
    page.outcomes[told == "OK " + told_by_files] += 1


def main() -> int:
    words = argparse.ArgumentParser(description="Compares a package with a store of its rows.")
    words.add_argument("store", type=Path, metavar="STORE")
    words.add_argument("package", type=Path, metavar="PACKAGE")
    words.add_argument("--program", default="sctd", metavar="SCTD")
    words.add_argument("--without-digest", action="store_true")
    asked = words.parse_args()
    try:
        for part in (FULL, SNAPSHOT):
            if not (asked.package / part).is_dir():
                raise NotChecked("%s has no folder %s" % (asked.package, part))
        return check(asked.program, asked.store, asked.package, not asked.without_digest)
    except (NotChecked, OSError) as why:
        print("check_edition: %s" % why, file=sys.stderr)
        return 1


if __name__ == "__main__":
    sys.exit(main())
