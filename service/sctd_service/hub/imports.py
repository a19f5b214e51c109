"""The list of imports: when each was made, of which release, and who asked for it.

It is a text beside the store, STORE.imports. The hub appends a line to it, and syncs it, once an
import is confirmed and before that is answered. The first line is `sctd imports 1`. Each other one
ends with LF, and has columns with tabs between them: the import's number, the time (UTC), the name
of the release, how many rows were new and repeated, the digest of the release's files, and who
asked. Or it is `back`, a number and a time: the store had only so many imports then, so the lines
before it for later ones are of imports that were taken back. A line counts only with its end. Of
an import that has several the last one counts, and it ends what stands before it for later ones.

The digest of a release's files is the SHA-256 of a text that has, for each file in `Terminology`
and `Refset`, or in a folder directly in these, by the bytes of their paths: the SHA-256 of the file
in hexadecimal digits, two spaces, the path in the release's folder, and a NUL. `-` stands for one
that couldn't be computed. No fault of the list stops an import or an answer: it is told.
"""

import argparse
import asyncio
import contextlib
import hashlib
import os
import re
import stat
import subprocess
import sys
import threading
from collections.abc import Callable, Iterator, Sequence
from typing import NamedTuple

from ..logs import log, now
from ..snomed import is_day, with_hyphens
from .lines import shown, without_cr
from .program import HUB_SESSION, Program, ProgramEndedError

ENDING = ".imports"
FIRST_LINE = b"sctd imports 1\n"
NOTHING = "-"
TIME = rb"([0-9]{4}-[0-9]{2}-[0-9]{2}T[0-9]{2}:[0-9]{2}:[0-9]{2}Z)"
LINE = re.compile(
    rb"([1-9][0-9]{0,9})\t" + TIME + rb"\t([\w./-]{1,1024})\t([0-9]{1,10})\t([0-9]{1,10})"
    rb"\t([0-9a-f]{64}|-)\t([!-~][ -~]{0,255})")
BACK = re.compile(rb"back\t([0-9]{1,10})\t" + TIME)
# A longer list than this isn't read, and not written to.
MOST_BYTES = 64 << 20
# What the program takes for the name of a release; other names aren't looked at.
PART = rb"(?!\.{1,2}(?:/|\Z))[\w.-]+"
NAME = re.compile(PART + rb"(?:/" + PART + rb")*", re.ASCII)
# Where a release has its files, how deep below, and how much of one is read at a time.
PARTS, DEPTH, READ_SIZE = (b"Refset", b"Terminology"), 1, 1 << 20
# What KNOWN asks, and why there is no answer.
KNOWN = re.compile(rb"KNOWN ([0-9]{8})")
ARGUMENTS = b"ERR 43 Arguments\n"


class Entry(NamedTuple):
    number: int
    time: str
    name: str
    new: int
    repeated: int
    digest: str
    who: str

    def text(self) -> bytes:
        return "\t".join(map(str, self)).encode()


class NotKnown(Exception):
    """Why it isn't known which imports there were on a day: the word of the reply, and a text."""


class Found(NamedTuple):
    """What a list has: the entries that count, the numbers of lines that can't be read, and whether
    there is something behind the last end of a line."""

    entries: dict[int, Entry]
    unread: Sequence[int] = ()
    is_cut: bool = False

    def faults(self) -> Iterator[str]:
        if self.unread:
            yield "%d of its lines can't be read, the first of which is line %d" % (
                len(self.unread), self.unread[0])
        if self.is_cut:
            yield "its last line has no end, and doesn't count"


def found_in(text: bytes) -> Found:
    whole, entries, unread = whole_of(text), dict[int, Entry](), list[int]()
    for place, line in enumerate(text[:whole].split(b"\n")[1:-1], 2):
        if found := LINE.fullmatch(line):
            number, time, name, new, repeated, digest, who = map(bytes.decode, found.groups())
            entry = Entry(int(number), time, name, int(new), int(repeated), digest, who)
            take_back(entries, entry.number - 1)
            entries[entry.number] = entry
        elif found := BACK.fullmatch(line):
            take_back(entries, int(found[1]))
        else:
            unread.append(place)
    return Found(entries, unread, whole < len(text))


def whole_of(text: bytes) -> int:
    """How many bytes of a list are whole lines."""
    whole = text.rfind(b"\n") + 1
    if not text.startswith(FIRST_LINE) and (whole or not FIRST_LINE.startswith(text)):
        raise OSError("it is no list of imports that this hub knows")
    return whole


def take_back(entries: dict[int, Entry], imports: int) -> None:
    """Leaves those of so many imports, of entries in the order of their numbers."""
    while entries and (last := next(reversed(entries))) > imports:
        del entries[last]


def read(path: str) -> tuple[int, Found]:
    """How many bytes a list has, and what is in it; nothing where there is none."""
    try:
        number = os.open(path, os.O_RDONLY | os.O_NONBLOCK)
    except FileNotFoundError:
        return 0, Found({})
    try:
        text = text_of(number)
    finally:
        os.close(number)
    return len(text), found_in(text)


def text_of(number: int) -> bytes:
    """The text of an open file, which is neither read nor written to if it can't be a list."""
    state = os.fstat(number)
    if not stat.S_ISREG(state.st_mode) or state.st_size > MOST_BYTES:
        raise OSError("it is no file of %d bytes at most" % MOST_BYTES)
    return os.pread(number, MOST_BYTES, 0)


def written(path: str, whole_list: Callable[[], bytes], lines: bytes) -> tuple[int, int]:
    """Appends lines to the list, or makes it where there is none, and syncs it. It answers how many
    bytes it had and has. If that fails, nothing is left of the lines."""
    is_new = not os.path.lexists(path)
    number = os.open(path, os.O_RDWR | os.O_CREAT | os.O_NONBLOCK, 0o600)
    try:
        before = text_of(number)
        whole = whole_of(before)
        text = lines if whole else whole_list()
        try:
            os.ftruncate(number, whole)
            with open(os.dup(number), "ab") as file:
                file.write(text)
            os.fsync(number)
        except OSError:
            os.ftruncate(number, whole)
            raise
    finally:
        os.close(number)
    if is_new:
        sync_folder(os.path.dirname(path))
    return len(before), whole + len(text)


def sync_folder(path: str) -> None:
    """Makes sure that the names in a folder are on the disk."""
    number = os.open(path or ".", os.O_RDONLY | os.O_DIRECTORY)
    try:
        os.fsync(number)
    finally:
        os.close(number)


class Hashing:
    """The digest of a release's files, which is computed in a thread of its own until it is
    stopped. `why` says why there is none."""

    def __init__(self, releases: str, name: bytes) -> None:
        self.folder, self.is_stopped = os.path.join(os.fsencode(releases), name), threading.Event()
        self.is_named, self.why = NAME.fullmatch(name) is not None, "the hub ends"

    def digest(self) -> str:
        """The digest; `-` where it can't be computed."""
        try:
            return (self.is_named and self.computed()) or NOTHING
        except OSError as failed:
            self.why = reason_of(failed)
            return NOTHING

    def computed(self) -> str:
        """The digest, or nothing where that was stopped."""
        text = hashlib.sha256()
        for path in sorted(path for part in PARTS for path in files_in(self.folder, part, DEPTH)):
            text.update(b"%s  %s\0" % (self.of_file(path).encode(), path))
        return "" if self.is_stopped.is_set() else text.hexdigest()

    def of_file(self, path: bytes) -> str:
        digest = hashlib.sha256()
        number = os.open(os.path.join(self.folder, path), os.O_RDONLY | os.O_NONBLOCK)
        with open(number, "rb", buffering=0) as file:
            while not self.is_stopped.is_set() and (part := file.read(READ_SIZE)):
                digest.update(part)
        return digest.hexdigest()


def files_in(top: bytes, below: bytes, depth: int) -> Iterator[bytes]:
    """The paths of the files in a folder of a release, and in its folders, so deep."""
    with contextlib.suppress(FileNotFoundError, NotADirectoryError):
        for entry in os.scandir(os.path.join(top, below)):
            path = below + b"/" + entry.name
            if entry.is_file():
                yield path
            elif depth and entry.is_dir():
                yield from files_in(top, path, depth - 1)


def reason_of(failed: OSError) -> str:
    return failed.strerror or str(failed)


class ImportList:
    """The list of a store's imports: the entries that count, and how many bytes the file has as far
    as this hub knows. `unwritten` are lines that couldn't be written so far."""

    def __init__(self, store: str) -> None:
        self.path, self.size = store + ENDING, 0
        self.entries = dict[int, Entry]()
        self.unwritten = b""
        # What IMPORTS was answered last, with so many imports.
        self.reply = -1, b""

    def tell(self, text: str) -> None:
        log("%s: %s" % (self.path, text))

    async def begin(self, program: Program, imports: int, may_write: bool) -> None:
        """Reads the list of a store with so many imports, and tells in what they differ."""
        try:
            self.size, found = await asyncio.to_thread(read, self.path)
        except OSError as why:
            self.tell("it isn't read: %s" % reason_of(why))
            found = Found({})
        self.entries = found.entries
        for fault in found.faults():
            self.tell(fault)
        if later := [number for number in self.entries if number > imports]:
            self.tell("it has lines for imports %d to %d, which the store doesn't have: they don't "
                      "count" % (min(later), max(later)))
            take_back(self.entries, imports)
            if may_write:
                await self.write(b"back\t%d\t%s\n" % (imports, now().encode()))
        await self.compare(program)
        if missing := self.missing(imports):
            self.tell("it has no line for %d of %d imports, the first of which is %d"
                      % (len(missing), imports, missing[0]))

    async def compare(self, program: Program) -> None:
        """Drops the lines that say something else than the store's receipts."""
        numbers = list(self.entries)
        with contextlib.suppress(ProgramEndedError):
            receipts = await asyncio.gather(*(
                program.ask(HUB_SESSION, b"RECEIPT %d" % number) for number in numbers))
            wrong = [number for number, receipt in zip(numbers, receipts)
                     if receipt.split(b" ")[2:3] != [b"%d" % self.entries[number].new]]
            for number in wrong:
                del self.entries[number]
            if wrong:
                self.tell("%d of its lines have another number of new rows than the store, the "
                          "first of them for import %d: they don't count" % (len(wrong), wrong[0]))

    def missing(self, imports: int) -> list[int]:
        return [number for number in range(1, imports + 1) if number not in self.entries]

    async def add(self, reply: bytes, name: bytes, digest: str, who: str) -> None:
        number, new, repeated = map(int, reply.split(b" ")[1:])
        entry = Entry(number, now(), name.decode(), new, repeated, digest, who)
        self.entries[number] = entry
        await self.write(entry.text() + b"\n")

    async def write(self, lines: bytes = b"") -> None:
        """Writes lines, and before them those that couldn't be written so far."""
        lines = self.unwritten + lines
        try:
            before, after = await asyncio.to_thread(written, self.path, self.text, lines)
        except OSError as why:
            self.unwritten = lines
            self.tell("%d lines aren't written: %s" % (lines.count(b"\n"), reason_of(why)))
            return
        if before != self.size:
            self.tell("another program has changed it: what it has now counts from the next start")
        self.size, self.unwritten = after, b""

    def text(self) -> bytes:
        """The list as a file, without what doesn't count."""
        return FIRST_LINE + b"".join(entry.text() + b"\n" for entry in self.entries.values())

    def told(self, imports: int) -> bytes:
        """What IMPORTS is answered. It is made once for each import."""
        if self.reply[0] != imports:
            self.reply = imports, rows_of(self.entries, imports)
        return self.reply[1]

    def known_told(self, line: bytes, imports: int) -> bytes:
        asked = KNOWN.fullmatch(without_cr(line))
        if not asked or not is_day(day := asked[1].decode()):
            return ARGUMENTS
        try:
            last = self.known(with_hyphens(day), imports)
        except NotKnown as why:
            return b"ERR hub %s\n" % str(why).encode()
        return b"OK %d %s\n" % (last.number, last.time.encode())

    def known(self, day: str, imports: int) -> Entry:
        if day > now()[: len(day)]:
            raise NotKnown("NoImport the day %s hasn't begun: days are those of UTC" % day)
        last = max((number for number, one in self.entries.items()
                    if number <= imports and one.time[: len(day)] <= day), default=0)
        if last < imports and last + 1 not in self.entries:
            raise NotKnown("NotListed the list of imports has no line for import %d, so it isn't "
                           "known whether it was made by the end of %s" % (last + 1, day))
        if not last:
            first = "which was made at %s" % self.entries[1].time if imports else "as there is none"
            raise NotKnown("NoImport the day %s is before the first import, %s" % (day, first))
        if later := [number for number, one in self.entries.items()
                     if number < last and one.time[: len(day)] > day]:
            raise NotKnown("NotListed the list of imports says of import %d that it was made "
                           "after %s, and of a later one that it wasn't" % (later[0], day))
        return self.entries[last]


def rows_of(entries: dict[int, Entry], imports: int) -> bytes:
    """The lines of so many imports as a reply."""
    nothing = b"\t-" * (len(Entry._fields) - 1)
    rows = (entries[number].text() if number in entries else b"%d%s" % (number, nothing)
            for number in range(1, imports + 1))
    return b"".join((*(b"ROW %s\n" % row for row in rows), b"END %d\n" % imports))


def main(words: Sequence[str]) -> int:
    """Prints what a hub would answer IMPORTS, and behind it the lines of imports that the store
    doesn't have. No hub may have the store meanwhile."""
    parser = argparse.ArgumentParser(
        prog="sctd-hub imports", description="Prints the list of imports of a store without a hub.")
    parser.add_argument("--store", required=True, metavar="FILE", help="the file of the store")
    parser.add_argument("--program", default="sctd", metavar="SCTD", help="the program sctd")
    parser.add_argument("--to-repeat", action="store_true",
                        help="only the names of the releases whose imports the store doesn't have")
    asked = parser.parse_args(words)
    try:
        status = subprocess.run([asked.program, "status", "--store", asked.store], check=False,
                                stdin=subprocess.DEVNULL, capture_output=True)
        if status.returncode:
            sys.stderr.buffer.write(status.stdout + status.stderr)
            return 1
        found = read(asked.store + ENDING)[1]
    except OSError as why:
        print("hub: %s: %s" % (asked.store, reason_of(why)), file=sys.stderr)
        return 1
    imports = int(status.stdout.split()[1])
    later = [one for number, one in found.entries.items() if number > imports]
    told = ["it has lines of %d imports that the store doesn't have" % len(later)] * bool(later)
    for text in (*found.faults(), *told):
        print("hub: %s: %s" % (asked.store + ENDING, text), file=sys.stderr)
    if asked.to_repeat:
        print("".join(one.name + "\n" for one in later), end="")
    else:
        sys.stdout.buffer.write(rows_of(found.entries, max(imports, *found.entries, 0)))
    return 0
