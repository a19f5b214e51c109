"""What is done with the store one after the other: lines that may change it, merges of the hub's
own, copies."""

import asyncio
import contextlib
import os
import shutil
import threading
import time
from collections import Counter
from collections.abc import Callable, Iterable, Sequence

from ..logs import log, pass_on, tell
from ..protocol import DAMAGED, REFUSED, REPLY, last_line
from .checking import (
    LISTED, LONGEST_CHECK, TASKS, UNCOMPARED, carried_out, is_name, known_by, with_notes)
from .imports import ENDING, FIRST_LINE, NOTHING, Hashing, ImportList, sync_folder
from .lines import BACKUP, first_word, shown, without_cr
from .program import HUB_SESSION, Program, ProgramEndedError

# A merge of the hub's own goes in steps of so many rows.
STEP = b"STEP 1000"
# The most segments that a store may have.
MOST_SEGMENTS = 250
IMPORT, CHECK = b"IMPORT", b"CHECK"
# The lines whose replies are logged, and those of which only refusals are.
LOGGED = (IMPORT, *TASKS, b"PUBLISH")
LOGGED_REFUSED = (b"MERGE", b"STEP", b"ABANDON", b"TRIM")
# How many bytes of a copy are written at a time.
COPY_SIZE = 1 << 20
# So many times the store's bytes have to be free before an import for its check: for the copy, and
# for a merge beside it.
ROOM = 2


class Refused(Exception):
    """Why something that the hub does by itself wasn't done."""


class Store:
    """What is done with the store one after the other: changes, merges of the hub's own, copies.
    `state` is what STATUS was answered last, `imports` how many imports there are, and `on_import`
    is called before one is answered. A release is checked before its import if `checks_imports`,
    on a copy whose path is `copy`."""

    def __init__(self, program: Program, status: bytes, path: str, command: str,
                 releases: str, merge_above: int, checks_imports: bool, copy: str) -> None:
        self.program, self.path, self.command, self.releases = program, path, command, releases
        self.state = status.split()
        self.imports = int(self.state[1])
        self.on_import: Callable[[], None] = lambda: None
        self.merge_above, self.checks_imports, self.copy = merge_above, checks_imports, copy
        # Which file the path has named since the program opened it.
        self.file = os.stat(path)
        # Held by a line that may change the store, and while the store is copied.
        self.changes = asyncio.Lock()
        # Held by an import from before its check to its reply: each is checked on a copy that has
        # those before it.
        self.turns = asyncio.Lock()
        # Held while a release is checked on a copy of the store: there is one copy at a time.
        self.checks = asyncio.Lock()
        # Held from before an import, while there is room made for it, to its reply, and while a
        # copy is made; not while a release is checked, so that no backup waits for that.
        self.imports_lock = asyncio.Lock()
        # Held by a merge of the hub's own. Who waits for several of these has them in the order
        # turns, checks, imports, merges, changes.
        self.merges = asyncio.Lock()
        # There may be more segments than wanted. (It is not set at the start: a merge that finds
        # no space ends the hub, and the next one would do so again before it answered anything.)
        self.may_merge = asyncio.Event()
        # The client's session that has begun a merge.
        self.merging: int | None = None
        # Set where the hub ends: no copy is made any longer, and what goes on on one is ended.
        self.is_stopped = threading.Event()
        self.on_copy: "asyncio.Task[tuple[bytes, bytes]] | None" = None
        # What is known of the imports, and the release whose files are hashed.
        self.list = ImportList(path)
        self.hashing: Hashing | None = None

    async def change(self, session: int, line: bytes, user: str = "hub") -> bytes:
        word = first_word(line)
        asking = (self.imported if word == IMPORT else self.on_a_copy if word in TASKS
                  else self.asked)
        try:
            reply = await asking(session, line, user)
        except ProgramEndedError:
            if session != HUB_SESSION and word in LOGGED:
                log("%s: no reply" % shown(without_cr(line)))
            raise
        self.note_reply(session, line, last_line(reply))
        return reply

    async def imported(self, session: int, line: bytes, user: str) -> bytes:
        """The reply to an import, with what is told of the release. It is checked before, and room
        is made for it; the digest of its files is computed meanwhile."""
        async with self.turns:
            name = name_in(line)
            self.hashing = Hashing(self.releases, name)
            digest = asyncio.get_running_loop().run_in_executor(None, self.hashing.digest)
            try:
                expected, told = await self.foretold(session, line, user)
                async with self.imports_lock:
                    await self.make_room()
                    reply, more = await self.asked_and_told(session, line, user, told)
                    if not reply.startswith(REFUSED):
                        if (found := await digest) == NOTHING:
                            log("%s: no digest of its files: %s" % (shown(name), self.hashing.why))
                        await self.list.add(reply, name, found, user)
            finally:
                self.hashing.is_stopped.set()
                self.hashing = None
        if expected and expected != reply and not reply.startswith(REFUSED):
            more.append(uncompared(name, "its check was answered %s" % shown(last_line(expected))))
        return with_notes([*told, *more], reply)

    async def foretold(self, session: int, line: bytes, user: str) -> tuple[bytes, list[bytes]]:
        """What an import would be answered, and what is told of its release, by another program on
        a copy of the store. Whatever comes of that, the import is made as if nobody had asked."""
        name, why = name_in(line), "its check ended without a reply"
        if not self.checks_imports or not is_name(name):
            return b"", []
        try:
            async with self.checks:
                said, told = await self.by_another(
                    session, CHECK + line[len(IMPORT):], user, ROOM)
        except Refused as refused:
            said, told, why = b"", [], "no copy: %s" % refused
        return said, told if said else [*told, uncompared(name, why)]

    async def asked_and_told(self, session: int, line: bytes, user: str,
                             before: Iterable[bytes] = ()) -> tuple[bytes, list[bytes]]:
        """The reply to a line for a release, and what the program told of it that wasn't told
        before."""
        async with self.changes:
            notes = self.program.notes
            notes.taken()
            notes.known = Counter(map(known_by, before))
            reply = await self.program.ask(session, line, user, alone=True)
            return reply, notes.taken()

    async def on_a_copy(self, session: int, line: bytes, user: str) -> bytes:
        """The reply to a line for a release, with what is told of it: by another program on a copy
        of the store, so that no other line waits for it, or by this one where there can be no copy.
        """
        word = first_word(line)
        async with self.checks:
            if not is_name(task_of(line)[1]):
                # The program refuses it, as it does for an import.
                return await self.served(session, CHECK + line[len(word):], user)
            try:
                said, told = await self.by_another(session, line, user)
            except Refused as why:
                log("no copy to check on: %s" % why)
                if TASKS[word].is_served:
                    return await self.served(session, line, user)
                return b"ERR hub %s no copy: %s\n" % (word.title(), str(why).encode())
        return with_notes(told, said or b"ERR hub %s the program ended\n" % word.title())

    async def served(self, session: int, line: bytes, user: str) -> bytes:
        """The reply of the program that serves the store, with what it told."""
        async with self.imports_lock:
            await self.make_room()
            reply, notes = await self.asked_and_told(session, line, user)
        return with_notes(notes, reply)

    async def by_another(self, session: int, line: bytes, user: str,
                         room: int = 0) -> tuple[bytes, list[bytes]]:
        """The reply to a line for a release, which is nothing where there is none, and what is told
        of it, by another program on a copy of the store, if so many copies have room."""
        async with self.imports_lock:
            await self.make_room()
            copy = await self.new_copy(room)
        (words, name), began = task_of(line), time.monotonic()
        try:
            said, told = await self.until_stopped(
                self.command, *words, "--store", copy.path, "--releases", self.releases, "--", name)
        finally:
            copy.end()
        self.program.metrics.took(b"%d %s" % (session, line), time.monotonic() - began)
        lines = told.splitlines()
        pass_on(b"".join(line + b"\n" for line in lines))
        if not REPLY.fullmatch(said):
            said = b""
        if said.startswith(DAMAGED):
            self.program.note_damage(shown(without_cr(line)), user, said[:-1])
        return said, lines

    async def until_stopped(self, *words: str | bytes) -> tuple[bytes, bytes]:
        """What a process says; nothing if it takes too long. Where the hub ends it is ended."""
        self.on_copy = task = asyncio.create_task(carried_out(*words))
        try:
            await asyncio.wait([task], timeout=LONGEST_CHECK)
        finally:
            task.cancel()
            await asyncio.wait([task])
        if self.is_stopped.is_set():
            raise ProgramEndedError(1)
        return (b"", b"") if task.cancelled() else task.result()

    async def new_copy(self, room: int) -> "NewFile":
        """A copy of the store, for one line for a release, if so many have room on the disk."""
        with contextlib.suppress(OSError):
            os.unlink(self.copy)  # A hub that was killed may have left one.
        if free_beside(self.copy) < room * self.size():
            raise Refused("too little room on the disk")
        async with self.changes:
            return await asyncio.to_thread(filled, self.copy, self.fill, is_kept=False)

    def fill(self, made: "NewFile") -> None:
        """Copies the store's file into a new one, in a thread of its own."""
        with open(self.path, "rb") as source:
            if not os.path.samestat(os.fstat(source.fileno()), self.file):
                raise Refused("the store's file was replaced")
            while part := source.read(COPY_SIZE):
                self.go_on()
                made.file.write(part)
        self.go_on()

    def go_on(self) -> None:
        if self.is_stopped.is_set():
            raise Refused("the hub ends")

    async def asked(self, session: int, line: bytes, user: str) -> bytes:
        """The reply to a line while nothing else changes or copies the store."""
        async with self.changes:
            return await self.program.ask(session, line, user, alone=True)

    def note_reply(self, session: int, line: bytes, reply: bytes) -> None:
        word, is_refused = first_word(line), reply.startswith(REFUSED)
        self.program.metrics.changed(line, reply)
        if word in LOGGED or (word in LOGGED_REFUSED and is_refused):
            log("%s: %s" % (shown(without_cr(line)), shown(reply)))
        if word == IMPORT and not is_refused:
            self.imports = int(reply.split(b" ")[1])
            self.on_import()
        if session == HUB_SESSION or is_refused:
            return
        if word == b"MERGE":
            self.merging = session
        elif word in (b"PUBLISH", b"ABANDON"):
            self.merging = None
        self.may_merge.set()

    def note_left(self, session: int) -> None:
        """Notes that a client has left. A merge that it has begun is the hub's then."""
        if self.merging == session:
            self.merging = None
            self.may_merge.set()

    async def status(self) -> list[bytes]:
        reply = (await self.program.ask(HUB_SESSION, b"STATUS"))[:-1]
        if reply.startswith(REFUSED):
            raise Refused("STATUS was answered %s" % shown(reply))
        self.state = reply.split(b" ")
        return self.state

    def imports_told(self) -> bytes:
        """What WATCH is answered, and told again with each import."""
        return b"OK %d\n" % self.imports

    def size(self) -> int:
        """The bytes of the store's file, or of the one that has its name."""
        try:
            return os.stat(self.path).st_size
        except OSError:
            return 0

    def is_replaced(self) -> bool:
        """Whether another file has the store's name, or none."""
        try:
            return not os.path.samestat(os.stat(self.path), self.file)
        except OSError:
            return True

    async def merge_in_time(self) -> None:
        """Merges between the clients' lines, whenever more segments stand than are wanted."""
        while True:
            await self.may_merge.wait()
            self.may_merge.clear()
            try:
                while await self.merges_two(self.merge_above):
                    pass
            except Refused as refused:
                log("MERGE: %s" % refused)

    async def make_room(self) -> None:
        """Merges where a store is full, as imports can come faster than segments are merged."""
        if self.merge_above == MOST_SEGMENTS:
            return
        with contextlib.suppress(Refused):
            # (An import doesn't wait for a merge without need.)
            if int((await self.status())[3]) >= MOST_SEGMENTS:
                await self.merges_two(MOST_SEGMENTS - 1)

    async def merges_two(self, above: int) -> bool:
        """Whether more segments stood than so many, and two of them are merged. The merge of a
        client is left to that."""
        async with self.merges:
            _, _, _, segments, left = await self.status()
            if int(segments) <= above or self.merging is not None:
                return False
            last = await self.merge_line(b"MERGE") if left == b"-" else b"OK " + left
            while last.startswith(b"OK "):
                last = await self.merge_line(b"PUBLISH" if last == b"OK 0" else STEP)
            return last == b"OK"

    async def merge_line(self, line: bytes) -> bytes:
        reply = await self.change(HUB_SESSION, line)
        if self.program.is_over:
            raise ProgramEndedError(1)
        return reply[:-1]

    async def backup(self, line: bytes) -> bytes:
        name = name_in(line)
        try:
            reply = await self.copied(name)
        except Refused as failed:
            reply = b"ERR hub Backup " + str(failed).encode("utf-8", "backslashreplace")
        log("%s: %s" % (shown(BACKUP + b" " + name), shown(reply)))
        self.program.metrics.changed(BACKUP, reply)
        return reply + b"\n"

    async def copied(self, name: bytes) -> bytes:
        """Copies the store, and checks the copy: it opens, and shows what the store shows."""
        path = path_of(name)
        # (Between an import and its line in the list there is no copy.)
        async with self.imports_lock, self.changes:
            wanted = (await self.status())[:4]
            text = self.list.text()
            made = await asyncio.to_thread(filled, path, self.fill)
        with contextlib.closing(made):
            try:
                found, why = map(bytes.rstrip, await carried_out(
                    self.command, "status", "--store", made.path))
                if found.split(b" ")[:4] != wanted:
                    raise Refused("the copy is answered %s, %s" % (shown(found), shown(why)))
                if text != FIRST_LINE:
                    await asyncio.to_thread(copy_list, path + ENDING, text)
            except (Refused, asyncio.CancelledError):
                made.remove()
                raise
        return b" ".join(wanted)

    def stop(self) -> None:
        """Makes no copy any longer, and ends what is carried out on one."""
        self.is_stopped.set()
        if self.on_copy is not None:
            self.on_copy.cancel()

    async def stop_listing(self) -> None:
        """Waits no longer for a digest, and for room on the disk."""
        if self.hashing is not None:
            self.hashing.is_stopped.set()
        async with self.imports_lock:
            if self.list.unwritten:
                await self.list.write()


def uncompared(name: bytes, why: str) -> bytes:
    """Logs that a release isn't compared with the store before its import, and says it."""
    log("%s: %s: %s" % (shown(name), UNCOMPARED, why))
    return b"hub: %s: %s" % (UNCOMPARED.encode(), why.encode())


def name_in(line: bytes) -> bytes:
    """The name that stands behind a line's first word."""
    return without_cr(line).partition(b" ")[2]


def task_of(line: bytes) -> tuple[Sequence[str | bytes], bytes]:
    """The words of the program's task that carries out a line, and the name of its release."""
    task, name = TASKS[first_word(line)], name_in(line)
    if task.has_list and (listed := LISTED.fullmatch(name)):
        return (*task.words, "--list", listed[2]), listed[1]
    return task.words, name


def path_of(name: bytes) -> str:
    try:
        path = name.decode()
    except UnicodeDecodeError:
        raise Refused("the name isn't UTF-8") from None
    if not path.isprintable():
        raise Refused("the name isn't printable")
    if not os.path.isabs(path):
        raise Refused("the path doesn't begin with /")
    return path


def free_beside(path: str) -> int:
    """How many bytes are free on the disk of a file."""
    try:
        return shutil.disk_usage(os.path.dirname(path) or ".").free
    except OSError as why:
        raise Refused(why.strerror or str(why)) from None


class NewFile:
    """A file that is made under a path where there is none. Until it is closed, no other file can
    have its identity."""

    def __init__(self, path: str) -> None:
        self.path = path
        self.file = open(os.open(path, os.O_WRONLY | os.O_CREAT | os.O_EXCL, 0o600), "wb")
        self.made = os.fstat(self.file.fileno())

    def sync(self) -> None:
        """Makes sure that the file and its name are on the disk, and nowhere else."""
        os.fsync(self.file.fileno())
        # What is checked then is what the disk has.
        os.posix_fadvise(self.file.fileno(), 0, 0, os.POSIX_FADV_DONTNEED)
        sync_folder(os.path.dirname(self.path))

    def remove(self) -> None:
        """Removes it, if the path still leads to it, and otherwise tells that it isn't removed."""
        with contextlib.suppress(FileNotFoundError):
            if os.path.samestat(os.lstat(self.path), self.made):
                os.unlink(self.path)
                return
        tell("hub: %s: not removed: the file was replaced or removed" % self.path)

    def end(self) -> None:
        self.remove()
        self.close()

    def close(self) -> None:
        # What is left to write after a fault of the disk can't be written.
        with contextlib.suppress(OSError):
            self.file.close()


def filled(path: str, fill: Callable[[NewFile], object], is_kept: bool = True) -> NewFile:
    """Makes a new file, and syncs it and its folder if it is kept. If that fails it is removed."""
    try:
        made = NewFile(path)
        try:
            fill(made)
            made.file.flush()
            if is_kept:
                made.sync()
        except BaseException:
            made.end()
            raise
    except OSError as why:
        raise Refused(why.strerror or str(why)) from None
    return made


def copy_list(path: str, text: bytes) -> None:
    """Makes the list of the imports that a copy has, beside it."""
    try:
        filled(path, lambda made: made.file.write(text)).close()
    except Refused as why:
        raise Refused("the list of imports: %s" % why) from None
