"""Lets many programs ask one `sctd serve` over Unix sockets.

sctd-hub --program SCTD --store FILE --releases DIR [--socket PATH]
         [--questions PATH [--group NAME]] [--merge-above N] [--connections-a-user N]
         [--without-words] [--import-unchecked] [--read-only | --make-store] [--config FILE]
sctd-hub imports --store FILE [--program SCTD] [--to-repeat]

The hub starts `sctd serve` and listens on the sockets, of which there has to be one. Each
connection is a session of its own: a client sends lines without the session's number, such as
`GET C 138875005 20250101`, and reads the replies as `docs/ASK.md` describes them. When a client
leaves, its pin is undone; a last line without an end isn't carried out.

The socket of `--socket` takes every line. On that of `--questions` the store can only be asked:
whatever isn't a question is answered `ERR hub NotAQuestion` there. Each is its owner's alone, or
with `--group` the second one is that group's, too.

The program answers one line after the other, and is sent the next ones meanwhile, at most 32 of a
client. An import goes alone and keeps the others waiting; a DIGEST doesn't, of which the hub
hashes pages of rows. `WATCH` is answered `OK` and the number of imports, and the client is told so
again with each import, before that is answered. `METRICS` is answered with what a monitor counts,
each line of Prometheus' text as a row. On the socket of `--socket`, `BACKUP PATH` copies the store
while questions are answered, and `CHECK NAME` and `VERIFY NAME` are carried out on a copy,
FILE.checked: what the import of a release would be answered, and in what the store differs from the
Snapshot of a package. Before an import the release is checked in the same way, for what is told of
it, whatever the check is answered; with `--import-unchecked` it isn't. When more than N segments
stand (100 if not said), the hub merges in short steps between the clients' lines; where the store
is full, an import waits for a merge.

Once the store is open, the hub prints `OK ready` (and tells systemd, where that started it). An
opening that is refused ends the hub with the `ERR` line and the program's status. The hub ends with
status 1 when the program ends, after the program answered `ERR 2 DiskFault`, and when another file
takes the place of FILE: what started the hub should then start it again. SIGTERM and SIGINT end it
with status 0, after the lines that are on their way. Standard error has a line for each import,
check, comparison, published merge and backup, for each line that took over a second, and for the
first question of a connection about a day that is yet to come. Once somebody is answered
`ERR 8 Damaged`, it says so, STATUS ends with `Damaged`, and the hub's status at its end isn't 0.

On the socket of `--questions` a user has at most so many connections as `--connections-a-user`
says (250 if it isn't said), and one that says nothing for ten minutes is closed. The socket that an
earlier hub left behind is replaced. Anything else at its path, such as a file or the socket of a
program that runs, stays, and the hub ends with status 1.

Beside the store, in FILE.imports, the hub keeps a list of the imports, with the time, the name and
the digest of each release, and who asked for it. `IMPORTS` prints it, and `KNOWN DAY` names the
last import that was made by the end of a day, such as 20201015 (UTC). What is wrong with the list
is logged, and stops nothing; while a line of it can't be written, STATUS ends with `Unlisted`.
Without a hub, `sctd-hub imports --store FILE` prints the list, and with `--to-repeat` only the
names of the releases whose imports the store doesn't have.

With `--read-only` the program only reads FILE, which others may do too, as a second hub on the
copy that a reader has. What would change the store is no command then, also on the socket of
`--socket`, which still takes BACKUP, and CHECK and VERIFY, on a copy whose name goes on behind
FILE.checked.

With `--without-words` the program keeps no words of terms: it opens in less time and memory, and
answers WORDS, and with it each search of a gateway, `ERR 16 NotKept`.

With `--make-store` a first start makes the store: where there is no FILE, and nothing but folders
is beside it. Options may also stand in the table `[hub]` of the file of `--config`. Standard
library alone.
"""

import argparse
import asyncio
import contextlib
import functools
import grp
import os
import resource
import signal
import socket
import sys
import zlib
from typing import Any

from .. import settings, sockets
from ..logs import log, tell
from . import imports, opening
from .checking import COPY_ENDING
from .clients import Client, Hub
from .program import Program, ProgramEndedError
from .store import MOST_SEGMENTS, Store

# Connections that the system keeps until they are taken.
BACKLOG = 1024
# How many connections a user may have on the socket for questions, if it isn't said.
MOST_A_USER = 250


def tell_systemd() -> None:
    name = os.environ.get("NOTIFY_SOCKET")
    if name:
        with socket.socket(socket.AF_UNIX, socket.SOCK_DGRAM) as telling:
            telling.connect("\0" + name[1:] if name.startswith("@") else name)
            telling.send(b"READY=1")


def is_clear(path: str) -> bool:
    """Whether the socket can be made. One that an earlier hub left is removed, nothing else is."""
    try:
        sockets.clear(path)
    except OSError as why:
        print("hub: %s: %s" % (path, why), file=sys.stderr)
        return False
    return True


class Listener:
    """A socket of the hub's, with its rights: its owner's alone, or also a group's."""

    def __init__(self, path: str, may_change: bool, group: int | None = None) -> None:
        self.path, self.may_change = path, may_change
        self.socket = socket.socket(socket.AF_UNIX)
        before = os.umask(0o177)
        try:
            self.socket.bind(path)
        finally:
            os.umask(before)
        if group is not None:
            os.chown(path, -1, group)
            os.chmod(path, 0o660)
        self.identity = sockets.identity_of(path)


async def serve_clients(hub: Hub, listeners: list[Listener]) -> int:
    for number in (signal.SIGTERM, signal.SIGINT):
        asyncio.get_running_loop().add_signal_handler(number, hub.end, 0)
    servers = [
        await hub.loop.create_unix_server(
            functools.partial(Client, hub, one.may_change), sock=one.socket, backlog=BACKLOG)
        for one in listeners]
    work = (hub.follow(), hub.store.merge_in_time(), hub.look())
    duties = [asyncio.create_task(hub.done(duty)) for duty in work]
    print("OK ready", flush=True)
    tell_systemd()
    first: list["asyncio.Future[Any]"] = [hub.ended, *duties]
    await asyncio.wait(first, return_when=asyncio.FIRST_COMPLETED)
    # Where a duty ended otherwise than by the hub's end, that is a fault of the hub.
    hub.end(1)
    if hub.program.exited.done():
        tell("hub: the program has ended")
    for server, listener in zip(servers, listeners):
        server.close()
        sockets.remove(listener.path, listener.identity)
    await hub.stop()
    for duty in duties:
        duty.cancel()
    await asyncio.gather(*duties, return_exceptions=True)
    if hub.program.damaged_at:
        log("the store is damaged, as was told at %s" % hub.program.damaged_at)
        return max(hub.ended.result(), 1)
    return hub.ended.result()


async def serve(options: argparse.Namespace) -> int:
    paths = [path for path in (options.socket, options.questions) if path]
    if not all(is_clear(path) for path in paths):
        return 1
    if options.make_store:
        opening.make(options.program, options.store)
    opening.drop_pages(options.store, options.read_only)
    words = [options.program, "serve", "--store", options.store, "--releases", options.releases]
    words += ["--read-only"] * options.read_only
    words += ["--without", "words"] * options.without_words
    program = await Program.start(words)
    try:
        status = await program.opened()
    except ProgramEndedError as ended:
        sys.stdout.buffer.write(ended.line)
        return ended.status
    try:
        # Another hub may have begun to listen while the store was opened.
        if not all(is_clear(path) for path in paths):
            return 1
        store = Store(program, status, options.store, options.program, options.releases,
                      options.merge_above, not options.import_unchecked, copy_of(options))
        await store.list.begin(program, store.imports, not options.read_only)
        hub = Hub(program, store, options.connections_a_user)
        listeners = [Listener(options.socket, True)] if options.socket else []
        if options.questions:
            listeners.append(Listener(options.questions, False, options.group))
        return await serve_clients(hub, listeners)
    finally:
        await program.stop()


def copy_of(options: argparse.Namespace) -> str:
    """Where a copy is made that a line is carried out on: beside the store. Several hubs may only
    read one, of which each has a socket of its own."""
    path = str(options.store) + COPY_ENDING
    if not options.read_only:
        return path
    socket_path = os.path.abspath(options.socket or options.questions)
    return "%s-%08x" % (path, zlib.crc32(os.fsencode(socket_path)))


def group_of(name: str) -> int:
    try:
        return grp.getgrnam(name).gr_gid
    except KeyError:
        raise argparse.ArgumentTypeError("there is no group %s" % name) from None


def segments_of(text: str) -> int:
    number = int(text)
    if not 1 <= number <= MOST_SEGMENTS:
        raise argparse.ArgumentTypeError("it isn't 1 to %d" % MOST_SEGMENTS)
    return number


def connections_of(text: str) -> int:
    number = int(text)
    if number < 1:
        raise argparse.ArgumentTypeError("it isn't 1 or more")
    return number


def options_of(words: list[str]) -> argparse.Namespace:
    parser = argparse.ArgumentParser(prog="sctd-hub", description="Many clients for one store.")
    parser.add_argument("--program", required=True, metavar="SCTD", help="the program sctd")
    parser.add_argument("--store", required=True, metavar="FILE", help="the file of the store")
    parser.add_argument("--releases", required=True, metavar="DIR",
                        help="the folder that holds a folder for each unpacked release")
    parser.add_argument("--socket", metavar="PATH", help="takes every line; its owner's alone")
    parser.add_argument("--questions", metavar="PATH", help="only answers questions")
    parser.add_argument("--group", type=group_of, metavar="NAME",
                        help="who may ask on the socket of --questions")
    parser.add_argument("--merge-above", type=segments_of, default=100, metavar="N",
                        help="how many segments may stand until the hub merges")
    parser.add_argument("--connections-a-user", type=connections_of, default=MOST_A_USER,
                        metavar="N", help="how many a user may have on the socket of --questions")
    parser.add_argument("--without-words", action="store_true",
                        help="keeps no words of terms, so that WORDS is refused")
    parser.add_argument("--import-unchecked", action="store_true",
                        help="doesn't check releases on a copy of the store before their imports")
    parser.add_argument("--read-only", action="store_true",
                        help="only reads the store, so that others may read it too")
    parser.add_argument("--make-store", action="store_true",
                        help="makes the store if its folder has nothing but folders")
    options = settings.parsed(parser, "hub", words)
    if not options.socket and not options.questions:
        parser.error("--socket or --questions has to be given")
    if options.read_only and options.make_store:
        parser.error("--read-only and --make-store don't go together")
    if options.read_only:
        options.merge_above, options.import_unchecked = MOST_SEGMENTS, True
    if options.socket == options.questions:
        parser.error("--socket and --questions are the same path")
    if options.group is not None and not options.questions:
        parser.error("--group belongs to --questions")
    return options


def main() -> int:
    if sys.argv[1:2] == ["imports"]:
        return imports.main(sys.argv[2:])
    options = options_of(sys.argv[1:])
    # Each client takes a file's number. Where no more can be had, fewer are served at a time.
    with contextlib.suppress(OSError, ValueError):
        most_files = resource.getrlimit(resource.RLIMIT_NOFILE)[1]
        resource.setrlimit(resource.RLIMIT_NOFILE, (most_files, most_files))
    try:
        return asyncio.run(serve(options))
    except (opening.NoStore, OSError) as why:
        print("hub: %s" % why, file=sys.stderr)
        return 1


if __name__ == "__main__":
    sys.exit(main())
