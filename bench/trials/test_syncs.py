"""Looks at the system calls of the built program: is each write to its file synced before the next?

No proof speaks of a real file: that `OK` comes after what was imported is on the disk is seen here.
Each call that writes, cuts or syncs is taken down, by strace, where it runs, and by a library of a
few lines for LD_PRELOAD, where there is a C compiler. Of an import the rows are written behind the
slots (if there are new ones), the gate of the slot that isn't current is closed, or nothing
written, its content is written whole, and its gate opened, each with a sync before the next, and
then its reply is written. Of `init`: the slots, the content of the first one, and its gate; and the
folder in which the file was made is synced, before `OK`. Of `sctd copy`: all rows before the
content of its first slot, that before its gate, and that before `OK`; its folder is synced before
its first byte is written, and of the store nothing is written.
"""

import os
import re
import shutil
import subprocess
from collections.abc import Iterable, Sequence
from pathlib import Path
from typing import NamedTuple

import pytest

from harness import BLOCK, Place, has_strace, write_release
from moments import compiled
import make_release as rf2

SECONDS = 60
DATA = 4 * BLOCK
OPEN = 0xA5
TRACED = "write,pwrite64,writev,pwritev,pwritev2,fsync,fdatasync,ftruncate,sync_file_range,msync"
CALL = re.compile(r"(?:\d+ +)?(\w+)\((\d+)(?:<([^>]*)>)?(.*)\) += (-?\d+)")
# Of each release the dates of the root concept's versions, and what its import is answered. The
# last one brings nothing new.
RELEASES = ((("20200131",), "OK 1 1 0"), (("20200731", "20210131"), "OK 2 2 0"),
            (("20210731",), "OK 3 1 0"), (("20200131",), "OK 4 0 1"))
MADE = ["sync", "content 0", "sync", "open 0", "sync", "reply"]


class Call(NamedTuple):
    """Which file it changes, what it does (write, sync, cut), where, how many bytes, the first."""

    path: str
    what: str
    place: int
    length: int
    first: int


def of_library(line: str) -> Call:
    """A call as the library notes it. What goes to standard output has no path here."""
    number, what, place, length, first, path = line.split(" ", 5)
    return Call("stdout" if number == "1" else path, what, int(place), int(length), int(first))


def of_strace(line: str) -> Call | None:
    """A call as strace prints it with -y -xx; none for other lines, and calls that failed."""
    found = CALL.match(line)
    if not found or int(found[5]) < 0:
        return None
    name, number, path, rest, done = found.groups()
    unhexed = bytes.fromhex((path or "").replace("\\x", "")).decode("utf-8", "replace")
    path = "stdout" if number == "1" else unhexed
    if name in ("fsync", "fdatasync"):
        return Call(path, "sync", -1, 0, -1)
    if name == "ftruncate":
        return Call(path, "cut", int(rest.split(", ")[1]), 0, -1)
    if name not in ("write", "pwrite64"):
        return Call(path, name, -1, int(done), -1)
    first = re.match(r', "\\x(..)', rest)
    place = int(rest.rsplit(", ", 1)[1]) if name == "pwrite64" else -1
    return Call(path, "write", place, int(done), int(first[1], 16) if first else -1)


class Tracer:
    """Runs the program, and takes its calls down in one of the two ways."""

    def __init__(self, place: Place, is_strace: bool) -> None:
        self.place, self.is_strace, self.log = place, is_strace, place.path("calls")
        self.library = Path() if is_strace else compiled("syncs", place.folder)
        place.path("stores").mkdir()
        self.store = place.path("stores/store")

    def run(self, *words: str | Path, given: str = "") -> tuple[str, list[Call]]:
        """What the program writes, and its calls."""
        self.log.unlink(missing_ok=True)
        before, around = list[str | Path](), os.environ | {"CALLS": str(self.log)}
        if self.is_strace:
            before = ["strace", "-f", "-y", "-xx", "-o", self.log, "-e", "trace=" + TRACED]
        else:
            around["LD_PRELOAD"] = str(self.library)
        done = subprocess.run([*before, self.place.program, *words], input=given.encode(),
                              stdout=subprocess.PIPE, env=around, check=True, timeout=SECONDS)
        lines = self.log.read_text("utf-8", "replace").splitlines()
        parse = of_strace if self.is_strace else of_library
        return done.stdout.decode(), [call for call in map(parse, lines) if call]


@pytest.fixture(params=("strace", "library"))
def tracer(place: Place, request: pytest.FixtureRequest) -> Tracer:
    """A tracer of either way. (strace may be there and not be allowed.)"""
    is_strace = request.param == "strace"
    if not (has_strace() if is_strace else shutil.which("cc")):
        pytest.skip("strace doesn't run here" if is_strace else "there is no C compiler")
    return Tracer(place, is_strace)


def step_of(call: Call) -> str:
    """What a write to the file is."""
    if call.length == 0:
        return "nothing"
    if call.place >= DATA:
        return "data"
    slot = call.place // (2 * BLOCK)
    if call.place % (2 * BLOCK) == BLOCK and call.length == BLOCK:
        return f"content {slot}"
    if call.place % (2 * BLOCK) == 0 and call.length == 1:
        return f"{'open' if call.first == OPEN else 'close'} {slot}"
    return f"bytes at {call.place}"


def steps(calls: Iterable[Call], store: Path) -> list[str]:
    """The calls on the store and the replies, as a list of words."""
    found: list[str] = []
    for call in calls:
        if call.path in ("stdout", str(store)):
            word = step_of(call) if call.what == "write" else call.what
            word = "reply" if call.path == "stdout" else word
            # A step may be written in several pieces.
            if not (word == "data" and found and found[-1] == word):
                found.append(word)
    return found


def synced_before(calls: Sequence[Call], path: str | Path) -> list[str]:
    """What is synced before the first write to a file, or to standard output."""
    first = next((number for number, call in enumerate(calls)
                  if call.path == str(path) and call.what == "write"), len(calls))
    return [call.path for call in calls[:first] if call.what == "sync"]


def published(slot: int, is_new: bool, was_closed: bool) -> list[list[str]]:
    """The steps of an import into a slot."""
    ahead = ["data", "sync"] if is_new else []
    behind = ["sync", f"content {slot}", "sync", f"open {slot}", "sync", "reply"]
    if was_closed:
        return [[*ahead, *behind], [*ahead, "nothing", *behind]]
    return [[*ahead, f"close {slot}", *behind]]


def test_making(tracer: Tracer) -> None:
    told, calls = tracer.run("init", "--store", tracer.store)
    assert told == "OK\n"
    own = [call for call in calls if call.path in (str(tracer.store), "stdout")]
    blocks = [call for call in own if call.what == "write" and call.place >= 0][:4]
    assert [(call.place, call.length) for call in blocks] == [(n * BLOCK, BLOCK) for n in range(4)]
    for call in blocks:
        own.remove(call)
    # The opened file may be synced before it is found to be empty.
    assert steps(own, tracer.store) in (MADE, ["sync", *MADE])
    assert str(tracer.store.parent) in synced_before(calls, "stdout"), (
        "the folder of the file isn't synced before the reply, so that a stop may lose its name")


def test_imports(tracer: Tracer) -> None:
    place, lines = tracer.place, ""
    place.done("init", "--store", tracer.store)
    for number, (dates, _) in enumerate(RELEASES, 1):
        rows = [f"138875005\t{date}\t1\t{rf2.CORE}\t{rf2.PRIMITIVE}" for date in dates]
        write_release(place.releases / f"r{number}", {"C": rows}, dates[0])
        lines += f"0 IMPORT r{number}\n"
    told, calls = tracer.run("serve", "--store", tracer.store, "--releases", place.releases,
                             given=lines)
    assert told.splitlines() == [reply for _, reply in RELEASES]
    found = " ".join(steps(calls, tracer.store)).replace(" reply", " reply;").split("; ")
    # An opening syncs, once as the file is opened and once as it is read.
    assert found[0].startswith("sync ")
    found[0] = re.sub("^(sync )+", "", found[0])
    parts = [part.rstrip(";") for part in found]
    # Slot 0 is current at first; then the slots take turns. The second one was never open.
    for number, part in enumerate(parts):
        allowed = published((number + 1) % 2, number < 3, number == 0)
        assert part in map(" ".join, allowed), f"import {number + 1}"
    assert len(parts) == len(RELEASES)


def test_copying(tracer: Tracer) -> None:
    store = tracer.place.small_store()
    copy = tracer.place.path("stores/copy")
    told, calls = tracer.run("copy", "--store", store, "--to", copy)
    assert told == "OK\n"
    assert [call for call in calls if call.path == str(store) and call.what != "sync"] == []
    found, wanted = steps(calls, copy), ["data", *MADE]
    assert found[-len(wanted) :] == wanted
    assert not set(found[: -len(wanted)]) & set(wanted[2::2])
    assert str(copy.parent) in synced_before(calls, copy)
