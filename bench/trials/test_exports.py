"""Tries examples/export.py and examples/follow.py with the built program and the hub."""

import contextlib
import hashlib
import shutil
import signal
import socket
import sqlite3
import threading
from collections import Counter
from collections.abc import Iterator, Sequence
from pathlib import Path

import pytest

import harness
import make_release as rf2
from harness import HUB_SECONDS, RELEASES, Hub, Place, concept, write_release
from test_readers import CHAINS, Script

EXPORT, FOLLOW = "examples/export.py", "examples/follow.py"
SEED, PACKAGE_ROWS = 3, 3_000
# The releases of the stores that keep standing, in their order.
RELEASES_OF_MADE = ("full", "chains", "delta", "again")
# A member with columns that may be taken for more lines than one.
ODD = "\t".join(["00000000-0000-4000-8000-000000000001", "20200131", "1", str(rf2.CORE),
                 str(rf2.DESCRIPTORS), "1000015", "a\rROW b", "", "\u2028END 1\u0085OK"])
# Rows of an import that takes a follower some time, one by one; and more than a pipe takes.
MANY_ROWS = 4_000


@pytest.fixture(scope="module", params=(2, 3))
def made(tried: Place, request: pytest.FixtureRequest) -> Iterator[Hub]:
    """Hubs on stores of layout 2 and 3: many versions of components, repeated rows, odd texts."""
    layout: int = request.param
    place = tried.below(f"exports of layout {layout}")
    rf2.make(place.releases, PACKAGE_ROWS, SEED, is_package=True)
    write_release(place.releases / "chains", {**CHAINS, "RefsetDescriptor": [ODD]})
    shutil.copytree(place.releases / "delta", place.releases / "again")
    store = place.make_store(layout=layout)
    place.import_all(store, [place.releases / name for name in RELEASES_OF_MADE])
    with Hub(place, store, releases=place.releases, asks=True) as hub:
        yield hub


def printed(hub: Hub, *words: str) -> bytes:
    """What export.py prints, and that it says what it printed."""
    status, output, told = hub.place.run_script(EXPORT, hub.questions, *words)
    rows = output.encode()
    assert status == 0, told
    assert told.startswith("export: pin ") and told.endswith(
        f", {rows.count(10)} rows, SHA-256 {hashlib.sha256(rows).hexdigest()}\n")
    return rows


# ---- export.py


@pytest.mark.parametrize("pin", (1, 2, 3, 4))
def test_exports(made: Hub, pin: int) -> None:
    """The releases' rows, with the store's digest as their SHA-256, in pages of whatever size."""
    found = printed(made, "--pin", str(pin), "--check")
    digest, all_files = hashlib.sha256(found).hexdigest(), ["--all"] if b"\nM " in found else []
    assert made.asker().ask(f"AT {pin} DIGEST") == [f"OK {digest}"]
    releases = [made.place.releases / name for name in RELEASES_OF_MADE[:pin]]
    assert digest == made.place.digest_of(*all_files, *releases)
    for limit in ("7", "999"):
        assert printed(made, "--pin", str(pin), "--limit", limit) == found
    if pin == len(RELEASES_OF_MADE):
        assert printed(made, "--limit", "1") == found


def test_export_of_no_import(place: Place) -> None:
    with Hub(place, place.make_store(), asks=True) as hub:
        assert printed(hub, "--check") == b""


def test_imports_beside_an_export(place: Place) -> None:
    """What is imported meanwhile isn't printed."""
    store = place.make_store()
    many = {"C": [concept(number) for number in range(MANY_ROWS)]}
    place.import_one(store, write_release(place.releases / "many", many))
    write_release(place.releases / "late", {"C": [concept(MANY_ROWS)], "D": CHAINS["D"]})
    before = place.digest(store)
    with Hub(place, store, releases=place.releases, asks=True) as hub:
        running = Script(place, EXPORT, hub.questions, "--limit", "10", "--check")
        first = running.output.readline()
        assert hub.client().ask("IMPORT late")[-1].startswith("OK 2 ")
        found = first + running.output.read()
        assert running.ended()[0] == 0
        assert hashlib.sha256(found).hexdigest() == before
        assert printed(hub, "--pin", "1") == found
        assert printed(hub) != found


@pytest.mark.parametrize("words, why", (
    (["--pin", "9"], "PIN 9 was answered ERR 44 PinRange"),
    (["--limit", "0"], "ROWS C - - 0 was answered ERR 43 Arguments"),
    (["--limit", "1001"], "ROWS C - - 1001 was answered ERR 43 Arguments")))
def test_refused_exports(made: Hub, words: list[str], why: str) -> None:
    ran = made.place.run_script(EXPORT, made.questions, *words)
    assert ran == (1, "", f"export: {why}\n")


def test_exports_that_nobody_reads(made: Hub) -> None:
    unread = Script(made.place, EXPORT, made.questions)
    unread.output.close()
    assert unread.ended() == (1, "export: [Errno 32] Broken pipe\n")


def answer(listener: socket.socket, replies: Sequence[bytes]) -> None:
    """Is a hub for one client that answers one line after the other, and then hangs up."""
    connection, _ = listener.accept()
    with connection, connection.makefile("rb") as lines:
        for reply in replies:
            lines.readline()
            connection.sendall(reply)


@pytest.mark.parametrize("count, why", (
    (3, "the hub has ended"),
    (8, f"what was printed has another digest than the store: {'0' * 64}")))
def test_exports_that_arent_whole(place: Place, count: int, why: str) -> None:
    """A hub that ends too early, and one whose rows aren't those of the digest."""
    replies = [b"OK 1\n", *[b"END 0\n"] * 6, b"OK %s\n" % (b"0" * 64)]
    with socket.socket(socket.AF_UNIX) as listener:
        listener.bind(str(place.path("false")))
        listener.listen()
        hub = threading.Thread(target=answer, args=(listener, replies[:count]))
        hub.start()
        ran = place.run_script(EXPORT, place.path("false"), "--check")
        assert ran == (1, "", f"export: {why}\n")
        hub.join(HUB_SECONDS)


# ---- follow.py


def followed(hub: Hub, name: str, *words: str) -> list[str]:
    """The receipts that a run prints."""
    ran = hub.place.run_script(FOLLOW, hub.questions, hub.place.path(name), *words)
    assert (ran.status, ran.faults) == (0, "")
    return ran.output.splitlines()


def rows_of(path: Path) -> list[tuple[str, str, int]]:
    """The rows of a follower's file, with their kinds and imports."""
    with contextlib.closing(sqlite3.connect(path)) as file:
        return file.execute("select kind, row, import from rows").fetchall()


def is_whole(hub: Hub, path: Path) -> None:
    """Each row of the store is there once, and each import has as many as its receipt says."""
    found = rows_of(path)
    # (A term may have a CR, at which `splitlines` ends a line, too.)
    whole = printed(hub).split(b"\n")[:-1]
    assert sorted(f"{kind} {row}".encode() for kind, row, _ in found) == sorted(whole)
    with contextlib.closing(sqlite3.connect(path)) as file:
        told = file.execute("select number, receipt from imports order by number").fetchall()
    counts = Counter(number for _, _, number in found)
    imports = int(hub.guest.ask("STATUS")[0].split()[1])
    assert [number for number, _ in told] == [*range(1, imports + 1)]
    for number, receipt in told:
        assert [receipt] == hub.guest.ask(f"RECEIPT {number}")
        assert counts[number] == int(receipt.split()[2])


@pytest.mark.parametrize("limit", ("1", "7", "1000"))
def test_followers(made: Hub, limit: int) -> None:
    """All imports at once, whatever the size of pages; then there is nothing more."""
    name = f"followed by {limit}"
    assert len(followed(made, name, "--limit", str(limit))) == len(RELEASES_OF_MADE)
    is_whole(made, made.place.path(name))
    assert followed(made, name) == []


def test_followers_that_are_begun_again(place: Place) -> None:
    """After each import, in the middle of one, and while imports are made."""
    store, many = place.make_store(), [concept(number) for number in range(MANY_ROWS)]
    write_release(place.releases / "many", {"C": many})
    place.link_releases()
    path, journal = place.path("file"), place.path("file-journal")
    with Hub(place, store, releases=place.releases, asks=True) as hub:
        for name, new in (("r1", 6), ("r2", 4)):
            assert hub.owner.ask(f"IMPORT {name}")[0].split()[2] == str(new)
            assert len(followed(hub, "file")) == 1
            is_whole(hub, path)
        assert hub.owner.ask("IMPORT many")[0] == f"OK 3 {MANY_ROWS} 0"
        for _ in range(3):
            killed = Script(place, FOLLOW, hub.questions, path, "--limit", "1")
            harness.until("a follower writes", journal.exists)
            killed.process.kill()
            assert killed.ended()[0] == -signal.SIGKILL
            assert {number for _, _, number in rows_of(path)} == {1, 2}
        assert hub.owner.ask("IMPORT r3")[0].startswith("OK 4 2 ")
        assert len(followed(hub, "file")) == 2
        is_whole(hub, path)


def test_followers_that_stay(place: Place, store: Path) -> None:
    """One is told of imports, and another one that is stopped has what was taken by then."""
    place.link_releases("r3")
    with Hub(place, store, releases=place.releases, asks=True) as hub:
        staying = Script(place, FOLLOW, hub.questions, place.path("file"), "--stay")
        told = [staying.output.readline().split()[:3] for _ in range(2)]
        assert told == [[b"OK", b"1", b"6"], [b"OK", b"2", b"4"]]
        assert hub.client().ask("IMPORT r3")[0].startswith("OK 3 2 ")
        assert staying.output.readline().startswith(b"OK 3 2 ")
        staying.process.send_signal(signal.SIGINT)
        assert staying.ended() == (-signal.SIGINT, "")
        is_whole(hub, place.path("file"))
        assert hub.client().ask("IMPORT r3")[0].startswith("OK 4 0 ")
        left = Script(place, FOLLOW, hub.questions, place.path("file"), "--stay")
        assert left.output.readline().startswith(b"OK 4 0 ")
        assert hub.stop() == 0
        assert left.ended() == (1, "follow: the hub has ended\n")


@pytest.mark.parametrize("names", (["r2", "r1"], ["r1"], []))
def test_followers_of_another_store(place: Place, store: Path, names: list[str]) -> None:
    """Where the store has other imports by these numbers, or fewer, nothing is taken."""
    other = place.make_store("other")
    place.import_all(other, [RELEASES / name for name in names])
    with Hub(place, store, asks=True) as hub:
        assert len(followed(hub, "file")) == 2
    before = rows_of(place.path("file"))
    with Hub(place, other, asks=True) as hub:
        ran = place.run_script(FOLLOW, hub.questions, place.path("file"))
    assert ran[:2] == (1, "")
    assert ran.faults.startswith("follow: the file followed another store: its import 2 is OK 2 ")
    assert rows_of(place.path("file")) == before


@pytest.mark.parametrize("words, why", (
    ([], "{}: No such file or directory"),
    (["--limit", "0"], "ADDED 1 C - - 0 was answered ERR 43 Arguments"),
    (["--limit", "1001"], "ADDED 1 C - - 1001 was answered ERR 43 Arguments")))
def test_refused_followers(place: Place, store: Path, words: list[str], why: str) -> None:
    with Hub(place, store, asks=True) as hub:
        path = hub.questions if words else place.path("none")
        assert place.run_script(FOLLOW, path, place.path("file"), *words) == (
            1, "", f"follow: {why.format(path)}\n")
    assert rows_of(place.path("file")) == []


def test_followers_whose_file_is_none(hub: Hub, place: Place, store: Path) -> None:
    """Of SQLite."""
    ran = place.run_script(FOLLOW, hub.questions, store)
    assert ran == (1, "", "follow: file is not a database\n")
