"""Tries the copies of the hub: what BACKUP makes, and what goes on while it does."""

import os
import resource
import shutil
from collections.abc import Callable
from pathlib import Path

import pytest

from harness import Client, Hub, Place, concept, concept_id, flip, mode, until
from harness import write_release

# How many clients ask while a copy is made, and how often each does while the hub waits.
CLIENTS, ROUNDS = 50, 20
# How many copies are made beside imports.
COPIES = 10
BAD_COPIES = [("relative", "the path doesn't begin with /"), ("", "the path doesn't begin with /"),
              ("/no folder/a\x1bb", "the name isn't printable"),
              ("/no folder/a\rb", "the name isn't printable"),
              ("/no folder/a\u202eb", "the name isn't printable"),
              ("/no folder/copy", "No such file or directory"), ("/", "File exists"),
              ("/dev/full", "File exists"), ("/" + "x" * 300, "File name too long")]


def test_copies(place: Place, store: Path) -> None:
    """BACKUP makes a new file that has what the store has, or says why not and leaves none."""
    path, link, nowhere = map(place.path, ("a copy", "link", "nowhere"))
    link.symlink_to(nowhere)
    there = [(str(known), "File exists") for known in (path, store, link)]
    with Hub(place, store, asks=True) as hub:
        assert hub.owner.ask(f"BACKUP {path}") == ["OK 2 10 2"]
        assert path.read_bytes() == store.read_bytes()
        assert mode(path) == 0o600
        assert hub.owner.ask(f"BACKUP {path}2\r") == ["OK 2 10 2"]
        for name, why in BAD_COPIES + there:
            assert hub.owner.ask(f"BACKUP {name}") == [f"ERR hub Backup {why}"], name
        hub.owner.send(b"BACKUP /no folder/\xff\n")
        assert hub.owner.read() == ["ERR hub Backup the name isn't UTF-8"]
        assert path.read_bytes() == store.read_bytes()
        assert not nowhere.exists()
        # From here on the hub can't write so much.
        resource.prlimit(hub.process.pid, resource.RLIMIT_FSIZE, (8_192, 8_192))
        assert hub.owner.ask(f"BACKUP {path}3") == ["ERR hub Backup File too large"]
        assert not Path(f"{path}3").exists()
    assert place.status(path) == "OK 2 10 2 -"


@pytest.mark.parametrize("change, why", (
    (lambda _, store: flip(store), "the copy is answered ERR 8 Damaged"),
    (lambda place, store: shutil.copyfile(place.make_store("other"), store),
     "the copy is answered OK 0 0 0"),
    (lambda place, store: os.replace(shutil.copy(store, place.path("again")), store),
     "the store's file was replaced")), ids=("damaged", "another store", "replaced"))
def test_bad_copies(place: Place, store: Path, change: Callable[[Place, Path], object],
                    why: str) -> None:
    """A copy that isn't what the store shows is refused, and removed."""
    # (So this hub doesn't see that the file is replaced before it is told to copy it.)
    late = place.changed("clients.py", "LOOK_SECONDS = 2", "LOOK_SECONDS = 3600")
    with Hub(late, store) as hub:
        change(place, store)
        reply, = hub.client().ask(f"BACKUP {place.path('copy')}")
        assert reply.startswith(f"ERR hub Backup {why}")
        assert not place.path("copy").exists()
        hub.stop()


# What a file of somebody else has.
FOREIGN = b"somebody else's"
# Before each part of a backup the hub waits until there is a file, or it is stopped.
COPYING = "                self.go_on()\n"
SLOWLY = "made.path == self.copy or self.is_stopped.is_set() or os.path.exists(%r)"


def slow_copies(place: Place, go_on: Path) -> Place:
    """The same with backups that wait for the file of this name."""
    return place.stopping("store.py", COPYING, SLOWLY % str(go_on))


def begin_copy(client: Client, path: Path) -> None:
    client.send(f"BACKUP {path}\n".encode())
    until("the copy is begun", path.exists)


class Slowly:
    """A place with copies that wait until there is a file, and whose check waits for another."""

    def __init__(self, place: Place) -> None:
        self.go_on, self.path = place.path("go on"), place.path("copy")
        self.place = slow_copies(place, self.go_on).waiting("status")
        self.check_on = self.place.path("go on")

    def make(self) -> None:
        """Lets the hub make the copy, up to its check."""
        self.go_on.touch()
        self.place.until_begun()


@pytest.fixture
def slow(place: Place) -> Slowly:
    return Slowly(place)


QUESTIONS = [f"GET C {concept_id(1)} 20250131", f"GET C {concept_id(1)} 20240131", "RECEIPT 1",
             f"HISTORY C {concept_id(9_999)}", f"PAGE C 20250131 {concept_id(5_000)} 20"]


class Crowd:
    """Clients that ask at the same time, and what each question is answered."""

    def __init__(self, hub: Hub) -> None:
        self.clients = [hub.asker() for _ in range(CLIENTS)]
        self.replies = {line: self.clients[0].ask(line) for line in QUESTIONS}
        self.rounds = 0

    def ask(self) -> None:
        """One question of each, all of which are sent before the first reply is read."""
        self.rounds += 1
        lines = [QUESTIONS[(self.rounds + number) % len(QUESTIONS)] for number in range(CLIENTS)]
        for client, line in zip(self.clients, lines):
            client.send(line.encode() + b"\n")
        for client, line in zip(self.clients, lines):
            assert client.read() == self.replies[line], line


@pytest.fixture
def own(place: Place) -> Path:
    """A store with a release of 10,000 rows, beside some of one row."""
    store = place.make_store()
    rows = {"C": [concept(one) for one in range(1, 10_001)]}
    place.import_one(store, write_release(place.releases / "large", rows))
    place.write_nights(COPIES, 20_001)
    return store


def test_slow_copy(place: Place, slow: Slowly, own: Path) -> None:
    """While a copy is made, 50 clients are answered, and imports and merges wait; while it is
    checked, these go on too."""
    with Hub(slow.place, own, "--merge-above", "1", releases=place.releases, asks=True) as hub:
        owner, importer, other = (hub.client() for _ in range(3))
        crowd = Crowd(hub)
        # After it there is something to merge.
        owner.send(b"IMPORT n1\n")
        begin_copy(owner, slow.path)
        assert owner.read() == ["OK 2 1 0"]
        importer.send(b"IMPORT n2\n")
        before = other.ask("STATUS")
        for _ in range(ROUNDS):
            crowd.ask()
        assert other.ask("STATUS") == before
        assert not (owner.has_reply() or importer.has_reply())
        slow.make()
        assert importer.read() == ["OK 3 1 0"]
        until("the merges", lambda: other.ask("STATUS") == ["OK 3 10002 1 -"])
        for _ in range(ROUNDS):
            crowd.ask()
        assert not owner.has_reply()
        slow.check_on.touch()
        assert owner.read() == ["OK 2 10001 2"]


@pytest.mark.parametrize("is_made", (False, True))
def test_stopped_copies(slow: Slowly, store: Path, is_made: bool) -> None:
    """A hub that is stopped leaves no copy that isn't whole, or isn't checked."""
    with Hub(slow.place, store) as hub:
        begin_copy(hub.owner, slow.path)
        if is_made:
            slow.make()
        assert hub.stop() == 0
        assert hub.owner.line() == (b"" if is_made else b"ERR hub Backup the hub ends\n")
    assert not slow.path.exists()


@pytest.mark.parametrize("is_made", (False, True))
def test_foreign_files(place: Place, slow: Slowly, store: Path, is_made: bool) -> None:
    """A file moved to the path of a copy, while that is made or checked, stays if it fails."""
    other = place.path("other")
    other.write_bytes(FOREIGN)
    with Hub(slow.place, store) as hub:
        begin_copy(hub.owner, slow.path)
        if is_made:
            slow.make()
        other.replace(slow.path)
        if is_made:
            slow.check_on.touch()
            reply, = hub.owner.read()
            assert reply.startswith("ERR hub Backup the copy is answered ERR 7 NotAStore")
        else:
            assert hub.stop() == 0
            assert hub.owner.read() == ["ERR hub Backup the hub ends"]
        assert slow.path.read_bytes() == FOREIGN
        assert f"hub: {slow.path}: not removed: the file was replaced or removed" in hub.told()


def test_busy_copies(place: Place, own: Path) -> None:
    """Copies that are made while 50 clients ask and one imports: each has what the store had before
    or after an import, and answers the same."""
    with Hub(place, own, releases=place.releases, asks=True) as hub:
        owner, importer = hub.client(), hub.client()
        crowd = Crowd(hub)
        for number in range(1, COPIES + 1):
            path = place.path(f"copy{number}")
            sending = [(importer, f"IMPORT n{number}\n"), (owner, f"BACKUP {path}\n")]
            for client, line in sending[:: 1 if number % 2 else -1]:
                client.send(line.encode())
            while not (owner.has_reply() and importer.has_reply()):
                crowd.ask()
            assert importer.read() == [f"OK {number + 1} 1 0"]
            copied, = owner.read()
            assert copied in [f"OK {imports} {9_999 + imports} {imports}"
                              for imports in (number, number + 1)]
            wanted = [[copied + " -"], *crowd.replies.values()]
            assert place.ask(path, ["STATUS", *QUESTIONS]) == wanted
