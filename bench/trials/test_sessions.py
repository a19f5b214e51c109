"""Tries the hub with the built program: clients, openings, sockets, lines in turns, damage, and
ends. Its other trials are in test_duties.py, test_crowds.py, test_digests.py, test_copies.py and
test_openings.py, and those of the clients in examples/ in test_readers.py."""

import contextlib
import fcntl
import os
import resource
import signal
import socket
import sys
import termios
import time
from pathlib import Path

import pytest

from harness import HANDING_ON, HUB, RECORDER, Client, Hub, Place, Wrong, flip, until
from test_duties import DIGEST_IN_2021, STATUS

CLIENTS = 1_100
SESSIONS = 1_023
# Clients that only ask leave so many sessions to the others.
KEPT_SESSIONS = 23
# So many lines of a client are on their way at most.
LINES_A_CLIENT = 32
PAGE = b"PAGE C 20210131 - 1000\n"
# How long no more bytes come once the hub sends a client no more of its replies.
QUIET = 3
MOST_FILES = resource.getrlimit(resource.RLIMIT_NOFILE)[1]
# For a hub of which one user may have all sessions.
MANY_A_USER = ("--connections-a-user", str(SESSIONS))
DIGESTS = 5


def test_bad_clients(hub: Hub) -> None:
    """Half a line, a line without an end, and bytes that are no text: the others are answered."""
    half, endless, other = hub.client(), hub.client(), hub.client()
    half.send(b"IMPORT r3")
    half.leave()
    endless.send(b"a" * 1_000_000)
    assert other.ask("STATUS") == STATUS
    endless.send(b"\nSTATUS\n")
    assert endless.read() == ["ERR 40 Long"]
    assert endless.read() == STATUS
    assert other.ask("\0\ufffd") == ["ERR 42 Command"]
    assert other.ask("") == ["ERR 42 Command"]
    # The session has one digit, which counts with its space for the program's limit of 4,096. A
    # CR at the end doesn't.
    for end in ("", "\r"):
        assert other.ask("x" * 4_094 + end) == ["ERR 42 Command"]
        assert other.ask("x" * 4_095 + end) == ["ERR 40 Long"]


@pytest.mark.skipif(MOST_FILES < CLIENTS + 100, reason=f"it takes {CLIENTS + 100} open files")
def test_many_clients(hub: Hub) -> None:
    """More clients than sessions: so many are answered, and the others are told."""
    before = [served(hub.socket) for _ in range(3)]
    for client in before:
        assert client.ask("PIN 1") == ["OK 1"]
        client.leave()
    clients = [served(hub.socket) for _ in range(SESSIONS)]
    for _ in range(CLIENTS - SESSIONS):
        one_more = hub.client()
        assert one_more.read() == ["ERR 41 Session"]
        one_more.leave()
    for client in clients:
        # A pin that one of the clients before them left would show.
        assert client.ask("RECEIPT 2") == ["OK 2 4 20210131"]
        client.leave()
    served(hub.socket).leave()


def served(path: Path) -> Client:
    """A client that has a session, once those that left have given theirs back."""
    for _ in range(200):
        client = Client(path)
        reply = client.ask("STATUS")
        if reply == STATUS:
            return client
        assert reply == ["ERR 41 Session"]
        client.leave()
        time.sleep(0.05)
    raise Wrong("no session is given back")


@pytest.mark.skipif(MOST_FILES < CLIENTS + 100, reason=f"it takes {CLIENTS + 100} open files")
def test_kept_sessions(place: Place, store: Path) -> None:
    """Clients that only ask leave sessions to those that import."""
    # (Where few are left, those that have been silent for ten seconds are hung up on, which so many
    # clients may take to come.)
    patient = place.changed("clients.py", "_IF_FULL = 600, 10\n", "_IF_FULL = 600, 600\n")
    with Hub(patient, store, *MANY_A_USER, asks=True) as hub:
        asking = [served(hub.questions) for _ in range(SESSIONS - KEPT_SESSIONS)]
        one_more = hub.asker()
        assert one_more.read() == ["ERR 41 Session"]
        served(hub.socket).leave()
        for client in [one_more, *asking]:
            client.leave()


def test_turns(place: Place, store: Path) -> None:
    """The lines of a client that have come already go to the program together, 32 at most, but each
    page of a DIGEST alone; the replies come in their order, and a refusal of the hub's own among
    them."""
    recording = place.wrapped(RECORDER)
    with Hub(recording, store) as hub:
        # (The hub's own lines come first.)
        assert hub.owner.ask("STATUS") == STATUS
        asked = [f"RECEIPT {1 + number % 2}" for number in range(100)]
        asked[40] = "x" * 5_000
        hub.owner.send("".join(line + "\n" for line in asked).encode())
        wanted = {"RECEIPT 1": ["OK 1 6 20200131"], "RECEIPT 2": ["OK 2 4 20210131"]}
        for number, line in enumerate(asked):
            assert hub.owner.read() == wanted.get(line, ["ERR 40 Long"]), f"line {number} of many"
        hub.owner.send(b"RECEIPT 1\nDIGEST\nAT 2 DIGEST\n" * DIGESTS)
        for _ in range(DIGESTS):
            assert hub.owner.read() == wanted["RECEIPT 1"]
            for _ in range(2):
                assert hub.owner.read() == ["OK " + DIGEST_IN_2021]
    counts = [int(part) for part in recording.path("parts").read_text("ascii").split()]
    assert max(counts) == LINES_A_CLIENT
    lines = iter(recording.path("lines").read_bytes().splitlines())
    asked_together = [[next(lines) for _ in range(count)] for count in counts]
    # A page of each kind of rows.
    pages = [part for part in asked_together if any(b" ROWS " in line for line in part)]
    assert [len(part) for part in pages] == [1] * (6 * 2 * DIGESTS)
    assert not any(b"DIGEST" in line for part in asked_together for line in part)
    # Of the 100 lines, and some of the hub's and of the client's.
    assert len(counts) - len(pages) <= 20 + DIGESTS


def refused_path(place: Place, store: Path, path: Path, why: str) -> None:
    """A hub that is given the path of something else for its socket ends, and leaves that alone."""
    with Hub(place, store, path=path) as hub:
        assert (hub.first_line, hub.end()) == ("", 1)
        assert why in hub.told() and "Traceback" not in hub.told()


def test_sockets(place: Place, store: Path) -> None:
    """A file, or the socket of another program, is never replaced by a hub's socket."""
    before = store.read_bytes()
    refused_path(place, store, store, "something that is no socket")
    refused_path(place, store, place.path("no") / "folder", "No such file or directory")
    assert store.read_bytes() == before
    taken = place.path("taken")
    with socket.socket(socket.AF_UNIX) as full, socket.socket(socket.AF_UNIX) as first:
        full.bind(str(taken))
        full.listen(0)
        first.connect(str(taken))
        refused_path(place, store, taken, "another program listens")


def test_sockets_of_hubs(place: Place, store: Path) -> None:
    """Nor that of another hub, but where it was killed."""
    another = place.make_store("another")
    with Hub(place, store) as hub:
        refused_path(place.below("beside"), another, hub.socket, "another program listens")
        assert hub.client().ask("STATUS") == STATUS
        hub.process.kill()
        hub.end()
        assert hub.socket.exists()
    with Hub(place, another) as hub:
        assert hub.first_line == "OK ready"
        hub.socket.unlink()
        with socket.socket(socket.AF_UNIX) as later:
            later.bind(str(hub.socket))
            assert hub.stop() == 0
            assert hub.socket.exists()


def test_damage(hub: Hub, store: Path) -> None:
    """A store that is changed while it is served: standard error says that it is damaged."""
    assert hub.first_line == "OK ready"
    flip(store)
    assert hub.owner.ask("GET C 1000004 20200131") == ["ERR 8 Damaged"]
    # No reply is lost behind one, or comes to another client.
    hub.owner.send(b"RECEIPT 1\nGET C 1000004 20200131\nRECEIPT 2\nSTATUS\n")
    for wanted in ("OK 1 6 20200131", "ERR 8 Damaged", "OK 2 4 20210131", STATUS[0] + " Damaged"):
        assert hub.owner.read() == [wanted]
    assert hub.client().ask("RECEIPT 1") == ["OK 1 6 20200131"]
    assert hub.stop() == 1
    first, last = hub.logged()
    found = f"the store is damaged: GET C 1000004 20200131 of user {os.getuid()} was"
    assert first.startswith(found + " answered ERR 8 Damaged. ")
    assert last.startswith("the store is damaged, as was told at 2")


@pytest.mark.parametrize("asks", (False, True))
def test_kill_program(hub: Hub, asks: bool) -> None:
    """Where the program ends, the hub ends, to be started again: also where nobody asks."""
    program, = hub.programs()
    assert hub.owner.ask("STATUS") == STATUS
    os.kill(program, signal.SIGKILL)
    if asks:
        hub.owner.send(b"STATUS\n")
    assert (hub.end(), hub.told()) == (1, "hub: the program has ended\n")


def test_disk_fault(place: Place, store: Path) -> None:
    """After an ERR 2 the hub ends, and nobody is answered by that program any more."""
    failing = place.wrapped(HANDING_ON % ("""
    if b"RECEIPT 2" in line:
        break""", """
open(FOLDER + "/begun", "w").close()
time.sleep(1)
os.write(1, b"ERR 2 DiskFault\\n")
for line in sys.stdin.buffer:
    os.write(1, b"ERR 3 ReopenNeeded\\n")
"""))
    with Hub(failing, store) as hub:
        others = [hub.client() for _ in range(10)]
        for other in others:
            assert other.ask("STATUS") == STATUS
        hub.owner.send(b"RECEIPT 2\n")
        until("the line comes to the program", failing.path("begun").exists)
        for other in others:
            other.send(b"STATUS\n")
        assert hub.owner.read() == ["ERR 2 DiskFault"]
        assert {other.line() for other in others} == {b""}
        assert hub.end() == 1


def test_ends(hub: Hub) -> None:
    """A hub that is stopped ends all of its clients, and says nothing of them."""
    clients = [served(path) for path in (hub.socket, hub.questions) for _ in range(20)]
    for client in clients[::2]:
        assert client.ask("PIN 1") == ["OK 1"]
    # This one doesn't read what it is answered, until the hub can send it nothing more.
    clients[0].connection.settimeout(0.5)
    with contextlib.suppress(OSError):
        clients[0].connection.sendall(b"HISTORY C 1000004\n" * 50_000)
    assert clients[1].ask("STATUS") == STATUS
    assert hub.stop() == 0
    assert hub.told() == ""
    assert clients[5].line() == b""
    for client in clients:
        client.leave()


def test_unread(place: Place, store: Path) -> None:
    """Where replies aren't read, the hub hangs up before they fill its memory."""
    small = place.changed("clients.py", "UNREAD_LIMIT = 256 << 20", "UNREAD_LIMIT = 1 << 10")
    with Hub(small, store) as hub:
        silent = hub.client()
        silent.connection.settimeout(0.2)
        ended: list[bool] = []

        def hangs_up() -> list[bool]:
            try:
                silent.connection.sendall(PAGE * 1_000)
            except ConnectionError:
                ended.append(True)
            except OSError:
                pass  # The hub takes no more of it for now.
            return ended

        until("a client that reads nothing is hung up on", hangs_up)
        served(hub.socket).leave()


def waiting(client: Client) -> int:
    """How many bytes of replies the system keeps for a client that doesn't read."""
    number = fcntl.ioctl(client.connection, termios.FIONREAD, b"\0" * 4)
    return int.from_bytes(number, sys.byteorder)


def are_told(client: Client, count: int) -> bool:
    """Whether so many bytes wait for a client; no once no more have come for QUIET seconds."""
    told, since = waiting(client), time.monotonic()
    while told < count and time.monotonic() - since < QUIET:
        time.sleep(0.005)
        if waiting(client) > told:
            told, since = waiting(client), time.monotonic()
    return told >= count


def test_left_unread(place: Place, store: Path) -> None:
    """A client that says no more and doesn't read has its session until it has read all, so that
    such clients can't take more of the hub than others."""
    small = place.changed("clients.py", "range(1, 1024)", f"range(1, {KEPT_SESSIONS + 3})")
    with Hub(small, store, asks=True) as hub:
        asking, asked = [hub.asker() for _ in range(2)], [0, 0]
        asking[0].send(PAGE)
        size = sum(len(line) + 1 for line in asking[0].read())
        for number, client in enumerate(asking):
            while are_told(client, asked[number] * size):
                client.send(PAGE * LINES_A_CLIENT)
                asked[number] += LINES_A_CLIENT
            client.connection.shutdown(socket.SHUT_WR)
        time.sleep(0.2)
        one_more = hub.asker()
        assert one_more.ask("STATUS") == ["ERR 41 Session"]
        one_more.leave()
        for client, count in zip(asking, asked):
            for _ in range(count):
                assert client.read()[-1] == "END 3"
            assert client.line() == b""
            client.leave()
        served(hub.questions).leave()


@pytest.mark.parametrize("words", (
    [], ["--socket", "s", "--questions", "s"], ["--socket", "s", "--group", "root"],
    ["--socket", "s", "--merge-above", "0"], ["--questions", "s", "--group", "no such group"]))
def test_words(place: Place, store: Path, words: list[str]) -> None:
    """What isn't understood of the words is said, with status 2."""
    ran = place.run_script(HUB, "--program", place.program, "--store", store, "--releases",
                           place.folder, *words)
    assert ran[:2] == (2, "")
