"""Tries DIGEST through the hub, which is made of pages of rows between the lines of others: that it
is the program's own, at each pin, whatever goes on meanwhile."""

import signal
from pathlib import Path

import pytest

from harness import HANDING_ON, RELEASES, Client, Hub, Place, concept, concept_id, flip, until
from harness import write_release
from test_duties import DIGEST_IN_2020, DIGEST_IN_2021, PAGE_ROWS
import make_release as rf2

# A release of all sorts of files, and one whose digest takes some time.
PACKAGE_ROWS, LARGE_ROWS, SEED = 300, 10_000, 5
# How many questions another client is answered meanwhile at least.
MOST_PAGES_A_QUESTION = 10
# How many digests the hub computes at a time, how many are asked for, and the page at which all
# wait until their clients have left.
MOST_DIGESTS, DIGESTS, HELD = 2, 6, 5
IN_2020, IN_2021 = ["OK " + DIGEST_IN_2020], ["OK " + DIGEST_IN_2021]
# What examples/digest.py says of r1, r2 and r3.
WITH_THE_THIRD = ["OK d5f88cede39c4fe2c1f12d55bb04364285d5bdfad167e9f880f5e80f262d32fb"]
RECEIPTS = [["OK 1 6 20200131"], ["OK 2 4 20210131"]]
# Writes down each line that comes to the program, and stops at one of the pages until it may go on.
HOLDING = HANDING_ON % ("""
    with open(FOLDER + "/lines", "ab") as file:
        file.write(line)
    if open(FOLDER + "/lines", "rb").read().count(b" ROWS ") == %d and b" ROWS " in line:
        open(FOLDER + "/begun", "w").close()
        while not os.path.exists(FOLDER + "/go on"):
            time.sleep(0.01)""", "")


# Where the hub begins with a kind of rows, and what lets it wait before the last one until the
# program was told to publish a merge.
KIND = "            last = FIRST\n"
WAITING = """\
            while kind == MEMBERS and b"PUBLISH" not in open(%r, "rb").read():
                await asyncio.sleep(0.01)
"""


def paged(place: Place, rows: int) -> Place:
    """The same with a hub that asks for so many rows at a time."""
    return place.changed("digests.py", f"PAGE_ROWS = {PAGE_ROWS}", f"PAGE_ROWS = {rows}")


def until_taken(hub: Hub) -> None:
    """Waits until the hub has taken the lines that were sent before."""
    client = hub.asker()
    assert client.ask("METRICS")[-1].startswith("END ")
    client.leave()


def held_at(place: Place, page: int) -> Place:
    """The same with a hub that asks for a row at a time, and a program that stops at a page."""
    return paged(place, 1).wrapped(HOLDING % page)


def lines_to(held: Place) -> list[str]:
    """What came to the program."""
    return held.path("lines").read_text("utf-8").splitlines()


@pytest.mark.parametrize("layout, rows", ((2, 7), (3, 7), (3, PAGE_ROWS)))
def test_own_digests(place: Place, layout: int, rows: int) -> None:
    """A digest is the program's own, of each kind of rows and at each pin, however it was set."""
    whole = rf2.make(place.releases, PACKAGE_ROWS, SEED, is_package=True).full
    store = place.make_store(layout=layout)
    place.import_all(store, [whole, RELEASES / "r1", RELEASES / "r2"])
    own = [[f"OK {place.digest(store, pin)}"] for pin in range(4)]
    assert len(set(map(str, own))) == 4
    with Hub(paged(place, rows), store, asks=True) as hub:
        for pin, wanted in enumerate(own):
            assert hub.guest.ask(f"AT {pin} DIGEST") == wanted
        assert hub.guest.ask("DIGEST\r") == own[3]
        # The session's pin, which AT and a refusal leave as it is.
        for pin, wanted in enumerate(own):
            hub.guest.send(b"PIN %d\nDIGEST\nAT 2 DIGEST\nPIN 4\nDIGEST\n" % pin)
            replies = [hub.guest.read() for _ in range(5)]
            assert replies == [[f"OK {pin}"], wanted, own[2], ["ERR 44 PinRange"], wanted]
        assert hub.asker().ask("DIGEST") == own[3]
        hub.guest.send(b"UNPIN\nDIGEST\nPIN\nDIGEST\n")
        assert [hub.guest.read() for _ in range(4)] == [["OK"], own[3], ["OK 3"], own[3]]


def test_order(place: Place, store: Path) -> None:
    """A client's later lines are answered after its DIGEST, those of others before it."""
    held = held_at(place, 3)
    with Hub(held, store, asks=True) as hub:
        client, other = hub.asker(), hub.asker()
        client.send(b"RECEIPT 1\nDIGEST\nRECEIPT 2\nIMPORT r3\nAT 1 DIGEST\nRECEIPT 1\n")
        held.until_begun()
        other.send(b"RECEIPT 2\n")
        held.go_on()
        assert other.read() == RECEIPTS[1]
        wanted = [RECEIPTS[0], IN_2021, RECEIPTS[1], ["ERR hub NotAQuestion"], IN_2020, RECEIPTS[0]]
        assert [client.read() for _ in wanted] == wanted
    lines = lines_to(held)
    assert lines.index("2 RECEIPT 2") < lines.index("1 RECEIPT 2")
    assert not any("DIGEST" in line for line in lines)


@pytest.mark.parametrize("pin", ("", "PIN 1", "PIN 2"))
def test_import_between(place: Place, store: Path, pin: str) -> None:
    """An import and a merge between two pages don't change the digest, which is that of the number
    of imports when it was asked for, or of the session's pin."""
    held = held_at(place, 2)
    waiting = held.changed("digests.py", KIND, KIND + WAITING % str(held.path("lines")))
    with Hub(waiting, store, "--merge-above", "1", asks=True) as hub:
        client, owner = hub.asker(), hub.client()
        if pin:
            assert client.ask(pin)[0].startswith("OK")
        client.send(b"DIGEST\n")
        held.until_begun()
        owner.send(b"IMPORT r3\n")
        until_taken(hub)
        held.go_on()
        assert owner.read() == ["OK 3 2 1"]
        assert client.read() == (IN_2020 if pin == "PIN 1" else IN_2021)
        until("a segment", lambda: owner.ask("STATUS") == ["OK 3 12 1 -"])
        assert client.ask("AT 2 DIGEST") == IN_2021
        assert client.ask("AT 3 DIGEST") == WITH_THE_THIRD
    lines = [line.partition(" ")[2] for line in lines_to(held)]
    # The digest ends with the only page of members, which the store doesn't have.
    end = next(at for at, line in enumerate(lines) if " ROWS M " in line)
    assert lines.index("IMPORT r3") < lines.index("PUBLISH") < end


def test_between_lines(place: Place) -> None:
    """While a digest is computed, another client is answered again and again."""
    rows = {"C": [concept(one) for one in range(1, LARGE_ROWS + 1)]}
    store, small = place.make_store(), LARGE_ROWS // 200
    place.import_one(store, write_release(place.releases / "large", rows))
    with Hub(paged(place, small), store, asks=True) as hub:
        client, other, asked = hub.asker(), hub.asker(), 0
        client.send(b"DIGEST\n")
        while not client.has_reply():
            number = 1 + asked % LARGE_ROWS
            history = other.ask(f"HISTORY C {concept_id(number)}")
            assert history == ["ROW " + concept(number), "END 1"]
            asked += 1
        digest = client.read()
    assert digest == [f"OK {place.digest(store)}"]
    assert asked >= LARGE_ROWS // small // MOST_PAGES_A_QUESTION


def test_most_digests(place: Place, store: Path) -> None:
    """So many digests are computed at a time; the others wait, and are answered as well."""
    held = held_at(place, 1)
    with Hub(held, store, asks=True) as hub:
        clients = [hub.asker() for _ in range(DIGESTS)]
        for number, client in enumerate(clients):
            client.send(b"AT %d DIGEST\n" % (1 + number % 2))
        held.until_begun()
        until_taken(hub)
        held.go_on()
        for number, client in enumerate(clients):
            assert client.read() == (IN_2020, IN_2021)[number % 2]
    sessions = [line.split(" ")[0] for line in lines_to(held) if " ROWS " in line]
    assert len(set(sessions)) == DIGESTS
    begun = [len(set(sessions[:at]) & set(sessions[at:])) for at in range(len(sessions))]
    assert max(begun) == MOST_DIGESTS


def connections(client: Client) -> int:
    """How many clients the hub has, as one of them is told."""
    rows = [row.split(" ") for row in client.ask("METRICS")]
    return next(int(row[2]) for row in rows if row[1] == "sctd_connections")


def test_leaving(place: Place, store: Path) -> None:
    """For a client that leaves no more pages are asked for, and another one gets its session."""
    held = held_at(place, HELD)
    with Hub(held, store, asks=True) as hub:
        leaving, staying = [hub.asker() for _ in range(DIGESTS)], hub.asker()
        for client in leaving:
            assert client.ask("PIN 1") == ["OK 1"]
        for client in leaving:
            client.send(b"DIGEST\n")
        held.until_begun()
        until_taken(hub)
        for client in leaving:
            client.leave()
        # (Those whose page is on its way leave with that.)
        until("they have left", lambda: connections(staying) <= 1 + MOST_DIGESTS)
        held.go_on()
        assert staying.ask("DIGEST") == IN_2021
        until("their sessions are given back", lambda: sum(
            line.endswith(" UNPIN") for line in lines_to(held)) == DIGESTS + 1)
    assert sum("AT 1 ROWS" in line for line in lines_to(held)) < HELD + MOST_DIGESTS


def test_stopped(place: Place, store: Path) -> None:
    """A hub that is stopped doesn't finish a digest, and ends well: its client is told nothing."""
    held = held_at(place, 3)
    with Hub(held, store) as hub:
        hub.owner.send(b"DIGEST\nMETRICS\n")
        held.until_begun()
        hub.process.send_signal(signal.SIGTERM)
        until("no other one is served", lambda: not hub.socket.exists())
        held.go_on()
        assert (hub.owner.line(), hub.end()) == (b"", 0)


def test_refused_pages(place: Place, store: Path) -> None:
    """A digest is refused as a page is: for damage, or a fault of the disk, which ends the hub."""
    failing = place.wrapped(HANDING_ON % ("""
    if b" ROWS D " in line:
        os.write(1, b"ERR 2 DiskFault\\n")
        break""", ""))
    with Hub(failing, store) as hub:
        assert hub.owner.ask("DIGEST") == ["ERR 2 DiskFault"]
        assert (hub.owner.line(), hub.end()) == (b"", 1)
    with Hub(place, store) as hub:
        flip(store)
        assert hub.owner.ask("AT 1 DIGEST") == ["ERR 8 Damaged"]
        assert hub.owner.ask("STATUS") == ["OK 2 10 2 - Damaged"]
        assert hub.stop() == 1
