"""Tries the hub with many clients: that each is told its own replies, who is told of imports, whom
the hub hangs up on, what it logs of slow lines, and a file that is replaced."""

import os
import random
import re
import shutil
import time
from pathlib import Path

import pytest

from harness import HANDING_ON, Hub, Place, Wrong, concept, concept_id
from soak_model import File, Model
from test_duties import NOT_A_QUESTION
from test_sessions import served

# How many clients ask, how often, how many lines at once at most, of a store of so many imports.
CLIENTS, ROUNDS, MOST_LINES, IMPORTS = 64, 12, 40, 6
SEED = 20261129
LONG, REFUSED = "x" * 5_000, "IMPORT n1"
# The hub, with the next two replies exchanged.
TAKING = "                asker, line = self.on_their_way.popleft()\n"
EXCHANGING = """\
                if len(self.on_their_way) > 1:
                    first, second = self.on_their_way.popleft(), self.on_their_way.popleft()
                    self.on_their_way.extendleft((first, second))
"""
SOON = 10
# How long a slow line takes.
SLOW_SECONDS = 3


def drawn_line(chance: random.Random) -> str:
    number = chance.randint(1, IMPORTS)
    history = f"HISTORY C {concept_id(number)}"
    return chance.choice((history, history, history, f"RECEIPT {number}", f"PIN {number}", "UNPIN",
                          LONG if number == 1 else REFUSED))


@pytest.fixture(name="store")
def some_imports(place: Place) -> Path:
    """A store of some imports of a concept each, beside their releases and one more."""
    own = place.make_store()
    replies = [place.import_one(own, one) for one in place.write_nights(IMPORTS + 1)[:-1]]
    assert replies == [f"OK {number} 1 0" for number in range(1, IMPORTS + 1)]
    return own


def ask_all(place: Place, store: Path) -> None:
    """Many clients send lines at the same time, and each is told what the model of the soak says to
    a session of its own: each import brought one concept."""
    model = Model({f"n{number}": [File("C", True, [concept(number).split("\t")])]
                   for number in range(1, IMPORTS + 1)})
    for name in model.releases:
        model.reply(f"0 IMPORT {name}")
    with Hub(place, store, asks=True) as hub:
        chance = random.Random(SEED)
        clients = [hub.asker() for _ in range(CLIENTS)]
        for _ in range(ROUNDS):
            asked = [(client, [drawn_line(chance) for _ in range(chance.randint(1, MOST_LINES))])
                     for client in clients]
            for client, lines in asked:
                client.send("".join(line + "\n" for line in lines).encode())
            for client, lines in chance.sample(asked, len(asked)):
                for line in lines:
                    said = model.reply(f"{clients.index(client)} {line}")
                    assert client.read() == (NOT_A_QUESTION if line == REFUSED else said), line[:30]


def test_own_replies(place: Place, store: Path) -> None:
    ask_all(place, store)


def test_exchanged_replies(place: Place, store: Path) -> None:
    """A hub that exchanges two replies is found out."""
    exchanging = place.changed("program.py", TAKING, EXCHANGING + TAKING)
    with pytest.raises((AssertionError, Wrong)):
        ask_all(exchanging, store)


def test_watching(place: Place, store: Path) -> None:
    """Who watches is told of an import before it is answered, and has its replies in order."""
    with Hub(place, store, releases=place.releases, asks=True) as hub:
        owner, watchers = hub.client(), [hub.asker(), hub.client()]
        for watcher in watchers:
            assert watcher.ask("WATCH") == [f"OK {IMPORTS}"]
            assert watcher.ask("RECEIPT 1") == ["OK 1 1 20250131"]
        assert owner.ask("IMPORT none") == ["ERR 45 NoFolder"]
        assert owner.ask(f"CHECK n{IMPORTS + 1}") == [f"OK {IMPORTS + 1} 1 0"]
        assert not any(watcher.has_reply() for watcher in watchers)
        assert owner.ask(f"IMPORT n{IMPORTS + 1}") == [f"OK {IMPORTS + 1} 1 0"]
        for watcher in watchers:
            assert watcher.has_reply()
            assert watcher.read() == [f"OK {IMPORTS + 1}"]


def test_users(place: Place, two_imports: Path) -> None:
    """A user has so many connections on the socket for questions and no more, as is told once."""
    with Hub(place, two_imports, "--connections-a-user", "3", asks=True) as hub:
        clients = [hub.asker() for _ in range(3)]
        for client in [*clients, hub.client()]:
            assert client.ask("RECEIPT 1") == ["OK 1 6 20200131"]
        for _ in range(2):
            assert hub.asker().read() == ["ERR 41 Session"]
        told = f"user {os.getuid()} has 3 connections, and gets no other one"
        assert hub.logged() == [told]
        clients[0].leave()
        served(hub.questions).leave()


def test_idle(place: Place, two_imports: Path) -> None:
    """Who is silent for long is hung up on, but not who watches, nor who may change the store."""
    short = place.changed("clients.py", "IDLE_SECONDS, IDLE_SECONDS_IF_FULL = 600, 10",
                          "IDLE_SECONDS, IDLE_SECONDS_IF_FULL = 1, 1")
    with Hub(short, two_imports, asks=True) as hub:
        silent, watcher, owner = hub.asker(), hub.asker(), hub.client()
        assert silent.ask("PIN 1") == ["OK 1"]
        assert watcher.ask("WATCH") == ["OK 2"]
        assert silent.line() == b""
        for client in (watcher, owner):
            assert client.ask("RECEIPT 1") == ["OK 1 6 20200131"]


def test_slow_lines(place: Place, two_imports: Path) -> None:
    """A line that takes long is logged, with its user. What is behind it hasn't taken as long."""
    slow = place.wrapped(HANDING_ON % (f"""
    if b"AT 2 RECEIPT 2" in line:
        time.sleep({SLOW_SECONDS})""", ""))
    with Hub(slow, two_imports) as hub:
        hub.owner.send(b"RECEIPT 1\nAT 2 RECEIPT 2\nRECEIPT 1\n")
        assert [hub.owner.read()[0].split(" ")[1] for _ in range(3)] == ["1", "2", "1"]
        # (Other lines may take over a second, too, where the machine has much to do.)
        told = re.findall(r"([0-9.]+) s for (.*)", "\n".join(hub.logged()))
        slow_ones = [line for seconds, line in told if float(seconds) >= SLOW_SECONDS]
        assert slow_ones == [f"AT 2 RECEIPT 2 of user {os.getuid()}"]


def test_replaced(hub: Hub, place: Place, store: Path) -> None:
    """Where another file takes the place of the store's, the hub ends with 1, and says why."""
    shutil.copy(store, place.path("other"))
    assert hub.first_line == "OK ready"
    os.replace(place.path("other"), store)
    began = time.monotonic()
    assert hub.end() == 1
    assert time.monotonic() - began < SOON
    assert hub.logged() == ["the store's file was replaced: the hub ends"]
