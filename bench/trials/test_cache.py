"""Tries how many blocks the built program keeps in memory: a look-up again reads nothing.

A store keeps the 1,024 blocks that were used last. So descriptions with long terms are imported, as
many as fill nine tenths of that, and each is asked for. Asked for once more, in the same order,
none may lead to a read of the store's file: beside the lines of the questions the program reads
nothing, as the system counts for its process (`/proc/PID/io`). A store that kept half as many
blocks would read all of them again, since the oldest always gives way."""

from pathlib import Path

import pytest

from harness import BLOCK, Place, Server, description, write_release
import make_release as rf2

KEPT_BLOCKS = 1024
# A row takes its term and some forty bytes, and begins where the one before ends.
TERM = 3900
ROWS = KEPT_BLOCKS * 9 // 10
DATE = "20200131"
ROOT = 138875005


def bytes_read(server: Server) -> int:
    """How many bytes the process has read so far, of files and of its input."""
    text = Path(f"/proc/{server.process.pid}/io").read_text(encoding="ascii")
    return int(dict(line.split(": ") for line in text.splitlines())["rchar"])


def ask_all(server: Server) -> int:
    """Asks for each description but the last one, and answers how many bytes the questions have.
    The last one ends in a block that isn't whole, which isn't kept."""
    asked = 0
    for number in range(ROWS - 1):
        code = rf2.sctid(1_000 + number, "01")
        row, end = server.ask(f"GET D {code} {DATE}")
        assert row.startswith(f"ROW {code}\t") and end == "END 1"
        asked += len(f"0 GET D {code} {DATE}\n")
    return asked


def test_look_ups_again(place: Place) -> None:
    if not Path("/proc/self/io").exists():
        pytest.skip("the system doesn't count what a process reads")
    rows = [description(number, ROOT, "a" * TERM, DATE) for number in range(ROWS)]
    store = place.make_store()
    place.import_one(store, write_release(place.releases / "long", {"D": rows}, DATE))
    assert BLOCK * KEPT_BLOCKS // 2 < store.stat().st_size < BLOCK * KEPT_BLOCKS
    with Server(place, store) as server:
        ask_all(server)
        before = bytes_read(server)
        asked = ask_all(server)
        assert bytes_read(server) - before == asked
