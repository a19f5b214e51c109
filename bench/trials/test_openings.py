"""Tries how the hub begins: its settings, a first start, and what it does before the program opens
the store."""

import shutil
from pathlib import Path

import pytest

from harness import HUB, RELEASES, TRACE, Hub, Place, Ran, has_strace

SETTINGS = """# A comment
[hub]
program = "%s"
store = "%s"
releases = "%s"
merge-above = 7
make-store = true

[gateway]
edition = "900000000000207008"
"""
# How much of a text strace writes down.
LONGEST_TEXT = "4096"
# What is wrong with settings: their text, and what the hub says of it.
WRONG_SETTINGS = {
    "a key that no option has": ("[hub]\nmerge-abvoe = 7\n", "arguments: --merge-abvoe=7"),
    "a number that isn't allowed": ("[hub]\nmerge-above = 251\n", "it isn't 1 to 250"),
    "a table that no command has": ("[hbu]\nmerge-above = 7\n", "hbu is neither [hub] nor"),
    "a key in no table": ("merge-above = 7\n", "merge-above is neither [hub] nor"),
    "a value that no option has": ("[hub]\nmerge-above = 7.5\n", "merge-above is no text, number"),
    "what isn't TOML": ("[hub]\nmerge-above: 7\n", "(at line 2, column 12)"),
    "none": (None, "No such file or directory")}


def ended(place: Place, store: Path, *words: str) -> Ran:
    """How a hub ends that can't begin."""
    return place.run_script(HUB, "--program", place.program, "--store", store, "--releases",
                            RELEASES, "--socket", place.path("hub"), *words)


def files(folder: Path) -> list[str]:
    return sorted(path.name for path in folder.iterdir())


@pytest.fixture
def home(place: Place) -> Path:
    place.path("home").mkdir()
    return place.path("home")


def test_first_start(place: Place, home: Path) -> None:
    """A first start makes the store, in layout 3. No later one does, whatever became of it."""
    (home / "releases").mkdir()
    store = home / "a.store"
    with Hub(place, store, "--make-store") as hub:
        assert hub.first_line == "OK ready"
        assert hub.owner.ask("STATUS") == ["OK 0 0 0 -"]
        assert hub.owner.ask("IMPORT r1") == ["OK 1 6 0"]
        assert hub.told().split("\n")[0] == f"hub: {store}: a new store"
    assert files(home) == ["a.store", "a.store.imports", "first-start", "releases"]
    assert ": layout 3, " in place.run("status", "--store", store).faults
    with Hub(place, store, "--make-store") as hub:
        assert hub.client().ask("STATUS") == ["OK 1 6 1 -"]
    store.unlink()
    said = f"hub: {store}: there is no such file, and no store is made beside "
    assert ended(place, store, "--make-store") == (1, "", said + "a.store.imports\n")
    (home / "a.store.imports").unlink()
    assert ended(place, store, "--make-store") == (1, "", said + "first-start\n")
    assert files(home) == ["first-start", "releases"]
    assert ended(place, store)[:2] == (1, "ERR 2 DiskFault\n")


def test_refused_stores(place: Place, store: Path) -> None:
    """A store in use is refused, and a file that is none."""
    with Hub(place, store) as hub:
        assert ended(place.below("other"), store)[:2] == (1, "ERR 2 DiskFault\n")
        assert hub.stop() == 0
        assert not hub.socket.exists()
    place.path("none").write_text("no store", encoding="utf-8")
    assert ended(place, place.path("none"))[:2] == (1, "ERR 7 NotAStore\n")


def test_odd_first_starts(place: Place, home: Path, two_imports: Path) -> None:
    """A store that lies there already gets the note; a mistyped name makes none beside it; and
    where none can be made, the program says why."""
    with Hub(place, shutil.copy(two_imports, home / "b.store"), "--make-store") as hub:
        assert hub.first_line == "OK ready"
    assert files(home) == ["b.store", "first-start"]
    (home / "first-start").unlink()
    mistyped = home / "bb.store"
    said = f"hub: {mistyped}: there is no such file, and no store is made beside b.store\n"
    assert ended(place, mistyped, "--make-store") == (1, "", said)
    assert files(home) == ["b.store"]
    assert ended(place, place.path("lost") / "c.store", "--make-store")[:2] == (1, "")


def test_settings(place: Place, home: Path) -> None:
    """Options may stand in a file."""
    file = place.path("settings")
    file.write_text(SETTINGS % (place.program, home / "a.store", RELEASES), encoding="utf-8")
    with Hub(place, "no.store", "--config", file) as hub:
        assert hub.first_line == "OK ready"
        assert files(home) == ["a.store", "first-start"]


@pytest.mark.parametrize("text, said", WRONG_SETTINGS.values(), ids=WRONG_SETTINGS.keys())
def test_wrong_settings(place: Place, home: Path, text: str | None, said: str) -> None:
    """What is wrong with it is said, and nothing is begun."""
    file = place.path("settings")
    if text is not None:
        file.write_text(text, encoding="utf-8")
    ran = ended(place, home / "a.store", f"--config={file}")
    assert ran[:2] == (2, "")
    assert said in ran.faults
    assert files(home) == []


@pytest.mark.skipif(not has_strace(), reason="there is no strace")
def test_dropped_pages(place: Place, store: Path) -> None:
    """What memory has of the store's file is synced and dropped before the program is started."""
    trace = place.path("trace")
    tracing = [*TRACE, "-y", "-s", LONGEST_TEXT, "-o", str(trace), "-e", "signal=none"]
    with Hub(place, store, before=tracing) as hub:
        assert hub.first_line == "OK ready"
    lines = trace.read_text("utf-8", "backslashreplace").split("\n")
    wanted = (("fdatasync(", f"<{store}>) = 0"),
              ("fadvise64(", f"<{store}>, 0, 0, POSIX_FADV_DONTNEED) = 0"),
              ("execve(", f'"serve", "--store", "{store}"'))
    at = [next((number for number, line in enumerate(lines) if step in line and part in line), -1)
          for step, part in wanted]
    assert -1 not in at
    assert sorted(at) == at
