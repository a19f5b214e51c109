"""Tries `sctd prepare` with made packages: the store has the bytes that an import makes, and what
can't be prepared leaves no file, or the one that was there."""

import resource
import subprocess
import time
from functools import partial
from pathlib import Path

import pytest

from harness import RELEASES, Place, mode, same
import make_release as rf2

ROWS, SEED = 2_500, 5
# How long a file may become where a preparation fails for that; a new store has some of it.
SHORT = 17_000
# How often a preparation is killed, and by how many seconds later each time.
KILLS, STEP = 20, 0.002


@pytest.fixture(name="package", scope="module")
def a_package(tried: Place) -> Path:
    """A package of all sorts of files."""
    package = tried.path("to-prepare")
    rf2.write_package(str(package), rf2.Package(SEED), ROWS)
    return package


def prepared(place: Place, release: Path, name: str = "prepared") -> str:
    return place.done("prepare", "--quiet", "--to", place.path(name), release)


@pytest.mark.parametrize("is_whole", (True, False))
def test_same_as_an_import(place: Place, package: Path, is_whole: bool) -> None:
    """A prepared store has the bytes of a store that was made and filled by two tasks."""
    release = package if is_whole else RELEASES / "r1"
    store, made = place.make_store("imported", layout=3), place.path("prepared")
    # (An import's reply has its number, too.)
    reply = place.import_one(store, release).replace("OK 1 ", "OK ")
    same("the reply", prepared(place, release), reply)
    same("the bytes", made.read_bytes() == store.read_bytes(), True)
    same("who may read it", mode(made), 0o600)


def test_by_name(place: Place) -> None:
    """A release is named by its path, or below a folder."""
    to = place.path("prepared")
    same("the reply", place.done("prepare", "--quiet", "--releases", RELEASES, "--to", to, "r1"),
         "OK 6 0")
    same("the digest", place.digest(to), place.digest_of(RELEASES / "r1"))


def test_files_that_are_there(place: Place) -> None:
    """An empty file is filled; one with something in it is refused, and stays."""
    to = place.path("prepared")
    to.touch()
    prepared(place, RELEASES / "r1")
    for content in (to.read_bytes(), b"x", bytes(1 << 20)):
        to.write_bytes(content)
        place.refuses(["prepare", "--to", to, RELEASES / "r2"], "ERR 4 NotEmpty",
                      f"sctd: {to}: the file isn't empty\n")
    place.refuses(["prepare", "--to", place.path("none") / "new", RELEASES / "r1"],
                  "ERR 2 DiskFault", "No such file or directory")


def test_short_files(place: Place, package: Path) -> None:
    """Where the system lets no file become long enough, nothing is left."""
    place.refuses(["prepare", "--quiet", "--to", "prepared", package], "ERR 2 DiskFault",
                  "sctd: prepared: file too large\n",
                  before=partial(resource.setrlimit, resource.RLIMIT_FSIZE, (SHORT, SHORT)))


def test_killed(place: Place, package: Path) -> None:
    """A preparation that is killed leaves no file, no store, or a store with one import or none."""
    to, found = place.path("prepared"), set[str]()
    for number in range(KILLS):
        to.unlink(missing_ok=True)
        with subprocess.Popen([place.program, "prepare", "--quiet", "--to", to, package],
                              stdout=subprocess.DEVNULL, stderr=subprocess.DEVNULL) as running:
            time.sleep(number * STEP)
            running.kill()
        found.add(place.run("status", "--store", to).output.rstrip("\n"))
    rows = prepared(place, package, "rows").split(" ")[1]
    assert found <= {"ERR 2 DiskFault", "ERR 7 NotAStore", "OK 0 0 0 -", f"OK 1 {rows} 1 -"}
