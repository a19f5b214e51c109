"""Tries what the program does with its files while the system, or another program, meddles with
them: descriptors that are closed, calls that are interrupted, a limit on the length of files, and
files and folders that are moved, cut, or put in another's place at a chosen moment. What happens at
a moment within the program is done by a library for LD_PRELOAD (moments.py), for which a C compiler
(`cc`) is needed: without one those trials are skipped."""

import errno
import os
import resource
import shutil
import subprocess
from collections.abc import Callable, Sequence
from functools import partial
from pathlib import Path

import pytest

from harness import DAY, RELEASES, Place, Ran, concept, concept_id, description, write_release
from moments import ALWAYS, Library, Moment

# The commands on a store, and what is added to each: `{}` is the store's path.
COMMANDS: tuple[tuple[str, ...], ...] = (
    ("status", "--store", "{}"), ("digest", "--store", "{}"), ("init", "--store", "{}"),
    ("import", "--store", "{}", str(RELEASES / "r2")),
    ("import", "--check", "--store", "{}", str(RELEASES / "r3")),
    ("merge", "--store", "{}"), ("copy", "--store", "{}", "--to", "{}-copy"),
    ("serve", "--store", "{}", "--releases", str(RELEASES)), ("demo",), ("--help",), ("status",))
CLOSED = ((0,), (1,), (2,), (0, 1), (1, 2), (0, 2), (0, 1, 2))
FAILED = "ERR 2 DiskFault\n"
NO_FOLDER = "ERR 45 NoFolder\n"
# A call that is tried again after an interruption is interrupted so often.
INTERRUPTED = 20
# Rows of long terms, 32 MB of them in a segment, and memory for a copy, of which it needs half.
LONG_ROWS, TERM_BYTES = 4_000, 8_000
COPY_MEMORY = 20 << 20
# The length of a release file that is too long by one, and the memory for a release of one row.
TOO_LONG = 1 << 32
MEMORY = 1 << 30
FOREIGN = b"somebody else's"
REPLACED = "the file was replaced or removed while it was open"
NOT_REMOVED = "sctd: copy: not removed: " + REPLACED
PERMITTED = "sctd: copy: not removed: Operation not permitted (os error 1)"
ASSOCIATIONS = "Refset/Content/der2_cRefset_AssociationDelta_INT_20250131.txt"
CONCEPTS = "Terminology/sct2_Concept_Delta_INT_20250131.txt"


@pytest.fixture(scope="module")
def library(tmp_path_factory: pytest.TempPathFactory) -> Library:
    if shutil.which("cc") is None:
        pytest.skip("there is no C compiler")
    return Library(tmp_path_factory.mktemp("library"))


def close_all(numbers: Sequence[int]) -> None:
    for number in numbers:
        os.close(number)


def run_with(place: Place, library: Library, moments: Sequence[Moment], *words: str | Path,
             before: Callable[[], object] | None = None) -> Ran:
    """Runs the program to its end; each moment has to be met."""
    ran = place.run(*words, around=library.around(moments), before=before)
    assert library.met() == list(range(len(moments)))
    return ran


def refused(ran: Ran, reply: str, why: str) -> None:
    """It was refused by this reply, and standard error has this line."""
    assert ran[:2] == (1, reply)
    assert why in ran.faults.split("\n")


def limit(which: int, most: int) -> Callable[[], None]:
    """What lets a process have no more of something."""
    return partial(resource.setrlimit, which, (most, most))


def store_of_r1(place: Place) -> tuple[Path, bytes]:
    store = place.make_store()
    place.import_one(store, RELEASES / "r1")
    return store, store.read_bytes()


# ---- The standard descriptors


@pytest.mark.parametrize("command", COMMANDS, ids=" ".join)
def test_closed_descriptors(place: Place, command: Sequence[str]) -> None:
    """A command that is started without a standard stream leaves its files as it does with all of
    them: no reply is written into a store."""
    store, content = store_of_r1(place)
    left, words = [], [word.format("store") for word in command]
    for closed in ((), *CLOSED):
        store.write_bytes(content)
        place.path("store-copy").unlink(missing_ok=True)
        done = subprocess.run([place.program, *words], cwd=place.folder, timeout=place.seconds,
                              check=False, stdin=subprocess.DEVNULL, stdout=subprocess.DEVNULL,
                              stderr=subprocess.DEVNULL, preexec_fn=partial(close_all, closed))
        left.append(place.contents())
        assert left[-1] == left[0], closed
        assert done.returncode in (0, 1, 2), closed


# ---- Calls that are interrupted, and a limit of the system


@pytest.mark.parametrize("call", ("pread", "pwrite"))
def test_interrupted_calls(place: Place, library: Library, call: str) -> None:
    """A read or a write that is interrupted some times is tried again. One that always is counts as
    failed in the end."""
    store, before = store_of_r1(place)
    words = ("import", "--quiet", "--store", store, RELEASES / "r2")
    always = Moment(call, "store", 1, ALWAYS, errno.EINTR)
    refused(run_with(place, library, [always], *words), FAILED,
            f"sctd: {store}: Interrupted system call (os error 4)")
    assert store.read_bytes() == before
    some = Moment(call, "store", 1, INTERRUPTED, errno.EINTR)
    assert run_with(place, library, [some], *words)[:2] == (0, "OK 2 4 0\n")


def test_limited_length(place: Place) -> None:
    """Where no file may become so long, an import and a copy are refused, and the store stays."""
    store, content = store_of_r1(place)
    short = limit(resource.RLIMIT_FSIZE, len(content) - 1)
    words = ("import", "--quiet", "--store", store, RELEASES / "r2")
    fault = FAILED.strip()
    place.refuses(words, fault, f"sctd: {store}: file too large\n", before=short)
    place.refuses(["copy", "--store", store, "--to", "copy"], fault, "sctd: copy: file too large\n",
                  before=short)
    assert place.done(*words) == "OK 2 4 0"


# ---- A store that is replaced while it is opened


def test_replaced_while_opened(place: Place, library: Library) -> None:
    """A file that has a store's name only while the store is opened isn't written."""
    store, other = place.make_store(), place.make_store("other")
    before = [store.read_bytes(), other.read_bytes()]
    away = "mv store away && mv other store"
    back = "mv store other && mv away store"
    moments = [Moment("open", "store", 1, 1, 0, away), Moment("flock", "store", 1, 1, 0, back)]
    refused(run_with(place, library, moments, "import", "--quiet", "--store", "store",
                     RELEASES / "r1"), FAILED, "sctd: store: " + REPLACED)
    assert [store.read_bytes(), other.read_bytes()] == before


# ---- Copies


def test_long_segments(place: Place) -> None:
    """A copy keeps no whole segment in memory."""
    store = place.make_store(layout=3)
    rows = [description(number, concept_id(1), f"{number} ".ljust(TERM_BYTES, "x"))
            for number in range(LONG_ROWS)]
    place.import_one(store, write_release(place.path("long"), {"D": rows}))
    assert store.stat().st_size > COPY_MEMORY
    little = limit(resource.RLIMIT_AS, COPY_MEMORY)
    assert place.run("copy", "--store", store, "--to", "copy", before=little) == (0, "OK\n", "")


@pytest.mark.parametrize("more, call, path, reply", (
    ((), "pwrite", "copy", FAILED), ((), "fsync", "copy", FAILED),
    (("--imports", "9"), "pread", "store", "ERR 44 PinRange\n")))
def test_foreign_files(place: Place, library: Library, more: Sequence[str], call: str, path: str,
                       reply: str) -> None:
    """A copy that fails removes no file of somebody else that was moved to its name."""
    store = place.small_store()
    place.path("foreign").write_bytes(FOREIGN)
    moment = Moment(call, path, 1, 1, 0, "mv foreign copy")
    ran = run_with(place, library, [moment], "copy", "--store", store, "--to", "copy", *more)
    assert place.path("copy").read_bytes() == FOREIGN
    refused(ran, reply, NOT_REMOVED)


def test_foreign_links(place: Place, library: Library) -> None:
    """Nor a link."""
    moments = [Moment("pwrite", "copy", 1, 1, 0, "mv copy away && ln -s away copy"),
               Moment("pwrite", "away", 1, 1, errno.EIO)]
    ran = run_with(place, library, moments, "copy", "--store", place.small_store(), "--to", "copy")
    assert place.path("copy").is_symlink()
    refused(ran, FAILED, NOT_REMOVED)


@pytest.mark.parametrize("fault", (
    Moment("fsync", "copy", 1, 1, errno.EIO), Moment("flock", "copy", 1, 1, errno.EAGAIN),
    Moment("open", "copy", 2, 2, errno.EMFILE), Moment("pwrite", "copy", 1, 1, errno.EIO),
    Moment("fsync", "copy", 2, 2, errno.EIO)))
def test_failed_copies(place: Place, library: Library, fault: Moment) -> None:
    """A copy whose file was made and can't be opened, synced or locked leaves no file; or, where it
    can't be removed, that is told."""
    words = ("copy", "--store", place.small_store(), "--to", "copy")
    assert run_with(place, library, [fault], *words)[:2] == (1, FAILED)
    assert not place.path("copy").exists()
    stays = Moment("unlink", "copy", 1, 1, errno.EPERM)
    refused(run_with(place, library, [fault, stays], *words), FAILED, PERMITTED)
    place.path("copy").unlink()
    assert place.done(*words) == "OK"


# ---- Releases that change while they are read


def write_whole(place: Place) -> None:
    """A release with a file in each of the folders."""
    member = "\t".join(["0b6a0c2e-5d0f-4c53-9f6e-8d9d2a7b1c%s", DAY, "1", "900000000000207008",
                        "900000000000509007", str(concept_id(1)), "900000000000548007"])
    write_release(place.path("release"), {"C": [concept(1), concept(2)],
                                          "Language": [member % "01"], "A": [member % "02"]})


def meddled(place: Place, library: Library, moment: Moment, layout: int, why: str,
            before: Callable[[], object] | None = None) -> None:
    """An import in which something happens is refused, and the store is left as it was."""
    write_whole(place)
    store = place.make_store(layout=layout)
    content = store.read_bytes()
    ran = run_with(place, library, [moment], "import", "--quiet", "--store", store, "release",
                   before=before)
    refused(ran, NO_FOLDER, f"sctd: ./release/{why}")
    assert store.read_bytes() == content


@pytest.mark.parametrize("layout, call, at, nth, moved, told", (
    (3, "read", CONCEPTS, 1, "Refset", "Refset/Content"),
    (2, "read", CONCEPTS, 1, "Refset", "Refset/Content"),
    (3, "read", CONCEPTS, 1, "Refset/Language", "Refset/Language"),
    (3, "read", ASSOCIATIONS, 1, "Refset/Language", "Refset/Language"),
    (2, "read", CONCEPTS, 1, "Refset/Content", "Refset/Content"),
    # The folder is listed twice: first to tell which files aren't read.
    (2, "open", "release/Terminology/", 2, "Terminology", "Terminology"),
    (3, "open", "release/Terminology/", 2, "Terminology", "Terminology")))
def test_vanished_folders(place: Place, library: Library, layout: int, call: str, at: str, nth: int,
                          moved: str, told: str) -> None:
    """A folder that was there at first has to be there when its files are read."""
    moment = Moment(call, at, nth, nth, 0, f"mv release/{moved} release/moved")
    meddled(place, library, moment, layout, f"{told}: No such file or directory (os error 2)")


@pytest.mark.parametrize("does", (
    # A row, and its CR LF.
    f"truncate -s -{len(concept(2)) + 2} release/{CONCEPTS}",
    f"echo '{concept(3)}' >> release/{CONCEPTS}"), ids=("cut", "added"))
def test_changed_files(place: Place, library: Library, does: str) -> None:
    """A file has to have as many bytes as when it was opened."""
    meddled(place, library, Moment("read", CONCEPTS, 1, 1, 0, does), 3,
            f"{CONCEPTS}: its length changed while it was read")


def test_grown_files(place: Place, library: Library) -> None:
    """A file that is too long when it is opened isn't read, nor kept in memory."""
    moment = Moment("open", CONCEPTS, 1, 1, 0, f"truncate -s {TOO_LONG} release/{CONCEPTS}")
    meddled(place, library, moment, 3, f"{CONCEPTS}: over 4,294,967,295 bytes",
            limit(resource.RLIMIT_AS, MEMORY))
