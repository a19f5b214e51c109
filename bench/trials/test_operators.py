"""Tries what an operator does in a year, and what goes wrong then, with the built program: checks,
a wrong release that is taken back, copies that are refused or killed, digests beside those of
examples/digest.py, packages in stores of both layouts, and damage under a served store. What many
clients and a year of nights do to the hub stands in test_duties.py."""

import collections
import hashlib
import itertools
import os
import subprocess
import time
from collections.abc import Sequence
from pathlib import Path

import pytest

from harness import BLOCK, FIRST_ROW, SMALL_RELEASES, Place, Ran, Server, concept, concept_id
from harness import flip, mode, write_release
import make_release as rf2

KINDS = "CDRAVM"
# How many rows the releases have whose digests are compared, and whose copies are killed.
DIGEST_ROWS, KILLED_ROWS = 3_000, 10_000
SEED = 48
# How many copies are killed, and how many of them at least while they are written.
KILLS, KILLS_WHILE_WRITTEN = 50, 5
# The last one is killed after so much more than the time that a copy takes.
MARGIN = 1.1
# What the status of a killed copy is where there is no file, and where it isn't whole.
ABSENT, NO_STORE = "ERR 2 DiskFault", "ERR 7 NotAStore"
# How many contradictions of a release are told, and how each is.
MOST_TOLD = 1_000
CONTRADICTION = ("sctd: %s, line %d: the row differs from another one of the same id and date: "
                 "import %d brought %s")
DATE = "20220131"
DAMAGED, FAULT = ["ERR 8 Damaged"], "ERR 2 DiskFault"
# The row of the guide's releases that stands first in the first segment, and another one.
FIRST_QUESTION = "GET C 1000004 20200131"
OTHER_QUESTION = "GET C 2000001 20210131"
PINNED = ["GET C 1000004 20211231", "HISTORY C 1000004", "ABOUT D 1000004 20211231", "DATES",
          "ANCESTORS 1000004 20200630", "DELTA C 20200131 20211231 - 1000"]
PINNED += [f"PAGE {kind} 20211231 - 1000" for kind in KINDS]
# What a store of layout 3 answers of a package, and one of layout 2 refuses.
LATE = "20991231"
OF_MEMBERS = [f"MEMBERS {rf2.US_ENGLISH} {LATE} - 1000", f"PAGE M {LATE} - 1000",
              f"VALUES {rf2.WHY_CONCEPTS_ARE_INACTIVE} {LATE} - 1000"]
# How many concepts are asked what they were called.
ASKED_NAMES = 20
ALL = "--all"
NO_ROWS = hashlib.sha256(b"").hexdigest()
LATER_LAYOUT = ["ERR 14 LaterVersion"]
# Rows of a reference set whose last column may have any text, and how their lines end.
MAP_ROW = ("0b6a0c2e-5d0f-4c53-9f6e-8d9d2a7b1c%02x\t20250131\t1\t900000000000207008\t"
           "900000000000497000\t%d\tA00%s")
LINE_ENDS = ("\n", "\r\n", "\r\r\n", "\r")


def made(place: Place, is_package: bool = False, rows: int = DIGEST_ROWS) -> list[Path]:
    """A Full release, also of all sorts of files of a package, and a Delta to it."""
    return list(rf2.make(place.path("made"), rows, SEED, is_package)[:2])


# ---- A release that is tried before it counts


def check_told(place: Place, store: Path, name: str) -> Ran:
    """What `import --check` says of a release; it leaves the file as it is."""
    before = store.read_bytes()
    told = place.run("import", "--check", "--quiet", "--store", store, "--releases", place.releases,
                     name)
    assert store.read_bytes() == before
    return told


@pytest.mark.parametrize("layout", (2, 3))
def test_checks(place: Place, layout: int) -> None:
    """A check, as a command and as a line, leaves the file as it is."""
    store = place.small_store(layout)
    write_release(place.releases / "new", {"C": [concept(1, DATE)]}, DATE)
    assert check_told(place, store, "new")[:2] == (0, "OK 4 1 0\n")
    before = store.read_bytes()
    with Server(place, store, place.releases) as server:
        assert [server.ask("CHECK new") for _ in range(2)] == [["OK 4 1 0"]] * 2
    assert store.read_bytes() == before


@pytest.mark.parametrize("count, told, more", ((6, 6, []), (MOST_TOLD + 5, MOST_TOLD, [" 5 "])))
def test_contradictions(place: Place, count: int, told: int, more: list[str]) -> None:
    """Each contradiction is told with its file and line, and the import that brought the other row;
    where there are too many, how many more there are."""
    store, known = place.make_store(), [concept(one, DATE) for one in range(1, MOST_TOLD + 6)]
    for name, rows in (("first", known[:3]), ("second", known[3:])):
        place.import_one(store, write_release(place.releases / name, {"C": rows}, DATE))
    others = [concept(one, DATE, active=0) for one in range(1, count + 1)]
    write_release(place.releases / "wrong", {"C": [concept(0, DATE), *others]}, DATE)
    status, reply, faults = check_told(place, store, "wrong")
    assert (status, reply) == (1, "ERR 32 Contradiction 1 3\n")
    file = rf2.SORTS["C"].name.format("Delta", DATE).rpartition("/")[2]
    wanted = [CONTRADICTION % (file, line, 1 if line < 6 else 2, row.replace("\t", "\\t"))
              for line, row in enumerate(known[:told], 3)]
    lines = faults.splitlines()
    assert [line for line in lines if line.startswith(f"sctd: {file}, line ")] == wanted
    last = [line for line in lines if line not in wanted]
    assert len(last) == len(more) and all(map(str.__contains__, last, more))


# ---- A wrong release that is taken back


def reports(place: Place, store: Path, imports: int) -> list[list[str]]:
    """What reports say at each pin."""
    pins = range(1, imports + 1)
    lines = [line for pin in pins for line in (f"PIN {pin}", *PINNED, f"RECEIPT {pin}")]
    return place.ask(store, lines)


def write_wrong_and_right(place: Place) -> tuple[Path, Path]:
    """A release that shouldn't have been imported, and the one that takes its place: it has the
    same ids and dates, and says something else of them."""
    def rows(active: int) -> list[str]:
        own = [concept(number, DATE, active) for number in range(1, 6)]
        return [*own, f"2000001\t{DATE}\t{active}\t{rf2.CORE}\t{rf2.PRIMITIVE}"]
    return (write_release(place.releases / "wrong", {"C": rows(0)}, DATE),
            write_release(place.releases / "right", {"C": rows(1)}, DATE))


@pytest.mark.parametrize("layout, segments", ((2, 3), (2, 1), (3, 3)))
def test_wrong_release(place: Place, layout: int, segments: int) -> None:
    """A wrong release is taken back, and the right one imported: what was reported stays true."""
    wrong, right = write_wrong_and_right(place)
    store = place.small_store(layout)
    before, digest = reports(place, store, 3), place.digest(store)
    assert place.import_one(store, wrong) == "OK 4 6 0"
    refused = place.run("import", "--quiet", "--store", store, right)
    assert refused[:2] == (1, "ERR 32 Contradiction 1 2\n")
    if segments == 1:
        place.done("merge", "--store", store)
    taken_back = place.copy(store, "taken back", imports=3)
    assert place.status(taken_back) == f"OK 3 12 {segments} -"
    os.replace(taken_back, store)
    assert place.import_one(store, right) == "OK 4 6 0"
    assert reports(place, store, 3) == before
    assert place.digest(store, 3) == digest
    assert place.digest(store) == place.digest_of(*SMALL_RELEASES, right)


# ---- Copies


def test_whole_copies(place: Place) -> None:
    """A copy has the same rows and import numbers, is its owner's alone, and has no free blocks."""
    store = place.small_store()
    place.done("merge", "--store", store)
    place.import_one(store, write_wrong_and_right(place)[0])
    for imports in (None, 4, 3, 2, 1, 0):
        before = store.read_bytes()
        copy = place.copy(store, f"copy{imports}", imports)
        assert store.read_bytes() == before
        assert mode(copy) == 0o600
        in_use = f", {-(-copy.stat().st_size // BLOCK)} blocks in use"
        assert in_use in place.run("status", "--store", copy).faults
        count = 4 if imports is None else imports
        rows, segments = [0, 6, 10, 12, 18][count], [0, 1, 1, 1, 2][count]
        assert place.status(copy) == f"OK {count} {rows} {segments} -"
        assert place.digest(copy) == place.digest(store, count)
        assert reports(place, copy, count) == reports(place, store, count)


# Copies that are refused, beside those of bench/cases/tasks.txt: of which store, to where, how that
# is answered, and why.
IS_THERE = FAULT, "File exists"
REFUSED = {
    "onto an empty file": ("store", "nothing", *IS_THERE),
    "onto a link to itself": ("store", "link", *IS_THERE),
    "onto a link that leads nowhere": ("store", "dangling", *IS_THERE),
    "of a damaged store": ("damaged", "new", "ERR 8 Damaged",
                           "the store is damaged: segment 1; restore your copy")}


@pytest.mark.parametrize("store, to, reply, why", REFUSED.values(), ids=REFUSED.keys())
def test_refused_copies(place: Place, store: str, to: str, reply: str, why: str) -> None:
    """A copy that is refused says why, and leaves both files as they were."""
    content = place.small_store().read_bytes()
    place.path("nothing").touch()
    place.path("link").symlink_to("store")
    place.path("dangling").symlink_to("new")
    place.path("damaged").write_bytes(content)
    flip(place.path("damaged"))
    place.refuses(["copy", "--store", store, "--to", to], reply, why)


def test_copies_of_a_served_store(place: Place) -> None:
    with Server(place, place.small_store()) as server:
        assert server.ask("STATUS") == ["OK 3 12 3 -"]
        place.refuses(["copy", "--store", "store", "--to", "new"], FAULT, "in use by another")


def test_full_disk(place: Place, small_disk: Path) -> None:
    """A copy that the disk has no room for is refused, and none is left."""
    place.import_one(place.make_store(), made(place)[0])
    place.refuses(["copy", "--store", "store", "--to", "small/new"], FAULT, "No space left")
    assert list(small_disk.iterdir()) == []


# ---- Copies that are killed


def kill_copy(place: Place, store: Path, copy: Path, seconds: float, is_made: bool) -> bool:
    """Begins a copy, and kills it some time after its start, or after its file is there. Whether it
    was done by then."""
    with subprocess.Popen([place.program, "copy", "--store", store, "--to", copy],
                          stdout=subprocess.DEVNULL, stderr=subprocess.DEVNULL) as copying:
        while is_made and not copy.exists() and copying.poll() is None:
            pass
        time.sleep(seconds)
        copying.kill()
    return copying.returncode == 0


def test_killed_copies(place: Place) -> None:
    """A copy that is killed leaves the store as it is, and no store, or the whole copy."""
    store, left = place.make_store(), collections.Counter[str]()
    place.import_all(store, made(place, rows=KILLED_ROWS))
    before, state, digest = store.read_bytes(), place.status(store), place.digest(store)
    begun = time.monotonic()
    place.copy(store, "first")
    took = time.monotonic() - begun
    for number in range(KILLS):
        copy = place.path(f"copy{number}")
        is_done = kill_copy(place, store, copy, took * MARGIN * number / KILLS, number % 2 == 1)
        assert store.read_bytes() == before
        found = place.run("status", "--store", copy).output.rstrip("\n")
        assert not is_done or found == state
        assert found != state or place.digest(copy) == digest
        left[found] += 1
        copy.unlink(missing_ok=True)
    assert left.keys() <= {ABSENT, NO_STORE, state}, left
    assert left[NO_STORE] >= KILLS_WHILE_WRITTEN, left


# ---- Digests


def each_digest(place: Place, store: Path, wanted: Sequence[str]) -> None:
    """The digest of each number of imports is as wanted, as a command and as a line."""
    pins = range(len(wanted))
    assert [place.digest(store, pin) for pin in pins] == wanted
    assert place.digest(store) == wanted[-1]
    replies = place.ask(store, ["DIGEST", *(f"AT {pin} DIGEST" for pin in pins)])
    assert replies == [["OK " + digest] for digest in (wanted[-1], *wanted)]


@pytest.mark.parametrize("layout, words", ((2, []), (3, [ALL])))
def test_digests(place: Place, layout: int, words: list[str]) -> None:
    """The digest is the one that is computed from the releases' files, in whatever way a store came
    to its rows and keeps them: in layout 3 from all files of a package."""
    full, delta = made(place, is_package=layout == 3)
    wanted = [NO_ROWS, place.digest_of(*words, full), place.digest_of(*words, full, delta)]
    store = place.make_store(layout=layout)
    place.import_all(store, [full, delta])
    each_digest(place, store, wanted)
    each_digest(place, place.copy(store, "copy"), wanted)
    each_digest(place, place.copy(store, "first", imports=1), wanted[:2])
    place.done("merge", "--store", store)
    each_digest(place, store, wanted)
    copied = place.copy(store, "in layout 3", layout=3)
    each_digest(place, copied, wanted)
    each_digest(place, place.copy(copied, "in layout 3 again", layout=3), wanted)
    os.replace(copied, store)
    place.import_all(store, [full, delta])
    each_digest(place, store, [*wanted, wanted[2], wanted[2]])
    other = place.make_store("other", layout=3)
    place.import_all(other, [delta, full])
    each_digest(place, other, [NO_ROWS, place.digest_of(*words, delta), wanted[2]])


def test_digest_of_line_ends(place: Place) -> None:
    """The same of lines that end with LF, with CR LF, with CR CR LF, and at the end of a file with
    CR alone: a CR before no LF is the end of a member's last column."""
    release = write_release(place.path("ends"), {"C": [concept(1)], "SimpleMap": []})
    rows = [MAP_ROW % (number, concept_id(1), end) for number, end in enumerate(LINE_ENDS)]
    with open(next(release.rglob("*SimpleMap*")), "ab") as file:
        file.write("".join(rows).encode())
    store = place.make_store(layout=3)
    assert place.import_one(store, release) == f"OK 1 {1 + len(LINE_ENDS)} 0"
    each_digest(place, store, [NO_ROWS, place.digest_of(ALL, release)])


# ---- A package in stores of each layout


def test_the_rest(place: Place) -> None:
    """A store of layout 2 takes the rest of a package once it was copied in layout 3 and the Full
    release is imported again; what was reported before stays as it was."""
    full, delta = made(place, is_package=True)
    named = itertools.islice(rf2.rows_of(full, "C"), ASKED_NAMES)
    lines = OF_MEMBERS + [f"CALLED {code} {LATE} {language}" for code, *_ in named
                          for language in rf2.LANGUAGES]
    store = place.make_store()
    place.import_all(store, [full, delta])
    before, digest = reports(place, store, 2), place.digest_of(full, delta)
    assert place.ask(store, lines) == [LATER_LAYOUT] * len(lines)
    assert place.digest(store) == digest
    os.replace(place.copy(store, "copied", layout=3), store)
    assert place.digest(store) == digest
    place.import_all(store, [full, delta])
    # In layout 3 there are no members where there was no answer.
    wanted = [["END 0"] if reply == LATER_LAYOUT else reply for reply in before]
    assert reports(place, store, 2) == wanted
    each_digest(place, store, [
        NO_ROWS, place.digest_of(full), digest, place.digest_of(full, delta, ALL, full),
        place.digest_of(ALL, full, delta)])
    at_once = place.make_store("at once", layout=3)
    place.import_all(at_once, [full, delta])
    rows = [place.status(one).split(" ")[2] for one in (store, at_once)]
    assert rows[0] == rows[1]
    answers = place.ask(store, lines)
    assert answers == place.ask(at_once, lines)
    assert ["END 0"] not in answers[: len(OF_MEMBERS)]
    assert sum(reply != ["END 0"] for reply in answers) > ASKED_NAMES
    assert place.ask(store, ["AT 2 " + line for line in lines]) == [["END 0"]] * len(lines)
    assert place.import_one(store, full).split(" ")[:3] == ["OK", "5", "0"]


# ---- Damage


@pytest.mark.parametrize("meets", (FIRST_QUESTION, "IMPORT r1", "CHECK r1", "DIGEST"))
@pytest.mark.parametrize("layout", (2, 3))
def test_damage(place: Place, layout: int, meets: str) -> None:
    """Once a line has met damage, nothing is confirmed until the store is opened again."""
    place.link_releases("r1")
    new = write_release(place.releases / "new", {"C": [concept(1, DATE)]}, DATE)
    store = place.small_store(layout)
    before, digest = store.read_bytes(), place.digest(store)
    with Server(place, store, place.releases) as server:
        # (Of the two smallest segments, which aren't the damaged one.)
        assert [server.ask(line)[-1] for line in ("MERGE", "STEP 100")] == ["OK 6", "OK 0"]
        byte = flip(store)
        assert server.ask(meets) == DAMAGED
        for line in ("IMPORT new", "CHECK new", "PUBLISH", "MERGE", "STEP 1", "IMPORT r1"):
            assert server.ask(line) == DAMAGED, line
        assert server.ask(OTHER_QUESTION)[-1] == "END 1"
        assert server.ask("RECEIPT 1") == ["OK 1 6 20200131"]
        assert server.end() == 0
    for command in ("status", "digest"):
        assert place.run(command, "--store", store)[:2] == (1, "ERR 8 Damaged\n")
    flip(store, FIRST_ROW, byte)
    assert (place.status(store), place.digest(store)) == ("OK 3 12 3 -", digest)
    # A merge may have written behind what the store needs.
    assert store.read_bytes()[: len(before)] == before
    assert place.import_one(store, new) == "OK 4 1 0"
