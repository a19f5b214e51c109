"""Releases that are checked, also before their imports, and Snapshots that are compared, through
the hub: what is told beside the reply, and that no other line waits for it."""

import re
import time
from collections.abc import Iterable, Iterator, Sequence
from contextlib import contextmanager
from pathlib import Path

import pytest
from harness import DAY, Client, Hub, Place, concept, concept_id, flip, write_release
import make_release as rf2

# Stands before the program: what its checks tell, are answered and end with instead.
CHECKED = """
import os, sys
if sys.argv[1] == "import":
    sys.stderr.write(%r)
    sys.stdout.write(%r)
    sys.exit(%d)
os.execv(PROGRAM, [PROGRAM, *sys.argv[1:]])
"""
# The commands by which it checks, and compares.
CHECKS = ("import", "verify")
UNCOMPARED = "the release wasn't compared with the store's modules and dates"
NUMBERS, CHANGED = range(1, 11), (3, 7)
FILE = "sct2_Concept_Delta_"
# A package whose Snapshot has all concepts of the store, and what that is answered.
SNAPSHOT, WHOLE = "package/Snapshot", f"OK {len(NUMBERS)} 0 0 0 0 0"
# What is no name of a release, and names of which there is none; the longest has 1,024 bytes.
WRONG_NAMES = (
    "", " next", "next ", "../releases/next", "next/.", "next/../next", "/next", "next/", "next//x",
    ".", "..", "next\\", "n\x1bext", "next\tx", "n\u00eaxt", "next\r\r", "n/" * 512 + "x")
NAMES_OF_NOTHING = ("nothing", "next/Full", "...", "-", "--help", "n/" * 511 + "xy")
# How soon a hub ends that waits for nothing, on a machine that has much else to do.
SOON_SECONDS = 20
# The score of what the system kills first.
KILLED_FIRST = 1000
# Checks and a comparison, each with its reply.
SOUND = (("CHECK next", "OK 2 1 0"), ("CHECK package/Delta", "OK 2 1 0"),
         (f"VERIFY {SNAPSHOT}", WHOLE))


@pytest.fixture
def store(place: Place) -> Path:
    """A store with one release, beside one that contradicts it twice and one that doesn't."""
    store = place.make_store()
    for name, changed in (("first", ()), ("wrong", CHANGED)):
        write_release(place.releases / name, {"C": [
            concept(number, active=int(number not in changed)) for number in NUMBERS]})
    place.import_one(store, place.releases / "first")
    for name, number in (("next", 20), ("package/Delta", 21)):
        write_release(place.releases / name, {"C": [concept(number)]})
    write_snapshot(place, SNAPSHOT, NUMBERS)
    return store


def write_snapshot(place: Place, name: str, numbers: Iterable[int],
                   changed: Sequence[int] = ()) -> None:
    """Writes a Snapshot that has these concepts, some of them inactive."""
    rows = {kind: list[str]() for kind in rf2.KINDS}
    rows["C"] = [concept(number, active=int(number not in changed)) for number in numbers]
    rf2.write(str(place.releases / name), "Snapshot", DAY, rows)


@pytest.fixture
def checked(store: Path) -> Path:
    """Where the copy is that a release is checked on."""
    return store.with_name(store.name + ".checked")


@contextmanager
def hub_on(place: Place, store: Path, *words: str) -> Iterator[Hub]:
    """A hub on that store and beside its releases, whose owner asks for notes."""
    with Hub(place, store, *words, releases=store.with_name("releases"), asks=True) as hub:
        assert hub.owner.ask("NOTES") == ["OK"]
        yield hub


@pytest.fixture
def hub(place: Place, store: Path) -> Iterator[Hub]:
    with hub_on(place, store) as hub:
        yield hub


@pytest.fixture
def waiting(place: Place) -> Place:
    """A program whose checks and comparisons wait."""
    return place.waiting(*CHECKS)


def notes_of(client: Client, line: str) -> tuple[list[str], str]:
    """What is told beside the reply to a line, and the reply."""
    *notes, reply = client.ask(line)
    assert all(note.startswith("NOTE ") for note in notes)
    return [note.removeprefix("NOTE ") for note in notes], reply


def test_contradictions_of_checks_and_imports(hub: Hub, checked: Path) -> None:
    """Each is told once, with its file, its line and the import that has the other row, to who asks
    for notes; and before an import as by a check."""
    notes, reply = notes_of(hub.owner, "CHECK wrong")
    assert reply == "ERR 32 Contradiction 1 4"
    told = [re.fullmatch(r"sctd: (\S+), line ([0-9]+): .* import 1 brought ([0-9]+)\\t.*", note)
            for note in notes]
    assert [found and (found[1].startswith(FILE), *found.groups()[1:]) for found in told] == [
        (True, str(number + 1), str(concept_id(number))) for number in CHANGED]
    assert notes_of(hub.owner, "CHECK next") == ([], "OK 2 1 0")
    assert notes_of(hub.owner, "IMPORT wrong") == (notes, reply)
    for word in ("CHECK", "IMPORT"):
        assert hub.client().ask(f"{word} wrong") == [reply]
    assert hub.owner.ask("STATUS") == ["OK 1 10 1 -"]
    assert [hub.told().count(note) for note in (*notes, "sctd: ")] == [4, 4, 4 * len(notes)]
    assert hub.logged(is_alone=False) == [
        f"CHECK wrong: {reply}", "CHECK next: OK 2 1 0",
        *(f"{word} wrong: {reply}" for word in ("IMPORT", "CHECK", "IMPORT"))]
    assert not checked.exists()


def test_what_an_import_is_told(place: Place, hub: Hub) -> None:
    """The warnings and faults of a release stand before the reply, and in the log as before."""
    folder = write_release(place.releases / "short", {"C": [concept(30)]})
    file, = folder.rglob(FILE + "*")
    file.write_text(file.read_text("utf-8") + "30\t20\n", "utf-8")
    notes, reply = notes_of(hub.owner, "IMPORT short")
    assert reply.startswith("ERR 23 ") and any(file.name in note for note in notes)
    assert hub.client().ask("IMPORT short") == [reply]
    assert notes_of(hub.owner, "IMPORT next")[1] == "OK 2 1 0"
    assert hub.told().count(notes[-1]) == 2


@pytest.mark.parametrize("name, numbers, changed, counts, told", (
    ("lacking", NUMBERS[:-1], (), "0 1 0", {10: "the Snapshot has none of this component"}),
    ("more", (*NUMBERS, 11, 12), (), "2 0 0", {
        11: "the store shows none", 12: "the store shows none"}),
    ("other", NUMBERS, CHANGED, "0 0 2", {3: "the store shows", 7: "the store shows"}),
    ("all", (*NUMBERS[1:], 11), CHANGED, "1 1 2", {
        1: "the Snapshot has none", 3: "the store shows", 7: "the store shows",
        11: "the store shows none"})))
def test_differences_are_told(place: Place, hub: Hub, name: str, numbers: Sequence[int],
                              changed: Sequence[int], counts: str, told: dict[int, str]) -> None:
    """Each component that a store lacks, has more or has otherwise, to who asks for notes."""
    write_snapshot(place, name, numbers, changed)
    notes, reply = notes_of(hub.owner, f"VERIFY {name}")
    assert reply == f"ERR 46 Differs {counts}"
    for number in range(1, 13):
        of_it = [note for note in notes if str(concept_id(number)) in note]
        assert len(of_it) == (number in told)
        assert all(told[number] in note for note in of_it)
    assert hub.client().ask(f"VERIFY {name}") == [reply]
    assert hub.logged(is_alone=False) == [f"VERIFY {name}: {reply}"] * 2


def test_so_many_differences(place: Place, hub: Hub) -> None:
    """As many of each sort as the line says, and how many more there are."""
    write_snapshot(place, "other", NUMBERS, CHANGED)
    for limit, count in (("", 2), (" 0", 1), (" 1", 2), (" 2", 2), (" 999999", 2)):
        notes, reply = notes_of(hub.owner, f"VERIFY other{limit}")
        assert (len(notes), reply) == (count, "ERR 46 Differs 0 0 2"), limit
        assert notes[-1].startswith("sctd: and ") == (limit in (" 0", " 1")), limit
    for line in ("VERIFY other 1000000", "VERIFY other -1", "VERIFY other 1 1", "VERIFY other ",
                 "VERIFY  1", "CHECK next 1", "IMPORT next 1"):
        assert notes_of(hub.owner, line) == ([], "ERR 43 Arguments"), line


def test_hubs_that_only_read(place: Place, store: Path) -> None:
    """They compare the store, each on a copy of its own at the same time, and change nothing."""
    before = store.read_bytes()
    one, other = (place.below(name).waiting(*CHECKS) for name in ("one", "other"))
    with (hub_on(one, store, "--read-only") as first,
          hub_on(other, store, "--read-only") as second):
        for hub, its in ((first, one), (second, other)):
            hub.owner.send(f"VERIFY {SNAPSHOT}\n".encode())
            its.until_begun()
        for hub, its in ((first, one), (second, other)):
            its.go_on()
            assert hub.owner.read() == [WHOLE]
            assert hub.owner.ask("CHECK next") == ["OK 2 1 0"]
            for line in ("IMPORT next", "MERGE", "TRIM"):
                assert hub.owner.ask(line) == ["ERR 42 Command"]
            assert hub.owner.ask(f"BACKUP {its.path('copy')}") == ["OK 1 10 1"]
    assert store.read_bytes() == before
    assert not list(store.parent.glob(store.name + ".checked*"))


def test_a_whole_store(store: Path, hub: Hub, checked: Path) -> None:
    """It is compared as it is now, by a copy that doesn't stay, and isn't changed; but not for who
    may ask questions alone."""
    before = store.read_bytes()
    for end in ("", "\r"):
        assert notes_of(hub.owner, f"VERIFY {SNAPSHOT}{end}") == ([], WHOLE)
    assert store.read_bytes() == before and not checked.exists()
    assert hub.owner.ask("IMPORT next") == ["OK 2 1 0"]
    assert notes_of(hub.owner, f"VERIFY {SNAPSHOT}")[1] == "ERR 46 Differs 0 1 0"
    metrics = " ".join(hub.owner.ask("METRICS"))
    for result, count in (("OK", 2), ("ERR 46 Differs", 1)):
        assert f'sctd_changes_total{{command="VERIFY",result="{result}"}} {count}' in metrics
    assert 'sctd_line_seconds_count{line="VERIFY"} 3' in metrics
    assert hub.guest.ask(f"VERIFY {SNAPSHOT}") == ["ERR hub NotAQuestion"]


@pytest.mark.parametrize("line, wanted", SOUND)
def test_nobody_waits(waiting: Place, store: Path, checked: Path, line: str, wanted: str) -> None:
    """While a release is checked, others ask, import and check no other one."""
    with hub_on(waiting, store, "--import-unchecked") as hub:
        other, third = hub.client(), hub.client()
        hub.owner.send(f"{line}\nSTATUS\n".encode())
        waiting.until_begun()
        assert other.ask(f"GET C {concept_id(1)} 20250131")[-1] == "END 1"
        third.send(b"CHECK wrong\n")
        assert other.ask("IMPORT next") == ["OK 2 1 0"]
        assert not hub.owner.has_reply() and not third.has_reply()
        waiting.go_on()
        # It was checked as the store was then.
        assert (hub.owner.read(), hub.owner.read()) == ([wanted], ["OK 2 11 2 -"])
        assert third.read() == ["ERR 32 Contradiction 1 4"]
    assert not checked.exists()


# ---- Checks before imports


@pytest.mark.parametrize("told, said, status, why", (
    ("sctd: a\n", "OK 2 1 0\n", 0, ""), ("sctd: a\nsctd: a\n", "OK 2 1 0\n", 0, ""),
    ("", "ERR 1 OutOfMemory\n", 1, "its check was answered ERR 1 OutOfMemory"),
    ("sctd: a\n", "OK 2 2 0\n", 0, "its check was answered OK 2 2 0"),
    ("sctd: a", "", 3, "its check ended without a reply")))
def test_a_check_changes_no_import(place: Place, store: Path, told: str, said: str, status: int,
                                   why: str) -> None:
    """Whatever it says: what the program says is told behind it, and where the check can't have
    been one of what was imported, that too."""
    file, = (place.releases / "next").rglob(FILE + "*")
    file.write_text(file.read_text("utf-8").rstrip("\r\n"), "utf-8")
    cut_off = f"sctd: warning: {file.name}: its last line has no end; was the file cut off?"
    lines = [*told.splitlines(), cut_off]
    uncompared = [f"{UNCOMPARED}: {why}"] if why else []
    with hub_on(place.wrapped(CHECKED % (told, said, status)), store) as hub:
        notes, reply = notes_of(hub.owner, "IMPORT next")
        assert reply == "OK 2 1 0"
        assert sorted(notes) == sorted([*lines, *(f"hub: {text}" for text in uncompared)])
        assert [line for line in hub.told().splitlines() if line.startswith("sctd: ")] == lines
        assert hub.logged(is_alone=False) == [
            *(f"next: {text}" for text in uncompared), "IMPORT next: OK 2 1 0"]


@pytest.mark.parametrize("is_full, why", (
    (False, "File exists"), (True, "too little room on the disk")))
def test_no_copy_before_an_import(place: Place, store: Path, checked: Path, is_full: bool,
                                  why: str) -> None:
    """Where there can be no copy, or none that leaves room for a merge, the import goes on, and
    that is told; where none is wanted there is none."""
    text = f"{UNCOMPARED}: no copy: {why}"
    if is_full:
        place = place.changed("store.py", "\nROOM = 2", "\nROOM = 1 << 40")
    else:
        checked.mkdir()
    with hub_on(place, store) as hub:
        assert notes_of(hub.owner, "IMPORT next") == ([f"hub: {text}"], "OK 2 1 0")
        assert hub.logged() == [f"next: {text}", "IMPORT next: OK 2 1 0"]
        assert hub.owner.ask("CHECK package/Delta") == ["OK 3 1 0"]
    with hub_on(place, store, "--import-unchecked") as hub:
        assert notes_of(hub.owner, "IMPORT package/Delta") == ([], "OK 3 1 0")
        assert hub.logged() == ["IMPORT package/Delta: OK 3 1 0"]


def test_a_check_that_takes_too_long(waiting: Place, store: Path, checked: Path) -> None:
    """It is ended, and the import goes on."""
    limit = "LONGEST_CHECK = "
    with hub_on(waiting.changed("checking.py", limit + "3600", limit + "0.5"), store) as hub:
        why = f"hub: {UNCOMPARED}: its check ended without a reply"
        assert notes_of(hub.owner, "IMPORT next") == ([why], "OK 2 1 0")
        assert len(hub.programs()) == 1 and not checked.exists()


def score(number: int) -> int:
    """How soon the system kills a process where memory runs out."""
    return int(Path(f"/proc/{number}/oom_score_adj").read_text("ascii"))


def test_only_imports_wait_for_a_check(waiting: Place, store: Path, checked: Path) -> None:
    """While a release is checked before its import, others ask and make backups. Other imports wait
    for theirs, and are checked on a copy that has the ones before."""
    write_release(store.with_name("releases") / "again", {"C": [concept(20, active=0)]})
    with hub_on(waiting, store) as hub:
        second, other = hub.client(), hub.client()
        second.ask("NOTES")
        hub.owner.send(b"IMPORT next\n")
        waiting.until_begun()
        assert sorted(map(score, hub.programs())) == [score(hub.process.pid), KILLED_FIRST]
        second.send(b"IMPORT again\n")
        assert other.ask(f"GET C {concept_id(1)} 20250131")[-1] == "END 1"
        assert other.ask(f"BACKUP {waiting.path('copy')}") == ["OK 1 10 1"]
        assert other.ask("STATUS") == ["OK 1 10 1 -"]
        assert not hub.owner.has_reply(0.2) and not second.has_reply()
        waiting.go_on()
        assert hub.owner.read() == ["OK 2 1 0"]
        note, reply = second.read()
        assert reply == "ERR 32 Contradiction 1 2" and ": import 2 brought " in note
    assert not checked.exists()


def test_one_copy_at_a_time(waiting: Place, store: Path) -> None:
    """The check before an import waits for one that another client wants."""
    with hub_on(waiting, store) as hub:
        other = hub.client()
        hub.owner.send(f"VERIFY {SNAPSHOT}\n".encode())
        waiting.until_begun()
        other.send(b"IMPORT next\n")
        assert not other.has_reply(0.2)
        assert len(hub.programs()) == 2
        waiting.go_on()
        assert (hub.owner.read(), other.read()) == ([WHOLE], ["OK 2 1 0"])


@pytest.mark.parametrize("line", (*(line for line, _ in SOUND), "IMPORT next"))
def test_what_stays_of_a_hub_that_ends(waiting: Place, store: Path, checked: Path,
                                       line: str) -> None:
    """A hub that is stopped while a release is checked waits for nothing, imports nothing, and
    leaves neither the copy nor the process that checks."""
    patient = waiting.changed("clients.py", "LAST_SECONDS, WAIT_SECONDS = 2, ",
                              "LAST_SECONDS, WAIT_SECONDS = 3600, ")
    kept = store, store.with_name(store.name + ".imports")
    before = [path.read_bytes() for path in kept]
    with hub_on(patient, store) as hub:
        other = hub.client()
        hub.owner.send(line.encode() + b"\n")
        waiting.until_begun()
        other.send(b"IMPORT package/Delta\n")
        started, began = hub.programs(), time.monotonic()
        assert len(started) == 2 and checked.exists()
        assert hub.stop() == 0
        assert time.monotonic() - began < SOON_SECONDS
        assert hub.owner.line() == other.line() == b""
        assert f"{line}: no reply" in hub.logged(is_alone=False)
    assert [path.read_bytes() for path in kept] == before and not checked.exists()
    assert not any(Path(f"/proc/{number}").exists() for number in started)


# ---- What is refused


def test_what_stands_in_the_way(hub: Hub, checked: Path) -> None:
    """A copy that a killed hub has left is replaced. Where none can be made the program checks, and
    others wait; a Snapshot isn't compared then."""
    for line, wanted in SOUND:
        checked.write_bytes(b"left")
        assert hub.owner.ask(line) == [wanted]
        assert not checked.exists()
    checked.mkdir()
    assert hub.owner.ask("CHECK next") == ["OK 2 1 0"]
    assert hub.owner.ask(f"VERIFY {SNAPSHOT}") == ["ERR hub Verify no copy: File exists"]
    assert hub.told().count("no copy to check on: File exists") == 2


def test_names(hub: Hub) -> None:
    """A check and a comparison are refused for what an import is refused for, in its words."""
    for names, refusal, told in ((WRONG_NAMES, "ERR 43 Arguments", 0),
                                 (NAMES_OF_NOTHING, "ERR 45 NoFolder", 1)):
        for name in names:
            notes, reply = notes_of(hub.owner, f"IMPORT {name}")
            assert (reply, len(notes)) == (refusal, told), name
            for word in ("CHECK", "VERIFY"):
                assert notes_of(hub.owner, f"{word} {name}") == (notes, reply), (word, name)


def test_a_program_that_ends(place: Place, store: Path) -> None:
    """What is no reply is none."""
    ending = place.wrapped("""
import os, sys
if sys.argv[1] != "serve":
    sys.exit(3)
os.execv(PROGRAM, [PROGRAM, *sys.argv[1:]])
""")
    with hub_on(ending, store) as hub:
        for word, line in (("Check", "CHECK next"), ("Verify", f"VERIFY {SNAPSHOT}")):
            assert hub.owner.ask(line) == [f"ERR hub {word} the program ended"]


def test_a_program_that_is_gone(place: Place, store: Path) -> None:
    """Where no other one can be started, nothing is checked, and imports go on."""
    gone = place.wrapped("import os, sys\nos.execv(PROGRAM, [PROGRAM, *sys.argv[1:]])\n")
    with hub_on(gone, store) as hub:
        gone.program.unlink()
        why = f"hub: {gone.program}: No such file or directory"
        assert notes_of(hub.owner, "CHECK next") == ([why], "ERR hub Check the program ended")
        notes = [why, f"hub: {UNCOMPARED}: its check ended without a reply"]
        assert notes_of(hub.owner, "IMPORT next") == (notes, "OK 2 1 0")


@pytest.mark.parametrize("line", ("CHECK wrong", f"VERIFY {SNAPSHOT}"))
def test_damage_is_told(store: Path, hub: Hub, line: str) -> None:
    """A check that meets damage tells of it, as other lines do."""
    flip(store)
    reply, = hub.client().ask(line)
    assert reply.startswith("ERR 8 ")
    assert hub.owner.ask("STATUS")[0].endswith(" Damaged")
    assert hub.stop() == 1
