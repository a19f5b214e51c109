"""Tries the list of imports that the hub keeps beside the store: what is in it, that nothing waits
for it but the import, and what is told of it after kills, take-backs, writes of other programs and
on a full disk."""

import contextlib
import os
import random
import re
import resource
import shutil
import subprocess
import time
from collections.abc import Callable, Iterator, Sequence
from pathlib import Path
from typing import NamedTuple

import pytest

from harness import BLOCK, HUB, HUB_SECONDS, RELEASES, SMALL_RELEASES, TRACE, Client, Hub, Place
from harness import Ran, concept, has_strace, mode, until, write_release

FIRST_LINE = "sctd imports 1\n"
TIME = "[0-9]{4}-[0-9]{2}-[0-9]{2}T[0-9]{2}:[0-9]{2}:[0-9]{2}Z"
NO_DIGEST, NOTHING = "-", "\t-" * 6
CLIENT, TAKE = "examples/client.py", "examples/take_copy.py"
# What the guide tells others to compute of a release.
DIGEST = ("cd \"$1\" && find -L Terminology Refset -maxdepth 2 -type f -print0 2> /dev/null | "
          "LC_ALL=C sort -z | xargs -0 sha256sum -z | sha256sum")
# How often a hub is killed, and after how many imports and then how many seconds at most. By this
# seed there are 30 imports at least.
KILLS, KILL_IMPORTS, KILL_SECONDS = 50, 1, 0.15
SEED = 18
# The calls that are traced to see what is synced.
TRACED_CALLS = ("-s", "400", "-e", "trace=openat,pwrite64,write,sendto,fsync,exit_group")
# Lines of the hub's code.
DIGESTING, SYNCING = "                digest.update(part)\n", "            os.fsync(number)\n"


def digest_of(release: Path) -> str:
    """The digest of a release, by the system's own commands."""
    done = subprocess.run(["sh", "-c", DIGEST, "sh", release], stdout=subprocess.PIPE, check=True)
    return done.stdout.decode().partition(" ")[0]


def list_of(store: Path) -> Path:
    return Path(f"{store}.imports")


def listed(store: Path) -> list[str]:
    """The lines of a list behind the first one, without their times."""
    first, lines = list_of(store).read_text("utf-8").split("\n", maxsplit=1)
    assert first + "\n" == FIRST_LINE
    assert lines == "" or lines.endswith("\n")
    return [re.sub(f"\t{TIME}", "", line) for line in lines.splitlines()]


def rows(client: Client) -> list[str]:
    """What IMPORTS is answered, without the times."""
    *found, end = client.ask("IMPORTS")
    assert end == f"END {len(found)}"
    return [re.sub(f"\t{TIME}", "", row.removeprefix("ROW ")) for row in found]


def line_of(number: int, release: Path, new: int, repeated: int = 0, digest: str = "") -> str:
    """The line of an import that this user asked for, without its time."""
    digest = digest or digest_of(release)
    return f"{number}\t{release.name}\t{new}\t{repeated}\t{digest}\tuser {os.geteuid()}"


def told(hub: Hub) -> list[str]:
    """What a hub has told of the list, without the times."""
    found = re.findall(rf"^{TIME} \S+\.imports: (.*)$", hub.faults.read_text("utf-8"), re.M)
    return [str(text) for text in found]


def night_lines(made: Sequence[Path]) -> list[str]:
    """The lines of releases of a row each, which were imported in this order."""
    return [line_of(number, release, 1) for number, release in enumerate(made, 1)]


def imported(place: Place, store: Path, made: Sequence[Path]) -> list[str]:
    """Imports releases of one folder by a hub, and answers the rows of its list."""
    with Hub(place, store, releases=made[0].parent) as hub:
        for release in made:
            hub.owner.ask(f"IMPORT {release.name}")
        return rows(hub.owner)


def lacks(lines: Sequence[str]) -> list[str]:
    """What is told of a list where some of these imports have no line."""
    lacking = [number for number, line in enumerate(lines, 1) if line.endswith(NOTHING)]
    return [f"it has no line for {len(lacking)} of {len(lines)} imports, the first of which is "
            f"{lacking[0]}"] if lacking else []


def begins(place: Place, store: Path, tells: Sequence[str], lines: Sequence[str],
           *made: Path) -> None:
    """A hub that is started tells this of the list, and which lines it lacks. It answers these rows
    of it, the last ones after the import of these releases."""
    with Hub(place, store, releases=place.releases) as hub:
        before = lines[: len(lines) - len(made)]
        assert (told(hub), rows(hub.owner)) == ([*tells, *lacks(before)], before)
        for number, release in enumerate(made, len(before) + 1):
            assert hub.owner.ask(f"IMPORT {release.name}") == [f"OK {number} 1 0"]
        assert rows(hub.owner) == lines


def without_hub(place: Place, store: Path) -> Ran:
    """What the list of a store is without a hub."""
    return place.run_script(HUB, "imports", "--program", place.program, "--store", store)


def odd_release(folder: Path) -> Path:
    """A release with files that its digest has and with others, under odd names."""
    odd = write_release(folder, {"C": [concept(1)]})
    for name in ("Refset/b/1 2\n\\.txt", "Refset/b-c/1.txt", "Refset/b/deeper/x", "Refset/y",
                 "Terminology/d/z", "Terminology/d.e/\u00fc", "outside"):
        (odd / name).parent.mkdir(parents=True, exist_ok=True)
        (odd / name).write_text(name, encoding="utf-8")
    (odd / "Terminology/nowhere").symlink_to("no file")
    (odd / "Terminology/elsewhere.txt").symlink_to(odd / "outside")
    os.mkfifo(odd / "Refset/b-c/pipe")
    (odd / "Terminology/long").write_bytes(os.urandom(200_000))
    return odd


def test_the_list(place: Place) -> None:
    """Confirmed imports have a line, and nothing else; others compute the same digest."""
    store, odd = place.make_store(layout=3), odd_release(place.releases / "odd" / "Full")
    place.link_releases()
    lines = [line_of(1, RELEASES / "r1", 6), line_of(2, RELEASES / "r2", 4),
             line_of(3, RELEASES / "r1", 0, 6),
             line_of(4, odd, 1).replace("\tFull\t", "\todd/Full\t")]
    with Hub(place, store, releases=place.releases, asks=True) as hub:
        assert hub.told() == ""
        client, asker = hub.client(), hub.asker()
        assert asker.ask("IMPORTS") == ["END 0"]
        for line in ("IMPORT r1", "CHECK r2", "IMPORT r9", "IMPORT ../r1", "IMPORT r2", "MERGE",
                     "IMPORT r1\r", "ABANDON", "IMPORT odd/Full"):
            client.ask(line)
        assert rows(asker) == rows(client) == lines
        assert client.ask("STATUS")[0].startswith("OK 4 ")
        assert "sctd_unlisted 0" in " ".join(client.ask("METRICS"))
        whole = "".join(row.removeprefix("ROW ") + "\n" for row in client.ask("IMPORTS")[:-1])
        reply = "".join(row + "\n" for row in client.ask("IMPORTS"))
        today = client.ask(f"KNOWN {time.strftime('%Y%m%d', time.gmtime())}")
        assert re.fullmatch(f"OK 4 {TIME}", today[0])
    assert listed(store) == lines
    assert list_of(store).read_text("utf-8") == FIRST_LINE + whole
    assert mode(list_of(store)) == 0o600
    assert without_hub(place, store) == (0, reply, "")
    with Hub(place, store) as hub:
        assert told(hub) == []
        assert rows(hub.client()) == lines
        assert without_hub(place, store)[:2] == (1, "")


@pytest.mark.parametrize("before", (DIGESTING, SYNCING))
def test_nobody_else_waits(place: Place, before: str) -> None:
    """An import isn't answered before its line is on the disk, nor before the digest is computed
    that is in it, and others are answered meanwhile; but a copy waits, and has both."""
    store, copy, go_on = place.make_store(), place.path("copy"), place.path("go on")
    waiting = place.stopping("imports.py", before, f"os.path.exists({str(go_on)!r})")
    lines = [line_of(1, RELEASES / "r1", 6)]
    with Hub(waiting, store, asks=True) as hub:
        client, owner, other, watching = hub.client(), hub.client(), hub.asker(), hub.asker()
        assert watching.ask("WATCH") == ["OK 0"]
        client.send(b"IMPORT r1\n")
        until("the import", lambda: other.ask("STATUS") == ["OK 1 6 1 -"])
        owner.send(f"BACKUP {copy}\n".encode())
        for _ in range(100):
            assert other.ask("GET C 138875005 20210131")[-1] == "END 1"
            assert other.ask("IMPORTS") == ["END 0"]
        assert not (client.has_reply(0.2) or watching.has_reply() or owner.has_reply(0.5))
        go_on.touch()
        assert (client.read(), owner.read()) == (["OK 1 6 0"], ["OK 1 6 1"])
        assert watching.read() == ["OK 1"]
        assert rows(other) == listed(copy) == listed(store) == lines


def syncs_before(reply: str, trace: str) -> int:
    """How often files are synced between the write of a line of the list and a reply."""
    opened = trace[trace.index('.imports", O_RDWR') :]
    answered = re.search(rf'(sendto|write)\([0-9]+, "{reply}\\n", 9', opened)
    assert answered is not None
    return opened[opened.index("\\tuser ") : answered.start()].count("fsync(")


@pytest.mark.skipif(not has_strace(), reason="it takes strace")
@pytest.mark.parametrize("is_hub", (True, False))
def test_syncs(place: Place, is_hub: bool) -> None:
    """Before an import is answered its line is synced, and the folder of a new list too, by the hub
    and by the program itself."""
    store = place.make_store()
    for release, reply, syncs in (("r1", "OK 1 6 0", 2), ("r2", "OK 2 4 0", 1)):
        path = place.path(release)
        tracing = [*TRACE, "-o", str(path), *TRACED_CALLS]
        if is_hub:
            with Hub(place, store, before=tracing) as hub:
                hub.owner.ask(f"IMPORT {release}")
        else:
            words = map(str, (place.program, "import", "--store", store, RELEASES / release))
            subprocess.run([*tracing, *words], capture_output=True, check=True)
        until("the trace has its end", lambda: b"exit_group" in path.read_bytes()[-200:])
        assert syncs_before(reply, path.read_text("utf-8", "backslashreplace")) == syncs


def test_end_while_a_digest_is_computed(place: Place) -> None:
    """It isn't waited for; the import has its line."""
    store = place.make_store()
    stuck = "                self.is_stopped.wait()\n"
    with Hub(place.changed("imports.py", DIGESTING, stuck), store) as hub:
        hub.owner.send(b"IMPORT r1\n")
        until("the import", lambda: hub.client().ask("STATUS") == ["OK 1 6 1 -"])
        assert hub.stop() == 0
        assert hub.owner.read() == ["OK 1 6 0"]
        assert "r1: no digest of its files: the hub ends\n" in hub.told()
    assert listed(store) == [line_of(1, RELEASES / "r1", 6, digest=NO_DIGEST)]


def test_kills(place: Place) -> None:
    """Whenever the hub is killed while it imports, each import that was answered has its line, and
    of the others at most the last one lacks it, which the next start tells."""
    store, releases = place.make_store(), place.write_nights(40)
    drawn, lacking = random.Random(SEED), set[int]()
    for _ in range(KILLS):
        with Hub(place, store, releases=place.releases) as hub:
            lines, before = rows(hub.client()), lacking
            lacking = {number for number, line in enumerate(lines, 1) if line.endswith(NOTHING)}
            assert lacking - before <= {len(lines)}
            assert [text for text in told(hub) if "has no end" not in text] == lacks(lines)
            answered = import_until_killed(hub, releases, drawn)
        numbers = {int(line.partition("\t")[0]) for line in listed_whole(store)}
        assert answered <= numbers
    assert len(listed_whole(store)) >= KILLS / 2


def listed_whole(store: Path) -> list[str]:
    if not list_of(store).exists():
        return []
    return list_of(store).read_text("utf-8").split("\n")[1:-1]


def import_until_killed(hub: Hub, releases: list[Path], drawn: random.Random) -> set[int]:
    """Imports until the hub is killed, and answers which imports were answered."""
    hub.owner.send("".join(f"IMPORT {one.name}\n" for one in releases).encode())
    answers = [hub.owner.line() for _ in range(drawn.randint(0, KILL_IMPORTS))]
    time.sleep(drawn.uniform(0, KILL_SECONDS))
    for number in hub.programs():
        with contextlib.suppress(ProcessLookupError):  # A check may have ended meanwhile.
            os.kill(number, 9)
    hub.process.kill()
    hub.process.wait()
    answers += iter(hub.owner.line, b"")
    return {int(line.split()[1]) for line in answers if line.startswith(b"OK ")}


def take_back(place: Place, store: Path, imports: int) -> None:
    """Puts the first imports of a store in its place."""
    before = place.copy(store, "before", imports)
    before.replace(store)


def test_two_take_backs(place: Place) -> None:
    """What the list has of imports that were taken back doesn't count for those that came later."""
    store, made = place.make_store(), place.write_nights(9)
    imported(place, store, made[:5])
    take_back(place, store, 3)
    beyond = without_hub(place, store)
    assert beyond.output.count("ROW ") == 5
    assert "it has lines of 2 imports that the store doesn't have" in beyond.faults
    taken = "it has lines for imports %d to %d, which the store doesn't have: they don't count"
    four = night_lines([*made[:3], made[5]])
    begins(place, store, [taken % (4, 5)], four, made[5])
    # One that an older program made, which kept no list.
    kept = list_of(store).read_bytes()
    place.import_one(store, made[6])
    list_of(store).write_bytes(kept)
    begins(place, store, [], [*four, "5" + NOTHING, line_of(6, made[7], 1)], made[7])
    take_back(place, store, 2)
    last = night_lines([*made[:2], made[8]])
    begins(place, store, [taken % (3, 6)], last, made[8])
    begins(place, store, [], last)
    assert [line for line in listed(store) if line.startswith("back")] == ["back\t3", "back\t2"]


def test_take_back_that_was_none(place: Place) -> None:
    """Where an older store was served by mistake, its line `back` can be deleted again."""
    store, whole = place.make_store(), place.path("whole")
    lines = imported(place, store, place.write_nights(3))
    before = list_of(store).read_bytes()
    store.rename(whole)
    place.copy(whole, "store", 2)
    with Hub(place, store) as hub:
        assert len(rows(hub.client())) == 2
    whole.replace(store)
    after = list_of(store).read_bytes()
    assert after.startswith(before + b"back\t2\t")
    begins(place, store, [], [*lines[:2], "3" + NOTHING])
    list_of(store).write_bytes(after[: after.rindex(b"back")])
    begins(place, store, [], lines)


def appended(text: bytes) -> Callable[[Path], object]:
    return lambda path: path.write_bytes(path.read_bytes() + text)


def instead(make: Callable[[Path], None]) -> Callable[[Path], object]:
    def change(path: Path) -> None:
        path.unlink()
        make(path)

    return change


CHANGED = "another program has changed it: what it has now counts from the next start"
UNREAD = "1 of its lines can't be read, the first of which is line 4"
UNKNOWN = "it is no list of imports that this hub knows"
NO_FILE = f"it is no file of {64 << 20} bytes at most"
# What becomes of a list; what is told of it then and at the next start, and whether it is written.
CHANGES: dict[str, tuple[Callable[[Path], object], str, list[str], bool]] = {
    "removed": (Path.unlink, CHANGED, [], True),
    "with garbage": (appended(b"4\tnot a line\n"), CHANGED, [UNREAD], True),
    "with a cut line": (appended(b"4\t2020-10-01T09:00"), CHANGED, [], True),
    "of another": (lambda path: path.write_bytes(b"somebody else's\n"), UNKNOWN, [UNKNOWN], False),
    "a folder": (instead(Path.mkdir), "Is a directory", ["Is a directory", NO_FILE], False),
    "a pipe": (instead(os.mkfifo), NO_FILE, [NO_FILE], False)}


@pytest.mark.parametrize("change, told_meanwhile, told_at_start, is_written", CHANGES.values(),
                         ids=CHANGES.keys())
def test_other_programs(place: Place, change: Callable[[Path], object], told_meanwhile: str,
                        told_at_start: list[str], is_written: bool) -> None:
    """Whatever another program does with the list, imports go on, and it is told."""
    store, made = place.make_store(), place.write_nights(4)
    with Hub(place, store, releases=place.releases) as hub:
        for release in made[:2]:
            hub.owner.ask(f"IMPORT {release.name}")
        change(list_of(store))
        assert hub.owner.ask("IMPORT n3") == ["OK 3 1 0"]
        assert hub.owner.ask("STATUS") == ["OK 3 3 3 -" + " Unlisted" * (not is_written)]
        lines = night_lines(made)
        assert rows(hub.owner) == lines[:3]
        said, = told(hub)
        assert told_meanwhile in said
    with Hub(place, store, releases=place.releases) as hub:
        assert hub.owner.ask("IMPORT n4") == ["OK 4 1 0"]
        unwritten = [f"{number}{NOTHING}" for number in (1, 2, 3)]
        assert rows(hub.owner) == (lines if is_written else [*unwritten, lines[3]])
        first = told(hub)[:1]
        assert all(any(text in one for text in told_at_start) for one in first)
        assert bool(first) == bool(told_at_start)


def test_list_of_another_store(place: Place) -> None:
    """Lines that say something else than the receipts don't count."""
    store, other = place.make_store(), place.make_store("other")
    imported(place, other, [RELEASES / name for name in ("r2", "r1", "r3")])
    place.import_all(store, SMALL_RELEASES)
    shutil.copy(list_of(other), list_of(store))
    begins(place, store, [
        "2 of its lines have another number of new rows than the store, the first of them for "
        "import 1: they don't count"],
        ["1" + NOTHING, "2" + NOTHING, line_of(3, RELEASES / "r3", 2, 1)])


# A line of a list that counts for nothing.
NO_IMPORTS = "back\t9\t2020-01-01T00:00:00Z\n"


def mount_again(folder: Path, how: str) -> None:
    subprocess.run(["mount", "-o", f"remount,{how}", str(folder)], check=True)


@contextlib.contextmanager
def limited(store: Path, process: int) -> Iterator[None]:
    """No file of a process may become longer than a store's list and some of a line."""
    most = list_of(store).stat().st_size + 20
    before = resource.prlimit(process, resource.RLIMIT_FSIZE, (most, resource.RLIM_INFINITY))
    try:
        yield
    finally:  # It may be the process of all trials.
        resource.prlimit(process, resource.RLIMIT_FSIZE, before)


@contextlib.contextmanager
def full(store: Path, _process: int) -> Iterator[None]:
    filler = store.with_name("filler")
    with open(filler, "wb", buffering=0) as disk, contextlib.suppress(OSError):
        while True:
            disk.write(b"x" * BLOCK)
    yield
    filler.unlink()


@contextlib.contextmanager
def only_read(store: Path, _process: int) -> Iterator[None]:
    mount_again(store.parent, "ro")
    yield
    mount_again(store.parent, "rw")


class Unwritable(NamedTuple):
    """Why a list can't be written: what does that to a store's list for a process; what the hub
    says, and the program; and whether it takes a disk of its own."""

    begin: Callable[[Path, int], contextlib.AbstractContextManager[None]]
    hub_says: str
    program_says: str
    has_disk: bool = True


ONLY_READ = Unwritable(only_read, "Read-only file system", "Read-only file system (os error 30)")
UNWRITABLE = (
    Unwritable(limited, "File too large", "file too large", has_disk=False),
    Unwritable(full, "No space left on device", "No space left on device (os error 28)"), ONLY_READ)


@pytest.fixture(params=UNWRITABLE, ids=("limited", "full", "only_read"))
def unwritable(request: pytest.FixtureRequest) -> Unwritable:
    if request.param.has_disk:
        request.getfixturevalue("small_disk")
    found: Unwritable = request.param
    return found


@pytest.fixture
def linked(place: Place, unwritable: Unwritable) -> Path:
    """A link to a store with an import, whose list has no room for another line in its blocks: so
    the list is on the small disk where there is one, and the store itself on another one."""
    link = place.path("small" if unwritable.has_disk else "") / "link"
    link.symlink_to(place.make_store("own"))
    imported(place, link, place.write_nights(1))
    with open(list_of(link), "a", encoding="utf-8") as file:
        file.write(NO_IMPORTS * ((8 * BLOCK - list_of(link).stat().st_size) // len(NO_IMPORTS)))
    return link


def test_unwritten_lines(place: Place, linked: Path, unwritable: Unwritable) -> None:
    """Where the list can't be written, imports go on, and STATUS says that their lines are missing,
    until they can be."""
    lines, before = night_lines(place.write_nights(4)), list_of(linked).read_bytes()
    with Hub(place, linked, releases=place.releases) as hub:
        with unwritable.begin(linked, hub.process.pid):
            for number in (2, 3):
                assert hub.owner.ask(f"IMPORT n{number}") == [f"OK {number} 1 0"]
                assert hub.owner.ask("STATUS") == [f"OK {number} {number} {number} - Unlisted"]
                assert list_of(linked).read_bytes() == before
            assert told(hub) == [
                f"{number} lines aren't written: {unwritable.hub_says}" for number in (1, 2)]
            assert "ROW sctd_unlisted 2" in hub.owner.ask("METRICS")
            assert rows(hub.owner) == lines[:3]
        assert hub.owner.ask("IMPORT n4") == ["OK 4 1 0"]
        assert hub.owner.ask("STATUS") == ["OK 4 4 4 -"]
        assert rows(hub.owner) == lines
    assert [line for line in listed(linked) if "back" not in line] == lines
    begins(place, linked, [], lines)


@pytest.mark.parametrize("unwritable", (ONLY_READ,), indirect=True, ids=("only_read",))
def test_unwritten_lines_at_the_end(place: Place, linked: Path, unwritable: Unwritable) -> None:
    """What is missing is written as a hub ends, or it is told, also by the next start."""
    lines = night_lines(place.write_nights(3))
    said = f"1 lines aren't written: {unwritable.hub_says}"
    with Hub(place, linked, releases=place.releases) as hub:
        with unwritable.begin(linked, hub.process.pid):
            assert hub.owner.ask("IMPORT n2") == ["OK 2 1 0"]
            assert told(hub) == [said]
        assert hub.stop() == 0
    assert [line for line in listed(linked) if "back" not in line] == lines[:2]
    with unwritable.begin(linked, 0), Hub(place, linked, releases=place.releases) as hub:
        assert told(hub) == []
        assert hub.owner.ask("IMPORT n3") == ["OK 3 1 0"]
        hub.stop()
        assert told(hub) == [said] * 2
    begins(place, linked, [], [*lines[:2], "3" + NOTHING])


def test_copies_have_it(place: Place) -> None:
    """A copy has the list of the imports that it has; without it there is no copy."""
    store, made = place.make_store(), place.write_nights(3)
    copy, other = place.path("copy"), place.path("other")
    with Hub(place, store, releases=place.releases) as hub:
        assert hub.owner.ask(f"BACKUP {other}") == ["OK 0 0 0"]
        assert not list_of(other).exists()
        for release in made[:2]:
            hub.owner.ask(f"IMPORT {release.name}")
        assert hub.owner.ask(f"BACKUP {copy}") == ["OK 2 2 2"]
        hub.owner.ask("IMPORT n3")
        list_of(place.path("third")).write_text("somebody else's", encoding="utf-8")
        assert hub.owner.ask(f"BACKUP {place.path('third')}") == [
            "ERR hub Backup the list of imports: File exists"]
        assert not place.path("third").exists()
    assert list_of(place.path("third")).read_text("utf-8") == "somebody else's"
    assert listed(copy) == night_lines(made[:2])
    assert mode(list_of(copy)) == 0o600
    with Hub(place, copy, "--read-only", has_own=False, asks=True) as hub:
        assert told(hub) == []
        assert rows(hub.asker()) == listed(copy)


def test_readers_have_it(place: Place) -> None:
    """take_copy.py puts the list of a copy in its place, too."""
    store, reader, copy = place.make_store(), place.path("reader"), place.path("copy")
    imported(place, store, place.write_nights(2))
    shutil.copy(store, reader)
    list_of(reader).write_text(FIRST_LINE, encoding="utf-8")
    with Hub(place, store, asks=True) as hub:
        assert hub.client().ask(f"BACKUP {copy}") == ["OK 2 2 2"]
        ran = place.run_script(TAKE, "--program", place.program, "--store", reader, "--questions",
                               hub.questions, copy, "true")
        assert ran[:2] == (0, "OK 2\n"), ran.faults
    assert listed(reader) == listed(store)
    assert not (copy.exists() or list_of(copy).exists())


def with_times(store: Path, *times: str) -> None:
    given = iter(times)
    text = list_of(store).read_text("utf-8")
    list_of(store).write_text(re.sub(TIME, lambda _: next(given), text), encoding="utf-8")


def test_client_of_a_day(place: Place) -> None:
    """`client.py --known` asks as of the last import by the end of a day, and says which it is."""
    store = place.make_store()
    imported(place, store, SMALL_RELEASES)
    with_times(store, "2020-02-01T23:59:59Z", "2021-02-01T00:00:00Z", "2021-02-01T12:00:00Z")
    lines = b"PIN\nRECEIPT 1\nRECEIPT 2\nGET C 1000004 20210131\n"
    active = "ROW 1000004\t20200131\t1\t900000000000207008\t900000000000074008\nEND 1\n"
    with Hub(place, store, asks=True) as hub:
        def known(day: str, given: bytes = lines) -> Ran:
            return place.run_script(CLIENT, "--known", day, hub.questions, given=given)

        assert known("2020-12-31", lines[4:])[1:] == (
            "OK 1 6 20200131\nERR 44 PinRange\n" + active,
            "client: known on 2020-12-31: pin 1, import made at 2020-02-01T23:59:59Z\n")
        assert known("2021-02-01", b"RECEIPT 3")[:2] == (0, "OK 3 2 20200731\n")
        for day, why in (
                ("2020-01-31", "the day 2020-01-31 is before the first import, which was made at "
                 "2020-02-01T23:59:59Z"),
                ("9999-12-31", "the day 9999-12-31 hasn't begun: days are those of UTC")):
            asked = f"KNOWN {day.replace('-', '')}"
            wanted = f"client: {asked} was answered ERR hub NoImport {why}\n"
            assert known(day) == (1, "", wanted)
        assert known("today")[:2] == (1, "")


# What OPERATE tells to do where a store is lost. (A copy of the list is taken where that is lost
# too.)
RESTORE = """
set -e
sctd copy --store copy.store --to terms.store
test -e terms.store.imports || cp copy.store.imports terms.store.imports
python3 "$SCTD/service/sctd-hub" imports --store terms.store --to-repeat | while read -r name; do
    sctd import --quiet --store terms.store --releases releases "$name"
done
"""


@pytest.mark.parametrize("is_lost", (False, True))
def test_restore(place: Place, is_lost: bool) -> None:
    """After a restore the store and its list are what they were, with the times that they had; and
    if the list is lost too, the copy's is taken, and the log has what came after it."""
    store, made = place.make_store("terms.store"), place.write_nights(6)
    days = [f"2020-10-{day:02}T01:00:00Z" for day in range(1, 6)]
    with Hub(place, store, releases=place.releases) as hub:
        for number, release in enumerate(made[:5], 1):
            hub.client().ask(f"IMPORT {release.name}")
            if number == 3:
                assert hub.client().ask(f"BACKUP {place.path('copy.store')}") == ["OK 3 3 3"]
    with_times(store, *days)
    before, digest = list_of(store).read_bytes(), place.digest(store)
    store.unlink()
    if is_lost:
        list_of(store).unlink()
    around = os.environ | {"SCTD": str(place.tree), "PATH": f"{place.path('bin')}:/usr/bin:/bin"}
    place.path("bin").mkdir()
    place.path("bin/sctd").symlink_to(place.program)
    done = subprocess.run(["sh", "-c", RESTORE], cwd=place.folder, env=around, capture_output=True,
                          timeout=HUB_SECONDS, check=False)
    again = b"" if is_lost else b"OK 4 1 0\nOK 5 1 0\n"
    assert (done.returncode, done.stdout) == (0, b"OK\n" + again), done.stderr
    with Hub(place, store, releases=place.releases) as hub:
        assert told(hub) == []
        if is_lost:
            assert hub.owner.ask("STATUS") == ["OK 3 3 3 -"]
            assert hub.owner.ask("IMPORT n4") == ["OK 4 1 0"]
            assert len(rows(hub.owner)) == 4
        else:
            assert hub.owner.ask("KNOWN 20201004") == ["OK 4 2020-10-04T01:00:00Z"]
            assert hub.owner.ask("IMPORT n6") == ["OK 6 1 0"]
            assert list_of(store).read_bytes().startswith(before)
    if not is_lost:
        assert place.digest(store, 5) == digest
