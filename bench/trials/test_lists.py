"""Tries the list of imports that the program itself keeps beside the store: what `import` adds to
it and `copy` makes of it, that a hub takes it up, and that no fault of it changes either."""

import itertools
import os
import shutil
import signal
from collections import Counter
from collections.abc import Callable, Iterator, Sequence
from functools import partial
from pathlib import Path

import pytest

from harness import RELEASES, Hub, Place, concept, mode, write_release
from moments import Library, Moment
from test_files import library as library
from test_imports import FIRST_LINE, KILLS, NO_DIGEST, NOTHING, UNWRITABLE, Unwritable, appended
from test_imports import begins, line_of, linked as linked, list_of, listed, night_lines
from test_imports import odd_release, unwritable as unwritable, with_times, without_hub

UNLISTED = "sctd: warning: {}.imports: the import isn't listed: {}\n"
NOT_COPIED = "sctd: warning: {}.imports isn't copied to {}.imports: {}\n"
NO_FILE, IS_FOLDER = "not a regular file", "Is a directory (os error 21)"
NOWHERE = "No such file or directory (os error 2)"
NO_LIST = "it is no list of imports that this program knows"
# Before which calls on which files an import is killed, and how.
KILLED_BEFORE = [(call, path) for path in (".txt", "store", "store.imports")
                 for call in ("open", "read", "pread", "pwrite", "fsync")]
KILLING, MOST_KILLS = "kill -9 $PPID", 99
# What has nothing of sudo around it, where it is the user that counts.
ALONE = {name: value for name, value in os.environ.items() if not name.startswith("SUDO_")}


def imports(place: Place, store: Path, release: Path, reply: str, faults: str = "",
            before: Callable[[], object] | None = None) -> None:
    """An import that is answered so and done, and tells this."""
    ran = place.run("import", "--quiet", "--store", store, release, around=ALONE, before=before)
    assert ran == (0, f"{reply}\n", faults)


def import_nights(place: Place, store: Path, made: Sequence[Path], first: int = 1) -> None:
    for number, release in enumerate(made, first):
        imports(place, store, release, f"OK {number} 1 0")


def test_the_list(place: Place) -> None:
    """Confirmed imports have a line, and no check, refused import or failed copy; others compute
    the same digest, and a hub finds nothing wrong with the list."""
    store, odd = place.make_store(layout=3), odd_release(place.path("odd"))
    faulty = write_release(place.path("faulty"), {"C": [concept(1).replace("20250131", "x")]})
    lines = [line_of(1, RELEASES / "r1", 6), line_of(2, RELEASES / "r2", 4),
             line_of(3, RELEASES / "r1", 0, 6), line_of(4, odd, 1)]
    for number, (name, reply) in enumerate((("r1", "6 0"), ("r2", "4 0"), ("r1", "0 6")), 1):
        place.run("import", "--check", "--store", store, RELEASES / "r3")
        for release in (faulty, RELEASES / "r9", place.folder):
            place.run("import", "--store", store, release)
        assert list_of(store).exists() == (number > 1)
        imports(place, store, RELEASES / name, f"OK {number} {reply}")
    ran = place.run("import", "--quiet", "--store", store, "--releases", odd.parent, odd.name,
                    around=ALONE)
    assert ran[:2] == (0, "OK 4 1 0\n")
    assert ".imports" not in ran.faults
    assert listed(store) == lines
    assert mode(list_of(store)) == 0o600
    assert without_hub(place, store).output.count("ROW ") == 4
    place.refuses(["copy", "--store", store, "--to", "copy", "--imports", "5"], "ERR 44 PinRange",
                  "the store has fewer imports\n")
    begins(place, store, [], lines)


def test_who_asked(place: Place) -> None:
    """The user who ran sudo, if a list may have the name; or else whose process it is."""
    store = place.make_store()
    for name in ("alice", "", "al\tice", "a b", "\u00fc", "x" * 200, "x" * 201):
        ran = place.run("import", "--quiet", "--store", store, RELEASES / "r1",
                        around=ALONE | {"SUDO_USER": name})
        assert (ran.status, ran.faults) == (0, "")
    own = f"user {os.geteuid()}"
    assert [line.rpartition("\t")[2] for line in listed(store)] == [
        "user alice", own, own, own, own, "user " + "x" * 200, own]


@pytest.mark.skipif(os.geteuid() != 0, reason="it takes the right to be another user")
def test_other_user(place: Place) -> None:
    """The user of the process, and not the owner of the program or of the files."""
    store = place.make_store()
    for path in (place.folder, store):
        os.chown(path, 1234, 1234)
    imports(place, store, RELEASES / "r1", "OK 1 6 0", before=partial(os.setuid, 1234))
    assert listed(store)[0].endswith("\tuser 1234")


def listed_so_far(store: Path) -> list[str]:
    """The lines of its list, without their times, if it has one that isn't empty."""
    return listed(store) if list_of(store).exists() and list_of(store).stat().st_size else []


def killed_before(library: Library, call: str, path: str) -> Iterator[dict[str, str]]:
    """What is around imports that are killed before their first call on such a file, before their
    second one, and so on, and around the one that has no more such calls."""
    for number in itertools.count(1):
        yield ALONE | library.around([Moment(call, path, number, number, 0, KILLING)])
        if not library.met():
            return


def test_kills(place: Place, library: Library) -> None:
    """Before whichever of these calls an import is killed: one that is done has its line or lacks
    it, which the next start tells, and one that isn't done has none."""
    store, nights, lines = place.make_store(), place.write_nights(MOST_KILLS), list[str]()
    ends, moments = Counter[tuple[bool, bool]](), itertools.chain.from_iterable(
        killed_before(library, call, path) for call, path in KILLED_BEFORE)
    for release, around in zip(nights, moments):
        before, number = listed_so_far(store), len(lines) + 1
        ran = place.run("import", "--quiet", "--store", store, release, around=around)
        is_done = place.status(store).startswith(f"OK {number} ")
        added = listed_so_far(store)[len(before) :]
        assert added in ([], [line_of(number, release, 1)][:is_done])
        if library.met():
            assert ran[:2] == (-signal.SIGKILL, "")
            ends[is_done, bool(added)] += 1
        else:
            assert ran == (0, f"OK {number} 1 0\n", "") and added
        if is_done:
            lines += added or [f"{number}{NOTHING}"]
            begins(place, store, [], lines)
    assert ends.total() >= KILLS and set(ends) == {(False, False), (True, False), (True, True)}


def test_two_take_backs(place: Place) -> None:
    """A copy of the first imports has the list of these: others that come later count."""
    store, made = place.make_store(), place.write_nights(9)
    import_nights(place, store, made[:5])
    for first, last in ((3, 6), (2, 8)):
        right = place.copy(store, f"right{first}", first)
        assert mode(list_of(right)) == 0o600
        for name, old in ((right, store), (list_of(right), list_of(store))):
            name.replace(old)
        assert "doesn't have" not in without_hub(place, store).faults
        begins(place, store, [], night_lines(made[:first]))
        import_nights(place, store, made[last - 1 : last + 1], first + 1)
    lines = night_lines([*made[:2], *made[7:9]])
    begins(place, store, [], lines)
    with_times(store, *(f"2020-10-{day:02}T01:00:00Z" for day in range(1, 12)))
    with Hub(place, store) as hub:
        for day, known in (("01", "OK 1 2020-10-01"), ("09", "OK 2 2020-10-02"),
                           ("10", "OK 3 2020-10-10"), ("11", "OK 4 2020-10-11")):
            assert hub.owner.ask(f"KNOWN 202010{day}") == [f"{known}T01:00:00Z"]


def test_whole_copies(place: Place) -> None:
    """A copy of all imports has all lines, and one of a store without a list has none."""
    store, made = place.make_store(), place.write_nights(3)
    assert not list_of(place.copy(store, "none")).exists()
    import_nights(place, store, made)
    for name, layout in (("copy", None), ("other", 3)):
        copy = place.copy(store, name, layout=layout)
        assert list_of(copy).read_bytes() == list_of(store).read_bytes()
        begins(place, copy, [], night_lines(made))
    # A line without an end isn't copied.
    with open(list_of(store), "ab") as file:
        file.write(b"4\t2020")
    copy = place.copy(store, "third", 3)
    assert listed(copy) == [*night_lines(made), "back\t3"]
    begins(place, copy, [], night_lines(made))


def test_repeated(place: Place) -> None:
    """What the list has is repeated without another line, and keeps its time, whether it is done at
    once or not; another release ends the lines of later imports."""
    store, made = place.make_store(), place.write_nights(7)
    import_nights(place, store, made[:5])
    with_times(store, *(f"2020-10-{day:02}T01:00:00Z" for day in range(1, 6)))
    before, whole = list_of(store).read_bytes(), place.digest(store)
    first = place.copy(store, "first", 2)
    list_of(first).unlink()
    first.replace(store)
    for number in (3, 4, 5):
        ran = place.run_script("service/sctd-hub", "imports", "--program", place.program, "--store",
                               store, "--to-repeat")
        assert ran.output.split() == [release.name for release in made[number - 1 : 5]]
        import_nights(place, store, made[number - 1 : number], number)
        assert list_of(store).read_bytes() == before
    assert place.digest(store) == whole
    begins(place, store, [], night_lines(made[:5]))
    # (Its rows are the same, and so is their number.)
    place.copy(store, "second", 2).replace(store)
    list_of(place.path("second")).unlink()
    other = shutil.copytree(made[2], place.releases / "other")
    import_nights(place, store, [other], 3)
    lines = [*night_lines(made[:2]), line_of(3, other, 1)]
    assert without_hub(place, store).output.count("ROW ") == 3
    begins(place, store, [], lines)


def bad(text: bytes) -> Callable[[Path], object]:
    return lambda path: path.write_bytes(text)


def too_long(path: Path) -> None:
    """Makes a list with a line that counts for nothing, and a byte more than one may have."""
    path.write_bytes(FIRST_LINE.encode().ljust(64 << 20, b"x") + b"\n")


# What is in a list's place, and what is told of it.
NO_PLACES: dict[str, tuple[Callable[[Path], object], str]] = {
    "another's": (bad(b"somebody else's\n"), NO_LIST),
    "of another version": (bad(b"sctd imports 2\n"), NO_LIST),
    "a folder": (Path.mkdir, IS_FOLDER),
    "a pipe": (os.mkfifo, NO_FILE),
    "a device": (lambda path: path.symlink_to("/dev/full"), NO_FILE),
    "a link to no folder": (lambda path: path.symlink_to("no/list"), NOWHERE),
    "too long": (too_long, "it is longer than 64 MiB")}


@pytest.mark.parametrize("make, why", NO_PLACES.values(), ids=NO_PLACES.keys())
def test_what_is_no_list(place: Place, make: Callable[[Path], object], why: str) -> None:
    """What stands in a list's place stays as it is, and nothing else changes; once it is gone there
    is a list again."""
    store = place.make_store()
    make(list_of(store))
    before = place.contents()
    imports(place, store, RELEASES / "r1", "OK 1 6 0", UNLISTED.format(store, why))
    ran = place.run("copy", "--store", store, "--to", "copy")
    is_none = why == NOWHERE
    not_copied = "" if is_none else NOT_COPIED.format(store, "copy", why)
    assert ran == (0, "OK\n", not_copied.replace(IS_FOLDER, NO_FILE))
    ran = place.run("copy", "--store", "copy", "--to", "again", "--imports", "0")
    assert ran == (0, "OK\n", "")
    shutil.copy(store, place.path("other"))
    list_of(place.path("other")).write_text(FIRST_LINE, encoding="utf-8")
    list_of(store).rename(list_of(place.path("new")))
    ran = place.run("copy", "--store", "other", "--to", "new")
    assert ran == (0, "OK\n", NOT_COPIED.format("other", "new", "File exists (os error 17)"))
    list_of(place.path("new")).rename(list_of(store))
    after = place.contents()
    for name in ("store", "copy", "again", "other", "other.imports", "new"):
        before.pop(name, None)
        after.pop(name)
    assert after == before
    if list_of(store).is_dir():
        list_of(store).rmdir()
    else:
        list_of(store).unlink()
    imports(place, store, RELEASES / "r2", "OK 2 4 0")
    assert listed(store) == [line_of(2, RELEASES / "r2", 4)]


# What another program makes of a list, and what is told of it by a hub.
CHANGES: dict[str, tuple[Callable[[Path], object], list[str], bool]] = {
    "removed": (Path.unlink, [], False),
    "cut": (appended(b"2\t2020-10-01T09:00"), [], True),
    "emptied": (bad(b""), [], False),
    "cut in the first line": (bad(FIRST_LINE.encode()[:-1]), [], False),
    "with garbage": (appended(b"\xff\n\n\t\nback\nx\t\n"),
                     ["5 of its lines can't be read, the first of which is line 3"], True),
    "with later lines": (lambda path: path.write_bytes(
        path.read_bytes() + path.read_bytes()[len(FIRST_LINE) :].replace(b"1\t", b"7\t", 1)),
        [], True)}


@pytest.mark.parametrize("change, tells, has_first", CHANGES.values(), ids=CHANGES.keys())
def test_other_programs(place: Place, change: Callable[[Path], object], tells: list[str],
                        has_first: bool) -> None:
    """Whatever another program makes of the list, imports go on, and the next one is in it."""
    store, made = place.make_store(), place.write_nights(2)
    import_nights(place, store, made[:1])
    change(list_of(store))
    import_nights(place, store, made[1:], 2)
    first, second = night_lines(made)
    begins(place, store, tells, [first if has_first else "1" + NOTHING, second])


def test_no_digest(place: Place) -> None:
    """A release whose files can't all be named has a line without a digest."""
    store, release = place.make_store(), write_release(place.path("odd"), {"C": [concept(1)]})
    (release / "Refset/Other").mkdir(parents=True)
    with open(os.fsencode(release) + b"/Refset/Other/\xff", "wb"):
        pass
    imports(place, store, release, "OK 1 1 0",
            f"sctd: warning: {store}.imports: no digest of the release's files: invalid filename\n")
    assert listed(store) == [line_of(1, release, 1, digest=NO_DIGEST)]


def test_unwritten_lines(place: Place, linked: Path, unwritable: Unwritable) -> None:
    """Where the list can't be written it stays as it is, and the import is done."""
    made, before = place.write_nights(4), list_of(linked).read_bytes()
    with unwritable.begin(linked, os.getpid()):
        for number in (2, 3):
            imports(place, linked, made[number - 1], f"OK {number} 1 0",
                    UNLISTED.format(linked, unwritable.program_says))
            assert list_of(linked).read_bytes() == before
    import_nights(place, linked, made[3:], 4)
    first, *_, last = night_lines(made)
    lines = [first, "2" + NOTHING, "3" + NOTHING, last]
    begins(place, linked, [], lines)


@pytest.mark.parametrize("unwritable", UNWRITABLE[:1], indirect=True, ids=("limited",))
def test_copy_without_a_list(place: Place, linked: Path, unwritable: Unwritable) -> None:
    """Where the list can't be copied the store is."""
    with unwritable.begin(linked, os.getpid()):
        ran = place.run("copy", "--store", linked, "--to", "copy", "--imports", "1")
    assert ran == (0, "OK\n", NOT_COPIED.format(linked, "copy", unwritable.program_says))
    assert not place.path("copy.imports").exists()
