"""Tries of what in a release people are warned, with the built program: a made package of all sorts
of files, whose second module builds on the first, in 8 releases, as Fulls and as Deltas. Sound ones
are imported without a warning, and what goes wrong is told by `import`, `import --check`, the hub
and, where a store isn't needed for it, `serve`. bench/cases/warnings.txt has small releases."""

from __future__ import annotations

import datetime
import re
import shutil
import zlib
from collections import Counter
from collections.abc import Callable, Iterator, Sequence
from functools import partial
from pathlib import Path
from typing import NamedTuple

import pytest

from harness import Client, Hub, Place, concept_id
from test_checks import notes_of
from test_verify import first_file, without
import make_release as rf2

ROWS, SEED = 1_500, 5
# The second module, and one that nobody knows.
EXTENSION, STRANGER = 731000124108, 449080006
# The days of the releases of the first module, and of the second one, two months later.
DAYS = [f"{year}{day}" for year in range(2018, 2022) for day in ("0131", "0731")]
LATER_DAYS = [f"{year}{day}" for year in range(2018, 2022) for day in ("0331", "0930")]
# One component of so many is of the second module.
SHARE = 3
# How many modules are named.
MOST_NAMED = 10
UNKEPT = set(rf2.UNKEPT_SORTS)
WARNING = "sctd: warning: "
UNKNOWN = WARNING + "modules of which neither the store nor the release has the concept: {}"
BUILDS = (WARNING + "this release builds on {} of module {}, of which the store has nothing "
          "later than {}")
LEFT_OUT = WARNING + "{} of concepts was taken, and no {} file"
CUT_OFF = WARNING + "{}: its last line has no end; was the file cut off?"
# What is told where a sort of files is left out of a Full, and of a Delta.
OF_FULLS = {"D": "Description", "R": "Relationship"}
OF_ALL = {"TextDefinition": "TextDefinition", "Language": "Language", "A": "Association",
          "AttributeValue": "AttributeValue"}


class Row(NamedTuple):
    """A row of a file: its sort, the number of its release, its module and all its columns."""

    sort: str
    release: int
    module: int
    columns: tuple[str, ...]


def module_of(name: str) -> int:
    return EXTENSION if zlib.crc32(name.encode()) % SHARE == 0 else rf2.CORE


def day_of(module: int, release: int) -> str:
    return (LATER_DAYS if module == EXTENSION else DAYS)[release]


def dated(sort: str, columns: list[str], release: int, module: int) -> Row:
    """A row at the day of a release of its module."""
    row = (columns[0], day_of(module, release), columns[2], str(module), *columns[4:])
    return Row(sort, release, module, row)


def rows_of_package(folder: Path) -> Iterator[Row]:
    """The rows of a made package, each at the day of a release; of the versions of a component that
    fall on one day the first."""
    shares = len(rf2.DATES) // len(DAYS)
    for sort in rf2.SORTS:
        if sort in UNKEPT or sort == "ModuleDependency":
            continue
        seen = set[tuple[str, int]]()
        for columns in rf2.rows_of(folder, sort):
            release = rf2.DATES.index(columns[1]) // shares
            if (columns[0], release) not in seen:
                seen.add((columns[0], release))
                yield dated(sort, columns, release, module_of(columns[0]))


def rows_of_modules() -> Iterator[Row]:
    """The concept of the second module, and what both modules build on at each release."""
    yield dated("C", [str(EXTENSION), "", "1", "", str(rf2.PRIMITIVE)], 0, EXTENSION)
    pairs = ((rf2.CORE, rf2.MODEL), (EXTENSION, rf2.CORE), (EXTENSION, rf2.MODEL))
    for number, (module, target) in enumerate(pairs):
        name = f"0b6a0c2e-5d0f-4c53-9f6e-8d9d2a7b1c{number:02}"
        for release, day in enumerate(DAYS):
            further = [str(rf2.DEPENDENCIES), str(target), day_of(module, release), day]
            yield dated("ModuleDependency", [name, "", "1", "", *further], release, module)


class Package:
    """The rows of all releases, of which parts are written."""

    def __init__(self, rows: list[Row], folder: Path) -> None:
        self.rows, self.folder = rows, folder

    def write(self, name: str, word: str, releases: range, modules: set[int]) -> Path:
        """Writes the rows of some releases and modules, in a file of each sort."""
        folder, day = self.folder / name, day_of(max(modules), releases[-1])
        for sort in rf2.SORTS:
            if sort not in UNKEPT:
                rows = ("\t".join(row.columns) for row in self.rows if row.sort == sort
                        and row.release in releases and row.module in modules)
                rf2.write_file(str(folder), word, day, rf2.SORTS[sort], rows)
        return folder

    def full(self, number: int) -> Path:
        return self.write(f"full{number}", "Full", range(number + 1), {rf2.CORE, EXTENSION})

    def delta(self, number: int) -> Path:
        return self.write(f"delta{number}", "Delta", range(number, number + 1),
                          {rf2.CORE, EXTENSION})

    def part(self, number: int, module: int) -> Path:
        """The Delta of one module."""
        return self.write(f"part{number}-{module}", "Delta", range(number, number + 1), {module})


@pytest.fixture(scope="module")
def all_rows(tried: Place) -> list[Row]:
    folder = tried.path("made of all sorts")
    rf2.write_package(str(folder), rf2.Package(SEED), ROWS)
    return [*rows_of_package(folder), *rows_of_modules()]


@pytest.fixture
def package(place: Place, all_rows: list[Row]) -> Package:
    return Package(all_rows, place.releases)


def warnings(place: Place, store: Path, release: Path) -> list[str]:
    """What people are told of a release by a check, and then the same by the import; and by that of
    a hub, to who asks for notes and in the log."""
    words, served_by_hub = ("--quiet", "--store", store, release), place.path("store of a hub")
    shutil.copy(store, served_by_hub)
    checked, imported = place.run("import", "--check", *words), place.run("import", *words)
    assert checked[:2] == imported[:2] and checked.status == 0, (checked, imported)
    assert checked.faults == imported.faults
    told = checked.faults.splitlines()
    with Hub(place, served_by_hub, releases=release.parent) as hub:
        hub.owner.ask("NOTES")
        reply = hub.owner.ask(f"IMPORT {release.name}")
        assert reply == [*(f"NOTE {line}" for line in told), imported.output.rstrip("\n")]
        assert [line for line in hub.told().splitlines() if line.startswith("sctd: ")] == told
    served_by_hub.with_name(served_by_hub.name + ".imports").unlink()
    return told


def served(place: Place, store: Path, release: Path) -> list[str]:
    """What people are told by a server, where its CHECK and its IMPORT tell the same."""
    told = [place.run("serve", "--store", store, "--releases", release.parent,
                      given=f"0 {word} {release.name}\n").faults for word in ("CHECK", "IMPORT")]
    assert told[0] == told[1]
    return told[0].splitlines()


@pytest.fixture
def store(place: Place) -> Path:
    return place.make_store(layout=3)


# ---- Sound releases, and what is wrong with one by itself


@pytest.mark.parametrize("layout, count, releases", (
    (2, 2, (Package.full,)), (3, len(DAYS), (Package.full,)), (3, len(DAYS), (Package.delta,)),
    # (An extension comes after what it builds on, the first time as well.)
    (3, len(DAYS), (partial(Package.part, module=rf2.CORE),
                    partial(Package.part, module=EXTENSION)))),
    ids=("in layout 2", "fulls", "deltas", "parts"))
def test_sound(place: Place, package: Package, layout: int, count: int,
               releases: Sequence[Callable[[Package, int], Path]]) -> None:
    """Of the releases of so many days nothing is told."""
    store, served_store = (place.make_store(name, layout) for name in ("imported", "served"))
    for number in range(count):
        for make in releases:
            release = make(package, number)
            assert warnings(place, store, release) == served(place, served_store, release) == []


@pytest.mark.parametrize("sort", (*OF_FULLS, *OF_ALL))
def test_left_out(place: Place, package: Package, store: Path, sort: str) -> None:
    """Each sort of files that is left out of a Full, or of a Delta."""
    kind = "a Full file" if sort in OF_FULLS else "a file"
    told = [LEFT_OUT.format(kind, (OF_FULLS | OF_ALL)[sort])]
    full = without(package.full(2), sort)
    assert warnings(place, store, full) == served(place, store, full) == told
    delta = without(package.delta(3), sort)
    assert warnings(place, store, delta) == ([] if sort in OF_FULLS else told)


def change(path: Path, old: bytes, new: bytes) -> None:
    text = path.read_bytes()
    assert old in text
    path.write_bytes(text.replace(old, new, 1))


@pytest.mark.parametrize("days, is_told", ((2, True), (-2, False)))
def test_late_row(place: Place, package: Package, store: Path, days: int, is_told: bool) -> None:
    """A row that is dated after today; the day of a machine's clock may end meanwhile."""
    now = datetime.datetime.now(datetime.timezone.utc).date()
    day = (now + datetime.timedelta(days=days)).strftime("%Y%m%d")
    delta = package.delta(0)
    change(first_file(delta, "D"), DAYS[0].encode(), day.encode())
    told = warnings(place, store, delta)
    assert len(told) == is_told
    assert all(line.startswith(f"{WARNING}an effectiveTime is {day}, and today is ")
               for line in told)


# ---- What is wrong with it beside a store


def with_a_stranger(release: Path) -> Path:
    """A release with a row of a module of which nobody has the concept."""
    change(first_file(release, "D"), str(rf2.CORE).encode(), str(STRANGER).encode())
    return release


def with_concept(release: Path, concept: int, day: str, module: int) -> Path:
    with first_file(release, "C").open("ab") as file:
        file.write(b"%d\t%s\t1\t%d\t%d\r\n" % (concept, day.encode(), module, rf2.PRIMITIVE))
    return release


def builds(number: int) -> list[str]:
    """What is told where the store has nothing so late of what the extension builds on."""
    return [BUILDS.format(DAYS[number], module, DAYS[number - 1])
            for module in (rf2.MODEL, rf2.CORE)]


def test_stranger(place: Place, package: Package, store: Path) -> None:
    """A row of a module of which nobody has the concept; with its concept it's no stranger."""
    assert warnings(place, store, package.delta(0)) == []
    delta = with_a_stranger(package.delta(1))
    assert warnings(place, store, delta) == [UNKNOWN.format(STRANGER)]
    known = with_concept(package.delta(2), STRANGER, DAYS[2], STRANGER)
    assert warnings(place, store, known) == []
    assert warnings(place, store, delta) == []


def test_many_strangers(place: Place, package: Package, store: Path) -> None:
    """Of many such modules the first ten are named, in their order, and how many more there are."""
    delta = package.delta(1)
    assert warnings(place, store, package.delta(0)) == []
    strangers = [str(concept_id(number)) for number in range(MOST_NAMED + 2)]
    for module in reversed(strangers):
        change(first_file(delta, "D"), str(rf2.CORE).encode(), module.encode())
    told, = warnings(place, store, delta)
    assert re.findall("[0-9]+", told) == [*strangers[:MOST_NAMED], "2"]


def test_base_of_an_earlier_layout(place: Place, package: Package) -> None:
    """A store that was copied from layout 2 has no row of dependencies: where it has the concept of
    a module, all its rows count."""
    base, unknown = place.make_store("base", layout=2), UNKNOWN.format(EXTENSION)
    missing = builds(1)
    for number, wanted in ((0, [unknown, *missing]), (1, [unknown])):
        part = package.part(number, rf2.CORE)
        for module in (rf2.MODEL, rf2.CORE):
            with_concept(part, module, DAYS[0], rf2.MODEL)
        place.import_one(base, part)
        store = place.copy(base, f"copy {number}", layout=3)
        assert warnings(place, store, package.part(1, EXTENSION)) == wanted


# ---- Through the hub


def notes_of_done(client: Client, line: str) -> list[str]:
    """What is told beside the reply to a line that is carried out, in order."""
    notes, reply = notes_of(client, line)
    assert reply.startswith("OK "), reply
    return sorted(notes)


def cut(release: Path) -> Path:
    """A release whose file of maps lost the end of its last line."""
    path = first_file(release, "SimpleMap")
    path.write_bytes(path.read_bytes()[:-3])
    return release


def test_hub(place: Place, package: Package, store: Path) -> None:
    """The hub's CHECK and IMPORT tell all, and one that isn't checked what needs no store, to who
    asks for notes; the log has it too. Sound releases are told nothing of."""
    no_file = LEFT_OUT.format("a file", "Language")
    cut_off = CUT_OFF.format(first_file(package.delta(2), "SimpleMap").name)
    missing = builds(4)
    # Releases, what of them needs no store, and what else is told of them.
    releases: tuple[tuple[Path, list[str], list[str]], ...] = (
        (package.delta(0), [], []),
        (without(package.delta(1), "Language"), [no_file], []),
        (cut(package.delta(2)), [cut_off], []),
        (without(with_a_stranger(package.delta(3)), "Language"), [no_file],
         [UNKNOWN.format(STRANGER)]),
        (package.part(4, EXTENSION), [], missing), (package.part(4, rf2.CORE), [], []))
    for is_checked in (True, False):
        wanted, own = Counter[str](), place.path(f"own {is_checked}")
        shutil.copy(store, own)
        words = ["--import-unchecked"] * (not is_checked)
        with Hub(place, own, *words, releases=place.releases) as hub:
            client, other = hub.client(), hub.client()
            assert client.ask("NOTES") == ["OK"]
            for release, by_itself, beside in releases:
                name, told = release.name, by_itself + beside
                assert notes_of_done(client, f"CHECK {name}") == sorted(told), name
                assert notes_of_done(other, f"CHECK {name}") == []
                by_import = told if is_checked else by_itself
                assert notes_of_done(client, f"IMPORT {name}") == sorted(by_import), name
                wanted.update(told + told + by_import)
            logged = (line for line in hub.told().splitlines() if line.startswith(WARNING))
            assert Counter(logged) == wanted


# ---- None of it changes what is done


def test_warnings_change_nothing(place: Place, package: Package, store: Path) -> None:
    """The import of a release with every fault has its reply, status and rows."""
    part = without(without(package.part(0, EXTENSION), "A"), "Language")
    path = first_file(part, "D")
    change(path, LATER_DAYS[0].encode(), b"29991231")
    path.write_bytes(path.read_bytes()[:-2])
    rows = sum(len(path.read_bytes().splitlines()) - 1 for path in part.rglob("*.txt"))
    assert len(warnings(place, store, part)) == 6
    assert place.status(store) == f"OK 1 {rows} 1 -"
