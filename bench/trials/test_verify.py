"""Tries `sctd verify` with made packages: a sound one is whole at each of its days, and what is
missing in a store, more, or other than in a Snapshot is told."""

import shutil
from collections import Counter, defaultdict
from collections.abc import Callable, Iterable
from pathlib import Path

import pytest

from harness import Place, concept, same
import make_release as rf2

ROWS, SEED = 2_500, 3
# Another module, whose rows are a package of their own, and a stranger's.
EXTENSION, STRANGER = 999000041000000102, 11000221109
# The components of the extension.
NAMES = range(2_000, 2_020)
KINDS = "CDRAVM"
# How a refusal begins.
DIFFERS = "ERR 46 Differs "

Row = list[str]


def rows_in(path: Path) -> list[Row]:
    """The columns of a file's rows."""
    return [line.split("\t") for line in path.read_text("utf-8").splitlines()[1:]]


def write_rows(path: Path, head: str, rows: Iterable[Row]) -> None:
    path.parent.mkdir(parents=True, exist_ok=True)
    text = "".join(row + "\r\n" for row in (head, *map("\t".join, rows)))
    path.write_text(text, encoding="utf-8", newline="")


def head_of(path: Path) -> str:
    return path.read_text("utf-8").splitlines()[0]


def write_snapshot(package: Path, day: str, name: str = "Snapshot_{}") -> Path:
    """Writes the latest row of each component of a package's Full up to a day, as the Snapshot of
    that day."""
    to = package / name.format(day)
    for sort, path in rf2.files_of(package / "Full"):
        rows = sorted((row for row in rows_in(path) if row[1] <= day), key=lambda row: row[1])
        latest = {row[0]: "\t".join(row) for row in rows}
        rf2.write_file(str(to), "Snapshot", day, rf2.SORTS[sort], latest.values())
    return to


def days_of(package: Path) -> list[str]:
    """The days of a package's rows."""
    return sorted({row[1] for sort in rf2.SORTS for row in rf2.rows_of(package / "Full", sort)})


@pytest.fixture(name="package", scope="module")
def a_package(tried: Place) -> Path:
    """A package of all sorts of files."""
    package = tried.path("verified")
    rf2.write_package(str(package / "Full"), rf2.Package(SEED), ROWS)
    return package


@pytest.fixture(name="extension", scope="module")
def an_extension(tried: Place) -> Path:
    """A package of another module."""
    package = tried.path("extension")
    days = ("20240131", "20250131")
    rows = [concept(number, day, module=EXTENSION) for number in NAMES for day in days]
    rf2.write(str(package / "Full"), "Full", days[-1], defaultdict(list, C=rows))
    return package


@pytest.fixture(name="store", scope="module")
def a_store(tried: Place, package: Path, extension: Path) -> Path:
    """A store that has both."""
    store = tried.make_store("verified.store", layout=3)
    tried.import_all(store, [package / "Full", extension / "Full"])
    return store


@pytest.fixture
def snapshot(package: Path) -> Path:
    """The Snapshot of the package's last day."""
    return write_snapshot(package, days_of(package)[-1])


def counts(snapshot: Path) -> str:
    """How many rows a Snapshot has of each kind."""
    rows = Counter(rf2.SORTS[sort].kind for sort in rf2.SORTS if sort not in rf2.UNKEPT_SORTS
                   for _ in rf2.rows_of(snapshot, sort))
    return " ".join(str(rows[kind]) for kind in KINDS)


def differences(place: Place, store: Path, snapshot: Path) -> tuple[list[int], str]:
    """How many components are missing, more and other, and what is told of them."""
    ran = place.run("verify", "--store", store, snapshot)
    assert ran.status == 1 and ran.output.startswith(DIFFERS), ran
    return list(map(int, ran.output.removeprefix(DIFFERS).split())), ran.faults


def test_each_day(place: Place, package: Path, extension: Path, store: Path) -> None:
    """A store that has all rows of two packages is whole at each day of each."""
    for one in (package, extension):
        days = days_of(one)
        for day in days[:: max(1, len(days) // 8)] + days[-1:]:
            snapshot = write_snapshot(one, day)
            same(f"the reply for {day}", place.done("verify", "--store", store, snapshot),
                 f"OK {counts(snapshot)}")


def without(release: Path, sort: str) -> Path:
    """A release without its files of a sort."""
    for _, path in list(rf2.files_of(release, [sort])):
        path.unlink()
    return release


@pytest.mark.parametrize("sort", [
    sort for sort in rf2.PACKAGE_SHARES if sort not in rf2.UNKEPT_SORTS])
def test_file_left_out(place: Place, package: Path, snapshot: Path, sort: str) -> None:
    """Of a file that wasn't imported each component is missing; of one that isn't in the Snapshot
    each is more."""
    many = sum(1 for _ in rf2.rows_of(snapshot, sort))
    assert many > 0
    part, whole = (place.make_store(name, layout=3) for name in ("part", "whole"))
    place.import_one(part, without(shutil.copytree(package / "Full", place.path("full")), sort))
    found, told = differences(place, part, snapshot)
    same("the differences", found, [many, 0, 0])
    assert told.count("the store shows none of this component") == min(many, 10)
    place.import_one(whole, package / "Full")
    found, _ = differences(place, whole, without(snapshot, sort))
    same("the differences", found, [0, many, 0])


def test_day_left_out(place: Place, package: Path) -> None:
    """A store without the rows of one day lacks new components, and has old rows of others."""
    days = days_of(package)
    left_out = days[len(days) // 2]
    full = shutil.copytree(package / "Full", place.path("full"))
    new, changed = 0, 0
    for sort, path in rf2.files_of(full):
        rows = rows_in(path)
        write_rows(path, head_of(path), [row for row in rows if row[1] != left_out])
        if sort not in rf2.UNKEPT_SORTS:
            before = {row[0] for row in rows if row[1] < left_out}
            those = {row[0] for row in rows if row[1] == left_out}
            new, changed = new + len(those - before), changed + len(those & before)
    store = place.make_store("part", layout=3)
    place.import_one(store, full)
    found, _ = differences(place, store, write_snapshot(package, left_out))
    same("the differences", found, [new, 0, changed])
    assert new > 0 and changed > 0


def first_file(snapshot: Path, sort: str) -> Path:
    return next(path for _, path in rf2.files_of(snapshot, [sort]))


def with_a_changed_row(snapshot: Path) -> list[int]:
    """A row has another flag."""
    path = first_file(snapshot, "Language")
    rows = rows_in(path)
    rows[0][2] = "0" if rows[0][2] == "1" else "1"
    write_rows(path, head_of(path), rows)
    return [0, 0, 1]


def without_a_row(snapshot: Path) -> list[int]:
    """A row is missing in the Snapshot."""
    path = first_file(snapshot, "D")
    write_rows(path, head_of(path), rows_in(path)[:-1])
    return [0, 1, 0]


def with_a_concept(snapshot: Path, number: int, day: str, module: int) -> None:
    path = first_file(snapshot, "C")
    row = concept(number, day, module=module).split("\t")
    write_rows(path, head_of(path), [*rows_in(path), row])


def with_a_strangers_row(snapshot: Path) -> list[int]:
    """The Snapshot has a row of a component that no release has, of another module."""
    with_a_concept(snapshot, 9_000, "20200131", STRANGER)
    return [1, 0, 0]


def with_a_row_of_the_extension(snapshot: Path) -> list[int]:
    """The Snapshot names a module of which it has one of the store's components."""
    with_a_concept(snapshot, NAMES[0], "20250131", EXTENSION)
    return [0, len(NAMES) - 1, 0]


@pytest.mark.parametrize("change", (
    with_a_changed_row, without_a_row, with_a_strangers_row, with_a_row_of_the_extension))
def test_wrong_snapshot(place: Place, snapshot: Path, store: Path,
                        change: Callable[[Path], list[int]]) -> None:
    """What differs is counted, and told."""
    wanted = change(snapshot)
    found, told = differences(place, store, snapshot)
    same("the differences", found, wanted)
    same("how many are told", told.count("sctd: the "), min(10, max(wanted)))


def test_snapshot_of_another_day(place: Place, package: Path, store: Path) -> None:
    """A Snapshot that says another day than its own differs."""
    days = days_of(package)
    snapshot = write_snapshot(package, days[-2])
    for path in list(snapshot.rglob("*.txt")):
        path.rename(path.with_name(path.name.replace(days[-2], days[-1])))
    found, _ = differences(place, store, snapshot)
    assert found[0] == 0 and found[1] + found[2] > 0


def test_faulty_line(place: Place, snapshot: Path, store: Path) -> None:
    """It is told as a check of a release does."""
    path = first_file(snapshot, "R")
    rows = rows_in(path)
    rows[4][3] = "1"
    write_rows(path, head_of(path), rows)
    ran = place.run("verify", "--store", store, snapshot)
    assert ran.status == 1 and ran.output.startswith("ERR 28 "), ran
    assert f"{path.name}, line 6: " in ran.faults
