"""Tries examples/check_edition.py with the built program and made packages: it says that a sound
one is the same everywhere, and finds what differs."""

import random
import re
import shutil
from collections.abc import Callable
from pathlib import Path

import pytest

from harness import SECONDS, Place, Ran
from test_verify import days_of, first_file, head_of, rows_in, with_a_changed_row, without_a_row
from test_verify import write_rows, write_snapshot
import make_release as rf2

CHECK = "examples/check_edition.py"
ROWS, SEED = 2_500, 3
# Words of a package that may not be in the page; a day and a count are no such words.
WORD = re.compile(r"[^\t\n]{9,}")
# Stands before the program, and makes one row inactive of all that is answered.
CHANGED_ROW = """
import subprocess, sys
if sys.argv[1] != "serve":
    sys.exit(subprocess.run([PROGRAM, *sys.argv[1:]]).returncode)
real = subprocess.Popen([PROGRAM, *sys.argv[1:]], stdout=subprocess.PIPE)
is_changed = False
for line in real.stdout:
    if line.startswith(b"ROW ") and b"\\t1\\t" in line and not is_changed:
        line, is_changed = line.replace(b"\\t1\\t", b"\\t0\\t", 1), True
    sys.stdout.buffer.write(line)
    sys.stdout.buffer.flush()
"""
# Or says another digest.
CHANGED_DIGEST = """
import os, sys
if sys.argv[1] == "digest":
    print("OK " + 64 * "0")
else:
    os.execv(PROGRAM, [PROGRAM, *sys.argv[1:]])
"""


@pytest.fixture(scope="module")
def sound(tried: Place) -> Path:
    """A sound package of all sorts of files."""
    package = tried.path("sound package")
    rf2.write_package(str(package / "Full"), rf2.Package(SEED), ROWS)
    write_snapshot(package, days_of(package)[-1], "Snapshot")
    return package


@pytest.fixture
def package(place: Place, sound: Path) -> Path:
    """A copy of it, which a trial may change."""
    return Path(shutil.copytree(sound, place.path("edition")))


def checked(place: Place, package: Path, *words: str) -> Ran:
    return place.run_script(CHECK, "--program", place.program, *words, place.path("new.store"),
                            package, seconds=SECONDS)


def one_differs(ran: Ran) -> None:
    assert ran.status == 1, ran.faults
    assert column(ran.output, "compared")[-2:] == ["1", "differ"]


def column(page: str, title: str) -> list[str]:
    """What a line of the page says."""
    found: list[str] = re.findall(rf"^{re.escape(title)}  +(.*)$", page, re.M)
    return found[0].split() if len(found) == 1 else []


def test_sound_package(place: Place, package: Path) -> None:
    """All is the same, the page has the counts, and nothing of the release but days."""
    status, page, faults = checked(place, package)
    assert status == 0, page + faults
    rows = {kind: 0 for kind in "CDRAVM"}
    days, words = set[str](), set[str]()
    for sort, path in rf2.files_of(package / "Full"):
        if sort in rf2.UNKEPT_SORTS:
            continue
        text = path.read_text("utf-8")
        words.update(WORD.findall(text))
        lines = text.splitlines()[1:]
        days.update(line.split("\t")[1] for line in lines)
        names = {line.split("\t")[0] for line in lines}
        rows[rf2.SORTS[sort].kind] += len(names)
    wanted = [str(rows[kind]) for kind in "CDRAVM"]
    assert column(page, "rows as of") == list("CDRAVM")
    assert column(page, "Snapshot") == column(page, max(days)) == wanted
    assert set(re.findall(r"^([0-9]{8}) ", page, re.M)) == days
    assert column(page, "compared")[-2:] == ["0", "differ"]
    digests = [column(page, f"digest by {who}")[0].rstrip(",")
               for who in ("the program", "digest.py")]
    assert digests[0] == digests[1] == place.digest(place.path("new.store"))
    assert [word for word in words if word in page] == []


def with_an_older_row(snapshot: Path) -> None:
    """A row is the version before the latest one."""
    rows = rows_in(first_file(snapshot.parent / "Full", "C"))
    versions = sorted(row for row in rows if sum(row[0] == other[0] for other in rows) > 1)
    later = max(row for row in versions if row[0] == versions[0][0])
    path = first_file(snapshot, "C")
    changed = [versions[0] if row == later else row for row in rows_in(path)]
    write_rows(path, head_of(path), changed)


def without_a_file(snapshot: Path) -> None:
    first_file(snapshot, "OWLExpression").unlink()


@pytest.mark.parametrize("change", (
    without_a_row, with_a_changed_row, with_an_older_row, without_a_file))
def test_wrong_snapshots(place: Place, package: Path, change: Callable[[Path], object]) -> None:
    """One kind differs of the Snapshot, and none as of the days of the Full."""
    change(package / "Snapshot")
    ran = checked(place, package, "--without-digest")
    one_differs(ran)
    said = " ".join(column(ran.output, "Snapshot"))
    assert "differ" in said or ", not " in said


@pytest.mark.parametrize("script", (CHANGED_ROW, CHANGED_DIGEST))
def test_wrong_programs(place: Place, package: Path, script: str) -> None:
    """A program that answers one row wrongly, or another digest, is found out."""
    one_differs(checked(place.wrapped(script), package))


def test_parts(place: Place, package: Path) -> None:
    """What doesn't fit into memory at a time is compared part by part."""
    small = place.path("examples")
    shutil.copytree(place.script("examples"), small / "examples")
    (small / "service").symlink_to(place.script("service"))
    script = small / CHECK
    text = script.read_text("utf-8")
    rows = random.Random(SEED).randrange(100, 300)
    script.write_text(text.replace("ROWS_AT_A_TIME, PAGE_ROWS, READ_BYTES = 500_000, 1_000",
                                   f"ROWS_AT_A_TIME, PAGE_ROWS, READ_BYTES = {rows}, 7"))
    assert script.read_text("utf-8") != text
    place.tree = small
    ran = checked(place, package, "--without-digest")
    assert ran.status == 0, ran.output + ran.faults


def test_no_package(place: Place, package: Path) -> None:
    """What isn't a package, and a store that is there already, are told."""
    ran = checked(place, package / "Full")
    assert ran[:2] == (1, "") and ran.faults.endswith("has no folder Full\n")
    place.path("new.store").write_bytes(b"somebody else's")
    ran = checked(place, package)
    assert ran[:2] == (1, "") and ran.faults.endswith("check_edition: init: ERR 4 NotEmpty\n")
