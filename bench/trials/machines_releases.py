"""The releases of try_machines.py: each renames every concept on a day of its own, retires or
brings back one of them, and adds a term of the first day, so that the same day looks otherwise at
each pin, and an answer with rows of two imports shows that."""

import re
import sys
from functools import cache
from pathlib import Path

from harness import TOP as TREE, concept, concept_id, description, write_release
import make_release as rf2

sys.path.append(str(TREE / "service"))
from tests.release_files import Rows  # noqa: E402

CONCEPTS = 12
FIRST_YEAR, MONTHS = 2001, 12
TOP = str(rf2.ROOT)
CODES = [str(concept_id(place)) for place in range(1, CONCEPTS + 1)]
WORDING = re.compile(r"wording ([0-9]+)")


def day_of(number: int) -> str:
    """The day of a release: the last of a month, in their order."""
    year, month = divmod(number - 1, MONTHS)
    return "%d%02d28" % (FIRST_YEAR + year, month + 1)


def days_of(pin: int) -> list[str]:
    return [day_of(number) for number in range(1, pin + 1)]


def wording_of(text: str) -> list[str]:
    """The numbers of the releases whose names stand in a text."""
    return WORDING.findall(text)


def release(number: int) -> dict[str, list[str]]:
    day, late = day_of(number), number % CONCEPTS + 1
    found = {"D": [
        description(place, int(code), "Thing %d, wording %d (finding)" % (place, number), day,
                    rf2.FULLY_SPECIFIED) for place, code in enumerate([TOP, *CODES])]}
    found["D"].append(description(
        2 * CONCEPTS + number, concept_id(late), "Late term of release %d" % number, day_of(1)))
    if number > 1:
        return found | {"C": [concept(late, day, number // CONCEPTS % 2)]}
    top = "\t".join(map(str, [TOP, day, 1, rf2.CORE, rf2.PRIMITIVE]))
    below = [[rf2.sctid(1_000 + place, "02"), day, 1, rf2.CORE, code, TOP, 0, rf2.IS_A,
              rf2.INFERRED, rf2.MODIFIER] for place, code in enumerate(CODES)]
    return found | {"C": [top, *(concept(place, day) for place in range(1, CONCEPTS + 1))],
                    "R": ["\t".join(map(str, row)) for row in below]}


@cache
def rows_of(pin: int) -> Rows:
    """All rows of the first so many releases, as they were published."""
    before = rows_of(pin - 1).by_kind if pin else {kind: [] for kind in (*rf2.KINDS, "M")}
    new = release(pin) if pin else {}
    return Rows({kind: [*rows, *(row.split("\t") for row in new.get(kind, []))]
                 for kind, rows in before.items()})


def write(folder: Path, count: int) -> None:
    for number in range(1, count + 1):
        write_release(folder / f"r{number}", release(number), day_of(number))
