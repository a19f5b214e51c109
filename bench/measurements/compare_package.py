"""Measures sctd on whole packages beside SQLite's own shell, as compare_shell.py on basic files.

compare_package.py PROGRAM FOLDER [ROWS ..]

Both sides import the Full release, sctd into a store of layout 3 and the shell into a table a sort
of files; then the Delta. Both are asked for members by their ids (GET M), for 100,000 members of a
language, or all that there are, in pages of 1,000 (MEMBERS), as many that are active, by the
component (VALUES), and what 10,000 concepts were called (CALLED), of which the shell's answer is a
join. Behind the table stand the bytes of both files, what an open store takes in memory more than
an empty one, and the same of a store that took only what layout 2 keeps.
"""

import os
import random
import sys
from collections.abc import Iterable, Sequence
from pathlib import Path
from typing import Optional

import make_release as rf2
from compare_shell import DAYS, KEPT_SORTS, SEED, Shell, Table, columns_of
from compare_shell import newest, query_of, rows_alone
from measure_harness import Sctd, compared_by, made_release

sys.path.append(str(Path(__file__).resolve().parents[2] / "service"))
from tests.release_files import latest  # noqa: E402

LAST_DAY = "20261231"
# So many members are asked for by pages of so many, so many by their ids, and so many concepts.
MEMBERS, LIMIT, LOOKUPS, CALLED = 100_000, 1_000, 100_000, 10_000
SHELL = "package.shell"
INDEXES = ("CREATE INDEX described ON D (conceptId) WHERE active = 1;",
           "CREATE INDEX members ON Language (refsetId, id);",
           "CREATE INDEX named ON Language (refsetId, referencedComponentId, id) WHERE active = 1;")
# How many columns a row of a description has, by which it is told from one of a member.
DESCRIPTION_COLUMNS = len(columns_of("D"))
# Lines of the protocol, each with the shell's query that answers it.
Questions = list[tuple[str, str]]


def pages(command: str, refset: str, ends: Sequence[str]) -> Questions:
    """Pages of the members of a language (MEMBERS), or of its values (VALUES), that together have
    these rows."""
    active, column, form, order = "", "id", "'%s'", ""
    if command == "VALUES":
        active, column, form, order = "x.active = 1 AND ", "referencedComponentId", "%s", ", x.id"
    found = []
    for after in ["-", *ends[LIMIT - 1 : MEMBERS - 1 : LIMIT]]:
        least = "" if after == "-" else " AND x.%s > %s" % (column, form % after)
        where = "%sx.refsetId = %s%s%s" % (active, refset, least, newest("Language", LAST_DAY))
        found.append(("%s %s %s %s %d" % (command, refset, LAST_DAY, after, LIMIT),
                      "SELECT x.* FROM Language x WHERE %s ORDER BY x.%s%s LIMIT %d;" % (
                          where, column, order, LIMIT)))
    return found


def called(concept: str, date: str, refset: str) -> tuple[str, str]:
    return (
        "CALLED %s %s %s" % (concept, date, refset),
        # (By the order of the tables: else it begins with all members of the language.)
        "SELECT d.*, x.* FROM D d CROSS JOIN Language x ON x.referencedComponentId = d.id WHERE"
        " d.active = 1 AND d.conceptId = %s AND x.active = 1 AND x.refsetId = %s%s%s ORDER BY d.id,"
        " x.id;" % (concept, refset, newest("D", date, "d"), newest("Language", date)))


def lookups(full: Path, chance: random.Random) -> Questions:
    """Members that are drawn, by their ids."""
    ids = [(sort, row[0]) for sort in rf2.FURTHER_SORTS if KEPT_SORTS[sort].kind == "M"
           for row in rf2.rows_of(full, sort)]
    drawn = [(*chance.choice(ids), chance.choice(DAYS)) for _ in range(LOOKUPS)]
    return [("GET M %s %s" % (name, day), query_of("GET %s %s %s" % (sort, name, day)))
            for sort, name, day in drawn]


def of_language(full: Path) -> tuple[Questions, Questions]:
    """Pages of the members of a language reference set, and of its values."""
    refset = str(rf2.US_ENGLISH)
    members = [row for row in rf2.rows_of(full, "Language") if row[4] == refset]
    shown = latest(members, LAST_DAY).values()
    components = sorted((row[5] for row in shown if row[2] == "1"), key=int)
    return (pages("MEMBERS", refset, sorted(row[0] for row in shown)),
            pages("VALUES", refset, components))


def joined(told: bytes) -> Optional[bytes]:
    """The rows of replies to CALLED as a join has them: each member behind its description."""
    rows, found, description = rows_alone(told), list[bytes](), b""
    for row in rows.split(b"\n")[:-1] if rows else ():
        if row.count(b"\t") + 1 == DESCRIPTION_COLUMNS:
            description = row
        else:
            found.append(description + b"\t" + row + b"\n")
    return None if rows is None else b"".join(found)


def held_by(sctd: Sctd) -> int:
    """How many bytes the program holds in memory once it has opened a store."""
    served = sctd.served()
    held = served.held()
    served.end()
    return held


def show_memory(what: str, sctd: Sctd, rows: int, ground: int) -> None:
    """Prints what an open store takes, and what that is more than an empty one."""
    held, size = held_by(sctd), os.path.getsize(sctd.path)
    said = (what, rows, held, (held - ground) / rows, size / rows)
    print("%s: %d rows; open %d bytes, %.1f a row beside those of an empty store;"
          " file %.1f a row" % said, flush=True)


def count_rows(release: Path, sorts: Iterable[str]) -> int:
    return sum(1 for sort in sorts for _ in rf2.rows_of(release, sort))


def compare(program: str, folder: str, count: int) -> bool:
    """Whether all replies and answers were the same."""
    place = Path(folder, "package%d" % count)
    made_release(str(place), count, is_package=True)
    full, chance, shell = place / "full", random.Random(SEED), Shell(
        str(place), SHELL, tuple(KEPT_SORTS))
    basic, sctd = (Sctd(program, str(place), "package%d.store" % layout, layout)
                   for layout in (2, 3))
    table, ground = Table(count, sctd, shell), held_by(sctd)
    of_full, of_delta = (count_rows(place / name, KEPT_SORTS) for name in ("full", "delta"))
    table.take("import the Full release, with its indexes", "full", f"1 {of_full} 0", INDEXES)
    table.take("import a Delta of 100 rows", "delta", f"2 {of_delta} 0")
    served = table.open()
    looked_up, (members, values) = lookups(full, chance), of_language(full)
    concepts = [row[4] for row in rf2.rows_of(full, "D")]
    names = [called(chance.choice(concepts), chance.choice(DAYS), str(chance.choice(rf2.LANGUAGES)))
             for _ in range(CALLED)]
    for title, questions, rows_of in (
            ("look up 100,000 members ({} rows)", looked_up, rows_alone),
            ("members of a language, 1,000 a page ({} rows)", members, rows_alone),
            ("values of a language, 1,000 a page ({} rows)", values, rows_alone),
            ("what 10,000 concepts were called ({} rows)", names, joined)):
        lines, queries = zip(*questions)
        table.ask(served, title, lines, queries, rows_of)
    served.end()
    show_memory("layout 3, all files", sctd, of_full + of_delta, ground)
    basic.take("full")
    show_memory("layout 2, its files", basic, count_rows(full, rf2.BASIC_SORTS), ground)
    print("bytes of the shell's file: %d" % os.path.getsize(shell.path))
    return table.alike


if __name__ == "__main__":
    sys.exit(compared_by(__doc__, Table.HEAD, compare))
