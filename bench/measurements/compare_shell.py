"""Measures sctd beside SQLite's own shell, which is what one would use without sctd.

compare_shell.py PROGRAM FOLDER [ROWS ..]

Both sides import the Full release: the shell by `.import` into a table a kind, keyed by id and
date, and makes its indexes after the rows. Then both import the same release once more, and the
Delta; and both are asked the same questions, each kind in a process of its own, whose answers have
to be the same lines. Before those of an audit the shell makes indexes for them. Last, both import a
release by which all concepts are a tree below the root, and are asked for all of them, and for what
is above some; the two segments of sctd's store are merged before.

Terms are searched without regard to case in ASCII alone. The shell may keep as many bytes of pages
in memory as `sctd` holds. Processor seconds are of the whole process for the shell, and of sctd's
questions from behind its opening on. A peak is the greatest resident size of a process. The replies
to the imports have to count the rows as this script does. The status is 1 where a reply or an
answer is another one.
"""

import itertools
import os
import random
import sys
from collections.abc import Callable, Iterable, Iterator, Sequence
from pathlib import Path
from typing import Optional

import make_release as rf2
from make_release import IS_A
from measure_harness import (
    ROW_LINES, Cost, Sctd, Served, compared_by, made_release, print_row, ran)

# The sorts of files that a store keeps, and the basic ones, which each layout does.
KEPT_SORTS, BASIC = {**rf2.BASIC_SORTS, **rf2.FURTHER_SORTS}, tuple(rf2.BASIC_SORTS)
# The columns that the shell keeps as numbers, beside those of SCTIDs.
NUMBERS = ("effectiveTime", "active", "relationshipGroup", "mapGroup", "mapPriority",
           "attributeOrder", "descriptionLength", "grouped")
# The column that says what a row is about, of the kinds that questions ask.
SUBJECTS = {"D": "conceptId", "R": "sourceId"}
DAYS = ("20120731", "20191231", "20251231", "20261231")
# So many rows of a kind are held at most, of which the questions are drawn.
MOST_DRAWN = 100_000
NEWEST = (" AND {0}.effectiveTime <= {1} AND NOT EXISTS (SELECT 1 FROM {2} y WHERE y.id = {0}.id"
          " AND y.effectiveTime > {0}.effectiveTime AND y.effectiveTime <= {1})")
INDEXES = (
    "CREATE INDEX terms ON D (term COLLATE NOCASE) WHERE active = 1;",
    "CREATE INDEX children ON R (destinationId, sourceId) WHERE active = 1 AND typeId = %d;" % IS_A,
    "CREATE INDEX replacements ON A (referencedComponentId) WHERE active = 1;",
    "CREATE INDEX descriptions ON D (conceptId) WHERE active = 1;",
    "CREATE INDEX relationships ON R (sourceId) WHERE active = 1;")
# For an audit: without them a Delta would read whole tables.
AUDIT_INDEXES = (
    "CREATE INDEX parents ON R (sourceId, destinationId) WHERE active = 1 AND typeId = %d;" % IS_A,
    "CREATE INDEX targets ON A (targetComponentId) WHERE active = 1;",
    *("CREATE INDEX times_of_%s ON %s (effectiveTime);" % (kind, kind) for kind in BASIC))
# The day of the release that makes a tree of the concepts.
TREE_DAY = "20260731"
# Between two dates, as numbers.
YEAR = 10000
SEED, SEED_OF_TREE = 7, 11
SHELL = "compared.shell"
SETTINGS = ("PRAGMA journal_mode = WAL;", "PRAGMA synchronous = FULL;")

# The rows of a release by their kinds, each as its columns.
Rows = dict[str, list[list[str]]]
# A list of lines, with its title; and forms of lines, with how many of these there are.
Asked = tuple[str, list[str]]
Forms = Sequence[tuple[str, int, list[str]]]

# What is asked: a title, how many lines, and their forms in turn. `{D[4]}` is what a row of kind D
# that is drawn has in its column 4. First the usual questions, then those of an audit, and what is
# asked once the concepts are a tree.
USUAL: Forms = (
    ("100,000 concepts", 100_000, ["GET C {C[0]} {date}"]),
    ("100,000 descriptions", 100_000, ["GET D {D[0]} {date}"]),
    ("1,000 pages of 1,000", 1_000, ["PAGE C {date} {C[0]} 1000"]),
    ("100 searches, limit 1,000", 100, ["TERMS {date} 1000 {word}"]),
    ("the descriptions of 10,000 concepts", 10_000, ["ABOUT D {D[4]} {date}"]),
    ("the relationships of 10,000 concepts", 10_000, ["ABOUT R {R[4]} {date}"]))
AUDITS: Forms = (
    *(("1,000 pages of 1,000 " + title, 1_000, [
        "DELTA %s %s {%s[0]} 1000" % (kind, days, kind) for kind in "CDR"])
      for days, title in (("20250131 20261231", "of the last releases"),
                          ("20120731 20191231", "of seven years"))),
    ("the descriptions that 10,000 concepts ever had", 10_000, ["TIMELINE D {D[4]}"]),
    ("what 10,000 components replace", 10_000, ["REPLACES {A[6]} {date}"]),
    ("all concepts above 1,000 concepts", 1_000, ["ANCESTORS {C[0]} {date}"]))
IN_A_TREE: Forms = (
    ("all concepts below the root, 10 times", 10, ["DESCENDANTS %d 20261231" % rf2.ROOT]),
    ("all concepts above 10,000 concepts, in a tree", 10_000, ["ANCESTORS {C[0]} 20261231"]))


def draw_rows(folder: str, chance: random.Random) -> tuple[int, Rows]:
    """How many rows a release has, and some of each kind, drawn by chance: each row is as
    likely."""
    counts: dict[str, int] = {}
    drawn: Rows = {}
    for kind in BASIC:
        kept = drawn.setdefault(kind, [])
        for counts[kind], row in enumerate(rf2.rows_of(folder, kind), 1):
            place = len(kept) if len(kept) < MOST_DRAWN else chance.randrange(counts[kind])
            if place < MOST_DRAWN:
                kept[place:place + 1] = [row]
    return sum(counts.values()), drawn


class Shell:
    """SQLite's shell on a new file, in which there are tables for some sorts of files."""

    def __init__(self, place: str, name: str, sorts: Sequence[str]) -> None:
        self.place, self.path, self.sorts = place, os.path.join(place, name), sorts
        for end in ("", "-wal", "-shm"):
            Path(self.path + end).unlink(missing_ok=True)
        self.kept = 0
        self.run([*SETTINGS, *map(table_of, sorts)])

    def run(self, lines: Sequence[str]) -> Cost:
        """What it prints for these lines, and what they cost."""
        cache = "PRAGMA cache_size = -%d;" % (self.kept // 1024)
        head = ["PRAGMA synchronous = FULL;", cache] if self.kept else []
        text = "\n".join([*head, *lines]) + "\n"
        return ran(["sqlite3", "-batch", "-bail", self.path], text.encode())

    def take(self, name: str, indexes: Sequence[str] = ()) -> Cost:
        """Imports a release, and makes indexes. The rows are trusted to be new."""
        files = rf2.files_of(os.path.join(self.place, name), self.sorts)
        lines = ['.import --skip 1 "%s" %s' % (path, sort) for sort, path in files]
        return self.run([".mode tabs", "BEGIN;", *lines, *indexes, "COMMIT;"])

    def take_again(self, name: str) -> Cost:
        """Imports a release, of which what is known is passed over."""
        lines = [".mode tabs", "PRAGMA temp_store = MEMORY;", "BEGIN;"]
        for sort, path in rf2.files_of(os.path.join(self.place, name), self.sorts):
            lines += ["CREATE TABLE temp.staged_%s (%s);" % (sort, ", ".join(columns_of(sort))),
                      '.import --skip 1 --schema temp "%s" staged_%s' % (path, sort),
                      "INSERT OR IGNORE INTO %s SELECT * FROM temp.staged_%s;" % (sort, sort)]
        return self.run([*lines, "COMMIT;"])

    def ask(self, queries: Iterable[str]) -> Cost:
        """The lines that it prints for queries, and what they cost."""
        return self.run([".mode list", '.separator "\\t" "\\n"', *queries])


def columns_of(sort: str) -> list[str]:
    return KEPT_SORTS[sort].columns.split(" ")


def table_of(sort: str) -> str:
    """The statement that makes the table of a sort."""
    id_of = "TEXT" if KEPT_SORTS[sort].kind in "AM" else "INTEGER"
    columns = ["%s %s NOT NULL" % (column, id_of if column == "id" else "INTEGER"
                                   if column in NUMBERS or column.endswith("Id") else "TEXT")
               for column in columns_of(sort)]
    return "CREATE TABLE %s (%s, PRIMARY KEY (id, effectiveTime)) WITHOUT ROWID;" % (
        sort, ", ".join(columns))


# ---- The shell's queries for lines of the protocol

REACHED = ("WITH RECURSIVE met (id) AS (SELECT x.{1} FROM R x WHERE x.{0} = {{name}} AND {2}"
           " UNION SELECT x.{1} FROM met JOIN R x ON x.{0} = met.id WHERE {2})"
           " SELECT id FROM met ORDER BY id;")
IS_A_LINK = "x.active = 1 AND x.typeId = %d{latest[R]}" % IS_A
# By the better of the shell's two ways: the index on dates for few rows, and for many, which a plus
# tells it, the order of the table.
DELTA, LONG_DELTA = ("SELECT x.* FROM {kind} x WHERE %sx.effectiveTime > {begin} AND x.id > {after}"
                     "{latest[%s]} ORDER BY x.id LIMIT {limit};" % way
                     for way in (("", "its"), ("+", "plus")))
# Of each command its words, and the query. `latest` is what holds of the latest version of a row of
# some table up to the date.
QUERIES = {
    "GET": ("kind name date", "SELECT x.* FROM {kind} x WHERE {named} AND x.effectiveTime <= {date}"
            " ORDER BY x.effectiveTime DESC LIMIT 1;"),
    "ABOUT": ("kind name date", "SELECT x.* FROM {kind} x WHERE x.active = 1 AND x.{subject} ="
              " {name}{latest[its]} ORDER BY x.id;"),
    "PAGE": ("kind date after limit",
             "SELECT x.* FROM {kind} x WHERE x.id > {after}{latest[its]} ORDER BY x.id"
             " LIMIT {limit};"),
    "TERMS": ("date limit prefix", "SELECT x.* FROM D x WHERE x.active = 1 AND x.term LIKE"
              " '{prefix}%'{latest[D]} ORDER BY x.id LIMIT {limit};"),
    "DELTA": ("kind begin date after limit", DELTA),
    "TIMELINE": ("kind name", "SELECT x.* FROM {kind} x WHERE id IN (SELECT id FROM {kind} WHERE"
                 " active = 1 AND {subject} = {name}) ORDER BY id, effectiveTime;"),
    "REPLACES": ("name date", "SELECT x.* FROM A x WHERE x.active = 1 AND x.targetComponentId ="
                 " {name}{latest[A]} ORDER BY x.refsetId, x.referencedComponentId, x.id;"),
    "ANCESTORS": ("name date", REACHED.format("sourceId", "destinationId", IS_A_LINK)),
    "DESCENDANTS": ("name date", REACHED.format("destinationId", "sourceId", IS_A_LINK))}


def newest(sort: str, date: str, row: str = "x") -> str:
    """What holds of the latest version up to a date."""
    return NEWEST.format(row, date, sort)


def query_of(line: str) -> str:
    """The query of a line of the protocol, in which a kind may be any sort of files."""
    command, *given = line.split(" ")
    names, query = QUERIES[command]
    count = len(names.split())
    words = dict(zip(names.split(), [*given[: count - 1], " ".join(given[count - 1 :])]))
    kind, date = words.get("kind", "C"), words.get("date", "")
    latest = {table: newest(table, date) for table in BASIC} | {"its": newest(kind, date)}
    latest["plus"] = latest["its"].replace("x.effectiveTime <=", "+x.effectiveTime <=", 1)
    if command == "DELTA" and int(date) - int(words["begin"]) > 2 * YEAR:
        query = LONG_DELTA
    if command == "TERMS":
        words["prefix"] = words["prefix"].replace("'", "''")
    name = words.get("name", "")
    named = "x.id = " + (repr(name) if KEPT_SORTS[kind].kind in "AM" else name)
    return query.format(**words, named=named, latest=latest, subject=SUBJECTS.get(kind))


def is_plain(term: str) -> bool:
    """Whether SQLite's LIKE finds it as a search of terms does."""
    return term.isascii() and "%" not in term and "_" not in term


class Questions:
    """The questions that both sides are asked, drawn by chance from the rows of a release."""

    def __init__(self, rows: Rows, chance: random.Random) -> None:
        self.rows, self.chance = rows, chance
        words = (row[7].split(" ")[0] for row in rows["D"])
        self.words = [word for word in words if is_plain(word)]

    def __getitem__(self, name: str) -> str | list[str]:
        """What stands for a name in a form: a text, or the columns of a row that is drawn."""
        if name == "date":
            return self.chance.choice(DAYS)
        if name == "word":
            return self.chance.choice(self.words).upper()
        return self.chance.choice(self.rows[name])

    def of(self, forms: Forms) -> Iterator[Asked]:
        for title, count, texts in forms:
            yield title, [texts[number % len(texts)].format_map(self) for number in range(count)]


def make_tree(place: str) -> None:
    """Writes a release that withdraws each "is a", and gives each concept but the root one parent
    or two that were made before it: few have many children, and most are some ten steps down."""
    chance, full = random.Random(SEED_OF_TREE), os.path.join(place, "full")
    rows: dict[str, list[str]] = {kind: [] for kind in rf2.KINDS}
    # The versions of a component stand together, the last one last.
    for _, versions in itertools.groupby(rf2.rows_of(full, "R"), key=lambda columns: columns[0]):
        columns = list(versions)[-1]
        if columns[2] == "1" and columns[7] == str(IS_A):
            rows["R"].append("\t".join([columns[0], TREE_DAY, "0", *columns[3:]]))
    every = itertools.groupby(columns[0] for columns in rf2.rows_of(full, "C"))
    concepts = [str(rf2.ROOT), *(name for name, _ in every)]
    made = 500_000_000
    for number, name in enumerate(concepts[1:], 1):
        for _ in range(chance.choice([1, 2])):
            made += 1
            parent = concepts[int(number * chance.random() ** 1.5)]
            body: rf2.Columns = [name, parent, 0, IS_A, rf2.INFERRED, rf2.MODIFIER]
            rows["R"].append(rf2.line((rf2.sctid(made, "02"), "R", body), TREE_DAY, 1))
    rf2.write(os.path.join(place, "tree"), "Delta", TREE_DAY, rows)


def rows_alone(told: bytes) -> Optional[bytes]:
    """The rows of replies, without the words around them; None where a reply ends otherwise than
    with the number of its rows."""
    rows: list[bytes] = []
    count = 0
    for line in told.split(b"\n")[:-1]:
        if line.startswith(ROW_LINES):
            rows.append(line.partition(b" ")[2] + b"\n")
            count += 1
        elif line == b"END %d" % count:
            count = 0
        else:
            return None
    return b"".join(rows)


class Table:
    """The lines that are printed, and whether all answers were alike."""

    HEAD = ("Rows", "Work", "sctd: wall", "processor", "peak, MB", "SQLite's shell: wall",
            "processor", "peak, MB", "processor, SQLite / sctd")

    def __init__(self, rows: int, sctd: Sctd, shell: Shell) -> None:
        self.rows, self.sctd, self.shell, self.alike = rows, sctd, shell, True

    def show(self, title: str, ours: Optional[Cost], theirs: Optional[Cost],
             same: bool = True) -> None:
        """Prints a line: what it cost both, or one side where the other does no such thing."""
        self.alike = self.alike and same
        shown: list[str] = []
        for cost in (ours, theirs):
            shown += ["%.2f" % cost.wall, "%.2f" % cost.used] if cost else ["", ""]
            shown.append("%d" % (cost.peak // 1000000) if cost and cost.peak else "")
        ratio = "%.1f" % (theirs.used / ours.used) if ours and theirs and ours.used else ""
        print_row(self.rows, title, *shown, ratio, behind="" if same else " NOT the same")

    def take(self, title: str, name: str, counts: str, indexes: Sequence[str] = (),
             is_again: bool = False) -> None:
        """Lets both sides import a release. The reply has the number of the import, and how many
        rows were new and known."""
        ours = self.sctd.take(name)
        theirs = self.shell.take_again(name) if is_again else self.shell.take(name, indexes)
        self.show(title, ours, theirs, ours.text == "OK " + counts)

    def open(self) -> Served:
        """Opens sctd's store. As much as that takes in memory the shell may keep from now on."""
        served = self.sctd.served()
        self.show("open", served.opening, None)
        self.shell.kept = served.held()
        return served

    def ask(self, served: Served, title: str, lines: Sequence[str], queries: Iterable[str] = (),
            rows_in: Callable[[bytes], Optional[bytes]] = rows_alone) -> None:
        """Asks both sides the same, and tells what that cost."""
        ours, theirs = served.ask(lines), self.shell.ask(queries or map(query_of, lines))
        title = title.format(theirs.output.count(b"\n"))
        self.show(title, ours._replace(peak=None), theirs._replace(peak=None),
                  rows_in(ours.output) == theirs.output)


def compare(program: str, folder: str, count: int) -> bool:
    """Whether all replies and answers were the same."""
    place = os.path.join(folder, str(count))
    made_release(place, count)
    if not os.path.isdir(os.path.join(place, "tree")):
        make_tree(place)
    chance = random.Random(SEED)
    of_full, rows = draw_rows(os.path.join(place, "full"), chance)
    of_delta, of_tree = (draw_rows(os.path.join(place, name), chance)[0]
                         for name in ("delta", "tree"))
    drawn = Questions(rows, chance)
    shell = Shell(place, SHELL, BASIC)
    table = Table(count, Sctd(program, place), shell)
    table.take("import the Full release, with its indexes", "full", f"1 {of_full} 0", INDEXES)
    table.take("import it over itself", "full", f"2 0 {of_full}", is_again=True)
    table.take("import a Delta of 100 rows", "delta", f"3 {of_delta} 0")
    served = table.open()
    for title, lines in drawn.of(USUAL):
        table.ask(served, title, lines)
    table.show("the shell's indexes for an audit", None, shell.run(AUDIT_INDEXES))
    for title, lines in drawn.of(AUDITS):
        table.ask(served, title, lines)
    served.end()
    table.sctd.run("merge")
    table.take("import other parents of each concept", "tree", f"4 {of_tree} 0")
    served = table.sctd.served()
    for title, lines in drawn.of(IN_A_TREE):
        table.ask(served, title, lines)
    served.end()
    sizes = os.path.getsize(table.sctd.path), os.path.getsize(shell.path)
    print("bytes of the files: sctd %d, SQLite %d" % sizes)
    return table.alike


if __name__ == "__main__":
    sys.exit(compared_by(__doc__, Table.HEAD, compare))
