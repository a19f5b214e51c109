"""Measures searches by words, sources and all rows beside SQLite's, and what keeping words costs.

measure_words.py PROGRAM FOLDER [ROWS ..]

Descriptions are searched by the beginnings of one to four words of a term, on a date, the first 30
of them; SQLite has an FTS5 table for that with prefix indexes of one, two and three letters.
Sources are asked by a relationship's type and destination, for which SQLite has an index. Each
question is asked alone, both sides have to give the same identifiers, and what is told is their
time of the processor in milliseconds. SQLite answers in this process, and keeps in memory what it
likes. Then all rows of each kind are read in pages. Last, the store is opened with words and
without.
"""

import os
import random
import re
import sqlite3
import statistics
import sys
import time
from collections.abc import Iterable, Sequence

import make_release as rf2
from compare_shell import Shell, newest
from measure_harness import MS, ROW_LINES, Sctd, Served, compared_by, made_release, print_row

# How many words are asked for, and of how many letters each.
SHAPES = ((1, 1), (1, 3), (2, 2), (2, 3), (3, 3), (4, 2))
DATES = ("20140131", "20191231", "20261231")
SEARCHES, LIMIT, PAGE = 200, 30, 1_000
# SQLite may keep so much in memory, in KiB.
CACHE = 2_000_000
SEED = 7
OPENINGS = 3
MICROSECONDS, MILLION = 1e6, 1e6
HEAD = ("Rows", "Work", "sctd: median", "95 %", "SQLite: median", "95 %", "median, SQLite / sctd")
# Of the table of descriptions one whose rows have numbers, by which they are found in the words.
WORDS = """
PRAGMA cache_size = -%d;
CREATE TABLE T (number INTEGER PRIMARY KEY, id INTEGER, effectiveTime INTEGER, active INTEGER,
    term TEXT);
INSERT INTO T (id, effectiveTime, active, term) SELECT id, effectiveTime, active, term FROM D;
CREATE VIRTUAL TABLE words USING fts5 (term, content = '', prefix = '1 2 3',
    tokenize = 'unicode61 remove_diacritics 2');
CREATE INDEX versions ON T (id, effectiveTime);
CREATE INDEX sources ON R (destinationId, typeId, sourceId) WHERE active = 1;
INSERT INTO words (rowid, term) SELECT number, term FROM T;
INSERT INTO words (words) VALUES ('optimize');
ANALYZE;
""" % CACHE
FOUND = ("SELECT x.id FROM words JOIN T x ON x.number = words.rowid WHERE words MATCH :words AND"
         " x.active = 1" + newest("T", ":date") + " ORDER BY length(x.term), x.id LIMIT :limit")
SOURCES = ("SELECT DISTINCT x.sourceId FROM R x WHERE x.destinationId = :concept AND"
           " x.typeId = :type AND x.active = 1" + newest("R", ":date")
           + " ORDER BY x.sourceId LIMIT :limit")
# A word in SQLite's way: made terms have no other characters than these.
WORD = re.compile(r"[^\W_]+")

# A question as a line of the protocol, and what SQLite is asked: the query and its values.
Question = tuple[str, str, dict[str, object]]


def sqlite_of(place: str) -> sqlite3.Connection:
    """A database of a release's descriptions and relationships, with its indexes."""
    shell = Shell(place, "words.sqlite", ("D", "R"))
    shell.take("full")
    base = sqlite3.connect(shell.path)
    base.executescript(WORDS)
    return base


def search(term: str, date: str, shape: tuple[int, int], chance: random.Random) -> Question:
    """A search for the beginnings of some words of a term, in any order."""
    count, letters = shape
    words = [word[:letters] for word in WORD.findall(term)]
    wanted = chance.sample(words, min(count, len(words)))
    matched = " AND ".join('"%s"*' % word for word in wanted)
    return ("WORDS %s - 0 %d %s" % (date, LIMIT, " ".join(wanted)), FOUND,
            {"date": int(date), "words": matched, "limit": LIMIT})


def source(row: Sequence[str], date: str) -> Question:
    """What has a relationship like this one."""
    return ("SOURCES %s %s %s - %d" % (row[7], row[5], date, PAGE), SOURCES,
            {"date": int(date), "concept": int(row[5]), "type": int(row[7]), "limit": PAGE})


def ids_of(told: bytes) -> list[int]:
    """The identifiers of a reply's rows."""
    lines = (line for line in told.split(b"\n") if line.startswith(ROW_LINES))
    return [int(line.partition(b" ")[2].partition(b"\t")[0]) for line in lines]


def spread(times: Sequence[float]) -> tuple[float, float]:
    """The median and what 95 of 100 don't exceed, in milliseconds."""
    return (statistics.median(times) * MS,
            statistics.quantiles(times, n=20)[-1] * MS)


def ask(rows: int, served: Served, base: sqlite3.Connection, title: str,
        asked: Iterable[Question]) -> bool:
    """Asks both sides one question after the other, and tells how long they took; whether both
    said the same."""
    ours: list[float] = []
    theirs: list[float] = []
    alike = True
    for line, query, values in asked:
        cost = served.ask([line])
        ours.append(cost.used)
        start = time.thread_time()
        found = [row[0] for row in base.execute(query, values)]
        theirs.append(time.thread_time() - start)
        alike = alike and ids_of(cost.output) == found
    own, other = spread(ours), spread(theirs)
    print_row(rows, title, *("%.3f" % time for time in (*own, *other)),
              "%.1f" % (other[0] / own[0]), behind="" if alike else " NOT the same")
    return alike


def read_all(rows: int, served: Served) -> None:
    """Reads the rows of each kind in pages, and tells what a row cost the processor."""
    used, count = 0.0, 0
    for kind in rf2.KINDS:
        key = "- -"
        while key:
            cost = served.ask(["ROWS %s %s %d" % (kind, key, PAGE)])
            told, used = cost.output.split(b"\n")[:-2], used + cost.used
            count += len(told)
            columns = told[-1].split(b" ", 1)[1].split(b"\t") if len(told) == PAGE else []
            key = b" ".join(columns[:2]).decode()
    print_row(rows, "ROWS of everything, µs a row", "%.2f" % (used / count * MICROSECONDS),
              "", "", "", "")


def open_both(rows: int, sctd: Sctd) -> None:
    """Opens the store with words and without, and tells how long it takes and what it holds."""
    for title, words in (("with words", ()), ("without words", ("--without", "words"))):
        opened = []
        for _ in range(OPENINGS):
            served = sctd.served(*words)
            opened.append(served.opening)
            served.end()
        used = min(cost.used for cost in opened) / rows * MILLION
        held = min(cost.peak or 0 for cost in opened) / rows
        print_row(rows, "open %s: seconds a million rows, bytes a row" % title,
                  "%.2f" % used, "%.0f" % held, "", "", "")


def compare(program: str, folder: str, count: int) -> bool:
    """Whether both sides gave the same identifiers."""
    place = os.path.join(folder, str(count))
    made_release(place, count)
    chance = random.Random(SEED)
    full = os.path.join(place, "full")
    terms = [row[7] for row in rf2.rows_of(full, "D")]
    links = list(rf2.rows_of(full, "R"))
    base, sctd = sqlite_of(place), Sctd(program, place)
    sctd.take("full")
    served, alike = sctd.served(), True
    for shape in SHAPES:
        asked = [search(chance.choice(terms), chance.choice(DATES), shape, chance)
                 for _ in range(SEARCHES)]
        alike &= ask(count, served, base, "WORDS, %d of %d letters" % shape, asked)
    asked = [source(chance.choice(links), chance.choice(DATES)) for _ in range(SEARCHES)]
    alike &= ask(count, served, base, "SOURCES", asked)
    read_all(count, served)
    served.end()
    open_both(count, sctd)
    return alike


if __name__ == "__main__":
    sys.exit(compared_by(__doc__, HEAD, compare))
