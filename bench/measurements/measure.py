"""Measures stores in a file on releases that make_release.py made.

measure.py PROGRAM FOLDER [ROWS ..]

For each number of rows there is a store of layout 2 and one of layout 3 into which the Full release
was imported, and such of layout 3 into which its rows were imported in 2 releases, to which they
are dealt out at random; of the fewest rows also in 128 and in 250. Of each these are told:

- imports, `sctd status`, which is an opening, `sctd copy` and `sctd digest`, by a process of its
  own, less the memory of opening an empty store; of the last three, by turns, the least of five;
- questions, as lines to a server: their seconds begin once it has opened the store;
- a Delta of 100 rows as a line to a server, by itself the least and the most of ten;
- of two segments a merge of them, by lines of 1,000 rows.

Last comes examples/digest.py, which has to give the digest of each store.
"""

import random
import shutil
import statistics
import sys
from collections.abc import Callable, Mapping, Sequence
from pathlib import Path

import make_release as rf2
from measure_harness import (
    MANY_ROWS, MS, ROWS, TOLD, Cost, Sctd, Served, asked_for, least, made_release, print_head,
    print_row, ran)

DIGEST = Path(__file__).resolve().parents[2] / "examples" / "digest.py"
SEED = 7
# The date of all questions.
DATE = "20251231"
FOUND = (b"ROW ", b"ID ")
HEAD = ("Rows", "Store", "Work", "Processor ms", "Wall ms", "Bytes a row", "Reply, or how many")
# How many segments a store may have, and how many those of layout 3 have, besides one: of each
# number of rows, and of the fewest.
MOST = 250
SEGMENTS, MANY_SEGMENTS = (2,), (128, MOST)
# How often processes are run, and Deltas imported by lines; how many rows a step of a merge takes.
TIMES, DELTAS, STEP = 5, 10, 1000


def dealt_out(place: Path, count: int) -> list[str]:
    """The names of so many releases, to which the rows of the Full release are dealt out."""
    chance, full = random.Random(SEED), place / "full"
    names = ["dealt%d/p%d" % (count, number) for number in range(count)]
    for path in sorted(full.rglob("*.txt")):
        head, *lines = path.read_bytes().splitlines(keepends=True)
        parts: list[list[bytes]] = [[] for _ in names]
        for line in lines:
            chance.choice(parts).append(line)
        for name, part in zip(names, parts):
            to = place / name / path.relative_to(full)
            to.parent.mkdir(parents=True, exist_ok=True)
            to.write_bytes(head + b"".join(part))
    return names


def questions(full: Path) -> dict[str, list[str]]:
    """Lines that ask, by what is measured with them."""
    chance = random.Random(SEED)

    def drawn(sort: str, count: int) -> list[list[str]]:
        rows = list(rf2.rows_of(full, sort))
        return [chance.choice(rows) for _ in range(count)]

    concepts = [row[0] for row in drawn("C", 10_000)]
    terms = [" ".join(row[7].split(" ")[:3]) for row in drawn("D", 1000)]
    asked = {"10,000 lookups": [f"GET C {concept} {DATE}" for concept in concepts]}
    for limit in (10, 100, 1000):
        asked[f"1,000 pages of {limit}"] = [
            f"PAGE C {DATE} {concept} {limit}" for concept in concepts[:1000]]
    asked["1,000 searches of terms"] = [f"TERMS {DATE} 10 {term}" for term in terms]
    asked["100 searches of a word, limit 1,000"] = [
        f"TERMS {DATE} 1000 {term.split(' ')[0]}" for term in terms[:100]]
    asked["1,000 questions for children"] = [
        f"CHILDREN {row[5]} {DATE}" for row in drawn("R", 1000)]
    return asked


def answered(served: Served, *lines: str) -> Cost:
    """What lines cost a server, which refuses none of them."""
    cost = served.ask(lines)
    if b"\nERR " in b"\n" + cost.output:
        raise SystemExit("%s: %r" % (lines[0], cost.output[-TOLD:]))
    return cost


def count_found(cost: Cost) -> str:
    """How many rows and identifiers a server found."""
    return str(sum(line.startswith(FOUND) for line in cost.output.split(b"\n")))


class Measured:
    """A store of some releases, and the rows of the table that are of it."""

    def __init__(self, program: str, place: Path, rows: int, layout: int,
                 names: Sequence[str]) -> None:
        self.place, self.rows = place, rows
        self.title = f"layout {layout}, segments: {len(names)}"
        self.ground = Sctd(program, str(place), "empty.store", layout).run("status").peak or 0
        self.sctd, self.copy = Sctd(program, str(place), layout=layout), place / "copy"
        imports = [self.sctd.take(name) for name in names]
        if len(imports) == 1:
            self.show("import the Full release", imports[0], imports[0].text)

    def show(self, work: str, cost: Cost, told: str = "") -> None:
        held = "%.0f" % ((cost.peak - self.ground) / self.rows) if cost.peak else ""
        seconds = ("%.2f" % (one * MS) for one in (cost.used, cost.wall))
        print_row(self.rows, self.title, work, *seconds, held, told)

    def read(self, digest: str) -> None:
        """Opens, copies and digests it, by turns."""
        works = {"open": ("status",), "copy": ("copy", "--to", str(self.copy)),
                 "digest": ("digest",)}
        costs: dict[str, list[Cost]] = {work: [] for work in works}
        for _ in range(TIMES):
            for work, words in works.items():
                costs[work].append(self.sctd.run(*words))
                self.copy.unlink(missing_ok=True)
        for work, found in costs.items():
            self.show(work, least(found), found[-1].text)
            if work == "digest" and found[-1].text != "OK " + digest:
                raise SystemExit("the digest is %r, and not %r" % (found[-1].text, digest))

    def ask(self, asked: Mapping[str, Sequence[str]]) -> None:
        for title, lines in asked.items():
            served = self.sctd.served()
            cost = answered(served, *lines)
            self.show(title, cost, count_found(cost))
            served.end()

    def on_a_copy(self, work: Callable[[Served], None]) -> None:
        """Does something with a server of a copy."""
        shutil.copyfile(self.sctd.path, self.copy)
        served = Served(self.sctd.program, str(self.copy), str(self.place))
        work(served)
        served.end()
        self.copy.unlink()

    def merge(self) -> None:
        """Merges its two segments."""
        def merged(served: Served) -> None:
            begun = answered(served, "MERGE")
            steps = [answered(served, f"STEP {STEP}") for _ in range(0, self.rows + STEP, STEP)]
            ended = answered(served, "PUBLISH")
            used, wall = [step.used for step in steps], [step.wall for step in steps]
            self.show("a merge, in all", Cost(begun.wall + sum(wall) + ended.wall,
                                              begun.used + sum(used) + ended.used))
            self.show("a step: the median", Cost(statistics.median(wall), statistics.median(used)))
            self.show("a step: the longest", Cost(max(wall), max(used)))
            self.show("PUBLISH", ended, count_found(ended))

        self.on_a_copy(merged)

    def change(self) -> None:
        """Imports the Delta, and the Full release over itself."""
        costs: list[Cost] = []
        for _ in range(DELTAS):
            self.on_a_copy(lambda served: costs.append(answered(served, "IMPORT delta")))
        costs.sort(key=lambda cost: cost.used)
        self.show("a Delta of 100 rows, as a line: the least", costs[0], count_found(costs[0]))
        self.show("a Delta of 100 rows, as a line: the most", costs[-1], count_found(costs[-1]))
        for title, name in (("open, and import a Delta of 100 rows", "delta"),
                            ("import the Full release over itself", "full")):
            cost = self.sctd.take(name)
            self.show(title, cost, cost.text)


def measure(program: str, place: Path, rows: int, segments: Sequence[int]) -> None:
    made_release(str(place), rows)
    full = place / "full"
    by_script, asked = ran([sys.executable, str(DIGEST), str(full)]), questions(full)
    for layout, count in ((2, 1), (3, 1), *((3, count) for count in segments)):
        names = ["full"] if count == 1 else dealt_out(place, count)
        measured = Measured(program, place, rows, layout, names)
        measured.read(by_script.text)
        measured.ask(asked)
        if count == 2:
            measured.merge()
        if count < MOST:
            measured.change()
    print_row(rows, "-", "`examples/digest.py`", "%.2f" % (by_script.used * MS),
              "%.2f" % (by_script.wall * MS), (by_script.peak or 0) // rows, "")


def main() -> int:
    asked = asked_for(__doc__, ROWS, MANY_ROWS)
    print_head(*HEAD)
    for rows in asked.rows:
        more = MANY_SEGMENTS if rows == min(asked.rows) else ()
        measure(asked.program, Path(asked.folder, str(rows)), rows, SEGMENTS + more)
    return 0


if __name__ == "__main__":
    sys.exit(main())
