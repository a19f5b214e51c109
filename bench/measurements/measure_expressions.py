"""Measures what expressions of ECL take of the processor, in the gateway, the hub and the program.

measure_expressions.py PROGRAM [--rows N] [--days N]

In a whole package of about N rows concepts are chosen that have the most, about 1,000 and about 100
below them. Each expression is expanded without a page, by a gateway that was just started, on each
of the latest releases' days, so that nothing of it is remembered; the last row is a set that is.
"""

import argparse
import http.client
import json
import socket
import statistics
import sys
import time
from collections.abc import Callable, Mapping, Sequence
from functools import partial
from pathlib import Path
from string import Template
from typing import NamedTuple, Self
from urllib.parse import urlencode

import make_release as rf2
from measure_harness import (
    MANY_ROWS, MS, child_of, column_of, made_release, make_store, options_of, print_head,
    print_row, processor_seconds)

sys.path.append(str(Path(__file__).resolve().parents[1] / "trials"))
from harness import tell  # noqa: E402
from proxy_harness import (  # noqa: E402
    Process, gateway_words, hub_words, need, open_folder, ready, stop)

SCT = "http://snomed.info/sct"
DAYS = 7
# How many concepts are to be below those that are chosen: a part of all, or a number; and among how
# many they are looked for.
THIRD, FEW, VALUES = 3, 1_000, 100
CANDIDATES, LARGEST = 400, 40
# The words behind `$`: X and V together have a third of all below them, or nearly, W has few, Y has
# the values; S is a reference set.
EXPRESSIONS = (
    "*", "<< $W", "<< $X", "<< $X OR << $V", "<< $X MINUS << $W", "^ $S", "^ $S AND << $W",
    "^ $S AND << $X", "* : $a = $Y", "* : $a = << $Y", "<< $W : $a = << $Y", "<< $X : $a = << $Y",
    "(<< $X OR << $V) : $a = << $Y", "<< $X : { $a = << $Y }", "<< $X : { $a = << $Y , $b = * }",
    "<< $X : $a = *", "<< $W . $a", "<< $Y : R $a = << $X", "* : R $a = << $W",
    "<< $W {{ + HISTORY-MOD }}", "<< $W {{ C definitionStatus = defined }}",
    "<< $X {{ term = \"frac heart kid\" }}", "<< $W {{ term = wild:\"*heart*\" }}")


class Taken(NamedTuple):
    """What one answer took: of the processor by process, and by the wall, in seconds. `total` is
    how many concepts there are, or why the expression is refused."""

    used: list[float]
    wall: float
    total: str


class UnixHttp(http.client.HTTPConnection):
    """HTTP over a Unix socket."""

    def __init__(self, path: str) -> None:
        super().__init__("x")
        self.path = path

    def connect(self) -> None:
        self.sock = socket.socket(socket.AF_UNIX)
        self.sock.connect(self.path)


class Asked:
    """A gateway that was just started, and is asked for the sizes of sets."""

    def __init__(self, hub: Process, place: Path) -> None:
        path, language = str(place / "http"), str(rf2.US_ENGLISH)
        words = gateway_words(place / "hub", path, "--languages", language)
        self.gateway = ready(words, place / "log")
        self.client = UnixHttp(path)
        self.pids = [self.gateway.pid, hub.pid, child_of(hub.pid)]

    def __enter__(self) -> Self:
        return self

    def __exit__(self, *_: object) -> None:
        self.client.close()
        stop(self.gateway)

    def size(self, expression: str, day: str) -> str:
        words = {"url": "%s?fhir_vs=ecl/%s" % (SCT, expression), "count": "0", "date": day}
        self.client.request("GET", "/fhir/ValueSet/$expand?" + urlencode(words))
        answer = self.client.getresponse()
        said = json.loads(answer.read())
        if answer.status != 200:
            return "%d: %.60s" % (answer.status, said["issue"][0]["diagnostics"])
        return str(said["expansion"]["total"])

    def taken(self, expression: str, day: str) -> Taken:
        before, begun = [*map(processor_seconds, self.pids)], time.perf_counter()
        total = self.size(expression, day)
        wall = time.perf_counter() - begun
        after = map(processor_seconds, self.pids)
        return Taken([last - first for first, last in zip(before, after)], wall, total)


def chosen(asked: Asked, codes: Sequence[str], day: str) -> dict[str, str]:
    """The concepts that stand in the expressions, by their words. Those that were made first have
    the most below them."""
    step = len(codes) ** (1 / CANDIDATES)
    candidates = sorted({codes[int(step**number) - 1] for number in range(CANDIDATES)}, key=int)
    sizes = {code: int(asked.size("<< " + code, day)) for code in candidates}
    # Those that have the most below them, each with the one that has the most.
    largest, *others = sorted(sizes, key=lambda code: -sizes[code])[:LARGEST]
    both = {code: int(asked.size("<< %s OR << %s" % (largest, code), day)) for code in others}
    first, second = rf2.ATTRIBUTES[:2]
    return {
        "X": largest, "V": nearest(both, len(codes) // THIRD), "W": nearest(sizes, FEW),
        "Y": nearest(sizes, VALUES), "S": str(rf2.VALUE_SETS[0]), "a": str(first), "b": str(second)}


def nearest(sizes: Mapping[str, int], count: int) -> str:
    return min(sizes, key=lambda code: abs(sizes[code] - count))


def add_attributes(folder: Path) -> None:
    """Adds the concepts of the attributes to a made release, which has them as types alone."""
    _, path = next(rf2.files_of(folder / "full", "C"))
    with open(path, "a", encoding="utf-8", newline="") as file:
        for code in rf2.ATTRIBUTES:
            attribute = rf2.Component(code, "C", [rf2.PRIMITIVE])
            file.write(rf2.line(attribute, rf2.DATES[0], 1) + "\r\n")


def show(name: str, found: Sequence[Taken]) -> None:
    """Prints a row of the table, with the medians."""
    used = [statistics.median(times) * MS for times in zip(*(one.used for one in found))]
    every = statistics.median(sum(one.used) for one in found) * MS
    wall = statistics.median(one.wall for one in found) * MS
    parts = " / ".join("%.1f" % one for one in used)
    print_row("`%s`" % name, found[-1].total, "%.1f; %s" % (every, parts), "%.0f" % wall)


def measured(begin: Callable[[], Asked], codes: Sequence[str], dates: Sequence[str]) -> None:
    with begin() as asked:
        words = chosen(asked, codes, dates[-1])
        below = asked.size("<< " + words["Y"], dates[-1])
    print("%d concepts, %s of them below Y and Y itself" % (len(codes), below))
    print_head("Expression", "Concepts", "processor ms: all; gateway / hub / program",
               "by the wall, ms")
    for expression in EXPRESSIONS:
        text = Template(expression).substitute(words)
        with begin() as asked:
            show(expression, [asked.taken(text, day) for day in dates])
            if expression == EXPRESSIONS[-1]:
                show("the same again", [asked.taken(text, day) for day in dates])


def tried(options: argparse.Namespace) -> None:
    need()
    with open_folder() as place:
        made_release(str(place), options.rows, is_package=True)
        add_attributes(place)
        make_store(options.program, place, place / "store", options.rows, is_package=True)
        codes = sorted(set(column_of(place, "C", "id")), key=int)
        words = hub_words(options.program, place / "store", place, "--socket", str(place / "hub"))
        hub = ready(words, place / "log")
        days = rf2.DATES[-options.days :]
        dates = ["%s-%s-%s" % (day[:4], day[4:6], day[6:]) for day in days]
        try:
            measured(partial(Asked, hub, place), codes, dates)
        finally:
            stop(hub)


def main() -> int:
    options = options_of(__doc__, rows=MANY_ROWS, days=DAYS)
    return tell(lambda: tried(options))


if __name__ == "__main__":
    sys.exit(main())
