#!/usr/bin/env python3
"""Reads records: what the code of each meant on its date, and what it means now.

read_records.py --socket PATH [--pin N] < records.csv > read.csv

PATH is a socket of the hub; that of `--questions` suffices. The first line of records.csv names its
columns. Two of them are `code`, the SCTID of a concept, and `date`, as 20200630 or 2020-06-30. The
columns are separated by commas, semicolons or tabs, and kept as they are. Behind them read.csv has

active_then, active_now   1 or 0, or nothing where the store doesn't have the concept
name_then, name_now       the fully specified name, an English one where there is one
replaced_by               the active concepts that took the place of one that isn't active now
may_be_replaced_by        those of which the release says only that they may do so
problem                   why a record couldn't be read, or not whole; else nothing
pin, receipt              the imports that are shown, and the receipt of the last of them

`now` is the latest that these imports say. All answers are of one pin; with `--pin N` it is N, so
that a report can be repeated. A record that can't be read is a line with its reason, and the next
one is read as ever. Standard error tells how far it is. The status is 1 where the hub can't be
reached or ends, and where a question is refused for another reason than its record; it is 2 where
the words or the first line aren't understood. It takes the folder `service/` beside its own.
"""

import argparse
import collections
import contextlib
import csv
import datetime
import io
import itertools
import re
import signal
import sys
import time
from collections.abc import Iterator, Sequence
from dataclasses import dataclass, field
from pathlib import Path
from typing import BinaryIO, NamedTuple, Optional

sys.path.append(str(Path(__file__).resolve().parent.parent / "service"))
from sctd_service import snomed  # noqa: E402
from sctd_service.protocol import HubClient, HubFailed  # noqa: E402

NEW_COLUMNS = ["active_then", "name_then", "active_now", "name_now", "replaced_by",
               "may_be_replaced_by", "problem", "pin", "receipt"]
DELIMITERS = ",;\t"
# A record has at most so many lines, of so many bytes each.
MOST_LINES = 100
LINE_BYTES = 1 << 16
# How many records are asked about together, and how many lines are sent at once.
BATCH = 100
MOST_SENT = 200
# How many concepts' present state is kept in memory.
MOST_KEPT = 100_000
# How often one concept may be replaced by another that isn't active either.
MOST_STEPS = 20
PROGRESS_SECONDS = 5
# The date that no version is later than.
NOW = "99991231"
# Association reference sets.
REPLACING = {snomed.SAME_AS, snomed.REPLACED_BY}
MAYBE_REPLACING = {snomed.POSSIBLY_EQUIVALENT_TO, snomed.ALTERNATIVE, snomed.POSSIBLY_REPLACED_BY,
                   snomed.PARTIALLY_EQUIVALENT_TO}
CODE = re.compile(r"[0-9]{6,18}")
DATE = re.compile(r"([0-9]{4})(-?)([0-9]{2})\2([0-9]{2})")


class Unreadable(Exception):
    """Why a line of the input isn't read."""


class Hub:
    """A connection to the hub, whose session is pinned."""

    def __init__(self, path: str, pin: Optional[int]) -> None:
        self.client = HubClient(path)
        self.pin = self.one("PIN" if pin is None else "PIN %d" % pin).split(" ")[1]
        self.receipt = self.one("RECEIPT " + self.pin) if self.pin != "0" else ""

    def one(self, line: str) -> str:
        """The reply of one line, which has to be OK."""
        self.client.send([line.encode()])
        reply = self.reply()[-1]
        if not reply.startswith("OK "):
            raise HubFailed("%s was answered %s" % (line, reply))
        return reply

    def ask(self, lines: Sequence[str]) -> list[Optional[list[list[str]]]]:
        """The rows of each reply, or None where the arguments were refused."""
        found = []
        for start in range(0, len(lines), MOST_SENT):
            some = lines[start : start + MOST_SENT]
            self.client.send(line.encode() for line in some)
            found += [self.rows(line) for line in some]
        return found

    def reply(self) -> list[str]:
        """The lines of the next reply."""
        return self.client.reply().decode("utf-8", "surrogateescape").split("\n")[:-1]

    def rows(self, asked: str) -> Optional[list[list[str]]]:
        *rows, last = self.reply()
        if last.startswith("ERR 43 "):
            return None
        if not last.startswith("END "):
            raise HubFailed("%s was answered %s" % (asked, last))
        return [row.removeprefix("ROW ").split("\t") for row in rows]


class State(NamedTuple):
    """What a concept is on a date."""

    active: str
    name: str


def state_of(versions: Optional[list[list[str]]], terms: Optional[list[list[str]]]) -> State:
    """The state that the replies to GET C and ABOUT D say."""
    if not versions:
        return State("", "")
    names = [row for row in terms or [] if row[6] == snomed.FULLY_SPECIFIED_NAME]
    names.sort(key=lambda row: row[5] != "en")
    return State(versions[0][2], names[0][7] if names else "")


@dataclass
class Present:
    """What a concept is now."""

    is_sctid: bool
    state: State
    # What replaced it, and what may have replaced it.
    replacing: list[str] = field(default_factory=list)
    maybe: list[str] = field(default_factory=list)

    def problem(self) -> str:
        if not self.is_sctid:
            return "the code is no concept's SCTID"
        return "" if self.state.active else "the store has no such concept"


@dataclass
class Record:
    """A record, and what was found of it."""

    columns: list[str]
    code: str = ""
    date: str = ""
    problem: str = ""
    then: State = State("", "")
    now: Present = field(default_factory=lambda: Present(True, State("", "")))

    def found(self) -> list[str]:
        """What stands behind its columns."""
        maybe = [concept for concept in self.now.maybe if concept not in self.now.replacing]
        return [*self.then, *self.now.state, " ".join(self.now.replacing), " ".join(maybe),
                self.problem]


class Step(NamedTuple):
    """A concept on the way from a retired one to what replaced it, and whether that is certain."""

    origin: str
    concept: str
    is_certain: bool


class Reader:
    """Reads records through the hub."""

    def __init__(self, hub: Hub) -> None:
        self.hub = hub
        self.present: dict[str, Present] = {}

    def read(self, records: Sequence[Record]) -> None:
        """Completes the records that have no problem."""
        asked = [record for record in records if not record.problem]
        self.learn({record.code for record in asked})
        for record in asked:
            record.now = self.present[record.code]
            record.problem = record.now.problem()
        there = [record for record in asked if not record.problem]
        states = self.states([(record.code, record.date) for record in there])
        for record, (_, state) in zip(there, states):
            record.then = state
            record.problem = "" if state.active else "the concept wasn't there yet on that date"

    def states(self, asked: Sequence[tuple[str, str]]) -> list[tuple[bool, State]]:
        """Of codes and dates whether each code is an SCTID, and the concept's state."""
        replies = self.hub.ask([
            line % pair for pair in asked for line in ("GET C %s %s", "ABOUT D %s %s")])
        pairs = zip(replies[::2], replies[1::2])
        return [(rows is not None, state_of(rows, terms)) for rows, terms in pairs]

    def learn(self, codes: set[str]) -> None:
        """Asks what these concepts are now, where that isn't known."""
        if len(self.present) > MOST_KEPT:
            self.present.clear()
        new = sorted(codes - self.present.keys())
        for code, found in zip(new, self.states([(code, NOW) for code in new])):
            self.present[code] = Present(*found)
        self.follow([code for code in new if self.present[code].state.active == "0"])

    def follow(self, codes: Sequence[str]) -> None:
        """Finds what replaced retired concepts, going on from what isn't active either."""
        steps = [Step(code, code, True) for code in codes]
        seen = set(steps)
        for _ in range(MOST_STEPS):
            steps = [step for step in dict.fromkeys(self.next_steps(steps)) if step not in seen]
            seen.update(steps)
            steps = self.not_active(steps)

    def next_steps(self, steps: Sequence[Step]) -> Iterator[Step]:
        """Where the associations of these concepts lead."""
        replies = self.hub.ask(["REPLACED %s %s" % (step.concept, NOW) for step in steps])
        for step, rows in zip(steps, replies):
            for row in rows or []:
                if row[4] in REPLACING | MAYBE_REPLACING:
                    is_certain = step.is_certain and row[4] in REPLACING
                    yield Step(step.origin, row[6], is_certain)

    def not_active(self, steps: Sequence[Step]) -> list[Step]:
        """Notes the steps that lead to active concepts, and answers the others."""
        others = []
        replies = self.hub.ask(["GET C %s %s" % (step.concept, NOW) for step in steps])
        for step, rows in zip(steps, replies):
            if rows and rows[0][2] == "1":
                present = self.present[step.origin]
                (present.replacing if step.is_certain else present.maybe).append(step.concept)
            else:
                others.append(step)
        return others


class Lines:
    """The lines of the input, as the csv module takes them. Those of the record that is being read
    can be given back."""

    def __init__(self, stream: BinaryIO) -> None:
        self.stream = stream
        self.again: collections.deque[str] = collections.deque()
        self.taken: list[str] = []
        # The number of the line that was taken last.
        self.number = 0

    def __iter__(self) -> "Lines":
        return self

    def __next__(self) -> str:
        if len(self.taken) == MOST_LINES:
            raise Unreadable("a record of more than %d lines" % MOST_LINES)
        line = self.again.popleft() if self.again else self.next_line()
        if not line:
            raise StopIteration
        self.number += 1
        self.taken.append(line)
        return line

    def next_line(self) -> str:
        line = self.stream.readline(LINE_BYTES)
        if len(line) < LINE_BYTES or line.endswith(b"\n"):
            return line.decode("utf-8", "surrogateescape")
        while line and not line.endswith(b"\n"):
            line = self.stream.readline(LINE_BYTES)
        self.number += 1
        raise Unreadable("a line of more than %d bytes" % LINE_BYTES)

    def give_back(self) -> None:
        """Gives back all lines of the record but the first."""
        again = self.taken[1:]
        self.number -= len(again)
        self.again.extendleft(reversed(again))


class Table:
    """The input: the names of its columns, and its records."""

    def __init__(self, stream: BinaryIO) -> None:
        self.lines = Lines(stream)
        header = next(self.lines, "")
        self.mark = "\ufeff" if header.startswith("\ufeff") else ""
        header = header[len(self.mark):]
        self.names: list[str] = []
        for self.delimiter in DELIMITERS:
            self.names = next(csv.reader([header], delimiter=self.delimiter), [])
            plain = [name.strip().lower() for name in self.names]
            if "code" in plain and "date" in plain:
                break
        else:
            raise Unreadable("the first line names no columns code and date")
        if set(plain) & set(NEW_COLUMNS):
            raise Unreadable("the first line names a column that is added here")
        self.code, self.date = plain.index("code"), plain.index("date")

    def records(self) -> Iterator[Record]:
        rows = csv.reader(self.lines, delimiter=self.delimiter, strict=True)
        while True:
            self.lines.taken.clear()
            try:
                columns = next(rows)
            except StopIteration:
                return
            except (csv.Error, Unreadable) as why:
                self.lines.give_back()
                problem = "line %d can't be read: %s" % (self.lines.number, why)
                yield Record([""] * len(self.names), problem=problem)
                continue
            if columns:
                yield self.record(columns)

    def record(self, columns: list[str]) -> Record:
        count = len(self.names)
        if len(columns) != count:
            problem = "it has %d columns in place of %d" % (len(columns), count)
            return Record((columns + [""] * count)[:count], problem=problem)
        record = Record(columns, columns[self.code].strip())
        date = date_of(columns[self.date].strip())
        if date is None:
            record.problem = "the date isn't a day such as 20200630 or 2020-06-30"
        elif not CODE.fullmatch(record.code):
            record.problem = "the code is no concept's SCTID"
        else:
            record.date = date
        return record


def date_of(text: str) -> Optional[str]:
    """The date as the store writes it."""
    found = DATE.fullmatch(text)
    if found is None:
        return None
    year, month, day = int(found[1]), int(found[3]), int(found[4])
    try:
        datetime.date(year, month, day)
    except ValueError:
        return None
    return "%d%02d%02d" % (year, month, day) if year >= 1000 else None


class Progress:
    """Tells on standard error how far the run is."""

    def __init__(self) -> None:
        self.records = self.problems = 0
        self.told = time.monotonic()

    def count(self, batch: Sequence[Record]) -> None:
        self.records += len(batch)
        self.problems += sum(1 for record in batch if record.problem)
        if time.monotonic() - self.told > PROGRESS_SECONDS:
            self.tell()

    def tell(self) -> None:
        self.told = time.monotonic()
        print("read_records: %d records, %d with a problem" % (self.records, self.problems),
              file=sys.stderr, flush=True)


class UnixLines:
    """Ends the lines of the csv module with LF alone. (Where they end with CR LF, it puts columns
    that hold a CR into quotation marks, else it doesn't.)"""

    def __init__(self, output: io.TextIOBase) -> None:
        self.output = output

    def write(self, line: str) -> int:
        return self.output.write(line[:-2] + "\n")


def read_all(table: Table, hub: Hub, output: io.TextIOBase) -> None:
    """Reads all records, some at a time."""
    output.write(table.mark)
    writer = csv.writer(UnixLines(output), delimiter=table.delimiter, lineterminator="\r\n")
    writer.writerow(table.names + NEW_COLUMNS)
    records, reader, progress = table.records(), Reader(hub), Progress()
    while batch := list(itertools.islice(records, BATCH)):
        reader.read(batch)
        writer.writerows(
            [*record.columns, *record.found(), hub.pin, hub.receipt] for record in batch)
        output.flush()
        progress.count(batch)
    output.flush()
    progress.tell()


def options_of(words: list[str]) -> argparse.Namespace:
    parser = argparse.ArgumentParser(description="What the codes of old records meant and mean.")
    parser.add_argument("--socket", required=True, help="a socket of the hub")
    parser.add_argument("--pin", type=int, help="how many imports are shown")
    return parser.parse_args(words)


def main() -> int:
    options = options_of(sys.argv[1:])
    # An interrupt ends it as it ends other programs.
    signal.signal(signal.SIGINT, signal.SIG_DFL)
    output = io.TextIOWrapper(sys.stdout.buffer, "utf-8", "surrogateescape", newline="")
    status = 0
    try:
        table = Table(sys.stdin.buffer)
        read_all(table, Hub(options.socket, options.pin), output)
    except (Unreadable, csv.Error) as why:
        print("read_records: %s" % why, file=sys.stderr)
        status = 2
    except (HubFailed, OSError) as why:
        print("read_records: %s" % why, file=sys.stderr)
        status = 1
    # What couldn't be written before is given up.
    with contextlib.suppress(OSError):
        output.close()
    return status


if __name__ == "__main__":
    sys.exit(main())
