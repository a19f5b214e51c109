"""Lists of records as people paste and save them: lines of a code, a day and perhaps a term."""

import csv
import re
from collections.abc import Iterator, Sequence
from typing import NamedTuple

from . import limits
from .problems import too_costly
from ..snomed import SCTID, is_concept_id, is_day, is_sctid

DELIMITERS = "\t;,"
LINE_END = re.compile("\r\n|\n|\r")
# What the columns are called in a first line that names them.
CODE, DAY, TERM = "code", "day", "term"
HEADS = {"code": CODE, "conceptid": CODE, "sctid": CODE, "day": DAY, "date": DAY, "term": TERM}
PLACES = (CODE, DAY, TERM)
DATE = re.compile(r"([0-9]{4})(-?)([0-9]{2})\2([0-9]{2})\Z", re.ASCII)
OTHER_KINDS = {"1": "a description", "2": "a relationship"}


class Record(NamedTuple):
    """A record: its line, and what stands there. The day is eight digits, and `written` as it came;
    `problem` says why the line can't be read."""

    line: int
    code: str = ""
    written: str = ""
    day: str = ""
    term: str = ""
    problem: str = ""

    @property
    def is_read(self) -> bool:
        return not self.problem


def records_of(text: str) -> list[Record]:
    """The records of a list, without the line that names its columns and those that are empty."""
    lines = [(number, line) for number, line in enumerate(LINE_END.split(text), 1) if line.strip()]
    if not lines:
        return []
    # What separates the columns: the first of these that stands in the list's first line.
    found = [letter for letter in lines[0][1] if letter in DELIMITERS]
    delimiter = "\t" if "\t" in found else found[0] if found else ","
    places = places_of(fields_of(lines[0][1], delimiter))
    if places:
        lines.pop(0)
    if len(lines) > limits.RECORDS:
        raise too_costly("a list may have %d records, and this one has %d: divide it" % (
            limits.RECORDS, len(lines)))
    return [record_of(number, line, delimiter, places or PLACES) for number, line in lines]


def places_of(fields: Sequence[str]) -> Sequence[str]:
    """The columns that a line names, or nothing if it is no line of names."""
    named = [HEADS.get(field.lower().replace("_", ""), "") for field in fields]
    known = [name for name in named if name]
    is_head = {CODE, DAY} <= set(known) and len(set(known)) == len(known)
    return named if is_head else ()


def fields_of(line: str, delimiter: str, most: int = 0) -> list[str]:
    """The columns of a line, the last of so many with all that is left; none where its quotation
    marks aren't those of CSV."""
    if '"' not in line:
        return [field.strip() for field in line.split(delimiter, most - 1)]
    try:
        found = next(csv.reader([line], delimiter=delimiter, skipinitialspace=True, strict=True))
    except csv.Error:
        return []
    if most and delimiter != "\t":
        found[most - 1 :] = [(delimiter + " ").join(found[most - 1 :])]
    return [field.strip() for field in found]


def record_of(number: int, line: str, delimiter: str, places: Sequence[str]) -> Record:
    if len(line) > limits.RECORD_CHARACTERS:
        return unread(number, line, "The line has more than %d characters."
                      % limits.RECORD_CHARACTERS)
    # A term may have the delimiter in it, where it is the last column.
    most = len(places) if places[-1] == TERM and delimiter != "\t" else 0
    fields = fields_of(line.rstrip(delimiter + " "), delimiter, most)
    if not fields:
        return unread(number, line, "The line\u2019s quotation marks aren\u2019t those of CSV.")
    said = dict.fromkeys(PLACES, "") | {name: field for name, field in zip(places, fields) if name}
    found = DATE.match(said[DAY])
    day = "".join(found.group(1, 3, 4)) if found else ""
    problem = " ".join(problems_of(said[CODE], said[DAY], day))
    return Record(number, said[CODE], said[DAY], "" if problem else day, said[TERM], problem)


def unread(number: int, line: str, problem: str) -> Record:
    return Record(number, term=line[: limits.FILTER_CHARACTERS], problem=problem)


def problems_of(code: str, written: str, day: str) -> Iterator[str]:
    if not code:
        yield "The line has no code."
    elif not SCTID.match(code):
        yield "The code isn\u2019t an SCTID, which is a number of 6 to 18 digits."
    elif not is_concept_id(code):
        kind = next((said for letter, said in OTHER_KINDS.items() if is_sctid(code, letter)), "")
        yield ("The code is the SCTID of %s, and not of a concept." % kind if kind
               else "The code isn\u2019t an SCTID: its check digit or its kind is wrong.")
    if not written:
        yield "The line has no day."
    elif not is_day(day):
        yield "\u201c%.40s\u201d isn\u2019t a day of the calendar as YYYY-MM-DD." % written
