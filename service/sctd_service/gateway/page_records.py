"""The page of a list of records: each line is judged on its day, all of them as of one pin.

A record is right if its code was active on its day, and its term, if it has one, was an active
description of the code then. It is wrong otherwise, and not judged where the line can't be read or
the store knows nothing of the day.
"""

import asyncio
import datetime
from collections.abc import Iterable, Sequence
from typing import NamedTuple

from markupsafe import Markup

from . import limits
from .fhir.outputs import USES
from .fhir.versions import Edition
from .frame import Shown, csv_of, for_good, listed, made_of, wants_file
from .http import Response
from .markup import aside, joined, spoken, tag, term, time, verdict
from .page import EMPTY
from .page_record import (
    Step, linked, not_known_yet, nothing_known, replacement, status_of, steps_of)
from .problems import invalid, too_costly
from .records import Record, records_of
from .store import View
from ..snomed import Concept, Description, display_of, distinct, is_written_as, with_hyphens

RIGHT, WRONG, UNKNOWN = "right", "wrong", "not judged"
PURPOSE = (
    "Paste a list of records, or choose a file of one. Each line is judged on its day: whether its "
    "code was active then, whether its term was one of the code\u2019s descriptions, and what took "
    "the place of a code that is inactive now. All lines are answered as of one pin.")
COLUMNS = ("line", "code", "day", "term", "verdict", "status_then", "name_then", "term_then",
           "status_now", "replaced_by", "said", "version", "pin", "receipt")


class Judged(NamedTuple):
    """A record, what the code was on its day and is now, and what is said of it. `steps` lead to
    what took its place, if it is inactive now."""

    record: Record
    day: str = ""
    verdict: str = UNKNOWN
    then: str = ""
    name: str = ""
    uses: Sequence[str] = ()
    now: str = ""
    steps: Sequence[Step] = ()
    said: Sequence[Markup] = ()


class Known(NamedTuple):
    """What the store says of the codes of a list: on the days that were asked for, and now."""

    concepts: dict[tuple[str, str], Concept | None]
    descriptions: dict[tuple[str, str], list[Description]]
    first: dict[str, str]
    now: dict[str, Concept | None]
    steps: dict[str, Sequence[Step]]


async def answer(edition: Edition, view: View, form: dict[str, str],
                 is_pinned: bool) -> Shown | Response:
    is_file, text, file = wants_file(form), form.get("list", ""), form.get("file", "")
    if text and file:
        raise invalid("paste a list or choose a file, but not both")
    if not (text or file) or not view.latest:
        return Shown("A list of records", verdict(PURPOSE if view.latest else EMPTY))
    if len((text or file).encode()) > limits.RECORDS_BYTES:
        raise too_costly("a list may have %d bytes: divide it" % limits.RECORDS_BYTES)
    records = await asyncio.to_thread(records_of, text or file)
    found = await judged(view, records)
    if is_file:
        return await asyncio.to_thread(as_file, edition, view, found)
    form["list"] = text or file  # The form keeps it.
    return await page_of(view, found, is_pinned)


async def judged(view: View, records: Sequence[Record]) -> list[Judged]:
    known = await known_of(view, records)
    return await made_of(records, lambda record: judgement(view, known, record))


async def known_of(view: View, records: Iterable[Record]) -> Known:
    """Asks for all that is needed to judge the records, those of one day together."""
    by_day: dict[str, list[str]] = {}
    for record in records:
        if record.is_read and (release := view.in_force(record.day)):
            by_day.setdefault(release, []).append(record.code)
    known = Known({}, {}, {}, {}, {})
    for release, codes in by_day.items():
        codes = distinct(codes)
        for code, concept in zip(codes, await view.concepts(codes, release)):
            known.concepts[code, release] = concept
        for code, rows in zip(codes, await view.descriptions(codes, release)):
            known.descriptions[code, release] = rows
    every = distinct(code for codes in by_day.values() for code in codes)
    known.now.update(zip(every, await view.concepts(every, view.latest)))
    for code, concept in known.now.items():
        if concept and not concept.is_active:
            known.steps[code] = (await steps_of(view, code, view.latest))[0]
    absent = distinct(code for (code, _), concept in known.concepts.items() if not concept)
    for code in absent:
        known.first.update((row.id, row.time) for row in (await view.versions(code))[:1])
    return known


def judgement(view: View, known: Known, record: Record) -> Judged:
    if not record.is_read:
        return Judged(record, said=[joined(record.problem)])
    release = view.in_force(record.day)
    if not release:
        return Judged(record, record.day, then="not known",
                      said=[joined(*nothing_known(record.day, view.days[0]))])
    said = list[Markup]()
    if record.day > view.latest:
        said.append(joined(*not_known_yet(record.day, view.latest)))
    concept, now = known.concepts[record.code, release], known.now[record.code]
    found = Judged(record, record.day, WRONG, status_of(concept), now=status_of(now),
                   steps=known.steps.get(record.code, ()))
    if concept is None:
        return found._replace(said=[*said, absent(known, record)])
    rows = known.descriptions[record.code, release]
    uses = distinct("%s (%s)" % (USES.get(row.type, "Description"), row.language)
                    for row in rows if is_written_as(record.term, row)) if record.term else []
    if not concept.is_active:
        said.append(joined("The code was inactive then."))
    if record.term and not uses:
        said.append(joined("The term wasn\u2019t an active description of the code then."))
    is_right = concept.is_active and bool(uses or not record.term)
    return found._replace(verdict=RIGHT if is_right else WRONG, uses=uses, said=said,
                          name=display_of(record.code, rows))


def absent(known: Known, record: Record) -> Markup:
    first = known.first.get(record.code)
    if first is None:
        return joined("The store has no such code.")
    return joined("There was no such code then: its first row is of ", time(first), ".")


async def page_of(view: View, found: Sequence[Judged], is_pinned: bool) -> Shown:
    body = await made_of(found, lambda one: row_of(one, view.latest))
    caption = "Pin %d; %s; read on %s" % (view.pin, view.receipt, datetime.date.today().isoformat())
    table = listed(caption, ("Line", "Record", "Verdict", "On its day", "Now"), body)
    again = [] if is_pinned else [
        tag("p", tag("a", "Lists as of pin %d, for good" % view.pin,
                     href=for_good(view, "records")), class_="links")]
    head = tag("h2", "1 record" if len(found) == 1 else "%d records" % len(found))
    return Shown("%d records at pin %d" % (len(found), view.pin),
                 joined(head, verdict(*summary(found)), table, *again))


def summary(found: Sequence[Judged]) -> list[str]:
    counts = [sum(one.verdict == verdict for one in found) for verdict in (RIGHT, WRONG, UNKNOWN)]
    return ["Right: ", tag("strong", str(counts[0])), ". Wrong: ", tag("strong", str(counts[1])),
            ". Not judged: ", tag("strong", str(counts[2])), "."]


def row_of(one: Judged, latest: str) -> Markup:
    record = one.record
    given = [tag("code", record.code), " ", spoken(one.day) if one.day else record.written]
    shown = [tag("div", term(record.term))] if record.term else []
    now = [tag("div", status(one.now))] if one.now else []
    steps = [replacement(step, record.code, latest) for step in one.steps]
    return tag(
        "tr", tag("th", str(record.line), scope="row"),
        tag("td", *given, *shown, data_head="Record"),
        tag("td", status(one.verdict), data_head="Verdict"),
        tag("td", *on_its_day(one), data_head="On its day"),
        tag("td", *now, *[tag("ul", *steps)] * bool(steps), data_head="Now"))


def on_its_day(one: Judged) -> list[Markup]:
    told = [status(one.then)] if one.then else []
    if one.name:
        told.append(linked(one.record.code, one.name, one.day))
    told += [aside("as ", ", ".join(one.uses))] if one.uses else []
    return [tag("div", part) for part in (*told, *one.said)]


def status(text: str) -> Markup:
    return tag("span", text, class_=text.replace(" ", "-"))


def as_file(edition: Edition, view: View, found: Sequence[Judged]) -> Response:
    rows = [
        (str(one.record.line), one.record.code, with_hyphens(one.day) if one.day else
         one.record.written, one.record.term, one.verdict, one.then, one.name,
         "; ".join(one.uses), one.now,
         "; ".join("%s %s |%s|" % (step.how, step.row.target, step.name) for step in one.steps),
         " ".join(part.striptags() for part in one.said),
         edition.version(view.in_force(one.day)) if view.in_force(one.day) else "", str(view.pin),
         view.receipt)
        for one in found]
    return csv_of("records-at-pin-%d" % view.pin, COLUMNS, rows)
