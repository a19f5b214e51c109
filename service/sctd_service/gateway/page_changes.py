"""The page of what changed between two days: at a concept and below it, by the store's Delta."""

import asyncio
import itertools
from collections.abc import Iterable, Sequence
from typing import NamedTuple

from markupsafe import Markup

from . import limits
from .fhir.versions import Edition
from .frame import Shown, csv_of, day_of, for_good, listed, made_of, wants_file
from .http import Response
from .markup import address, aside, joined, tag, term, time, verdict
from .page import EMPTY, NO_CONCEPT
from .page_history import Names, changes, other_codes
from .page_record import linked, nothing_known, status_of
from .problems import too_costly
from .store import AnyRow, View
from ..snomed import (
    Association, Concept, Description, Relationship, distinct, is_concept_id, with_hyphens)

# The kinds of rows that are told, with what a row of each is called.
KINDS = {"C": "the concept", "D": "a description", "R": "a relationship", "V": "a concrete value",
         "A": "an association"}
COLUMNS = ("code", "name", "status_from", "status_to", "kind", "id", "effectiveTime", "change",
           "pin", "receipt")
PURPOSE = (
    "Type a concept\u2019s code and two days: what changed between them at the concept and at all "
    "that was below it on either day, in the rows of concepts, descriptions, relationships and "
    "associations.")


class Between(NamedTuple):
    """What is asked: a concept, and two days with the releases in force on them."""

    concept: str
    days: tuple[str, str]
    releases: tuple[str, str]

    @property
    def words(self) -> dict[str, str]:
        first, last = map(with_hyphens, self.days)
        return {"concept": self.concept, "from": first, "to": last}


class Change(NamedTuple):
    """A row of a Delta, and the version of its component that was there before, if one was."""

    kind: str
    row: AnyRow
    before: AnyRow | None = None

    def told(self, names: Names) -> list[Markup]:
        """What it changed, in words."""
        other = tag("span", "Another row of %s" % KINDS[self.kind], class_="aside")
        return changes(self.before, self.row, names) or [other]


class Changed(NamedTuple):
    """A concept with its changes, and what it was on both days."""

    code: str
    name: str
    statuses: tuple[str, str]
    changes: list[Change]


async def answer(edition: Edition, view: View, form: dict[str, str],
                 is_pinned: bool) -> Shown | Response:
    is_file, found = wants_file(form), between(view, form)
    if isinstance(found, Shown):
        return found
    if not await view.versions(found.concept):
        said = verdict("The store has no concept ", tag("code", found.concept), ".")
        return Shown(found.concept, said)
    by_concept = await changed_by_concept(view, found)
    codes = sorted(by_concept, key=int)
    if is_file:
        return await as_file(view, found, await described(view, found, codes, by_concept))
    some = codes[: limits.CHANGED_CONCEPTS]
    told = await described(view, found, some, by_concept)
    return await shown(view, found, told, len(codes), is_pinned)


def between(view: View, form: dict[str, str]) -> Between | Shown:
    """What is asked; or what is said where that can't be told."""
    concept, first, last = (form.get(name, "") for name in ("concept", "from", "to"))
    if not concept and not first and not last:
        return Shown("What changed", verdict(PURPOSE if view.latest else EMPTY))
    days = day_of(first, ""), day_of(last, view.latest)
    title = "What changed at %.20s" % concept
    if not view.latest:
        return Shown(title, verdict(EMPTY))
    if not is_concept_id(concept):
        return Shown(title, verdict(NO_CONCEPT))
    if not days[0]:
        return Shown(title, verdict("Say after which day: changes are told between two days."))
    if days[0] >= days[1]:
        return Shown(title, verdict(time(days[0]), " isn\u2019t before ", time(days[1]), "."))
    releases = view.in_force(days[0]), view.in_force(days[1])
    if not releases[0]:
        return Shown(title, verdict(*nothing_known(days[0], view.days[0])))
    return Between(concept, days, releases)


async def changed_by_concept(view: View, asked: Between) -> dict[str, list[Change]]:
    """The changes at the concept and below it, by concepts, in the order of KINDS."""
    below = {asked.concept}
    for release in distinct(asked.releases):
        below.update(await view.descendants(asked.concept, release))
    found: dict[str, list[Change]] = {}
    count = 0
    for kind in KINDS:
        async for page in view.delta(kind, *asked.releases):
            count += len(page)
            if count > limits.DELTA_ROWS:
                raise too_costly("more than %d rows changed between these days: choose days that "
                                 "are nearer to each other" % limits.DELTA_ROWS)
            for row in page:
                if (concept := concept_of(row)) in below:
                    found.setdefault(concept, []).append(Change(kind, row))
    return found


def concept_of(row: AnyRow) -> str:
    """The concept that a row is about, or what else an association refers to."""
    if isinstance(row, Concept):
        return row.id
    if isinstance(row, Description):
        return row.concept
    return row.source if isinstance(row, (Relationship, Association)) else ""


async def described(view: View, asked: Between, codes: Sequence[str],
                    by_concept: dict[str, list[Change]]) -> list[Changed]:
    """The changed concepts, with their names and what they and their rows were on both days."""
    told = [change for code in codes for change in by_concept[code]]
    rows = await view.rows_on([(one.kind, one.row.id) for one in told], asked.releases[0])
    new = (one._replace(before=row) for one, row in zip(told, rows))
    sides = [await view.concepts(codes, release) for release in asked.releases]
    names = await view.names(codes, asked.releases[1])
    return [
        Changed(code, names[code], (status_of(before), status_of(after)),
                [*itertools.islice(new, len(by_concept[code]))])
        for code, before, after in zip(codes, *sides)]


async def names_for(view: View, found: Iterable[Changed], day: str) -> Names:
    every = (one for each in found for one in each.changes)
    rows = (row for one in every for row in (one.before, one.row) if row)
    return Names(await view.names(other_codes(rows), day))


async def shown(view: View, asked: Between, found: Sequence[Changed], count: int,
                is_pinned: bool) -> Shown:
    names, last = await names_for(view, found, asked.releases[1]), asked.releases[1]
    own = (await view.names([asked.concept], last))[asked.concept]
    body = await made_of(found, lambda one: row_of(one, names, asked.days[1]))
    table = listed("By code; a concept that is new was absent before",
                   ("Concept", "Status", "What changed"), body)
    return Shown("What changed at %s %s" % (own, asked.concept), joined(
        tag("h2", term(own), " ", aside(asked.concept)),
        verdict(*summary(asked, len(found), count)), *([table] if body else []),
        links(view, asked, is_pinned)))


def summary(asked: Between, told: int, count: int) -> list[str]:
    said = "1 concept" if count == 1 else "%s concepts" % (count or "no")
    whole = [] if told == count else [
        " The table has the first %d of them; the file has all, or is refused if they are too "
        "many." % told]
    return ["After ", time(asked.days[0]), " and up to ", time(asked.days[1]), " ", tag(
        "strong", said, " changed"), " at it and below it.", *whole]


def row_of(one: Changed, names: Names, day: str) -> Markup:
    told = [tag("span", status, class_=status) for status in distinct(one.statuses)]
    said = (part for change in one.changes for part in change.told(names))
    return tag(
        "tr", tag("th", linked(one.code, one.name, day), scope="row"),
        tag("td", Markup(" \u2192 ").join(told), data_head="Status"),
        tag("td", tag("ul", *(tag("li", part) for part in said)), data_head="What changed"))


def links(view: View, asked: Between, is_pinned: bool) -> Markup:
    file = "changes" + address(**asked.words, format="csv")
    own = "changes" + address(**asked.words)
    page = own if is_pinned else for_good(view, own)
    return tag("p", tag("a", "All of it as CSV", href=file), " ",
               tag("a", "This page for good, at pin %d" % view.pin, href=page), class_="links")


async def as_file(view: View, asked: Between, found: Sequence[Changed]) -> Response:
    names = await names_for(view, found, asked.releases[1])

    def made() -> Response:
        rows = [
            (one.code, one.name, *one.statuses, change.kind, change.row.id, change.row.time,
             "; ".join(part.striptags() for part in change.told(names)), str(view.pin),
             view.receipt)
            for one in found for change in one.changes]
        return csv_of("changes-%s-%s-%s" % (asked.concept, *asked.days), COLUMNS, rows)

    return await asyncio.to_thread(made)
