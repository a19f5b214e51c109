"""The page of one record: a concept on its day, beside it on another; and the search for one."""

import json
import re
from typing import NamedTuple

from markupsafe import Markup

from . import limits
from .fhir.versions import Edition
from .frame import JSON, SAFE, Shown, day_of
from .http import Response
from .languages import searched_in
from .markup import address, aside, joined, tag, term, time, verdict
from .page_record import Question, nothing_known, record
from ..snomed import Language, is_concept_id, with_hyphens
from .problems import invalid
from .searching import Hit, searched
from .store import SEARCHED, View

DIGITS = re.compile(r"[0-9]{4,20}\Z", re.ASCII)
NO_CONCEPT = "This isn\u2019t a concept\u2019s code: its check digit or its kind is wrong."
EMPTY = "The store holds no release."
# How many of the concepts that were found stand before those of a page.
PLACE = re.compile(r"[0-9]{1,%d}\Z" % len(str(limits.FILTER_TERMS)), re.ASCII)


class Search(NamedTuple):
    """A search on the page: its words, its day, the day to compare with, and the place of the first
    concept that is shown."""

    edition: Edition
    q: str
    day: str
    other: str
    first: int

    def address(self, first: int) -> str:
        """That of another page of what is found."""
        return address(q=self.q, date=with_hyphens(self.day), other=self.other, first=str(first))


async def answer(edition: Edition, view: View, form: dict[str, str], is_pinned: bool) -> Shown:
    """What is found by a code or by words of a term, on the record's day."""
    q = form.get("q", "")
    date, other = (day_of(form.get(name, ""), view.latest) for name in ("date", "other"))
    if not view.latest:
        return Shown("", verdict(EMPTY))
    if not q:
        return Shown("", verdict("Type a code, or words of a term."))
    if not DIGITS.match(q):
        first = form.get("first", "")
        if first and not PLACE.match(first):
            raise invalid("first is how many of the concepts that were found are passed over")
        search = Search(edition, q, min(date, view.latest), form.get("other", ""), int(first or 0))
        return await results(view, search)
    if is_concept_id(q):
        return await record(view, Question(edition, q, date, other, is_pinned))
    return Shown(q, verdict(NO_CONCEPT))


async def results(view: View, search: Search) -> Shown:
    """A page of the concepts of which a term has the words that were typed."""
    title = "\u201c%.60s\u201d" % search.q
    if not SEARCHED.match(search.q):
        return Shown(title, verdict(
            "What is looked for has 1 to %d characters." % limits.FILTER_CHARACTERS))
    if not (release := view.in_force(search.day)):
        return Shown(title, verdict(*nothing_known(search.day, view.days[0])))
    end = search.first + limits.RESULT_CONCEPTS
    found = await of_house(view, search.edition, search.q, release, end + 1)
    shown = found[search.first : end]
    is_last = len(found) <= end
    said = counted(search.first, len(shown), is_last)
    head = verdict(said, " \u201c", term(search.q), "\u201d on ", time(search.day), ".")
    listed = tag("ul", *(entry(hit, search) for hit in shown), class_="results")
    more = tag("p", tag("a", "Next page", href=search.address(end)), class_="links")
    return Shown(title, joined(head, *[listed] * bool(shown), *[more] * (not is_last)))


async def of_house(view: View, edition: Edition, text: str, day: str, most: int) -> list[Hit]:
    """What is found in the languages of the house: all of it, or so much at least."""
    languages = searched_in(Language("", edition.languages), edition.languages)
    return (await searched(view, text, day, languages, most)).found


def entry(hit: Hit, search: Search) -> Markup:
    code = hit.member.code
    link = tag("a", term(hit.term),
               href=address(q=code, date=with_hyphens(search.day), other=search.other))
    inactive = [] if hit.member.is_active else [" ", tag("span", "inactive", class_="inactive")]
    return tag("li", link, " ", aside(code), *inactive)


def counted(first: int, count: int, is_last: bool) -> str:
    if count and (first or not is_last):
        return "These are concepts %d to %d that have a term with" % (first + 1, first + count)
    if count == 1:
        return "1 concept has a term with"
    if count:
        return "%d concepts have a term with" % count
    return "No %sconcept has a term with" % ("further " if first else "")


async def suggest(edition: Edition, view: View, form: dict[str, str], is_pinned: bool) -> Response:
    """The first concepts that are found, as the page's script shows them."""
    text, most = form.get("text", ""), limits.SUGGESTED_CONCEPTS
    if not SEARCHED.match(text) or not view.latest:
        raise invalid("what is looked for has 1 to %d characters" % limits.FILTER_CHARACTERS)
    day = view.in_force(day_of(form.get("date", ""), view.latest))
    found = await of_house(view, edition, text, day, most) if day else []
    told = [{"code": hit.member.code, "term": hit.term, "active": hit.member.is_active}
            for hit in found[:most]]
    return Response(200, JSON, json.dumps(told).encode(), SAFE)
