"""ValueSet/$expand: the codes of a value set on a day, page by page."""

import asyncio
import datetime
import uuid
from collections.abc import Sequence
from dataclasses import astuple, dataclass
from functools import partial

from .. import limits, refsets
from ..ecl import syntax
from ..languages import searched_in
from ..pool import Member
from ..problems import Json, invalid, not_supported, too_costly
from ..searching import searched
from ..store import SEARCHED
from ...snomed import Language, with_hyphens
from .inputs import SCT, not_here
from .outputs import ASKED, designations, parameter
from .versions import Dated, OperationRequest
from .valuesets import (
    Sort, ValueSet, codes_in, expression_codes, inside, refset_codes, versions_of, wanted_value_set)

# How a designation is asked for by its language.
LANGUAGE_SYSTEM = "urn:ietf:bcp:47"
# Some of the members, and how many there are where that is known.
Page = tuple[Sequence[Member], int | None]


@dataclass(frozen=True)
class Wanted:
    """Which members of a value set are asked for, and how they are shown."""

    filter: str | None
    active_only: bool
    offset: int
    count: int | None
    language: Language
    with_designations: bool
    designations: tuple[str, ...]

    @property
    def most(self) -> int:
        """How many are looked for: one more than a page where all are asked for, to see that there
        are too many."""
        return limits.PAGE_CONCEPTS + 1 if self.count is None else self.count


async def expand(request: OperationRequest) -> Json:
    value_set = wanted_value_set(request.query)
    for system in value_set.others:
        raise not_here(system)
    asked = request.at(*versions_of(request.query, value_set))
    wanted = wanted_of(request, value_set.active_only)
    request.query.flag("excludeNested")  # Expansions are flat.
    if SCT in [system.partition("|")[0] for system in request.query.all("exclude-system")]:
        raise not_supported("without %s nothing would be left" % SCT)
    found, total = await members(asked, value_set, wanted)
    if wanted.count is None and len(found) > limits.PAGE_CONCEPTS:
        raise too_costly(
            "there are more than %d concepts: ask with count and offset" % limits.PAGE_CONCEPTS)
    entries = await entries_of(asked, found, wanted)
    named = {"url": value_set.url} if value_set.url else {}
    return {"resourceType": "ValueSet", **named, "status": "active",
            "expansion": expansion(asked, value_set, wanted, entries, total)}


def wanted_of(request: OperationRequest, active_only: bool) -> Wanted:
    query = request.query
    text, count = query.text("filter"), query.number("count")
    if text is not None:
        text = text.strip()
        if not SEARCHED.match(text):
            raise invalid("filter must be 1 to %d characters, none of them a control character"
                          % limits.FILTER_CHARACTERS)
    if count is not None and count > limits.PAGE_CONCEPTS:
        raise too_costly("count may be %d at most" % limits.PAGE_CONCEPTS)
    designations = tuple(query.all("designation"))
    return Wanted(
        text, query.flag("activeOnly") or active_only, query.number("offset") or 0, count,
        request.language(), query.flag("includeDesignations") or bool(designations), designations)


async def members(asked: Dated, value_set: ValueSet, wanted: Wanted) -> Page:
    view = asked.view
    if value_set.sort is Sort.WITHIN:
        await asked.must_have(value_set.code)
    if wanted.filter is not None:
        return await members_with_words(asked, value_set, wanted, wanted.filter)
    if value_set.sort is Sort.WITHIN:
        found = [*await view.subtree(value_set.code, asked.day)]
    elif value_set.sort is Sort.IN_REFSET or value_set.expression:
        return await members_by_code(asked, value_set, wanted)
    elif value_set.sort is not Sort.ANY:
        found = await view.members(await codes_in(asked, value_set), asked.day)
    else:
        end = wanted.offset + wanted.most
        found = await view.first_concepts(asked.day, end, wanted.active_only)
        return found[wanted.offset : end], None
    if wanted.active_only:
        found = [member for member in found if member.is_active]
    return found[wanted.offset : wanted.offset + wanted.most], len(found)


async def members_with_words(asked: Dated, value_set: ValueSet, wanted: Wanted, text: str) -> Page:
    """A page of those with a term that has the words of a text. How many there are isn't known
    where it has enough active ones before all are found."""
    end = wanted.offset + wanted.most
    languages = searched_in(wanted.language, asked.edition.languages)
    among = partial(inside, asked, value_set)
    hits = await searched(asked.view, text, asked.day, languages, end if wanted.most else 0, among)
    found = [hit.member for hit in hits.found if hit.member.is_active or not wanted.active_only]
    return found[wanted.offset : end], len(found) if hits.are_all else None


async def members_by_code(asked: Dated, value_set: ValueSet, wanted: Wanted) -> Page:
    """A page of a reference set or of what an expression means, of whose other concepts nothing has
    to be known. A code that the store has no concept of is told as the reference set has it."""
    codes: Sequence[str]
    if value_set.expression:
        parts = (value_set.expression, syntax.Wildcard())
        expression = syntax.Compound(syntax.AND, parts) if wanted.active_only else parts[0]
        codes = await expression_codes(asked, expression)
    else:
        codes = await refset_codes(asked, value_set.code)
        if wanted.active_only:
            codes = await refsets.active_codes_of(asked.view, value_set.code, asked.day)
    page = codes[wanted.offset : wanted.offset + wanted.most]
    there = {one.code: one for one in await asked.view.members(page, asked.day)}
    return [there.get(code, Member(code, True)) for code in page], len(codes)


async def entries_of(asked: Dated, found: Sequence[Member], wanted: Wanted) -> list[Json]:
    """The concepts of a page. Other requests have their turn between its slices."""
    entries: list[Json] = []
    for start in range(0, len(found), limits.SLICE_CONCEPTS):
        some = found[start : start + limits.SLICE_CONCEPTS]
        entries += await slice_of_entries(asked, some, wanted)
        await asyncio.sleep(0)
    return entries


async def slice_of_entries(asked: Dated, found: Sequence[Member], wanted: Wanted) -> list[Json]:
    codes, view = [member.code for member in found], asked.view
    displays = await view.names(codes, asked.day, wanted.language)
    entries = [entry(member, displays[member.code]) for member in found]
    if wanted.with_designations:
        described = await view.descriptions(codes, asked.day)
        refsets_asked = wanted.language.every_refset
        told = [await view.called(codes, asked.day, one) for one in refsets_asked]
        for place, terms in enumerate(described):
            called = {refset: one[place] for refset, one in zip(refsets_asked, told)}
            found_terms = designations(terms, called)
            if chosen := [one for one in found_terms if is_chosen(one, wanted.designations)]:
                entries[place]["designation"] = chosen
    return entries


def is_chosen(designation: Json, wanted: Sequence[str]) -> bool:
    """Whether a designation is of a use or a language that is asked for, as SYSTEM|CODE or CODE."""
    codes = ((SCT, designation["use"]["code"]), (LANGUAGE_SYSTEM, designation["language"]))
    return not wanted or any(
        token in wanted for system, code in codes for token in (code, "%s|%s" % (system, code)))


def entry(member: Member, display: str) -> Json:
    inactive = {} if member.is_active else {"inactive": True}
    return {"system": SCT, "code": member.code, "display": display, **inactive}


def expansion(asked: Dated, value_set: ValueSet, wanted: Wanted, entries: list[Json],
              total: int | None) -> Json:
    view, moment = asked.view, asked.moment
    named = " ".join(map(str, (value_set.url, view.pin, moment.day, *astuple(wanted))))
    shown = [parameter("version", valueUri="%s|%s" % (SCT, moment.version)),
             parameter("sctd-pin", valueInteger=view.pin)]
    if moment.asked:
        shown.append(parameter(ASKED, valueDateTime=with_hyphens(moment.asked)))
    heard: dict[str, Json] = {
        "filter": {"valueString": wanted.filter}, "count": {"valueInteger": wanted.count},
        "offset": {"valueInteger": wanted.offset},
        "activeOnly": {"valueBoolean": wanted.active_only},
        "includeDesignations": {"valueBoolean": wanted.with_designations},
        "displayLanguage": {"valueString": asked.query.text("displayLanguage")}}
    shown += [
        parameter(name, **value) for name, value in heard.items() if name in asked.query.given]
    now = datetime.datetime.now(datetime.timezone.utc)
    found: Json = {
        "identifier": "urn:uuid:%s" % uuid.uuid5(uuid.NAMESPACE_URL, named),
        "timestamp": now.isoformat(timespec="seconds"), "offset": wanted.offset, "parameter": shown}
    if total is not None:
        found["total"] = total
    if entries:  # FHIR has no empty lists.
        found["contains"] = entries
    return found
