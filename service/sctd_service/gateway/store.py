"""What can be asked of the store. Each question is made here. Only the lines about pins, days and
receipts are made elsewhere, in pool.py."""

import asyncio
import bisect
import itertools
import re
from collections.abc import AsyncIterator, Callable, Iterable, Sequence
from functools import partial
from typing import NamedTuple, TypeVar

from . import limits
from .hub import ARGUMENTS, NEEDS_LATER_LAYOUT, HubGone, HubRefused, Reply
from .pool import Member, Members, Session
from .problems import Problem, invalid, too_costly
from ..snomed import (
    Association, Called, Concept, Description, Facts, Language, RefsetMember, Relationship,
    distinct, display_of, has_name_in, is_concept_id, preferred_term, with_hyphens)

Row = TypeVar("Row", Concept, Description, Relationship, Association)
Told = TypeVar("Told")
# A row of any kind, and all versions of one component, oldest first.
AnyRow = Concept | Description | Relationship | Association | RefsetMember
# The kinds of rows that are about a concept.
ABOUT = "DRVAM"
Versions = Sequence[AnyRow]
FIRST = "-"
# What may be looked for: no control character, line end or half of a character.
SEARCHED = re.compile(
    "[^\x00-\x1f\x7f-\x9f\u2028\u2029\ud800-\udfff]{1,%d}\\Z" % limits.FILTER_CHARACTERS)
NO_WORD = "what is looked for has no letter and no digit"
# The identifier of a member, where that of any other row but an association has digits alone.
MEMBER_ID = re.compile(r"[0-9a-f]{8}(-[0-9a-f]{4}){3}-[0-9a-f]{12}\Z", re.ASCII)
# The identifier of no member.
NO_MEMBER_ID = "00000000-0000-0000-0000-000000000000"
# The columns that each member has, the one that says of which module a row of any kind is, and the
# one that has what a member refers to.
MEMBER_COLUMNS, MODULE, REFERENCED = 6, 3, 5
# Of the languages of no house.
ANY = Language()


def rows(kind: type[Row], reply: Reply) -> list[Row]:
    try:
        return [kind(*columns) for columns in columns_of(reply)]
    except TypeError:
        raise not_of_its_kind() from None


def columns_of(reply: Reply) -> list[list[str]]:
    return [line.removeprefix("ROW ").split("\t") for line in reply[:-1]]


def not_of_its_kind() -> HubGone:
    return HubGone("the hub says what isn't a row of its kind", True)


def member_of(columns: list[str]) -> RefsetMember:
    try:
        name, time, active, module, refset, component = columns[:MEMBER_COLUMNS]
    except ValueError:
        raise not_of_its_kind() from None
    further = tuple(columns[MEMBER_COLUMNS:])
    return RefsetMember(name, time, active, module, refset, component, further)


def members_of(reply: Reply) -> list[RefsetMember]:
    return [member_of(columns) for columns in columns_of(reply)]


def called_of(reply: Reply) -> list[Called]:
    """The descriptions of a reply to CALLED, each with what its members behind it say last."""
    found: list[Called] = []
    try:
        for columns in columns_of(reply):
            if not MEMBER_ID.match(columns[0]):
                found.append(Called(Description(*columns), ()))
            else:
                description, said = found.pop()
                found.append(Called(description, said + member_of(columns).further[-1:]))
    except (TypeError, IndexError):
        raise not_of_its_kind() from None
    return found


class Terms(NamedTuple):
    """Descriptions that were found, and whether there are no further ones."""

    found: list[Description]
    are_last: bool


class TooManyTerms(Problem):
    """More terms have the words of a text than are read of them."""

    def __init__(self, text: str) -> None:
        why = "more than %d terms have the words of %.60r: give more letters, or a further word"
        super().__init__(422, "too-costly", why % (limits.FILTER_TERMS, text))


class Known(NamedTuple):
    """A day, and the last import that was made by the end of it, at this time."""

    day: str
    pin: int
    time: str

    def __str__(self) -> str:
        return "%s: import %d, made at %s" % (with_hyphens(self.day), self.pin, self.time)


class View:
    """The store as one request sees it: as the first `pin` imports left it, which may be those that
    were known on a day."""

    def __init__(self, session: Session, known: Known | None = None) -> None:
        # `latest` is the latest day of a row, or nothing where there is no row.
        self.session, self.pin, self.receipt = session, session.pin, session.receipt
        self.known = known
        self.days, self.latest = session.days, session.days[-1] if session.days else ""

    def in_force(self, day: str) -> str:
        """The day of the release in force on a day: the greatest one up to it that has rows.
        Nothing where there is none, since the store knows nothing of such a day."""
        place = bisect.bisect_right(self.days, day)
        return self.days[place - 1] if place else ""

    async def ask(self, lines: Sequence[str], keep: bool = True) -> list[Reply]:
        return await self.session.ask(lines, keep)

    async def told(self, line: str, keep: bool = True) -> Reply:
        return (await self.ask([line], keep))[0]

    async def pages(self, question: str, place: int = 0,
                    keep: bool = False) -> AsyncIterator[Reply]:
        """The replies to a question for some rows at a time, which goes on behind what stands at a
        place of the last row."""
        after = FIRST
        while after:
            line = "%s %s %d" % (question, after, limits.QUESTION_ROWS)
            reply = await self.told(line, keep)
            yield reply
            # (The last line is no row.)
            is_full = len(reply) > limits.QUESTION_ROWS
            after = columns_of(reply[-2:])[0][place] if is_full else ""

    async def each(self, question: str, codes: Iterable[str], day: str,
                   read: Callable[[Reply], Told]) -> list[Told]:
        """What the store says on a day of each of the codes."""
        replies = await self.ask(["%s %s %s" % (question, code, day) for code in codes])
        return [read(reply) for reply in replies]

    async def facts(self, code: str, day: str, language: Language = ANY,
                    with_members: bool = False) -> Facts | None:
        """All that is said of a concept; None where it isn't there on that day."""
        if not is_concept_id(code):
            return None
        questions = ["GET C", "ABOUT D", "ABOUT R", "ABOUT V", *["ABOUT M"] * with_members]
        lines = ["%s %s %s" % (question, code, day) for question in questions]
        told = await self.ask(lines + [called(code, day, one) for one in language.every_refset])
        concept, descriptions, relationships, values, *others = told
        found = rows(Concept, concept)
        if not found:
            return None
        return Facts(
            found[0], rows(Description, descriptions), rows(Relationship, relationships),
            rows(Relationship, values),
            dict(zip(language.every_refset, map(called_of, others[with_members:]))),
            members_of(others[0]) if with_members else [])

    async def concepts(self, codes: Sequence[str], day: str,
                       keep: bool = True) -> list[Concept | None]:
        concepts: list[Concept | None] = []
        for start in range(0, len(codes), limits.HUB_BATCH):
            some = codes[start : start + limits.HUB_BATCH]
            replies = await self.ask(["GET C %s %s" % (code, day) for code in some], keep)
            concepts += [next(iter(rows(Concept, reply)), None) for reply in replies]
            # Other requests have their turn, also where nothing had to be asked.
            await asyncio.sleep(0)
        return concepts

    async def has(self, code: str, day: str) -> bool:
        return is_concept_id(code) and (await self.concepts([code], day))[0] is not None

    async def descriptions(self, codes: Sequence[str], day: str) -> list[list[Description]]:
        return await self.each("ABOUT D", codes, day, lambda told: rows(Description, told))

    async def called(self, codes: Sequence[str], day: str, refset: str) -> list[list[Called]]:
        replies = await self.ask([called(code, day, refset) for code in codes])
        return [called_of(reply) for reply in replies]

    async def names(self, codes: Iterable[str], day: str,
                    language: Language = ANY) -> dict[str, str]:
        """What each of the codes is called. One that is no concept's is called by itself."""
        codes = distinct(codes)
        left = [code for code in codes if is_concept_id(code)]
        found: dict[str, str] = dict(zip(codes, codes))
        for wanted in language.each:
            for refset in wanted.refsets:
                told = zip(left, await self.called(left, day, refset))
                preferred = {code: term for code, one in told if (term := preferred_term(one))}
                found |= preferred
                left = [code for code in left if code not in preferred]
            if language.others:
                terms_of = zip(left, await self.descriptions(left, day))
                named = {
                    code: display_of(code, terms, wanted.code) for code, terms in terms_of
                    if has_name_in(wanted.code, terms)}
                found |= named
                left = [code for code in left if code not in named]
        described = zip(left, await self.descriptions(left, day))
        return found | {code: display_of(code, terms, language.code) for code, terms in described}

    async def associations(self, codes: Sequence[str], day: str) -> list[list[Association]]:
        """What took the place of each of the concepts."""
        return await self.each("REPLACED", codes, day, lambda told: rows(Association, told))

    async def replaced_by(self, codes: Sequence[str], day: str) -> list[list[Association]]:
        """Whose place each of the concepts took."""
        return await self.each("REPLACES", codes, day, lambda told: rows(Association, told))

    async def every_association(self, day: str) -> AsyncIterator[list[Association]]:
        """Page by page the members of association reference sets, inactive ones too."""
        async for reply in self.pages("PAGE A " + day):
            yield rows(Association, reply)

    async def members_about(self, codes: Sequence[str], day: str) -> list[list[RefsetMember]]:
        """The active members of all reference sets that refer to each of the components."""
        return await self.each("ABOUT M", codes, day, members_of)

    async def delta(self, kind: str, first: str, last: str) -> AsyncIterator[Sequence[AnyRow]]:
        """Page by page the rows of a kind on the last day that changed after the first."""
        async for reply in self.pages("DELTA %s %s %s" % (kind, first, last)):
            yield READERS[kind](reply)

    async def rows_on(self, components: Sequence[tuple[str, str]], day: str) -> list[AnyRow | None]:
        """The row on a day, if it had one, of each component: of its kind and its id."""
        found: list[AnyRow | None] = []
        for start in range(0, len(components), limits.HUB_BATCH):
            some = components[start : start + limits.HUB_BATCH]
            told = await self.ask(["GET %s %s %s" % (*one, day) for one in some], keep=False)
            found += [next(iter(READERS[kind](reply)), None)
                      for (kind, _), reply in zip(some, told)]
        return found

    async def values(self, refset: str, day: str) -> AsyncIterator[list[RefsetMember]]:
        """Page by page the active members of a reference set by what they refer to: with the last
        of a page all that refer to the same."""
        async for reply in self.pages("VALUES %s %s" % (refset, day), REFERENCED):
            yield members_of(reply)

    async def have_values(self, refsets: Sequence[str], day: str) -> list[str]:
        told = await self.ask(["VALUES %s %s %s 1" % (one, day, FIRST) for one in refsets])
        return [refset for refset, reply in zip(refsets, told) if members_of(reply)]

    async def was_kept(self, refset: str) -> bool:
        told = await self.told("MEMBERS %s %s %s 1" % (refset, self.latest, FIRST))
        return bool(members_of(told))

    async def keeps_members(self) -> bool:
        try:
            await self.told("HISTORY M %s" % NO_MEMBER_ID)
        except HubRefused as refused:
            if refused.number == NEEDS_LATER_LAYOUT:
                return False
            raise
        return True

    async def has_members(self) -> bool:
        return bool(members_of(await self.told("PAGE M %s %s 1" % (self.latest, FIRST))))

    async def has_module(self, module: str) -> bool:
        """Whether a concept is of the module, or one of the first rows of other kinds."""
        first = "PAGE %%s %s %s %d" % (self.latest, FIRST, limits.QUESTION_ROWS)
        lines = ["HISTORY C %s" % module, *(first % kind for kind in "DRA"), first % "C"]
        while True:
            told = [columns_of(reply) for reply in await self.ask(lines, keep=False)]
            if any(columns[MODULE] == module for page in told for columns in page):
                return True
            if len(told[-1]) < limits.QUESTION_ROWS:
                return False
            # (All concepts are more than one request may be told.)
            self.session.connection.received = 0
            after = told[-1][-1][0]
            lines = ["PAGE C %s %s %d" % (self.latest, after, limits.QUESTION_ROWS)]

    async def children(self, code: str, day: str) -> list[str]:
        return ids(await self.told("CHILDREN %s %s" % (code, day)))

    async def ancestors(self, codes: Sequence[str], day: str) -> list[list[str]]:
        return await self.each("ANCESTORS", codes, day, ids)

    async def descendants(self, code: str, day: str) -> list[str]:
        return ids(await self.told("DESCENDANTS %s %s" % (code, day), keep=False))

    async def versions(self, code: str) -> list[Concept]:
        """All versions of the concept's own row, oldest first."""
        return rows(Concept, await self.told("HISTORY C %s" % code))

    async def with_words(self, text: str, day: str, wanted: int = 0) -> AsyncIterator[Terms]:
        """Some at a time the active descriptions for which each word of the text begins a word of
        the term, the shortest terms first: as many again each time as before, and at first as many
        as are wanted."""
        if not SEARCHED.match(text):
            raise ValueError("a text that can't be looked for")
        start, end = 0, max(limits.FIRST_TERMS, min(wanted, limits.QUESTION_ROWS))
        while start < end:
            lines = ["WORDS %s - %d %d %s" % (day, at, min(limits.QUESTION_ROWS, end - at), text)
                     for at in range(start, end, limits.QUESTION_ROWS)]
            try:
                told = await self.ask(lines)
            except HubRefused as refused:
                # (Nothing else of such a line can be wrong.)
                raise invalid(NO_WORD) if refused.number == ARGUMENTS else refused from None
            found = [row for reply in told for row in rows(Description, reply)]
            are_last = len(found) < end - start
            yield Terms(found, are_last)
            if are_last:
                return
            # (One more than there may be shows that there are too many.)
            start, end = end, min(2 * end, limits.FILTER_TERMS + 1)
        raise TooManyTerms(text)

    async def members(self, codes: Sequence[str], day: str, keep: bool = True) -> list[Member]:
        """Those of the codes that are there on that day."""
        found = await self.concepts(codes, day, keep)
        return [Member(row.id, row.is_active) for row in found if row]

    async def first_concepts(self, day: str, count: int, active_only: bool) -> list[Member]:
        if count > limits.WALK_CONCEPTS:
            raise too_costly("of all concepts the first %d can be listed" % limits.WALK_CONCEPTS)
        found, pages = list[Member](), self.pages("PAGE C " + day, keep=True)
        while len(found) < count and (reply := await anext(pages, None)):
            found += [Member(row.id, row.is_active) for row in rows(Concept, reply)
                      if row.is_active or not active_only]
        return found[:count]

    async def is_within(self, code: str, top: str, day: str) -> bool:
        """Whether the concept is the top, or the top is an ancestor of it on that day."""
        return code in await self.codes_within([code], top, day)

    async def codes_within(self, codes: Sequence[str], top: str, day: str) -> set[str]:
        """Those of the concepts that are the top, or that the top is an ancestor of."""
        known = self.session.remembered_set(self.session.pool.subtrees, day, top)
        if known is not None:
            return {member.code for member in known}.intersection(codes)
        others = [code for code in distinct(codes) if code != top]
        if len(others) > limits.ASKED_UPWARDS:
            inside = set(await self.descendants(top, day))
        else:
            above = zip(others, await self.ancestors(others, day))
            inside = {code for code, ancestors in above if top in ancestors}
        return (inside | {top}).intersection(codes)

    async def subtree(self, top: str, day: str) -> Members:
        """The concept and all below it, by id."""
        async def made() -> Members:
            codes = {top, *await self.descendants(top, day)}
            if len(codes) > limits.WALK_CONCEPTS:
                raise too_costly("there are more than %d concepts below %s: ask with a filter" % (
                    limits.WALK_CONCEPTS, top))
            return tuple(await self.members(sorted(codes, key=int), day, keep=False))

        return await self.session.recalled(self.session.pool.subtrees, day, top, made)

    async def timeline(self, code: str) -> list[Versions]:
        """What was ever said of the concept and about it: all versions of each component, those
        that were said first before others of their kind."""
        told = await self.ask(["TIMELINE %s %s" % (kind, code) for kind in ABOUT], keep=False)
        about = (by_component(READERS[kind](reply)) for kind, reply in zip(ABOUT, told))
        return [await self.versions(code), *itertools.chain.from_iterable(about)]


def called(code: str, day: str, refset: str) -> str:
    return "CALLED %s %s %s" % (code, day, refset)


def ids(reply: Reply) -> list[str]:
    return [line.removeprefix("ID ") for line in reply[:-1]]


# How a reply with rows of a kind is read.
READERS: dict[str, Callable[[Reply], Sequence[AnyRow]]] = {
    "C": partial(rows, Concept), "D": partial(rows, Description), "R": partial(rows, Relationship),
    "V": partial(rows, Relationship), "A": partial(rows, Association), "M": members_of}


def by_component(found: Sequence[AnyRow]) -> list[Versions]:
    """The rows of each component, which stand together: first what was said first."""
    every = [list(versions) for _, versions in itertools.groupby(found, key=lambda row: row.id)]
    return sorted(
        every, key=lambda versions: min(row.time for row in versions if row.active == "1"))
