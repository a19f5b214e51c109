"""What the evaluation of an expression asks the store, as of one pin and one day. Nothing else of
`ecl` asks anything."""

import asyncio
import itertools
from collections.abc import AsyncIterator, Callable, Collection, Iterable, Sequence
from typing import NamedTuple, TypeVar

from .. import limits, refsets
from ..hub import Reply
from ..problems import too_costly
from ..store import FIRST, REFERENCED, Row, View, columns_of, ids, member_of, members_of, rows
from ...snomed import (
    ASSOCIATIONS, IS_A, Association, Concept, Description, RefsetMember, Relationship,
    is_id_of_concept)
from .syntax import Ids

Item = TypeVar("Item")
# The kinds of relationships: with a concept as value, and with a concrete one.
TO_CONCEPTS, CONCRETE = "R", "V"
ANY_TYPE = "-"
# Where a row has whether it is active, the concept of a description, and the source and the
# destination of a relationship.
ACTIVE, DESCRIBED, SOURCE, DESTINATION = 2, 4, 4, 5
# The sources of relationships, by their destinations.
Sources = dict[str, set[str]]


class Stated(NamedTuple):
    """What a relationship says of its source."""

    group: str
    type: str
    value: str
    is_concrete: bool

    @property
    def is_attribute(self) -> bool:
        return self.is_concrete or self.type != IS_A

    def is_of(self, types: Ids | None) -> bool:
        """Whether it is an attribute of one of the types, all of which None stands for."""
        return self.is_attribute and (types is None or self.type in types)


async def those_of(items: Collection[Item], fits: Callable[[Item], bool]) -> list[Item]:
    """Those that fit. Other requests have their turn in between."""
    found, left = list[Item](), iter(items)
    while some := [*itertools.islice(left, limits.QUESTION_ROWS)]:
        found += filter(fits, some)
        await asyncio.sleep(0)
    return found


def lines_of_sources(types: Ids | None, destinations: Ids) -> int:
    """How many lines `sources` asks at first."""
    return len(destinations) * (2 if types is None else len(types))


def stated(row: Relationship, kind: str) -> Stated:
    return Stated(row.group, row.type, row.target, kind == CONCRETE)


class Terminology:
    """The store at one moment, within the lines that one expression may ask."""

    def __init__(self, view: View, day: str) -> None:
        self.view, self.day, self.began = view, day, view.session.asked
        self.stated: dict[str, frozenset[Stated]] = {}
        self.associated: list[Association] | None = None

    def room(self) -> int:
        """How many lines may still be asked."""
        return limits.EXPRESSION_LINES - (self.view.session.asked - self.began)

    def must_have_room(self, count: int) -> None:
        if count > self.room():
            raise too_costly(
                "the expression asks the store more than %d questions: ask for fewer concepts"
                % limits.EXPRESSION_LINES)

    async def replies(self, lines: Sequence[str]) -> AsyncIterator[Reply]:
        """The reply to each of the lines. Other requests have their turn in between."""
        self.must_have_room(len(lines))
        for start in range(0, len(lines), limits.HUB_BATCH):
            some = lines[start : start + limits.HUB_BATCH]
            for reply in await self.view.ask(some, keep=len(lines) <= limits.ASKED_UPWARDS):
                yield reply
            await asyncio.sleep(0)

    async def told(self, question: str, codes: Collection[str]) -> AsyncIterator[tuple[str, Reply]]:
        ordered = sorted(codes, key=int)
        lines = ["%s %s %s" % (question, code, self.day) for code in ordered]
        left = iter(ordered)
        async for reply in self.replies(lines):
            yield next(left), reply

    async def rows(self, question: str, kind: type[Row],
                   codes: Collection[str]) -> AsyncIterator[Row]:
        async for _, reply in self.told(question, codes):
            for row in rows(kind, reply):
                yield row

    async def pages(self, question: str, place: int = 0) -> AsyncIterator[list[list[str]]]:
        """The rows of all pages of a question, which goes on behind what stands at a place."""
        after = FIRST
        while after:
            self.must_have_room(1)
            line = "%s %s %s %d" % (question, self.day, after, limits.QUESTION_ROWS)
            page = columns_of(await self.view.told(line, keep=False))
            yield page
            after = page[-1][place] if len(page) >= limits.QUESTION_ROWS else ""
            await asyncio.sleep(0)

    async def rows_of_pages(self, question: str, codes: Collection[str],
                            place: int) -> AsyncIterator[list[str]]:
        """The rows of all pages that have one of the codes at a place."""
        async for page in self.pages(question):
            for row in page:
                if row[place] in codes:
                    yield row

    # ---- concepts

    async def every_concept(self) -> AsyncIterator[Concept]:
        async for page in self.pages("PAGE C"):
            for row in page:
                yield Concept(*row)

    async def concepts(self, codes: Iterable[str]) -> list[Concept]:
        """The rows of those of the codes that have one."""
        wanted = frozenset(filter(is_id_of_concept, codes))
        if len(wanted) > limits.ASKED_ONE_BY_ONE:
            return [row async for row in self.every_concept() if row.id in wanted]
        return [row async for row in self.rows("GET C", Concept, wanted)]

    # ---- the hierarchy

    async def near(self, question: str, codes: Collection[str]) -> dict[str, Ids]:
        """What CHILDREN, DESCENDANTS or ANCESTORS says of each of the codes."""
        return {code: frozenset(ids(reply)) async for code, reply in self.told(question, codes)}

    async def parents(self, codes: Collection[str]) -> dict[str, Ids]:
        said = await self.relationships(codes, TO_CONCEPTS)
        return {code: frozenset(one.value for one in own if one.type == IS_A)
                for code, own in said.items()}

    # ---- relationships

    async def relationships(self, codes: Collection[str],
                            kinds: str) -> dict[str, frozenset[Stated]]:
        """What active relationships of these kinds say of each concept, once; "is a" among them."""
        found = dict.fromkeys(codes, frozenset[Stated]())
        for kind in kinds:
            missing = self.not_stated(codes, kind)
            if kind == CONCRETE and len(missing) > self.room():
                await self.learn_concrete(missing)
            else:
                async for code, reply in self.told("ABOUT " + kind, missing):
                    self.stated[kind + code] = frozenset(
                        stated(row, kind) for row in rows(Relationship, reply))
            for code in codes:
                found[code] |= self.stated[kind + code]
        return found

    def not_stated(self, codes: Iterable[str], kind: str) -> list[str]:
        """Those of the concepts about which it isn't known what relationships of a kind say."""
        return [code for code in codes if kind + code not in self.stated]

    async def learn_concrete(self, codes: Collection[str]) -> None:
        """Reads all relationships with concrete values, of which a store has few."""
        found = {code: set[Stated]() for code in codes}
        async for row in self.rows_of_pages("PAGE " + CONCRETE, found, SOURCE):
            if row[ACTIVE] == "1":
                found[row[SOURCE]].add(stated(Relationship(*row), CONCRETE))
        for code, some in found.items():
            self.stated[CONCRETE + code] = frozenset(some)

    async def linked(self, types: Collection[str], destinations: Collection[str]) -> Sources:
        """The sources of active relationships of these types to each of the destinations."""
        found: Sources = {code: set() for code in destinations}
        left = [(one, code, FIRST) for one in sorted(types) for code in sorted(destinations)]
        while left:
            lines = ["SOURCES %s %s %s %s %d" % (one, code, self.day, after, limits.QUESTION_ROWS)
                     for one, code, after in left]
            asked, left = iter(left), []
            async for reply in self.replies(lines):
                one, code, _ = next(asked)
                page = ids(reply)
                found[code].update(page)
                if len(page) >= limits.QUESTION_ROWS:
                    left.append((one, code, page[-1]))
        return found

    async def sources(self, types: Ids | None, destinations: Ids) -> Sources:
        """Which concepts have an attribute of one of the types with each of the destinations as
        value. None stands for all types."""
        if lines_of_sources(types, destinations) > self.room():
            return await self.sources_among_all(types, destinations)
        if types is not None:
            return await self.linked(types - {IS_A}, destinations)
        found = await self.linked([ANY_TYPE], destinations)
        below = await self.near("CHILDREN", destinations)
        doubtful = frozenset(one for code, some in found.items() for one in some & below[code])
        said = await self.relationships(doubtful, TO_CONCEPTS)
        for code, some in found.items():
            some -= {source for source in some & below[code] if not any(
                one.is_attribute and one.value == code for one in said[source])}
        return found

    async def sources_among_all(self, types: Ids | None, destinations: Ids) -> Sources:
        """The same, for which the relationships of all concepts are read."""
        found: Sources = {code: set() for code in destinations}
        async for row in self.rows_of_pages("PAGE " + TO_CONCEPTS, found, DESTINATION):
            one = stated(Relationship(*row), TO_CONCEPTS)
            if row[ACTIVE] == "1" and one.is_of(types):
                found[one.value].add(row[SOURCE])
        return found

    async def values(self, types: Ids | None, sources: Ids) -> Sources:
        """The concepts that are values of attributes of one of the types, each with those of the
        sources of whose attributes it is the value."""
        found: Sources = {}
        for source, own in (await self.relationships(sources, TO_CONCEPTS)).items():
            for one in own:
                if one.is_of(types):
                    found.setdefault(one.value, set()).add(source)
        return found

    # ---- descriptions

    async def descriptions(self, codes: Ids, with_inactive: bool) -> AsyncIterator[Description]:
        """Those of these concepts. (Of inactive ones the store tells only among all.)"""
        if with_inactive:
            async for row in self.rows_of_pages("PAGE D", codes, DESCRIBED):
                yield Description(*row)
        else:
            async for one in self.rows("ABOUT D", Description, codes):
                yield one

    async def with_words(self, texts: Iterable[str]) -> list[Description]:
        """The active descriptions of which a term has the words of one of the texts."""
        found = dict[str, Description]()
        for text in texts:
            self.must_have_room(1)
            # (What begins with a word begins with the beginning of that.)
            text = text[: limits.FILTER_CHARACTERS]
            pages = self.view.with_words(text, self.day, limits.QUESTION_ROWS)
            found |= {row.id: row async for page in pages for row in page.found}
        return [*found.values()]

    async def members_about(self, codes: Collection[str]) -> dict[str, list[RefsetMember]]:
        """The active members that refer to each of the components, without associations."""
        return {code: members_of(reply) async for code, reply in self.told("ABOUT M", codes)}

    # ---- reference sets

    async def associations(self, with_inactive: bool = False) -> list[Association]:
        if self.associated is None:
            pages = [page async for page in self.pages("PAGE A")]
            self.associated = [Association(*row) for page in pages for row in page]
        return [one for one in self.associated if with_inactive or one.active == "1"]

    async def replaced(self, codes: Collection[str]) -> list[Association]:
        """The active associations of these concepts."""
        return [row async for row in self.rows("REPLACED", Association, codes)]

    async def replacing(self, codes: Ids) -> list[Association]:
        """The active associations of which one of the concepts is the target."""
        if len(codes) > limits.ASKED_ONE_BY_ONE:
            return [row for row in await self.associations() if row.target in codes]
        return [row async for row in self.rows("REPLACES", Association, codes)]

    async def codes_of(self, refset: str) -> Ids:
        """The concepts that active members of a reference set refer to."""
        self.must_have_room(1)
        found = await refsets.codes_of(self.view, refset, self.day)
        if found or refset in ASSOCIATIONS:
            return frozenset(found)
        return frozenset(row.source for row in await self.associations()
                         if row.refset == refset and is_id_of_concept(row.source))

    async def members(self, refset: str, with_inactive: bool) -> AsyncIterator[RefsetMember]:
        """Those of a reference set. An association's target is its one further column."""
        question, place = ("MEMBERS", 0) if with_inactive else ("VALUES", REFERENCED)
        is_empty = True
        async for page in self.pages("%s %s" % (question, refset), place):
            for row in page:
                is_empty = False
                yield member_of(row)
        if is_empty:
            for one in await self.associations(with_inactive):
                if one.refset == refset:
                    yield member_of([*one])

    async def columns(self, counts: dict[str, int]) -> refsets.Columns:
        self.must_have_room(len(counts))
        return await refsets.columns_of(self.view, counts, self.day)

    async def every_member(self, with_inactive: bool) -> AsyncIterator[RefsetMember]:
        """Those of all reference sets."""
        for one in await self.associations(with_inactive):
            yield member_of([*one])
        async for page in self.pages("PAGE M"):
            for row in page:
                if with_inactive or row[ACTIVE] == "1":
                    yield member_of(row)
