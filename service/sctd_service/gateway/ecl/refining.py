"""Refinements: which of some concepts have the attributes that an expression asks for.

- An attribute is an active relationship that isn't an "is a", with or without a concrete value. It
  counts once for each group, type and value. It is in a group if its group isn't 0.
- As an attribute's name, and as its value, `*` is any concept, also an inactive one.
- `a = V` leads from each concept of V to the sources of the relationships of type `a` to it, and
  `R a = V` to the values of its own attributes `a`. Where that asks less than the attributes of
  each concept of the focus, only what is found so has to be looked at.
"""

import math
from collections.abc import Callable, Iterable, Mapping
from typing import NamedTuple

from . import syntax as s
from .. import limits
from .comparing import fits_concrete
from .syntax import Ids, Meant
from .terminology import (
    ANY_TYPE, CONCRETE, TO_CONCEPTS, Sources, Stated, Terminology, lines_of_sources, those_of)
from ...snomed import IS_A

NOTHING: Ids = frozenset()
NO_GROUP = "0"
Attributes = frozenset[Stated]
# Whether a concept fits that has these attributes.
Test = Callable[[str, Attributes], bool]


class Meaning(NamedTuple):
    """The concepts that the name and the value of an attribute mean; no types stand for any."""

    types: Ids | None
    values: Ids


class Found(NamedTuple):
    """Concepts among which is each one that fits, and whether all of them do."""

    codes: Ids
    is_exact: bool


def is_cheap(e: s.Expression) -> bool:
    """Whether it is found by a question or two, or is any concept."""
    return isinstance(e, s.Wildcard) or s.cost(e) < 2


def leading(r: s.Refinement) -> list[s.Attribute]:
    """The attributes, with concepts as values, one of which each concept that fits has; none where
    one may fit without."""
    if isinstance(r, s.Attribute):
        is_needed = r.comparison == s.EQUAL and r.cardinality.least > 0
        return [r] * (is_needed and not isinstance(r.value, (s.Concrete, s.Wildcard)))
    if isinstance(r, s.AttributeGroup):
        return leading(r.attributes) if r.cardinality.least else []
    each = [leading(part) for part in r.parts]
    if r.operator == s.OR and not all(each):
        return []
    return [one for some in each for one in some]


async def types_of(meant: Meant, name: s.Expression) -> Ids | None:
    """The types that the name of an attribute allows: None stands for all."""
    return None if isinstance(name, s.Wildcard) else await meant(name, None)


class Plan:
    """What the attributes of one refinement lead to."""

    def __init__(self, store: Terminology, meant: Meant) -> None:
        self.store, self.meant = store, meant
        self.known: dict[s.Attribute, Meaning] = {}

    async def learn(self, attributes: Iterable[s.Attribute],
                    is_asked: Callable[[s.Expression], bool]) -> None:
        """Finds what the names and values of attributes mean that are to be asked for."""
        for one in attributes:
            assert not isinstance(one.value, s.Concrete)
            if one not in self.known and is_asked(one.name) and is_asked(one.value):
                types = await types_of(self.meant, one.name)
                self.known[one] = Meaning(types, await self.meant(one.value, None))

    def price(self, r: s.Refinement) -> float:
        """How many lines `found` asks at first, which is no number where that leads to nothing."""
        if isinstance(r, s.Attribute):
            return self.price_of(r)
        if isinstance(r, s.AttributeGroup):
            return self.price(r.attributes) if r.cardinality.least else math.inf
        prices = map(self.price, r.parts)
        return min(prices) if r.operator == s.AND else sum(prices)

    def price_of(self, a: s.Attribute) -> float:
        if a not in self.known:
            return math.inf
        types, values = self.known[a]
        if a.is_reverse:
            return len(self.store.not_stated(values, TO_CONCEPTS))
        return len(values) if types is None else lines_of_sources(types, values)

    async def found(self, r: s.Refinement) -> Found:
        """The concepts to which a refinement leads that has a price."""
        if isinstance(r, s.Attribute):
            return await self.found_by(r)
        if isinstance(r, s.AttributeGroup):
            return Found((await self.found(r.attributes)).codes, False)
        if r.operator == s.AND:
            return await self.found_by_all(r.parts)
        each = [await self.found(part) for part in r.parts]
        return Found(NOTHING.union(*(one.codes for one in each)), all(one.is_exact for one in each))

    async def found_by(self, a: s.Attribute) -> Found:
        types, values = self.known[a]
        is_exact = a.cardinality == s.SOME
        if a.is_reverse:
            return Found(frozenset(await self.store.values(types, values)), is_exact)
        asked = [ANY_TYPE] if types is None else types - {IS_A}
        sources = (await self.store.linked(asked, values)).values()
        # (Of any type are those of "is a" too, which is no attribute.)
        return Found(NOTHING.union(*sources), is_exact and types is not None)

    async def found_by_all(self, parts: Iterable[s.Refinement]) -> Found:
        """What fits the cheapest part, and others as far as that asks less than what is left."""
        first, *others = sorted(parts, key=self.price)
        codes, is_exact = await self.found(first)
        for part in others:
            if self.price(part) < len(codes):
                more = await self.found(part)
                codes, is_exact = codes & more.codes, is_exact and more.is_exact
            else:
                is_exact = False
        return Found(codes, is_exact)


async def refined(store: Terminology, meant: Meant, e: s.Refined, among: Ids | None) -> Ids:
    """The concepts of the focus that fit the refinement, or those among some. They are looked for
    from the focus, or from the values of the attributes where that asks less."""
    base, plan = None, Plan(store, meant)
    if s.cost(e.focus) < 2 or among is not None and len(among) <= limits.ASKED_UPWARDS:
        base = await meant(e.focus, among)
    if base is None or len(base) > limits.ASKED_UPWARDS:
        await plan.learn(leading(e.refinement), is_cheap)
        if base is None and plan.price(e.refinement) > most_lines(e.focus, among):
            base = await meant(e.focus, among)
        if base is not None and len(base) > store.room():
            await plan.learn(leading(e.refinement), lambda _: True)
    if base is None or plan.price(e.refinement) < len(base):
        found = await plan.found(e.refinement)
        if base is None:
            base = await meant(e.focus, found.codes if among is None else found.codes & among)
        base &= found.codes
        if found.is_exact:
            return base
    return await fitting(store, meant, base, e.refinement)


def most_lines(focus: s.Expression, among: Ids | None) -> float:
    """How many lines are asked to find something before the focus, which isn't found by few."""
    is_every = isinstance(focus, s.Wildcard)
    most = limits.ASKED_ONE_BY_ONE if is_every else limits.ASKED_UPWARDS
    return most if among is None else min(most, len(among))


async def fitting(store: Terminology, meant: Meant, base: Ids, refinement: s.Refinement) -> Ids:
    if not base:
        return base
    said = await store.relationships(base, kinds_of(refinement))
    own = {code: attributes_of(some) for code, some in said.items()}
    tests: dict[s.Attribute, Test] = {}
    for one in parts_of(refinement):
        if one.is_reverse:
            tests[one] = await reverse_test(store, meant, base, one)
        else:
            tests[one] = await attribute_test(meant, own.values(), one)
    return frozenset(await those_of(base, lambda code: fits(refinement, tests, code, own[code])))


async def dotted(store: Terminology, meant: Meant, e: s.Dotted, among: Ids | None) -> Ids:
    """The values of an attribute of the focus, or those among some."""
    if among is not None and is_cheap(e.attribute):
        types = await types_of(meant, e.attribute)
        found = await sources_within(store, meant, types, among, e.focus)
        return frozenset(code for code, some in found.items() if some)
    said = (await store.relationships(await meant(e.focus, None), TO_CONCEPTS)).values()
    own = {one for some in said for one in attributes_of(some)}
    types = await types_among(meant, e.attribute, own)
    return frozenset(one.value for one in own if one.type in types)


async def sources_within(store: Terminology, meant: Meant, types: Ids | None, destinations: Ids,
                         e: s.Expression) -> Sources:
    """Of each of the destinations those of its sources that an expression means: from the side
    that asks less, as far as that can be told."""
    lines = lines_of_sources(types, destinations)
    if lines > (limits.ASKED_UPWARDS if s.cost(e) < 2 else limits.ASKED_ONE_BY_ONE):
        among = await meant(e, None)
        if len(among) < min(lines, store.room()):
            found = await store.values(types, among)
            return {code: some for code, some in found.items() if code in destinations}
    found = await store.sources(types, destinations)
    named = await meant(e, frozenset().union(*found.values()))
    return {code: some & named for code, some in found.items()}


def attributes_of(said: Iterable[Stated]) -> Attributes:
    return frozenset(one for one in said if one.is_attribute)


async def types_among(meant: Meant, name: s.Expression, own: Iterable[Stated]) -> Ids:
    """The types among these attributes that a name allows."""
    types = frozenset(one.type for one in own)
    return types if isinstance(name, s.Wildcard) else await meant(name, types)


async def attribute_test(meant: Meant, every: Iterable[Attributes], a: s.Attribute) -> Test:
    """Whether the number of attributes that have the name and the value is right."""
    own = {one for some in every for one in some}
    types = await types_among(meant, a.name, own)
    own = {one for one in own if one.type in types}
    if isinstance(a.value, s.Concrete):
        wanted = a.value
        fitting = {one for one in own if one.is_concrete
                   and fits_concrete(one.value, a.comparison, wanted)}
    else:
        fitting = await with_concepts(meant, a, own)
    return lambda _, some: a.cardinality.allows(len(some & fitting))


async def with_concepts(meant: Meant, a: s.Attribute, own: Iterable[Stated]) -> set[Stated]:
    """Those whose value is one of the concepts, or with `!=` another one."""
    assert not isinstance(a.value, s.Concrete)
    values = frozenset(one.value for one in own if not one.is_concrete)
    among = values if isinstance(a.value, s.Wildcard) else await meant(a.value, values)
    wanted = among if a.comparison == s.EQUAL else values - among
    return {one for one in own if not one.is_concrete and one.value in wanted}


async def reverse_test(store: Terminology, meant: Meant, base: Ids, a: s.Attribute) -> Test:
    """Whether the number of sources is right whose attribute a concept of the base is."""
    assert not isinstance(a.value, s.Concrete)
    types, is_any = await types_of(meant, a.name), isinstance(a.value, s.Wildcard)
    found: Sources = {}
    if a.comparison != s.EQUAL and not is_any:
        found = await store.sources(types, base)
        others = await meant(a.value, frozenset().union(*found.values()))
        found = {code: some - others for code, some in found.items()}
    elif not is_any:
        found = await sources_within(store, meant, types, base, a.value)
    elif a.comparison == s.EQUAL:
        found = await store.sources(types, base)
    return lambda code, _: a.cardinality.allows(len(found.get(code, ())))


def fits(r: s.Refinement, tests: Mapping[s.Attribute, Test], code: str, own: Attributes) -> bool:
    if isinstance(r, s.Junction):
        each = (fits(part, tests, code, own) for part in r.parts)
        return all(each) if r.operator == s.AND else any(each)
    if isinstance(r, s.Attribute):
        return tests[r](code, own)
    groups = {one.group for one in own} - {NO_GROUP}
    return r.cardinality.allows(sum(
        fits(r.attributes, tests, code, frozenset(one for one in own if one.group == group))
        for group in groups))


def parts_of(r: s.Refinement) -> list[s.Attribute]:
    if isinstance(r, s.Attribute):
        return [r]
    if isinstance(r, s.AttributeGroup):
        return parts_of(r.attributes)
    return [one for part in r.parts for one in parts_of(part)]


def kinds_of(r: s.Refinement) -> str:
    """The kinds of relationships that have to be known: both where a group may fit that has none of
    the attributes."""
    if may_be_without(r, False):
        return TO_CONCEPTS + CONCRETE
    wanted = [one for one in parts_of(r) if not one.is_reverse]
    kinds = {CONCRETE if isinstance(one.value, s.Concrete) else TO_CONCEPTS for one in wanted}
    return "".join(sorted(kinds))


def may_be_without(r: s.Refinement, is_grouped: bool) -> bool:
    if isinstance(r, s.Attribute):
        return is_grouped and not r.cardinality.least
    if isinstance(r, s.AttributeGroup):
        return may_be_without(r.attributes, True)
    return any(may_be_without(part, is_grouped) for part in r.parts)
