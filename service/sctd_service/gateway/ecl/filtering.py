"""Filters of concepts, of descriptions and of members.

- A filter of descriptions wants one description of the concept for which all of its parts hold.
- Where `active` is asked, inactive descriptions and members are looked at too, and inactive
  concepts directly behind `*`.
- A member has the six fields that each one has, and those of its own reference set. The store keeps
  no first lines of files: a field is called as RefsetDescriptor names it, with or without `Id`
  behind (`Map target`: mapTarget), and a map's and an only one as RF2 calls it where that isn't
  contradicted. The case of a name doesn't matter.
"""

import re
from collections.abc import Callable, Iterable, Sequence
from operator import attrgetter
from typing import TypeVar

from . import syntax as s
from .comparing import fits_day, fits_number, fits_text, words_asked
from .syntax import Ids, Meant
from .terminology import Terminology, those_of
from ..problems import not_supported
from ..refsets import EXTENDED_MAP
from ...snomed import ASSOCIATIONS, Concept, Description, RefsetMember, is_concept_id

ACTIVE, DIALECT, EFFECTIVE_TIME, TERM = "active", "dialectId", "effectiveTime", "term"
BITS = {True: "1", False: "0"}
Row = TypeVar("Row", Concept, Description, RefsetMember)
# What a row says that a filter asks for, or nothing where it has no such field.
Said = Callable[[Row], str | None]
# The fields of concepts and of descriptions by what a row calls them.
FIELDS = {name: attrgetter(own) for name, own in (
    (ACTIVE, "active"), ("moduleId", "module"), (EFFECTIVE_TIME, "time"), ("id", "id"),
    ("definitionStatusId", "definition_status"), ("language", "language"), ("typeId", "type"),
    (TERM, "term"))}
# Those of each member.
OWN = {name: attrgetter(own) for name, own in (
    ("id", "id"), ("effectivetime", "time"), ("active", "active"), ("moduleid", "module"),
    ("refsetid", "refset"), ("referencedcomponentid", "component"))}
# What an only further one may be called, and that of an association.
ONLY = frozenset(["acceptabilityid", "maptarget", "owlexpression", "valueid"])
TARGET = frozenset(["targetcomponentid"])
# Those of a map, which may have no category.
MAP_FIELDS = (len(EXTENDED_MAP) - 1, len(EXTENDED_MAP))
LETTERS = re.compile(r"[^\W_]+")


def forms(name: str) -> frozenset[str]:
    """How a field may be called that has this name."""
    joined = "".join(LETTERS.findall(name)).lower()
    return frozenset([joined, joined + "id"])


def usual(refset: str, count: int) -> Sequence[frozenset[str]]:
    """What RF2 calls the further fields of a reference set that has so many."""
    if refset in ASSOCIATIONS:
        return [TARGET]
    if count in MAP_FIELDS:
        return [forms(name) for name in EXTENDED_MAP[:count]]
    return [ONLY] if count == 1 else []


def names_of(refset: str, count: int, described: Sequence[str]) -> Sequence[frozenset[str]]:
    """What each further field of a reference set may be called."""
    by_rf2, own = usual(refset, count), [forms(name) for name in described]
    if not own or not by_rf2:
        return own or by_rf2
    is_known = any(one & other for one, other in zip(own, by_rf2))
    # An only one is called in its own way, and by RF2 if that isn't by another of RF2's names.
    if is_known if count > 1 else not is_known:
        return [one | other for one, other in zip(own, by_rf2)]
    return own


class Fields:
    """The places of further fields, by reference sets and names."""

    def __init__(self, store: Terminology) -> None:
        self.store = store
        self.names: dict[str, Sequence[frozenset[str]]] = {}

    async def of(self, rows: Iterable[RefsetMember],
                 wanted: Iterable[str]) -> dict[str, Said[RefsetMember]]:
        """What these members have in each of the fields: None where one has no such field. One
        that no reference set of theirs has is refused."""
        found = {name: OWN.get(name.lower()) for name in wanted}
        counts = {row.refset: len(row.further) for row in rows}
        if None in found.values():
            await self.learn({one: count for one, count in counts.items() if count})
        return {name: own or self.further(name, counts) for name, own in found.items()}

    async def learn(self, counts: dict[str, int]) -> None:
        described = await self.store.columns({
            one: count for one, count in counts.items() if one not in self.names})
        for refset, count in counts.items():
            self.names[refset] = names_of(refset, count, described.get(refset, ()))

    def further(self, name: str, refsets: Iterable[str]) -> Said[RefsetMember]:
        places = {
            refset: place for refset in refsets
            for place, names in enumerate(self.names.get(refset, ())) if name.lower() in names}
        if refsets and not places:
            raise not_supported("no reference set there has a field that is called %.40s" % name)

        def said(row: RefsetMember) -> str | None:
            place = places.get(row.refset, len(row.further))
            return row.further[place] if place < len(row.further) else None

        return said


def asks_active(filters: Iterable[s.Filter]) -> bool:
    return any(one.name == ACTIVE for one in filters)


async def concepts(meant: Meant, rows: Sequence[Concept], filters: Sequence[s.Filter]) -> Ids:
    for one in filters:
        rows = await filtered(meant, rows, one, FIELDS[one.name])
    return frozenset(row.id for row in rows)


async def with_words(store: Terminology,
                     filters: Sequence[s.Filter]) -> Sequence[Description] | None:
    """Descriptions that were searched for, among which are all that fit. None where no filter has
    words to search for."""
    for one in filters:
        if one.name == TERM and one.comparison == s.EQUAL and isinstance(one.value, s.Text):
            asked = words_asked(one.value)
            if all(asked) and not asks_active(filters):
                return await store.with_words(asked)
    return None


async def described(store: Terminology, meant: Meant, rows: Sequence[Description],
                    filters: Sequence[s.Filter]) -> Ids:
    for one in sorted(filters, key=lambda one: one.name == DIALECT):
        if one.name == DIALECT:
            rows = await in_dialects(store, meant, rows, one)
        else:
            rows = await filtered(meant, rows, one, FIELDS[one.name])
    return frozenset(row.concept for row in rows)


async def in_dialects(store: Terminology, meant: Meant, rows: Sequence[Description],
                      f: s.Filter) -> list[Description]:
    """The descriptions that have active members in the dialects."""
    members = await store.members_about([row.id for row in rows])
    refsets = frozenset(one.refset for some in members.values() for one in some)
    ways = [(await among(meant, f, refsets), f.acceptabilities)]
    if f.own and isinstance(f.value, tuple):
        ways = [(frozenset([code]), own or f.acceptabilities) for code, own in zip(f.value, f.own)]

    def is_in(row: Description) -> bool:
        return any(
            one.refset in wanted and (not hows or one.further[:1] and one.further[0] in hows)
            for one in members[row.id] for wanted, hows in ways)

    return [row for row in rows if is_in(row) == (f.comparison == s.EQUAL)]


async def members(store: Terminology, meant: Meant, fields: Fields, e: s.MemberOf) -> Ids:
    """The concepts that the members of reference sets which fit refer to, or have in a field."""
    rows: Sequence[RefsetMember] = await members_of(store, meant, e)
    names = [one.name for one in e.filters] + [e.field] * bool(e.field)
    said = await fields.of(rows, names)
    for one in e.filters:
        rows = await filtered(meant, rows, one, said[one.name])
    values = (said[e.field](row) if e.field else row.component for row in rows)
    return frozenset(value for value in values if value and is_concept_id(value))


async def members_of(store: Terminology, meant: Meant, e: s.MemberOf) -> list[RefsetMember]:
    with_inactive = asks_active(e.filters)
    if isinstance(e.refsets, s.Wildcard):
        return [row async for row in store.every_member(with_inactive)]
    refsets = sorted(await refsets_of(meant, e.refsets, None), key=int)
    return [row for refset in refsets async for row in store.members(refset, with_inactive)]


async def refsets_of(meant: Meant, e: s.Expression, among: Ids | None) -> Ids:
    """The reference sets that are named, or those of `among` that are."""
    if isinstance(e, s.ConceptReference):
        return frozenset([e.code])
    if isinstance(e, s.Wildcard) and among is not None:
        return among
    return await meant(e, among)


async def filtered(meant: Meant, rows: Sequence[Row], f: s.Filter, said: Said[Row]) -> list[Row]:
    """The rows of which one field fits."""
    fits = await test_of(meant, f, frozenset(filter(None, map(said, rows))))
    return await those_of(rows, lambda row: (text := said(row)) is not None and fits(text))


async def test_of(meant: Meant, f: s.Filter, values: Ids) -> Callable[[str], bool]:
    """Whether a field fits that has one of these values."""
    is_equality, value = f.comparison == s.EQUAL, f.value
    if isinstance(value, s.Truth):
        bit = BITS[value.value]
        return lambda text: (text == bit) == is_equality
    if isinstance(value, s.Number):
        number = value
        return lambda text: fits_number(text, f.comparison, number)
    if isinstance(value, s.Text):
        wanted = value
        if f.name.lower().endswith(EFFECTIVE_TIME.lower()):
            return lambda text: fits_day(text, f.comparison, wanted)
        return lambda text: fits_text(wanted, text) == is_equality
    found = await among(meant, f, values)
    return lambda text: (text in found) == is_equality


async def among(meant: Meant, f: s.Filter, values: Ids) -> Ids:
    """Those of the values that a filter compares with."""
    assert not isinstance(f.value, s.Concrete)
    if isinstance(f.value, tuple):
        return frozenset(f.value)
    return await meant(f.value, frozenset(filter(is_concept_id, values)))
