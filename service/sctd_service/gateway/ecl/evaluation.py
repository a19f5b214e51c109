"""Which concepts an expression means at one moment.

- `*` is all active concepts. An id is the concept of that id if it has a row, active or not.
- `<`, `>` and `<!` of a set are what DESCENDANTS, ANCESTORS and CHILDREN say of its concepts, and
  `>!` the destinations of their "is a" relationships; doubled signs add the set itself.
- `^` is the concepts that active members of the reference sets refer to, associations among them.
  A reference set that is named by its id needs no row.
- What refinements, filters and history supplements mean stands in their own modules.

Each step is asked for all concepts that it means, or for those among some: then it is asked about
these alone where they are few. So one code is tested without making the set that it may be in.
"""

from collections.abc import Iterable, Sequence

from . import syntax as s
from .. import limits
from . import filtering, refining
from .refining import NOTHING
from .syntax import Ids
from .terminology import Terminology
from ..store import TooManyTerms
from ...snomed import (
    PARTIALLY_EQUIVALENT_TO, REPLACED_BY, SAME_AS, WAS_A, Description, is_id_of_concept)

# The association reference sets of a profile; None is every one.
PROFILES = {
    s.MIN: frozenset([SAME_AS]),
    s.MOD: frozenset([SAME_AS, REPLACED_BY, WAS_A, PARTIALLY_EQUIVALENT_TO]),
    s.MAX: None,
}


def union(sets: Iterable[Ids]) -> Ids:
    return NOTHING.union(*sets)


def are_few(codes: Ids | None) -> bool:
    return codes is not None and len(codes) <= limits.ASKED_UPWARDS


class Evaluation:
    """The meanings of expressions at one moment, each of which is found once."""

    def __init__(self, terminology: Terminology) -> None:
        self.store, self.kept = terminology, dict[s.Expression, Ids]()
        self.fields = filtering.Fields(terminology)

    async def meant(self, e: s.Expression, among: Ids | None = None) -> Ids:
        """The concepts that an expression means, or those of `among`, all of which are ids of
        concepts, that it does."""
        if among is not None and not among:
            return NOTHING
        if e in self.kept:
            return self.kept[e] if among is None else self.kept[e] & among
        found = await self.found(e, among)
        if among is None:
            self.kept[e] = found
            return found
        return found & among

    async def found(self, e: s.Expression, among: Ids | None) -> Ids:
        """The same; there may be more than those of `among`."""
        match e:
            case s.ConceptReference(code):
                is_asked = among is None or code in among
                return frozenset(row.id for row in await self.store.concepts([code] * is_asked))
            case s.Wildcard():
                return await self.active(among)
            case s.Related(operator, of):
                if among is not None and are_few(among) and operator not in (">", ">>"):
                    return await self.related_among(operator, of, among)
                return await self.related(operator, await self.meant(of))
            case s.MemberOf():
                return await self.members(e, among)
            case s.Compound():
                return await self.compound(e, among)
            case s.Refined():
                return await refining.refined(self.store, self.meant, e, among)
            case s.Dotted():
                return await refining.dotted(self.store, self.meant, e, among)
            case s.Filtered():
                return await self.filtered(e, among)
            case s.WithHistory(focus, by):
                return await self.with_history(focus, by, among)

    async def active(self, among: Ids | None) -> Ids:
        if among is not None and len(among) <= limits.ASKED_ONE_BY_ONE:
            rows = await self.store.concepts(among)
            return frozenset(row.id for row in rows if row.is_active)
        return frozenset([row.id async for row in self.store.every_concept() if row.is_active])

    # ---- the hierarchy

    async def related(self, operator: str, of: Ids) -> Ids:
        if operator in (s.TOP, s.BOTTOM):
            # Of the tops none is below another, of the bottoms none above.
            return of - await self.reached(of, operator == s.TOP)
        own = of if operator[:2] in ("<<", ">>") else NOTHING
        if operator[-1] == "!":
            return own | await self.next_ones(of, operator[0] == "<")
        return own | await self.reached(of, operator[0] == "<")

    async def next_ones(self, of: Ids, is_down: bool) -> Ids:
        found = await (self.store.near("CHILDREN", of) if is_down else self.store.parents(of))
        return union(found.values())

    async def reached(self, of: Ids, is_down: bool) -> Ids:
        """All below these concepts, or above them. Of many each step is asked once."""
        if are_few(of):
            question = "DESCENDANTS" if is_down else "ANCESTORS"
            return union((await self.store.near(question, of)).values())
        found, seen, left = NOTHING, of, of
        while left:
            next_ones = await self.next_ones(left, is_down)
            found |= next_ones
            left = next_ones - seen
            seen |= left
        return found

    async def related_among(self, operator: str, of: s.Expression, among: Ids) -> Ids:
        """Those among few concepts that an operator means, by what is next to them, or above."""
        if operator == s.BOTTOM:
            among = await self.meant(of, among)
            near = await self.store.near("DESCENDANTS", among)
        elif operator[-1] != "!":
            near = await self.store.near("ANCESTORS", among)
        elif operator[0] == "<":
            near = await self.store.parents(among)
        else:
            near = await self.store.near("CHILDREN", among)
        own = await self.meant(of, union(near.values()) | among)
        if operator in (s.TOP, s.BOTTOM):
            return frozenset(code for code in among & own if not near[code] & own)
        reached = frozenset(code for code in among if near[code] & own)
        return reached | own if operator[:2] in ("<<", ">>") else reached

    async def compound(self, e: s.Compound, among: Ids | None) -> Ids:
        if e.operator == s.OR:
            return union([await self.meant(part, among) for part in e.parts])
        # Those that are asked in one line come first, and of others only what these leave is asked.
        first, *others = e.parts if e.operator == s.MINUS else sorted(e.parts, key=s.cost)
        found = await self.meant(first, among)
        for part in others:
            own = await self.meant(part, found)
            found = found - own if e.operator == s.MINUS else own
        return found

    # ---- reference sets

    async def members(self, e: s.MemberOf, among: Ids | None) -> Ids:
        if e.field or e.filters or isinstance(e.refsets, s.Wildcard) and not are_few(among):
            return await filtering.members(self.store, self.meant, self.fields, e)
        if among is not None and are_few(among):
            return await self.members_among(e.refsets, among)
        refsets = sorted(await filtering.refsets_of(self.meant, e.refsets, None), key=int)
        return union([await self.store.codes_of(one) for one in refsets])

    async def members_among(self, of: s.Expression, among: Ids) -> Ids:
        refsets = {
            code: {row.refset for row in own}
            for code, own in (await self.store.members_about(among)).items()}
        for row in await self.store.replaced(among):
            refsets[row.source].add(row.refset)
        named = union(map(frozenset, refsets.values()))
        wanted = await filtering.refsets_of(self.meant, of, named)
        return frozenset(code for code, own in refsets.items() if own & wanted)

    async def filtered(self, e: s.Filtered, among: Ids | None) -> Ids:
        if e.about == s.OF_DESCRIPTION:
            described = await self.descriptions(e, among)
            return await filtering.described(self.store, self.meant, described, e.filters)
        if not isinstance(e.focus, s.Wildcard):
            rows = await self.store.concepts(await self.meant(e.focus, among))
        elif among is not None:
            rows = await self.store.concepts(among)
        else:
            rows = [row async for row in self.store.every_concept()]
        # What is asked for may be inactive where that is said of `*` itself.
        if isinstance(e.focus, s.Wildcard) and not filtering.asks_active(e.filters):
            rows = [row for row in rows if row.is_active]
        return await filtering.concepts(self.meant, rows, e.filters)

    async def descriptions(self, e: s.Filtered, among: Ids | None) -> Sequence[Description]:
        """Descriptions of the focus: those that a search by words finds, or else all. (All that
        there are would be too many, too.)"""
        found = None
        try:
            if not are_few(among):
                found = await filtering.with_words(self.store, e.filters)
        except TooManyTerms:
            if among is None and isinstance(e.focus, s.Wildcard):
                raise
        if found is None:
            base = await self.meant(e.focus, among)
            with_inactive = filtering.asks_active(e.filters)
            return [row async for row in self.store.descriptions(base, with_inactive)]
        named = frozenset(row.concept for row in found)
        base = await self.meant(e.focus, named if among is None else named & among)
        return [row for row in found if row.concept in base]

    # ---- history supplements

    async def with_history(self, focus: s.Expression, by: str | s.Expression,
                           among: Ids | None) -> Ids:
        """Adds inactive concepts of which an active association has one of the set as target."""
        if among is not None and are_few(among):
            told = await self.store.replaced(among)
            targets = (row.target for row in told if is_id_of_concept(row.target))
            base = await self.meant(focus, among.union(targets))
        else:
            base = await self.meant(focus)
            told = await self.store.replacing(base)
        named = frozenset(row.refset for row in told)
        if isinstance(by, str):
            wanted = PROFILES[by]
        else:
            wanted = await filtering.refsets_of(self.meant, by, named)
        was = frozenset(
            row.source for row in told
            if row.target in base and (wanted is None or row.refset in wanted))
        rows = await self.store.concepts(was - base)
        return base | {row.id for row in rows if not row.is_active}
