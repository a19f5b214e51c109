"""Reference sets as sets of concepts: the codes of one, page by page of `VALUES`, which reference
sets there are, and what their columns are called."""

from collections.abc import Iterable, Mapping, Sequence

from . import limits
from .pool import Codes
from .problems import too_costly
from ..snomed import (
    ASSOCIATIONS, REFERENCE_SET, REFSET_DESCRIPTOR, Association, RefsetMember, distinct,
    is_concept_id, is_id_of_concept)
from .store import View

# The reference set of only its active concepts, among those that are remembered.
ACTIVE = "%s active"
METADATA_TAG = " (foundation metadata concept)"
# What a map's columns are called where the store doesn't say it: those of an extended map.
EXTENDED_MAP = (
    "Map group", "Map priority", "Map rule", "Map advice", "Map target", "Correlation",
    "Map category")
# Of a reference set's description: the columns of a member that says what a column is, and the
# places of those that not all reference sets have.
DESCRIBING_COLUMNS, PLACES = 3, {str(place) for place in range(1, 100)}
# The names of the columns that are a reference set's own, by reference sets.
Columns = Mapping[str, Sequence[str]]


async def codes_of(view: View, refset: str, day: str) -> Codes:
    """The concepts that active members of a reference set refer to, each once, ascending."""
    async def made() -> Codes:
        if refset in ASSOCIATIONS:
            return tuple((await associated(view, day)).get(refset, ()))
        return tuple(filter(is_id_of_concept, await components_of(view, refset, day)))

    return await view.session.recalled(view.session.pool.refsets, day, refset, made)


async def components_of(view: View, refset: str, day: str) -> list[str]:
    """What its active members refer to."""
    found, count = list[str](), 0
    async for page in view.values(refset, day):
        found += distinct(row.component for row in page)
        count += len(page)
        if count > limits.REFSET_MEMBERS:
            raise too_costly("the reference set %s has more than %d members: ask with a filter"
                             % (refset, limits.REFSET_MEMBERS))
    return found


async def active_codes_of(view: View, refset: str, day: str) -> Codes:
    """Those of its concepts that are active themselves."""
    async def made() -> Codes:
        codes = await codes_of(view, refset, day)
        if len(codes) > limits.WALK_CONCEPTS:
            raise too_costly(
                "of more than %d concepts it isn't asked which are active: ask without activeOnly"
                % limits.WALK_CONCEPTS)
        members = await view.members(codes, day, keep=False)
        return tuple(member.code for member in members if member.is_active)

    return await view.session.recalled(view.session.pool.refsets, day, ACTIVE % refset, made)


async def those_in(view: View, refset: str, codes: Sequence[str], day: str) -> set[str]:
    """Those of the concepts that active members of a reference set refer to."""
    known = view.session.remembered_set(view.session.pool.refsets, day, refset)
    if known is not None:
        return set(known).intersection(codes)
    told: Sequence[Sequence[Association | RefsetMember]]
    if refset in ASSOCIATIONS:
        told = await view.associations(codes, day)
    else:
        told = await view.members_about(codes, day)
    return {code for code, rows in zip(codes, told) if any(row.refset == refset for row in rows)}


async def was_kept(view: View, refset: str) -> bool:
    """Whether the store has a member of a reference set, of whichever day."""
    if refset in ASSOCIATIONS:
        return refset in await associated(view, view.latest)
    return await view.was_kept(refset)


async def associated(view: View, day: str) -> dict[str, list[str]]:
    """The concepts that active members of each association reference set refer to, ascending. They
    are kept apart from other members, so all of them are read, and remembered one by one."""
    session, found = view.session, dict[str, set[str]]()
    known = {one: session.remembered_set(session.pool.refsets, day, one) for one in ASSOCIATIONS}
    if None not in known.values():
        return {refset: [*codes] for refset, codes in known.items() if codes}
    count = 0
    async for page in view.every_association(day):
        for row in page:
            if row.active == "1" and is_id_of_concept(row.source):
                found.setdefault(row.refset, set()).add(row.source)
        count += len(page)
        if count > limits.ASSOCIATIONS:
            raise too_costly("there are more than %d associations" % limits.ASSOCIATIONS)
    for refset in ASSOCIATIONS:
        codes = tuple(sorted(found.get(refset, ()), key=int))
        session.remember_set(session.pool.refsets, day, refset, codes)
    return {refset: sorted(codes, key=int) for refset, codes in found.items()}


async def with_members(view: View, day: str) -> list[str]:
    """The reference sets that have active members, ascending."""
    below = await view.descendants(REFERENCE_SET, day)
    if len(below) > limits.REFSET_CHOICE:
        raise too_costly("there are more than %d reference sets" % limits.REFSET_CHOICE)
    return await which_have_members(view, below, day)


async def which_have_members(view: View, found: Sequence[str], day: str) -> list[str]:
    """Those of the reference sets that have active members, in their order."""
    having = set(await view.have_values(found, day))
    if having.union(ASSOCIATIONS).intersection(found) - having:
        having.update(await associated(view, day))
    return [one for one in found if one in having]


async def which_of(view: View, codes: Sequence[str], day: str) -> set[str]:
    """Those of the concepts that are such reference sets."""
    found = await view.codes_within(codes, REFERENCE_SET, day) - {REFERENCE_SET}
    return set(await which_have_members(view, sorted(found, key=int), day))


async def columns_of(view: View, counts: Mapping[str, int], day: str) -> Columns:
    """What the columns of reference sets are called on a day, of each that has so many."""
    described = [described_by(told) for told in await view.members_about([*counts], day)]
    names = await view.names((code for codes in described for code in codes), day)
    found = {
        refset: [names[code].removesuffix(METADATA_TAG) for code in codes]
        for refset, codes in zip(counts, described) if len(codes) == counts[refset]}
    unknown = {refset: EXTENDED_MAP for refset in counts if counts[refset] == len(EXTENDED_MAP)}
    return {**unknown, **found}


def described_by(members: Iterable[RefsetMember]) -> list[str]:
    """The concepts that say what each column of a reference set is, in the columns' order."""
    found = {}
    for row in members:
        if row.refset == REFSET_DESCRIPTOR and len(row.further) == DESCRIBING_COLUMNS:
            description, _, order = row.further
            if order in PLACES and is_concept_id(description):
                found[int(order)] = description
    return [found[order] for order in sorted(found)]
