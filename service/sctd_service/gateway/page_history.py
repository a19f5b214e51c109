"""The history of a concept on the page: what its releases changed, by day, and since when it was in
its reference sets."""

import itertools
from collections.abc import Iterable, Mapping
from typing import NamedTuple

from markupsafe import Markup

from . import limits
from .markup import aside, joined, tag, term, time
from .refsets import METADATA_TAG, Columns, columns_of
from ..snomed import (
    ASSOCIATIONS, DEFINED, FULLY_SPECIFIED_NAME, IS_A, TEXT_DEFINITION, Association, Concept,
    Description, RefsetMember, Relationship, is_concept_id)
from .store import AnyRow, Versions, View

ARROW = " \u2192 "
BESIDE = " \u00b7 "
NOTHING = "none"
WHAT = {FULLY_SPECIFIED_NAME: "Name", TEXT_DEFINITION: "Text definition"}


class Names(NamedTuple):
    """What codes are called in the store, and the columns of reference sets."""

    names: Mapping[str, str] = {}
    columns: Columns = {}

    def of(self, code: str) -> str:
        """A concrete value is told as it is, without the sign that it is a number."""
        return code.removeprefix("#") if code.startswith("#") else self.names.get(code, code)

    def of_attribute(self, code: str) -> str:
        return "Parent" if code == IS_A else self.of(code).removesuffix(" (attribute)")

    def of_refset(self, code: str) -> str:
        return ASSOCIATIONS.get(code) or self.of_metadata(code)

    def of_metadata(self, code: str) -> str:
        return self.of(code).removesuffix(METADATA_TAG)

    def of_columns(self, row: RefsetMember) -> list[tuple[str, str]]:
        """What a member says beside what it refers to, each with the name of its column. Where the
        store doesn't describe the columns of the reference set they have no names."""
        values = [self.of_metadata(value) for value in row.further]
        columns = self.columns.get(row.refset, ())
        if len(columns) != len(values):
            return [("", value) for value in values]
        return [(column, value or NOTHING) for column, value in zip(columns, values)]


async def history(view: View, timeline: Iterable[Versions], marks: Mapping[str, str]) -> Markup:
    """The changes by day, oldest first, with the days that are marked among them."""
    rows = [row for versions in timeline for row in versions]
    members = (row for row in rows if isinstance(row, RefsetMember))
    columns = await columns_of(view, counts_of(members), view.latest)
    names = Names(await view.names(other_codes(rows), view.latest), columns)
    events: dict[str, list[Markup]] = {day: [tag("em", said)] for day, said in marks.items()}
    for versions in timeline:
        before: AnyRow | None = None
        for row in versions:
            events.setdefault(row.time, []).extend(changes(before, row, names))
            before = row
    # A row that changed nothing that is told, such as its module, makes no entry.
    entries = [tag("li", time(day), tag("ul", *(tag("li", said) for said in events[day])))
               for day in sorted(events) if events[day]]
    return tag("ol", *entries, class_="timeline")


def other_codes(rows: Iterable[AnyRow]) -> Iterable[str]:
    """The concepts that the rows about a concept name."""
    for row in rows:
        if isinstance(row, Relationship):
            yield from (row.type, row.target)
        elif isinstance(row, Association):
            yield row.target
        elif isinstance(row, RefsetMember):
            yield from codes_of_member(row)


def counts_of(members: Iterable[RefsetMember]) -> dict[str, int]:
    """How many columns of their own the first of these reference sets have."""
    counts = {row.refset: len(row.further) for row in members if row.further}
    return dict([*counts.items()][: limits.TOLD_REFSETS])


def codes_of_member(row: RefsetMember) -> list[str]:
    """The reference set, and the concepts that its own columns name."""
    return [row.refset, *filter(is_concept_id, row.further)]


class Said(NamedTuple):
    """What a row says of the concept: in which respect, a code or a term, and what to call it."""

    what: str
    said: str
    shown: str


def said_by(row: AnyRow | None, names: Names) -> Said | None:
    """What a row about the concept says, if it is active."""
    if row is None or isinstance(row, Concept) or row.active != "1":
        return None
    if isinstance(row, Description):
        return Said(WHAT.get(row.type, "Synonym"), row.term, row.term)
    if isinstance(row, RefsetMember):
        refset = names.of_refset(row.refset)
        if not row.further:
            return Said("Reference set", row.refset, refset)
        columns = (" ".join(filter(None, pair)) for pair in names.of_columns(row))
        return Said(refset, "\t".join(row.further), BESIDE.join(columns))
    if isinstance(row, Association):
        what = names.of_refset(row.refset)
    else:
        what = names.of_attribute(row.type)
    return Said(what, row.target, names.of(row.target))


def changes(before: AnyRow | None, row: AnyRow, names: Names) -> list[Markup]:
    """What a row changed against the one before it, in words."""
    if isinstance(row, Concept):
        return concept_changes(before, row)
    old, new = said_by(before, names), said_by(row, names)
    if old == new:
        return []
    if old and new and old.what == new.what:
        # Two concepts that are called alike are told by their codes.
        pair = (old.said, new.said) if old.shown == new.shown else (old.shown, new.shown)
        return [joined(new.what, " changed: ", term(pair[0]), ARROW, term(pair[1]))]
    found = [joined(old.what, " withdrawn: ", term(old.shown))] if old else []
    if new:
        added = ": " if isinstance(row, Association) else " added: "
        found.append(joined(new.what, added, term(new.shown)))
    return found


def concept_changes(before: AnyRow | None, row: Concept) -> list[Markup]:
    found = []
    if before is None or before.active != row.active:
        found.append(tag("b", "Concept ", "active" if row.is_active else "inactive"))
    if isinstance(before, Concept) and before.definition_status != row.definition_status:
        is_defined = row.definition_status == DEFINED
        found.append(joined("Now fully defined" if is_defined else "Now primitive"))
    return found


class Membership(NamedTuple):
    """A member that was active on a day, and the day from which it was so without a break."""

    row: RefsetMember
    since: str


def memberships(timeline: Iterable[Versions], code: str, day: str) -> list[Membership]:
    """Those of a concept on a day, by their reference sets."""
    found = [since(versions, code, day) for versions in timeline]
    return sorted(filter(None, found), key=lambda one: (int(one.row.refset), one.since, one.row))


def since(versions: Versions, code: str, day: str) -> Membership | None:
    """That of one member, if it was active then and about the concept."""
    found: Membership | None = None
    for row in versions:
        if not isinstance(row, RefsetMember) or row.time > day:
            break
        if row.active != "1" or row.component != code:
            found = None
        elif found and found.row.refset == row.refset:
            found = Membership(row, found.since)
        else:
            found = Membership(row, row.time)
    return found


def refset_entries(members: Iterable[Membership], names: Names) -> dict[str, Markup]:
    """Each reference set once, with its members."""
    found: dict[str, Markup] = {}
    for refset, some in itertools.groupby(members, key=lambda one: one.row.refset):
        if len(found) == limits.TOLD_REFSETS:
            found["more"] = aside("and others")
            break
        told = list(some)
        shown = [joined(" ", entry(one, names)) for one in told[: limits.TOLD_MEMBERS]]
        if len(told) > limits.TOLD_MEMBERS:
            shown.append(aside(" and %d more" % (len(told) - limits.TOLD_MEMBERS)))
        key = "\n".join([refset, *("\t".join((one.since, *one.row.further)) for one in told)])
        name = term(names.of_refset(refset))
        found[key] = joined(name, " ", aside(refset), *shown)
    return found


def entry(one: Membership, names: Names) -> Markup:
    """Since when it is a member, and what each of its columns says, by the column's name."""
    told = [joined(*([aside(column), " "] if column else []), tag("strong", value))
            for column, value in names.of_columns(one.row)]
    said = [": ", Markup(BESIDE).join(told)] if any(one.row.further) else []
    return joined("since ", time(one.since), *said)
