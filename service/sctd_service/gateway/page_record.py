"""One record on the page: the concept on both days, what took its place, and its history."""

import datetime
from collections.abc import Callable, Collection, Iterable, Sequence
from typing import NamedTuple

from markupsafe import Markup

from . import limits
from .fhir.translation import MAPS
from .fhir.versions import Edition
from .frame import Shown, for_good
from .markup import address, aside, joined, spoken, tag, term, time, verdict, visible
from .page_history import (
    NOTHING, Membership, Names, codes_of_member, counts_of, history, memberships, refset_entries)
from .refsets import columns_of
from ..snomed import (
    ASSOCIATIONS, DEFINED, FULLY_SPECIFIED_NAME, IS_A, MOVED_TO, TEXT_DEFINITION, Association,
    Concept, Facts, Language, Relationship, display_of, distinct, is_concept_id, preferred_term,
    reasons_of, with_hyphens)
from .store import Versions, View

REFSET_ORDER = {refset: place for place, refset in enumerate(ASSOCIATIONS)}
# The associations that say whose place a concept took.
TAKEN = MAPS.keys() - {MOVED_TO}
MORE_STEPS = "This isn\u2019t whole: inactive concepts at its end may lead further."

ONLY = Markup(
    '<input type="checkbox" id="only" autocomplete="off" checked>'
    '<label for="only">Only what differs: %d of %d rows</label>')

# The entries of one row of the table: what tells each from others, and what is shown; of an entry
# that only counts, nothing.
Entries = dict[str, Markup]


class Question(NamedTuple):
    """A record: its code and day, the day it is compared with, whether the address has a pin."""

    edition: Edition
    code: str
    date: str
    other: str
    is_pinned: bool


class Around(NamedTuple):
    """What was directly below a concept on a day, and the associations by which it took the place
    of others, by their concepts."""

    children: list[str] = []
    taken: dict[str, list[Association]] = {}


class Side(NamedTuple):
    """A concept on one day, of which the store may know nothing, with the names that those it is
    told by had on that day."""

    day: str
    is_known: bool
    facts: Facts | None
    names: Names = Names()
    members: list[Membership] = []
    around: Around = Around()

    @property
    def name(self) -> str:
        return display_of("", self.facts.descriptions) if self.facts else ""

    @property
    def short_name(self) -> str:
        """The preferred term of the first language of the house that has one, or nothing."""
        called = self.facts.called.values() if self.facts else []
        return next(filter(None, map(preferred_term, called)), "")

    @property
    def reasons(self) -> list[str]:
        """Why the concept was retired, in codes. (An active one may have an indicator too.)"""
        is_retired = self.status == "inactive"
        return reasons_of(one.row for one in self.members) if is_retired else []

    @property
    def status(self) -> str:
        return status_of(self.facts and self.facts.concept) if self.is_known else "not known"

    def entries(self) -> dict[str, Entries]:
        """The rows of the table by their titles."""
        if self.facts is None:
            return {}
        concept, described = self.facts.concept, self.facts.descriptions
        is_defined = concept.definition_status == DEFINED

        def terms(kind: str) -> Entries:
            return {row.term: term(row.term, row.language) for row in described if row.type == kind}

        return {
            "Status": {concept.active: tag("span", self.status.capitalize(), class_=self.status)},
            "Preferred term": self.preferred(self.facts),
            "Fully specified name": terms(FULLY_SPECIFIED_NAME),
            "Synonyms": {
                row.language + row.term: joined(
                    term(row.term, row.language), " ", aside(row.language))
                for row in described if row.type not in (FULLY_SPECIFIED_NAME, TEXT_DEFINITION)},
            "Text definition": terms(TEXT_DEFINITION),
            "Why retired": {
                reason: joined(term(self.names.of_metadata(reason)), " ", aside(reason))
                for reason in self.reasons},
            "Parents": {
                code + self.names.of(code): self.link(code) for code in self.facts.parents},
            "Children": self.some_of(self.around.children, self.link),
            "Attributes": self.attributes(self.facts.relationships, False),
            "Values": self.attributes(self.facts.values, True),
            "Definition": {
                concept.definition_status: joined("Fully defined" if is_defined else "Primitive")},
            "Module": {concept.module: joined(term(self.names.of(concept.module)))},
            "Took the place of": self.some_of(self.around.taken, self.predecessor),
            "Reference sets": refset_entries(self.members, self.names),
            "Concept row of": {concept.time: time(concept.time)}}

    def preferred(self, facts: Facts) -> Entries:
        found = {}
        for refset, called in facts.called.items():
            if (shown := preferred_term(called)) is not None:
                language = aside(term(self.names.of_metadata(refset)))
                found[refset + shown] = joined(term(shown), " ", language)
        return found

    def attributes(self, chosen: Iterable[Relationship], have_values: bool) -> Entries:
        found = {}
        for row in sorted(chosen, key=lambda row: (int(row.group), row.type)):
            if row.type != IS_A:
                name = self.names.of_attribute(row.type)
                value = (tag("strong", row.target.removeprefix("#")) if have_values
                         else self.link(row.target))
                group = aside(" group %s" % row.group) if row.group != "0" else ""
                key = "\t".join((row.type, row.target, row.group))
                found[key] = joined(term(name), ": ", value, group)
        return found

    def some_of(self, codes: Iterable[str], show: Callable[[str], Markup]) -> Entries:
        """Entries of concepts, of which those are shown that have been named."""
        found = {code: show(code) if code in self.names.names else Markup() for code in codes}
        more = sum(not shown for shown in found.values())
        return found | ({"more": aside("and %d more" % more)} if more else {})

    def predecessor(self, code: str) -> Markup:
        said = ", ".join(ASSOCIATIONS[row.refset].lower() for row in self.around.taken[code])
        return joined(self.link(code), " ", aside(said))

    def link(self, code: str) -> Markup:
        return linked(code, self.names.of(code), self.day)


def status_of(concept: Concept | None) -> str:
    if concept is None:
        return "absent"
    return "active" if concept.is_active else "inactive"


def linked(code: str, name: str, day: str) -> Markup:
    """A concept, which leads to its record of a day from each of the pages."""
    href = "./" + address(q=code, date=with_hyphens(day))
    return joined(tag("a", term(name), href=href), " ", aside(code))


async def around(view: View, code: str, day: str) -> Around:
    """Of a day of which the store knows nothing that is nothing."""
    release = view.in_force(day)
    if not release:
        return Around()
    taken: dict[str, list[Association]] = {}
    for row in sorted((await view.replaced_by([code], release))[0], key=order_of):
        if row.refset in TAKEN and is_concept_id(row.source):
            taken.setdefault(row.source, []).append(row)
    return Around(await view.children(code, release), taken)


def told_first(own: Collection[str], other: Collection[str]) -> list[str]:
    """Those of a day's concepts that are shown: first what the other day doesn't have."""
    known = set(other)
    return sorted(own, key=lambda code: (code in known, int(code)))[: limits.TOLD_CONCEPTS]


async def side_of(view: View, code: str, day: str, language: Language,
                  timeline: Sequence[Versions], own: Around, other: Around) -> Side:
    release = view.in_force(day)
    facts = await view.facts(code, release, language) if release else None
    if facts is None:
        return Side(day, bool(release), None)
    members = memberships(timeline, code, day)
    codes = [facts.concept.module, *facts.called]
    for row in facts.relationships:
        codes += [row.type, row.target]
    codes += [row.type for row in facts.values]
    for member in members:
        codes += codes_of_member(member.row)
    codes += told_first(own.children, other.children) + told_first(own.taken, other.taken)
    columns = await columns_of(view, counts_of(member.row for member in members), release)
    names = Names(await view.names(codes, release), columns)
    return Side(day, True, facts, names, members, own)


async def sides_of(view: View, question: Question, timeline: Sequence[Versions]) -> list[Side]:
    """The concept on the record's day, and on the day compared with where that is another one."""
    language = Language("", question.edition.languages)
    days = distinct(min(day, view.latest) for day in (question.date, question.other))
    found = [await around(view, question.code, day) for day in days]
    # (The other day of each; the same one where there is one alone.)
    return [
        await side_of(view, question.code, day, language, timeline, own, other)
        for day, own, other in zip(days, found, reversed(found))]


async def record(view: View, question: Question) -> Shown:
    code, latest = question.code, view.latest
    timeline = await view.timeline(code)
    sides = await sides_of(view, question, timeline)
    then, now, first = sides[0], sides[-1], view.days[0]
    versions = await view.versions(code)
    if then.facts is None and now.facts is None:
        return Shown(code, absent(view, question, sides, versions))
    name = next(side.name for side in sides if side.facts)
    parts = [
        heading(code, name),
        verdict(
            *not_known_yet(question.date, latest),
            *(sentence(side, versions, first) for side in sides)),
        compared(sides, latest)]
    for side in sides:
        if side.status == "inactive":
            parts.append(tag("section", tag("h3", "What took its place, by ", time(side.day)),
                             await replacements(view, code, side.day)))
    marks = {now.day: "The day compared with", then.day: "The record\u2019s day"}
    told = await history(view, timeline, marks)
    parts.append(tag("section", tag("h3", "History"), told))
    parts.append(report(view, question, then, versions))
    return Shown("%s %s" % (name, code), joined(*parts))


def heading(code: str, name: str) -> Markup:
    shown = [term(name), " ", aside(code)] if name else ["The code ", tag("code", code)]
    return tag("h2", *shown)


def absent(view: View, question: Question, sides: Sequence[Side],
           versions: Sequence[Concept]) -> Markup:
    unknown = [nothing_known(side.day, view.days[0]) for side in sides if not side.is_known]
    known = [side.day for side in sides if side.is_known]
    said = ["The code ", tag("code", question.code), " isn\u2019t in the store by ",
            time(max(known)), "."] if known else []
    return joined(
        heading(question.code, ""), verdict(*(part for parts in unknown for part in parts), *said),
        report(view, question, sides[0], versions))


def not_known_yet(date: str, latest: str) -> list[str]:
    if date <= latest:
        return []
    return ["The store\u2019s latest release is of ", time(latest), "; what was said on ",
            time(date), " isn\u2019t known to it. "]


def nothing_known(day: str, first: str) -> list[str]:
    return ["The store knows nothing of ", time(day), ": its first day is ", time(first), ". "]


def sentence(side: Side, versions: Iterable[Concept], first: str) -> Markup:
    """What the code was on a day, and since when where it was retired."""
    if not side.is_known:
        return joined(*nothing_known(side.day, first))
    if side.facts is None:
        return joined(
            "On ", time(side.day), " the code ", tag("strong", "wasn\u2019t there yet"), ". ")
    since = ""
    for row in versions:
        if row.time <= side.day:
            since = "" if row.is_active else since or row.time
    reasons = [term(side.names.of_metadata(reason)) for reason in side.reasons]
    why = [": ", reasons[0], *(joined(", ", one) for one in reasons[1:])] if reasons else []
    retired = [" (since ", time(since), *why, ")"] if since else []
    short = [", in short \u201c", term(side.short_name), "\u201d"] if side.short_name else []
    return joined(
        "On ", time(side.day), " the code ", tag("strong", "was ", side.status), *retired,
        " and its name was \u201c", term(side.name), "\u201d", *short, ". ")


def compared(sides: Sequence[Side], latest: str) -> Markup:
    """The table of the days. What stands on one of two alone is marked, in words too, and what is
    alike on both can be hidden."""
    columns = [side.entries() for side in sides]
    are_two = len(columns) > 1 and all(columns)
    body, same = list[Markup](), 0
    for title in columns[0] or columns[-1]:
        told = [column.get(title, {}) for column in columns]
        if not any(told):
            continue
        is_same = are_two and told[0].keys() == told[1].keys()
        others = reversed(told) if are_two else told
        cells = [cell(own, other, said, side.day) for own, other, said, side
                 in zip(told, others, ("only then", "not then"), sides)]
        body.append(tag("tr", tag("th", title, scope="row"), *cells,
                        **({"class_": "same"} if is_same else {})))
        same += is_same
    only = [ONLY % (len(body) - same, len(body))] if 0 < same < len(body) else []
    heads = [column_head(side, said_of(sides, side, latest)) for side in sides]
    caption = "The concept on both days; marked is what differs" if len(sides) > 1 else (
        "The concept on this day")
    table = tag("table", tag("caption", caption), tag("thead", tag("tr", tag("td"), *heads)),
                tag("tbody", *body))
    return tag("div", *only, table, class_="compared")


def said_of(sides: Sequence[Side], side: Side, latest: str) -> str:
    """Which of the days the head of a column names."""
    if side.day == latest and side is sides[-1]:
        return "latest"
    if side is sides[0]:
        return "then"
    return "later" if side.day > sides[0].day else "earlier"


def column_head(side: Side, said: str) -> Markup:
    if side.facts is None:
        said = "the code isn\u2019t there" if side.is_known else "not known"
    return tag("th", time(side.day), " ", aside(said), scope="col")


def cell(own: Entries, other: Entries, said: str, day: str) -> Markup:
    differs = joined(" ", tag("span", said, class_="differs"))
    entries = [
        tag("li", shown) if key in other else tag("li", tag("mark", shown), differs)
        for key, shown in own.items() if shown]
    told = tag("ul", *entries) if entries else aside(NOTHING)
    return tag("td", told, data_head=spoken(day))


def order_of(row: Association) -> int:
    """The place of an association among those of its concept."""
    return REFSET_ORDER.get(row.refset, len(REFSET_ORDER))


class Step(NamedTuple):
    """An association that leads from a concept to what took its place, with the target's own row
    and the names of both."""

    row: Association
    target: Concept | None
    names: dict[str, str]

    @property
    def how(self) -> str:
        return ASSOCIATIONS.get(self.row.refset, self.row.refset)

    @property
    def name(self) -> str:
        return self.names[self.row.target]


async def steps_of(view: View, code: str, day: str) -> tuple[list[Step], bool]:
    """What took the concept's place by then, step by step, and whether it is all of it."""
    steps: list[Step] = []
    seen, turn, release = {code}, [code], view.in_force(day)
    while turn and len(steps) < limits.REPLACEMENT_STEPS:
        told = await view.associations(turn, release)
        links = sorted((row for rows in told for row in rows), key=order_of)
        targets = distinct(row.target for row in links)
        # A release may name another component there, which isn't asked for as a concept.
        concepts = filter(is_concept_id, targets)
        known = {row.id: row for row in await view.concepts([*concepts], release) if row}
        names = await view.names(targets + [row.source for row in links], release)
        steps += [Step(row, known.get(row.target), names) for row in links]
        turn = [
            one for one in targets if one not in seen and one in known and not known[one].is_active]
        seen.update(turn)
    return steps, not turn


async def replacements(view: View, code: str, day: str) -> Markup:
    steps, are_all = await steps_of(view, code, day)
    if not steps:
        return tag("p", "No association says what took its place.")
    listed = tag("ul", *(replacement(step, code, day) for step in steps))
    return joined(listed, *([] if are_all else [tag("p", aside(MORE_STEPS))]))


def replacement(step: Step, code: str, day: str) -> Markup:
    """One association, and in whose place its target is where that isn't the record's concept."""
    row, status = step.row, "active" if step.target and step.target.is_active else "inactive"
    said = status if step.target else "not in the store"
    source = [" in the place of ", term(step.names[row.source])] if row.source != code else []
    return tag(
        "li", tag("b", step.how), ": ", linked(row.target, step.name, day), " ",
        tag("span", said, class_=status), *source)


def reported(view: View, question: Question, then: Side, versions: Sequence[Concept]) -> str:
    """What a report says of the code on the record's day, and by which release."""
    code, day = question.code, with_hyphens(then.day)
    if not then.is_known:
        first = with_hyphens(view.days[0])
        return "SNOMED CT %s on %s: not known, since the store's first day is %s" % (
            code, day, first)
    version = question.edition.version(view.in_force(then.day))
    if then.facts is None:
        latest = with_hyphens(view.latest)
        since = ("its first row is of %s" % with_hyphens(versions[0].time) if versions
                 else "nor on any day up to %s" % latest)
        return "SNOMED CT %s on %s: no such code then, %s. %s" % (code, day, since, version)
    name = visible(then.name)
    return "SNOMED CT %s |%s| on %s: %s. %s" % (code, name, day, then.status, version)


def report(view: View, question: Question, then: Side, versions: Sequence[Concept]) -> Markup:
    """A line to be copied into a report, and the address under which the page stays as it is."""
    line = "%s; pin %d; %s; read on %s" % (
        reported(view, question, then, versions), view.pin, view.receipt,
        datetime.date.today().isoformat())
    words = {"q": question.code, "date": with_hyphens(question.date),
             "other": with_hyphens(question.other)}
    href = address(**words) if question.is_pinned else for_good(view, address(**words))
    then_known = "" if question.is_pinned or view.known else tag(
        "a", "As we knew it then", href=address(**words, known=words["date"]))
    return tag(
        "section", tag("h3", "For the report"),
        tag("label", "A line to be copied; the pin makes the same answer come again", for_="line"),
        tag("textarea", line, id="line", readonly="", rows="3"),
        tag("button", "Copy", type="button", id="copy", hidden=""), " ",
        tag("a", "This page for good, at pin %d" % view.pin, href=href), " ", then_known)
