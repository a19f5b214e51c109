"""The value sets: the implicit ones, which are all of SNOMED CT, a concept and all below it, a
reference set, the reference sets that there are, or what an expression means; and those that a
client defines, of such parts and of lists of codes."""

import enum
import re
from collections.abc import Collection, Sequence
from typing import Any, NamedTuple
from urllib.parse import unquote

from .. import ecl, limits, refsets
from ..ecl import syntax
from ..ecl.parsing import parse
from ..problems import Json, Problem, conflict, invalid, not_found, not_supported, too_costly
from ...snomed import REFERENCE_SET, distinct, is_concept_id
from .inputs import SCT, Query, not_here
from .versions import Dated

# An address with a version of SNOMED CT behind it.
CANONICAL = re.compile(r"(.*)\|(http://snomed\.info/sct[^|]*)\Z", re.DOTALL)
# What stands in no address: an expression that has such letters isn't encoded a second time.
UNENCODED = re.compile(r'[\s<>"{}|^]')
# What a value set's codes have in common: first that of which there are the fewest, as a rule.
Sort = enum.IntEnum("Sort", (
    "OF_OTHERS", "LISTED", "ABOVE", "ARE_REFSETS", "IN_REFSET", "COMPOSED", "EXPRESSION", "BELOW",
    "WITHIN", "ANY"))
# What stands behind the question mark of an address: a code follows a slash.
FORMS = {"fhir_vs": Sort.ANY, "fhir_vs=refset": Sort.ARE_REFSETS, "fhir_vs=isa/": Sort.WITHIN,
         "fhir_vs=refset/": Sort.IN_REFSET}
ECL = "fhir_vs=ecl/"
# The filters of a concept that a client's value set may have.
FILTERS = {
    "is-a": Sort.WITHIN, "descendent-of": Sort.BELOW, "generalizes": Sort.ABOVE,
    "in": Sort.IN_REFSET}
# The property of a filter that is an expression, and how it and an attribute are compared.
CONSTRAINT, IS = "constraint", "="
# The constraint operators of the same filters.
OPERATORS = {Sort.WITHIN: "<<", Sort.BELOW: "<", Sort.ABOVE: ">>"}


class ValueSet(NamedTuple):
    """Its address, the versions that it names, and the top or the reference set of its concepts if
    it has one, or their list. A composed one has the codes that are in all parts of one of
    `included`, but for those that are so in `excluded`, and may have codes of `others`, which are
    other code systems."""

    url: str
    versions: tuple[str, ...]
    sort: Sort
    code: str = ""
    listed: tuple[str, ...] = ()
    included: tuple[tuple["ValueSet", ...], ...] = ()
    excluded: tuple[tuple["ValueSet", ...], ...] = ()
    active_only: bool = False
    expression: syntax.Expression | None = None
    others: tuple[str, ...] = ()


class Sent:
    """The value sets that a client sends along, by their addresses, and how many parts may still be
    read of those that it defines."""

    def __init__(self, query: Query) -> None:
        self.resources, self.parts = dict[str, Json](), limits.COMPOSED_PARTS
        for one in query.given.get("tx-resource", []):
            if not isinstance(one, dict) or one.get("resourceType") != "ValueSet":
                query.pass_over("a tx-resource is passed over that is no ValueSet")
            elif isinstance(url := one.get("url"), str):
                self.resources |= {url: one, "%s|%s" % (url, one.get("version")): one}

    def value_set(self, address: str) -> ValueSet:
        """The value set of an address. (In one that is sent along its own leads nowhere.)"""
        resource = self.resources.pop(address, None)
        if resource is None:
            return value_set_of(address)
        found = composed(resource, self)
        self.resources[address] = resource
        return found


def wanted_value_set(query: Query) -> ValueSet:
    """The value set that is asked for, by its address or as the client has it."""
    version, sent = query.text("valueSetVersion"), Sent(query)
    if "valueSet" not in query.given:
        url = query.needed("url")
        is_own = "%s|%s" % (url, version) in sent.resources
        found = sent.value_set("%s|%s" % (url, version) if is_own else url)
    elif "url" in query.given:
        raise conflict("url and valueSet are two ways to name the value set")
    else:
        resource = query.one("valueSet")
        found = composed(resource, sent)
        is_own = version == resource.get("version")
    # (A value set that a client defines has versions of its own.)
    return found._replace(versions=(*found.versions, version)) if version and not is_own else found


def versions_of(query: Query, value_set: ValueSet | None) -> list[str]:
    """The versions that an answer about a value set, or about all codes, has to be of."""
    forced = system_versions(query, "force-system-version")
    named = value_set.versions if value_set else ()
    own = [*named, *system_versions(query, "system-version")]
    return [*(forced or own), *system_versions(query, "check-system-version")]


def system_versions(query: Query, name: str) -> list[str]:
    """The versions of SNOMED CT that a parameter names, as `http://snomed.info/sct|VERSION`. Those
    of other code systems change no answer."""
    found = []
    for text in query.all(name):
        system, bar, version = text.partition("|")
        if not bar or not version:
            raise invalid("%s must be SYSTEM|VERSION" % name)
        if system == SCT:
            found.append(version)
        else:
            query.pass_over("the version of %.100r is passed over: only %s is here" % (system, SCT))
    return found


def value_set_of(address: str) -> ValueSet:
    url, what, versions = parted(address)
    if not what.startswith("fhir_vs"):
        raise not_found("the value set %.100r isn't known: only those of %s?fhir_vs" % (url, SCT))
    for form, sort in FORMS.items():
        code = what.removeprefix(form)
        if what.startswith(form) and (is_concept_id(code) if form.endswith("/") else not code):
            return ValueSet(url, versions, sort, code)
    if what.startswith(ECL):
        text = what.removeprefix(ECL)
        return meant_by(text if UNENCODED.search(text) else unquote(text), url, versions)
    raise invalid("the value set %.100r isn't of the form %s?fhir_vs=isa/CODE, refset/CODE or "
                  "ecl/EXPRESSION" % (url, SCT))


def meant_by(text: str, url: str, versions: tuple[str, ...]) -> ValueSet:
    return ValueSet(url, versions, Sort.EXPRESSION, expression=parse(text))


def parted(address: str) -> tuple[str, str, tuple[str, ...]]:
    """The address of something of SNOMED CT without the version behind it, what it asks for, and
    the versions that it names. Any other address asks for nothing."""
    canonical = CANONICAL.match(address)
    url, *named = canonical.groups() if canonical else (address,)
    base, _, what = url.partition("?")
    is_of_snomed = base == SCT or base.startswith(SCT + "/")
    return url, what if is_of_snomed else "", (base, *named)


def composed(resource: Any, sent: Sent) -> ValueSet:
    compose = resource.get("compose") if isinstance(resource, dict) else None
    if not isinstance(compose, dict) or resource.get("resourceType") != "ValueSet":
        raise invalid("valueSet has to be a resource ValueSet with compose")
    if "lockedDate" in compose:
        raise not_supported("lockedDate isn't read: give the date beside the value set")
    included, excluded = (
        tuple(parts_of(one, sent) for one in entries(compose, name))
        for name in ("include", "exclude"))
    parts = [part for some in (*included, *excluded) for part in some]
    sent.parts -= len(parts)
    if not included or sent.parts < 0:
        raise invalid("valueSet has to include 1 to %d parts" % limits.COMPOSED_PARTS)
    url = resource.get("url") if isinstance(resource.get("url"), str) else ""
    others = distinct(other for some in included for other in others_of(some))
    found = ValueSet(
        url, tuple(one for part in parts for one in part.versions), Sort.COMPOSED,
        included=included, excluded=excluded, active_only=compose.get("inactive") is False,
        others=tuple(others))
    # All of SNOMED CT, and what an expression means, are paged without being put together.
    if len(parts) == 1 and parts[0].sort in (Sort.ANY, Sort.EXPRESSION):
        found = found._replace(sort=parts[0].sort, expression=parts[0].expression)
    return found


def entries(of: Json, name: str) -> list[Json]:
    found = of.get(name, [])
    if not isinstance(found, list) or not all(isinstance(one, dict) for one in found):
        raise invalid("%s of valueSet isn't a list" % name)
    return found


def parts_of(one: Json, sent: Sent) -> tuple[ValueSet, ...]:
    """The value sets in all of which the codes of an `include` or `exclude` are."""
    urls, system, version = one.get("valueSet", []), one.get("system"), one.get("version")
    if not isinstance(urls, list) or not all(isinstance(url, str) for url in urls):
        raise invalid("valueSet of an include isn't a list of addresses")
    parts = [sent.value_set(url) for url in urls]
    if any(part.active_only for part in parts):
        # (Of other code systems it isn't known what is active.)
        parts.append(ValueSet("", (), Sort.EXPRESSION, expression=syntax.Wildcard(),
                              others=others_of(parts)))
    if system is None:
        if not parts or {"concept", "filter", "version"}.intersection(one):
            raise invalid("an include of valueSet has no system")
        return tuple(parts)
    if system != SCT:
        # (No code of SNOMED CT is in it.)
        return (*parts, ValueSet("", (), Sort.OF_OTHERS, others=(str(system),)))
    versions = () if version is None else (str(version),)
    # A code that isn't one is none of SNOMED CT.
    codes = [str(concept.get("code")) for concept in entries(one, "concept")]
    listed = tuple(filter(is_concept_id, distinct(codes)))
    own = joined([filter_of(each, versions) for each in entries(one, "filter")])
    if codes:
        own.append(ValueSet("", versions, Sort.LISTED, listed=listed))
    return (*parts, *(own or [ValueSet("", versions, Sort.ANY)]))


def others_of(parts: Sequence[ValueSet]) -> tuple[str, ...]:
    """The other code systems of which codes may be in all of these value sets."""
    first, *more = parts
    return tuple(one for one in first.others if all(one in part.others for part in more))


def filter_of(each: Json, versions: tuple[str, ...]) -> ValueSet:
    named, op, value = each.get("property"), each.get("op"), each.get("value")
    if not isinstance(named, str) or not isinstance(value, str):
        raise invalid("a filter has a property and a value")
    if (named, op) == (CONSTRAINT, IS):
        return meant_by(value, "", versions)
    if named == "concept" and op in FILTERS:
        return ValueSet("", versions, FILTERS[op], code_of(value))
    if is_concept_id(named) and op == IS:
        wanted = syntax.Attribute(
            syntax.SOME, False, syntax.ConceptReference(named), syntax.EQUAL,
            syntax.ConceptReference(code_of(value)))
        having = syntax.Refined(syntax.Wildcard(), wanted)
        return ValueSet("", versions, Sort.EXPRESSION, expression=having)
    raise not_supported(
        "of filters those of concept with %s are answered, and with = of %s and of attributes" % (
            ", ".join(FILTERS), CONSTRAINT))


def code_of(value: str) -> str:
    if not is_concept_id(value):
        raise invalid("the value of a filter has to be a concept's code")
    return value


def joined(filters: list[ValueSet]) -> list[ValueSet]:
    """The filters, as one expression where an expression is among several."""
    if len(filters) < 2 or not any(one.sort is Sort.EXPRESSION for one in filters):
        return filters
    parts = tuple(expression_of(one) for one in filters)
    whole = syntax.Compound(syntax.AND, parts)
    return [filters[0]._replace(sort=Sort.EXPRESSION, code="", expression=whole)]


def expression_of(value_set: ValueSet) -> syntax.Expression:
    if value_set.expression:
        return value_set.expression
    concept = syntax.ConceptReference(value_set.code)
    if value_set.sort is Sort.IN_REFSET:
        return syntax.MemberOf(concept)
    return syntax.Related(OPERATORS[value_set.sort], concept)


async def inside(request: Dated, value_set: ValueSet, codes: Collection[str]) -> set[str]:
    """Those of the concepts that are in the value set, which has to be there."""
    view, day, sort, asked = request.view, request.day, value_set.sort, list(codes)
    if sort in (Sort.WITHIN, Sort.BELOW):
        await request.must_have(value_set.code)
        within = await view.codes_within(asked, value_set.code, day)
        return within - {value_set.code} if sort is Sort.BELOW else within
    if sort is Sort.IN_REFSET:
        found = await refsets.those_in(view, value_set.code, asked, day)
        if not found:
            await must_be_kept(request, value_set.code)
        return found
    if sort is Sort.ARE_REFSETS:
        found = await refsets.which_of(view, asked, day)
        if not found and not await view.has_members():
            raise no_refsets()
        return found
    if sort is Sort.COMPOSED:
        found = set()
        for parts in value_set.included:
            found |= await inside_all(request, parts, asked)
        return await without_excluded(request, value_set, found)
    if value_set.expression:
        await must_keep_all(request, value_set.expression)
        return await ecl.those_in(view, day, value_set.expression, asked)
    if sort is Sort.ANY:
        return set(asked)
    if sort is Sort.OF_OTHERS:
        return set()
    return set(asked).intersection(await codes_in(request, value_set))


async def inside_all(request: Dated, parts: Sequence[ValueSet], codes: Collection[str]) -> set[str]:
    found = set(codes)
    for part in parts:
        found = await inside(request, part, found)
    return found


async def without_excluded(request: Dated, value_set: ValueSet, found: set[str]) -> set[str]:
    for parts in value_set.excluded:
        found -= await inside_all(request, parts, found)
    return found


async def codes_in(request: Dated, value_set: ValueSet) -> Sequence[str]:
    """The codes of a value set. Some may not be there on that day."""
    view, day, sort, code = request.view, request.day, value_set.sort, value_set.code
    if sort in (Sort.LISTED, Sort.OF_OTHERS):
        return value_set.listed
    if sort is Sort.IN_REFSET:
        return await refset_codes(request, code)
    if value_set.expression:
        return await expression_codes(request, value_set.expression)
    if sort is Sort.ARE_REFSETS:
        if not (there := await refsets.with_members(view, day)):
            raise no_refsets()
        return there
    if sort is Sort.COMPOSED:
        found = set[str]()
        for parts in value_set.included:
            # The codes of a part that has the fewest, as a rule, that are in the others.
            first, *others = sorted(parts, key=lambda part: part.sort)
            codes = await codes_in(request, first)
            found |= await inside_all(request, others, codes)
        return sorted(await without_excluded(request, value_set, found), key=int)
    if sort is Sort.ANY:
        raise too_costly("all of SNOMED CT is listed page by page, and not as a part of a set")
    await request.must_have(code)
    if sort is Sort.ABOVE:
        return [code, *(await view.ancestors([code], day))[0]]
    within = [member.code for member in await view.subtree(code, day)]
    return [one for one in within if one != code] if sort is Sort.BELOW else within


async def refset_codes(request: Dated, refset: str) -> Sequence[str]:
    codes = await refsets.codes_of(request.view, refset, request.day)
    if not codes:
        await must_be_kept(request, refset)
    return codes


async def must_be_kept(request: Dated, refset: str) -> None:
    """Refuses a reference set without a member of any day, which isn't known to be empty."""
    if not await refsets.was_kept(request.view, refset):
        await request.must_have(refset)
        raise not_supported("the store has no members of the reference set %s" % refset)


async def expression_codes(request: Dated, expression: syntax.Expression) -> Sequence[str]:
    await must_keep_all(request, expression)
    return await ecl.codes_of(request.view, request.day, expression)


async def must_keep_all(request: Dated, expression: syntax.Expression) -> None:
    """Refuses an expression that names a reference set of which the store has no member."""
    for refset in distinct(syntax.named_refsets(expression)):
        await must_be_kept(request, refset)


def no_refsets() -> Problem:
    return not_supported(
        "the store has no reference set with members on that day below %s" % REFERENCE_SET)
