"""ConceptMap/$translate, as far as it was said by a day: what took the place of a retired code, or
whose place a code took, and what a simple or extended map has for a code."""

from collections.abc import Sequence
from typing import NamedTuple

from ... import snomed
from ...snomed import SIMPLE_MAP, Language, is_concept_id
from ..problems import Json, Problem, conflict, not_found, not_supported
from .inputs import SCT, CodeNames, not_here
from .outputs import concrete, dated, parameter, parameters
from .versions import Dated, OperationRequest
from .valuesets import ValueSet, inside, must_be_kept, parted, value_set_of

# What a target means beside the code, as R4's ConceptMapEquivalence has it.
EQUAL, EQUIVALENT, INEXACT, RELATED = "equal", "equivalent", "inexact", "relatedto"
WIDER, NARROWER, DISJOINT, UNMATCHED = "wider", "narrower", "disjoint", "unmatched"
# What is meant the other way round.
REVERSED = {WIDER: NARROWER}


# What the association of each implicit concept map says of its target. R4 gives the first four, and
# doesn't name the others, which have the code that says as much as the definition of the reference
# set, and no more:
# - MOVED TO names the namespace that takes care of the concept from then on. That is no meaning of
#   a record, so no code is translated by it.
# - WAS A names a concept of which the code was a kind. (`subsumes` would say that it still is.)
# - SIMILAR TO says that the meanings overlap, and not in which way.
# - The last two leave it uncertain where the meanings part, as POSSIBLY EQUIVALENT TO does.
MAPS = {
    snomed.REPLACED_BY: EQUIVALENT, snomed.SAME_AS: EQUAL, snomed.POSSIBLY_EQUIVALENT_TO: INEXACT,
    snomed.ALTERNATIVE: INEXACT, snomed.MOVED_TO: DISJOINT, snomed.WAS_A: WIDER,
    snomed.SIMILAR_TO: RELATED, snomed.POSSIBLY_REPLACED_BY: INEXACT,
    snomed.PARTIALLY_EQUIVALENT_TO: INEXACT}
FORM, BARE = "fhir_cm=", "fhir_cm"
# Of a simple map the release says nothing but that code and target belong together.
OF_SIMPLE_MAPS = RELATED
# The map to ICD-10, and its code system where the house names no other.
ICD_10, ICD_10_SYSTEM = "447562003", "http://hl7.org/fhir/sid/icd-10"
# What the columns of a map's members are called that are its own, by how many there are.
TARGET, CORRELATION = "mapTarget", "correlationId"
SHAPES = {
    names.count(" ") + 1: names.split() for names in (
        TARGET,
        "mapGroup mapPriority mapRule mapAdvice mapTarget correlationId mapCategoryId")}
# What a member of an extended map says beside its target.
SAID = ("mapGroup", "mapPriority", "mapRule", "mapAdvice")
# How target and source are said to belong together.
CORRELATIONS = {
    "447557004": EQUAL, "447558009": NARROWER, "447559001": WIDER, "447560006": INEXACT,
    "447556008": UNMATCHED}


class Asked(NamedTuple):
    """A code that is to be translated, by maps of which version, the other way round or not, among
    which concepts the targets have to be, and of which code system, if one is named."""

    base: str
    refsets: Sequence[str]
    code: str
    is_reverse: bool
    target: ValueSet | None
    system: str | None

    def url(self, refset: str) -> str:
        return "%s?%s%s" % (self.base, FORM, refset)


async def translate(request: OperationRequest) -> Json:
    query = request.query
    versions, refset = map_of(query.text("url") or SCT + "?" + BARE)
    codings = [one for one in query.codings(CodeNames()) if one.system == SCT]
    if not codings:
        raise not_found("no code is one of %s" % SCT)
    if source := query.text("source"):
        value_set_of(source)  # (It is all of SNOMED CT, or a part of it.)
    system, target = targets_of(request)
    dated_request = request.at(
        codings[0].version, query.text("version"), query.text("conceptMapVersion"), *versions,
        *(target.versions if target else ()))
    asked = Asked(
        versions[0], refsets_for(request, refset, system), codings[0].code, query.flag("reverse"),
        target, system)
    if not MAPS.keys() >= set(asked.refsets):
        return await mapped(dated_request, asked)
    if system not in (None, SCT):
        raise not_here(str(system))
    await dated_request.must_have(asked.code)
    return await replaced(dated_request, asked)


def systems_of(request: OperationRequest) -> dict[str, str]:
    return {ICD_10: ICD_10_SYSTEM, **request.edition.maps}


def targets_of(request: OperationRequest) -> tuple[str | None, ValueSet | None]:
    """The code system and the value set to which targets have to belong. As Snowstorm has it, the
    value set of all codes of a system may be called as the system is."""
    system, target = map(request.query.text, ("targetsystem", "target"))
    if target is None:
        return system, None
    if target not in (SCT, *systems_of(request).values()):
        return system, value_set_of(target)
    if system not in (None, target):
        raise conflict("target and targetsystem are different code systems")
    return target, None


def refsets_for(request: OperationRequest, refset: str, system: str | None) -> Sequence[str]:
    """The map that is asked for, or all to a code system: the associations are to SNOMED CT."""
    if refset:
        return (refset,)
    if system in (None, SCT):
        return tuple(MAPS)
    found = [one for one, leads_to in systems_of(request).items() if leads_to == system]
    if not found:
        raise not_found("no map is said to lead to the code system %.100r" % system)
    return found


async def replaced(request: Dated, asked: Asked) -> Json:
    """What took the place of a code, or whose place it took, by historical associations."""
    view, day, code = request.view, request.day, asked.code
    ask = view.replaced_by if asked.is_reverse else view.associations
    rows = [row for row in (await ask([code], day))[0] if row.refset in asked.refsets]
    found = [(row.refset, row.source if asked.is_reverse else row.target) for row in rows]
    if asked.target:
        among = [other for _, other in found if is_concept_id(other)]
        inner = await inside(request, asked.target, among)
        found = [one for one in found if one[1] in inner]
    names = await view.names(
        [other for _, other in found], day, Language("", request.edition.languages))
    matches, version = [], request.moment.version
    for refset, other in sorted(found, key=lambda one: [*MAPS].index(one[0])):
        means = MAPS[refset]
        concept = {"system": SCT, "version": version, "code": other, "display": names[other]}
        means = REVERSED.get(means, means) if asked.is_reverse else means
        matches.append(match(asked.url(refset), means, concept))
    return translated(request, matches, why_not(asked, {refset for refset, _ in found}))


def why_not(asked: Asked, found: set[str]) -> str:
    """Why a code isn't translated by these maps, or nothing."""
    is_one = len(asked.refsets) == 1
    used = snomed.ASSOCIATIONS[asked.refsets[0]].upper() + " " if is_one else ""
    if not found:
        to = " to it" if asked.is_reverse else ""
        return "the code has no %sassociation%s on that day" % (used, to)
    if all(MAPS[refset] == DISJOINT for refset in found):
        return "MOVED TO names a namespace, which is no meaning of the code"
    return ""


async def mapped(request: Dated, asked: Asked) -> Json:
    """What simple and extended maps have for a code. The release doesn't say of which code system
    that is, so but for ICD-10 an answer says it only where the house has said it."""
    if asked.is_reverse or asked.target:
        raise not_supported("reverse and target are answered of historical associations alone")
    matches, told, kept = [], [], False
    members = None
    for refset in asked.refsets:
        system = await system_of_map(request, asked.url(refset), refset)
        if asked.system not in (None, system):
            raise not_found(
                "the code system %.100r isn't said to be that of the map" % asked.system)
        if members is None:
            await request.must_have(asked.code)
            members = (await request.view.members_about([asked.code], request.day))[0]
        of_map = [row.further for row in members if row.refset == refset]
        if not of_map and len(asked.refsets) == 1:
            await must_be_kept(request, refset)
        for row in rows_of_map(refset, of_map):
            kept = kept or bool(row[TARGET])
            told += [row["mapAdvice"]] if row.get("mapAdvice") else []
            matches += target_of(asked.url(refset), row, system)
    why = "" if kept else "the map has no target for the code on that day"
    return translated(request, matches, why, told)


async def system_of_map(request: Dated, url: str, refset: str) -> str | None:
    """The code system to which a map leads, if it is known."""
    system = systems_of(request).get(refset)
    if system is None and not await request.view.is_within(refset, SIMPLE_MAP, request.day):
        raise not_a_map(url)
    return system


def rows_of_map(refset: str, members: Sequence[Sequence[str]]) -> list[dict[str, str]]:
    """The members of a map by the names of their columns, each once, by group and priority."""
    if any(len(further) not in SHAPES for further in members):
        raise not_supported("the members of %s have other columns than a map" % refset)
    once = dict.fromkeys(tuple(further) for further in members)
    rows = [dict(zip(SHAPES[len(further)], further)) for further in once]
    return sorted(rows, key=lambda row: [int(row.get(name) or 0) for name in SAID[:2]])


def target_of(url: str, row: dict[str, str], system: str | None) -> list[Json]:
    """What a member of a map says: nothing if it has no target and no rule."""
    named = {"system": system} if system else {}
    concept = {**named, "code": row[TARGET]} if row[TARGET] else {}
    if not concept and CORRELATION not in row:
        return []
    means = CORRELATIONS.get(row.get(CORRELATION, ""), OF_SIMPLE_MAPS)
    said = [
        parameter(name, **concrete("#" + row[name] if row[name].isdecimal() else row[name]))
        for name in SAID if row.get(name)]
    return [match(url, means if concept else UNMATCHED, concept, said)]


def map_of(address: str) -> tuple[Sequence[str], str]:
    """What the address of a map names: its versions, and its reference set, which is nothing for
    all historical associations."""
    url, what, versions = parted(address)
    refset = what.removeprefix(FORM)
    if what != BARE and (refset == what or not is_concept_id(refset)):
        raise not_a_map(url)
    return versions, "" if what == BARE else refset


def not_a_map(url: str) -> Problem:
    return not_found("the map %.100r isn't known: %s?%s and a simple map, %s, or one of %s"
                     % (url, SCT, FORM, ICD_10, ", ".join(MAPS)))


def translated(request: Dated, matches: Sequence[Json], why: str,
               advice: Sequence[str] = ()) -> Json:
    texts = [why] if why else list(advice)
    message = [parameter("message", valueString="; ".join(texts))] if texts else []
    said = [parameter("result", valueBoolean=not why), *message]
    return parameters([*said, *dated(request.moment), *matches])


def match(url: str, equivalence: str, concept: Json, said: Sequence[Json] = ()) -> Json:
    target = [parameter("concept", valueCoding=concept)] if concept else []
    return parameter("match", part=[
        parameter("equivalence", valueCode=equivalence), *target,
        parameter("source", valueUri=url), *said])
