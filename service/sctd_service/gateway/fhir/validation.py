"""CodeSystem/$validate-code and ValueSet/$validate-code: whether a code, and its display, were
right on the day of a record."""

from ..problems import Json
from ...snomed import is_concept_id, is_display
from .inputs import SCT, CodeNames, Coding, not_here
from .outputs import dated, parameter, parameters
from .versions import Dated, OperationRequest
from .valuesets import Sort, ValueSet, inside, versions_of, wanted_value_set

# What a code isn't that is outside a value set.
OUTSIDE = {Sort.WITHIN: "%s and isn't below it", Sort.IN_REFSET: "in the reference set %s",
           Sort.ARE_REFSETS: "a reference set with members%s",
           Sort.EXPRESSION: "what the expression means%s", Sort.COMPOSED: "in the value set%s"}
# With these of HL7's own validator a wrong display is told, and the code is valid all the same.
LENIENT = ("lenient-display-validation", "valueset-membership-only")


async def validate_code(request: OperationRequest) -> Json:
    request.query.code_system("url")
    return await validated(request, CodeNames(system="url"), None)


async def validate_member(request: OperationRequest) -> Json:
    value_set = wanted_value_set(request.query)
    return await validated(request, CodeNames(version="systemVersion"), value_set)


async def validated(request: OperationRequest, names: CodeNames,
                    value_set: ValueSet | None) -> Json:
    """The answer for the first code that is valid, or else for the last of SNOMED CT. Of a code of
    another code system that the value set has too nothing is known."""
    query = request.query
    versions = [query.text(names.version), *versions_of(query, value_set)]
    answer = parameters([parameter("result", valueBoolean=False),
                         parameter("message", valueString="no code is one of %s" % SCT)])
    codings = query.codings(names)
    for coding in codings:
        # The version of another code system's coding is none of SNOMED CT.
        is_own = coding.system == SCT
        asked = request.at(coding.version if is_own else None, *versions)
        if not is_own:
            continue
        wrong, parts = await checked(asked, coding, value_set)
        message = [parameter("message", valueString=wrong)] if wrong else []
        answer = parameters([parameter("result", valueBoolean=not wrong), *parts, *message])
        if not wrong:
            return answer
    others = value_set.others if value_set else ()
    unknown = next((coding.system for coding in codings if coding.system in others), None)
    if unknown is not None:
        raise not_here(unknown)
    return answer


async def checked(request: Dated, coding: Coding,
                  value_set: ValueSet | None) -> tuple[str, list[Json]]:
    """What is wrong with a code, or nothing, and what there is to say of it."""
    is_lenient = any([request.query.flag(name) for name in LENIENT])
    active_only = request.query.flag("activeOnly") or value_set and value_set.active_only
    parts = [parameter("code", valueCode=coding.code), parameter("system", valueUri=SCT),
             *dated(request.moment)]
    codes = [coding.code] if is_concept_id(coding.code) else []
    among = await inside(request, value_set, codes) if value_set else set(codes)
    language = request.language()
    facts = await request.view.facts(coding.code, request.day, language)
    if facts is None:
        return "the code %.60r isn't in %s" % (coding.code, request.moment.version), parts
    wanted = {one.code for one in language.each}
    terms = [row for row in facts.descriptions if wanted.intersection(("", row.language))]
    parts += [parameter("display", valueString=facts.display(language)),
              parameter("inactive", valueBoolean=not facts.concept.is_active)]
    if value_set and coding.code not in among:
        return "the code isn't %s on that day" % (OUTSIDE[value_set.sort] % value_set.code), parts
    if active_only and not facts.concept.is_active:
        return "the code was inactive on that day, and active ones alone are meant", parts
    if not coding.display or is_display(coding.display, terms):
        return "", parts
    said = "%.100r isn't a term of the code on that day" % coding.display
    return ("", [*parts, parameter("message", valueString=said)]) if is_lenient else (said, parts)
