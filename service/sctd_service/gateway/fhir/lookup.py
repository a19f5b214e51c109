"""CodeSystem/$lookup: what a code means on a day."""

from collections.abc import Iterable, Iterator, Mapping
from typing import Any

from ..problems import Json
from ...snomed import DEFINED, IS_A, Facts, is_concept_id
from .inputs import CodeNames
from .outputs import concrete, dated, designations, parameter, parameters
from .versions import OperationRequest

ALL, CHILD, DESIGNATION = "*", "child", "designation"
INACTIVATION, NORMAL_FORM, TERSE = "inactivationIndicator", "normalForm", "normalFormTerse"
# Those that have a name. An attribute is the property of its code, and ROLE_GROUP has the
# attributes of one group as its parts.
PROPERTIES = ("inactive", "sufficientlyDefined", "moduleId", "effectiveTime", INACTIVATION,
              "parent", CHILD, NORMAL_FORM, TERSE)
ROLE_GROUP, NO_GROUP = "609096000", "0"
# What else R4 calls properties, some of which each answer has.
ALWAYS = (ALL, DESIGNATION, "url", "name", "version", "display", "code", "system")
# A property, with its value as FHIR has it.
Property = tuple[str, dict[str, Any]]


async def lookup(request: OperationRequest) -> Json:
    query = request.query
    coding = query.coding(CodeNames())
    asked = request.at(coding.version, query.text("version"))
    language, wanted = request.language(), set(query.all("property"))
    for name in sorted(wanted.difference(PROPERTIES, ALWAYS)):
        if not is_concept_id(name):
            query.pass_over("no concept has the property %.60r here" % name)
    facts = await asked.facts(coding.code, language, is_wanted(INACTIVATION, wanted))
    has_children = wanted & {CHILD, ALL}
    children = await request.view.children(coding.code, asked.day) if has_children else []
    parts = [
        parameter("name", valueString="SNOMED CT"), *dated(asked.moment),
        parameter("display", valueString=facts.display(language))]
    if is_wanted(DESIGNATION, wanted):
        found = designations(facts.descriptions, facts.called)
        parts += [designation_parts(one) for one in found]
    said = properties(facts, children, wanted)
    groups = groups_of(facts) if wanted & {ROLE_GROUP, ALL} else []
    coded = sum(groups, said) if wanted else []
    codes = [value["valueCode"] for _, value in coded if "valueCode" in value]
    if NORMAL_FORM in wanted and facts.parents:
        codes += [code for row in facts.relationships for code in (row.type, row.target)]
        codes += [row.type for row in facts.values]
    names = await request.view.names(codes, asked.day, language)
    if NORMAL_FORM in wanted and facts.parents:
        said.append((NORMAL_FORM, {"valueString": normal_form(facts, names)}))
    parts += [parameter("property", part=property_parts(*one, names)) for one in said]
    for group in groups:
        own = [parameter("subproperty", part=property_parts(*one, names)) for one in group]
        named = parameter("code", valueCode=ROLE_GROUP)
        parts.append(parameter("property", part=[named, *own]))
    return parameters(parts)


def is_wanted(name: str, wanted: set[str]) -> bool:
    """Whether a property is asked for; all are where none is named, but what costs a round trip."""
    return not wanted or ALL in wanted or name in wanted


def designation_parts(one: Json) -> Json:
    said = {"extension": one["extension"]} if "extension" in one else {}
    return parameter(DESIGNATION, **said, part=[
        parameter("language", valueCode=one["language"]),
        parameter("use", valueCoding=one["use"]), parameter("value", valueString=one["value"])])


def properties(facts: Facts, children: Iterable[str], wanted: set[str]) -> list[Property]:
    """The properties that are wanted, each with its value once."""
    found: list[Property] = [
        ("inactive", {"valueBoolean": not facts.concept.is_active}),
        ("sufficientlyDefined", {"valueBoolean": facts.concept.definition_status == DEFINED}),
        ("moduleId", {"valueCode": facts.concept.module}),
        ("effectiveTime", {"valueString": facts.concept.time})]
    found += [(INACTIVATION, {"valueCode": code}) for code in facts.reasons]
    found += [("parent", {"valueCode": code}) for code in facts.parents]
    found += [(CHILD, {"valueCode": code}) for code in children]
    found += attributes(facts)
    if TERSE in wanted and facts.parents:
        found.append((TERSE, {"valueString": normal_form(facts, {})}))
    return [one for one in once(found) if is_wanted(one[0], wanted)]


def attributes(facts: Facts, group: str | None = None) -> Iterator[Property]:
    """Those of a group, or of all."""
    for row in facts.relationships:
        if row.type != IS_A and group in (None, row.group):
            yield row.type, {"valueCode": row.target}
    for row in facts.values:
        if group in (None, row.group):
            yield row.type, concrete(row.target)


def groups_of(facts: Facts) -> list[list[Property]]:
    numbers = {row.group for row in facts.attributes} - {NO_GROUP}
    return [once(attributes(facts, number)) for number in sorted(numbers, key=int)]


def once(found: Iterable[Property]) -> list[Property]:
    return [*{(code, str(value)): (code, value) for code, value in found}.values()]


def property_parts(code: str, value: dict[str, Any], names: Mapping[str, str]) -> list[Json]:
    """A property with its value and, where that is a code, its name if that is known."""
    known = value.get("valueCode", "")
    name = names.get(known, known)
    described = [parameter("description", valueString=name)] if name != known else []
    return [parameter("code", valueCode=code), parameter("value", **value), *described]


def normal_form(facts: Facts, names: Mapping[str, str]) -> str:
    """The concept's inferred definition as an expression with these terms, its groups apart."""
    def term(code: str) -> str:
        name = names.get(code, code)
        return "%s|%s|" % (code, name) if name != code and "|" not in name else code

    groups: dict[int, list[str]] = {}
    for row in sorted(facts.attributes, key=lambda row: (int(row.type), row.target)):
        one = "%s=%s" % (term(row.type), term(row.target))
        groups.setdefault(int(row.group), []).append(one)
    ungrouped = groups.pop(0, [])
    refinements = ungrouped + ["{%s}" % ",".join(groups[group]) for group in sorted(groups)]
    kind = "===" if facts.concept.definition_status == DEFINED else "<<<"
    focus = "%s %s" % (kind, "+".join(map(term, facts.parents)))
    return "%s:%s" % (focus, ",".join(refinements)) if refinements else focus
