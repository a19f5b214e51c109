"""Which parameters each operation takes, and what becomes of the others.

Those of FHIR that can't change an answer of this gateway are passed over, and its answer says so.
Where a client sends `Prefer: handling=strict`, or the gateway was started with `--strict`, they are
refused as all others are.
"""

from collections.abc import Sequence
from typing import NamedTuple

from ..problems import Json, outcome_of

# How an operation takes a parameter of R4: it does what that says, it passes over it, or it refuses
# it. `own` and `also` are the first two of a parameter that R4 doesn't have there, and where there
# is a dot the operation doesn't know it.
HAS, OVER, REFUSED, OWN, ALSO, UNKNOWN = "has", "over", "no", "own", "also", "."
OPERATIONS = (
    "CodeSystem/$lookup", "CodeSystem/$validate-code", "CodeSystem/$subsumes", "ValueSet/$expand",
    "ValueSet/$validate-code", "ConceptMap/$translate")
TABLE = """
parameter                               $lookup $validate $subsumes $expand $validate $translate
code,coding                             has     has       .         .       has       has
system                                  has     .         has       .       has       has
version                                 has     has       has       .       .         has
codeableConcept                         .       has       .         .       has       has
display                                 .       has       .         .       has       .
abstract                                .       over      .         .       over      .
codeA,codeB,codingA,codingB             .       .         has       .       .         .
date                                    has     has       own       has     has       own
displayLanguage                         has     has       .         has     has       .
property                                has     .         .         .       .         .
url                                     .       has       .         has     has       has
codeSystem                              .       no        .         .       .         .
valueSet,valueSetVersion                .       .         .         has     has       .
context                                 .       .         .         no      no        .
systemVersion                           .       .         .         .       has       .
system-version,check-system-version     .       own       .         has     own       .
force-system-version                    .       own       .         has     own       .
filter,exclude-system,designation       .       .         .         has     .         .
offset,count                            .       also      .         has     also      .
activeOnly                              .       own       .         has     own       .
excludeNested,includeDesignations       .       also      .         has     also      .
contextDirection                        .       .         .         over    .         .
includeDefinition                       .       also      .         over    also      .
excludeNotForUI,excludePostCoordinated  .       also      .         over    also      .
inferSystem,valueset-membership-only    .       .         .         .       own       .
lenient-display-validation              .       own       .         .       own       .
language                                own     .         .         .       .         .
conceptMap                              .       .         .         .       .         no
conceptMapVersion,reverse               .       .         .         .       .         has
source,target,targetsystem              .       .         .         .       .         has
dependency                              .       .         .         .       .         over
profile,profile-url,diagnostics         .       also      .         also    also      .
default-to-latest-version,incomplete-ok .       also      .         also    also      .
tx-resource                             also    also      also      own     own       also
cache-id                                also    also      also      also    also      also
_summary,_elements,_count               also    also      also      also    also      also
"""
# Each row of it: what becomes of a parameter, by the operations.
ROWS = {
    name: dict(zip(OPERATIONS, ways))
    for names, *ways in (line.split() for line in TABLE.splitlines()[2:])
    for name in names.split(",")}
# What a client asks of the form of any answer, which may be left out.
GENERAL = frozenset(["_summary", "_elements", "_count"])


class Ways(NamedTuple):
    """The parameters that are taken, and those that are passed over."""

    taken: frozenset[str]
    passed: frozenset[str] = GENERAL


def ways_of(operation: str) -> Ways:
    def having(*ways: str) -> frozenset[str]:
        return frozenset(name for name, row in ROWS.items() if row[operation] in ways)

    return Ways(having(HAS, OWN), having(OVER, ALSO))


def said_in(resource: Json) -> list[Json]:
    """What is said beside an answer, in a list of its own if its kind has a place for that."""
    if resource["resourceType"] == "ValueSet" and "expansion" in resource:
        resource = resource["expansion"]
    found: list[Json] = resource.get("parameter", [])
    return found


def with_warnings(resource: Json, texts: Sequence[str]) -> Json:
    """The answer, with what was passed over if its kind has a place for that."""
    place = said_in(resource)
    place += [{"name": "warning", "valueString": text} for text in texts]
    if resource["resourceType"] == "Bundle" and texts:
        warned = outcome_of("warning", "not-supported", texts)
        resource.setdefault("entry", []).append({"resource": warned, "search": {"mode": "outcome"}})
    return resource
