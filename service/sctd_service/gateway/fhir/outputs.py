"""The pieces of FHIR's JSON that answers are made of."""

import asyncio
import json
import re
import secrets
from collections.abc import Iterable, Mapping
from typing import Any

from .. import limits
from ..problems import Json
from ...snomed import (
    ACCEPTABLE, FULLY_SPECIFIED_NAME, PREFERRED, SYNONYM, TEXT_DEFINITION, Called, Description,
    with_hyphens)
from .inputs import SCT
from .versions import Moment

USES = {FULLY_SPECIFIED_NAME: "Fully specified name", SYNONYM: "Synonym",
        TEXT_DEFINITION: "Definition"}
ROLES = {PREFERRED: "Preferred", ACCEPTABLE: "Acceptable"}
# How SNOMED International says for FHIR in which language a designation is what.
CONTEXT = "http://snomed.info/fhir/StructureDefinition/designation-use-context"
# The parameter of an answer that says for which day it was asked.
ASKED = "sctd-date"
# FHIR's integer has 32 bits.
INTEGER = re.compile(r"#-?(0|[1-9][0-9]{0,8})\Z", re.ASCII)
DECIMAL = re.compile(r"#-?(0|[1-9][0-9]{0,30})(\.[0-9]{1,30})?\Z", re.ASCII)
# Stands before a number that has to be written with the digits that the release has. No text of a
# store or of a client can have it, since it is drawn anew by each process.
WITH_ITS_DIGITS = secrets.token_hex(16)
QUOTED_DIGITS = re.compile('"%s([^"]+)"' % WITH_ITS_DIGITS)
ENCODER = json.JSONEncoder(ensure_ascii=False, separators=(",", ":"))


def dumped(resource: Json) -> bytes:
    return text_of(resource).encode()


def text_of(value: Any) -> str:
    text = ENCODER.encode(value)
    return QUOTED_DIGITS.sub(r"\1", text) if WITH_ITS_DIGITS in text else text


async def written(resource: Json) -> bytes:
    """The same. Other requests have their turn between the parts of its long lists."""
    return (await text_in_parts(resource)).encode()


async def text_in_parts(value: Any) -> str:
    if isinstance(value, dict):
        pairs = ["%s:%s" % (text_of(key), await text_in_parts(value[key])) for key in value]
        return "{%s}" % ",".join(pairs)
    if not isinstance(value, list) or len(value) <= limits.SLICE_CONCEPTS:
        return text_of(value)
    parts = []
    for start in range(0, len(value), limits.SLICE_CONCEPTS):
        parts.append(text_of(value[start : start + limits.SLICE_CONCEPTS])[1:-1])
        await asyncio.sleep(0)
    return "[%s]" % ",".join(parts)


def parameter(name: str, **value: Any) -> Json:
    return {"name": name, **value}


def dated(moment: Moment) -> list[Json]:
    """The version that an answer is of, and the day that was asked for beside it."""
    asked = [parameter(ASKED, valueDate=with_hyphens(moment.asked))] if moment.asked else []
    return [parameter("version", valueString=moment.version), *asked]


def parameters(parts: Iterable[Json]) -> Json:
    return {"resourceType": "Parameters", "parameter": list(parts)}


def concrete(value: str) -> Json:
    """`#5`, `#0.50` or `"tablet"` as FHIR has it. A number keeps its digits."""
    if INTEGER.match(value):
        return {"valueInteger": int(value[1:])}
    if DECIMAL.match(value):
        return {"valueDecimal": WITH_ITS_DIGITS + value[1:]}
    is_quoted = len(value) > 2 and value[0] == value[-1] == '"'
    return {"valueString": value[1:-1] if is_quoted else value}


def designations(descriptions: Iterable[Description], called: Mapping[str,
                 Iterable[Called]]) -> list[Json]:
    """The terms, each with what the language reference sets say of it."""
    contexts: dict[str, list[Json]] = {}
    for refset, found in called.items():
        for description, said in found:
            roles = [role for role in ROLES if role in said]
            contexts.setdefault(description.id, []).extend(
                context(refset, role, description.type) for role in roles)
    return [designation(row, contexts.get(row.id, [])) for row in descriptions]


def designation(row: Description, contexts: list[Json]) -> Json:
    said = {"extension": contexts} if contexts else {}
    return {**said, "language": row.language, "use": use_of(row.type), "value": row.term}


def context(refset: str, role: str, kind: str) -> Json:
    parts = {"context": {"system": SCT, "code": refset},
             "role": {"system": SCT, "code": role, "display": ROLES[role]}, "type": use_of(kind)}
    return {"url": CONTEXT,
            "extension": [{"url": name, "valueCoding": one} for name, one in parts.items()]}


def use_of(code: str) -> Json:
    return {"system": SCT, "code": code, "display": USES.get(code, code)}
