"""The table of FHIR's parameters: what each operation takes, passes over and refuses."""

import json
from collections.abc import Iterator
from pathlib import Path
from typing import Any

import pytest
from sctd_service.gateway.fhir import parameters

from .asked import Asked
from .fixtures import FHIR_JSON, SCT, Json, issue, told, version

# As FHIR R4 has them.
R4 = {
    "CodeSystem/$lookup": "code system version coding date displayLanguage property",
    "CodeSystem/$validate-code": (
        "url codeSystem code version display coding codeableConcept date abstract displayLanguage"
    ),
    "CodeSystem/$subsumes": "codeA codeB system version codingA codingB",
    "ValueSet/$expand": (
        "url valueSet valueSetVersion context contextDirection filter date offset count "
        "includeDesignations designation includeDefinition activeOnly excludeNested "
        "excludeNotForUI excludePostCoordinated displayLanguage exclude-system system-version "
        "check-system-version force-system-version"
    ),
    "ValueSet/$validate-code": (
        "url context valueSet valueSetVersion code system systemVersion display coding "
        "codeableConcept date abstract displayLanguage"
    ),
    "ConceptMap/$translate": (
        "url conceptMap conceptMapVersion code system version source coding codeableConcept target "
        "targetsystem dependency reverse"
    ),
}
# How many of them have to be taken or passed over.
AT_LEAST = 60
LATEST = version("20220731")
EVERY = SCT + "?fhir_vs"
CODING = {"system": SCT, "code": "138875005"}
WITH_VERSION = SCT + "|" + LATEST
DEFINED = {"resourceType": "ValueSet", "compose": {"include": [{"system": SCT}]}}
# A value of each parameter, whose other words are `1`.
VALUES: dict[str, Any] = {
    "code": "138875005",
    "codeA": "138875005",
    "codeB": "138875005",
    "system": SCT,
    "version": LATEST,
    "valueSetVersion": LATEST,
    "systemVersion": LATEST,
    "conceptMapVersion": LATEST,
    "coding": CODING,
    "codingA": CODING,
    "codingB": CODING,
    "codeableConcept": {"coding": [CODING]},
    "display": "SNOMED CT Concept (SNOMED RT+CTV3)",
    "date": "2022-07-31",
    "displayLanguage": "en",
    "property": "inactive",
    "url": EVERY,
    "valueSet": DEFINED,
    "tx-resource": {**DEFINED, "url": "http://example.org/all"},
    "designation": "urn:ietf:bcp:47|en",
    "exclude-system": "http://loinc.org",
    "system-version": WITH_VERSION,
    "check-system-version": WITH_VERSION,
    "force-system-version": WITH_VERSION,
    "filter": "snomed",
    "source": EVERY,
    "target": EVERY,
    "targetsystem": SCT,
    "language": "en",
    **dict.fromkeys(
        "activeOnly includeDesignations excludeNested inferSystem reverse abstract "
        "lenient-display-validation valueset-membership-only".split(),
        "true",
    ),
}
# What an operation is asked beside, and what can't stand beside a parameter.
BASE = {
    "CodeSystem/$lookup": "code system",
    "CodeSystem/$validate-code": "url code",
    "CodeSystem/$subsumes": "system codeA codeB",
    "ValueSet/$expand": "url count",
    "ValueSet/$validate-code": "url system code",
    "ConceptMap/$translate": "system code"}
INSTEAD = {"coding": "code", "codeableConcept": "code", "codingA": "codeA", "codingB": "codeB",
           "valueSet": "url", "inferSystem": "system"}
URLS = {
    "CodeSystem/$validate-code": SCT, "ConceptMap/$translate": SCT + "?fhir_cm=900000000000527005"}
CELLS = [(operation, name, way) for name, row in parameters.ROWS.items()
         for operation, way in row.items()]
GUIDE = Path(__file__).resolve().parents[2] / "docs" / "FHIR.md"
# The columns of the guide's table, and the operation of a row for all of them.
WAYS = (parameters.HAS, parameters.OWN, parameters.OVER, parameters.ALSO, parameters.REFUSED)
EACH = "each"


def cells_of_the_guide() -> Iterator[tuple[str, str, str]]:
    """What the guide says of each parameter that an operation has; a row may be of several."""
    table = GUIDE.read_text("utf-8").partition("| Operation |")[2].partition("\n\n")[0]
    for line in table.splitlines()[2:]:
        first, *cells = (cell.replace("`", "").strip() for cell in line.strip("|").split("|"))
        operations = parameters.OPERATIONS if first == EACH else first.split(", ")
        for way, cell in zip(WAYS, cells, strict=True):
            for name in cell.split() if cell != "-" else ():
                yield from ((operation, name, way) for operation in operations)


class TestTable:
    def test_names_are_those_of_fhir(self) -> None:
        for operation, names in R4.items():
            ours = {name for name, row in parameters.ROWS.items()
                    if row[operation] in (parameters.HAS, parameters.OVER, parameters.REFUSED)}
            assert ours == set(names.split()), operation

    def test_each_row_has_its_columns(self) -> None:
        ways = {"has", "over", "no", "own", "also", "."}
        for name, row in parameters.ROWS.items():
            assert len(row) == len(parameters.OPERATIONS) and ways.issuperset(row.values()), name

    def test_so_many_are_taken_or_passed_over(self) -> None:
        ways = [parameters.ROWS[name][operation] for operation, names in R4.items()
                for name in names.split()]
        counts = {way: ways.count(way) for way in ("has", "over", "no")}
        assert counts == {"has": 59, "over": 7, "no": 4}
        assert counts["has"] + counts["over"] >= AT_LEAST

    def test_the_guide_has_the_table(self) -> None:
        ours = [(operation, name, way) for operation, name, way in CELLS
                if way != parameters.UNKNOWN]
        assert sorted(cells_of_the_guide()) == sorted(ours)


class TestRows(Asked):
    @pytest.mark.parametrize("operation, name, way", CELLS)
    def test_row(self, operation: str, name: str, way: str) -> None:
        names = dict.fromkeys(BASE[operation].split())
        names.pop(INSTEAD.get(name, ""), None)
        parts = [self.part(operation, one) for one in (*names, *([name] * (name not in names)))]
        status, said = self.posted(operation, parts, "")
        strictly = self.posted(operation, parts, "handling=strict")[0]
        if way in (parameters.HAS, parameters.OWN):
            assert (status, strictly) == (200, 200), said
            assert self.warnings(said) == []
        elif way in (parameters.OVER, parameters.ALSO):
            assert (status, strictly) == (200, 400), said
            assert [name in text for text in self.warnings(said)] == [True]
        else:
            assert (status, strictly, issue(said)) == (400, 400, "not-supported")

    def part(self, operation: str, name: str) -> Json:
        value = VALUES.get(name, "1")
        if name == "url":
            value = URLS.get(operation, value)
        if isinstance(value, dict):
            if "resourceType" in value:
                return {"name": name, "resource": value}
            kind = "valueCoding" if "code" in value else "valueCodeableConcept"
            return {"name": name, kind: value}
        return {"name": name, "valueString": value}

    def posted(self, operation: str, parts: list[Json], prefer: str) -> tuple[int, Json]:
        body = json.dumps({"resourceType": "Parameters", "parameter": parts}).encode()
        headers = {"Content-Type": FHIR_JSON, "Prefer": prefer}
        answer = self.gateway.send("POST", "/fhir/" + operation, body, headers)
        return answer.status, answer.json()

    def warnings(self, said: Json) -> list[str]:
        return told(said.get("expansion", said), "warning")
