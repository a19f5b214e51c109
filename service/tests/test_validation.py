"""$validate-code of the code system and of value sets, and $subsumes."""

from typing import Any

import pytest
from sctd_service.gateway import limits

from .asked import Asked
from .fixtures import SCT, Json, issue, told, version


class TestValidate(Asked):
    def code(self, code: str, **words: Any) -> Json:
        code = self.codes.get(code, code)
        status, said = self.gateway.fhir("CodeSystem/$validate-code", url=SCT, code=code, **words)
        assert status == 200, said
        return said

    def member(self, top: str, code: str, **words: Any) -> Json:
        url = "%s?fhir_vs=isa/%s" % (SCT, self.codes[top])
        return self.gateway.fhir(
            "ValueSet/$validate-code", url=url, system=SCT, code=self.codes[code], **words)[1]

    def concept(self, *codings: Json) -> tuple[int, Json]:
        return self.gateway.posted(
            "CodeSystem/$validate-code", {"name": "url", "valueUri": SCT},
            {"name": "codeableConcept", "valueCodeableConcept": {"coding": list(codings)}})

    def test_code(self) -> None:
        said = self.code("wrist")
        assert (told(said, "result"), told(said, "inactive")) == ([True], [True])
        assert told(self.code("1105008"), "result") == [False]
        assert told(self.code("radius", date="2020-07-30"), "result") == [False]

    @pytest.mark.parametrize("day, valid", (("20170101", True), ("20180101", False)))
    def test_display_then_and_now(self, day: str, valid: bool) -> None:
        said = self.code("wrist", display="Broken wrist", version=version(day))
        assert told(said, "result") == [valid], day

    def test_display_ignores_case_where_the_term_does(self) -> None:
        assert told(self.code("wrist", display="WRIST fracture"), "result") == [True]

    @pytest.mark.parametrize("language, valid", (("de", True), ("en", False)))
    def test_display_of_a_language(self, language: str, valid: bool) -> None:
        said = self.code("wrist", display="Handgelenksfraktur", displayLanguage=language)
        assert told(said, "result") == [valid], language

    def test_display_without_a_code(self) -> None:
        status, _ = self.gateway.fhir("CodeSystem/$validate-code", url=SCT, display="x")
        assert status == 400

    def test_concept_with_several_codings(self) -> None:
        limb, unknown = {"system": SCT, "code": self.codes["limb"]}, {"system": SCT, "code": "999"}
        other = {"system": "http://hl7.org/fhir/sid/icd-10", "code": "S52"}
        for codings, valid in (
                ((unknown, limb), True), ((limb, unknown), True), ((other, limb), True),
                ((limb, other), True), ((other,), False), ((unknown, other), False)):
            status, said = self.concept(*codings)
            assert (status, told(said, "result")) == (200, [valid]), codings

    def test_concept_with_a_version_of_another_code_system(self) -> None:
        limb = {"system": SCT, "code": self.codes["limb"]}
        other = {"system": "http://hl7.org/fhir/sid/icd-10", "code": "S52", "version": "2019"}
        for codings, valid in (((other, limb), True), ((limb, other), True), ((other,), False)):
            status, said = self.concept(*codings)
            assert (status, told(said, "result")) == (200, [valid]), codings

    def test_concept_without_codings(self) -> None:
        assert self.concept()[0] == 400

    def test_concept_with_many_codings(self) -> None:
        unknown = {"system": SCT, "code": "999"}
        for count, status in ((limits.CODINGS, 200), (limits.CODINGS + 1, 400)):
            assert self.concept(*[unknown] * count)[0] == status, count

    def test_other_code_system(self) -> None:
        status, _ = self.gateway.fhir(
            "CodeSystem/$validate-code", url="http://loinc.org", code="1-8")
        assert status == 404

    @pytest.mark.parametrize("day, valid", (
        ("20190130", False), ("20190131", True), ("20210130", True), ("20210131", False)))
    def test_member_by_date(self, day: str, valid: bool) -> None:
        said = self.member("limb", "wrist", systemVersion=version(day))
        assert told(said, "result") == [valid], day

    def test_member_of_another_code_system(self) -> None:
        """It isn't in the value set, however it is named."""
        path, url = "ValueSet/$validate-code", "%s?fhir_vs=isa/%s" % (SCT, self.codes["limb"])
        other = {"system": "http://hl7.org/fhir/sid/icd-10", "code": "S52"}
        parts = {"name": "url", "valueUri": url}, {"name": "coding", "valueCoding": other}
        for status, said in (self.gateway.fhir(path, url=url, **other),
                             self.gateway.posted(path, *parts)):
            assert (status, told(said, "result")) == (200, [False]), said
            assert told(said, "message") == ["no code is one of " + SCT]

    def test_member_of_the_reference_sets(self) -> None:
        """Of which this store has none."""
        for what in ("=refset", "=refset/" + self.codes["limb"]):
            status, said = self.gateway.fhir("ValueSet/$validate-code", url=SCT + "?fhir_vs" + what,
                                             system=SCT, code=self.codes["wrist"])
            assert (status, issue(said)) == (422, "not-supported"), what

    def test_member_of_its_own(self) -> None:
        assert told(self.member("limb", "limb"), "result") == [True]

    def test_member_of_what_is_not_there(self) -> None:
        said = self.member("radius", "wrist", systemVersion=version("20190131"))
        assert said["resourceType"] == "OperationOutcome"

    def test_member_of_the_version_of_the_value_set(self) -> None:
        url = "%s?fhir_vs=isa/%s" % (version("20190131"), self.codes["limb"])
        said = self.gateway.fhir(
            "ValueSet/$validate-code", url=url, system=SCT, code=self.codes["wrist"])[1]
        assert (told(said, "result"), told(said, "version")) == ([True], [version("20190131")])


class TestSubsumes(Asked):
    def outcome(self, first: str, second: str, **words: Any) -> list[str]:
        said = self.gateway.fhir("CodeSystem/$subsumes", system=SCT, codeA=self.codes[first],
                                 codeB=self.codes[second], **words)[1]
        return told(said, "outcome")

    @pytest.mark.parametrize("first, second, outcome", (
        ("finding", "radius2", "subsumes"), ("radius2", "finding", "subsumed-by"),
        ("drug", "wrist", "not-subsumed"), ("wrist", "wrist", "equivalent")))
    def test_outcomes(self, first: str, second: str, outcome: str) -> None:
        assert self.outcome(first, second) == [outcome]

    @pytest.mark.parametrize("day, outcome", (
        ("20190130", "not-subsumed"), ("20190131", "subsumes")))
    def test_by_date(self, day: str, outcome: str) -> None:
        assert self.outcome("limb", "wrist", version=version(day)) == [outcome]

    def test_unknown(self) -> None:
        status, _ = self.gateway.fhir(
            "CodeSystem/$subsumes", system=SCT, codeA="1", codeB="138875005")
        assert status == 404

    @pytest.mark.parametrize("prefer", ("", "handling=strict"))
    def test_date(self, prefer: str) -> None:
        """FHIR has none here, and a record has one."""
        for date, outcome, release in (("2019-01-30", "not-subsumed", "20180731"),
                                       ("2019-01-31", "subsumes", "20190131"),
                                       ("2030-01-01", "not-subsumed", "20220731")):
            target = "/fhir/CodeSystem/$subsumes?system=%s&codeA=%s&codeB=%s&date=%s" % (
                SCT, self.codes["limb"], self.codes["wrist"], date)
            said = self.gateway.send("GET", target, headers={"Prefer": prefer}).json()
            assert told(said, "outcome") == [outcome], date
            assert (told(said, "version"), told(said, "sctd-date")) == ([version(release)], [date])

    def test_codings_of_different_dates(self) -> None:
        coding = {"system": SCT, "code": "138875005"}
        codings = [{"name": name, "valueCoding": {**coding, "version": version(day)}}
                   for name, day in (("codingA", "20180101"), ("codingB", "20190101"))]
        assert self.gateway.posted("CodeSystem/$subsumes", *codings)[0] == 400
