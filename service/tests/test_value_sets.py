"""ValueSet/$expand, and ConceptMap/$translate."""

from typing import Any
from urllib.parse import urlencode

import pytest

from .asked import Asked
from . import demo_releases as demo
from .fixtures import SCT, Json, issue, parts_of, told, version

# The days of the rows of the first two releases.
FIRST_DAYS = ("20150131", "20170731", "20180705", "20180720", "20180731", "20190131")
SECOND_DAYS = ("20200131", "20200731", "20210131")


class TestExpand(Asked):
    def ask(self, what: str, **words: Any) -> tuple[int, Json]:
        return self.gateway.fhir("ValueSet/$expand", url=SCT + "?fhir_vs" + what, **words)

    def expanded(self, what: str = "", **words: Any) -> tuple[list[str], Json]:
        status, said = self.ask(what, **words)
        assert status == 200, said
        expansion: Json = said["expansion"]
        return [one["code"] for one in expansion.get("contains", [])], expansion

    def isa(self, name: str) -> str:
        return "=isa/" + self.codes[name]

    def test_isa(self) -> None:
        found, said = self.expanded(self.isa("limb"))
        names = ("limb", "radius", "carpal", "radius2")
        assert found == sorted((self.codes[name] for name in names), key=int)
        assert said["total"] == 4
        inactive = [one["code"] for one in said["contains"] if one.get("inactive")]
        assert inactive == [self.codes["radius"]]

    def test_isa_in_the_version_of_the_url(self) -> None:
        url = "%s?fhir_vs=isa/%s" % (version("20190131"), self.codes["limb"])
        said = self.gateway.fhir("ValueSet/$expand", url=url)[1]["expansion"]
        assert {one["code"] for one in said["contains"]} == {
            self.codes["limb"], self.codes["wrist"]}
        assert {"name": "version", "valueUri": "%s|%s" % (SCT, version("20190131"))} in said[
            "parameter"]

    def test_system_version(self) -> None:
        found = self.expanded(self.isa("limb"), system_version=SCT + "|" + version("20180101"))[0]
        assert found == [self.codes["limb"]]
        for text in (version("20180101"), SCT + "|"):
            assert self.ask(self.isa("limb"), system_version=text)[0] == 400, text

    @pytest.mark.parametrize("name", ("system-version", "check-system-version"))
    def test_versions_of_other_code_systems(self, name: str) -> None:
        """They change no answer, which is told, or refused where the client wants that."""
        words = {"url": SCT + "?fhir_vs" + self.isa("limb"), name: "http://loinc.org|2.77"}
        found, said = self.expanded(self.isa("limb"), **{name: words[name]})
        assert found == self.expanded(self.isa("limb"))[0]
        assert ["http://loinc.org" in text for text in told(said, "warning")] == [True]
        target = "/fhir/ValueSet/$expand?" + urlencode(words)
        headers = {"Prefer": "handling=strict"}
        assert self.gateway.send("GET", target, headers=headers).status == 400

    def test_active_only_and_pages(self) -> None:
        whole = self.expanded(self.isa("limb"), activeOnly="true")[0]
        assert len(whole) == 3
        pages = [self.expanded(self.isa("limb"), activeOnly="true", offset=at, count=1)[0]
                 for at in range(4)]
        assert pages == [[one] for one in whole] + [[]]

    def test_sources_of_an_attribute(self) -> None:
        what = "=ecl/* : %s = %s" % (self.codes["site"], self.codes["bone"])
        assert self.expanded(what, date="2021-01-31")[0] == [self.codes["radius"]]

    def test_count_0(self) -> None:
        found, said = self.expanded(self.isa("limb"), count=0)
        assert (found, said["total"]) == ([], 4)

    def test_filter(self) -> None:
        found = self.expanded(self.isa("injury"), filter="FRACTURE of dista", activeOnly="true")[0]
        assert found == [self.codes["radius2"]]
        assert self.expanded(self.isa("drug"), filter="fracture")[0] == []
        assert self.expanded("", filter="fracture of wrist j")[0] == [self.codes["wrist"]]

    @pytest.mark.parametrize("text, date, names", (
        ("frac rad DIST", "2022-07-31", "radius2 radius"),
        ("radi\u0301us-fr\u00e0cture", "2021-06-01", "radius"),
        ("of of bone", "2022-07-31", "carpal limb bone"),
        ("wri", "2018-01-01", "wrist body vague"),
        ("500 mg", "2022-07-31", "drug"),
        ("fractured", "2022-07-31", ""),
        ("racture", "2022-07-31", "")))
    def test_words(self, text: str, date: str, names: str) -> None:
        """In any order, without case and marks: the shortest terms first, but active concepts
        before all others, each once."""
        found, said = self.expanded("", filter=text, date=date)
        assert found == [self.codes[name] for name in names.split()]
        assert said["total"] == len(found)
        pages = [self.expanded("", filter=text, date=date, offset=at, count=1) for at in range(4)]
        assert [page for page, _ in pages] == [found[at : at + 1] for at in range(4)]
        assert {one["total"] for _, one in pages} == {len(found)}

    def test_designations(self) -> None:
        said = self.expanded(
            "", filter="handgelenk", includeDesignations="true", displayLanguage="de")[1]
        one = said["contains"][0]
        assert one["display"] == "Handgelenksfraktur"
        assert {term["value"] for term in one["designation"]} == {
            "Handgelenksfraktur", "Wrist fracture", "Fracture of wrist joint region (disorder)"}

    def test_all(self) -> None:
        found, said = self.expanded("", count=5)
        assert (len(found), "total" in said) == (5, False)
        assert self.expanded("", count=5, offset=3)[0][:2] == found[3:]
        assert set(self.expanded("")[0]) == set(self.codes.values())

    def test_again_at_the_pin(self) -> None:
        url = SCT + "?fhir_vs" + self.isa("limb")
        answers = [self.gateway.fhir("ValueSet/$expand", base, url=url)[1]
                   for base in ("/fhir/", "/pin/3/fhir/")]
        for one in answers:
            del one["expansion"]["timestamp"]
        assert answers[0] == answers[1]

    def test_what_is_refused(self) -> None:
        cases: tuple[tuple[str, dict[str, str], int], ...] = (
            ("=ecl/<1", {}, 400),
            ("=refset", {}, 422),
            ("=refset/1105007", {}, 422),
            ("=isa/12", {}, 400),
            ("x", {}, 400),
            ("=isa/1105007\nPIN 1", {}, 400),
            ("", {"count": "1001"}, 422),
            ("", {"count": "-1"}, 400),
            ("", {"count": "x"}, 400),
            ("", {"count": "\u0663"}, 400),
            ("", {"offset": "100000"}, 422),
            ("=isa/1105007", {"date": "2010-01-01"}, 404),
            ("", {"filter": "a\nPIN 1"}, 400),
            ("", {"filter": "a\rPIN 1"}, 400),
            ("", {"filter": "a\u2028b"}, 400),
            ("", {"filter": "a\u0085b"}, 400),
            ("", {"filter": " "}, 400),
            ("", {"filter": "% -"}, 400),
            ("", {"filter": "x" * 201}, 400),
            ("", {"activeOnly": "yes"}, 400))
        for what, words, status in cases:
            got, said = self.ask(what, **words)
            assert (got, said["resourceType"]) == (status, "OperationOutcome"), (what, words)
        fhir = self.gateway.fhir
        assert fhir("ValueSet/$expand", url="http://hl7.org/fhir/ValueSet/x")[0] == 404
        assert fhir("ValueSet/$expand", url="http://snomed.info/sctx?fhir_vs")[0] == 404
        assert fhir("ValueSet/$expand")[0] == 400

    @pytest.mark.parametrize("text", (
        "% a", "a b  c", "\u00e9\u4e2d\U0001f600" * 60, "PIN 1", "x" * 200))
    def test_filter_that_no_line_of_the_hub_can_split(self, text: str) -> None:
        assert self.ask("", filter=text)[0] == 200, text


class TestTranslate(Asked):
    def ask(self, refset: str, code: str = "wrist", **words: Any) -> tuple[int, Json]:
        return self.gateway.fhir("ConceptMap/$translate", url="%s?fhir_cm=%s" % (SCT, refset),
                                 system=SCT, code=self.codes[code], **words)

    def test_replaced_by(self) -> None:
        found = parts_of(self.ask("900000000000526001")[1], "match")
        assert [
            (one["equivalence"], one["concept"]["code"], one["concept"]["display"]) for one in found
        ] == [("equivalent", self.codes["radius"], "Fracture of distal end of radius (disorder)")]

    def test_possibly(self) -> None:
        found = parts_of(self.ask("900000000000523009")[1], "match")
        assert {(one["equivalence"], one["concept"]["code"]) for one in found} == {
            ("inexact", self.codes["radius"]), ("inexact", self.codes["carpal"])}

    def test_same_as(self) -> None:
        found = parts_of(self.ask("900000000000527005", "radius")[1], "match")
        assert [(one["equivalence"], one["concept"]["code"]) for one in found] == [
            ("equal", self.codes["radius2"])]

    @pytest.mark.parametrize("refset, target, equivalence", (
        (demo.WAS_A, "injury", "wider"),
        (demo.SIMILAR_TO, "limb", "relatedto"),
        (demo.ALTERNATIVE, "limb", "inexact"),
        (demo.POSSIBLY_REPLACED_BY, "limb", "inexact"),
        (demo.PARTIALLY_EQUIVALENT_TO, "limb", "inexact")))
    def test_what_each_association_says(self, refset: Any, target: str, equivalence: str) -> None:
        """As the definitions of the reference sets and of ConceptMapEquivalence have it."""
        said = self.ask(refset, "vague")[1]
        assert told(said, "result") == [True], refset
        assert self.matches(said) == [(equivalence, self.codes[target])], refset

    def test_a_namespace_is_no_translation(self) -> None:
        said = self.ask(demo.MOVED_TO, "vague")[1]
        assert told(said, "result") == [False]
        assert "namespace" in told(said, "message")[0]
        assert self.matches(said) == [("disjoint", self.codes["namespace"])]

    def matches(self, said: Json) -> list[tuple[str, str]]:
        found = parts_of(said, "match")
        return [(one["equivalence"], one["concept"]["code"]) for one in found]

    def test_before(self) -> None:
        said = self.ask("900000000000526001", version=version("20210130"))[1]
        assert (told(said, "result"), parts_of(said, "match")) == ([False], [])

    def test_what_is_refused(self) -> None:
        assert self.ask("900000000000207008")[0] == 404
        assert self.ask("900000000000526001", targetsystem="http://loinc.org")[0] == 404
        assert self.ask("900000000000526001", date="2010-01-01")[0] == 404
        status, _ = self.gateway.fhir(
            "ConceptMap/$translate", url=SCT, system=SCT, code="138875005")
        assert status == 404


class TestMetadata(Asked):
    def test_capability_statement(self) -> None:
        said = self.gateway.fhir("metadata")[1]
        assert (said["resourceType"], said["fhirVersion"]) == ("CapabilityStatement", "4.0.1")
        offered = {
            "%s/$%s" % (resource["type"], operation["name"])
            for resource in said["rest"][0]["resource"] for operation in resource["operation"]}
        for path in offered:
            status, answer = self.gateway.fhir(path)
            assert (status, issue(answer)) == (400, "required"), path
        assert len(offered) == 6

    def test_terminology_capabilities(self) -> None:
        said = self.gateway.fhir("metadata", mode="terminology")[1]
        assert said["resourceType"] == "TerminologyCapabilities"
        versions = said["codeSystem"][0]["version"]
        assert [one["code"] for one in versions] == [
            version(day) for day in (*FIRST_DAYS, *SECOND_DAYS, "20220731")]
        assert [one["code"] for one in versions if one["isDefault"]] == [version("20220731")]
        assert {"name": "filter"} in said["expansion"]["parameter"]
        # (test_display_of_a_language of test_validation.py has a term of German.)
        assert said["validateCode"] == {"translations": True}
        # Neither $closure nor a search of value sets by a code is answered.
        assert said.keys() & {"closure", "codeSearch"} == set()
        said = self.gateway.fhir("metadata", base="/pin/2/fhir/", mode="terminology")[1]
        assert [one["code"] for one in said["codeSystem"][0]["version"]] == [
            version(day) for day in (*FIRST_DAYS, *SECOND_DAYS)]

    def test_modes(self) -> None:
        fhir = self.gateway.fhir
        assert fhir("metadata", mode="full")[0] == 200
        assert fhir("metadata", mode="x")[0] == 400

    def test_code_system(self) -> None:
        fhir = self.gateway.fhir
        days = (*FIRST_DAYS, *SECOND_DAYS, "20220731")
        searches: tuple[dict[str, str], ...] = ({"url": SCT}, {"system": SCT}, {})
        for words in searches:
            found = fhir("CodeSystem", **words)[1]
            assert found["total"] == len(days)
            versions = [one["resource"]["version"] for one in found["entry"]]
            assert versions == [version(day) for day in reversed(days)]
        assert fhir("CodeSystem")[1]["entry"][0]["resource"]["url"] == SCT
        assert fhir("CodeSystem", url="http://loinc.org")[1]["total"] == 0
        assert fhir("CodeSystem/sct")[1]["content"] == "not-present"
        assert fhir("CodeSystem/sct", "/pin/1/fhir/")[1]["version"] == version("20190131")
