"""What stock clients send, as their sources and documents have it, and what they expect: HAPI's
remote terminology support, HL7's validator with which an IG publisher asks, LHC-Forms in a browser,
and the examples of Snowstorm's documents. (They are written down here, and no such client runs.)
What is expected is read from the releases' own files."""

import json
import tempfile
from collections.abc import Iterator
from pathlib import Path
from typing import Any
from urllib.parse import quote, urlencode

import pytest
from sctd_service.gateway import limits

from . import demo_members as demo
from .demo_releases import REPLACED_BY, SAME_AS
from .fixtures import FHIR_JSON, SCT, Gateway, Json, Service, parts_of, properties, told, version
from .release_files import FULLY_SPECIFIED, Snapshot
from .test_clients import ICD_10_SYSTEM, LATEST, Whole

LOINC = "http://loinc.org"
JSON_FIRST = "application/fhir+json;q=1.0, application/json+fhir;q=0.9"
ANY_FORM = (
    "application/fhir+xml;q=1.0, application/fhir+json;q=1.0, application/xml+fhir;q=0.9, "
    "application/json+fhir;q=0.9"
)
SITE = "https://lhcforms.nlm.nih.gov"
# How many codes a value set of a guide may list, with a display each.
LISTED_CODES = 2_000


class Client(Whole):
    """A client with its own headers."""

    headers: dict[str, str] = {}

    def get(self, target: str, status: int = 200) -> Json:
        answer = self.gateway.send("GET", "/fhir/" + target, headers=self.headers)
        assert answer.status == status, answer.text
        return answer.json()

    def post(self, target: str, *parts: Json, status: int = 200) -> Json:
        resource = {"resourceType": "Parameters", "parameter": list(parts)}
        return self.post_resource(target, resource, status)

    def post_resource(self, target: str, resource: Json, status: int = 200) -> Json:
        headers = {**self.headers, "Content-Type": FHIR_JSON + "; charset=UTF-8"}
        body = json.dumps(resource).encode()
        answer = self.gateway.send("POST", "/fhir" + target, body, headers)
        assert answer.status == status, answer.text
        return answer.json()

    def within(self, name: str, day: str = LATEST) -> list[str]:
        files = self.snapshot(day)
        return sorted(files.within(self.codes[name]) & files.concepts.keys(), key=int)

    def name_of(self, name: str, files: Snapshot) -> str:
        """The fully specified name."""
        rows = files.names(self.codes[name])
        return next(row[7] for row in rows if row[6] == FULLY_SPECIFIED)


def text(name: str, value: str) -> Json:
    return {"name": name, "valueString": value}


def uri(name: str, value: str) -> Json:
    return {"name": name, "valueUri": value}


def flag(name: str, value: bool = True) -> Json:
    return {"name": name, "valueBoolean": value}


class TestHapi(Client):
    """RemoteTerminologyServiceValidationSupport, whose parameters are texts."""

    headers = {
        "Accept": JSON_FIRST,
        "Accept-Charset": "utf-8",
        "Accept-Encoding": "gzip;q=0",
        "User-Agent": "HAPI-FHIR/7.4.0 (FHIR Client; FHIR 4.0.1/R4; apache)"}

    @pytest.mark.parametrize("accepted", (JSON_FIRST, ANY_FORM))
    def test_the_server_is_looked_at(self, accepted: str) -> None:
        answer = self.gateway.send("GET", "/fhir/metadata", headers={"Accept": accepted})
        said = answer.json()
        assert (answer.status, said["resourceType"]) == (200, "CapabilityStatement")
        assert said["fhirVersion"] == "4.0.1"

    @pytest.mark.parametrize("summary", ("true", "false"))
    def test_what_is_supported(self, summary: str) -> None:
        """The first resource of a search by an address, if there is any."""
        isa = SCT + "?fhir_vs=isa/" + self.codes["limb"]
        for kind, url, is_here in (
                ("CodeSystem", SCT, True), ("CodeSystem", LOINC, False), ("ValueSet", isa, True),
                ("ValueSet", "http://example.org/fhir/ValueSet/x", False)):
            asked = urlencode({"url": url, "_summary": summary})
            found = self.get("%s?%s" % (kind, asked)).get("entry", [])
            first = [(one["resource"]["resourceType"], one["resource"]["url"]) for one in found[:1]]
            assert first == [(kind, url)] * is_here, url

    def test_a_code_and_its_display(self) -> None:
        files = self.snapshot()
        for name, display, is_valid in (
                ("limb", "", True), ("limb", self.name_of("limb", files), True),
                ("limb", "Fracture of upper limb (disorder)", False),
                ("wrist", "Wrist fracture", True), ("none", "", False)):
            code = self.codes.get(name, "999")
            parts = [uri("url", SCT), text("code", code)]
            parts += [text("display", display)] if display else []
            said = self.post("/CodeSystem/$validate-code", *parts)
            assert told(said, "result") == [is_valid], (name, display)
            assert bool(told(said, "message")) != is_valid
            assert name == "none" or told(said, "display")

    def test_a_code_of_a_value_set(self) -> None:
        """By its address, or by itself if it has none."""
        within = self.within("limb")
        filter_ = {"property": "concept", "op": "is-a", "value": self.codes["limb"]}
        own = {"resourceType": "ValueSet",
               "compose": {"include": [{"system": SCT, "filter": [filter_]}]}}
        for named in (uri("url", SCT + "?fhir_vs=isa/" + self.codes["limb"]),
                      {"name": "valueSet", "resource": own}):
            for name in ("limb", "carpal", "injury", "wrist"):
                code = self.codes[name]
                parts = [named, text("code", code), uri("system", SCT)]
                said = self.post("/ValueSet/$validate-code", *parts)
                assert told(said, "result") == [code in within], name
        parts = [uri("url", "http://example.org/x"), text("code", "1"), uri("system", SCT)]
        said = self.post("/ValueSet/$validate-code", *parts, status=404)
        assert said["issue"][0]["diagnostics"]

    def test_a_lookup(self) -> None:
        """The language is called so by HAPI alone."""
        code = self.codes["anaemia"]
        words = urlencode({"code": code, "system": SCT, "language": "de"})
        said = self.get("CodeSystem/$lookup?" + words)
        assert told(said, "display") == ["An\u00e4mie"]
        assert told(said, "name") == ["SNOMED CT"]
        assert told(said, "version") == [version(LATEST)]
        said = self.get("CodeSystem/$lookup?%s&property=parent" % words)
        assert properties(said) == {"parent": [*self.snapshot().parents(code)]}
        self.get("CodeSystem/$lookup?code=999&system=" + SCT, 404)

    @pytest.mark.parametrize("reverse", (False, True))
    def test_a_translation(self, reverse: bool) -> None:
        rows = [row for row in self.associations() if row[4] == SAME_AS]
        source, target = (6, 5) if reverse else (5, 6)
        code = self.codes["radius2" if reverse else "radius"]
        concept = {"coding": [{"system": SCT, "code": code}]}
        parts = [{"name": "codeableConcept", "valueCodeableConcept": concept}]
        parts += [uri("url", SCT + "?fhir_cm=" + SAME_AS), uri("targetsystem", SCT)]
        parts += [flag("reverse")] * reverse
        said = self.post("/ConceptMap/$translate", *parts)
        found = {one["concept"]["code"] for one in parts_of(said, "match")}
        assert found == {row[target] for row in rows if row[source] == code} and found
        assert told(said, "result") == [True]


class TestPublisher(Client):
    """HL7's validator, which the publishers of implementation guides ask with. It sends what its
    own expansions are made with to each operation."""

    headers = {"Accept": "application/fhir+json", "User-Agent": "fhir/r4"}
    # Of each request.
    always: tuple[Json, ...] = (
        text("profile-url", "http://hl7.org/fhir/ExpansionProfile/dc8fd4bc"),
        flag("excludeNested", False), flag("includeDesignations"),
        uri("system-version", LOINC + "|2.77"), {"name": "cache-id", "valueId": "4d3a"},
        {"name": "tx-resource", "resource": {"resourceType": "CodeSystem", "url": "urn:x"}})
    guide_url = "http://example.org/fhir/ValueSet/limbs"

    def guide(self, *include: Json, **compose: Any) -> Json:
        """A value set as a guide has it."""
        return {
            "name": "valueSet",
            "resource": {
                "resourceType": "ValueSet",
                "id": "limbs",
                "meta": {"profile": ["http://hl7.org/fhir/StructureDefinition/shareablevalueset"]},
                "text": {"status": "generated", "div": "<div>Limbs</div>"},
                "url": self.guide_url,
                "version": "1.0.0",
                "status": "draft",
                "experimental": False,
                "compose": {"include": list(include), **compose}}}

    def below(self, name: str) -> Json:
        one = {"property": "concept", "op": "is-a", "value": self.codes[name]}
        return {"system": SCT, "filter": [one]}

    def coding(self, name: str, display: str = "") -> Json:
        shown = {"display": display} if display else {}
        return {"system": SCT, "code": self.codes[name], **shown}

    def test_the_server_is_looked_at(self) -> None:
        quick = self.get("metadata?_summary=true")
        assert "http://hl7.org/fhir/CapabilityStatement/terminology-server" in quick["instantiates"]
        said = self.get("metadata?mode=terminology")
        assert [one["uri"] for one in said["codeSystem"]] == [SCT]
        # (Without this one the client sends all resources each time.)
        assert "cache-id" not in [one["name"] for one in said["expansion"]["parameter"]]

    def test_a_code_of_a_resource(self) -> None:
        """A display that isn't the code's is a warning where the client wants that."""
        options = (flag("default-to-latest-version"), flag("diagnostics"))
        right = self.name_of("limb", self.snapshot())
        for display, lenient, is_valid, is_told in (
                (right, False, True, False), (right, True, True, False),
                ("Broken arm", False, False, True), ("Broken arm", True, True, True)):
            parts = [{"name": "coding", "valueCoding": self.coding("limb", display)}, *options]
            parts += [text("displayLanguage", "en, en-US")]
            parts += [flag("lenient-display-validation")] * lenient
            said = self.post("/CodeSystem/$validate-code", *parts, *self.always)
            assert told(said, "result") == [is_valid], (display, lenient)
            assert (told(said, "code"), told(said, "system")) == ([self.codes["limb"]], [SCT])
            assert bool(told(said, "message")) == is_told
        wrong = {"name": "lenient-display-validation", "valueString": "perhaps"}
        self.post("/CodeSystem/$validate-code", parts[0], wrong, status=400)

    @pytest.mark.parametrize("word", ("lenient-display-validation", "valueset-membership-only"))
    def test_a_concept_of_a_value_set(self, word: str) -> None:
        within = self.within("limb")
        for name in ("carpal", "injury", "radius"):
            codings = [{"system": LOINC, "code": "1-8"}, self.coding(name, "Broken arm")]
            concept = {"name": "codeableConcept", "valueCodeableConcept": {"coding": codings}}
            parts: list[Json] = [concept, self.guide(self.below("limb")), *self.always]
            said = self.post("/ValueSet/$validate-code", *parts, flag(word))
            assert told(said, "result") == [self.codes[name] in within], name
            assert told(self.post("/ValueSet/$validate-code", *parts), "result") == [False]

    @pytest.mark.parametrize("by_client", (False, True))
    def test_inactive_codes(self, by_client: bool) -> None:
        """They aren't valid where the value set, or the client, wants active ones alone."""
        active = self.snapshot().concepts
        compose: Json = {} if by_client else {"inactive": False}
        for name in ("carpal", "radius"):
            parts: list[Json] = [{"name": "coding", "valueCoding": self.coding(name)}]
            parts += [self.guide(self.below("limb"), **compose), *self.always]
            parts += [flag("activeOnly")] * by_client
            said = self.post("/ValueSet/$validate-code", *parts)
            is_active = active[self.codes[name]][2] == "1"
            assert told(said, "result") == [is_active], name
            assert told(said, "inactive") == [not is_active]

    def test_an_expansion(self) -> None:
        constraint = "<< %s |Fracture| MINUS %s" % (self.codes["limb"], self.codes["carpal"])
        one = {"property": "constraint", "op": "=", "value": constraint}
        guide = self.guide({"system": SCT, "filter": [one]}, self.below("drug"))
        asked = (flag("includeDefinition", False), flag("incomplete-ok"), text("count", "1000"))
        resource = self.post("/ValueSet/$expand", guide, *asked, *self.always)
        assert resource["url"] == self.guide_url
        said = resource["expansion"]
        found = [one["code"] for one in said["contains"]]
        wanted = {*self.within("limb"), *self.within("drug")} - {self.codes["carpal"]}
        assert found == sorted(wanted, key=int)
        assert all(one["system"] == SCT and one["display"] for one in said["contains"])
        warnings = told(said, "warning")
        for word in ("includeDefinition", "incomplete-ok", "profile-url", "cache-id", LOINC):
            assert any(word in warning for warning in warnings), word

    def sent_along(self, name: str, *include: Json, **compose: Any) -> Json:
        """A value set of the guide on which another one rests."""
        resource = {**self.guide(*include, **compose)["resource"], "url": self.address(name)}
        return {"name": "tx-resource", "resource": resource}

    def address(self, name: str) -> str:
        return "http://example.org/fhir/ValueSet/" + name

    @pytest.mark.parametrize("by_version", (False, True))
    def test_value_sets_that_rest_on_others(self, by_version: bool) -> None:
        """Each is sent along, and one that wants active codes has no others."""
        files, bar = self.snapshot(), "|1.0.0" if by_version else ""
        active = {code for code, row in files.concepts.items() if row[2] == "1"}
        limbs, drugs = {*self.within("limb")}, {*self.within("drug")}
        listed = {"system": SCT, "concept": [{"code": self.codes["radius"]}]}
        of_limbs: Json = {"valueSet": [self.address("limbs") + bar]}
        of_both: Json = {"valueSet": [self.address("both")]}
        along = (self.sent_along("limbs", self.below("limb"), inactive=False),
                 self.sent_along("both", of_limbs, self.below("drug")),
                 self.sent_along("unused", {"system": LOINC, "concept": [{"code": "1-8"}]}),
                 *self.always)
        cases: tuple[tuple[list[Json], list[Json], set[str]], ...] = (
            ([of_limbs], [], limbs & active),
            ([of_both], [], limbs & active | drugs),
            ([of_both, listed], [], limbs & active | drugs | {self.codes["radius"]}),
            ([{**of_both, **self.below("injury")}], [], limbs & active),
            ([self.below("limb")], [of_limbs], limbs - active))
        for include, exclude, wanted in cases:
            guide = self.guide(*include, **({"exclude": exclude} if exclude else {}))
            said = self.post("/ValueSet/$expand", guide, *along)["expansion"]
            assert [one["code"] for one in said["contains"]] == sorted(wanted, key=int), include
            for name in ("radius", "carpal", "drug", "injury"):
                coding: Json = {"name": "coding", "valueCoding": self.coding(name)}
                said = self.post("/ValueSet/$validate-code", coding, guide, *along)
                assert told(said, "result") == [self.codes[name] in wanted], (name, include)
        url = uri("url", self.address("both") + bar)
        said = self.post("/ValueSet/$expand", url, *along)["expansion"]
        assert {one["code"] for one in said["contains"]} == limbs & active | drugs

    def test_versions_of_value_sets(self) -> None:
        """Those of the guide aren't those of SNOMED CT."""
        limbs = {*self.within("limb")}
        along = self.sent_along("limbs", self.below("limb"))
        for version_, status in (("1.0.0", 200), ("2.0.0", 400)):
            own = text("valueSetVersion", version_)
            for parts in (
                    [uri("url", self.address("limbs")), along], [self.guide(self.below("limb"))]):
                said = self.post("/ValueSet/$expand", *parts, own, status=status)
                found = {one["code"] for one in said.get("expansion", {}).get("contains", [])}
                assert found == (limbs if status == 200 else set()), parts
        old = text("valueSetVersion", version("20190131"))
        said = self.post("/ValueSet/$expand", self.guide(self.below("limb")), old)["expansion"]
        assert {one["code"] for one in said["contains"]} == {*self.within("limb", "20190131")}

    @pytest.mark.parametrize("is_nested", (False, True))
    def test_value_sets_of_several_code_systems(self, is_nested: bool) -> None:
        """Of what is SNOMED CT all is known, and of the rest nothing, which isn't said to be
        wrong."""
        tests: Json = {"system": LOINC, "concept": [{"code": "1-8"}]}
        along = self.sent_along("tests", tests)
        other: Json = {"valueSet": [self.address("tests")]} if is_nested else tests
        guide = self.guide(self.below("limb"), other)
        limb, injury = self.coding("carpal"), self.coding("injury")
        of_loinc, of_icd = ({"system": one, "code": "1-8"} for one in (LOINC, ICD_10_SYSTEM))
        for codings, wanted in (
                ([limb], True), ([injury], False), ([of_loinc, limb], True),
                ([of_icd, injury], False), ([of_icd], False), ([of_loinc, injury], None),
                ([injury, of_loinc], None), ([of_loinc], None)):
            concept = {"name": "codeableConcept", "valueCodeableConcept": {"coding": codings}}
            status = 404 if wanted is None else 200
            said = self.post("/ValueSet/$validate-code", concept, guide, along, status=status)
            assert wanted is None or told(said, "result") == [wanted], codings
        for more in (text("filter", "fracture"), flag("incomplete-ok")):
            said = self.post("/ValueSet/$expand", guide, along, more, status=404)
            assert LOINC in said["issue"][0]["diagnostics"]
        guide = self.guide(self.below("limb"), exclude=[other])
        said = self.post("/ValueSet/$expand", guide, along)["expansion"]
        assert [one["code"] for one in said["contains"]] == self.within("limb")

    @pytest.mark.parametrize("inactive", (False, True))
    def test_what_is_in_several_value_sets_at_once(self, inactive: bool) -> None:
        """Codes of other code systems are only where each of them may have some."""
        tests: Json = {"system": LOINC, "concept": [{"code": "1-8"}]}
        along = self.sent_along("mixed", self.below("limb"), tests, inactive=inactive)
        mixed: Json = {"valueSet": [self.address("mixed")]}
        code = {"name": "coding", "valueCoding": {"system": LOINC, "code": "1-8"}}
        for include, is_known in ((mixed, False), ({**mixed, **tests}, False),
                                  ({**mixed, **self.below("injury")}, True)):
            guide, status = self.guide(include), 200 if is_known else 404
            said = self.post("/ValueSet/$validate-code", guide, code, along, status=status)
            assert not is_known or told(said, "result") == [False]
            said = self.post("/ValueSet/$expand", guide, along, status=status)
            found = [one["code"] for one in said.get("expansion", {}).get("contains", [])]
            active = self.snapshot().concepts
            wanted = [one for one in self.within("limb") if inactive or active[one][2] == "1"]
            assert found == (wanted if is_known else []), include

    def test_value_sets_that_rest_on_themselves(self) -> None:
        one = self.sent_along("one", {"valueSet": [self.address("other")]})
        other = self.sent_along("other", self.below("limb"), {"valueSet": [self.address("one")]})
        url = uri("url", self.address("one"))
        said = self.post("/ValueSet/$expand", url, one, other, status=404)
        assert self.address("one") in said["issue"][0]["diagnostics"]
        self.post("/ValueSet/$expand", url, one, status=404)

    def test_value_sets_that_rest_on_many(self) -> None:
        """So many parts are read in all."""
        parts = [self.below("limb")] * (limits.COMPOSED_PARTS // 2)
        along = [self.sent_along("inner", *parts)]
        inner: Json = {"valueSet": [self.address("inner")]}
        for count, status in ((1, 200), (2, 400)):
            self.post("/ValueSet/$expand", self.guide(*[inner] * count), *along, status=status)

    def test_many_codes(self) -> None:
        """A value set that lists its codes is longer than other bodies may be."""
        codes = list(self.codes.values())
        listed = [{"code": codes[place % len(codes)], "display": "Display %d of a code" % place}
                  for place in range(LISTED_CODES)]
        guide = self.guide({"system": SCT, "concept": listed})
        assert len(json.dumps(guide)) > limits.BODY_BYTES
        said = self.post("/ValueSet/$expand", guide, *self.always)["expansion"]
        there = self.snapshot().concepts
        assert [one["code"] for one in said["contains"]] == sorted(there.keys() & {*codes}, key=int)

    def test_a_batch(self) -> None:
        of_limbs = [self.guide(self.below("limb"))]
        entries = []
        for name, kind in (("limb", "CodeSystem"), ("injury", "ValueSet"), ("carpal", "ValueSet")):
            coding: Json = {"name": "coding", "valueCoding": self.coding(name)}
            parts = [coding, *(of_limbs if kind == "ValueSet" else []), *self.always]
            entries.append({"resource": {"resourceType": "Parameters", "parameter": parts},
                            "request": {"method": "POST", "url": kind + "/$validate-code"}})
        said = self.post_resource("", {"resourceType": "Bundle", "type": "batch", "entry": entries})
        found = [told(one["resource"], "result") for one in said["entry"]]
        assert found == [[True], [False], [True]]

    def test_whether_a_code_subsumes_another(self) -> None:
        parts = [{"name": name, "valueCoding": self.coding(code)}
                 for name, code in (("codingA", "injury"), ("codingB", "carpal"))]
        said = self.post("/CodeSystem/$subsumes", *parts)
        assert told(said, "outcome") == ["subsumes"]


class TestForms(Client):
    """LHC-Forms, in a browser and on another site than the gateway."""

    headers = {"Accept": "*/*", "Origin": SITE, "Referer": SITE + "/", "Sec-Fetch-Mode": "cors"}

    @pytest.fixture(scope="class")
    def open_gateway(self, whole_service: Service) -> Iterator[Gateway]:
        with tempfile.TemporaryDirectory() as folder:
            words = (*demo.WORDS, "--cors", SITE)
            gateway = Gateway(whole_service.questions, Path(folder), words=words)
            try:
                yield gateway
            finally:
                gateway.stop()

    @pytest.fixture(autouse=True)
    def of_the_site(self, begin: None, open_gateway: Gateway) -> None:
        self.gateway = open_gateway

    def read(self, url: str, **words: Any) -> Json:
        """What the site's page may read."""
        query = urlencode({"url": url, "_format": "json", **words})
        answer = self.gateway.send("GET", "/fhir/ValueSet/$expand?" + query, headers=self.headers)
        assert (answer.status, answer.headers["access-control-allow-origin"]) == (200, SITE)
        found: Json = answer.json()["expansion"]
        return found

    def test_the_answers_of_a_question(self) -> None:
        """All of a value set, at once."""
        for url, name in ((SCT + "?fhir_vs=isa/" + self.codes["limb"], "limb"),
                          (SCT + "?fhir_vs=ecl/" + quote("<<%s" % self.codes["injury"]), "injury")):
            said = self.read(url)
            assert [one["code"] for one in said["contains"]] == self.within(name)
            assert {one["system"] for one in said["contains"]} == {SCT}

    def test_what_is_typed(self) -> None:
        """Seven entries, and more on demand, which are shown by their displays."""
        files = self.snapshot()
        for count in (7, 500):
            said = self.read(SCT + "?fhir_vs=isa/" + self.codes["finding"], filter="fracture of",
                             count=count, _format="application/json")
            found = {row[4] for row in files.with_words("fracture of")}
            wanted = found.intersection(self.within("finding"))
            assert {one["code"] for one in said["contains"]} == wanted
            assert (said["total"], len(wanted) > 1) == (len(wanted), True)
            assert all(one["display"] for one in said["contains"])

    def test_a_body_from_a_browser(self) -> None:
        """Before it is sent, the browser asks whether it may be."""
        asks = {"Access-Control-Request-Method": "POST"}
        asks["Access-Control-Request-Headers"] = "content-type"
        headers = {"Origin": SITE, **asks}
        answer = self.gateway.send("OPTIONS", "/fhir/ValueSet/$expand", headers=headers)
        assert answer.status == 204
        assert "POST" in answer.headers["access-control-allow-methods"]
        assert "content-type" in answer.headers["access-control-allow-headers"].lower()


class TestSnowstorm(Client):
    """Requests as Snowstorm's documents have them, with the codes of the demo. In its addresses
    nothing but spaces and the letters of expressions is encoded."""

    headers = {"Accept": "application/json, text/plain, */*"}

    def found_by(self, query: str) -> list[str]:
        said = self.get("ValueSet/$expand?" + query)["expansion"]
        return [one["code"] for one in said.get("contains", [])]

    def test_code_systems(self) -> None:
        found = [one["resource"] for one in self.get("CodeSystem")["entry"]]
        assert {one["url"] for one in found} == {SCT}
        assert version("20190131") in {one["version"] for one in found}

    def test_lookups(self) -> None:
        code = self.codes["wrist"]
        edition = SCT + "/900000000000207008"
        for query, day in (("", LATEST), ("&_format=json", LATEST), ("&version=" + edition, LATEST),
                           ("&version=" + version("20190131"), "20190131")):
            said = self.get("CodeSystem/$lookup?system=%s&code=%s%s" % (SCT, code, query))
            files = self.snapshot(day)
            assert told(said, "version") == [version(day)]
            terms = [one["value"] for one in parts_of(said, "designation")]
            assert sorted(terms) == sorted(row[7] for row in files.terms(code))
            assert {*properties(said).get("parent", [])} == files.parents(code)
        said = self.get(
            "CodeSystem/$lookup?code=%s&system=%s&property=normalForm" % (self.codes["limb"], SCT))
        (form,) = properties(said)["normalForm"]
        assert form.startswith("<<< %s|" % self.codes["injury"])

    def test_subsumption(self) -> None:
        query = "CodeSystem/$subsumes?system=%s&codeA=%s&codeB=%s"
        for first, second, outcome in (
                ("limb", "injury", "subsumed-by"), ("injury", "limb", "subsumes"),
                ("limb", "limb", "equivalent"), ("limb", "drug", "not-subsumed")):
            said = self.get(query % (SCT, self.codes[first], self.codes[second]))
            assert told(said, "outcome") == [outcome], (first, second)

    def test_implicit_value_sets(self) -> None:
        files, codes = self.snapshot(), self.codes
        of_set = {code for code in files.referred(codes["set"]) if code[-2] == "0"}
        below = "ecl/%3C" + codes["injury"] + "%20%7CInjury%7C"
        found = self.found_by("url=%s?fhir_vs=refset/%s&count=10" % (SCT, codes["set"]))
        assert found == sorted(of_set, key=int)
        found = self.found_by("url=%s?fhir_vs=isa/%s&activeOnly=true" % (SCT, codes["limb"]))
        active = [code for code in self.within("limb") if files.concepts[code][2] == "1"]
        assert found == active
        edition = SCT + "/900000000000207008"
        found = self.found_by("url=%s?fhir_vs=%s&offset=1&count=2" % (edition, below))
        wanted = [code for code in self.within("injury") if code != codes["injury"]]
        assert found == wanted[1:3]
        refsets = self.found_by("url=%s?fhir_vs=refset" % SCT)
        assert codes["set"] in refsets and codes["never"] not in refsets
        query = "url=%s?fhir_vs=%s&system=%s&code=%s"
        for name in ("limb", "injury"):
            asked = query % (SCT, below, SCT, codes[name])
            said = self.get("ValueSet/$validate-code?" + asked)
            assert told(said, "result") == [codes[name] in wanted], name

    @pytest.mark.parametrize("designation", ("de", "urn:ietf:bcp:47|de"))
    def test_designations(self, designation: str) -> None:
        """Of a language, which may be named alone."""
        query = "url=%s?fhir_vs=isa/%s&includeDesignations=true&designation=%s"
        asked = query % (SCT, self.codes["anaemia"], quote(designation))
        (one,) = self.get("ValueSet/$expand?" + asked)["expansion"]["contains"]
        assert [each["value"] for each in one["designation"]] == ["An\u00e4mie"]

    def test_translations(self) -> None:
        """The target is SNOMED CT, or the code system of a map."""
        source = "&source=%s?fhir_vs" % SCT
        for name, target, refset, wanted in (
                ("anaemia", ICD_10_SYSTEM, demo.ICD_10, ["D50.8", "D64.9"]),
                ("limb", demo.CTV3_SYSTEM, demo.CTV3, ["X2", "X3"]),
                ("wrist", SCT + "?fhir_vs", REPLACED_BY, [self.codes["radius"]]),
                ("wrist", SCT, REPLACED_BY, [self.codes["radius"]])):
            asked = "code=%s&system=%s%s&target=%s" % (self.codes[name], SCT, source, target)
            for url in ("&url=%s?fhir_cm=%s" % (SCT, refset), ""):
                said = self.get("ConceptMap/$translate?" + asked + url)
                found = [one for one in parts_of(said, "match") if refset in one["source"]]
                codes = sorted(one["concept"]["code"] for one in found if "concept" in one)
                assert codes == wanted, (name, target, url)
        both = "code=%s&system=%s&target=%s&targetsystem=%s" % (
            self.codes["limb"], SCT, ICD_10_SYSTEM, demo.CTV3_SYSTEM)
        assert self.get("ConceptMap/$translate?" + both, 400)["issue"][0]["code"] == "conflict"
        wrong = "code=%s&system=%s&target=%s&url=%s?fhir_cm=%s" % (
            self.codes["limb"], SCT, ICD_10_SYSTEM, SCT, SAME_AS)
        self.get("ConceptMap/$translate?" + wrong, 404)
