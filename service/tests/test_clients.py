"""What other people's clients ask: value sets that they define, maps in both directions, resources
by address and by id, operations on a resource, versions behind a bar, batches. What is expected is
read from the releases' own files."""

import json
from typing import Any

import pytest
from sctd_service import VERSION
from sctd_service.gateway import limits

from . import demo_members as demo
from .asked import Asked
from .demo_releases import (ALTERNATIVE, MOVED_TO, POSSIBLY_EQUIVALENT_TO, PARTIALLY_EQUIVALENT_TO,
                            POSSIBLY_REPLACED_BY, RELEASES, REPLACED_BY, SAME_AS, SIMILAR_TO, WAS_A)
from .fixtures import EDITION, FHIR_JSON, SCT, Json, Service, issue, parts_of, told, version
from .release_files import Row, Rows, Snapshot, read

EXPAND, MEMBER, TRANSLATE = "ValueSet/$expand", "ValueSet/$validate-code", "ConceptMap/$translate"
LOOKUP, VALIDATE = "CodeSystem/$lookup", "CodeSystem/$validate-code"
ICD_10_SYSTEM = "http://hl7.org/fhir/sid/icd-10"
LATEST = "20220731"
EQUIVALENCES = {
    REPLACED_BY: "equivalent", SAME_AS: "equal", POSSIBLY_EQUIVALENT_TO: "inexact",
    ALTERNATIVE: "inexact", MOVED_TO: "disjoint", WAS_A: "wider", SIMILAR_TO: "relatedto",
    POSSIBLY_REPLACED_BY: "inexact", PARTIALLY_EQUIVALENT_TO: "inexact"}


def snapshot(service: Service, day: str) -> Snapshot:
    """What the files of all releases say of a day."""
    every = [read(service.releases / name) for name in RELEASES]
    kinds = {kind: list[Row]() for kind in every[0].by_kind}
    for kind, rows in kinds.items():
        for one in every:
            rows += one.by_kind[kind]
    return Snapshot(Rows(kinds), day)


class Whole(Asked):
    of = "whole_service"

    def snapshot(self, day: str = LATEST) -> Snapshot:
        return snapshot(self.service, day)

    def associations(self, day: str = LATEST) -> list[Row]:
        """The active ones of a day."""
        return [row for rows in self.snapshot(day).about["A"].values() for row in rows]

    def expanded(self, **words: Any) -> list[str]:
        status, said = self.gateway.fhir(EXPAND, **words)
        assert status == 200, said
        return [one["code"] for one in said["expansion"].get("contains", [])]


class TestComposed(Whole):
    def define(self, include: list[Json], exclude: list[Json] | None = None, **more: Any) -> Json:
        compose = {"include": include, **({"exclude": exclude} if exclude else {}), **more}
        resource = {"resourceType": "ValueSet", "url": "urn:own", "compose": compose}
        return {"name": "valueSet", "resource": resource}

    def part(self, op: str, name: str, **more: Any) -> Json:
        one = {"property": "concept", "op": op, "value": self.codes.get(name, name)}
        return {"system": SCT, "filter": [one], **more}

    def check(self, wanted: set[str], day: str, *parts: Json) -> None:
        """The set's codes, and of each concept whether it is in the set."""
        of_day = {"name": "date", "valueDate": "%s-%s-%s" % (day[:4], day[4:6], day[6:])}
        status, said = self.gateway.posted(EXPAND, *parts, of_day)
        assert status == 200, said
        codes = [one["code"] for one in said["expansion"].get("contains", [])]
        there = self.snapshot(day).concepts
        assert (codes, said["expansion"]["total"]) == (
            sorted(wanted & there.keys(), key=int), len(codes))
        assert said.get("url") == "urn:own"
        for code in sorted(there)[::4] + codes[:2]:
            coding = {"name": "coding", "valueCoding": {"system": SCT, "code": code}}
            said = self.gateway.posted(MEMBER, *parts, of_day, coding)[1]
            assert told(said, "result") == [code in codes], code

    @pytest.mark.parametrize("day", ("20190131", "20210131", LATEST))
    def test_filters(self, day: str) -> None:
        files, codes = self.snapshot(day), self.codes
        limb, injury = codes["limb"], codes["injury"]
        within = files.within(limb)
        for op, wanted in (("is-a", within), ("descendent-of", within - {limb}),
                           ("generalizes", files.above[limb])):
            self.check(wanted, day, self.define([self.part(op, "limb")]))
        in_set = {code for code in files.referred(codes["set"]) if code[-2] == "0"}
        self.check(in_set, day, self.define([self.part("in", "set")]))
        drug = {"system": SCT, "concept": [{"code": codes["drug"]}]}
        both = self.part("is-a", "injury")
        both["filter"].append({"property": "concept", "op": "in", "value": codes["set"]})
        self.check(in_set & files.within(injury), day, self.define([both]))
        self.check(files.within(injury) - within | {codes["drug"]}, day,
                   self.define([self.part("is-a", "injury"), drug], [self.part("is-a", "limb")]))

    def test_lists_and_other_value_sets(self) -> None:
        codes = self.codes
        listed = [codes["wrist"], codes["limb"], codes["wrist"], "1105008", "12", "x y", "9" * 18]
        own = {"system": SCT, "concept": [{"code": code} for code in listed]}
        self.check({codes["wrist"], codes["limb"]}, LATEST, self.define([own]))
        of_set = SCT + "?fhir_vs=refset/" + codes["set"]
        in_both = {"valueSet": [of_set, SCT + "?fhir_vs=isa/" + codes["injury"]]}
        wanted = self.snapshot().referred(codes["set"]) & self.snapshot().within(codes["injury"])
        self.check(wanted, LATEST, self.define([in_both]))
        active = {code for code in wanted if self.snapshot().concepts[code][2] == "1"}
        self.check_active(active, self.define([in_both], inactive=False))

    def check_active(self, wanted: set[str], define: Json) -> None:
        said = self.gateway.posted(EXPAND, define)[1]["expansion"]
        assert {one["code"] for one in said["contains"]} == wanted

    def test_all(self) -> None:
        count = {"name": "count", "valueInteger": 3}
        said = self.gateway.posted(EXPAND, self.define([{"system": SCT}]), count)[1]
        assert len(said["expansion"]["contains"]) == 3

    def test_a_body_that_is_one(self) -> None:
        """The only resource of an operation may be sent by itself, and the rest in the address."""
        resource = self.define([self.part("is-a", "limb")])["resource"]
        headers = {"Content-Type": FHIR_JSON}
        body = json.dumps(resource).encode()
        wanted = sorted(self.snapshot("20190131").within(self.codes["limb"]), key=int)
        target = "/fhir/%s?date=2019-01-31&count=1&offset=1" % EXPAND
        said = self.gateway.send("POST", target, body, headers).json()["expansion"]
        assert [one["code"] for one in said["contains"]] == wanted[1:2]
        assert said["total"] == len(wanted)
        asked = "/fhir/%s?system=%s&code=%s&date=2019-01-31" % (MEMBER, SCT, self.codes["wrist"])
        said = self.gateway.send("POST", asked, body, headers).json()
        assert told(said, "result") == [True]
        for path in (LOOKUP, EXPAND + "?url=%s?fhir_vs" % SCT, "ValueSet/sct/$expand"):
            assert self.gateway.send("POST", "/fhir/" + path, body, headers).status == 400, path

    def test_version_of_a_part(self) -> None:
        old = self.part("is-a", "limb", version=version("20190131"))
        said = self.gateway.posted(EXPAND, self.define([old]))[1]["expansion"]
        wanted = self.snapshot("20190131").within(self.codes["limb"])
        assert {one["code"] for one in said["contains"]} == wanted
        new = self.part("is-a", "drug", version=version(LATEST))
        assert self.gateway.posted(EXPAND, self.define([old, new]))[0] == 400

    def test_what_is_refused(self) -> None:
        limb = self.codes["limb"]
        constraint = {"property": "constraint", "op": "=", "value": "<" + limb + " OR"}
        cases: tuple[tuple[Json, int], ...] = (
            (self.define([]), 400),
            (self.define([{}]), 400),
            (self.define([{"concept": [{"code": limb}]}]), 400),
            (self.define([{"system": "http://loinc.org"}]), 404),
            (self.define([self.part("is-a", "1105008")]), 400),
            (self.define([self.part("is-a", "138875005\n0 PIN 1")]), 400),
            (self.define([self.part("regex", "limb")]), 422),
            (self.define([{"system": SCT, "filter": [constraint]}]), 400),
            (self.define([{"system": SCT, "filter": [{**constraint, "op": "in"}]}]), 422),
            (self.define([{"system": SCT, "filter": 7}]), 400),
            (self.define([{"system": SCT, "concept": ["x"]}]), 400),
            (self.define([{"valueSet": "x"}]), 400),
            (self.define([{"valueSet": ["urn:x"]}]), 404),
            (self.define([self.part("is-a", "limb")] * (limits.COMPOSED_PARTS + 1)), 400),
            (self.define([{"system": SCT}], [self.part("is-a", "limb")]), 422),
            (self.define([self.part("is-a", "limb")], lockedDate="2020-01-01"), 422),
            ({"name": "valueSet", "resource": {"resourceType": "ValueSet"}}, 400),
            ({"name": "valueSet", "valueString": "x"}, 400))
        for part, status in cases:
            got, said = self.gateway.posted(EXPAND, part)
            assert (got, said["resourceType"]) == (status, "OperationOutcome"), part
        both = {"name": "url", "valueUri": SCT + "?fhir_vs"}
        got, said = self.gateway.posted(EXPAND, self.define([{"system": SCT}]), both)
        assert (got, issue(said)) == (400, "conflict")

    def test_what_clients_send_beside(self) -> None:
        """As FHIR's own validator does."""
        values: Json = {"cache-id": {"valueId": "x"}, "tx-resource": {"resource": {}}}
        for name, value in values.items():
            part = {"name": name, **value}
            define = self.define([self.part("is-a", "limb")])
            said = self.gateway.posted(EXPAND, define, part, part)[1]
            assert len(told(said["expansion"], "warning")) == 1, name


class TestExpansions(Whole):
    @pytest.mark.parametrize("day", ("20170731", "20210130", LATEST))
    def test_associations_as_reference_sets(self, day: str) -> None:
        rows = self.associations(day)
        for refset in EQUIVALENCES:
            wanted = {row[5] for row in rows if row[4] == refset and row[5][-2] == "0"}
            url = "%s?fhir_vs=refset/%s" % (version(day), refset)
            is_known = refset in {row[4] for row in self.associations()}
            status, said = self.gateway.fhir(EXPAND, url=url)
            assert status == (200 if is_known else 404), refset
            if is_known:
                found = [one["code"] for one in said["expansion"].get("contains", [])]
                assert found == sorted(wanted, key=int), (refset, day)
            for code in (self.codes["wrist"], self.codes["limb"]) if wanted else ():
                said = self.gateway.fhir(MEMBER, url=url, system=SCT, code=code)[1]
                assert told(said, "result") == [code in wanted], (refset, code)

    def test_versions(self) -> None:
        limb = self.codes["limb"]
        old, new = (self.snapshot(day).within(limb) for day in ("20190131", LATEST))
        url, of_old = SCT + "?fhir_vs=isa/" + limb, SCT + "|" + version("20190131")
        versioned = "%s?fhir_vs=isa/%s" % (version(LATEST), limb)
        for words, wanted in (
                ({"url": url + "|" + version("20190131")}, old),
                ({"url": url, "valueSetVersion": version("20190131")}, old),
                ({"url": url, "force-system-version": of_old}, old),
                ({"url": versioned, "force-system-version": of_old}, old),
                ({"url": url, "check-system-version": of_old}, old),
                ({"url": versioned, "check-system-version": SCT + "|" + version(LATEST)}, new)):
            assert set(self.expanded(**words)) == wanted, words
        for words in ({"url": versioned, "check-system-version": of_old},
                      {"url": url + "|" + version("20190131"), "valueSetVersion": version(LATEST)},
                      {"url": url + "|20190131"}):
            assert self.gateway.fhir(EXPAND, **words)[0] == 400, words
        of_member = {"url": url, "system": SCT, "code": self.codes["wrist"]}
        said = self.gateway.fhir(MEMBER, **of_member, **{"force-system-version": of_old})[1]
        assert told(said, "result") == [True]
        said = self.gateway.fhir(LOOKUP, system=of_old, code=self.codes["wrist"])[1]
        assert told(said, "version") == [version("20190131")]
        said = self.gateway.fhir(VALIDATE, url=of_old, code=self.codes["radius"])[1]
        assert told(said, "result") == [False]

    def test_designations_that_are_chosen(self) -> None:
        url = SCT + "?fhir_vs=isa/" + self.codes["anaemia"]
        for token, wanted in (("urn:ietf:bcp:47|de", {"An\u00e4mie"}),
                              (SCT + "|900000000000003001", {"Anemia (disorder)"}),
                              ("urn:ietf:bcp:47|fr", set())):
            said = self.gateway.fhir(EXPAND, url=url, designation=token)[1]["expansion"]
            found = {one["value"] for one in said["contains"][0].get("designation", [])}
            assert found == wanted, token

    def test_what_was_heard(self) -> None:
        words: Json = {"filter": "anaem", "count": 5, "offset": 0, "activeOnly": "true"}
        said = self.gateway.fhir(EXPAND, url=SCT + "?fhir_vs", displayLanguage="de", **words)[1]
        found = {one["name"]: one for one in said["expansion"]["parameter"]}
        assert found["filter"]["valueString"] == "anaem"
        assert (found["count"]["valueInteger"], found["offset"]["valueInteger"]) == (5, 0)
        assert found["activeOnly"]["valueBoolean"] is True
        assert found["displayLanguage"]["valueString"] == "de"
        assert "includeDesignations" not in found

    def test_without_a_code_system(self) -> None:
        words = {"url": SCT + "?fhir_vs", "exclude-system": SCT, "count": "1"}
        assert self.gateway.fhir(EXPAND, **words)[0] == 422


class TestTranslations(Whole):
    def ask(self, name: str, **words: Any) -> tuple[int, Json]:
        code = self.codes.get(name, name)
        return self.gateway.fhir(TRANSLATE, system=SCT, code=code, **words)

    def matches(self, said: Json) -> list[tuple[str, str, str]]:
        return sorted((one["source"].partition("fhir_cm=")[2], one["equivalence"],
                       one["concept"]["code"]) for one in parts_of(said, "match"))

    @pytest.mark.parametrize("day", ("20170731", "20210131", LATEST))
    def test_all_associations_at_once(self, day: str) -> None:
        rows = self.associations(day)
        for name in ("wrist", "radius", "vague", "lost", "limb"):
            code = self.codes[name]
            own = [row for row in rows if row[5] == code]
            wanted = sorted((row[4], EQUIVALENCES[row[4]], row[6]) for row in own)
            if code not in self.snapshot(day).concepts:
                assert self.ask(name, version=version(day))[0] == 404
                continue
            bare = SCT + "?fhir_cm"
            asks: tuple[dict[str, str], ...] = ({}, {"url": bare}, {"targetsystem": SCT})
            for words in asks:
                status, said = self.ask(name, version=version(day), **words)
                assert (status, self.matches(said)) == (200, wanted), (name, words)
                assert told(said, "result") == [any(one[1] != "disjoint" for one in wanted)]

    @pytest.mark.parametrize("day", ("20200731", "20210131", LATEST))
    def test_whose_place_a_code_took(self, day: str) -> None:
        rows, reverse = self.associations(day), {"reverse": "true", "version": version(day)}
        for name in ("radius", "radius2", "carpal", "limb", "injury", "namespace", "wrist"):
            code = self.codes[name]
            if code not in self.snapshot(day).concepts:
                continue
            means = {**EQUIVALENCES, WAS_A: "narrower"}
            wanted = sorted((row[4], means[row[4]], row[5]) for row in rows if row[6] == code)
            assert self.matches(self.ask(name, **reverse)[1]) == wanted, name
            one = SCT + "?fhir_cm=" + SAME_AS
            found = self.matches(self.ask(name, url=one, **reverse)[1])
            assert found == [match for match in wanted if match[0] == SAME_AS], name

    def test_targets_in_a_value_set(self) -> None:
        isa = SCT + "?fhir_vs=isa/"
        whole = self.matches(self.ask("wrist")[1])
        assert self.matches(self.ask("wrist", target=isa + self.codes["limb"])[1]) == whole
        carpal = self.matches(self.ask("wrist", target=isa + self.codes["carpal"])[1])
        assert [one[2] for one in carpal] == [self.codes["carpal"]]
        none = self.ask("wrist", target=isa + self.codes["drug"])[1]
        assert (self.matches(none), told(none, "result")) == ([], [False])
        for words in ({"target": "urn:x"}, {"source": "urn:x"}, {"targetsystem": "urn:x"}):
            assert self.ask("wrist", **words)[0] == 404, words
        of_old = version("20190131") + "?fhir_vs"
        assert self.ask("wrist", target=of_old, version=version(LATEST))[0] == 400
        assert self.ask("wrist", source=of_old, version=version(LATEST))[0] == 200

    def test_concept_with_several_codings(self) -> None:
        other = {"system": ICD_10_SYSTEM, "code": "S52"}
        own = {"system": SCT, "code": self.codes["radius"]}
        for codings, status in (([other, own], 200), ([other], 404)):
            concept = {"name": "codeableConcept", "valueCodeableConcept": {"coding": codings}}
            got, said = self.gateway.posted(TRANSLATE, concept)
            assert got == status
            wanted = [(SAME_AS, "equal", self.codes["radius2"])]
            assert status == 404 or self.matches(said) == wanted

    @pytest.mark.parametrize("day", ("20190131", "20200131", LATEST))
    def test_extended_map(self, day: str) -> None:
        """Group, priority, rule and advice of each row, in this order."""
        for name in ("anaemia", "drug", "limb"):
            rows = [row[6:] for row in self.snapshot(day).members(demo.ICD_10, self.codes[name])]
            rows.sort(key=lambda row: (int(row[0]), int(row[1])))
            wanted = []
            for group, priority, rule, advice, target, correlation, _ in rows:
                means = {demo.NOT_SPECIFIED: "relatedto", demo.EXACT: "equal"}[correlation]
                concept = {"system": ICD_10_SYSTEM, "code": target} if target else None
                wanted.append({
                    "equivalence": means if target else "unmatched",
                    "concept": concept,
                    "source": SCT + "?fhir_cm=" + demo.ICD_10,
                    "mapGroup": int(group),
                    "mapPriority": int(priority),
                    "mapRule": rule,
                    "mapAdvice": advice})
            asks: tuple[dict[str, str], ...] = (
                {"url": SCT + "?fhir_cm=" + demo.ICD_10}, {"targetsystem": ICD_10_SYSTEM})
            for words in asks:
                status, said = self.ask(name, version=version(day), **words)
                found = [{"concept": None, **one} for one in parts_of(said, "match")]
                assert (status, found) == (200, wanted), (name, day)
                has_target = any(one["concept"] for one in wanted)
                assert told(said, "result") == [has_target]
                if has_target:
                    advice_told = "; ".join(row[3] for row in rows)
                    assert told(said, "message") == [advice_told]
        assert self.ask("anaemia", url=SCT + "?fhir_cm=" + demo.ICD_10, reverse="true")[0] == 422


class TestResources(Whole):
    def found(self, kind: str, **words: Any) -> list[Json]:
        status, said = self.gateway.fhir(kind, **words)
        assert (status, said["resourceType"]) == (200, "Bundle")
        assert said["total"] == len(said.get("entry", []))
        return [one["resource"] for one in said.get("entry", [])]

    def test_value_sets_by_address_and_id(self) -> None:
        limb, own = self.codes["limb"], self.codes["set"]
        for what, name, filters in (
                ("fhir_vs", "sct", None),
                ("fhir_vs=isa/" + limb, "isa-" + limb, ("is-a", limb)),
                ("fhir_vs=refset/" + own, "refset-" + own, ("in", own)),
                ("fhir_vs=refset/" + SAME_AS, "refset-" + SAME_AS, ("in", SAME_AS)),
                ("fhir_vs=refset", "refset", None)):
            for base, day in ((SCT, ""), (version("20200131"), ".20200131")):
                if what.endswith(SAME_AS) and day:
                    continue  # (It has members, of another day.)
                found = self.found("ValueSet", url="%s?%s" % (base, what))
                assert [one["id"] for one in found] == [name + day], what
                assert found[0]["version"] == version(day[1:] or LATEST)
                again = self.gateway.fhir("ValueSet/" + name + day)[1]
                assert again == found[0]
                if filters:
                    op, code = filters
                    one = {"property": "concept", "op": op, "value": code}
                    assert again["compose"]["include"] == [{"system": SCT, "filter": [one]}]
                ids = self.gateway.fhir("ValueSet/%s%s/$expand" % (name, day), count=3)
                whole = self.gateway.fhir(EXPAND, url="%s?%s" % (base, what), count=3)
                for answer in (ids, whole):
                    answer[1]["expansion"].pop("timestamp", None)
                assert ids == whole, name
        assert [one["id"] for one in self.found("ValueSet")] == ["sct", "refset"]
        for url in ("urn:x", SCT + "?fhir_vs=ecl/<1", SCT + "?fhir_vs=isa/" + str(10**8 + 5)):
            status, said = self.gateway.fhir("ValueSet", url=url)
            assert (status, said.get("total", 0)) in ((200, 0), (400, 0)), url
        said = self.gateway.fhir("ValueSet", url=SCT + "?fhir_vs", _summary="count")[1]
        assert (said["total"], "entry" in said) == (1, False)

    def test_maps_by_address_and_id(self) -> None:
        for refset in (SAME_AS, WAS_A, demo.CTV3, demo.HOUSE_MAP, demo.ICD_10):
            url = SCT + "?fhir_cm=" + refset
            found = self.found("ConceptMap", url=url)
            assert [(one["id"], one["url"]) for one in found] == [("map-" + refset, url)]
            assert self.gateway.fhir("ConceptMap/map-" + refset)[1] == found[0]
            words = {"system": SCT, "code": self.codes["limb"]}
            on_it = self.gateway.fhir("ConceptMap/map-%s/$translate" % refset, **words)
            assert on_it == self.gateway.fhir(TRANSLATE, url=url, **words)
        assert self.found("ConceptMap", url=SCT + "?fhir_cm=" + demo.INDICATORS) == []
        assert [one["id"] for one in self.found("ConceptMap")] == ["sct"]

    def test_code_systems_by_version(self) -> None:
        days = sorted({row[1] for name in RELEASES for rows in self.by_kind(name) for row in rows})
        found = self.found("CodeSystem", system=SCT)
        assert [one["version"] for one in found] == [version(day) for day in reversed(days)]
        for day in (days[0], days[-1]):
            for words in ({"version": version(day)}, {"url": SCT + "|" + version(day)}):
                one = self.found("CodeSystem", **{"url": SCT, **words})
                assert [each["version"] for each in one] == [version(day)]
                assert self.gateway.fhir("CodeSystem/" + one[0]["id"])[1] == one[0]
        for words in ({"url": "http://loinc.org"}, {"version": version("20200101")},
                      {"url": "http://loinc.org,http://snomed.info/xsct"},
                      {"url": SCT, "system": "http://loinc.org"},
                      {"url": SCT + "|" + version(days[0]), "version": version(days[-1])}):
            assert self.found("CodeSystem", **words) == []
        both = {version(days[0]), version(days[-1])}
        for words in ({"version": ",".join(both)},
                      {"url": ",".join([*(SCT + "|" + one for one in both), "http://loinc.org"])}):
            assert {one["version"] for one in self.found("CodeSystem", **words)} == both
        found = self.found("CodeSystem", url="http://snomed.info/xsct," + SCT)
        assert len(found) == len(days)
        assert self.gateway.fhir("CodeSystem/sct.20200131")[1]["id"] == "sct.20200131"

    def by_kind(self, name: str) -> list[list[Row]]:
        return list(read(self.service.releases / name).by_kind.values())

    @pytest.mark.parametrize("name, day", (("sct", LATEST), ("sct.20190131", "20190131")))
    def test_operations_on_a_code_system(self, name: str, day: str) -> None:
        limb, wrist = self.codes["limb"], self.codes["wrist"]
        for what, word, words in (("$lookup", "system", {"code": wrist}),
                                  ("$validate-code", "url", {"code": wrist}),
                                  ("$subsumes", "system", {"codeA": limb, "codeB": wrist})):
            on_it = self.gateway.fhir("CodeSystem/%s/%s" % (name, what), **words)
            beside = {word: SCT, **words, **({} if day == LATEST else {"version": version(day)})}
            assert on_it[0] == 200
            assert on_it == self.gateway.fhir("CodeSystem/" + what, **beside), what
        words = {"system": SCT, "code": wrist}
        assert self.gateway.fhir("CodeSystem/%s/$lookup" % name, **words)[0] == 200
        words = {"system": "http://loinc.org", "code": wrist}
        assert self.gateway.fhir("CodeSystem/%s/$lookup" % name, **words)[0] == 400

    def test_metadata(self) -> None:
        said = self.gateway.fhir("metadata")[1]
        assert said["software"]["version"] == VERSION
        wanted = ["http://hl7.org/fhir/CapabilityStatement/terminology-server"]
        assert said["instantiates"] == wanted
        assert self.gateway.fhir("metadata", _summary="true")[0] == 200


class TestBatches(Whole):
    def batch(self, *entries: Json, base: str = "/fhir", prefer: str = "") -> tuple[int, Json]:
        body = json.dumps({"resourceType": "Bundle", "type": "batch", "entry": entries}).encode()
        headers = {"Content-Type": FHIR_JSON, "Prefer": prefer}
        answer = self.gateway.send("POST", base, body, headers)
        return answer.status, answer.json()

    def get(self, url: str) -> Json:
        return {"request": {"method": "GET", "url": url}}

    def test_answers_are_those_of_each_request(self) -> None:
        urls = ["%s?system=%s&code=%s" % (LOOKUP, SCT, self.codes["wrist"]),
                "%s?url=%s&code=%s" % (VALIDATE, SCT, "999"),
                "CodeSystem/sct/$subsumes?codeA=%s&codeB=%s" % (("138875005",) * 2),
                "ValueSet?url=%s?fhir_vs" % SCT, "%s?system=%s&code=999" % (LOOKUP, SCT),
                "%s?system=%s&code=138875005&x=y" % (LOOKUP, SCT), "Patient/1"]
        status, said = self.batch(*map(self.get, urls))
        assert (status, said["type"], len(said["entry"])) == (200, "batch-response", len(urls))
        for url, entry in zip(urls, said["entry"]):
            alone = self.gateway.send("GET", "/fhir/" + url)
            assert entry["response"]["status"].startswith("%d " % alone.status), url
            found = entry["resource" if alone.status == 200 else "response"]
            assert (found if alone.status == 200 else found["outcome"]) == alone.json()

    def test_bodies(self) -> None:
        code = {"name": "coding", "valueCoding": {"system": SCT, "code": self.codes["limb"]}}
        request = {"method": "POST", "url": LOOKUP}
        resource = {"resourceType": "Parameters", "parameter": [code]}
        said = self.batch({"request": request, "resource": resource}, {"request": request})[1]
        assert [one["response"]["status"][:3] for one in said["entry"]] == ["200", "400"]
        summary = self.get("metadata?_summary=true")
        for prefer, wanted in (("", "200"), ("handling=strict", "400")):
            said = self.batch(summary, prefer=prefer)[1]
            assert said["entry"][0]["response"]["status"][:3] == wanted

    def test_one_pin(self) -> None:
        one = self.get("%s?system=%s&code=%s" % (LOOKUP, SCT, self.codes["wrist"]))
        said = self.batch(one, one, base="/pin/1/fhir/")[1]
        versions = [told(entry["resource"], "version") for entry in said["entry"]]
        assert versions == [[version("20190131")]] * 2

    def test_how_many(self) -> None:
        one = self.get("%s?url=%s&code=%s&date=2020-02-02" % (VALIDATE, SCT, self.codes["limb"]))
        status, said = self.batch(*[one] * limits.BATCH_ENTRIES)
        assert (status, len(said["entry"])) == (200, limits.BATCH_ENTRIES)
        assert {entry["response"]["status"] for entry in said["entry"]} == {"200 OK"}
        assert self.batch(*[one] * (limits.BATCH_ENTRIES + 1))[0] == 400
        expand = self.get("%s?url=%s?fhir_vs&includeDesignations=true" % (EXPAND, SCT))
        status, said = self.batch(*[expand] * limits.BATCH_ENTRIES)
        assert (status, issue(said)) == (422, "too-costly")

    @pytest.mark.parametrize("body, status", (
        (b"", 400),
        (b"[]", 400),
        (b'{"resourceType":"Parameters"}', 400),
        (b'{"resourceType":"Bundle","type":"transaction"}', 400),
        (b'{"resourceType":"Bundle","type":"batch","entry":7}', 400),
        (b'{"resourceType":"Bundle","type":"batch","entry":[7]}', 400),
        (b'{"resourceType":"Bundle","type":"batch","entry":[{"request":{}}]}', 400),
        (b" " * (limits.FHIR_BODY_BYTES + 1), 413)))
    def test_what_is_none(self, body: bytes, status: int) -> None:
        answer = self.gateway.send("POST", "/fhir", body, {"Content-Type": FHIR_JSON})
        assert answer.status == status
        said = self.batch({"request": {"method": "DELETE", "url": "CodeSystem/sct"}})[1]
        assert said["entry"][0]["response"]["status"] == "405 Method Not Allowed"


class TestShared(Asked):
    def test_associations_of_a_store_without_members(self) -> None:
        """They are kept in each layout."""
        url = "%s?fhir_vs=refset/%s" % (SCT, SAME_AS)
        said = self.gateway.fhir(EXPAND, url=url)[1]["expansion"]
        found = {one["code"] for one in said["contains"]}
        assert found == {self.codes["radius"], self.codes["lost"]}
        words = {"system": SCT, "code": self.codes["radius2"], "reverse": "true"}
        said = self.gateway.fhir(TRANSLATE, **words)[1]
        assert [one["concept"]["code"] for one in parts_of(said, "match")] == [self.codes["radius"]]
        assert EDITION in parts_of(said, "match")[0]["concept"]["version"]
