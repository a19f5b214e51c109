"""CodeSystem/$lookup: versions, dates, codes, properties."""

from typing import Any
from urllib.parse import urlencode

import pytest

from .asked import Asked
from .fixtures import (
    EDITION, SCT, Json, issue, parts_of, properties, told, value, version, with_hyphens)

LOOKUP = "CodeSystem/$lookup"
# The version of the release in force at the beginning of 2018, whose rows are of some days before.
IN_FORCE = [version("20170731")]


# Days, and of each the greatest one up to it that a row of the releases has.
ASKED = ("20150131", "20170730", "20180710", "20180720", "20200130", "20210130", "20220731")
RELEASES_IN_FORCE = (
    "20150131", "20150131", "20180705", "20180720", "20190131", "20200731", "20220731")


class TestLookup(Asked):
    def ask(self, code: str, **words: Any) -> tuple[int, Json]:
        code = self.codes.get(code, code)
        return self.gateway.fhir(LOOKUP, system=SCT, code=code, **words)

    def test_then(self) -> None:
        status, said = self.ask("wrist", version=version("20180101"))
        assert (status, told(said, "display")) == (200, ["Fracture of wrist (disorder)"])
        assert (told(said, "version"), told(said, "sctd-date")) == (IN_FORCE, ["2018-01-01"])
        found = properties(said)
        assert found["parent"] == [self.codes["injury"]]
        assert (found["inactive"], found["sufficientlyDefined"]) == ([False], [False])
        assert found[self.codes["site"]] == [self.codes["body"]]
        assert found["effectiveTime"] == ["20150131"]

    def test_latest(self) -> None:
        said = self.ask("wrist")[1]
        assert (told(said, "version"), told(said, "sctd-date")) == ([version("20220731")], [])
        assert properties(said)["inactive"] == [True]
        assert "parent" not in properties(said)

    @pytest.mark.parametrize("day, status", (("20210130", False), ("20210131", True)))
    def test_day_before_and_day_of(self, day: str, status: bool) -> None:
        assert properties(self.ask("wrist", version=version(day))[1])["inactive"] == [status]

    @pytest.mark.parametrize("date", (
        "2018-01-01", "2018-01-01T23:59:00+01:00", "2018-01-01T00:00:00.5Z",
        "2018-01-01T23:59:60-14:00"))
    def test_date_of_a_record(self, date: str) -> None:
        said = self.ask("wrist", date=date)[1]
        assert (told(said, "version"), told(said, "sctd-date")) == (IN_FORCE, ["2018-01-01"]), date

    def test_date_later_than_the_store(self) -> None:
        said = self.ask("wrist", date="2030-01-01")[1]
        assert told(said, "version") == [version("20220731")]
        assert told(said, "sctd-date") == ["2030-01-01"]

    @pytest.mark.parametrize("day, release", zip(ASKED, RELEASES_IN_FORCE))
    def test_release_in_force(self, day: str, release: str) -> None:
        """The greatest day of a row up to the one that is asked for."""
        for words in ({"version": version(day)}, {"date": with_hyphens(day)}):
            said = self.ask("root", **words)[1]
            assert told(said, "version") == [version(release)], (day, words)
            assert told(said, "sctd-date") == [with_hyphens(day)], (day, words)

    @pytest.mark.parametrize("day", ("19990101", "20150130"))
    def test_days_before_the_store(self, day: str) -> None:
        """Nothing is known of them, whatever is asked."""
        code = self.codes["root"]
        both = {"system": SCT, "codeA": code, "codeB": code}
        for path, words in ((LOOKUP, {"system": SCT, "code": code, "version": version(day)}),
                            (LOOKUP, {"system": SCT, "code": code, "date": with_hyphens(day)}),
                            ("CodeSystem/$validate-code",
                             {"url": SCT, "code": code, "date": with_hyphens(day)}),
                            ("CodeSystem/$subsumes", {**both, "version": version(day)}),
                            ("ValueSet/$expand", {"url": version(day) + "?fhir_vs"}),
                            ("ConceptMap/$translate",
                             {"url": SCT + "?fhir_cm=900000000000527005", "system": SCT,
                              "code": code, "date": with_hyphens(day)})):
            status, said = self.gateway.fhir(path, **words)
            assert (status, issue(said)) == (404, "not-found"), path
            why = "the store knows nothing of the day %s: its first is 20150131" % day
            assert said["issue"][0]["diagnostics"] == why

    def test_date_and_version_of_one_day(self) -> None:
        status, said = self.ask("wrist", date="2018-01-01", version=version("20180101"))
        assert (status, told(said, "version")) == (200, IN_FORCE)

    def test_date_and_version_of_one_release(self) -> None:
        """So a client that asks for a date may ask again with the version of the answer."""
        for day, date in (("20180101", "2018-01-02"), ("20220731", "2030-01-01")):
            status, said = self.ask("wrist", date=date, version=version(day))
            assert (status, told(said, "sctd-date")) == (200, [date]), day

    def test_date_and_version_that_differ(self) -> None:
        for date in ("2018-07-05", "2017-07-30"):
            status, said = self.ask("wrist", date=date, version=version("20180101"))
            assert (status, issue(said)) == (400, "conflict"), date

    def test_version_later_than_the_store(self) -> None:
        status, said = self.ask("wrist", version=version("20220801"))
        assert (status, issue(said)) == (404, "not-found")

    def test_other_edition(self) -> None:
        assert self.ask("wrist", version=SCT + "/731000124108/version/20180101")[0] == 404

    def test_edition_alone(self) -> None:
        said = self.ask("wrist", version=SCT + "/" + EDITION)[1]
        assert told(said, "version") == [version("20220731")]

    @pytest.mark.parametrize("one", (
        "20180101", SCT + "/x", version("20181301"), version("20180230"), version("2018"),
        version("201801011"), version("20180101") + "\n", version("\u0662" * 8),
        "http://snomed.info/xsct/1/version/20180101"))
    def test_bad_versions(self, one: Any) -> None:
        assert self.ask("wrist", version=one)[0] == 400, one

    @pytest.mark.parametrize("one", (
        "2018", "2018-06", "2018-02-30", "yesterday", "20180101", "2018-01-01 ", "2018-01-01T",
        "2018-01-01Tnoon", "2018-01-01T24:00:00Z", "2018-01-01T23:60:00Z", "2018-01-01T23:59:61Z",
        "2018-01-01T23:59:00+14:01", "0018-01-01", "\u0662018-01-01"))
    def test_bad_dates(self, one: str) -> None:
        assert self.ask("wrist", date=one)[0] == 400, one

    def test_unknown_codes(self) -> None:
        wrist = self.codes["wrist"]
        for one in ("1105008", "abc", "1", "0", "1105007:363698007=1063000", "9" * 18, "1" * 3000,
                    wrist + "\n", "5012010", "0" + wrist, "+" + wrist, wrist + " 20180101",
                    wrist + "\nPIN 1", "\u0661105007"):
            status, said = self.ask(one)
            assert (status, said["resourceType"]) == (404, "OperationOutcome"), one

    def test_before_it_was_there(self) -> None:
        assert self.ask("radius", version=version("20200730"))[0] == 404
        assert self.ask("radius", version=version("20200731"))[0] == 200

    def test_no_code_and_no_system(self) -> None:
        fhir = self.gateway.fhir
        assert issue(fhir(LOOKUP, system=SCT)[1]) == "required"
        assert issue(fhir(LOOKUP, code="138875005")[1]) == "required"
        assert fhir(LOOKUP, code="", system=SCT)[0] == 400
        assert fhir(LOOKUP, system="http://loinc.org", code="138875005")[0] == 404

    def test_concrete_values_keep_their_digits(self) -> None:
        target = "/fhir/CodeSystem/$lookup?system=%s&code=%s" % (SCT, self.codes["drug"])
        assert b'"valueDecimal":500.10}' in self.gateway.send("GET", target).body
        said = self.ask("drug", version=version("20191231"))[1]
        assert properties(said)[self.codes["strength"]] == [500]
        assert properties(said)[self.codes["unit"]] == ["mg"]

    def test_properties_that_are_wanted(self) -> None:
        said = self.ask("limb", property=["child", "inactive"])[1]
        assert set(properties(said)) == {"child", "inactive"}
        children = {self.codes[name] for name in ("radius", "carpal", "radius2")}
        assert set(properties(said)["child"]) == children
        assert parts_of(said, "designation") == []

    def test_all_properties(self) -> None:
        found = properties(self.ask("limb", property="*")[1])
        assert len(found["child"]) == 3
        assert found["parent"] == [self.codes["injury"]]

    def test_normal_form(self) -> None:
        said = self.ask("drug", property="normalFormTerse", version=version("20191231"))[1]
        codes = self.codes
        assert properties(said)["normalFormTerse"] == [
            '=== %s:{%s=%s,%s=#500,%s="mg"}' % (
                codes["product"], codes["ingredient"], codes["substance"], codes["strength"],
                codes["unit"])]
        # Without a parent there is nothing that an expression could begin with.
        for code in ("root", "wrist"):
            said = self.ask(code, property=["normalFormTerse", "inactive"])[1]
            assert list(properties(said)) == ["inactive"], code

    def test_normal_form_with_terms(self) -> None:
        said = self.ask("drug", property="normalForm", version=version("20191231"))[1]
        codes = self.codes
        assert properties(said)["normalForm"] == [
            "=== %s|Medicinal product (product)|:{%s|Has active ingredient (attribute)|="
            '%s|Paracetamol (substance)|,%s|Has strength value (attribute)|=#500,'
            '%s|Has unit text (attribute)|="mg"}'
            % tuple(codes[name] for name in "product ingredient substance strength unit".split())
        ]
        said = self.ask("root", property=["normalForm", "inactive"])[1]
        assert list(properties(said)) == ["inactive"]

    def test_names_of_properties(self) -> None:
        """Of each code, where properties are requested; in the language that is requested."""
        said = self.ask("radius2", property="*")[1]
        names = {words["code"]: words.get("description") for words in parts_of(said, "property")}
        assert names["parent"] == "Fracture of bone of upper limb (disorder)"
        assert names["moduleId"] == "SNOMED CT core module (core metadata concept)"
        assert names["inactive"] is names["effectiveTime"] is None
        said = self.ask("injury", property=["child", self.codes["site"]], date="2018-01-01",
                        displayLanguage="de")[1]
        wrist = next(words for words in parts_of(said, "property")
                     if words["value"] == self.codes["wrist"])
        assert wrist == {
            "code": "child", "value": self.codes["wrist"], "description": "Handgelenksfraktur"}
        assert not any("description" in one for one in parts_of(self.ask("wrist")[1], "property"))

    def test_role_groups(self) -> None:
        """Only if they are requested, with the attributes of each as their parts."""
        codes, date = self.codes, "2018-01-01"

        def groups(code: str, **words: Any) -> list[list[Json]]:
            said = self.ask(code, **words)[1]
            parts = [one["part"] for one in said["parameter"] if one["name"] == "property"]
            return [part[1:] for part in parts if value(part[0]) == "609096000"]

        assert groups("wrist", date=date) == []
        for name in ("609096000", "*"):
            found = groups("wrist", date=date, property=name)
            assert [[{one["name"]: value(one) for one in part["part"]} for part in group]
                    for group in found] == [[
                {"code": codes["form"], "value": codes["fracture"],
                 "description": "Fracture (morphologic abnormality)"},
                {"code": codes["site"], "value": codes["body"],
                 "description": "Wrist region structure (body structure)"}]]
        drug = groups("drug", date=date, property="609096000")[0]
        assert [value(part["part"][1]) for part in drug] == [codes["substance"], 500, "mg"]
        assert groups("root", property="609096000") == []

    def test_designations_and_language(self) -> None:
        for language in ("de", "de-CH", "DE"):
            said = self.ask("wrist", displayLanguage=language)[1]
            assert told(said, "display") == ["Handgelenksfraktur"], language
        uses = [one["use"]["code"] for one in parts_of(said, "designation")]
        assert sorted(uses) == ["900000000000003001"] + ["900000000000013009"] * 2
        assert told(self.ask("wrist", displayLanguage="fr")[1], "display") == [
            "Fracture of wrist joint region (disorder)"]

    @pytest.mark.parametrize("languages, display", (
        ("fr, de;q=0.5", "Handgelenksfraktur"),
        ("en;q=0.5,de", "Handgelenksfraktur"),
        ("de;q=0.5,en", "Fracture of wrist joint region (disorder)"),
        ("de;q=0, en;q=0.1", "Fracture of wrist joint region (disorder)"),
        ("fr,*;q=0.1,de;q=0.05", "Handgelenksfraktur"),
        ("ja,fr", "Fracture of wrist joint region (disorder)")))
    def test_list_of_languages(self, languages: str, display: str) -> None:
        """The first one that has a term, whether or not the client wants all to be understood."""
        words = {"system": SCT, "code": self.codes["wrist"], "displayLanguage": languages}
        for prefer in ("", "handling=strict"):
            target = "/fhir/%s?%s" % (LOOKUP, urlencode(words))
            answer = self.gateway.send("GET", target, headers={"Prefer": prefer})
            assert (answer.status, told(answer.json(), "display")) == (200, [display]), languages
        said = self.gateway.fhir(
            "ValueSet/$expand", url="%s?fhir_vs=isa/%s" % (SCT, self.codes["wrist"]),
            displayLanguage=languages)[1]["expansion"]
        assert [one["display"] for one in said["contains"]] == [display]

    @pytest.mark.parametrize("languages", (
        "de,", ",", "de;q=2", "de;q=x", "de;q=0.1234", "de;r=1", "de en", "de,e"))
    def test_lists_that_are_none(self, languages: str) -> None:
        assert self.ask("wrist", displayLanguage=languages)[0] == 400

    def test_properties_that_nobody_has(self) -> None:
        """Which are passed over and told, or refused where the client wants that."""
        target = "/fhir/%s?system=%s&code=138875005&property=inactive&property=" % (LOOKUP, SCT)
        for name in ("ancestor", "normalform", "inactiv"):
            answer = self.gateway.send("GET", target + name)
            assert (answer.status, len(told(answer.json(), "warning"))) == (200, 1), name
            wish = {"Prefer": "handling=strict"}
            assert self.gateway.send("GET", target + name, headers=wish).status == 400
        for name in ("*", "designation", "display", self.codes["site"]):
            answer = self.gateway.send("GET", target + name)
            assert told(answer.json(), "warning") == [], name

    def test_post_with_a_coding(self) -> None:
        coding = {"system": SCT, "code": self.codes["wrist"], "version": version("20180101")}
        posted = {"name": "coding", "valueCoding": coding}
        status, said = self.gateway.posted(LOOKUP, posted)
        assert (status, told(said, "display")) == (200, ["Fracture of wrist (disorder)"])

    def test_version_beside_a_coding(self) -> None:
        coding = {"name": "coding", "valueCoding": {"system": SCT, "code": self.codes["wrist"]}}
        for day, release, name in (
                ("20180101", "20170731", "Fracture of wrist (disorder)"),
                ("20190101", "20180731", "Fracture of wrist joint region (disorder)")):
            said = self.gateway.posted(
                LOOKUP, coding, {"name": "version", "valueString": version(day)})[1]
            assert (told(said, "version"), told(said, "display")) == ([version(release)], [name])

    def test_two_ways_to_name_the_code(self) -> None:
        coding = {"system": SCT, "code": self.codes["wrist"]}
        status, said = self.gateway.posted(
            LOOKUP, {"name": "coding", "valueCoding": coding},
            {"name": "code", "valueCode": self.codes["limb"]}, {"name": "system", "valueUri": SCT})
        assert (status, issue(said)) == (400, "conflict")

    @pytest.mark.parametrize("coding, status", (
        ({"code": "138875005"}, 400),
        ({"system": SCT}, 400),
        (7, 400),
        ([], 400),
        ({"system": SCT, "code": 138875005}, 400),
        ({"system": "http://loinc.org", "code": "138875005"}, 404)))
    def test_bad_codings(self, coding: Any, status: int) -> None:
        part = {"name": "coding", "valueCoding": coding}
        assert self.gateway.posted(LOOKUP, part)[0] == status, coding

    def test_pin(self) -> None:
        gateway, wrist = self.gateway, self.codes["wrist"]
        said = gateway.fhir(LOOKUP, "/pin/1/fhir/", system=SCT, code=wrist)[1]
        assert told(said, "version") == [version("20190131")]
        assert gateway.fhir(LOOKUP, "/pin/0/fhir/", system=SCT, code=wrist)[0] == 404
        headers = gateway.send("GET", "/pin/2/fhir/metadata").headers
        assert (headers["x-sctd-pin"], headers["x-sctd-receipt"]) == (
            "2", "RECEIPT 2: OK 2 18 20210131")

    def test_answers_and_refusals_are_of_a_pin(self) -> None:
        for code in (self.codes["wrist"], "138875005", "999999"):
            target = "/fhir/CodeSystem/$lookup?system=%s&code=%s" % (SCT, code)
            answer = self.gateway.send("GET", target)
            assert answer.headers["x-sctd-pin"] == "3", code
            again = self.gateway.send("GET", "/pin/3" + target)
            assert (again.status, again.body) == (answer.status, answer.body)
            assert again.headers["x-sctd-receipt"] == answer.headers["x-sctd-receipt"]

    def test_designation_values(self) -> None:
        terms = [one["value"]
                 for one in parts_of(self.ask("wrist", date="2016-01-01")[1], "designation")]
        assert sorted(terms) == [
            "Broken wrist", "Fracture of wrist (disorder)", "Handgelenksfraktur"]
        assert all(value(part) for part in self.ask("wrist")[1]["parameter"] if "part" not in part)
