"""Whole packages: preferred terms, why concepts were retired, reference sets, simple maps."""

import asyncio
import os
import re
from collections.abc import Awaitable, Callable, Sequence
from types import SimpleNamespace
from typing import Any, cast
from urllib.parse import urlencode

import pytest
from make_release import sctid
from sctd_service.gateway import languages, limits, refsets
from sctd_service.gateway.hub import HubGone, Reply
from sctd_service.gateway.page_history import Names, memberships, refset_entries
from sctd_service.gateway.pool import Codes, Member, Session
from sctd_service.gateway.problems import NO_MEMBERS, Problem
from sctd_service.snomed import RefsetMember
from sctd_service.gateway.store import View, called_of, members_of

from . import demo_members as demo
from .asked import Asked
from .fixtures import SCT, Json, Service, issue, parts_of, properties, told, version

LOOKUP, EXPAND = "CodeSystem/$lookup", "ValueSet/$expand"
TRANSLATE = "ConceptMap/$translate"
US_TAG, GB_TAG = "en-x-sctlang-90000000-00005090-07", "en-x-sctlang-90000000-00005080-04"
CONTEXT = "http://snomed.info/fhir/StructureDefinition/designation-use-context"
# The reference set, how it has a description, and as what.
Context = tuple[str, str, str]
TOO_MANY = "more than [0-9]+ "
FSN, SYNONYM = "900000000000003001", "900000000000013009"


class Whole(Asked):
    """A store of layout 3 with whole packages."""

    of = "whole_service"

    def lookup(self, name: str, **words: Any) -> Json:
        code = self.codes[name]
        status, said = self.gateway.fhir(LOOKUP, system=SCT, code=code, **words)
        assert status == 200, said
        return said

    def display(self, name: str, **words: Any) -> str:
        found: str = told(self.lookup(name, **words), "display")[0]
        return found

    def refset(self, name: str, **words: Any) -> tuple[int, Json]:
        url = "%s?fhir_vs=refset/%s" % (SCT, self.codes[name])
        return self.gateway.fhir(EXPAND, url=url, **words)

    def expanded(self, name: str, **words: Any) -> Json:
        status, said = self.refset(name, **words)
        assert status == 200, said
        found: Json = said["expansion"]
        return found

    def named(self, *names: str) -> list[str]:
        return sorted((self.codes[name] for name in names), key=int)

    def in_set(self, **words: Any) -> list[str]:
        return [one["code"] for one in self.expanded("set", **words).get("contains", [])]


class TestDisplays(Whole):
    def test_languages_of_the_house(self) -> None:
        assert self.display("anaemia") == "Anaemia"
        # The first language has no term for it, the second has one.
        assert self.display("wrist", date="2018-01-01") == "Wrist fracture"
        # Neither has one: the fully specified name.
        name = "Paracetamol 500 mg oral tablet (clinical drug)"
        assert self.display("drug") == name

    @pytest.mark.parametrize("tag, display", (
        ("en-US", "Anemia"),
        ("EN-us", "Anemia"),
        ("en-GB", "Anaemia"),
        (US_TAG, "Anemia"),
        (GB_TAG, "Anaemia"),
        ("en", "Anaemia"),  # The house's English.
        ("en-ZA", "Anaemia"),
        ("de", "An\u00e4mie"),
        ("de-DE", "An\u00e4mie"),
        ("fr", "Anemia (disorder)"),
        ("en-AU", "Anemia (disorder)")))  # Its reference set isn't there.
    def test_language_asked_for(self, tag: Any, display: str) -> None:
        assert self.display("anaemia", displayLanguage=tag) == display, tag

    @pytest.mark.parametrize("tag", ("en-GB", "fr"))
    def test_only_the_language_asked_for(self, tag: str) -> None:
        display = self.display("wrist", date="2018-01-01", displayLanguage=tag)
        assert display == "Fracture of wrist (disorder)", tag

    @pytest.mark.parametrize("date, display", (
        ("2017-07-30", "Broken wrist"),
        ("2017-07-31", "Wrist fracture"),
        ("2018-07-10", "Wrist fracture")))  # Another one is acceptable for some days.
    def test_preferred_on_the_day(self, date: str, display: str) -> None:
        assert self.display("wrist", date=date) == display, date

    @pytest.mark.parametrize("tag", (
        "en-x-sctlang-", "en-x-sctlang-12", "en-x-sctlang-90000000-00005090-08",
        "en-x-sctlang-9000000000005090-07", "en-x-sctlang-90000000-0000509a-07",
        "en-x-sctlang-90000000-00005090-07\n", "x-sctlang-90000000-00005090-07",
        "900000000000509007", ""))
    def test_wrong_tags(self, tag: str) -> None:
        status, said = self.gateway.fhir(
            LOOKUP, system=SCT, code=self.codes["wrist"], displayLanguage=tag)
        assert (status, issue(said)) == (400, "invalid"), tag

    def test_where_else_a_concept_is_shown(self) -> None:
        url = "%s?fhir_vs=isa/%s" % (SCT, self.codes["anaemia"])
        fhir, code = self.gateway.fhir, self.codes["anaemia"]
        cases: list[tuple[dict[str, str], str]] = [({}, "Anaemia")]
        for words, display in [*cases, ({"displayLanguage": "en-US"}, "Anemia")]:
            said = fhir(EXPAND, url=url, **words)[1]["expansion"]["contains"]
            assert [one["display"] for one in said] == [display]
            said = fhir("CodeSystem/$validate-code", url=SCT, code=code, **words)[1]
            assert told(said, "display") == [display]

    def test_a_definition_is_no_name(self) -> None:
        words = {"url": SCT, "code": self.codes["wrist"], "display": demo.DEFINITION}
        said = self.gateway.fhir("CodeSystem/$validate-code", **words)[1]
        assert told(said, "result") == [False]
        found = self.gateway.fhir(EXPAND, url=SCT + "?fhir_vs", filter="a break of bones")
        assert found[1]["expansion"]["total"] == 0
        assert self.gateway.send("GET", "/suggest?text=a+break").text == "[]"
        assert "No concept has a term" in self.gateway.send("GET", "/?q=A+break").text


    def test_languages_that_are_searched(self) -> None:
        """Those of the house, and the one that is asked for."""
        for text, tag, names in (
                ("handgelenk", "", ""), ("handgelenk", "en-GB", ""), ("handgelenk", "de", "wrist"),
                ("wrist frac", "", "wrist"), ("wrist frac", "de", "wrist")):
            words = {"displayLanguage": tag} if tag else {}
            said = self.gateway.fhir(
                EXPAND, url=SCT + "?fhir_vs", filter=text, date="2018-01-01", **words)[1]
            found = [one["code"] for one in said["expansion"].get("contains", [])]
            assert found == self.named(*names.split()), (text, tag)
        assert self.gateway.send("GET", "/suggest?text=handgelenk").text == "[]"


class TestTags:
    @pytest.mark.parametrize("tags, house, wanted", (
        ("de", (demo.US, demo.GB), "de en"), ("*", (demo.US, demo.GERMAN), "de en"),
        ("fr-CH, *", (demo.GB,), "en fr"), ("de", (), ""), ("de", (demo.GB, demo.CTV3), "")))
    def test_languages_that_are_searched(self, tags: str, house: tuple[str, ...],
                                         wanted: str) -> None:
        """All of them where the house has none, or one whose language isn't known."""
        asked = languages.language_of(tags, house)
        assert sorted(languages.searched_in(asked, house)) == wanted.split()

    @pytest.mark.parametrize("tag, house, code, refsets_of", (
        ("en", (), "en", (demo.US, demo.GB)),
        ("en", (demo.GB,), "en", (demo.GB,)),
        ("en", (demo.GERMAN,), "en", (demo.US, demo.GB)),
        ("de", (demo.GB, demo.GERMAN), "de", (demo.GERMAN,)),
        ("de", ("2041000195100", demo.GERMAN), "de", ("2041000195100", demo.GERMAN)),
        ("de-CH", (demo.GERMAN,), "de", ("2041000195100",)),
        ("de-CH-1996", (), "de", ("2041000195100",)),
        ("en-nhs-clinical", (), "en", ("999001261000000100",)),
        ("it", (demo.US,), "it", ()),
        ("es-419", (), "es", ("450828004",)),
        ("es-MX", (), "es", ("448879004",))))
    def test_what_a_tag_means(self, tag: str, house: Any, code: str, refsets_of: Any) -> None:
        found = languages.language_of(tag, house)
        assert (found.code, found.refsets) == (code, refsets_of), tag

    def test_a_tag_of_each_reference_set(self) -> None:
        known = {*languages.DIALECTS.values(), *sum(languages.LANGUAGES.values(), ())}
        other = str(sctid(4711, "00"))
        for refset in (*known, other):
            tag = languages.tag_of(refset)
            assert languages.language_of(tag, ()).refsets == (refset,), tag
        assert languages.tag_of(demo.GB) == "en-GB"
        assert languages.tag_of(demo.GERMAN) == "de-x-sctlang-72213000-4"
        with pytest.raises(Problem):
            languages.language_of("de_CH", ())


class TestDesignations(Whole):
    def contexts(self, said: Json) -> dict[str, list[Context]]:
        """Of each term the reference sets that have it, how, and as what."""
        found: dict[str, list[Context]] = {}
        for one in said["parameter"]:
            if one["name"] == "designation":
                term = next(part for part in one["part"] if part["name"] == "value")
                found[term["valueString"]] = [context(more) for more in one.get("extension", [])]
        return found

    def test_which_are_preferred_and_acceptable_where(self) -> None:
        gb, us = demo.GB, demo.US
        preferred, acceptable = demo.PREFERRED, demo.ACCEPTABLE
        wanted: dict[str, list[Context]] = {
            "Anemia (disorder)": [(gb, preferred, FSN), (us, preferred, FSN)],
            "Anemia": [(gb, acceptable, SYNONYM), (us, preferred, SYNONYM)],
            "Anaemia": [(gb, preferred, SYNONYM)],
            "An\u00e4mie": []}
        assert self.contexts(self.lookup("anaemia", date="2018-01-01")) == wanted
        wanted["Anemia"].pop(0)
        assert self.contexts(self.lookup("anaemia", date="2019-01-31")) == wanted

    def test_of_the_language_asked_for(self) -> None:
        found = self.contexts(self.lookup("anaemia", displayLanguage="de"))
        assert found["An\u00e4mie"] == [(demo.GERMAN, demo.PREFERRED, SYNONYM)]
        assert found["Anemia (disorder)"] == []

    def test_uses(self) -> None:
        found = {one["value"]: one["use"] for one in parts_of(self.lookup("wrist"), "designation")}
        assert found[demo.DEFINITION] == {
            "system": SCT, "code": demo.TEXT_DEFINITION, "display": "Definition"}
        assert found["Wrist fracture"]["display"] == "Synonym"

    def test_of_an_expansion(self) -> None:
        url = "%s?fhir_vs=isa/%s" % (SCT, self.codes["anaemia"])
        said = self.gateway.fhir(EXPAND, url=url, includeDesignations="true")[1]
        designations = said["expansion"]["contains"][0]["designation"]
        found = {one["value"]: one for one in designations}
        assert [context(one) for one in found["Anaemia"]["extension"]] == [
            (demo.GB, demo.PREFERRED, SYNONYM)]
        assert found["Anaemia"]["use"]["code"] == SYNONYM
        assert "extension" not in found["An\u00e4mie"]


def context(extension: Json) -> Context:
    assert extension["url"] == CONTEXT, extension
    parts = {one["url"]: one["valueCoding"] for one in extension["extension"]}
    assert all(one["system"] == SCT for one in parts.values()) and len(parts) == 3, parts
    return parts["context"]["code"], parts["role"]["code"], parts["type"]["code"]


class TestReasons(Whole):
    @pytest.mark.parametrize("name, date, reasons", (
        ("wrist", "2021-01-30", []),
        ("wrist", "2021-01-31", [demo.AMBIGUOUS]),
        ("wrist", "2022-07-30", [demo.AMBIGUOUS]),
        ("wrist", "2022-07-31", [demo.DUPLICATE]),
        ("radius", "2022-07-31", [demo.DUPLICATE, demo.AMBIGUOUS]),
        ("lost", "2022-07-31", []),
        ("carpal", "2022-07-31", [demo.PENDING_MOVE, demo.AMBIGUOUS])))
    def test_why_a_concept_was_retired(self, name: str, date: str, reasons: Any) -> None:
        found = properties(self.lookup(name, date=date)).get("inactivationIndicator", [])
        assert found == reasons, (name, date)

    def test_where_it_is_asked_for(self) -> None:
        found = properties(self.lookup("wrist", property=["inactivationIndicator"]))
        assert found == {"inactivationIndicator": [demo.DUPLICATE]}
        found = properties(self.lookup("wrist", property=["inactive"]))
        assert found == {"inactive": [True]}


class TestRefsets(Whole):
    @pytest.mark.parametrize("day, names", (
        ("20170730", ("wrist",)),
        ("20170731", ("wrist", "limb")),
        ("20200131", ("limb",)),
        ("20210130", ("limb", "radius")),
        ("20210131", ("wrist", "limb", "radius")),
        ("20220731", ("wrist", "limb", "radius", "absent"))))
    def test_concepts_on_a_day(self, day: str, names: Any) -> None:
        system = {"system_version": SCT + "|" + version(day)}
        said = self.expanded("set", **system)
        found = [one["code"] for one in said["contains"]]
        assert (found, said["total"]) == (self.named(*names), len(names)), day

    def test_version_of_the_url(self) -> None:
        url = "%s?fhir_vs=refset/%s" % (version("20200131"), self.codes["set"])
        said = self.gateway.fhir(EXPAND, url=url)[1]["expansion"]
        assert [one["code"] for one in said["contains"]] == self.named("limb")

    def test_entries(self) -> None:
        said = self.expanded("set")["contains"]
        found = {one["code"]: (one["display"], one.get("inactive", False)) for one in said}
        assert found == {
            self.codes["wrist"]: ("Wrist fracture", True),
            self.codes["limb"]: ("Fracture of bone of upper limb (disorder)", False),
            self.codes["radius"]: ("Fracture of distal end of radius (disorder)", True),
            self.codes["absent"]: (self.codes["absent"], False)}

    def test_pages(self) -> None:
        whole = self.in_set()
        pages = [self.in_set(offset=at, count=1) for at in range(5)]
        assert pages == [[one] for one in whole] + [[]]
        said = self.expanded("set", count=0)
        assert (said.get("contains"), said["total"]) == (None, 4)

    def test_active_only(self) -> None:
        said = self.expanded("set", activeOnly="true")
        found = [one["code"] for one in said["contains"]]
        assert (found, said["total"]) == (self.named("limb"), 1)

    def test_filter(self) -> None:
        assert self.in_set(filter="fracture of wrist") == self.named("wrist")
        assert self.in_set(filter="carpal fracture") == []
        # Before it was remembered, of a day that nobody asked of.
        words = {"system_version": SCT + "|" + version("20200202"), "filter": "fracture of"}
        assert self.in_set(**words) == self.named("limb")

    def test_that_all_have_left(self) -> None:
        assert self.expanded("left")["total"] == 0
        before = {"system_version": SCT + "|" + version("20180101")}
        assert self.expanded("left", **before)["total"] == 1
        # Before the first member there was none.
        url = "%s?fhir_vs=refset/%s" % (version("20150131"), demo.INDICATORS)
        said = self.gateway.fhir(EXPAND, url=url)[1]
        assert said["expansion"]["total"] == 0

    def test_that_are_not_kept(self) -> None:
        for code, status, why in ((self.codes["never"], 422, "not-supported"),
                                  (self.codes["wrist"], 422, "not-supported"),
                                  (str(sctid(4711, "00")), 404, "not-found"),
                                  ("1105008", 400, "invalid"), ("", 400, "invalid")):
            url = "%s?fhir_vs=refset/%s" % (SCT, code)
            for path, words in ((EXPAND, {"url": url}),
                                (EXPAND, {"url": url, "filter": "fracture"}),
                                ("ValueSet/$validate-code",
                                 {"url": url, "system": SCT, "code": self.codes["wrist"]})):
                got, said = self.gateway.fhir(path, **words)
                assert (got, issue(said)) == (status, why), (path, code)

    def test_validate_code(self) -> None:
        url = "%s?fhir_vs=refset/%s" % (SCT, self.codes["set"])
        for name, day, valid in (("wrist", "20200130", True), ("wrist", "20200131", False),
                                 ("wrist", "20210131", True), ("carpal", "20210131", False),
                                 ("absent", "20220731", False)):
            said = self.gateway.fhir("ValueSet/$validate-code", url=url, system=SCT,
                                             code=self.codes[name], systemVersion=version(day))[1]
            assert told(said, "result") == [valid], (name, day)
            if name == "carpal":
                assert "in the reference set" in told(said, "message")[0]

    def test_which_there_are(self) -> None:
        for day, names in (("20220731", ("us", "gb", "indicators", "ctv3", "odd", "set")),
                           ("20180101", ("us", "gb", "ctv3", "odd", "set", "left"))):
            url = version(day) + "?fhir_vs=refset"
            said = self.gateway.fhir(EXPAND, url=url)[1]["expansion"]
            found = [one["code"] for one in said["contains"]]
            assert (found, said["total"]) == (self.named(*names), len(names)), day
        for name, valid in (("set", True), ("never", False), ("wrist", False)):
            said = self.gateway.fhir("ValueSet/$validate-code", url=SCT + "?fhir_vs=refset",
                                             system=SCT, code=self.codes[name])[1]
            assert told(said, "result") == [valid], name
        said = self.gateway.fhir(EXPAND, url=SCT + "?fhir_vs=refset", filter="wrists of")[1]
        assert said["expansion"]["contains"][0]["code"] == self.codes["set"]


class TestMaps(Whole):
    def ask(self, name: str, refset: str = demo.CTV3, **words: Any) -> tuple[int, Json]:
        url = "%s?fhir_cm=%s" % (SCT, refset)
        code = self.codes[name]
        return self.gateway.fhir(TRANSLATE, url=url, system=SCT, code=code, **words)

    @pytest.mark.parametrize("name, date, targets", (
        ("wrist", "2022-07-31", ["S23.."]), ("limb", "2019-01-30", ["X1"]),
        ("limb", "2019-01-31", ["X1", "X2"]), ("limb", "2020-01-31", ["X3", "X2"])))
    def test_targets_on_a_day(self, name: str, date: str, targets: Any) -> None:
        status, said = self.ask(name, date=date)
        assert (status, told(said, "result")) == (200, [True]), name
        found = parts_of(said, "match")
        concepts = [{"system": demo.CTV3_SYSTEM, "code": target} for target in targets]
        assert [one["concept"] for one in found] == concepts, (name, date)
        assert {one["equivalence"] for one in found} == {"relatedto"}
        assert {one["source"] for one in found} == {SCT + "?fhir_cm=" + demo.CTV3}

    @pytest.mark.parametrize("name", ("drug", "radius"))
    def test_without_a_target(self, name: str) -> None:
        status, said = self.ask(name)
        assert (status, told(said, "result")) == (200, [False]), name
        assert parts_of(said, "match") == []
        assert "no target" in told(said, "message")[0]

    def test_system_of_the_targets(self) -> None:
        assert self.ask("wrist", targetsystem=demo.CTV3_SYSTEM)[0] == 200
        for system in (SCT, "http://hl7.org/fhir/sid/icd-10"):
            assert self.ask("wrist", targetsystem=system)[0] == 404, system

    def test_map_of_the_house(self) -> None:
        """It says that this is one, where the store has no concept of it."""
        said = self.ask("limb", demo.HOUSE_MAP)[1]
        found = [one["concept"] for one in parts_of(said, "match")]
        assert found == [{"system": demo.HOUSE_SYSTEM, "code": "H1"}]
        assert self.ask("limb", str(sctid(4711, "00")))[0] == 404

    def test_what_is_no_simple_map(self) -> None:
        for refset, status in ((self.codes["set"], 404), (demo.INDICATORS, 404),
                               (self.codes["odd"], 422), (demo.SIMPLE_MAP, 422), ("1105008", 404)):
            assert self.ask("limb", refset)[0] == status, refset
        assert self.ask("limb", reverse="true")[0] == 422

    def test_names_of_what_took_the_place(self) -> None:
        said = self.ask("wrist", "900000000000526001")[1]
        found = parts_of(said, "match")[0]["concept"]
        assert found["code"] == self.codes["radius"]
        assert found["display"] == "Fracture of distal end of radius (disorder)"


class TestCapabilities(Whole):
    def test_what_is_new(self) -> None:
        said = self.gateway.fhir("metadata", mode="terminology")[1]
        for one in said["codeSystem"][0]["version"]:
            assert one["language"] == ["en-GB", "en-US"]
            assert "inactivationIndicator" in one["property"]
        said = self.gateway.fhir("metadata")[1]
        found = {one["type"]: one["operation"][0] for one in said["rest"][0]["resource"]}
        assert "fhir_vs=refset/CODE" in found["ValueSet"]["documentation"]
        assert "a simple map" in found["ConceptMap"]["documentation"]
        assert "documentation" not in found["CodeSystem"]


class TestPage(Whole):
    def page(self, name: str, **words: str) -> str:
        target = "/?" + urlencode({"q": self.codes[name], **words})
        answer = self.gateway.send("GET", target)
        assert answer.status == 200
        return answer.text

    def row(self, text: str, title: str) -> list[list[str]]:
        """The entries of a row of the table on both days, without their markup."""
        found = re.search(r'<th scope="row">%s</th>(.*?)</tr>' % title, text)
        if found is None:
            return []
        cells = re.findall(r"<td[^>]*>(.*?)</td>", found[1])
        return [[re.sub(r"<[^>]*>", "", one) for one in re.findall(r"<li>(.*?)</li>", cell)]
                for cell in cells]

    def test_preferred_terms(self) -> None:
        text = self.page("anaemia", date="2018-01-01")
        gb, us = "Anaemia " + demo.GB_NAME, "Anemia " + demo.US_NAME
        assert self.row(text, "Preferred term") == [[gb, us], [gb, us]]
        assert "in short \u201c<bdi>Anaemia</bdi>\u201d" in text
        text = self.page("wrist", date="2016-01-01")
        us = " " + demo.US_NAME
        assert self.row(text, "Preferred term") == [
            ["Broken wrist%s only then" % us], ["Wrist fracture%s not then" % us]]
        assert self.row(self.page("drug"), "Preferred term") == []

    def test_definition(self) -> None:
        text = self.page("wrist")
        shown = demo.DEFINITION
        assert self.row(text, "Text definition") == [[shown]]
        assert shown not in self.row(text, "Synonyms")[0]
        assert "Text definition added: <bdi>%s</bdi>" % shown in text

    def test_why_retired(self) -> None:
        text = self.page("wrist", date="2021-06-01")
        for reason in ("Ambiguous", "Duplicate"):
            assert (
                '(since <time datetime="2021-01-31">31 January 2021</time>: '
                "<bdi>%s component</bdi>)" % reason in text
            )
        assert self.row(text, "Why retired") == [
            ["Ambiguous component %s only then" % demo.AMBIGUOUS],
            ["Duplicate component %s not then" % demo.DUPLICATE]]
        changed = " changed: <bdi>%s component</bdi> \u2192 <bdi>%s component</bdi>"
        assert demo.INDICATORS_NAME + changed % ("Ambiguous", "Duplicate") in text
        for active in ("limb", "carpal"):
            assert self.row(self.page(active), "Why retired") == [], active
        assert demo.INDICATORS_NAME in self.page("carpal")
        two = ": <bdi>Duplicate component</bdi>, <bdi>Ambiguous component</bdi>)"
        assert two in self.page("radius")

    def test_reference_sets(self) -> None:
        name = "Wrists of the house %s " % self.codes["set"]
        text = self.page("wrist", date="2018-01-01")
        then, now = self.row(text, "Reference sets")
        ctv3 = "CTV3 simple map reference set %s since 31 January 2015: S23.." % demo.CTV3
        indicators = "%s %s since 31 January 2021: Duplicate component" % (
            demo.INDICATORS_NAME, demo.INDICATORS)
        assert then == [name + "since 31 January 2015 only then", ctv3]
        assert sorted(now) == sorted([
            name + "since 31 January 2021 not then", indicators + " not then", ctv3])
        # On the days between it wasn't in the set; the history has each of them.
        between = self.row(self.page("wrist", date="2020-01-31"), "Reference sets")[0]
        assert between == [ctv3]
        for part in ("added", "withdrawn"):
            assert "Reference set %s: <bdi>Wrists of the house</bdi>" % part in text
        limb = self.row(self.page("limb"), "Reference sets")[0]
        assert name + "since 31 July 2017 since 31 July 2017" in limb
        odd = "Odd map &lt;b&gt;bold&lt;/b&gt; %s since 31 January 2015" % self.codes["odd"]
        advice = "Advice &lt;b&gt;bold&lt;/b&gt; ask &lt;i&gt;them&lt;/i&gt;"
        said = "Target of the house Y1 \u00b7 " + advice
        assert "%s: %s" % (odd, said) in limb
        assert "added: <bdi>%s</bdi>" % said in self.page("limb")

    def test_columns_of_an_extended_map(self) -> None:
        """Those of ICD-10 have names also where the store doesn't describe them."""
        text = self.page("anaemia", date="2018-01-01")
        for shown in self.row(text, "Reference sets"):
            assert "Map advice ALWAYS D64.9 \u00b7 Map target D64.9 \u00b7 Correlation" in shown[0]
            assert "Map target none" in shown[0]
        changed = re.findall(r"<li>447562003 changed: (.*?)</li>", text)
        assert len(changed) == 1
        assert changed[0].count("Map priority 1") == 2
        assert "Map target D50.9" in changed[0] and "Map target D50.8" in changed[0]


class TestWithoutMembers:
    """Stores that have no members, asked for what they say."""

    def compared(self, service: Service) -> None:
        fhir, codes = service.gateway.fhir, service.codes
        for tag in ((), ("en-GB",), (US_TAG,)):
            said = fhir(LOOKUP, system=SCT, code=codes["wrist"], displayLanguage=[*tag])[1]
            name = "Fracture of wrist joint region (disorder)"
            assert told(said, "display") == [name]
            assert "inactivationIndicator" not in properties(said)
            assert not any("extension" in one for one in said["parameter"])
        said = fhir(LOOKUP, system=SCT, code=codes["wrist"], displayLanguage="de")[1]
        assert told(said, "display") == ["Handgelenksfraktur"]
        asked: tuple[tuple[str, dict[str, str]], ...] = (
            (EXPAND, {}),
            (EXPAND, {"filter": "fracture"}),
            ("ValueSet/$validate-code", {"system": SCT, "code": codes["limb"]}))
        for what in ("refset", "refset/" + codes["wrist"]):
            for path, words in asked:
                status, said = fhir(path, url=SCT + "?fhir_vs=" + what, **words)
                assert (status, issue(said)) == (422, "not-supported"), (path, what)
        url = "%s?fhir_cm=%s" % (SCT, demo.CTV3)
        words = {"url": url, "system": SCT, "code": codes["wrist"]}
        assert fhir(TRANSLATE, **words)[0] in (404, 422)
        text = service.gateway.send("GET", "/?q=" + codes["wrist"]).text
        for title in ("Preferred term", "Text definition", "Why retired", "Reference sets"):
            assert ">%s<" % title not in text
        assert "in short" not in text

    def test_packages_without_members(self, request: pytest.FixtureRequest) -> None:
        service = Service(words=demo.WORDS)
        request.addfinalizer(service.end)
        self.compared(service)
        assert "layout" not in service.gateway.told()

    def test_a_store_without_words(self, request: pytest.FixtureRequest) -> None:
        """What is searched is refused with a sentence, and all else is answered."""
        service = Service(is_whole=True, words=demo.WORDS, hub_words=["--without-words"])
        request.addfinalizer(service.end)
        fhir, send, code = service.gateway.fhir, service.gateway.send, service.codes["wrist"]
        term = "<< %s {{ term = \"fracture\" }}" % service.codes["finding"]
        for words in ({"url": SCT + "?fhir_vs", "filter": "fracture"},
                      {"url": SCT + "?fhir_vs=ecl/" + term}):
            status, said = fhir(EXPAND, **words)
            assert (status, issue(said)) == (422, "not-supported")
            assert "without its words" in said["issue"][0]["diagnostics"]
        for target in ("/?q=fracture", "/suggest?text=fracture"):
            answer = send("GET", target)
            assert answer.status == 422 and "without its words" in answer.text, target
        assert fhir(LOOKUP, system=SCT, code=code)[0] == send("GET", "/?q=" + code).status == 200
        assert fhir(EXPAND, url="%s?fhir_vs=isa/%s" % (SCT, code))[0] == 200

    def test_a_layout_without_members(self, request: pytest.FixtureRequest) -> None:
        """What needs members is refused with a sentence, and all else is answered."""
        service = Service(layout=2, is_whole=True, words=demo.WORDS)
        request.addfinalizer(service.end)
        fhir, codes = service.gateway.fhir, service.codes
        code = {"system": SCT, "code": codes["wrist"]}
        refset = SCT + "?fhir_vs=refset/" + codes["set"]
        needing: tuple[tuple[str, dict[str, str]], ...] = (
            (LOOKUP, code),
            (LOOKUP, {**code, "property": "parent", "displayLanguage": "en"}),
            (LOOKUP, {**code, "property": "inactivationIndicator", "displayLanguage": "de"}),
            (EXPAND, {"url": refset}),
            (EXPAND, {"url": SCT + "?fhir_vs=refset"}),
            ("ValueSet/$validate-code", {"url": refset, **code}))
        for path, words in needing:
            status, said = fhir(path, **words)
            assert (status, issue(said)) == (422, "not-supported"), (path, words)
            assert said["issue"][0]["diagnostics"] == NO_MEMBERS, (path, words)
        page = service.gateway.send("GET", "/?q=" + codes["wrist"])
        assert page.status == 422
        assert "keeps no members" in page.text
        record, kind = codes["wrist"] + ",2018-01-01", {"Content-Type": "text/csv"}
        assert service.gateway.send("POST", "/records", record.encode(), kind).status == 200
        changes = "/changes?from=2018-01-01&concept=" + codes["finding"]
        assert service.gateway.send("GET", changes).status == 200
        free = {**code, "property": "parent", "displayLanguage": "und"}
        assert fhir(LOOKUP, **free)[0] == 200
        within = SCT + "?fhir_vs=isa/" + codes["limb"]
        words = {"url": within, **code, "displayLanguage": "und"}
        assert fhir("ValueSet/$validate-code", **words)[0] == 200
        assert "sctd-gateway: " + NO_MEMBERS in service.gateway.told()


class TestAnotherStore:
    def test_reference_sets_of_another_store(self, request: pytest.FixtureRequest) -> None:
        """Its first import is another one: nothing that is remembered of a set holds."""
        service = Service(is_whole=True, words=demo.WORDS)
        request.addfinalizer(service.end)
        url = "%s?fhir_vs=refset/%s" % (version("20210131"), service.codes["set"])
        for releases, names in (
                (("d1", "d2"), ("wrist", "limb", "radius")), (("d1", "d3"), ("wrist", "limb"))):
            service.stop_hub()
            os.unlink(service.store)
            service.make_store(*releases)
            service.start_hub()
            said = service.gateway.fhir(EXPAND, "/pin/2/fhir/", url=url)[1]["expansion"]
            found = {one["code"] for one in said["contains"]}
            assert found == {service.codes[name] for name in names}, releases


class TestRows:
    """What a hub says is read strictly."""

    DESCRIPTION = "ROW 5012010\t20150131\t1\t2\t3\ten\t%s\tTerm\t4" % SYNONYM
    MEMBER = "ROW 00000000-0000-0000-0000-0000000f4241\t20150131\t1\t2\t3\t5012010"

    def test_members(self) -> None:
        for further in ((), ("",), ("", "x"), (demo.PREFERRED,)):
            line = "\t".join((self.MEMBER, *further))
            assert members_of((line, "END 1"))[0].further == further
        with pytest.raises(HubGone):
            members_of(("ROW a\t20150131\t1\t2\t3", "END 1"))

    def test_called(self) -> None:
        one = self.MEMBER + "\t" + demo.ACCEPTABLE
        other = self.MEMBER + "\t" + demo.PREFERRED
        found = called_of((self.DESCRIPTION, one, other, self.DESCRIPTION, one, "END 5"))
        assert [said for _, said in found] == [
            (demo.ACCEPTABLE, demo.PREFERRED), (demo.ACCEPTABLE,)]
        assert [bool(one.is_preferred_term) for one in found] == [True, False]
        for lines in ((one, "END 1"), ("ROW 5012010\t20150131", "END 1")):
            with pytest.raises(HubGone):
                called_of(lines)


class NothingRemembered:
    """A session in which no set is remembered."""

    pool = SimpleNamespace(refsets=None)

    async def recalled(self, sets: Any, day: str, code: str,
                       make: Callable[[], Awaitable[Codes]]) -> Codes:
        return await make()


class ManyMembers(View):
    """A store with a reference set of so many members, each of another concept, or with so many
    reference sets, each of which has members."""

    def __init__(self, count: int) -> None:
        self.session = cast(Session, NothingRemembered())
        self.count, self.asked = count, list[str]()

    async def told(self, line: str, keep: bool = True) -> Reply:
        *_, after, limit = line.split(" ")
        assert line.startswith("VALUES ")
        self.asked.append(after)
        first = 0 if after == "-" else int(after) // 1000
        last = min(first + int(limit), self.count)
        rows = ("ROW m\t20150131\t1\t1\t2\t%d000" % number for number in range(first + 1, last + 1))
        return (*rows, "END %d" % (last - first))

    async def members(self, codes: Sequence[str], day: str, keep: bool = True) -> list[Member]:
        return [Member(code, code.endswith("2000")) for code in codes]

    async def descendants(self, code: str, day: str) -> list[str]:
        return [str(number) for number in range(self.count)]

    async def have_values(self, found: Sequence[str], day: str) -> list[str]:
        return [*found]


def member(component: str, time: str = "20150131", active: str = "1") -> RefsetMember:
    return RefsetMember("m", time, active, "1", "2", component, ())


class TestLargeSets:
    def test_all_pages(self) -> None:
        for count, pages in ((0, 1), (999, 1), (1000, 2), (2500, 3), (limits.REFSET_MEMBERS, 201)):
            view = ManyMembers(count)
            found = asyncio.run(refsets.components_of(view, "2", "20200101"))
            assert (len(found), len(set(found))) == (count, count)
            assert len(view.asked) == pages
        with pytest.raises(Problem, match=TOO_MANY) as refused:
            view = ManyMembers(limits.REFSET_MEMBERS + 1)
            asyncio.run(refsets.components_of(view, "2", "20200101"))
        assert refused.value.code == "too-costly"

    def test_of_which_it_is_asked_whether_they_are_active(self) -> None:
        view = ManyMembers(limits.WALK_CONCEPTS)
        found = asyncio.run(refsets.active_codes_of(view, "2", "20200101"))
        assert len(found) == limits.WALK_CONCEPTS // 10
        with pytest.raises(Problem, match=TOO_MANY) as refused:
            view = ManyMembers(limits.WALK_CONCEPTS + 1)
            asyncio.run(refsets.active_codes_of(view, "2", "20200101"))
        assert refused.value.code == "too-costly"

    def test_among_how_many_there_are(self) -> None:
        view = ManyMembers(limits.REFSET_CHOICE)
        found = asyncio.run(refsets.with_members(view, "20200101"))
        assert len(found) == limits.REFSET_CHOICE
        with pytest.raises(Problem, match=TOO_MANY) as refused:
            view = ManyMembers(limits.REFSET_CHOICE + 1)
            asyncio.run(refsets.with_members(view, "20200101"))
        assert refused.value.code == "too-costly"


class TestMemberships:
    def test_since_when(self) -> None:
        days = ("20150131", "20160131", "20170131", "20180131")
        for actives, day, since in (
                ("1111", "20180131", "20150131"), ("1011", "20180131", "20170131"),
                ("1010", "20180131", ""), ("1010", "20171231", "20170131"),
                ("0111", "20150131", ""), ("1111", "20141231", "")):
            versions = [member("7", time, active) for time, active in zip(days, actives)]
            found = memberships([versions], "7", day)
            assert [one.since for one in found] == ([since] if since else []), actives
        # A member that is about another concept from then on.
        versions = [member("7"), member("8", "20160131"), member("7", "20170131")]
        for day, since in (("20150131", "20150131"), ("20160131", ""), ("20170131", "20170131")):
            found = memberships([versions], "7", day)
            assert [one.since for one in found] == ([since] if since else []), day

    def test_more_than_are_told(self) -> None:
        rows = [[member("7")] for _ in range(limits.TOLD_MEMBERS + 3)]
        entries = refset_entries(memberships(rows, "7", "20200101"), Names())
        assert len(entries) == 1
        assert "and 3 more" in "".join(entries.values())
        rows = [[member("7")._replace(refset=str(one))] for one in range(limits.TOLD_REFSETS + 1)]
        entries = refset_entries(memberships(rows, "7", "20200101"), Names())
        assert len(entries) == limits.TOLD_REFSETS + 1
        assert "and others" in entries["more"]
