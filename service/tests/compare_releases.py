"""Compares the gateway's answers with what a reading of a release's own files says, one drawn day
after the other. bench/trials/try_answers.py does it too."""

import datetime
import http.client
import itertools
import json
import random
import subprocess
import sys
import tempfile
from collections import Counter
from collections.abc import Mapping
from pathlib import Path
from typing import Any
from urllib.parse import urlencode

from sctd_service.gateway import limits

from .fixtures import (
    EDITION, FHIR_JSON, SCT, SECONDS, Gateway, Json, begun_hub, parts_of, told, with_hyphens)
from .release_files import (
    DEFINED, FULLY_SPECIFIED, FURTHER, IS_A, REFERENCED, REFSET, Row, Rows, Snapshot, read,
    words_in)

# Of each day.
LOOKUPS, VALIDATIONS, SUBSUMPTIONS, EXPANSIONS, TRANSLATIONS = 240, 60, 36, 18, 28
SEARCHES = 170
LARGEST_EXPANSION = 900
CASE_INSENSITIVE, INITIAL_CASE_INSENSITIVE = "900000000000448009", "900000000000020002"
SAME_AS, REPLACED_BY = "900000000000527005", "900000000000526001"
# Of a package: the languages in their order, the sets, the map and its code system.
LANGUAGES = GB, US = "900000000000508004", "900000000000509007"
INDICATORS = "900000000000489007"
VALUE_SETS = ("723264001", "733990004")
MAP, MAP_SYSTEM = "900000000000497000", "urn:of:the:map"
PACKAGE_WORDS = ("--languages", ",".join(LANGUAGES), "--map", "%s=%s" % (MAP, MAP_SYSTEM))
# What is asked for by displayLanguage, and which of its languages that is. (It has no other terms
# than English ones.)
TAGS = {"en-US": (US,), "en-GB": (GB,), "en": LANGUAGES, "de": (), "fr-CH": (), "*": LANGUAGES,
        "sv, en-US;q=0.5": (US,)}
ASKED = "sctd-date"
CONTEXT_PARTS = ("context", "role", "type")
# How long the release may take to be made or imported.
RUN_SECONDS = 600


class Differs(Exception):
    """An answer that isn't that of the files."""


class Comparison:
    """One gateway, one edition's releases, and how many answers of each operation were alike."""

    edition = EDITION
    tags: Mapping[str, tuple[str, ...]] = {}

    def __init__(self, connection: http.client.HTTPConnection, base: str, rows: Rows, seed: int,
                 languages: tuple[str, ...], with_sets: bool = False) -> None:
        self.connection, self.base = connection, base
        self.rows, self.chance, self.counts = rows, random.Random(seed), Counter[str]()
        self.languages, self.with_sets = languages, with_sets
        self.concepts, self.days = rows.concepts(), rows.days()
        # Of the terms that are searched; none stand for all.
        spoken = {row[0]: row[5] for row in rows.by_kind["D"]}
        self.spoken = {spoken[row[REFERENCED]] for row in rows.by_kind["M"]
                       if row[REFSET] in languages and row[REFERENCED] in spoken}

    def ask(self, path: str, **words: Any) -> tuple[int, Json]:
        return self.asked_by("GET", "%s?%s" % (path, urlencode(words)))

    def post(self, path: str, parts: list[Json]) -> tuple[int, Json]:
        body = json.dumps({"resourceType": "Parameters", "parameter": parts}).encode()
        return self.asked_by("POST", path, body, {"Content-Type": FHIR_JSON})

    def asked_by(self, method: str, target: str, body: bytes | None = None,
                 headers: dict[str, str] | None = None) -> tuple[int, Json]:
        self.connection.request(method, "%s/fhir/%s" % (self.base, target), body, headers or {})
        answer = self.connection.getresponse()
        # A number keeps the digits that it is written with.
        found: Json = json.loads(answer.read(), parse_float=str, parse_int=str)
        return answer.status, found

    def alike(self, what: str, found: Any, wanted: Any, *about: Any) -> None:
        if found != wanted:
            raise Differs("%s %s: %r, not %r" % (what, about, found, wanted))

    def version(self, day: str) -> str:
        return "%s/%s/version/%s" % (SCT, self.edition, day)

    def days_asked(self) -> list[str]:
        """The days of the later releases and those before them, in any order."""
        days = self.days[len(self.days) // 2 :]
        before = [datetime.datetime.strptime(day, "%Y%m%d") - datetime.timedelta(days=1)
                  for day in days]
        # (Of days before the first one nothing is known.)
        found = {*days, *(max(day.strftime("%Y%m%d"), self.days[0]) for day in before)}
        return self.chance.sample(sorted(found), len(found))

    def run(self, answers: int) -> None:
        """Compares day by day until so many answers were alike."""
        for day in itertools.cycle(self.days_asked()):
            self.compare(day)
            if self.counts.total() >= answers:
                break

    def compare(self, day: str) -> None:
        snapshot = Snapshot(self.rows, day)
        for _ in range(LOOKUPS):
            self.lookup(snapshot, self.chance.choice(self.concepts))
        known = sorted(snapshot.concepts)
        for number in range(VALIDATIONS if known else 0):
            self.validate(snapshot, known, number)
        for number in range(SUBSUMPTIONS if known else 0):
            first = self.chance.choice(known)
            near = sorted(snapshot.above[first] & snapshot.concepts.keys() - {first})
            second = self.chance.choice(near if near and number % 3 else known)
            self.subsumes(snapshot, *((first, second) if number % 4 < 2 else (second, first)))
        tops = [code for code in known if 1 < len(snapshot.within(code)) < LARGEST_EXPANSION]
        for top in self.chance.sample(tops, min(EXPANSIONS, len(tops))):
            self.expand(snapshot, top)
        for _ in range(SEARCHES if tops else 0):
            self.search(snapshot, self.chance.choice(["", self.chance.choice(tops)]))
        retired = sorted(snapshot.about["A"].keys() & snapshot.concepts.keys())
        for number, code in enumerate(self.chance.sample(retired, min(TRANSLATIONS, len(retired)))):
            self.translate(snapshot, code, (SAME_AS, REPLACED_BY)[number % 2])
        if self.with_sets:
            for refset in VALUE_SETS:
                self.expand_refset(snapshot, refset)
            for code in self.chance.sample(known, min(TRANSLATIONS, len(known))):
                self.translate_by_the_map(snapshot, code)

    def display(self, snapshot: Snapshot, code: str,
                languages: tuple[str, ...] | None = None) -> str:
        """The first preferred term, or the fully specified name of the least id, or else the
        synonym of the least id, or the code."""
        for refset in self.languages if languages is None else languages:
            if preferred := snapshot.preferred(code, refset):
                return preferred[0]
        names = snapshot.names(code)
        names.sort(key=lambda row: (row[6] != FULLY_SPECIFIED, int(row[0])))
        return names[0][7] if names else code

    def lookup(self, snapshot: Snapshot, code: str) -> None:
        tag, languages = "", self.languages
        if self.tags and self.chance.random() < 0.5:
            tag, languages = self.chance.choice([*self.tags.items()])
        words = {"system": SCT, "code": code, "version": self.version(snapshot.day)}
        words |= {"displayLanguage": tag} if tag else {}
        status, said = self.ask("CodeSystem/$lookup", **words)
        where = (code, snapshot.day, tag)
        if code not in snapshot.concepts:
            self.alike("$lookup", status, 404, *where)
            self.counts["$lookup of what isn't there"] += 1
            return
        self.alike("$lookup", status, 200, *where)
        # A version is that of the greatest day of a row up to the one that was asked for.
        release = max(day for day in self.days if day <= snapshot.day)
        self.alike("version", told(said, "version"), [self.version(release)], *where)
        self.alike("date", told(said, ASKED), self.asked(snapshot), *where)
        terms = [(one["value"], one["language"], one["use"]["code"])
                 for one in parts_of(said, "designation")]
        self.alike("designation", sorted(terms),
                   sorted((row[7], row[5], row[6]) for row in snapshot.terms(code)), *where)
        shown = self.display(snapshot, code, languages)
        self.alike("display", told(said, "display"), [shown], *where)
        self.alike("contexts", contexts(said), self.contexts(snapshot, code, languages), *where)
        found: dict[str, set[str]] = {}
        for words in parts_of(said, "property"):
            found.setdefault(words["code"], set()).add(str(words["value"]))
        self.alike("property", found, properties(snapshot, code), *where)
        self.counts["$lookup in a language" if tag else "$lookup"] += 1

    def asked(self, snapshot: Snapshot) -> list[str]:
        """The days that an answer says were asked for."""
        return [with_hyphens(snapshot.day)]

    def contexts(self, snapshot: Snapshot, code: str,
                 languages: tuple[str, ...]) -> list[tuple[str, ...]]:
        """Each term with each of the languages that have it, how, and as what."""
        found = []
        for row in snapshot.terms(code):
            for refset in languages:
                # Two members may say the same.
                said = {member[FURTHER] for member in snapshot.members(refset, row[0])}
                found += [(row[7], refset, how, row[6]) for how in said]
        return sorted(found)

    def validate(self, snapshot: Snapshot, known: list[str], number: int) -> None:
        """Whether a code was there, or in the value set of one above it or another one, with a term
        of its own or of another concept. Every second one is asked by POST."""
        code = self.chance.choice(self.concepts if number % 4 == 0 else known)
        terms = [row[7] for row in snapshot.names(self.chance.choice([code, code, known[0]]))]
        display = self.chance.choice([*terms, *(term.upper() for term in terms), ""])
        is_valid = code in snapshot.concepts and (
            not display or any(is_name(row, display) for row in snapshot.names(code)))
        what, top = "CodeSystem/$validate-code", ""
        words = {"url": SCT, "version": self.version(snapshot.day)}
        if number % 3 == 0:
            what = "ValueSet/$validate-code"
            above = sorted(snapshot.above.get(code, set()) & snapshot.concepts.keys())
            top = self.chance.choice([*above, self.chance.choice(known)])
            is_valid = is_valid and code in snapshot.within(top)
            words = {"url": "%s?fhir_vs=isa/%s" % (words["version"], top)}
        if number % 2:
            coding = {"system": SCT, "code": code} | ({"display": display} if display else {})
            uris = [{"name": name, "valueString": value} for name, value in words.items()]
            status, said = self.post(what, [*uris, {"name": "coding", "valueCoding": coding}])
        else:
            words |= {"code": code} | ({"display": display} if display else {})
            words |= {"system": SCT} if top else {}
            status, said = self.ask(what, **words)
        where = (code, display, top, snapshot.day)
        self.alike(what, (status, told(said, "result")), (200, [is_valid]), *where)
        self.alike("message", bool(told(said, "message")), not is_valid, *where)
        shown = [self.display(snapshot, code)] if code in snapshot.concepts else []
        self.alike("display", told(said, "display"), shown, *where)
        self.counts["%s %s" % (what, is_valid)] += 1

    def subsumes(self, snapshot: Snapshot, first: str, second: str) -> None:
        is_above, is_below = first in snapshot.above[second], second in snapshot.above[first]
        if is_above and is_below:
            wanted = "equivalent"
        else:
            wanted = "subsumes" if is_above else "subsumed-by" if is_below else "not-subsumed"
        said = self.ask("CodeSystem/$subsumes", system=SCT, codeA=first, codeB=second,
                        version=self.version(snapshot.day))[1]
        self.alike("$subsumes", told(said, "outcome"), [wanted], first, second, snapshot.day)
        self.counts["$subsumes " + wanted] += 1

    def expand(self, snapshot: Snapshot, top: str) -> None:
        url = "%s?fhir_vs=isa/%s" % (self.version(snapshot.day), top)
        said = self.ask("ValueSet/$expand", url=url)[1]["expansion"]
        found = {one["code"]: one for one in said["contains"]}
        members = snapshot.within(top) & snapshot.concepts.keys()
        where = (top, snapshot.day)
        self.alike("$expand", (set(found), said["total"]), (members, str(len(members))), *where)
        self.alike("inactive", {code for code, one in found.items() if one.get("inactive")},
                   {code for code in members if snapshot.concepts[code][2] == "0"}, *where)
        self.alike("display", {code: one["display"] for code, one in found.items()},
                   {code: self.display(snapshot, code) for code in members}, *where)
        self.counts["$expand"] += 1

    def search(self, snapshot: Snapshot, top: str) -> None:
        """Some words in all concepts or in those within one, of which a page is asked for; and what
        the page for people suggests."""
        text, chance = self.words_of_a_term(snapshot), self.chance
        rows = snapshot.with_words(text)
        within = snapshot.within(top) if top else snapshot.concepts.keys()
        wanted = self.found(snapshot, [row for row in rows if row[4] in within])
        offset, count = chance.choice([0, 0, 1, 20]), chance.choice([1, 10, 100, 1000])
        url = "%s?fhir_vs%s" % (self.version(snapshot.day), "=isa/" + top if top else "")
        status, said = self.ask(
            "ValueSet/$expand", url=url, filter=text, offset=offset, count=count)
        where = (text, top, offset, count, snapshot.day)
        is_many = status == 422 and len(rows) > limits.FILTER_TERMS
        known = 422 if is_many else 200 if words_in(text) else 400
        self.alike("status of a search", status, known, *where)
        if status != 200:
            return
        contains = said["expansion"].get("contains", [])
        self.alike("search", [(one["code"], "inactive" not in one) for one in contains],
                   [(code, is_active) for code, _, is_active in wanted][offset : offset + count],
                   *where)
        total = said["expansion"].get("total", str(len(wanted)))
        self.alike("total", total, str(len(wanted)), *where)
        self.counts["search"] += 1
        if not top:
            suggested = self.suggested(snapshot.day, text)
            self.alike("suggest", suggested, wanted[: limits.SUGGESTED_CONCEPTS], *where)
            self.counts["search on the page"] += 1

    def words_of_a_term(self, snapshot: Snapshot) -> str:
        """The beginnings of some words of a term, in any order and case, with marks or without."""
        chance = self.chance
        names = snapshot.names(chance.choice(snapshot.described))
        term = chance.choice(names)[7] if names else chance.choice("abcdef")
        words = chance.choice([term.split(), words_in(term)])
        words = [word[: chance.randint(1, 6)] for word in words]
        text = " ".join(chance.sample(words, min(len(words), chance.choice([1, 2, 2, 3, 4]))))
        return chance.choice([text, text.upper(), text.title(), "(%s)" % text.replace(" ", ", ")])

    def found(self, snapshot: Snapshot, rows: list[Row]) -> list[tuple[str, str, bool]]:
        """The concepts of names, active ones first, each with the first one's term."""
        terms: dict[str, str] = {}
        for row in rows:
            if row[4] in snapshot.concepts and (not self.spoken or row[5] in self.spoken):
                terms.setdefault(row[4], row[7])
        found = [(code, term, snapshot.concepts[code][2] == "1") for code, term in terms.items()]
        return sorted(found, key=lambda one: not one[2])

    def suggested(self, day: str, text: str) -> list[tuple[str, str, bool]]:
        words = urlencode({"text": text, "date": with_hyphens(day)})
        self.connection.request("GET", "%s/suggest?%s" % (self.base, words))
        said = json.loads(self.connection.getresponse().read())
        return [(one["code"], one["term"], one["active"]) for one in said]

    def translate(self, snapshot: Snapshot, code: str, refset: str) -> None:
        said = self.ask("ConceptMap/$translate", url="%s?fhir_cm=%s" % (SCT, refset), system=SCT,
                        code=code, version=self.version(snapshot.day))[1]
        self.alike("$translate", sorted(one["concept"]["code"] for one in parts_of(said, "match")),
                   sorted(row[6] for row in snapshot.about["A"][code] if row[4] == refset), code,
                   snapshot.day)
        self.counts["$translate"] += 1

    def expand_refset(self, snapshot: Snapshot, refset: str) -> None:
        """A reference set page by page, and one concept of it and one of all."""
        url = "%s?fhir_vs=refset/%s" % (self.version(snapshot.day), refset)
        wanted = snapshot.referred(refset)
        is_kept = any(row[REFSET] == refset for row in self.rows.by_kind["M"])
        found: list[Json] = []
        while True:
            words = {"url": url, "count": 50, "offset": len(found)}
            status, said = self.ask("ValueSet/$expand", **words)
            self.alike("status", status, 200 if is_kept else 404, refset, snapshot.day)
            if not is_kept:
                return
            page = said["expansion"].get("contains", [])
            self.alike("total", said["expansion"]["total"], str(len(wanted)), refset, snapshot.day)
            found += page
            if not page:
                break
        where = (refset, snapshot.day)
        codes = sorted(wanted, key=int)
        self.alike("$expand refset", [one["code"] for one in found], codes, *where)
        displays = [self.display(snapshot, code) for code in codes]
        self.alike("display", [one["display"] for one in found], displays, *where)
        known = sorted(snapshot.concepts)
        for code in (self.chance.choice(known), self.chance.choice(codes) if codes else known[0]):
            said = self.ask("ValueSet/$validate-code", url=url, system=SCT, code=code)[1]
            is_in = code in wanted and code in snapshot.concepts
            self.alike("$validate-code", told(said, "result"), [is_in], code, *where)
        self.counts["$expand of a reference set"] += 1

    def translate_by_the_map(self, snapshot: Snapshot, code: str) -> None:
        url = "%s?fhir_cm=%s" % (SCT, MAP)
        words = {"url": url, "system": SCT, "code": code, "version": self.version(snapshot.day)}
        said = self.ask("ConceptMap/$translate", **words)[1]
        targets = dict.fromkeys(row[FURTHER] for row in snapshot.members(MAP, code))
        self.alike(
            "$translate by the map", [one["concept"] for one in parts_of(said, "match")],
            [{"system": MAP_SYSTEM, "code": target} for target in targets], code, snapshot.day)
        self.counts["$translate by a map"] += 1


def is_name(row: Row, text: str) -> bool:
    """Whether a text is a description's term, with the case that the description allows."""
    term, case = row[7], row[8]
    if case == CASE_INSENSITIVE:
        return term.casefold() == text.casefold()
    same = slice(1 if case == INITIAL_CASE_INSENSITIVE else 0, None)
    return term.casefold() == text.casefold() and term[same] == text[same]


def contexts(said: Json) -> list[tuple[str, ...]]:
    found = []
    for one in said["parameter"]:
        if one["name"] == "designation":
            term = next(part["valueString"] for part in one["part"] if part["name"] == "value")
            for extension in one.get("extension", []):
                parts = {part["url"]: part["valueCoding"] for part in extension["extension"]}
                found.append((term, *(parts[name]["code"] for name in CONTEXT_PARTS)))
    return sorted(found)


def properties(snapshot: Snapshot, code: str) -> dict[str, set[str]]:
    concept = snapshot.concepts[code]
    found = {
        "inactive": {str(concept[2] == "0")},
        "moduleId": {concept[3]},
        "effectiveTime": {concept[1]},
        "sufficientlyDefined": {str(concept[4] == DEFINED)}}
    for row in snapshot.about["R"].get(code, []):
        found.setdefault("parent" if row[7] == IS_A else row[7], set()).add(row[5])
    if reasons := {row[FURTHER] for row in snapshot.members(INDICATORS, code)}:
        found["inactivationIndicator"] = reasons
    for row in snapshot.about["V"].get(code, []):
        found.setdefault(row[7], set()).add(row[5].removeprefix("#"))
    return found


def compared(program: str, hub: str, rows: int, answers: int, seed: int,
             is_package: bool = False) -> Counter[str]:
    """How many answers of each operation were alike, so many in all, of a made release. Of a
    package preferred terms, reasons, two reference sets and a map are compared too."""
    words = ["--package"] if is_package else []
    make = Path(__file__).resolve().parents[2] / "bench" / "measurements" / "make_release.py"
    with tempfile.TemporaryDirectory() as folder:
        root = Path(folder)
        store, questions = str(root / "store"), str(root / "questions")
        run(sys.executable, str(make), *words, folder, str(rows), str(seed))
        run(program, "init", "--store", store)
        run(program, "import", "--quiet", "--store", store, str(root / "full"))
        serving = begun_hub(hub, program, store, folder, "--questions", questions)
        gateway: Gateway | None = None
        try:
            gateway = Gateway(questions, root, words=PACKAGE_WORDS if is_package else ())
            connection = http.client.HTTPConnection("x", timeout=SECONDS)
            connection.sock = gateway.connect()
            languages, every = LANGUAGES if is_package else (), read(root / "full")
            comparison = Comparison(connection, "", every, seed, languages, is_package)
            comparison.tags = TAGS if is_package else {}
            comparison.run(answers)
            return comparison.counts
        finally:
            if gateway:
                gateway.stop()
            serving.terminate()
            serving.communicate(timeout=SECONDS)


def run(*words: str) -> None:
    subprocess.run(words, check=True, capture_output=True, timeout=RUN_SECONDS)
