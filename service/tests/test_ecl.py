"""Expressions of ECL: rows worked by hand on the demo releases, what isn't read, and what is asked
of the hub."""

import asyncio
import random
import re
from collections import Counter
from collections.abc import Sequence
from typing import Any
from urllib.parse import quote

import pytest
from sctd_service.gateway import limits
from sctd_service.gateway.ecl import syntax as s
from sctd_service.gateway.ecl.comparing import fits_pattern
from sctd_service.gateway.ecl.evaluation import Evaluation
from sctd_service.gateway.ecl.parsing import parse
from sctd_service.gateway.ecl.spelling import spelled
from sctd_service.gateway.ecl.terminology import Terminology
from sctd_service.gateway.hub import Reply
from sctd_service.gateway.pool import Pool, Session
from sctd_service.gateway.problems import Problem
from sctd_service.gateway.store import View

from .asked import Asked
from .fixtures import EDITION, SCT, Json, Service, issue, told, version
from .release_files import read

EXPAND, MEMBER = "ValueSet/$expand", "ValueSet/$validate-code"
# The words of a question, with the letter of its kind.
WORDS_OF_LINE = re.compile(r"^[A-Z]+(?: [A-Z]\b)?", re.MULTILINE)
LATEST, BEFORE, OLD = "2022-07-31", "2020-12-31", "2019-01-31"
BELOW = "injury limb radius carpal radius2"
# An expression, in which `$` stands before what the demo calls a concept, a day, and the concepts.
TABLE = (
    ("<< $limb", LATEST, "limb radius carpal radius2"),
    ("<< $limb", OLD, "limb wrist"),
    ("< $limb", OLD, "wrist"),
    ("<! $disease", LATEST, "injury anaemia"),
    ("<<! $injury", LATEST, "injury limb"),
    ("> $limb", LATEST, "root finding disease injury"),
    (">> $limb", LATEST, "root finding disease injury limb"),
    (">! $wrist", OLD, "limb"),
    (">! $wrist", "2018-12-31", "injury"),
    (">>! $limb", LATEST, "injury limb"),
    ("!!> (<< $injury)", LATEST, "injury"),
    ("!!< (<< $injury)", LATEST, "radius carpal radius2"),
    ("!!> ($limb OR $drug)", LATEST, "limb drug"),
    ("$wrist", LATEST, "wrist"),
    ("$radius2", BEFORE, ""),
    ("* AND $wrist", LATEST, ""),
    ("$wrist AND *", BEFORE, "wrist"),
    ("* MINUS << $root", LATEST, "namespace"),
    ("(<< $injury OR $drug) MINUS < $limb", LATEST, "injury limb drug"),
    ("^ $set", LATEST, "limb wrist radius absent"),
    ("^ $set", BEFORE, "limb radius"),
    ("^ $set AND << $injury", LATEST, "limb radius"),
    ("^ ($set OR $ctv3)", LATEST, "limb wrist radius absent drug"),
    ("^ 900000000000526001", LATEST, "wrist lost"),
    ("^ [targetComponentId] 900000000000527005", LATEST, "radius2"),
    ("^ [valueId] 900000000000489007", BEFORE, ""),
    ("^ [valueId] $indicators {{ M referencedComponentId = << $radius }}", LATEST,
     "ambiguous duplicate"),
    ("^ $set {{ M active = 0 }}", BEFORE, "wrist"),
    ("^ $left {{ M active = false }}", LATEST, "drug"),
    ("^ $set {{ M effectiveTime >= \"20200101\" }}", LATEST, "wrist radius absent"),
    ("^ $ctv3 {{ M mapTarget = wild:\"X*\" }}", LATEST, "limb"),
    ("^ $ctv3 {{ M mapTarget = \"s23\" }}", LATEST, "wrist"),
    ("^ $odd {{ M targetOfTheHouse = exact:\"Y1\" }}", LATEST, "limb"),
    ("^ $odd {{ M adviceBBoldB = exact:\"Y1\" }}", LATEST, ""),
    ("^ $odd {{ M adviceBBoldB = \"them\" }}", LATEST, "limb"),
    ("^ 447562003 {{ M mapGroup = #1, mapPriority = #2 }}", LATEST, "anaemia"),
    ("^ 447562003 {{ M correlationId = 447557004 }}", LATEST, "anaemia"),
    ("^ $indicators {{ M valueId = $duplicate }}", LATEST, "wrist radius"),
    ("<< $injury : $site = << $body", LATEST, "radius"),
    ("<< $injury : $site = << $body", BEFORE, "wrist radius"),
    ("<< $injury : $site = $body", BEFORE, "wrist"),
    ("<< $injury : $site != $body", BEFORE, "radius"),
    ("<< $injury : [0..0] $site = $body", BEFORE, "injury limb radius carpal"),
    ("* : $site = $bone OR $site = $body", BEFORE, "wrist radius"),
    ("* : { $site = << $body , $form = $fracture }", BEFORE, "wrist radius"),
    ("* : [2..*] { $site = * }", BEFORE, ""),
    ("* : [2..2] * = *", BEFORE, "wrist radius"),
    ("* : { [2..*] << $root = * }", BEFORE, "wrist radius"),
    ("<< $body : R $site = << $injury", BEFORE, "body bone"),
    ("* : R $site = *", LATEST, "bone"),
    ("* : [2..*] R $form = *", BEFORE, "fracture"),
    ("<< $injury . $site", BEFORE, "body bone"),
    ("* . $ingredient", LATEST, "substance"),
    ("* : $strength >= #500.1", LATEST, "drug"),
    ("* : $strength >= #500.1", OLD, ""),
    ("* : $strength < #1000", LATEST, "drug"),
    ("* : $strength = #500.10", LATEST, "drug"),
    ("* : $unit = \"mg\"", LATEST, "drug"),
    ("* : $unit = exact:\"m\"", LATEST, ""),
    ("* : $unit = wild:\"m*\"", LATEST, "drug"),
    ("<< $limb {{ + HISTORY-MIN }}", LATEST, "limb radius carpal radius2"),
    ("$radius2 {{ + HISTORY-MIN }}", LATEST, "radius radius2"),
    ("<< $limb {{ + HISTORY-MOD }}", LATEST, "limb radius carpal radius2 wrist vague"),
    ("$injury {{ + HISTORY-MOD }}", LATEST, "injury vague"),
    ("$injury {{ + HISTORY-MIN }}", LATEST, "injury"),
    ("$injury {{ + HISTORY (900000000000528000) }}", LATEST, "injury vague"),
    ("$injury {{ + HISTORY (900000000000529008) }}", LATEST, "injury"),
    ("$limb {{ + HISTORY }}", LATEST, "limb vague"),
    ("<< $finding {{ C definitionStatus = defined }}", LATEST, "radius radius2"),
    ("<< $injury {{ C effectiveTime > \"20200101\" }}", LATEST, "radius carpal radius2"),
    ("* {{ C active = 0 }}", LATEST, "wrist radius lost vague"),
    ("* {{ C moduleId != 900000000000207008 }}", LATEST, ""),
    ("<< $finding {{ D language = de }}", LATEST, "anaemia"),
    ("<< $finding {{ D dialect = en-gb (prefer) }}", LATEST, "anaemia"),
    ("$anaemia {{ D dialect = en-us (accept) }}", LATEST, ""),
    ("$wrist {{ D dialect = en-us (accept) }}", "2018-07-10", "wrist"),
    # (Until 2019 GB English accepted what it prefers another spelling to.)
    ("$anaemia {{ D dialect = (en-gb (accept)) }}", "2018-12-31", "anaemia"),
    ("$anaemia {{ D dialect = (en-gb (accept)) }}", OLD, ""),
    ("$anaemia {{ D dialect = (en-gb (accept) en-us (prefer)) }}", OLD, "anaemia"),
    ("$anaemia {{ D dialect = (en-gb (accept) en-us) (accept) }}", OLD, ""),
    ("$anaemia {{ D dialectId = (900000000000508004 (prefer accept)) }}", OLD, "anaemia"),
    ("$anaemia {{ D dialect != (en-gb (prefer) en-us (prefer)), language = en }}", OLD, ""),
    ("$anaemia {{ D dialect != (en-gb (prefer) en-us (accept)), language = en }}", OLD, "anaemia"),
    ("$anaemia {{ D dialectId != 900000000000508004, language = en }}", LATEST, "anaemia"),
    ("* {{ D type = def }}", LATEST, ""),
    ("$wrist {{ D type = def, dialectId = 900000000000509007 (prefer) }}", LATEST, "wrist"),
    ("$wrist {{ D active = 0, language = en }}", LATEST, "wrist"),
    ("$limb {{ D id = $limb-name }}", LATEST, "limb"),
    ("* {{ term = \"wri frac\" }}", BEFORE, "wrist"),
    ("* {{ term = \"wri frac\" }}", LATEST, ""),
    ("<< $injury {{ D term = match:\"DIST radi\", type = fsn }}", LATEST, "radius radius2"),
    ("<< $injury {{ term = (\"carpal\" \"limb\") }}", LATEST, "injury limb carpal"),
    ("<< $injury {{ term = (match:\"carp\" wild:\"*limb*\") }}", LATEST, "injury limb carpal"),
    ("<< $injury {{ term != \"fracture\" }}", LATEST, "injury"),
    ("<< $injury {{ term = wild:\"fracture of*radius*\" }}", LATEST, "radius radius2"),
    ("<< $injury {{ term = wild:\"*stal*\" }}", LATEST, "radius radius2"),
    ("<< $injury {{ term = exact:\"Distal radius fracture\" }}", LATEST, "radius"),
    ("<< $injury {{ term = exact:\"distal radius fracture\" }}", LATEST, ""),
    ("<< $injury {{ term = \"upper\", active = 0 }}", LATEST, "limb"),
    ("* {{ term = \"handgelenk\", language = de }}", BEFORE, "wrist"),
    ("* {{ term = \"break wrist\", type = def }}", BEFORE, "wrist"))
# What isn't an expression, and at which letter it ends to be one.
MISSPELT = (
    ("", 1),
    ("< ", 3),
    ("<1", 2),
    ("< $limb AND", 14),
    ("< $limb AND < $drug OR *", 25),
    ("< $limb MINUS * MINUS *", 19),
    ("< 1098003", 3),
    ("< $limb-name", 3),
    ("(< $limb", 11),
    ("< $limb)", 10),
    ("* : $site", 12),
    ("* : [1..x] $site = *", 9),
    ("* : [2..1] $site = *", 9),
    ("* : { { $site = * } }", 5),
    ("* : { R $site = * }", 5),
    ("* : R $strength = #5", 5),
    ("* : $strength = #", 16),
    ("* {{ C size = #5 }}", 8),
    ("* {{ C active = \"x\" }}", 8),
    ("* {{ C effectiveTime = \"2020\" }}", 8),
    ("* {{ C effectiveTime > (\"20200101\" \"20210101\") }}", 8),
    ("* {{ D type = name }}", 8),
    ("* {{ D term = #5 }}", 8),
    ("* {{ term = true }}", 6),
    ("* {{ term > \"wrist\" }}", 6),
    ("* {{ D dialect = en-gb (best) }}", 25),
    ("* {{ C active = 1 (prefer) }}", 19),
    ("* {{ D type = (fsn (prefer)) }}", 8),
    ("* {{ C moduleId = (900000000000207008 (prefer)) }}", 8),
    ("* {{ + HISTORY-SOME }}", 8),
    ("* {{ + HISTORY-MIN (*) }}", 8),
    ("(" * (limits.EXPRESSION_DEPTH + 1), limits.EXPRESSION_DEPTH + 1),
    ("descendantOf $limb", 1))
UNANSWERED = (
    ("LOINC#54486-6", "alternate identifiers"),
    ("^ [a, b] $set", "one field"),
    ("^ [*] $set", "one field"),
    ("^ $ctv3 {{ M mapTraget = \"X\" }}", "called mapTraget"),
    ("^ [mapTarget] 900000000000527005", "called mapTarget"),
    ("^ $never", "no members of the reference set"),
    ("* : $site = ^ $never", "no members of the reference set"))
# Those of the specification, as it prints them.
EXAMPLES = """
404684003 |Clinical finding|
< 404684003 |Clinical finding|
<< 73211009 |Diabetes mellitus|
<! 404684003 |Clinical finding|
<<! 404684003 |Clinical finding|
> 40541001 |Acute pulmonary edema|
>> 40541001
>! 40541001 |Acute pulmonary edema|
>>! 40541001 |Acute pulmonary edema|
!!> ( >! 45133009 |Neurotoxic disorder|)
!!< ( << 45133009 )
^ 700043003 |Example problem list concepts reference set|
*
^ *
< 19829001 |Disorder of lung| : 116676008 |Associated morphology| = 79654002 |Edema|
< 19829001 : 116676008 = << 79654002 , 363698007 |Finding site| = << 39057004
< 404684003 : { 363698007 = << 39057004 , 116676008 = << 415582006 } , { 116676008 = << 55641003 }
< 404684003 : 47429007 |Associated with| = ( < 404684003 : 116676008 = << 55641003 )
<< 404684003 |Clinical finding|: << 47429007 |Associated with| = << 267038008 |Edema|
>> 404684003: 246075003 = *
< 404684003 : * = 79654002
< 373873005 : [1..3] 127489000 |Has active ingredient| = < 105590001 |Substance|
< 373873005 : [0..0] 127489000 != < 105590001
< 404684003 : [1..3] { [1..*] 363698007 = < 91723000 }
< 91723000 : R 363698007 = < 125605004 |Fracture of bone|
< 125605004 |Fracture of bone| . 363698007 |Finding site|
<< 19829001 . < 47429007 . 363698007
< 19829001 AND < 301867009
< 19829001 OR ^ 700043003
< 19829001 MINUS ^ 700043003
(< 19829001 AND < 301867009) MINUS ^ 700043003
< 404684003 : 363698007 = ( << 39057004 AND << 53065001 )
< 27658006 : 1142135004 |Has presentation strength numerator value| >= #250, 732943007 = *
< 373873005 : 859999999102 |Trade name| = "PANADOL"
< 373873005 : 859999999102 = ("PANADOL" "TYLENOL")
< 373873005 : 859999999102 |In national list| = true
< 64572001 |Disease| {{ term = "heart att" }}
< 64572001 |Disease| {{ term != "heart att" }}
< 64572001 |Disease| {{ term = wild:"cardi*opathy" }}
< 64572001 |Disease| {{ term = ("heart" "card") }}
< 64572001 |Disease| {{ term = ( match:"gas" wild:"*itis" ) }}
< 64572001 |Disease| {{ D term = match:"heart att", language = en }} {{ term = "card" }}
< 56265001 {{ D language = es }}
< 56265001 {{ D type = syn }} {{ D dialect = en-nhs-clinical (prefer) }}
< 56265001 {{ dialectId = (900000000000508004 |GB| 900000000000509007 |US|) (preferred) }}
< 56265001 {{ D dialect = ( en-nhs-clinical (accept) en-gb (prefer) ) , type = syn }}
< 56265001 {{ C definitionStatus = primitive }}
< 195967001 {{ C definitionStatusId = 900000000000074008 , active = 1 }}
< 195967001 {{ C effectiveTime >= "20190731" , moduleId = << 900000000000207008 }}
<< 195967001 {{ + HISTORY }}
<< 195967001 {{ +HISTORY-MIN }}
<< 195967001 {{+ history_mod }}
<< 195967001 {{ + HISTORY ( < 900000000000522004 |Historical association| ) }}
^ 447562003 {{ M mapTarget = "J45.9" }}
^ 447562003 {{ M mapTarget = ("J45.9" "J46") }}
^ 447562003 {{ M mapPriority > #1, effectiveTime > "20200101" }}
^ 447562003 {{ M mapGroup = #1 }} {{ M mapPriority = #1 }}
^ ( < 900000000000455006 |Reference set| ) {{ C active = 0 }}
< 404684003: (363698007 |Finding site| OR 405813007) = << 39057004
< 404684003: (363698007 = << 39057004 OR 116676008 = << 415582006), 363698007 = *
< 404684003: { 363698007 = << 39057004 } OR { 116676008 = << 415582006 }
< 404684003: [0..1] { [3..*] 363698007 = < 91723000 |Anatomical structure| }
< 404684003: 363698007 = * , { 116676008 = * }
(<< 17636008 |Specimen collection|: 363704007 = *) . 363704007 |Procedure site|
< 373873005: 1142135004 |Strength| != #-5.5
< 56265001 {{ d TYPE = (FSN SYN) , LANGUAGE = (en es) }}
< 56265001 {{ D typeId = (900000000000003001 |FSN| 900000000000013009 |Synonym|) }}
< 56265001 {{ D active = false }} {{ C definitionStatus = (primitive defined) }}
<< 195967001 {{ + HISTORY ( 900000000000527005 |SAME AS| OR 900000000000526001 ) }}
(<< 195967001 {{ + HISTORY-MIN }}) {{ C active = 0 }}
^ 447562003 {{ m mapGroup = #2 , mapPriority = #1 , active = true , mapTarget = wild:"J45.*" }}
^ [ referencedComponentId ] 900000000000497000 {{ M mapTarget = "XUPhG" }}
^ [targetComponentId] 900000000000527005 {{ M referencedComponentId = 67415000 }}
/* all */ < 404684003 /* of them */ |Clinical (finding)|
""".strip().splitlines()

# What may stand in itself, around something, how often at most.
DEEP = (
    ("(< ", "*", ")", 60),
    ("* : * = (", "*", ")", 60),
    ("* : { * = (", "*", ")}", 30),
    ("^ (* MINUS (", "*", "))", 30),
    ("* : * = (* : { * = * } , * = (", "*", "))", 30),
    ("^ (* : * = (* . (^ * {{ M moduleId = (", "*", ") }})))", 10),
    ("(* {{ + HISTORY (", "*", ") }})", 15))
MANGLED = 1_500
PIECES = ("", " ", "(", ")", "{", "}", "{{", "}}", "[", "|", '"', "\\", "#", "*", "<", "!", "^", ":",
          ",", ".", "R ", "AND ", "or ", "/*", "0", "73211009", "a", "\u00df", "\u0663", "\n", "\0")


class Expressed(Asked):
    """Expressions with the names of the demo, of a store of whole packages."""

    of = "whole_service"

    def text(self, expression: str) -> str:
        words = {**self.codes, "limb-name": self.name_of_limb()}
        return re.sub(r"\$([\w-]+)", lambda name: words[name[1]], expression)

    def name_of_limb(self) -> str:
        """The id of a description."""
        rows = read(self.service.releases / "d1").by_kind["D"]
        return next(row[0] for row in rows if row[7].startswith("Fracture of bone of upper limb"))

    def url(self, expression: str, base: str = SCT) -> str:
        return "%s?fhir_vs=ecl/%s" % (base, self.text(expression))

    def expanded(self, expression: str, base: str = "/fhir/", **words: Any) -> list[str]:
        status, said = self.gateway.fhir(EXPAND, base, url=self.url(expression), **words)
        assert status == 200, said
        return self.codes_in(said)

    def codes_in(self, said: Json) -> list[str]:
        """The codes of an expansion, which has all of them."""
        found = [one["code"] for one in said["expansion"].get("contains", [])]
        assert found == sorted(found, key=int)
        return found

    def named(self, names: str) -> list[str]:
        return sorted((self.codes[name] for name in names.split()), key=int)

    def refused(self, expression: str) -> tuple[int, str]:
        status, said = self.gateway.fhir(EXPAND, url=self.url(expression))
        assert said["resourceType"] == "OperationOutcome", said
        return status, said["issue"][0]["diagnostics"]


class TestExpressions(Expressed):
    @pytest.mark.parametrize("expression, date, names", TABLE)
    def test_what_they_mean(self, expression: str, date: str, names: str) -> None:
        """By the set, and before that is known by each concept."""
        wanted = self.named(names)
        known = [code for code in wanted if code != self.codes["absent"]]
        for code in [*known, *sorted(self.codes.values())[::6]]:
            words = {"system": SCT, "code": code, "date": date}
            said = self.gateway.fhir(MEMBER, url=self.url(expression), **words)[1]
            is_in = told(said, "result") == [True]
            assert is_in == (code in known), (code, said)
        assert self.expanded(expression, date=date) == wanted

    @pytest.mark.parametrize("pin, names", (
        (1, "limb wrist"), (2, "limb radius carpal"), (3, BELOW)))
    def test_at_a_pin(self, pin: int, names: str) -> None:
        expression = "<< $limb" if pin < 3 else "<< $injury"
        assert self.expanded(expression, "/pin/%d/fhir/" % pin) == self.named(names)

    @pytest.mark.parametrize("text, letter", MISSPELT)
    def test_misspelt(self, text: str, letter: int) -> None:
        status, why = self.refused(text)
        assert status == 400 and "at letter %d: " % letter in why, why

    def test_of_too_many_letters(self) -> None:
        with pytest.raises(Problem, match="letters at most"):
            parse("*" + " " * limits.EXPRESSION_LETTERS)

    @pytest.mark.parametrize("text, why", UNANSWERED)
    def test_unanswered(self, text: str, why: str) -> None:
        status, said = self.refused(text)
        assert (status, why in said) == (422, True), said

    @pytest.mark.parametrize("text", EXAMPLES)
    def test_the_specifications_examples_are_read(self, text: str) -> None:
        read = parse(text)
        assert parse(spelled(read)) == read

    @pytest.mark.parametrize("before, middle, after, most", DEEP)
    def test_as_deep_as_may_be(self, before: str, middle: str, after: str, most: int) -> None:
        """They are answered, and one that is deeper is misspelt."""
        for count, status in ((most, 200), (most + 1, 400)):
            text = before * count + middle + after * count
            found, said = self.gateway.fhir(EXPAND, url=self.url(text), count=0)
            assert found == status, said

    def test_mangled(self) -> None:
        """Whatever is changed in an expression, it is read or refused."""
        chance, counts = random.Random(1), Counter[bool]()
        for _ in range(MANGLED):
            letters = [*chance.choice(EXAMPLES)]
            for _ in range(chance.randint(1, 3)):
                place = chance.randrange(len(letters))
                letters[place : place + chance.randint(0, 2)] = chance.choice(PIECES)
            try:
                read = parse("".join(letters))
            except Problem as problem:
                assert problem.status in (400, 422)
                counts[False] += 1
            else:
                assert parse(spelled(read)) == read, letters
                counts[True] += 1
        assert min(counts.values()) > MANGLED // 20, counts

    def test_patterns(self) -> None:
        """Also those by which a search that goes back would take years."""
        for pattern, is_fit in (
                ("*", True), ("a*", True), ("*a*a*b", True), ("*a" * 500 + "*c*", False),
                ("a", False), ("aa*" + "a" * 5_000 + "b", False), ("*" * 2_000 + "b", True)):
            assert fits_pattern(pattern, "a" * 5_000 + "B") == is_fit, pattern[:20]
        assert not fits_pattern("ab*ba", "aba")


class TestValueSets(Expressed):
    def test_address(self) -> None:
        """With a version before or behind it, and encoded once more, as an address has to be."""
        wanted = self.named("limb wrist")
        of_version = self.url("<< $limb", version("20190131"))
        encoded = SCT + "?fhir_vs=ecl/" + quote(self.text("<< $limb |a (term)|"))
        for url in (of_version, self.url("<< $limb") + "|" + version("20190131"),
                    encoded + "|" + version("20190131")):
            status, said = self.gateway.fhir(EXPAND, url=url)
            assert (status, self.codes_in(said)) == (200, wanted)
            assert said["url"] == url.split("|http")[0]

    def test_pages_and_what_is_active(self) -> None:
        url = self.url("<< $limb {{ + HISTORY-MOD }}")
        pages = []
        for at in range(0, 8, 2):
            said = self.gateway.fhir(EXPAND, url=url, offset=at, count=2)[1]
            assert said["expansion"]["total"] == 6
            pages += self.codes_in(said)
        assert pages == self.named("limb wrist radius carpal radius2 vague")
        said = self.gateway.fhir(EXPAND, url=url, activeOnly="true")[1]
        assert self.codes_in(said) == self.named("limb carpal radius2")
        whole = self.gateway.fhir(EXPAND, url=url)[1]["expansion"]["contains"]
        inactive = [one["code"] for one in whole if one.get("inactive")]
        assert inactive == self.named("wrist radius vague")

    def test_filter(self) -> None:
        url = self.url("<< $injury : $form = *")
        said = self.gateway.fhir(EXPAND, url=url, date=BEFORE, filter="fracture of")[1]
        found = {one["code"] for one in said["expansion"]["contains"]}
        assert found == {*self.named("wrist radius")}

    def define(self, *filters: tuple[str, str, str], **more: Any) -> Json:
        own = [dict(zip(("property", "op", "value"), one)) for one in filters]
        include = {"system": SCT, "filter": own}
        compose = {"include": [include], **more}
        return {"name": "valueSet", "resource": {"resourceType": "ValueSet", "compose": compose}}

    def test_filters_of_a_value_set(self) -> None:
        codes, day = self.codes, {"name": "date", "valueDate": BEFORE}
        site, injury = codes["site"], codes["injury"]
        below = ("constraint", "=", "<< " + injury)
        cases = (
            ([below], "injury limb wrist radius carpal"),
            ([(site, "=", codes["body"])], "wrist"),
            ([(site, "=", codes["bone"]), ("concept", "is-a", injury)], "radius"),
            ([("concept", "descendent-of", injury), ("constraint", "=", ">> " + codes["carpal"])],
             "limb carpal"),
            ([below, ("concept", "in", codes["set"])], "limb radius"),
            ([below, ("concept", "generalizes", codes["limb"])], "injury limb"))
        for filters, names in cases:
            status, said = self.gateway.posted(EXPAND, self.define(*filters), day)
            assert (status, self.codes_in(said)) == (200, self.named(names)), filters
            for name in ("wrist", "limb", "drug"):
                coding = {"name": "coding", "valueCoding": {"system": SCT, "code": codes[name]}}
                said = self.gateway.posted(MEMBER, self.define(*filters), day, coding)[1]
                assert told(said, "result") == [name in names.split()], (filters, name)
        without = self.define(below, exclude=self.define(below)["resource"]["compose"]["include"])
        assert self.codes_in(self.gateway.posted(EXPAND, without, day)[1]) == []
        wrong = self.gateway.posted(EXPAND, self.define(("constraint", "=", "<< 12")))
        assert (wrong[0], issue(wrong[1])) == (400, "invalid")
        for filters in ([("constraint", "in", "*")], [("moduleId", "=", EDITION)]):
            assert self.gateway.posted(EXPAND, self.define(*filters))[0] == 422, filters

    def test_search_and_metadata(self) -> None:
        url = self.url("<<$limb  AND *")
        found = self.gateway.fhir("ValueSet", url=url)[1]["entry"][0]["resource"]
        one = {"property": "constraint", "op": "=", "value": self.text("<< $limb AND *")}
        assert found["compose"]["include"] == [{"system": SCT, "filter": [one]}]
        assert (found["url"], found["version"]) == (url, version("20220731"))
        system = self.gateway.fhir("metadata", mode="terminology")[1]["codeSystem"][0]
        assert {"code": "constraint", "op": ["="]} in system["version"][0]["filter"]
        said = self.gateway.fhir("metadata")[1]["rest"][0]["resource"]
        texts = {one["type"]: one["operation"][0].get("documentation", "") for one in said}
        assert "?fhir_vs=ecl/EXPRESSION" in texts["ValueSet"]


class TestLines(Expressed):
    of = "service"

    def lines(self, path: str, **words: Any) -> list[str]:
        """What the hub is asked for an answer."""
        assert self.service.recorder
        before = len(self.service.recorder.lines)
        assert self.gateway.fhir(path, **words)[0] == 200, words
        return [line.decode() for line in self.service.recorder.lines[before:]]

    def test_one_concept_is_tested_without_the_set(self) -> None:
        words = {"url": self.url("<< $root : $site = << $body"), "date": "2020-11-30"}
        code = {"system": SCT, "code": self.codes["radius"]}
        lines = self.lines(MEMBER, **words, **code)
        assert any(" ANCESTORS " in line for line in lines)
        assert not any(" DESCENDANTS " in line for line in lines), lines

    def test_attributes_are_asked_for_their_sources(self) -> None:
        words = {"url": self.url("* : $site = << $bone"), "date": "2020-11-29"}
        lines = self.lines(EXPAND, **words)
        assert any(" SOURCES " in line for line in lines)
        assert not any(" PAGE " in line for line in lines), lines

    def test_sets_are_kept(self) -> None:
        """By the release in force and the meaning, whatever the day and the spelling."""
        words = {"url": self.url("< $root MINUS (< $disease)"), "date": "2020-10-30"}
        assert any(" DESCENDANTS " in line for line in self.lines(EXPAND, **words, count=1))
        again = {"url": self.url("<$root|x| minus ( < $disease /* y */ )"), "date": "2020-10-31"}
        lines = self.lines(EXPAND, **again, count=1)
        lines += self.lines(MEMBER, **again, system=SCT, code=self.codes["drug"])
        assert not any(" DESCENDANTS " in line or " ANCESTORS " in line for line in lines), lines
        for other in ({**words, "date": "2019-10-30"}, {**words, "url": self.url("< $body")}):
            assert any(" DESCENDANTS " in line for line in self.lines(EXPAND, **other, count=1))

    def test_a_set_is_of_its_pin(self) -> None:
        words = {"url": self.url("<< $limb AND *"), "date": LATEST}
        found = [self.expanded("<< $limb AND *", "/pin/%d/fhir/" % pin, date=LATEST)
                 for pin in (1, 2, 3, 1)]
        assert found == [self.named(names) for names in (
            "limb wrist", "limb radius carpal", "limb carpal radius2", "limb wrist")], words


# An expression, limits, a day, the concepts that it means, and how often what is asked for them.
PLANS: tuple[tuple[str, dict[str, int], str, str, str], ...] = (
    # The values of attributes come first, and of `*` what they lead to.
    ("* : $site = << $body", {}, BEFORE, "wrist radius",
     "DESCENDANTS 1, GET C 4, SOURCES 2"),
    ("* : $site = $bone OR $site = $body", {}, BEFORE, "wrist radius", "GET C 5, SOURCES 2"),
    ("* : $site = << $body, $form = $fracture", {}, BEFORE, "wrist radius",
     "ABOUT R 2, DESCENDANTS 1, GET C 6, SOURCES 1"),
    ("* : { $site = << $body, $form = $fracture }", {}, BEFORE, "wrist radius",
     "ABOUT R 2, DESCENDANTS 1, GET C 6, SOURCES 1"),
    ("* : [2..2] $form = $fracture", {}, BEFORE, "", "ABOUT R 2, GET C 4, SOURCES 1"),
    ("* : * = $body", {}, BEFORE, "wrist", "ABOUT R 2, GET C 3, SOURCES 1"),
    ("(<< $injury {{ C definitionStatus = defined }}) : $site = $bone", {}, BEFORE, "radius",
     "ANCESTORS 1, GET C 4, SOURCES 1"),
    # A reply of the most rows is followed by the next page.
    ("* : $form = $fracture", {"QUESTION_ROWS": 1}, BEFORE, "wrist radius", "GET C 4, SOURCES 3"),
    # Of many below a concept each value, of few each of them.
    ("<< $root : $site = $body", {"ASKED_UPWARDS": 3}, BEFORE, "wrist",
     "DESCENDANTS 1, GET C 3, SOURCES 1"),
    ("<< $limb : $site = << $body", {}, BEFORE, "wrist radius",
     "ABOUT R 4, ANCESTORS 2, DESCENDANTS 1, GET C 3"),
    # A value that isn't found by a question or two is found first only where there is no room.
    ("* : $site = (* : R $site = *)", {"EXPRESSION_LINES": 30}, BEFORE, "wrist radius",
     "GET C 1, PAGE C 1, PAGE R 1, SOURCES 2"),
    # Reverse attributes: from the sources, from the destinations, from all relationships.
    ("* : R $site = << $injury", {}, BEFORE, "body bone",
     "ABOUT R 5, DESCENDANTS 1, GET C 4"),
    ("<< $body : R $site = << $injury", {}, BEFORE, "body bone",
     "ANCESTORS 2, DESCENDANTS 1, GET C 3, SOURCES 2"),
    # (The bone is below it, and might have it as a site, too.)
    ("$body : [1..1] R * = *", {}, BEFORE, "body", "ABOUT R 1, CHILDREN 1, GET C 1, SOURCES 1"),
    ("* : R $site = *", {"EXPRESSION_LINES": 20}, LATEST, "bone",
     "GET C 1, PAGE C 1, PAGE R 1"),
    # A dotted attribute of many, of which only some values are asked for.
    ("$body AND (<< $root . $site)", {}, BEFORE, "body", "ANCESTORS 1, GET C 3, SOURCES 1"),
    # Concrete values of more concepts than there are lines.
    ("* : $strength >= #500.1", {"EXPRESSION_LINES": 20}, LATEST, "drug",
     "GET C 1, PAGE C 1, PAGE V 1"),
)


class Counted(View):
    """A view that counts its questions by their words."""

    def __init__(self, session: Session) -> None:
        super().__init__(session)
        self.counts = Counter[str]()

    async def ask(self, lines: Sequence[str], keep: bool = True) -> list[Reply]:
        self.counts.update(WORDS_OF_LINE.findall("\n".join(lines)))
        return await super().ask(lines, keep)


class TestPlans(Expressed):
    @pytest.mark.parametrize("expression, sizes, date, names, asked", PLANS)
    def test_what_is_asked(self, expression: str, sizes: dict[str, int], date: str, names: str,
                           asked: str, monkeypatch: pytest.MonkeyPatch) -> None:
        """No more than what the cheapest side asks."""
        for name, size in sizes.items():
            monkeypatch.setattr(limits, name, size)

        async def counted() -> tuple[s.Ids, Counter[str]]:
            async with Pool(self.service.questions).session(3) as session:
                view = Counted(session)
                evaluation = Evaluation(Terminology(view, date.replace("-", "")))
                return await evaluation.meant(parse(self.text(expression))), view.counts

        found, counts = asyncio.run(counted())
        told = ", ".join("%s %d" % one for one in sorted(counts.items()))
        assert (sorted(found, key=int), told) == (self.named(names), asked)


@pytest.mark.parametrize("most, is_refused", ((0, True), (37, True), (38, False)))
def test_budget(most: int, is_refused: bool, whole_service: Service,
                monkeypatch: pytest.MonkeyPatch) -> None:
    """An expression that asks for more is refused before it is asked. (This one asks for a page of
    all concepts, and about the 37 active ones.)"""
    monkeypatch.setattr(limits, "EXPRESSION_LINES", most)

    async def asked() -> int:
        async with Pool(whole_service.questions).session(3) as session:
            before = session.asked
            evaluation = Evaluation(Terminology(View(session), "20220731"))
            try:
                await evaluation.meant(parse("* : %s = *" % whole_service.codes["site"]))
            except Problem as problem:
                assert (problem.status, problem.code) == (422, "too-costly")
                assert "asks the store more than %d questions" % most in problem.text
                assert is_refused
            else:
                assert not is_refused
            return session.asked - before

    assert asyncio.run(asked()) <= most
