"""The page for people."""

import asyncio
import json
import re
from collections.abc import AsyncIterator, Iterable, Sequence
from urllib.parse import urlencode

import pytest
from make_release import sctid
from sctd_service.gateway import limits
from sctd_service.gateway.fhir.versions import Edition
from sctd_service.gateway.page import Search, results
from sctd_service.gateway.page_history import Names, changes
from sctd_service.gateway.page_record import Side, replacements, told_first
from sctd_service.snomed import (
    IS_A, SYNONYM, Association, Concept, Description, Language, Relationship)
from sctd_service.gateway.store import ANY, AnyRow, Terms, View

from .asked import Asked
from .demo_releases import REPLACED_BY
from .fixtures import EDITION, version


class Chain(View):
    """A store in which each concept but the last was replaced by the next."""

    def __init__(self, codes: list[str]) -> None:
        self.codes, self.days = codes, ["20200101"]

    async def associations(self, codes: Sequence[str], day: str) -> list[list[Association]]:
        return [self.next(self.codes.index(code)) for code in codes]

    def next(self, place: int) -> list[Association]:
        both = self.codes[place : place + 2]
        return [Association("m", "20200101", "1", "1", REPLACED_BY, *both)] if len(both) > 1 else []

    async def concepts(self, codes: Sequence[str], day: str,
                       keep: bool = True) -> list[Concept | None]:
        last = self.codes[-1]
        return [Concept(one, "20200101", str(int(one == last)), "1", "1") for one in codes]

    async def names(self, codes: Iterable[str], day: str,
                    language: Language = ANY) -> dict[str, str]:
        return {code: code for code in codes}


class Named(View):
    """A store in which each concept has one term, and all are found."""

    def __init__(self, codes: list[str]) -> None:
        self.codes, self.days, self.latest = codes, ["20200101"], "20200101"

    async def with_words(self, text: str, day: str, wanted: int = 0) -> AsyncIterator[Terms]:
        row = ("1", day, "1", "1")
        found = [Description(*row, code, "en", SYNONYM, code, "1") for code in self.codes]
        yield Terms(found, True)

    async def concepts(self, codes: Sequence[str], day: str,
                       keep: bool = True) -> list[Concept | None]:
        return [Concept(one, "20200101", "1", "1", "1") for one in codes]


# Markup that only a text of the store or of a client could have brought.
FOREIGN = re.compile(r"<script(?! src=\"page.js\" defer>)|<img|</textarea><s|onfocus='|<b>bold")


class TestPage(Asked):
    def page(self, base: str = "/", **words: str) -> tuple[int, str]:
        answer = self.gateway.send("GET", base + "?" + urlencode(words))
        return answer.status, answer.text

    def test_record(self) -> None:
        status, text = self.page(q=self.codes["wrist"], date="2018-01-01")
        assert status == 200
        for part in ("Fracture of wrist (disorder)", "31 January 2021", "Replaced by",
                     "Name changed: ", "pin 3; RECEIPT 3: OK 3 5 20220731", "was active",
                     "was inactive", "Synonym withdrawn: <bdi>Broken wrist</bdi>",
                     "Synonym added: <bdi>Breach of wrist</bdi>",
                     "Synonym withdrawn: <bdi>Breach of wrist</bdi>", "only then", "not then"):
            assert part in text
        # What took its place was retired too, which leads one step further.
        assert self.codes["radius2"] in text

    def test_a_replacement_that_is_no_concept(self) -> None:
        status, text = self.page(q=self.codes["lost"])
        found = re.search(r"Same as</b>: <a href=[^>]*><bdi>([0-9]+)</bdi>", text)
        assert found, (status, text)
        assert (status, found[1][-3:-1]) == (200, "01")

    def test_a_replacement_that_the_store_does_not_have(self) -> None:
        text = self.page(q=self.codes["lost"])[1]
        entries = re.findall(r"<li><b>(Replaced by|Same as)</b>: (.*?)</li>", text)
        assert sorted(name for name, _ in entries) == ["Replaced by", "Same as"]
        for _, entry in entries:
            assert "not in the store" in entry
            assert "inactive<" not in entry

    def test_many_steps_to_what_took_its_place(self) -> None:
        """A list that isn't whole says so."""
        most = limits.REPLACEMENT_STEPS
        for count, is_whole in ((most, True), (most + 1, False)):
            chain = [str(sctid(9_000 + number, "00")) for number in range(count + 1)]
            html = asyncio.run(replacements(Chain(chain), chain[0], "20200101"))
            assert html.count("Replaced by") == most
            assert ("isn\u2019t whole" not in html) == is_whole, count

    def test_a_component_that_names_another_concept_from_then_on(self) -> None:
        """A version may have another target, or another type, and stay active."""
        called = {"11": "Eleven", "12": "Twelve", "111": "Eleven", "7": "Site"}
        names = Names(called)
        member = Association("m", "20200131", "1", "1", REPLACED_BY, "10", "11")
        part = Relationship("r", "20200131", "1", "1", "10", "11", "0", IS_A, "i", "m")
        cases: list[tuple[AnyRow, AnyRow, list[str]]] = [
            (member, member._replace(target="12"), ["Replaced by changed: Eleven \u2192 Twelve"]),
            (part, part._replace(target="12"), ["Parent changed: Eleven \u2192 Twelve"]),
            (part, part._replace(type="7"), ["Parent withdrawn: Eleven", "Site added: Eleven"]),
            (part, part._replace(group="1"), []),
            (part, part._replace(target="12", active="0"), ["Parent withdrawn: Eleven"]),
            (part, part._replace(target="111"), ["Parent changed: 11 \u2192 111"])]
        for before, after, told in cases:
            found = [re.sub(r"</?bdi>", "", one) for one in changes(before, after, names)]
            assert found == told, after

    @pytest.mark.parametrize("date, status, release", (
        ("2021-01-30", "active", "20200731"), ("2021-01-31", "inactive", "20210131")))
    def test_day_before_and_day_of(self, date: str, status: str, release: str) -> None:
        text = self.page(q=self.codes["wrist"], date=date)[1]
        assert "on %s: %s. %s; pin 3;" % (date, status, version(release)) in text

    def report(self, **words: str) -> str:
        """The line for the report, up to the pin."""
        found = re.search(r"<textarea[^>]*>(.*?); pin 3; ", self.page(**words)[1])
        assert found
        return found[1]

    def test_a_code_that_was_not_there(self) -> None:
        code = self.codes["radius"]
        assert self.report(q=code, date="2020-07-30") == (
            "SNOMED CT %s on 2020-07-30: no such code then, its first row is of 2020-07-31. %s" % (
                code, version("20200131")))

    def test_days_before_the_store(self) -> None:
        """They aren't answered as if the store knew them."""
        code = self.codes["wrist"]
        nothing = "The store knows nothing of <time"
        text = self.page(q=code, date="1999-01-01")[1]
        assert text.count(nothing) == 1 and "wasn\u2019t there" not in text
        assert ">not known<" in text
        assert self.report(q=code, date="1999-01-01") == (
            "SNOMED CT %s on 1999-01-01: not known, since the store\u2019s first day is 2015-01-31"
            % code
        ).replace("\u2019", "&#39;")
        text = self.page(q=code, date="1999-01-01", other="2015-01-30")[1]
        assert text.count(nothing) == 2 and "<table" not in text
        text = self.page(q=self.codes["radius"], date="1999-01-01", other="2020-07-30")[1]
        assert text.count(nothing) == 1 and "isn\u2019t in the store by <time" in text
        assert nothing in self.page(q="fracture", date="2015-01-30")[1]
        assert self.gateway.send("GET", "/suggest?text=f&date=2015-01-30").text == "[]"

    def test_the_address_that_stays(self) -> None:
        text = self.page(q=self.codes["wrist"], date="2018-01-01")[1]
        found = re.search(r'<a href="(pin/3/\?q=[^"]*)">This page for good, at pin 3</a>', text)
        assert found
        assert (found[1] == "pin/3/?q=%s&amp;date=2018-01-01&amp;other=2022-07-31" % self.codes[
                    "wrist"])
        again = self.page("/pin/3/", q=self.codes["wrist"], date="2018-01-01", other="2022-07-31")[
            1]
        for part in ("Fracture of wrist (disorder)", "pin 3; RECEIPT 3: OK 3 5 20220731"):
            assert part in again

    def test_an_earlier_pin(self) -> None:
        # The history is asked for without a day: what is remembered of it is of one pin.
        assert "31 January 2021" in self.page(q=self.codes["wrist"])[1]
        text = self.page("/pin/1/", q=self.codes["wrist"])[1]
        assert "RECEIPT 1: OK 1 " in text
        assert "was inactive" not in text
        assert "31 January 2021" not in text

    def test_values_and_definition(self) -> None:
        text = self.page(q=self.codes["drug"], date="2019-12-31")[1]
        for part in ("<strong>500</strong>", "<strong>500.10</strong>", "Fully defined",
                     "Has strength value withdrawn: <bdi>500</bdi>",
                     "Has strength value added: <bdi>500.10</bdi>"):
            assert part in text

    def test_nothing_is_markup_that_came_as_text(self) -> None:
        texts = [self.page(q=self.codes["evil"])[1], self.page(q="<script>alert(9)</script>")[1],
                 self.page(q='"><img src=x>', date="2018-01-01")[1], self.page(q="Hostile")[1],
                 self.page(q="1", date='"><script>')[1], self.page(q="<b>bold")[1],
                 self.page(q="{{content}} {content} {0.__class__}")[1],
                 self.gateway.send("GET", "/<script>alert(1)</script>").text]
        for text in texts:
            assert FOREIGN.findall(text) == []
            assert "\u202e" not in text
            assert "\u200b" not in text
        assert "&lt;script&gt;alert(1)" in texts[0]
        assert "\u2039U+202E\u203a" in texts[0]

    def test_date_after_the_latest_release(self) -> None:
        limb = self.codes["limb"]
        assert "isn\u2019t known to it" in self.page(q=limb, date="2025-01-01")[1]
        assert "isn\u2019t known to it" not in self.page(q=limb, date="2022-07-31")[1]
        assert ('href="pin/3/?q=%s&amp;date=2025-01-01&amp;' % limb in self.page(
                    q=limb, date="2025-01-01")[1])

    def test_a_refusal_tells_its_pin(self) -> None:
        send = self.gateway.send
        for target in ("/?q=1&date=2018-02-31", "/suggest?text=", "/suggest?text=a&date=x"):
            answer = send("GET", target)
            assert (answer.status, answer.headers.get("x-sctd-pin")) == (400, "3"), target
        headers = send("GET", "/pin/2/?q=1&date=x").headers
        assert (headers.get("x-sctd-pin"), headers.get("x-sctd-receipt")) == (
            "2", "RECEIPT 2: OK 2 18 20210131")

    def test_one_day_is_one_column(self) -> None:
        wrist = self.codes["wrist"]
        cases: tuple[tuple[dict[str, str], str], ...] = (
            ({"date": "2018-01-01", "other": "2018-01-01"}, "then"),
            ({"date": "2022-07-31"}, "latest"),
            ({}, "latest"),
            ({"date": "2023-01-01", "other": "2024-01-01"}, "latest"))
        for words, head in cases:
            text = self.page(q=wrist, **words)[1]
            assert text.count('<th scope="col">') == 1, words
            assert '<span class="aside">%s</span></th></tr></thead>' % head in text, words
            assert re.findall(r"<mark>|id=.only|only then|both days", text) == [], words
            assert text.count("the code <strong>was ") == 1, words
        assert self.page(q=wrist, date="2018-01-01")[1].count('<th scope="col">') == 2

    def rows(self, text: str) -> dict[str, str]:
        """The rows of the table by their titles, each with its class."""
        found = re.findall(r'<tr([^>]*)><th scope="row">([^<]*)</th>(.*?)</tr>', text)
        return {title: class_ + cells for class_, title, cells in found}

    def test_only_what_differs(self) -> None:
        """A row is hidden if nothing in it is marked. Where nothing differs, or all, there is no
        switch."""
        text = self.page(q=self.codes["wrist"], date="2018-01-01")[1]
        rows = self.rows(text)
        same = [title for title, row in rows.items() if ' class="same"' in row]
        assert same == [title for title, row in rows.items() if "<mark>" not in row]
        assert "Synonyms" in same and "Status" not in same
        said = "Only what differs: %d of %d rows" % (len(rows) - len(same), len(rows))
        assert re.search(r'<input type="checkbox" id="only"[^>]* checked>', text)
        assert '<label for="only">%s</label>' % said in text
        for words in ({"q": self.codes["wrist"], "date": "2018-01-01", "other": "2018-01-02"},
                      {"q": self.codes["radius"], "date": "2018-01-01"}):
            text = self.page(**words)[1]
            assert "<table" in text and 'id="only"' not in text, words

    def test_rows_without_anything(self) -> None:
        """What neither day has makes no row."""
        text = self.page(q=self.codes["radius"], date="2018-01-01")[1]
        assert "Values" not in self.rows(text)
        assert "Parents" not in self.rows(self.page(q=self.codes["root"])[1])

    def test_children(self) -> None:
        """What was below on one of the days alone is marked."""
        text = self.page(q=self.codes["limb"], date="2020-12-31")[1]
        then, now = re.findall(r"<td[^>]*>(.*?)</td>", self.rows(text)["Children"])
        entry = r"<li>(<mark>)?<a [^>]*><bdi>[^<]*</bdi></a> <span[^>]*>%s<"
        found = {name: re.findall(entry % code, then) for name, code in self.codes.items()}
        assert {name for name, told in found.items() if told == ["<mark>"]} == {"wrist"}
        assert {name for name, told in found.items() if told == [""]} == {"radius", "carpal"}
        assert "not then" in now and self.codes["radius2"] in now

    def test_many_children(self) -> None:
        """So many are named, those first that the other day doesn't have; all are compared."""
        codes = [str(sctid(9_000 + number, "00")) for number in range(limits.TOLD_CONCEPTS + 9)]
        before, new = codes[:-1], codes
        named = told_first(new, before)
        assert len(named) == limits.TOLD_CONCEPTS and named[0] == codes[-1]
        sides = [Side("20200101", True, None,
                      Names({code: code for code in told_first(own, other)}))
                 for own, other in ((before, new), (new, before))]
        first, second = (side.some_of(own, side.link) for side, own in zip(sides, (before, new)))
        assert [key for key in second if key not in first] == [codes[-1]]
        assert re.sub("<[^>]*>", "", first["more"]) == "and 8 more"
        assert sum(bool(shown) for shown in second.values()) == limits.TOLD_CONCEPTS + 1

    def test_whose_place_it_took(self) -> None:
        rows = self.rows(self.page(q=self.codes["radius"], date="2020-12-31")[1])
        cells = re.findall(r"<td[^>]*>(.*?)</td>", rows["Took the place of"])
        assert self.codes["wrist"] not in cells[0]
        assert self.codes["wrist"] in cells[1] and "not then" in cells[1]
        assert "replaced by, possibly equivalent to</span>" in cells[1]
        # A namespace takes no concept's place.
        assert "Took the place of" not in self.rows(self.page(q=self.codes["namespace"])[1])

    def test_titles_name_what_is_shown(self) -> None:
        code = self.codes["wrist"]
        for words, title in (
                ({"q": code}, "Fracture of wrist joint region (disorder) %s" % code),
                ({"q": code, "date": "2014-01-01", "other": "2014-01-02"}, code),
                ({"q": str(sctid(999_999, "00"))}, str(sctid(999_999, "00"))),
                ({"q": "fract"}, "\u201cfract\u201d"),
                ({"q": "</title><script>x"}, "\u201c&lt;/title&gt;&lt;script&gt;x\u201d"),
                ({"q": code, "date": "x"}, "Refused")):
            text = self.page(**words)[1]
            assert "<title>%s \u00b7 The record as it stood</title>" % title in text, words
        assert "<title>The record as it stood</title>" in self.page()[1]

    def test_a_code_that_the_store_does_not_have(self) -> None:
        code = str(sctid(999_999, "00"))
        text = self.page(q=code, date="2018-01-01")[1]
        assert "<h2>The code <code>%s</code></h2>" % code in text
        assert self.report(q=code, date="2018-01-01") == (
            "SNOMED CT %s on 2018-01-01: no such code then, nor on any day up to 2022-07-31. %s" % (
                code, version("20170731")))

    def test_a_refusal_keeps_the_form(self) -> None:
        words = {"q": '"1105007', "date": "2018-02-31", "other": "x<y"}
        status, text = self.page(**words)
        assert status == 400 and 'role="alert"' in text
        for part in ('value="&#34;1105007"', 'value="2018-02-31"', 'value="x&lt;y"'):
            assert part in text, part
        text = self.page("/pin/2/", **words, wrong="1")[1]
        assert 'value="2018-02-31"' in text
        assert 'value="7"' in self.page("/pin/99/", q="7")[1]
        text = self.page("/changes", concept="123", **{"from": "2018-02-31"})[1]
        assert 'value="123"' in text and 'id="concept"' in text
        assert 'value=""' in self.gateway.send("GET", "/?q=%ff").text

    def found(self, text: str) -> list[tuple[str, str]]:
        """The concepts that a page of a search has, each with its term."""
        entries = re.findall(r'<li><a href="\?q=([0-9]+)&[^>]*><bdi>([^<]*)</bdi>', text)
        return [(code, term) for code, term in entries]

    def test_search_and_suggest(self) -> None:
        """Active concepts are first, each with the shortest term that has the words."""
        assert "2 concepts have a term with" in self.page(q="FRACTURE dis", date="2020-06-01")[1]
        assert "1 concept has a term with" in self.page(q="carp", date="2021-06-01")[1]
        assert "No concept has a term with" in self.page(q="nothing such")[1]
        text = self.page(q="frac (dis", date="2021-06-01")[1]
        assert self.found(text) == [
            (self.codes[name], term) for name, term in (
                ("radius", "Distal radius fracture"),
                ("carpal", "Fracture of carpal bone (disorder)"),
                ("limb", "Fracture of bone of upper limb (disorder)"),
                ("wrist", "Fracture of wrist joint region (disorder)"))]
        assert "4 concepts have a term with" in text and text.count(">inactive<") == 1
        told = json.loads(self.gateway.send("GET", "/suggest?text=dis+frac&date=2021-06-01").body)
        assert [(one["code"], one["term"]) for one in told] == self.found(text)
        assert [one["active"] for one in told] == [True, True, True, False]

    def test_pages_of_a_search(self, monkeypatch: pytest.MonkeyPatch) -> None:
        """As many concepts as a page has, and where there are more a link to the next ones."""
        monkeypatch.setattr(limits, "RESULT_CONCEPTS", 2)
        codes = [str(sctid(9_000 + number, "00")) for number in range(6)]
        for first, said in (
                (0, "These are concepts 1 to 2 that have"), (2, "These are concepts 3 to 4 that"),
                (4, "These are concepts 5 to 6 that have"), (6, "No further concept has a term")):
            search = Search(Edition(EDITION), "some words", "20200101", "", first)
            text = asyncio.run(results(Named(codes), search)).content
            assert said in text, first
            assert [code for code, _ in self.found(text)] == codes[first : first + 2]
            links = re.findall(r'<a href="\?([^"]*)">Next page</a>', text)
            more = "q=some+words&amp;date=2020-01-01&amp;first=%d" % (first + 2)
            assert links == [more] * (first < 3)
        assert "These are concepts 2 to" in self.page(q="fracture", first="1")[1]
        for wrong in ("-1", "x", "\u0663", "123456"):
            assert self.page(q="fracture", first=wrong)[0] == 400, wrong

    def test_what_has_no_word(self) -> None:
        for target in ("/?q=%25+-", "/suggest?text=%25+-"):
            answer = self.gateway.send("GET", target)
            assert answer.status == 400 and "no letter and no digit" in answer.text, target

    def test_wrong_words(self) -> None:
        for words, status in (
                ({"q": "12345678"}, 200), ({"q": "1", "date": "2018-02-31"}, 400),
                ({"q": "x" * 5000}, 200), ({"q": "a\nIMPORT d1"}, 200), ({"q": "a\rb"}, 200),
                ({"q": "1105007", "date": "x"}, 400), ({"q": "1105007", "date": "20180101"}, 400),
                ({"q": "1105007", "dat": "2018-01-01"}, 400)):
            assert self.page(**words)[0] == status, words
        for target in ("/?q=1&q=2", "/?q=%ff", "/suggest?text=", "/suggest?text=a%0ab",
                       "/suggest?text=a&date=x"):
            assert self.gateway.send("GET", target).status == 400, target
        assert self.gateway.send("GET", "/health").json()["pin"] == 3

    def test_labels_and_headings(self) -> None:
        text = self.page(q=self.codes["wrist"], date="2018-01-01")[1]
        fields = set(re.findall(r'<(?:input|textarea)[^>]* id="(\w+)"', text))
        assert fields == set(re.findall(r'<label for="(\w+)"', text))
        assert len(re.findall("<h1>", text)) == 1
        assert re.findall(r"<h([1-6])>", text)[0] == "1"
        assert '<html lang="en">' in text
        assert re.findall(r" style=| on[a-z]+=\"|<style", text) == []
