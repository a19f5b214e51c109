"""The page of what changed between two days."""

import asyncio
import csv
import io
import re
from collections.abc import AsyncIterator, Iterable, Sequence
from urllib.parse import urlencode

import pytest
from make_release import sctid
from sctd_service.gateway import limits
from sctd_service.gateway.fhir.versions import Edition
from sctd_service.gateway.page_changes import Between, answer, changed_by_concept
from sctd_service.gateway.hub import Reply
from sctd_service.gateway.problems import Problem
from sctd_service.gateway.store import ANY, AnyRow, View
from sctd_service.gateway.frame import Shown, guarded
from sctd_service.snomed import Concept, Language

from .asked import Asked

Row = dict[str, str]
ROOT = "138875005"


class Crowd(View):
    """A store in which so many concepts below the root changed."""

    def __init__(self, count: int) -> None:
        self.codes = [str(sctid(9_000 + number, "00")) for number in range(count)]
        self.days, self.latest = ["20200101", "20210101"], "20210101"
        self.pin, self.receipt, self.known = 1, "-", None

    async def versions(self, code: str) -> list[Concept]:
        return [Concept(code, "20200101", "1", "1", "1")]

    async def descendants(self, code: str, day: str) -> list[str]:
        return self.codes

    async def delta(self, kind: str, first: str, last: str) -> AsyncIterator[Sequence[AnyRow]]:
        rows = [Concept(one, last, "0", "1", "1") for one in self.codes if kind == "C"]
        for start in range(0, len(rows), limits.QUESTION_ROWS):
            yield rows[start : start + limits.QUESTION_ROWS]

    async def rows_on(self, components: Sequence[tuple[str, str]], day: str) -> list[AnyRow | None]:
        return [Concept(name, day, "1", "1", "1") for _, name in components]

    async def concepts(self, codes: Sequence[str], day: str,
                       keep: bool = True) -> list[Concept | None]:
        return [Concept(one, day, "1", "1", "1") for one in codes]

    async def names(self, codes: Iterable[str], day: str,
                    language: Language = ANY) -> dict[str, str]:
        return {code: code for code in codes}


class Pages(View):
    """A store of so many concepts, which changed and are told page by page."""

    def __init__(self, count: int) -> None:
        self.codes = sorted(str(sctid(9_000 + number, "00")) for number in range(count))

    async def told(self, line: str, keep: bool = True) -> Reply:
        asked, kind, first, last, after, limit = line.split(" ")
        assert (asked, kind, first, last) == ("DELTA", "C", "20200101", "20210101")
        left = [code for code in self.codes if after == "-" or code > after][: int(limit)]
        rows = ("ROW %s\t20210101\t1\t1\t1" % code for code in left)
        return (*rows, "END %d" % len(left))


class TestDelta:
    def test_page_by_page(self) -> None:
        """Also where the last page is full."""
        async def all_of(view: View) -> list[str]:
            pages = view.delta("C", "20200101", "20210101")
            return [row.id async for page in pages for row in page]

        for count in (0, 1, limits.QUESTION_ROWS, 2 * limits.QUESTION_ROWS + 1):
            view = Pages(count)
            assert asyncio.run(all_of(view)) == view.codes


class TestChanges(Asked):
    def page(self, base: str = "/changes", **words: str) -> tuple[int, str]:
        words = {name.rstrip("_"): word for name, word in words.items()}
        sent = self.gateway.send("GET", base + "?" + urlencode(words))
        return sent.status, sent.text

    def file(self, concept: str, first: str, last: str = "", base: str = "/changes") -> list[Row]:
        words = {"concept": concept, "from": first, "to": last, "format": "csv"}
        sent = self.gateway.send("GET", base + "?" + urlencode(words))
        assert (sent.status, sent.headers["content-type"]) == (200, "text/csv; charset=utf-8")
        name = "changes-%s-%s-" % (concept, first.replace("-", ""))
        assert sent.headers["content-disposition"].startswith('attachment; filename="' + name)
        return list(csv.DictReader(io.StringIO(sent.text, newline="")))

    def test_what_came_left_and_changed(self) -> None:
        codes = self.codes
        found = self.file(codes["finding"], "2019-01-31")
        statuses = {row["code"]: (row["status_from"], row["status_to"]) for row in found}
        assert statuses == {
            codes["wrist"]: ("active", "inactive"), codes["radius"]: ("absent", "inactive"),
            codes["carpal"]: ("absent", "active"), codes["radius2"]: ("absent", "active")}
        told = {(row["code"], row["kind"], row["effectiveTime"], row["change"]) for row in found}
        for one in (("wrist", "C", "20210131", "Concept inactive; Now primitive"),
                    ("wrist", "R", "20210131",
                     "Parent withdrawn: Fracture of bone of upper limb (disorder)"),
                    ("wrist", "A", "20210131",
                     "Replaced by: Fracture of distal end of radius (disorder)"),
                    ("carpal", "D", "20200731", "Name added: Fracture of carpal bone (disorder)"),
                    ("radius", "A", "20220731", "Same as: Fracture of distal radius (disorder)")):
            assert (codes[one[0]], *one[1:]) in told, one
        assert [row["code"] for row in found] == sorted((row["code"] for row in found), key=int)
        assert {(row["pin"], row["receipt"]) for row in found} == {(
            "3", "RECEIPT 3: OK 3 5 20220731")}

    def test_days_are_those_of_the_delta(self) -> None:
        """The first day isn't among them, the last one is."""
        limb = self.codes["limb"]
        of_limb = [
            len([row for row in self.file(limb, first, last) if row["code"] == limb])
            for first, last in (
                ("2019-01-30", "2019-01-31"),
                ("2019-01-31", "2019-02-01"),
                ("2019-01-29", "2019-01-30"),
            )
        ]
        assert of_limb == [2, 0, 0]

    def test_what_left_and_what_came_below(self) -> None:
        """What was below on one of the days alone is told too, and nothing that was elsewhere."""
        codes = self.codes
        left = self.file(codes["limb"], "2020-12-31", "2021-01-31")
        assert {row["code"] for row in left} == {codes["wrist"]}
        came = self.file(codes["limb"], "2018-12-31", "2019-01-31")
        assert {row["code"] for row in came} == {codes["wrist"], codes["limb"]}
        drug = self.file(codes["product"], "2019-01-31")
        assert {(row["code"], row["kind"]) for row in drug} == {(codes["drug"], "V")}

    def test_a_pin_and_the_address_that_stays(self) -> None:
        codes = self.codes
        then = self.file(codes["finding"], "2019-01-31", base="/pin/2/changes")
        assert codes["radius2"] not in {row["code"] for row in then}
        words = {"concept": codes["finding"], "from_": "2019-01-31", "to": "2021-01-31"}
        text = self.page(**words)[1]
        found = re.search(r'<a href="(pin/3/changes\?[^"]*)">This page for good', text)
        assert found
        again = self.gateway.send("GET", "/" + found[1].replace("&amp;", "&")).text
        tables = [re.findall("<table.*</table>", one) for one in (text, again)]
        assert tables[0] == tables[1] != []

    def test_the_table(self) -> None:
        codes = self.codes
        status, text = self.page(concept=codes["finding"], from_="2019-01-31")
        assert status == 200
        assert "<strong>4 concepts changed</strong> at it and below it." in text
        rows = dict(re.findall(
            r'<tr><th scope="row"><a [^>]*>.*?</a> <span[^>]*>([0-9]+)</span></th>(.*?)</tr>', text
        ))
        assert set(rows) == {codes[name] for name in ("wrist", "radius", "carpal", "radius2")}
        moved = '<span class="active">active</span> \u2192 <span class="inactive">inactive</span>'
        assert moved in rows[codes["wrist"]]
        assert "<li>Name added: <bdi>Fracture of carpal bone (disorder)</bdi></li>" in rows[
            codes["carpal"]]
        leads = '<a href="./?q=%s&amp;date=2022-07-31"><bdi>Fracture of carpal bone ('
        assert leads % codes["carpal"] in text
        none = self.page(concept=codes["finding"], from_="2022-07-31", to="2022-08-01")[1]
        assert "<strong>no concepts changed</strong>" in none and "<table" not in none

    def crowd(self, count: int, **more: str) -> str:
        words = {"concept": ROOT, "from": "2020-01-01", **more}
        found = asyncio.run(answer(Edition("1"), Crowd(count), words, False))
        return found.content if isinstance(found, Shown) else found.body.decode()

    def test_the_bound_is_said(self) -> None:
        """The page shows so many concepts, and says that the file has all."""
        most = limits.CHANGED_CONCEPTS
        for count in (most, most + 1):
            text = self.crowd(count)
            assert text.count('<th scope="row">') == most
            assert "<strong>%d concepts changed</strong>" % count in text
            said = "The table has the first %d of them; the file has all, or is refused" % most
            assert (said in text) == (count > most)
        assert self.crowd(most + 1, format="csv").count("\n") == most + 2

    def test_more_rows_than_are_looked_through(self) -> None:
        asked = Between(ROOT, ("20200101", "20210101"), ("20200101", "20210101"))
        most = limits.DELTA_ROWS
        assert len(asyncio.run(changed_by_concept(Crowd(most), asked))) == most
        with pytest.raises(Problem, match="more than 200000 rows changed.*nearer to each other"):
            asyncio.run(changed_by_concept(Crowd(most + 1), asked))

    def test_what_is_not_told(self) -> None:
        finding, limb = self.codes["finding"], self.codes["limb"]
        cases: tuple[tuple[dict[str, str], str], ...] = (
            ({}, "Type a concept\u2019s code and two days"),
            ({"concept": finding}, "Say after which day"),
            ({"concept": "12345678", "from_": "2019-01-31"}, "isn\u2019t a concept\u2019s code"),
            ({"concept": str(sctid(999_999, "00")), "from_": "2019-01-31"}, "has no concept"),
            ({"concept": limb, "from_": "2019-01-31", "to": "2019-01-31"}, "isn\u2019t before"),
            ({"concept": limb, "from_": "2010-01-31"}, "The store knows nothing of"))
        for words, said in cases:
            status, text = self.page(**words)
            assert (status, said in text) == (200, True), words
            assert "<table" not in text
        for wrong in (
                {"concept": limb, "from_": "2019-02-31"}, {"concept": limb, "from_": "20190131"},
                {"concept": limb, "from_": "2019-01-31", "other": "1"},
                {"concept": limb, "from_": "2019-01-31", "format": "xml"}, {"format": "CSV"}):
            assert self.page(**wrong)[0] == 400, wrong

    def test_nothing_is_markup_that_came_as_text(self) -> None:
        evil = self.codes["evil"]
        for text in (self.page(concept=evil, from_="2015-01-31")[1],
                     self.page(concept='"><script>alert(1)</script>', from_="2015-01-31")[1]):
            assert re.findall('<script(?! src="page.js" defer>)', text) == []

    def test_cells_that_would_be_calculated(self) -> None:
        for cell in ("=1+1", "+1", "-1", "@x", "\t=1", "\r=1", "\n=1", "\uff1d1"):
            assert guarded(cell) == "'" + cell
        for cell in ("", "a=1", "1105007", " =1", "2018-01-01"):
            assert guarded(cell) == cell
