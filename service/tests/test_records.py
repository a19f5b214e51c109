"""The page of a list of records, each judged on its day."""

import asyncio
import csv
import io
import re
from collections.abc import Sequence

import pytest
from make_release import sctid
from sctd_service.gateway import limits
from sctd_service.gateway.fhir.versions import Edition
from sctd_service.gateway.hub import Connection, Reply
from sctd_service.gateway.pages import answered
from sctd_service.gateway.pool import Pool, Session
from sctd_service.gateway.problems import Problem
from sctd_service.gateway.records import records_of
from sctd_service.gateway.store import View

from .asked import Asked
from .fixtures import Answer, version

Row = dict[str, str]
CSV, FORM = "text/csv", "application/x-www-form-urlencoded"
MULTIPART = "multipart/form-data; boundary=xYz"


def parts(*fields: tuple[str, bytes]) -> bytes:
    """A form in parts."""
    told = b"".join(b'--xYz\r\nContent-Disposition: form-data; %s\r\n\r\n%s\r\n' % (
                        name.encode(), value) for name, value in fields)
    return told + b"--xYz--\r\n"


class Hub(Connection):
    """A hub that has nothing of anything."""

    def __init__(self) -> None:
        self.identity = (0, 0, 0)

    async def ask(self, lines: Sequence[str]) -> list[Reply]:
        return [("END 0",) for _ in lines]


class TestQuestions:
    def test_an_answer_may_ask_so_many(self) -> None:
        """Those that are remembered count too, so that a list is refused or not for good."""
        async def ask(counts: Sequence[int]) -> None:
            session = Session(Pool(""), Hub(), 1)
            session.most = 4
            for count in counts:
                assert len(await session.ask(["GET C 1 20200101"] * count)) == count

        for counts, is_refused in (((4,), False), ((2, 2), False), ((5,), True), ((3, 2), True)):
            if is_refused:
                with pytest.raises(Problem, match="more than 4 questions"):
                    asyncio.run(ask(counts))
            else:
                asyncio.run(ask(counts))

    @pytest.mark.parametrize("path, most", (
        ("/records", limits.RECORDS_QUESTIONS), ("/changes", limits.CHANGES_QUESTIONS)))
    def test_which_pages_have_a_limit(self, path: str, most: int) -> None:
        session = Session(Pool(""), Hub(), 1)
        asyncio.run(answered(path, Edition("1"), View(session), {}, False))
        assert session.most == most


class TestRecords(Asked):
    def send(self, body: bytes, kind: str = CSV, target: str = "/records") -> Answer:
        return self.gateway.send("POST", target, body, {"Content-Type": kind})

    def page(self, *lines: str) -> str:
        answer = self.send("\n".join(lines).encode())
        assert answer.status == 200
        return answer.text

    def file(self, *lines: str, base: str = "") -> list[Row]:
        answer = self.send("\n".join(lines).encode(), CSV, base + "/records?format=csv")
        assert (answer.status, answer.headers["content-type"]) == (200, "text/csv; charset=utf-8")
        return list(csv.DictReader(io.StringIO(answer.text, newline="")))

    def judged(self, line: str) -> Row:
        found = self.file(line)
        assert len(found) == 1
        return found[0]

    def test_each_line_on_its_day(self) -> None:
        wrist, limb = self.codes["wrist"], self.codes["limb"]
        found = self.file("code,day,term", "%s,2018-01-01,Fracture of wrist (disorder)" % wrist,
                          "%s,2018-08-01,Fracture of wrist (disorder)" % wrist,
                          "%s,2021-01-30,Wrist fracture" % wrist,
                          "%s,2021-01-31,Wrist fracture" % wrist, "%s,20180101" % limb)
        assert [row["line"] for row in found] == ["2", "3", "4", "5", "6"]
        assert [row["verdict"] for row in found] == ["right", "wrong", "right", "wrong", "right"]
        assert [row["status_then"] for row in found] == [*["active"] * 3, "inactive", "active"]
        assert [row["status_now"] for row in found] == [*["inactive"] * 4, "active"]
        assert [row["term_then"] for row in found] == [
            "Fully specified name (en)", "", "Synonym (en)", "Synonym (en)", ""]
        assert found[1]["name_then"] == "Fracture of wrist joint region (disorder)"
        assert "wasn\u2019t an active description" in found[1]["said"]
        assert found[3]["said"] == "The code was inactive then."
        assert [row["version"] for row in found[:2]] == [version("20170731"), version("20180731")]
        assert {row["pin"] for row in found} == {"3"}
        assert found[4]["day"] == "2018-01-01"

    def test_what_took_its_place(self) -> None:
        codes = self.codes
        said = self.judged("%s,2018-01-01" % codes["wrist"])["replaced_by"]
        assert said.split("; ") == [
            "Replaced by %s |Fracture of distal end of radius (disorder)|" % codes["radius"],
            "Possibly equivalent to %s |Fracture of distal end of radius (disorder)|" % codes[
                "radius"],
            "Possibly equivalent to %s |Fracture of carpal bone (disorder)|" % codes["carpal"],
            "Same as %s |Fracture of distal radius (disorder)|" % codes["radius2"]]
        assert self.judged("%s,2018-01-01" % codes["limb"])["replaced_by"] == ""
        text = self.page("%s,2018-01-01" % codes["wrist"])
        assert "<b>Same as</b>: <a href=" in text and "in the place of" in text

    def test_case_type_and_language_of_a_term(self) -> None:
        wrist = self.codes["wrist"]
        for text, use in (
                ("WRIST fracture", "Synonym (en)"), ("Handgelenksfraktur", "Synonym (de)"),
                ("fracture of wrist (disorder)", "Fully specified name (en)"),
                ("Wrist  fracture", ""), ("Broken wrist", "")):
            assert self.judged("%s,2018-01-01,%s" % (wrist, text))["term_then"] == use, text

    def test_lines_that_are_not_judged(self) -> None:
        wrist = self.codes["wrist"]
        term = str(sctid(5_000, "01"))
        for line, said in (
            ("1105008,2018-01-01,x", "The code isn\u2019t an SCTID: its check digit or its kind"),
            ("%s,2018-01-01" % term, "is the SCTID of a description, and not of a concept"),
            ("abc,2018-01-01", "which is a number of 6 to 18 digits"),
            (",2018-01-01", "The line has no code."),
            (wrist, "The line has no day."),
            (wrist + ",2018-02-31", "\u201c2018-02-31\u201d isn\u2019t a day of the calendar"),
            (wrist + ",1.1.2018", "\u201c1.1.2018\u201d isn\u2019t a day of the calendar"),
            (wrist + ",2014-12-31", "knows nothing of 31 December 2014: its first day is 31 Jan"),
            (wrist + ',2018-01-01,"a', "quotation marks aren\u2019t those of CSV"),
            (wrist + ",2018-01-01," + "x" * limits.RECORD_CHARACTERS, "more than 5000 characters"),
        ):
            found = self.judged(line)
            assert found["verdict"] == "not judged", line
            assert said in found["said"], line
            assert found["version"] == ""

    def test_codes_that_were_not_there(self) -> None:
        row = self.judged("%s,2020-07-30" % self.codes["radius"])
        assert (row["verdict"], row["status_then"]) == ("wrong", "absent")
        assert row["said"] == "There was no such code then: its first row is of 31 July 2020."
        row = self.judged("%s,2020-07-30" % sctid(999_999, "00"))
        assert (row["said"], row["status_now"]) == ("The store has no such code.", "absent")
        row = self.judged("%s,2031-01-01" % self.codes["limb"])
        assert row["verdict"] == "right" and "isn\u2019t known to it" in row["said"]
        assert row["version"] == version("20220731")

    def test_all_lines_are_of_one_pin(self) -> None:
        lines = ["%s,2021-06-01" % self.codes[name] for name in ("wrist", "limb")]
        assert [row["status_then"] for row in self.file(*lines, base="/pin/1")] == ["active"] * 2
        assert {row["pin"] for row in self.file(*lines, base="/pin/1")} == {"1"}
        assert [row["status_then"] for row in self.file(*lines)] == ["inactive", "active"]
        answer = self.send("\n".join(lines).encode(), CSV, "/pin/2/records")
        assert answer.headers["x-sctd-pin"] == "2"
        assert "Pin 2; RECEIPT 2: OK 2 18 20210131; read on" in answer.text
        assert self.page(*lines).count('<a href="pin/3/records">') == 1

    def test_the_table(self) -> None:
        wrist = self.codes["wrist"]
        text = self.page(
            wrist + ",2018-01-01", "", wrist + ",2018-01-01,Nothing", wrist + ",1999-01-01")
        assert "<h2>3 records</h2>" in text
        assert (
            "Right: <strong>1</strong>. Wrong: <strong>1</strong>. Not judged: <strong>1</strong>."
            in text
        )
        assert re.findall(r'<tr><th scope="row">([0-9]+)</th>', text) == ["1", "3", "4"]
        assert '<body class="records">' in text
        assert text.count('<a href="./?q=%s&amp;date=2018-01-01"><bdi>' % wrist) == 2
        assert "<textarea" in text and wrist + ",2018-01-01,Nothing" in text

    @pytest.mark.parametrize("delimiter", (",", ";", "\t", ", "))
    def test_how_columns_are_separated(self, delimiter: str) -> None:
        lines = (("code", "date", "term"), ("138875005", "2018-01-01", "1,25-x; y"))
        if delimiter[0] == ";":
            lines = (lines[0], ("138875005", "2018-01-01", "1,25-x"))
        text = "\r\n".join(map(delimiter.join, lines))
        found = records_of(text)
        assert [(one.code, one.day, one.term) for one in found] == [
            (lines[1][0], "20180101", lines[1][2])]

    @pytest.mark.parametrize("text, found", (
        ("", []),
        ("\r\n \n", []),
        ("1;2018-01-01;\"a;b\"\"c\"", [("1", "", 'a;b"c')]),
        ("Term,Date,Conceptid,x\na,2018-01-01,138875005,y", [("138875005", "20180101", "a")]),
        ("x,code,day,term\ny,138875005,2018-01-01,a, b", [("138875005", "20180101", "a, b")]),
        ("138875005,2018-01-01,a\u2028b,,", [("138875005", "20180101", "a\u2028b")]),
        ("code,code,day\n138875005,2018-01-01",
         [("code", "", "day"), ("138875005", "20180101", "")])))
    def test_lists(self, text: str, found: Sequence[tuple[str, str, str]]) -> None:
        assert [(one.code, one.day, one.term) for one in records_of(text)] == found

    def test_how_many(self) -> None:
        line = "138875005,2018-01-01\n"
        assert len(records_of("code,day\n" + line * limits.RECORDS)) == limits.RECORDS
        with pytest.raises(Problem, match="may have 1000 records, and this one has 1001"):
            records_of(line * (limits.RECORDS + 1))
        assert self.send(line.encode() * limits.RECORDS).status == 200
        answer = self.send(line.encode() * (limits.RECORDS + 1))
        assert answer.status == 422 and "this one has 1001" in answer.text

    def test_how_long(self) -> None:
        line = b"138875005,2018-01-01,"
        for more, status in ((0, 200), (1, 422)):
            room = limits.RECORDS_BYTES - len(line) + more
            assert self.send(line + b"x" * room).status == status
        assert self.send(b"x" * limits.RECORDS_BODY_BYTES).status == 422
        assert self.send(b"x" * (limits.RECORDS_BODY_BYTES + 1)).status == 413
        assert self.send(b"x" * (limits.BODY_BYTES + 1), CSV, "/changes").status == 413

    def test_what_a_browser_posts(self) -> None:
        line = ("%s,2018-01-01" % self.codes["wrist"]).encode()
        pasted, file = 'name="list"', 'name="file"; filename="records.csv"'
        none = 'name="file"; filename=""'
        for body, kind in (
                (parts((pasted, line), (none, b"")), MULTIPART),
                (parts((pasted, b""), (file, b"\xef\xbb\xbf" + line)), MULTIPART),
                (parts((file, line)), 'Multipart/Form-Data; charset=UTF-8; boundary="xYz"'),
                (b"list=" + line.replace(b",", b"%2C"), FORM),
                (line, "text/plain; charset=utf-8"),
                (line.replace(b",", b"\t"), "text/tab-separated-values")):
            answer = self.send(body, kind)
            assert (answer.status, "<h2>1 record</h2>" in answer.text) == (200, True), body
        body = parts((pasted, line), ('name="format"', b"csv"))
        assert self.send(body, MULTIPART).headers["content-type"].startswith("text/csv")
        assert "Paste a list" in self.send(parts((pasted, b"")), MULTIPART).text
        assert "Paste a list" in self.gateway.send("GET", "/records").text

    def test_what_is_refused(self) -> None:
        line, pasted = b"138875005,2018-01-01", 'name="list"'
        file = 'name="file"; filename="a"'
        for body, kind, status in (
                (line, "application/json", 415),
                (line, "", 415),
                (line, "text/csv; charset=iso-8859-1", 415),
                ("138875005,2018-01-01,\u00e4".encode("latin-1"), CSV, 400),
                ("138875005".encode("utf-16"), CSV, 400),
                (b"list=%ff", FORM, 400),
                (b"list=1&list=2", FORM, 400),
                (b"lists=1", FORM, 400),
                (b"&".join([b"a=1"] * (limits.PARAMETERS + 1)), FORM, 400),
                (parts((pasted, line), (file, line)), MULTIPART, 400),
                (parts((pasted, line), (pasted, line)), MULTIPART, 400),
                (parts(('name="other"', line)), MULTIPART, 400),
                (parts(("x", line)), MULTIPART, 400),
                (parts((pasted, line)), "multipart/form-data", 400),
                (parts((pasted, line))[:-6], MULTIPART, 400),
                (b"x" + parts((pasted, line)), MULTIPART, 400),
                (b"", MULTIPART, 400),
                (parts(*[(pasted, b"")] * (limits.PARAMETERS + 1)), MULTIPART, 400),
                (parts((pasted, b"\xff")), MULTIPART, 400)):
            answer = self.send(body, kind)
            assert (answer.status, b"Refused: " in answer.body) == (status, True), (body, kind)
            assert answer.headers["content-type"].startswith("text/html")
        for words in ("list=1", "format=xml", "format=csv&format=csv"):
            assert self.send(line, CSV, "/records?" + words).status == 400, words
        assert self.gateway.send("GET", "/records?list=1").status == 400
        assert self.gateway.send("PUT", "/records", line, {"Content-Type": CSV}).status == 405

    def test_a_refusal_keeps_the_list(self) -> None:
        line = b'138875005,2018-01-01,<b>bold</b>\n' * (limits.RECORDS + 1)
        for answer in (self.send(line),
                       self.send(parts(('name="list"', line)), MULTIPART, "/pin/2/records")):
            assert answer.status == 422
            assert answer.text.count("&lt;b&gt;bold&lt;/b&gt;") == limits.RECORDS + 1
            assert "<b>bold" not in answer.text

    def test_nothing_is_markup_or_a_formula_that_came_as_text(self) -> None:
        lines = ("<script>alert(1)</script>,</textarea><script>,<img src=x onerror=alert(1)>",
                 "138875005,2018-01-01,</textarea><script>alert(2)</script>",
                 "%s,2018-01-01,turned \u202e" % self.codes["evil"],
                 "=cmd|' /C calc'!A0,2018-01-01,=1+1")
        text = self.page(*lines)
        assert re.findall('<script(?! src="page.js" defer>)|<img|</textarea><s', text) == []
        table = text[text.index("<table") :]
        assert "\u202e" not in table and "\u2039U+202E\u203a" in table
        row = self.file(*lines)[3]
        assert (row["code"], row["term"]) == ("'=cmd|' /C calc'!A0", "'=1+1")
