"""What was known on a day: requests that name a day as `known`, by a list of imports whose times
this writes."""

import json
import time
from collections.abc import Iterator
from pathlib import Path
from typing import Any
from urllib.parse import urlencode

import pytest

from .asked import Asked
from .fixtures import FHIR_JSON, SCT, Service, issue, told, until

LOOKUP = "CodeSystem/$lookup"
# When the imports were made: the first one, and then two on one day. The third has no line where
# that is wanted.
DAYS = ("2019-02-01", "2021-02-15", "2021-02-15")
FIRST_LINE = "sctd imports 1\n"
LINE = "%d\t%sT10:00:00Z\td%d\t%d\t0\t%s\tuser 0\n"
# Where each day leads: the pin, or the status and the issue of a refusal.
KNOWN: tuple[tuple[str, int | tuple[int, str]], ...] = (
    ("2019-01-31", (404, "not-found")),
    ("2019-02-01", 1),
    ("2021-02-14", 1),
    ("2021-02-15", 3),
    ("2022-01-01", 3),
    ("9999-01-01", (404, "not-found")),
)
# Of whichever operation, what it is asked of a concept.
OPERATIONS: tuple[tuple[str, dict[str, str]], ...] = (
    (LOOKUP, {"system": SCT, "code": "138875005"}),
    ("CodeSystem/$subsumes", {"system": SCT, "codeA": "138875005", "codeB": "138875005"}),
    ("CodeSystem/$validate-code", {"url": SCT, "code": "138875005"}),
    ("ValueSet/$validate-code", {"url": SCT + "?fhir_vs", "system": SCT, "code": "138875005"}),
    ("ValueSet/$expand", {"url": SCT + "?fhir_vs", "count": "5"}),
    ("ConceptMap/$translate", {"system": SCT, "code": "138875005"}),
    ("metadata", {}),
    ("metadata", {"mode": "terminology"}),
    ("CodeSystem", {"url": SCT}),
    ("CodeSystem/sct", {}),
)


def without_time(resource: Any) -> Any:
    """An answer without the time at which an expansion was made."""
    resource.get("expansion", {}).pop("timestamp", None)
    return resource


class TestWithoutList(Asked):
    def test_refusal(self) -> None:
        """The store of all tests has no list."""
        for known, wanted in (("2020-10-15", (422, "not-supported")), ("x", (400, "invalid"))):
            status, said = self.gateway.fhir(LOOKUP, known=known, **OPERATIONS[0][1])
            assert (status, issue(said)) == wanted


class TestKnown(Asked):
    of = "own_service"

    @pytest.fixture(autouse=True, scope="class")
    def with_list(self, own_service: Service) -> Iterator[None]:
        self.put(own_service, 1, 2, 3)
        yield

    @staticmethod
    def put(service: Service, *numbers: int) -> None:
        """Starts the hub again on a list with the lines of these imports."""
        service.stop_hub()
        text = FIRST_LINE
        for number in numbers:
            new = int(service.asked("RECEIPT %d" % number).split()[2])
            text += LINE % (number, DAYS[number - 1], number, new, "-")
        Path(service.store + ".imports").write_text(text, encoding="utf-8")
        service.start_hub()

    @pytest.mark.parametrize("day, wanted", KNOWN)
    def test_days(self, day: str, wanted: int | tuple[int, str]) -> None:
        target = "/fhir/%s?%s" % (LOOKUP, urlencode(dict(OPERATIONS[0][1], known=day)))
        answer = self.gateway.send("GET", target)
        if isinstance(wanted, tuple):
            assert (answer.status, issue(answer.json())) == wanted
            assert "x-sctd-pin" not in answer.headers
        else:
            said = "%s: import %d, made at %sT10:00:00Z" % (day, wanted, DAYS[wanted - 1])
            assert (answer.status, answer.headers["x-sctd-pin"]) == (200, str(wanted))
            assert answer.headers["x-sctd-known"] == said
            assert told(answer.json(), "sctd-known") == [said]

    def test_why_not(self) -> None:
        for day, why in (
            ("2019-01-31", "the day 2019-01-31 is before the first import, which was made at"
             " 2019-02-01T10:00:00Z"),
            ("9999-01-01", "the day 9999-01-01 hasn't begun: days are those of UTC"),
        ):
            said = self.gateway.fhir(LOOKUP, known=day, **OPERATIONS[0][1])[1]
            assert said["issue"][0]["diagnostics"] == why

    @pytest.mark.parametrize("operation, words", OPERATIONS)
    def test_operations(self, operation: str, words: dict[str, str]) -> None:
        """Each is answered as below the pin, and says so if it has a place for that."""
        for day, pin in (("2020-10-15", 1), ("2021-12-31", 3)):
            status, said = self.gateway.fhir(operation, known=day, **words)
            pinned = self.gateway.fhir(operation, "/pin/%d/fhir/" % pin, **words)
            place = said.get("expansion", said).get("parameter", [])
            names = [one["name"] for one in place]
            has_place = "$" in operation
            assert names.count("sctd-known") == has_place, names
            place[:] = [one for one in place if one["name"] != "sctd-known"]
            assert (status, without_time(said)) == (pinned[0], without_time(pinned[1]))

    def test_what_an_answer_differs_in(self) -> None:
        """The code of a later release wasn't known before."""
        words = {"system": SCT, "code": self.codes["carpal"]}
        assert self.gateway.fhir(LOOKUP, known="2021-02-15", **words)[0] == 200
        status, said = self.gateway.fhir(LOOKUP, known="2021-02-14", **words)
        assert (status, issue(said)) == (404, "not-found")

    @pytest.mark.parametrize(
        "known", ("", "2020", "2020-02-30", "20200101", "x", "2020-01-01T00:00")
    )
    def test_days_that_are_none(self, known: str) -> None:
        status, said = self.gateway.fhir(LOOKUP, known=known, **OPERATIONS[0][1])
        assert (status, issue(said)) == (400, "invalid")

    def test_two_pins(self) -> None:
        words = OPERATIONS[0][1]
        status, said = self.gateway.fhir(LOOKUP, "/pin/1/fhir/", known="2020-10-15", **words)
        assert (status, issue(said)) == (400, "conflict")
        status, said = self.gateway.fhir(LOOKUP, known=["2020-10-15", "2020-10-15"], **words)
        assert (status, issue(said)) == (400, "invalid")
        assert self.gateway.send("GET", "/pin/1/?q=138875005&known=2020-10-15").status == 400

    def test_body(self) -> None:
        parts = [{"name": name, "valueString": text} for name, text in OPERATIONS[0][1].items()]
        known = {"name": "known", "valueDate": "2020-10-15"}
        status, said = self.gateway.posted(LOOKUP, *parts, known)
        assert (status, told(said, "sctd-known")[0][:20]) == (200, "2020-10-15: import 1")
        status, said = self.gateway.posted(LOOKUP, *parts, known, known)
        assert (status, issue(said)) == (400, "invalid")
        status, said = self.gateway.posted(LOOKUP + "?known=2020-10-15", *parts, known)
        assert (status, issue(said)) == (400, "invalid")
        status, said = self.gateway.posted(LOOKUP, *parts, {**known, "valueDate": 2020})
        assert (status, issue(said)) == (400, "invalid")

    def test_batch(self) -> None:
        """The address of the batch has the day; its requests have none of their own."""
        lookup = LOOKUP + "?" + urlencode(OPERATIONS[0][1])
        urls = (lookup, lookup + "&known=2020-10-15")
        entries = [{"request": {"method": "GET", "url": url}} for url in urls]
        bundle = {"resourceType": "Bundle", "type": "batch", "entry": entries}
        answer = self.gateway.send("POST", "/fhir?known=2020-10-15", json.dumps(bundle).encode(),
                                   {"Content-Type": FHIR_JSON})
        assert answer.headers["x-sctd-pin"] == "1"
        first, second = answer.json()["entry"]
        assert told(first["resource"], "sctd-known")[0][:20] == "2020-10-15: import 1"
        assert second["response"]["status"] == "400 Bad Request"

    def test_caches(self) -> None:
        """An answer of a day's knowledge is never kept for good: the day may not be over, and a
        list may be restored."""
        today = time.strftime("%Y-%m-%d", time.gmtime())
        for day in ("2020-10-15", today):
            target = "/fhir/%s?%s" % (LOOKUP, urlencode(dict(OPERATIONS[0][1], known=day)))
            answer = self.gateway.send("GET", target)
            assert answer.headers["cache-control"] == "private, no-cache"
            again = self.gateway.send("GET", target,
                                      headers={"If-None-Match": answer.headers["etag"]})
            assert again.status == 304

    def test_pages(self) -> None:
        """Each page says as of which import it is, keeps the day in its form, and leads on to what
        was known then."""
        carpal, root = self.codes["carpal"], "138875005"
        said = ">15 October 2020</time>: import 1 was the last one"
        for path in ("/?q=%s&known=2020-10-15" % carpal, "/?q=x&known=2020-10-15",
                     "/changes?concept=%s&from=2018-01-01&known=2020-10-15" % root,
                     "/records?known=2020-10-15"):
            answer = self.gateway.send("GET", path)
            assert (answer.status, answer.headers["x-sctd-pin"]) == (200, "1"), path
            assert said in answer.text
            assert 'name="known" type="date" value="2020-10-15"' in answer.text
        assert said not in self.gateway.send("GET", "/?q=138875005&known=").text
        first = self.gateway.send("GET", "/?q=138875005&date=2020-10-15")
        then = "?q=138875005&amp;date=2020-10-15&amp;other=2022-07-31&amp;known=2020-10-15"
        assert 'href="%s">As we knew it then</a>' % then in first.text
        shown = self.gateway.send("GET", "/" + then.replace("&amp;", "&")).text
        assert "As we knew it then" not in shown
        assert 'href="./?' not in shown and 'href="?' not in shown
        assert 'href="pin/1/?q=' in shown
        changes = self.gateway.send(
            "GET", "/changes?concept=%s&from=2018-01-01&known=2020-10-15" % root).text
        assert 'href="pin/1/changes?' in changes and 'href="changes?' not in changes
        assert self.gateway.send("GET", "/?q=138875005&known=2019-01-31").status == 404

    def test_pages_at_a_pin(self) -> None:
        """They have no field for a day, which would be refused, and neither have refusals there."""
        for path, status in (("/", 200), ("/?q=138875005", 200), ("/changes", 200),
                             ("/records", 200), ("/?date=x", 400), ("/?known=2020-10-15", 400)):
            for pin in ("", "/pin/1"):
                answer = self.gateway.send("GET", pin + path)
                assert pin == "" or answer.status == status, path
                assert ('name="known"' in answer.text) == (pin == ""), pin + path

    def test_list_of_records(self) -> None:
        carpal = self.codes["carpal"]
        for day, verdict in (("2020-10-15", "The store has no such code."), ("2021-02-15", "")):
            answer = self.gateway.send(
                "POST", "/records?known=%s&format=csv" % day, b"%s,2021-02-15" % carpal.encode(),
                {"Content-Type": "text/csv"})
            assert answer.status == 200
            assert (verdict in answer.text) and (bool(verdict) == ("wrong" in answer.text))

    def test_x1_what_the_list_does_not_say(self) -> None:
        """A gap isn't guessed over, and a store without a list refuses every day."""
        self.put(self.service, 1, 3)
        words = OPERATIONS[0][1]
        assert self.gateway.fhir(LOOKUP, known="2021-02-15", **words)[0] == 200
        status, said = self.gateway.fhir(LOOKUP, known="2020-10-15", **words)
        assert (status, issue(said)) == (422, "not-supported")
        assert said["issue"][0]["diagnostics"] == (
            "the list of imports has no line for import 2, so it isn't known whether it was made "
            "by the end of 2020-10-15")
        self.put(self.service)
        status, said = self.gateway.fhir(LOOKUP, known="2021-02-15", **words)
        assert (status, issue(said)) == (422, "not-supported")

    def test_x2_import_of_today(self) -> None:
        """What was known today changes with each import, and so does the name of the answer."""
        self.put(self.service, 1, 2, 3)
        today = time.strftime("%Y-%m-%d", time.gmtime())
        target = "/fhir/%s?%s" % (LOOKUP, urlencode(dict(OPERATIONS[0][1], known=today)))
        before = self.gateway.send("GET", target)
        assert self.service.asked("IMPORT d1").startswith("OK 4 ")
        assert until(lambda: self.gateway.send("GET", target).headers["x-sctd-pin"] == "4")
        answer = self.gateway.send("GET", target,
                                   headers={"If-None-Match": before.headers["etag"]})
        assert (answer.status, answer.headers["x-sctd-pin"]) == (200, "4")
        assert self.gateway.fhir(LOOKUP, known="2021-02-15", **OPERATIONS[0][1])[0] == 200

    def test_x3_line_that_is_not_written(self) -> None:
        """It is told by /health, which is well otherwise."""
        assert [*self.gateway.send("GET", "/health").json()] == ["pin", "latest"]
        path = Path(self.service.store + ".imports")
        path.unlink()
        path.mkdir()
        assert self.service.asked("IMPORT d1").startswith("OK 5 ")
        health = self.gateway.send("GET", "/health")
        assert (health.status, health.json()["warning"]) == (
            200, "an import has no line in the list of imports so far")
        path.rmdir()
        assert self.service.asked("IMPORT d1").startswith("OK 6 ")
        assert [*self.gateway.send("GET", "/health").json()] == ["pin", "latest"]
