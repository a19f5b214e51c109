"""Answers that would be too large or too costly, with a release of long terms and many concepts."""

import socket
import time
from typing import Any

import pytest
from sctd_service.gateway import limits

from .asked import Asked
from .demo_releases import Maker
from .fixtures import SCT, Service, close_all, issue, until

DAY = "20220731"
TERM_LETTERS = 60_000
# Terms of a concept whose answer is just below the limit, and of one whose answer is above it.
MANY, TOO_MANY = 65, 75
# Terms of a concept whose rows are just few enough bytes to be remembered. A quotation mark of them
# is two characters of an answer.
REMEMBERED = 8
LATE_SECONDS = 6.0


@pytest.fixture(scope="module")
def large_service(own_service: Service) -> Service:
    """A service with a release of long terms and many concepts, whose codes it has."""
    service = own_service
    maker = Maker()
    # Other identifiers than those of the releases before.
    maker.items = {kind: 10_000_000 for kind in maker.items}
    for name, count, letter in (
            ("large", MANY, "x"), ("too large", TOO_MANY, "x"), ("quotes", REMEMBERED, '"')):
        code = maker.concept(name, DAY, "Concept with long terms")
        for number in range(count):
            maker.term(code, DAY, "%d %s" % (number, letter * TERM_LETTERS))
    maker.concept("page", DAY, "Page of concepts")
    for number in range(limits.PAGE_CONCEPTS):
        terms = ("Of the page %d" % number, "Of the page, the %d" % number)
        maker.concept("of page %d" % number, DAY, *terms, parents=("page",))
    maker.concept("walk", DAY, "Walk of concepts")
    for number in range(limits.WALK_CONCEPTS):
        maker.concept("of walk %d" % number, DAY, term_of_walk(number), parents=("walk",))
    maker.write(service.releases / "large")
    service.codes = maker.codes
    service.stop_hub()
    service.run(
        "import", "--quiet", "--store", service.store, str(service.releases / "large" / "d3"))
    service.start_hub()
    return service


def term_of_walk(number: int) -> str:
    """As many terms have the word `many` as a filter may find, and `more` has one more."""
    words = [""] + ["many"] * (number < limits.FILTER_TERMS)
    words += ["more"] * (number <= limits.FILTER_TERMS)
    return "Of the walk %d%s" % (number, " ".join(words))


class TestLargeAnswers(Asked):
    of = "large_service"

    def lookup(self, name: str) -> tuple[int, dict[str, Any]]:
        return self.gateway.fhir("CodeSystem/$lookup", system=SCT, code=self.codes[name])

    def expand(self, name: str, **words: Any) -> tuple[int, dict[str, Any]]:
        url = "%s?fhir_vs%s" % (SCT, "=isa/" + self.codes[name] if name else "")
        return self.gateway.fhir("ValueSet/$expand", url=url, **words)

    def is_throttled(self, target: str) -> bool:
        """Whether an answer is refused since too many wait to be taken."""
        answer = self.gateway.send("GET", target)
        return answer.status == 503 and issue(answer.json()) == "throttled"

    def test_answer_above_the_limit(self) -> None:
        assert self.lookup("large")[0] == 200
        status, said = self.lookup("too large")
        assert (status, issue(said)) == (422, "too-costly")
        target = "/fhir/CodeSystem/$lookup?system=%s&code=%s" % (SCT, self.codes["too large"])
        assert self.gateway.send("GET", target).headers.get("x-sctd-pin") == "4"

    def test_more_concepts_than_a_page(self) -> None:
        status, said = self.expand("page")
        assert (status, issue(said)) == (422, "too-costly")
        status, said = self.expand("page", count=limits.PAGE_CONCEPTS, offset=1)
        assert len(said["expansion"]["contains"]) == limits.PAGE_CONCEPTS
        assert said["expansion"]["total"] == limits.PAGE_CONCEPTS + 1

    def test_more_concepts_than_a_walk(self) -> None:
        status, said = self.expand("walk", count=10)
        assert (status, issue(said)) == (422, "too-costly")
        status, said = self.expand("walk", filter="of the walk 1999", count=20)
        assert (status, said["expansion"]["total"]) == (200, 11)

    def test_more_terms_than_a_filter(self) -> None:
        status, said = self.expand("walk", filter="walk many", count=0)
        assert (status, said["expansion"]["total"]) == (200, limits.FILTER_TERMS)
        status, said = self.expand("page", filter="walk many", count=1)
        assert (status, said["expansion"]["total"]) == (200, 0)
        asked: list[dict[str, int]] = [
            {"count": 0}, {"offset": limits.FILTER_TERMS, "count": 2}, {}]
        for words in asked:
            status, said = self.expand("walk", filter="walk more", **words)
            assert (status, issue(said)) == (422, "too-costly"), words

    def test_more_terms_than_an_expression(self) -> None:
        """The descriptions of few concepts are asked for; of any concept it is refused."""
        below = "<< %s" % self.codes["page"]
        for focus, text, known in (
                (below, "walk more", (200, 0)), (below, "page", (200, limits.PAGE_CONCEPTS + 1)),
                ("*", "walk many", (200, limits.FILTER_TERMS)), ("*", "walk more", (422, None))):
            url = "%s?fhir_vs=ecl/%s {{ term = \"%s\" }}" % (SCT, focus, text)
            status, said = self.gateway.fhir("ValueSet/$expand", url=url, count=0)
            assert (status, said.get("expansion", {}).get("total")) == known, (focus, text)
        assert "terms have the words of" in said["issue"][0]["diagnostics"]

    def test_no_more_terms_are_read_than_a_page_needs(self) -> None:
        """So it isn't known how many there are."""
        for offset in (0, 1_500):
            status, said = self.expand("", filter="walk more", offset=offset, count=20)
            wanted = sorted(
                range(limits.FILTER_TERMS + 1), key=lambda number: len(term_of_walk(number)))
            assert [one["code"] for one in said["expansion"]["contains"]] == [
                self.codes["of walk %d" % number] for number in wanted[offset : offset + 20]]
            assert (status, "total" in said["expansion"]) == (200, False)

    def test_answers_that_nobody_takes(self) -> None:
        """Many answers that wait to be taken are refused from some number on, small ones never.
        Their replies are remembered: where `sctd` is slow, they would be refused for another
        reason."""
        gateway = self.gateway
        target = "/fhir/CodeSystem/$lookup?system=%s&code=%s" % (SCT, self.codes["quotes"])
        places = limits.UNTAKEN_BYTES // len(gateway.send("GET", target).body)
        clients, began = [], time.monotonic()
        for _ in range(places + 1):
            client = socket.socket(socket.AF_UNIX)
            client.setsockopt(socket.SOL_SOCKET, socket.SO_RCVBUF, 4096)
            client.connect(gateway.socket)
            client.sendall(b"GET %s HTTP/1.1\r\nHost: x\r\n\r\n" % target.encode())
            clients.append(client)
        assert until(lambda: self.is_throttled(target), limits.TAKE_SECONDS)
        assert gateway.send("GET", "/health").status == 200
        wait = began + limits.TAKE_SECONDS + LATE_SECONDS - time.monotonic()
        assert until(lambda: gateway.send("GET", target).status == 200, wait)
        close_all(clients)
