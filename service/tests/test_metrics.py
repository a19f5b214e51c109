"""What a monitor counts of the gateway and, through it, of the hub."""

import re
import socket
import time
from collections.abc import Iterable

import pytest
from prometheus_client.parser import text_string_to_metric_families
from sctd_service.hub.clients import METRICS_SECONDS
from sctd_service.hub.lines import kind_of
from sctd_service.hub.metrics import BOUNDS, Metrics

from .asked import Asked
from .fixtures import SCT, SECONDS, Gateway, Service

# How long these tests may take.
LATE_SECONDS = 900


def samples(text: str) -> dict[tuple[str, frozenset[tuple[str, str]]], float]:
    """Each sample by its name and its labels. One that stands twice is a fault."""
    found = {}
    for family in text_string_to_metric_families(text):  # type: ignore[no-untyped-call]
        for one in family.samples:
            key = (one.name, frozenset(one.labels.items()))
            assert key not in found, key
            found[key] = one.value
    return found


def scraped(gateway: Gateway) -> dict[tuple[str, frozenset[tuple[str, str]]], float]:
    time.sleep(METRICS_SECONDS)  # The hub makes it anew from then on.
    answer = gateway.send("GET", "/metrics")
    assert (answer.status, answer.headers["content-type"]) == (
        200, "text/plain; version=0.0.4; charset=utf-8")
    return samples(answer.text)


def labels(**words: str) -> frozenset[tuple[str, str]]:
    return frozenset(words.items())


class TestCounted(Asked):
    of = "own_service"

    def change(self, *lines: bytes) -> None:
        """Sends lines to the hub's own socket, and waits for the last line of each reply."""
        with socket.socket(socket.AF_UNIX) as hub:
            hub.settimeout(SECONDS)
            hub.connect(self.service.socket)
            with hub.makefile("rwb") as stream:
                for line in lines:
                    stream.write(line + b"\n")
                    stream.flush()
                    stream.readline()

    def test_requests_by_operation_and_status(self) -> None:
        asked: Iterable[tuple[str, str, str, str]] = (
            ("GET", "/fhir/CodeSystem/$lookup?system=%s&code=138875005" % SCT, "lookup", "200"),
            ("GET", "/pin/1/fhir/CodeSystem/$lookup?system=%s&code=5" % SCT, "lookup", "404"),
            ("POST", "/fhir/metadata", "metadata", "405"),
            ("GET", "/pin/1/?q=1105007", "/", "200"),
            ("GET", "/live", "/live", "200"),
            ("GET", "/nothing/of/this", "other", "404"),
            ("GET", "/fhir/Patient", "other", "404"),
            ("GET", "/pin%2f1/health", "other", "404"))
        names = {"lookup": "CodeSystem/$lookup"}
        before = scraped(self.gateway)
        for method, target, _, status in asked:
            sent = self.gateway.send(method, target, b"" if method == "POST" else None)
            assert str(sent.status) == status, target
        self.gateway.raw(b"nonsense\r\n\r\n")
        after = scraped(self.gateway)
        wanted = [(names.get(name, name), status) for _, _, name, status in asked]
        wanted.append(("unread", "400"))
        for operation, status in set(wanted):
            key = ("sctd_gateway_requests_total", labels(operation=operation, status=status))
            more = wanted.count((operation, status))
            assert after[key] - before.get(key, 0) == more, key
        for operation in {operation for operation, _ in wanted}:
            key = ("sctd_gateway_request_seconds_count", labels(operation=operation))
            more = sum(name == operation for name, _ in wanted)
            assert after[key] - before.get(key, 0) == more, key
            top = ("sctd_gateway_request_seconds_bucket", labels(operation=operation, le="+Inf"))
            assert after[top] == after[key], key

    def test_state_of_the_store(self) -> None:
        found = scraped(self.gateway)
        with socket.socket(socket.AF_UNIX) as hub:
            hub.connect(self.service.questions)
            hub.sendall(b"STATUS\n")
            _, imports, rows, segments, _ = hub.recv(1 << 16).split()
        with open(self.service.store, "rb") as file:
            size = file.seek(0, 2)
        for name, value in (("sctd_pin", int(imports)), ("sctd_gateway_pin", int(imports)),
                            ("sctd_rows", int(rows)), ("sctd_segments", int(segments)),
                            ("sctd_bytes", size), ("sctd_damaged", 0), ("sctd_gateway_hub_up", 1),
                            # 31 July 2022.
                            ("sctd_gateway_latest_release_timestamp_seconds", 1_659_225_600)):
            assert found[name, labels()] == value, name
        began = found["sctd_gateway_start_time_seconds", labels()]
        assert 0 <= time.time() - began < LATE_SECONDS
        assert 0 < found["sctd_gateway_processor_seconds", labels()] < LATE_SECONDS
        assert found["sctd_gateway_memory_bytes", labels()] > 1_000_000

    def test_changes_by_result(self) -> None:
        self.change(b"IMPORT d1", b"IMPORT nothing", b"IMPORT nothing", b"CHECK d2", b"FROB")
        found = scraped(self.gateway)
        for command, result, count in (("IMPORT", "OK", 1), ("IMPORT", "ERR 45 NoFolder", 2),
                                       ("CHECK", "OK", 1), ("other", "ERR 42 Command", 1)):
            key = ("sctd_changes_total", labels(command=command, result=result))
            assert found[key] == count, key
        assert found["sctd_line_seconds_count", labels(line="IMPORT")] == 3
        longest = found["sctd_longest_line_seconds", labels(line="IMPORT")]
        assert longest <= found["sctd_line_seconds_sum", labels(line="IMPORT")]
        assert longest > 0

    def test_many_at_once(self) -> None:
        """They aren't made each time, though there is something new each time."""
        count, began = 200, time.monotonic()
        with socket.socket(socket.AF_UNIX) as hub:
            hub.settimeout(SECONDS)
            hub.connect(self.service.questions)
            hub.sendall(b"STATUS\nMETRICS\n" * count)
            hub.shutdown(socket.SHUT_WR)
            got = b"".join(iter(lambda: hub.recv(1 << 16), b""))
        took = time.monotonic() - began
        replies = re.split(rb"^OK .*\n", got, flags=re.M)[1:]
        assert len(replies) == count
        assert all(re.search(rb"^END [0-9]+\n\Z", one, re.M) for one in replies)
        assert len(set(replies)) <= 2 + took / METRICS_SECONDS

    def test_hub_that_does_not_answer(self) -> None:
        """What the gateway counts is told all the same."""
        with self.service.stopped_program():
            found = scraped(self.gateway)
            assert found["sctd_gateway_hub_up", labels()] == 1
            assert ("sctd_rows", labels()) in found
        self.service.stop_hub()
        found = scraped(self.gateway)
        assert found["sctd_gateway_hub_up", labels()] == 0
        assert ("sctd_rows", labels()) not in found
        assert found["sctd_gateway_pin", labels()] != 3
        self.service.start_hub()
        assert scraped(self.gateway)["sctd_gateway_hub_up", labels()] == 1


class TestTimes:
    def test_histograms(self) -> None:
        metrics = Metrics()
        for seconds in (0.0, BOUNDS[0], 0.5, 5_000.0):
            metrics.took(b"7 AT 2 GET C 138875005 20200101\n", seconds)
        found = samples(metrics.text([]))
        buckets = [found["sctd_line_seconds_bucket", labels(line="GET", le=bound)]
                   for bound in (*map(str, BOUNDS), "+Inf")]
        assert buckets == [2, 2, 2, 2, 3, 3, 3, 4]
        assert found["sctd_line_seconds_count", labels(line="GET")] == 4
        assert found["sctd_longest_line_seconds", labels(line="GET")] == 5_000

    @pytest.mark.parametrize("line, kind", (
        (b"0 STATUS\n", "STATUS"),
        (b"1023 IMPORT r1\r\n", "IMPORT"),
        (b"1 AT 5 DESCENDANTS 138875005 20200101\n", "DESCENDANTS"),
        (b"1 AT 5\n", "other"),
        (b"1 \n", "other"),
        (b"1 status\n", "other"),
        (b"1 \xff\n", "other")))
    def test_kinds_of_lines(self, line: bytes, kind: str) -> None:
        assert kind_of(line) == kind, line
