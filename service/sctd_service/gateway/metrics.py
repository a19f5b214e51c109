"""What a monitor counts of gateway and hub, in the text that Prometheus reads."""

import datetime
import math
import resource
import time

from prometheus_client import CollectorRegistry, Counter, Gauge, Histogram, generate_latest

from .hub import Reply
from .store import View

# The bounds of the histograms, in seconds.
BOUNDS = (0.001, 0.0025, 0.005, 0.01, 0.025, 0.05, 0.1, 0.25, 0.5, 1.0, 2.5, 5.0, 10.0, 30.0)


class Metrics:
    """What is counted from the gateway's start on."""

    def __init__(self) -> None:
        self.registry = CollectorRegistry()
        self.requests = Counter(
            "sctd_gateway_requests", "Requests.", ("operation", "status"), registry=self.registry)
        self.seconds = Histogram(
            "sctd_gateway_request_seconds",
            "How long requests took from their last byte until they were answered.", ["operation"],
            buckets=BOUNDS, registry=self.registry)
        self.pin = self.gauge("pin", "Imports that the hub has told of.")
        self.latest = self.gauge(
            "latest_release_timestamp_seconds", "When the latest day of a row began (UTC).")
        self.hub = self.gauge("hub_up", "Whether the hub has answered for this.")
        self.gauge("start_time_seconds", "When the gateway began.").set_to_current_time()
        # (The library's own count of a process needs files that the unit doesn't show it.)
        used = self.gauge("processor_seconds", "Time of the processor that the gateway has taken.")
        used.set_function(time.process_time)
        self.gauge("memory_bytes", "Memory that the gateway takes.").set_function(memory)

    def gauge(self, name: str, what: str) -> Gauge:
        return Gauge("sctd_gateway_" + name, what, registry=self.registry)

    def answered(self, operation: str, status: int, seconds: float) -> None:
        self.requests.labels(operation, status).inc()
        self.seconds.labels(operation).observe(seconds)

    def text(self, view: View | None, told: Reply) -> bytes:
        """All of it, with what the hub has told, each line of which is a row, and END."""
        self.hub.set(bool(told))
        self.pin.set(view.pin if view else math.nan)
        self.latest.set(seconds_of(view.latest) if view and view.latest else math.nan)
        rows = "".join(line.removeprefix("ROW ") + "\n" for line in told[:-1])
        return generate_latest(self.registry) + rows.encode()


def memory() -> float:
    with open("/proc/self/statm", "rb") as pages:
        return int(pages.read().split()[1]) * resource.getpagesize()


def seconds_of(day: str) -> float:
    return datetime.datetime.strptime(day + "+0000", "%Y%m%d%z").timestamp()
