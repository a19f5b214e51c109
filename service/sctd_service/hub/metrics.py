"""What a monitor counts of the hub and its store, in the text that Prometheus reads."""

import time
from bisect import bisect_left
from collections import Counter, defaultdict
from collections.abc import Iterable, Iterator

from ..protocol import REFUSED
from .lines import KINDS, OTHER, first_word, kind_of, shown

# The bounds of the histograms, in seconds.
BOUNDS = (0.0001, 0.001, 0.01, 0.1, 1.0, 10.0, 100.0)
# What follows a metric's name: the rest of the name, labels in braces, the value.
Sample = tuple[str, float]


class Times:
    def __init__(self) -> None:
        self.counts, self.sum, self.longest = [0] * (len(BOUNDS) + 1), 0.0, 0.0

    def add(self, seconds: float) -> None:
        self.counts[bisect_left(BOUNDS, seconds)] += 1
        self.sum += seconds
        if seconds > self.longest:
            self.longest = seconds

    def samples(self, label: str) -> Iterator[Sample]:
        count = 0
        for bound, more in zip((*map(str, BOUNDS), "+Inf"), self.counts):
            count += more
            yield '_bucket{%s,le="%s"}' % (label, bound), count
        yield "_sum{%s}" % label, self.sum
        yield "_count{%s}" % label, count


class Metrics:
    """What is counted from the hub's start on."""

    def __init__(self) -> None:
        self.began = time.time()
        self.times: defaultdict[str, Times] = defaultdict(Times)
        self.results: Counter[tuple[str, str]] = Counter()

    def took(self, line: bytes, seconds: float) -> None:
        """Counts a line that the program has answered."""
        self.times[kind_of(line)].add(seconds)

    def changed(self, line: bytes, reply: bytes) -> None:
        """Counts a change by its result: `OK`, or the number and the name of its refusal."""
        words = shown(reply).split(" ")[: 3 if reply.startswith(REFUSED) else 1]
        self.results[KINDS.get(first_word(line), OTHER), " ".join(words)] += 1

    def text(self, now: Iterable[tuple[str, str, float]]) -> str:
        """All of it, with what is so now: names, what they mean, values."""
        times = [('line="%s"' % kind, one) for kind, one in sorted(self.times.items())]
        results = [('{command="%s",result="%s"}' % one, count)
                   for one, count in sorted(self.results.items())]
        return "".join((
            *(family(name, "gauge", what, [("", value)]) for name, what, value in now),
            family("start_time_seconds", "gauge", "When the hub began.", [("", self.began)]),
            family("changes_total", "counter", "Changes of the store by result.", results),
            family("line_seconds", "histogram", "How long the program took for lines.",
                   [sample for label, one in times for sample in one.samples(label)]),
            family("longest_line_seconds", "gauge", "The longest of them.",
                   [("{%s}" % label, one.longest) for label, one in times])))


def family(name: str, kind: str, what: str, samples: Iterable[Sample]) -> str:
    """A metric, as Prometheus reads it."""
    head = "# HELP sctd_%s %s\n# TYPE sctd_%s %s\n" % (name, what, name, kind)
    return head + "".join("sctd_%s%s %r\n" % (name, rest, value) for rest, value in samples)
