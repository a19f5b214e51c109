"""Prints where the time of a CI run goes: minutes of the processor for each crate's library, tests
and must-fail edits.

ci_time.py --pid NUMBER   watches the processes below a run that goes on, until it ends
ci_time.py --last         says what CI does and how long its last run took, and runs nothing

Each second it reads from /proc what the processes below the run have used, and adds it to the crate
that their command line names; what isn't of a crate stands under "other". Last comes the line of
this run for the table in PERFORMANCE.md, from which --last reads.
"""

import argparse
import os
import re
import sys
import time
from collections import defaultdict
from collections.abc import Iterator
from pathlib import Path
from typing import NamedTuple

TICKS = os.sysconf("SC_CLK_TCK")
PARTS = ("library", "tests", "edits", "run")
BETWEEN_LOOKS = 1.0
TOP = Path(__file__).resolve().parents[2]
DOCUMENT = TOP / "docs" / "internals" / "PERFORMANCE.md"
EDITS, CRATES = "crates/*/must-fail/*.edit", "crates/*/src"

# The crate and the part of the check that a process works on.
Place = tuple[str, str]


class Run(NamedTuple):
    """A line of the table of CI's runs: what there was, the minutes of the processor, and those by
    the wall on so many cores."""

    date: str
    crates: int
    edits: int
    library: int
    tests: int
    tried: int
    all: int
    cores: int
    wall: int


RUN = re.compile(r"^\| (\d{4}-\d{2}-\d{2})" + r" \| (\d+)" * 8 + r" \|$", re.MULTILINE)
PLAN = """\
First come the checks of the documents, which take seconds. Then `rt ci` proves each crate and its
tests, tries the must-fail edits, and runs the tests and the programs; some kits keep on the machine
what passed, and then only what has changed since is proved again. Last come the trials of the built
program. (python3 bench/quick.py runs all tests and trials without a proof, in ten minutes.)"""
LAST = """\
CI's last run that began with nothing kept (PERFORMANCE.md), on {date}, took {wall} minutes by
the wall on {cores} cores, and {all} of the processor: {library} for libraries, {tests} for tests
and {tried} for {edits} must-fail edits."""


def tell_last() -> int:
    """Says what CI does, and how long its last run took by the table; 1 where that has no line."""
    found = RUN.findall(DOCUMENT.read_text(encoding="utf-8"))
    print(PLAN)
    print(LAST.format(**dict(zip(Run._fields, found[-1]))) if found
          else "PERFORMANCE.md has no run of CI")
    return 0 if found else 1


def read(path: str) -> bytes:
    try:
        return Path(path).read_bytes()
    except OSError:
        return b""


def processes() -> dict[int, tuple[int, float]]:
    """The parent and the used seconds of each process, by its number."""
    found = {}
    for pid in map(int, filter(str.isdigit, os.listdir("/proc"))):
        fields = read(f"/proc/{pid}/stat").rpartition(b")")[2].split()
        if fields:
            found[pid] = int(fields[1]), (int(fields[11]) + int(fields[12])) / TICKS
    return found


def part_of(pid: int) -> Place | None:
    """The crate and the part of the check that a process works on, if its words say so."""
    words = read(f"/proc/{pid}/cmdline").decode("utf-8", "replace").split("\0")
    name = os.path.basename(words[0])
    if "--crate-name" in words:
        crate = words[words.index("--crate-name") + 1]
        if "/rt-edit" in os.path.realpath(f"/proc/{pid}/cwd"):
            return crate, "edits"
        return crate, "tests" if "--test" in words else "library"
    return (name.removesuffix("_tests"), "run") if name.endswith("_tests") else None


class Watch:
    """What the processes below a run use."""

    def __init__(self, root: int) -> None:
        self.root, self.begun = root, time.monotonic()
        self.parts: dict[int, Place] = {}
        self.used: dict[tuple[int, Place], float] = {}

    def minutes(self) -> float:
        """For how long it has been watched."""
        return (time.monotonic() - self.begun) / 60

    def look(self) -> bool:
        """Takes down what each process below the root has used so far."""
        found = processes()
        for pid in found:
            above, chain = pid, []
            while above in found and above != self.root and above > 1:
                chain.append(above)
                above = found[above][0]
            if above == self.root and chain:
                self.used[pid, self.part(chain)] = found[pid][1]
        return self.root in found

    def part(self, chain: list[int]) -> Place:
        """What a process works on, or else the nearest one above it that says so."""
        for pid in chain:
            words = part_of(pid) or self.parts.get(pid)
            if words:
                self.parts[chain[0]] = words
                return words
        return ("other", "run")

    def sums(self) -> dict[str, dict[str, float]]:
        """The minutes of each part of each crate, and of all."""
        sums: dict[str, dict[str, float]] = defaultdict(lambda: dict.fromkeys(PARTS, 0.0))
        for (_, (crate, part)), seconds in self.used.items():
            for name in (crate, "all"):
                sums[name][part] += seconds / 60
        return sums

    def as_run(self) -> Run:
        """This run, for the table of CI's runs."""
        of = self.sums()["all"]
        library, tests, tried = (round(of[part]) for part in PARTS[:3])
        return Run(time.strftime("%Y-%m-%d"), len(list(TOP.glob(CRATES))),
                   len(list(TOP.glob(EDITS))), library, tests, tried, round(sum(of.values())),
                   len(os.sched_getaffinity(0)), round(self.minutes()))

    def table(self) -> Iterator[str]:
        """The lines of the table, the most expensive crate first, behind all together."""
        row = "| %-22s | %8s | %8s | %8s | %8s |"
        yield row % ("Crate", *PARTS)
        yield row % ("---", *["--:"] * len(PARTS))
        for crate, of in sorted(self.sums().items(), key=lambda pair: -sum(pair[1].values())):
            yield row % (crate, *("%.1f" % of[part] for part in PARTS))


def main() -> int:
    parser = argparse.ArgumentParser(description=(__doc__ or "").split("\n", maxsplit=1)[0])
    which = parser.add_mutually_exclusive_group(required=True)
    which.add_argument("--pid", type=int, help="of the run that is watched")
    which.add_argument("--last", action="store_true", help="how long the last run took")
    asked = parser.parse_args()
    if asked.last:
        return tell_last()
    watch = Watch(asked.pid)
    while watch.look():
        time.sleep(BETWEEN_LOOKS)
    print("\n".join(watch.table()))
    print("%.1f minutes by the wall" % watch.minutes())
    print("For the table of CI's runs in PERFORMANCE.md:")
    print("| %s |" % " | ".join(map(str, watch.as_run())))
    return 0


if __name__ == "__main__":
    sys.exit(main())
