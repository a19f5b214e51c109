"""What measurements share: their words, releases that are made once, what processes take, and a
server that is asked."""

import argparse
import os
import shutil
import subprocess
import sys
import tempfile
import threading
import time
from collections.abc import Callable, Sequence
from pathlib import Path
from typing import NamedTuple, Optional

import make_release as rf2

KILOBYTE = 1024
# How much of what a process wrote is told where it fails.
TOLD = 200
# How many rows are measured where none are given.
ROWS, MANY_ROWS = 235_000, 2_350_000
GNU_TIME = shutil.which("time")
NANOSECONDS = 1e9
# Milliseconds of a second.
MS = 1e3
STORE = "compared.store"
# How the lines of a reply begin that stand before its last one.
ROW_LINES = (b"ROW ", b"ID ", b"DATE ")


class Cost(NamedTuple):
    """Wall and processor seconds, the greatest resident size in bytes, where that is known, and
    what was printed."""

    wall: float
    used: float
    peak: Optional[int] = None
    output: bytes = b""

    @property
    def text(self) -> str:
        return self.output.decode().strip()


def least(costs: Sequence[Cost]) -> Cost:
    """The least of each, and what the last one printed."""
    return Cost(min(cost.wall for cost in costs), min(cost.used for cost in costs),
                min(cost.peak or 0 for cost in costs), costs[-1].output)


def absolute(path: str) -> str:
    """A path that is given to a script, for processes that run in other folders."""
    return os.path.abspath(path)


def options_of(doc: str | None, **numbers: int) -> argparse.Namespace:
    """The words of a measurement: a program, and numbers with their usual values."""
    parser = argparse.ArgumentParser(description=(doc or "").partition("\n")[0])
    parser.add_argument("program", type=absolute)
    for name, usual in numbers.items():
        parser.add_argument("--" + name, type=int, default=usual)
    return parser.parse_args()


def asked_for(doc: str | None, *usual: int) -> argparse.Namespace:
    """The words of a measurement: a program, a folder and how many rows there are."""
    parser = argparse.ArgumentParser(description=(doc or "").partition("\n")[0])
    parser.add_argument("program", type=absolute)
    parser.add_argument("folder", type=absolute)
    parser.add_argument("rows", type=int, nargs="*", default=usual)
    if GNU_TIME is None:
        parser.error("there is no GNU time")
    return parser.parse_args()


def made_release(place: str, rows: int, is_package: bool = False) -> None:
    """Makes the releases of make_release.py in a folder, unless they are there."""
    if not os.path.isdir(os.path.join(place, "full")):
        rf2.make(place, rows, is_package=is_package)


def make_store(program: str, place: Path, store: Path, rows: int, is_package: bool = False
               ) -> None:
    """A store with a made release."""
    made_release(str(place), rows, is_package)
    for words in ("init",), ("import", "--quiet", str(place / "full")):
        subprocess.run([program, *words, "--store", str(store)], check=True,
                       stdout=subprocess.DEVNULL)


def column_of(place: Path, sort: str, column: str) -> list[str]:
    """What the rows of a sort have in a column, in a made Full release."""
    at = rf2.SORTS[sort].columns.split(" ").index(column)
    return [row[at] for row in rf2.rows_of(place / "full", sort)]


def compared_by(doc: str | None, head: Sequence[str], compare: Callable[[str, str, int], bool]
                ) -> int:
    """Compares releases of so many rows, as the words of a script say: 1 where something isn't the
    same."""
    asked = asked_for(doc, ROWS)
    print_head(*head)
    found = [compare(asked.program, asked.folder, rows) for rows in asked.rows]
    return 0 if all(found) else 1


def print_row(*cells: object, behind: str = "") -> None:
    """Prints a row of a table, and something behind it."""
    print("| %s |%s" % (" | ".join(map(str, cells)), behind), flush=True)


def print_head(*columns: str) -> None:
    print_row(*columns)
    print("|" + "---|" * len(columns), flush=True)


def ran(words: Sequence[str], given: bytes = b"") -> Cost:
    """What a process writes for its input, and what it cost. GNU time starts it: a process counts
    what its starter held at that moment as its own, and GNU time holds little."""
    with tempfile.TemporaryDirectory() as place, tempfile.TemporaryFile() as lines, \
            tempfile.TemporaryFile() as written:
        lines.write(given)
        lines.seek(0)
        peak, start = Path(place, "peak"), time.monotonic()
        child = subprocess.Popen([GNU_TIME or "time", "-f", "%M", "-o", peak, *words],
                                 stdin=lines, stdout=written, stderr=subprocess.DEVNULL)
        _, status, usage = os.wait4(child.pid, 0)
        wall, child.returncode = time.monotonic() - start, os.waitstatus_to_exitcode(status)
        written.seek(0)
        output = written.read()
        if status != 0:
            raise SystemExit("failed: %s: %r" % (" ".join(words), output[:TOLD]))
        kilobytes = int(peak.read_text(encoding="ascii"))
        return Cost(wall, usage.ru_utime + usage.ru_stime, kilobytes * KILOBYTE, output)


def child_of(pid: int) -> int:
    """The process that a process has started."""
    return int(Path("/proc/%d/task/%d/children" % (pid, pid)).read_text("ascii").split()[0])


def seconds_used(pid: int) -> float:
    """The seconds of the processor that a process has used, which the system says in hundredths."""
    words = Path("/proc/%d/stat" % pid).read_text("ascii").rpartition(")")[2].split()
    return (int(words[11]) + int(words[12])) / os.sysconf("SC_CLK_TCK")


def processor_seconds(pid: int) -> float:
    """What the threads that a process has have used of the processor, as the scheduler counts it,
    which is to the nanosecond."""
    threads = Path("/proc/%d/task" % pid).glob("*/schedstat")
    return sum(int(one.read_text("ascii").split()[0]) for one in threads) / NANOSECONDS


class Sctd:
    """The program, on a new store in a file of the folder that has its releases."""

    def __init__(self, program: str, place: str, name: str = STORE, layout: int = 2) -> None:
        self.program, self.place = program, place
        self.path = os.path.join(place, name)
        Path(self.path).unlink(missing_ok=True)
        self.run("init", "--layout", str(layout))

    def run(self, command: str, *words: str) -> Cost:
        """What the program writes, and what that cost."""
        return ran([self.program, command, "--store", self.path, *words])

    def take(self, name: str) -> Cost:
        """Imports the release of this name."""
        return self.run("import", "--quiet", "--releases", self.place, name)

    def served(self, *words: str) -> "Served":
        """The program, serving the store, with further words."""
        return Served(self.program, self.path, self.place, *words)


class Served:
    """The program, serving a store. It is made once its opening has ended."""

    def __init__(self, program: str, path: str, releases: str, *words: str) -> None:
        start = time.monotonic()
        self.child = subprocess.Popen(
            [program, "serve", "--store", path, "--releases", releases, *words],
            stdin=subprocess.PIPE, stdout=subprocess.PIPE)
        assert self.child.stdin and self.child.stdout
        self.input, self.output, self.pid = self.child.stdin, self.child.stdout, self.child.pid
        self.ask(["STATUS"])
        self.opening = Cost(time.monotonic() - start, seconds_used(self.pid), self.held())

    def held(self) -> int:
        """How many bytes it holds in memory."""
        words = Path("/proc/%d/statm" % self.pid).read_text("ascii").split()
        return int(words[1]) * os.sysconf("SC_PAGE_SIZE")

    def ask(self, lines: Sequence[str]) -> Cost:
        """What it writes for lines, with what that cost, and what it holds then. They are sent
        beside the reading, since it answers at once."""
        text = "".join("0 %s\n" % line for line in lines).encode()
        start, used = time.monotonic(), processor_seconds(self.pid)
        sender = threading.Thread(target=self.send, args=(text,))
        sender.start()
        told: list[bytes] = []
        left = len(lines)
        while left:
            piece = self.output.readline()
            if not piece:
                raise SystemExit("sctd ended with %d replies to come" % left)
            told.append(piece)
            left -= not piece.startswith(ROW_LINES)
        sender.join()
        used = processor_seconds(self.pid) - used
        return Cost(time.monotonic() - start, used, self.held(), b"".join(told))

    def send(self, text: bytes) -> None:
        self.input.write(text)
        self.input.flush()

    def end(self) -> None:
        self.input.close()
        if self.child.wait() != 0:
            raise SystemExit("sctd serve: status %d" % self.child.returncode)
