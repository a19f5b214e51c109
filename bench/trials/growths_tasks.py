"""Part of refuse_growths.py: each task of the command line with little memory."""

import re
from collections import Counter
from collections.abc import Iterator, Mapping
from pathlib import Path
from typing import NamedTuple

from growths_harness import (ALL_BEHIND, DISK_FAULT, OUT_OF_MEMORY, Program, Refusals, told,
                             try_each, ways_to_be_refused)
from growths_lines import ASKED
from harness import RELEASES, Place, Ran, Wrong, replies_in

# The files in a folder, by their names.
Files = Mapping[str, bytes]

STORE, COPY = "store", "copy"
# The stores that are made before, with their layouts and how many releases are imported.
STORES = (("two", "2", 2), ("two-in-layout-3", "3", 2), ("three", "2", 3))
NONE: Files = {}
# Of the runs in which all requests are refused from one on, each one with so many in between.
STEP = 10
# What is told in place of what can't be found out, beside what is told with all memory.
PASSED_OVER = "sctd: passed over "
UNCOMPARED = "sctd: warning: not all dates and modules could be compared with the store's"
# The list of imports beside a store; what is told where it lacks something; its times, and one that
# stands for all; its digests, and what stands for one that there was no memory for.
LIST, UNLISTED = ".imports", re.compile("sctd: warning: [a-z]+\\.imports")
TIME, NO_TIME = re.compile(rb"[0-9-]{10}T[0-9:]{8}Z"), b"2020-01-01T00:00:00Z"
LAST_DIGEST, NO_DIGEST = re.compile(rb"\t[0-9a-f]{64}\t([^\t]*\n)\Z"), rb"\t-\t\1"


class Task(NamedTuple):
    """The words of a run, its input, the store that it begins with, its status with all memory."""

    words: str
    given: str = ""
    store: str = ""
    status: int = 0

    def command(self) -> str:
        return self.words.partition(" ")[0]


def tasks() -> Iterator[Task]:
    """The tasks that growths.txt has."""
    for text in ASKED[3].splitlines():
        status, store, words = f"{text} ".split(" ", 2)
        words, _, given = words.strip().partition(" < ")
        yield Task(words, given.replace("; ", "\n") + "\n" * bool(given), store, int(status))


def files_in(folder: Path) -> Files:
    return {path.name: without_times(path) for path in folder.iterdir()}


def without_times(path: Path) -> bytes:
    """The bytes of a file; in lists of imports one time stands for all."""
    data = path.read_bytes()
    return TIME.sub(NO_TIME, data) if path.name.endswith(LIST) else data


def put(folder: Path, files: Files) -> None:
    """Makes these the files in a folder."""
    for path in folder.iterdir():
        path.unlink()
    for name, data in files.items():
        (folder / name).write_bytes(data)


def stores_in(program: Program, folder: Path) -> dict[str, Files]:
    made = {"-": NONE}
    here = Place(program.program, folder)
    for name, layout, releases in STORES:
        put(folder, NONE)
        here.done("init", "--layout", layout, "--store", STORE)
        for number in range(1, releases + 1):
            here.done("import", "--store", STORE, "../releases/r%d" % number)
        made[name] = files_in(folder)
    return made


def is_unlisted(line: str) -> bool:
    """Whether a line of faults says that there was no memory to list a folder."""
    return line.startswith(PASSED_OVER) and line.endswith((" ", "/"))


def certain_faults(faults: str, all_told: str) -> list[str]:
    """The lines of faults that don't depend on what there was no memory for where this was told:
    the files of a folder that are passed over, dates that are compared, the list of imports."""
    is_listed = not any(is_unlisted(line) for line in all_told.split("\n"))
    return [line for line in faults.split("\n")[:-1]
            if line != UNCOMPARED and not UNLISTED.match(line)
            and (is_listed or not line.startswith(PASSED_OVER))]


class Trial:
    """One task, with each request for memory refused in turn."""

    def __init__(self, program: Program, folder: Path, task: Task, before: Files) -> None:
        self.program, self.folder, self.task, self.before = program, folder, task, before
        self.words = task.words.split()
        place = self.place(0)
        put(place, before)
        self.whole, _ = program.run(self.words, place, task.given)
        self.after = files_in(place)
        if self.whole.status != task.status:
            raise Wrong(told(self.whole))
        # How runs ended, in words.
        self.ends: Counter[str] = Counter()

    def place(self, number: int) -> Path:
        place = self.folder / ("place%d" % number)
        place.mkdir(exist_ok=True)
        return place

    def run(self, place: int, refusals: Refusals) -> bool:
        """Does the task once; whether any request was refused."""
        folder = self.place(place)
        put(folder, self.before)
        ran, was_refused = self.program.run(self.words, folder, self.task.given, refusals)
        self.check(ran, folder, was_refused)
        return was_refused

    def check(self, ran: Ran, folder: Path, was_refused: bool) -> None:
        """Looks if it was done, or refused as it has to be, and what it left."""
        left = files_in(folder)
        if ran.status == self.whole.status and ran.output == self.whole.output:
            self.ends["done" if was_refused else "whole"] += 1
            self.check_done(ran, left)
        elif was_refused:
            self.ends["refused"] += 1
            self.check_refused(ran, left, folder)
        else:
            raise Wrong(told(ran))

    def check_done(self, ran: Ran, left: Files) -> None:
        if certain_faults(ran.faults, ran.faults) != certain_faults(self.whole.faults, ran.faults):
            raise Wrong("done, but %s" % told(ran))
        if left != self.after and not self.may_lack(ran.faults, left):
            raise Wrong("done, and other files afterwards")

    def may_lack(self, faults: str, left: Files) -> bool:
        """Whether only the list that the task writes lacks something, which is told: all of that,
        or the digest of the release."""
        name = {"import": STORE, "copy": COPY}.get(self.task.command(), "") + LIST
        found, whole = dict(left), dict(self.after)
        lacks, all_of_it = found.pop(name, None), whole.pop(name, b"")
        lacking = (self.before.get(name), b"", LAST_DIGEST.sub(NO_DIGEST, all_of_it))
        return found == whole and lacks in lacking and UNLISTED.search(faults) is not None

    def check_refused(self, ran: Ran, left: Files, folder: Path) -> None:
        """Looks if it is refused as it has to be, and what it leaves."""
        first, last = ran.faults[:-1].rpartition("\n")[::2]
        begun = certain_faults(first + "\n", ran.faults) if first else []
        way = (ran.output, last + "\n")
        is_task = self.whole.status == 0 and "--help" not in self.words
        ways = ways_to_be_refused(STORE, COPY) if is_task else [("", OUT_OF_MEMORY)]
        # (What it had told by then it tells with all memory, too.)
        is_usual = begun == certain_faults(self.whole.faults, ran.faults)[: len(begun)]
        if ran.status != 1 or way not in ways or not is_usual:
            raise Wrong(told(ran))
        if left != self.before and not self.may_leave(way, begun, left, folder):
            raise Wrong("refused, and other files afterwards: %s" % told(ran))

    def may_leave(self, way: tuple[str, str], begun: list[str], left: Files, folder: Path) -> bool:
        """Whether a task that was refused may have changed the files to these: to one without a
        byte, for a store or a copy; or by whole merges. What is left of a store is then made the
        one that the task makes, if it is done again."""
        if self.task.command() == "copy":
            is_unopened = way == (DISK_FAULT, "sctd: copy: out of memory\n")
            return is_unopened and left == {**self.before, COPY: b""}
        if self.task.command() in ("init", "prepare"):
            return left == {STORE: b""} and self.is_done_again(folder) == self.after[STORE]
        return self.task.command() == "merge" and bool(begun) and self.has_merged(folder)

    def is_done_again(self, folder: Path) -> bytes:
        """The store once the task was done on what is left, as it has to be with all memory."""
        ran, _ = self.program.run(self.words, folder, self.task.given)
        if ran[:2] != self.whole[:2]:
            raise Wrong("again: %s" % told(ran))
        return (folder / STORE).read_bytes()

    def has_merged(self, folder: Path) -> bool:
        """Whether the rows are those from before, also once it is merged further."""
        here, store = Place(self.program.program, folder), folder / STORE
        first = here.digest(store)
        self.is_done_again(folder)
        again = here.digest(store)
        put(folder, self.before)
        return first == again == here.digest(store)

    def all_runs(self) -> None:
        try_each(lambda place, number: self.run(place, Refusals(number)))
        try_each(lambda place, number: self.run(place, Refusals(number, ALL_BEHIND)), STEP)
        if not self.ends["refused"]:
            raise Wrong("NOTHING TRIED: no run was refused")


class Demonstration(Trial):
    """The demonstration, whose disk is in memory: where that runs out, the disk fails."""

    def check_refused(self, ran: Ran, left: Files, folder: Path) -> None:
        """Looks if it is refused before its first line, or if the replies are the usual ones up to
        one that says that memory ran out or the disk failed, and no reply is missing."""
        if left:
            raise Wrong("it left %s" % sorted(left))
        if ran in ((1, "", OUT_OF_MEMORY), (1, OUT_OF_MEMORY, ""), (1, DISK_FAULT, "")):
            return
        usual, said = replies_in(self.whole.output), replies_in(ran.output)
        if (ran.status, ran.faults) != (0, "") or len(said) != len(usual):
            raise Wrong(told(ran))
        first = next(reply for reply, wanted in zip(said, usual) if reply != wanted)
        if first not in (["ERR 1 OutOfMemory"], ["ERR 2 DiskFault"]):
            raise Wrong("%r, before memory ran out" % first)


def are_right(program: Program, folder: Path) -> bool:
    """Makes the runs of all tasks, and prints what came; whether each was as it has to be."""
    work = folder / "tasks"
    work.mkdir()
    (work / "releases").symlink_to(RELEASES)
    made = work / "made"
    made.mkdir()
    stores = stores_in(program, made)
    is_right = True
    for task in tasks():
        kind = Demonstration if task.words == "demo" else Trial
        try:
            trial = kind(program, work, task, stores[task.store])
            trial.all_runs()
        except Wrong as wrong:
            print("WRONG: sctd %s: %s" % (task.words, wrong))
            is_right = False
            continue
        print("sctd %s: refused %d, done %d" % (
            task.words, trial.ends["refused"], trial.ends["done"]))
    return is_right
