"""What refuse_growths.py and its parts share: a library that refuses requests for memory, and how
the program is run with it."""

import itertools
import os
import threading
from concurrent.futures import ThreadPoolExecutor
from pathlib import Path
from typing import Callable, NamedTuple, Optional, Sequence

from harness import Place, Ran, Wrong
from moments import compiled

# How many runs go on at a time, and how much of what one wrote is told.
AT_ONCE, TOLD = 2, 300
# How many requests in a row are refused: one, or all behind it too.
ALONE, ALL_BEHIND = 1, -1

OUT_OF_MEMORY, DISK_FAULT = "ERR 1 OutOfMemory\n", "ERR 2 DiskFault\n"


class Refusals(NamedTuple):
    """Which requests for memory are refused: so many, from the one with this number on."""

    first: int
    how_many: int = ALONE


def ways_to_be_refused(store: str, *others: str) -> list[tuple[str, str]]:
    """How a run is refused because memory ran out: what it writes, and its last line of faults.
    That is before its words are a task; for what is done with the store; or as a file is opened."""
    ways = [("", OUT_OF_MEMORY), (OUT_OF_MEMORY, f"sctd: {store}: memory ran out\n")]
    return ways + [(DISK_FAULT, f"sctd: {name}: out of memory\n") for name in (store, *others)]


def told(ran: Ran) -> str:
    return f"status {ran.status}, {ran.output[-TOLD:]!r}, {ran.faults[-TOLD:]!r} on standard error"


class Program:
    """The program, and the library that refuses requests for memory in it."""

    def __init__(self, program: Path, folder: Path) -> None:
        self.program, self.library = program, compiled("growths", folder)

    def run(self, words: Sequence[str], folder: Path, given: str = "",
            refusals: Optional[Refusals] = None,
            around: Optional[dict[str, str]] = None) -> tuple[Ran, bool]:
        """Runs it in a folder, and tells if any request was refused for its number."""
        mark = Path(f"{folder}.refused")
        around = dict(os.environ if around is None else around)
        if refusals is not None:
            around.update(LD_PRELOAD=str(self.library), REFUSED=str(mark),
                          REFUSE=str(refusals.first), REFUSE_COUNT=str(refusals.how_many))
        ran = Place(self.program, folder).run(*words, given=given, around=around)
        was_refused = mark.exists()
        mark.unlink(missing_ok=True)
        return ran, was_refused


def try_each(run: Callable[[int, int], bool], step: int = 1) -> None:
    """Makes the runs with the numbers 1, 1 + step, .. until one refuses no request. Some go on at a
    time, each of them with a place of its own. The number of a wrong one is told."""
    numbers, is_over = itertools.count(1, step), threading.Event()

    def work(place: int) -> None:
        while not is_over.is_set():
            number = next(numbers)
            try:
                if not run(place, number):
                    is_over.set()
            except Wrong as wrong:
                is_over.set()
                raise Wrong("in run %d: %s" % (number, wrong)) from None

    with ThreadPoolExecutor(AT_ONCE) as workers:
        list(workers.map(work, range(AT_ONCE)))
