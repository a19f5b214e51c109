"""Runs the built program with its requests for memory refused, each in turn.

refuse_growths.py PROGRAM script
refuse_growths.py PROGRAM tasks
refuse_growths.py PROGRAM room

In the Nth run the Nth call of malloc, calloc or realloc gets no memory, for N = 1, 2, .. until a
run makes fewer calls. RELIABILITY says what has to hold of each run, under "Memory runs out".

With `script` lines are served: those of the demonstration, with a merge that is given up and
a second step of its merge, further questions, and behind them imports, a merge and questions for
members: all of them on a store without rows, and then its questions on the store that they leave.
Each line that takes memory has to be refused in some run, and a run that is
refused at its start leaves the store as it was. In each tenth run the line that is refused comes a
second time: then it is answered. In further runs from each seventh call on 40 in a row are refused,
and from each tenth on all. With `tasks` each task of the command line is done so, and so are words
that are none, and helps. With `room` each call of the store is made by a line that has room for no
byte of memory, then for 8 bytes, and so on until it isn't refused; and so a store is made, and
opened. Each is wanted to be refused so many times. It needs Linux, glibc and a C compiler. Where
there is /dev/shm its files lie there, since syncs take most of the time otherwise.
"""

import shutil
import sys
import tempfile
from pathlib import Path

import growths_lines as lines
import growths_room as room
import growths_tasks as tasks
from growths_harness import Program
from harness import NotRun, Wrong, parser_of, tell

IN_MEMORY = Path("/dev/shm")
RUNS = {"script": lines.are_right, "tasks": tasks.are_right, "room": room.are_right}


def tried(program: Path, runs: str) -> None:
    if shutil.which("cc") is None:
        raise NotRun("there is no C compiler")
    around = IN_MEMORY if IN_MEMORY.is_dir() else None
    with tempfile.TemporaryDirectory(prefix="sctd-growths-", dir=around) as folder:
        if not RUNS[runs](Program(program, Path(folder)), Path(folder)):
            raise Wrong("not all runs are as they have to be")


def main() -> int:
    parser = parser_of(__doc__)
    parser.add_argument("runs", choices=RUNS)
    asked = parser.parse_args()
    return tell(lambda: tried(asked.program, asked.runs))


if __name__ == "__main__":
    sys.exit(main())
