"""Part of refuse_growths.py: lines that have room for no byte of memory, then for 8, and so
on until there is enough; and so a store is made, and opened."""

import mmap
import os
import struct
from pathlib import Path

from growths_harness import Program
from growths_lines import ASKED, REFUSED, samples
from growths_tasks import NONE, STORE, Files, Task, Trial, put
from harness import RELEASES, Place, Server, Wrong, same
from soak_model import Model

# By how many bytes the room for a line grows from one try to the next, how often it is tried, and
# the room where there is enough for all; and the bytes between two sizes of room for a start.
STEP, TRIES, ALL = 8, 40_000, -1
SIZE = 16
NUMBERS = "qqq"
# Lines on a new store, and how often each has to be refused first.
LINES = tuple((line, int(least)) for least, _, line in (
    text.partition(" ") for text in ASKED[2].splitlines()))
# The lines up to this one leave the store that is opened.
IS_MERGED = "TRIM"
# With how many sizes of room the making of a store has to be refused, and its opening.
LEAST_MADE, LEAST_OPENED = 4_200, 6_700


class Room:
    """How many more bytes a program may allocate, in a file that its library shares."""

    def __init__(self, path: Path) -> None:
        self.path = path
        path.write_bytes(bytes(struct.calcsize(NUMBERS)))
        with open(path, "r+b") as file:
            self.shared = mmap.mmap(file.fileno(), 0)

    def leave(self, room: int) -> None:
        struct.pack_into(NUMBERS, self.shared, 0, room, 0, 0)

    def counts(self) -> tuple[int, int]:
        """How many requests lacked room, and how many bytes one of them lacked at least."""
        _, refused, lacked = struct.unpack_from(NUMBERS, self.shared)
        return refused, lacked if refused else 0

    def around(self, library: Path) -> dict[str, str]:
        return {**os.environ, "LD_PRELOAD": str(library), "ROOM": str(self.path)}


class Rooms:
    """All tries, and what came of them."""

    def __init__(self, program: Program, folder: Path) -> None:
        self.program, self.folder = program, folder
        self.model = Model(samples(), keeps_all=True)
        self.is_right, self.wanted, self.refused = True, 0, 0
        # The store that is opened, and its status.
        self.merged, self.status = b"", ""

    def note(self, what: str, refused: int, least: int) -> None:
        """Tells how often something was refused, and whether that is as often as it has to be."""
        print(f"{what}: refused {refused}")
        self.wanted, self.refused = self.wanted + least, self.refused + refused
        if refused < least or refused and not least:
            print(f"NOT TRIED: {least or 'no'} refusals of it are wanted")
            self.is_right = False

    def ask(self, server: Server, room: Room, line: str) -> int:
        """Asks a line again and again, until it isn't refused, and tells how often it was."""
        status = [self.model.state.status()]
        for refused in range(TRIES):
            room.leave(STEP * refused)
            said = server.ask(line)
            has_lacked = room.counts()[0] > 0
            room.leave(ALL)
            if said != REFUSED:
                if said != self.model.reply(f"0 {line}"):
                    raise Wrong(f"{line!r}: {said}")
                return refused
            if not has_lacked or server.ask("STATUS") != status:
                raise Wrong(f"{line!r}: refused with all memory, or another store afterwards")
        raise Wrong(f"{line!r}: refused {TRIES} times")

    def serve(self) -> None:
        place = Place(self.program.program, self.folder)
        place.done("init", "--store", STORE)
        store, room = self.folder / STORE, Room(self.folder / "room")
        room.leave(ALL)
        around = room.around(self.program.library)
        with Server(place, store, RELEASES, around=around) as server:
            # Once this is answered, the store is open.
            same("STATUS", server.ask("STATUS"), [self.model.state.status()])
            for line, least in LINES:
                self.note(line, self.ask(server, room, line), least)
                if line == IS_MERGED and not self.merged:
                    self.merged, self.status = store.read_bytes(), self.model.state.status()
            if server.end():
                raise Wrong(server.told())

    def start(self, what: str, task: Task, before: Files, least: int) -> str:
        """Does a task again and again, until it has enough room, and answers what it writes then.
        Each time there is as much more as the request needs that lacked least: in between the same
        requests would be refused."""
        room, trial = Room(self.folder / "room"), Trial(self.program, self.folder, task, before)
        around, place = room.around(self.program.library), trial.place(0)
        bytes_left, runs, lacked = 0, 0, 1
        while lacked:
            put(place, before)
            room.leave(bytes_left)
            ran, _ = self.program.run(trial.words, place, task.given, around=around)
            refused, lacked = room.counts()
            trial.check(ran, place, refused > 0)
            bytes_left, runs = bytes_left + lacked, runs + 1
        print(f"{what}: in {runs - 1} runs")
        self.note(what, bytes_left // SIZE, least)
        return ran.output

    def starts(self) -> None:
        """Makes a store and opens one: a refusal leaves nothing, or the store as it was."""
        said = self.start("a new store", Task("init --store store"), NONE, LEAST_MADE)
        same("a new store", said, "OK\n")
        opening = Task(f"serve --store store --releases {RELEASES}", "0 STATUS\n")
        said = self.start("an opening", opening, {STORE: self.merged}, LEAST_OPENED)
        same("an opening", said, self.status + "\n")


def are_right(program: Program, folder: Path) -> bool:
    """Makes all tries, and prints what came; whether each was as it has to be."""
    rooms = Rooms(program, folder)
    try:
        rooms.serve()
        rooms.starts()
    except Wrong as wrong:
        print(f"WRONG: {wrong}")
        return False
    print(f"refusals that are wanted {rooms.wanted}, refusals {rooms.refused}")
    return rooms.is_right
