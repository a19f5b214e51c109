"""Turns over single bits of a store of layout 3, and looks at what the built program answers.

try_flips.py PROGRAM [ROWS [BITS [SEED]]]

The store has a whole package, a Full release of ROWS rows and a Delta. Each bit of the directory's
epoch is turned over by itself, and each of some random bits of both directories and of BITS random
ones of the file: the program is asked, and the bit is turned back. A store of which a bit that is
read was changed has to be refused with ERR 8; where a gate was closed, it may be opened as it was
before its last import, whole; and where the bit isn't read, each answer is what it was. Then the
store is served, the bits of records are turned over while it is open, and the row of each is asked
for: the answer is the right one, from a block in memory, or ERR 8.
"""

import random
import sys
import tempfile
from collections import Counter
from collections.abc import Iterator, Sequence
from pathlib import Path

from harness import BLOCK, Place, Server, Wrong, parser_of, replies_in, tell
import make_release

# How many components of a sort of files are asked for.
ASKED_OF_A_SORT = 10
# How many random bits of each directory are turned over, and how many at once of an open store.
DIRECTORY_BITS, BITS_AT_ONCE = 20, 200
# How long a run of the program may take.
SECONDS = 600
GATES = (0, 2 * BLOCK)
DIRECTORIES = (BLOCK, 3 * BLOCK)

# A bit: the place of its byte, and its value there.
Bit = tuple[int, int]
# Where a bit stood, and what became of it.
Fate = tuple[str, str]


def number(data: bytes, at: int, length: int) -> int:
    return int.from_bytes(data[at : at + length], "big")


class Store:
    """The file of a store, and where what is read of it stands."""

    def __init__(self, path: Path) -> None:
        self.path, self.data = path, path.read_bytes()
        at = max(DIRECTORIES, key=lambda place: number(self.data, place, 8))
        self.directory = at
        self.older = min(DIRECTORIES, key=lambda place: number(self.data, place, 8))
        for place in DIRECTORIES:
            if self.data[place + 8 : place + 16] != b"SCTSTOR3":
                raise Wrong("no directory of layout 3")
        self.segments: list[tuple[int, int]] = []
        for place in range(at + 32, at + 32 + 16 * number(self.data, at + 20, 4), 16):
            first, length, _, checksum = (number(self.data, place + 4 * k, 4) for k in range(4))
            if not checksum:
                raise Wrong("a segment without checksums")
            self.segments.append((BLOCK * first, BLOCK * first + length))

    def place(self, at: int) -> str:
        if at in GATES:
            return "gate"
        if self.directory <= at < self.directory + 8:
            return "epoch"
        if self.directory + 8 <= at < self.directory + BLOCK:
            return "directory"
        if self.older <= at < self.older + BLOCK:
            return "older directory"
        if any(start <= at < end for start, end in self.segments):
            return "record"
        return "unread"

    def put(self, at: int, byte: int) -> None:
        with open(self.path, "r+b") as file:
            file.seek(at)
            file.write(bytes([byte]))


def answers(place: Place, store: Path, lines: Sequence[str]) -> list[list[str]]:
    """What a server writes for lines, and first of its state: the reply to each."""
    asked = "".join(f"0 {line}\n" for line in ("STATUS", *lines))
    ran = place.run("serve", "--store", store, "--releases", place.releases, given=asked)
    return replies_in(ran.output)


def chosen(store: Store, chance: random.Random, bits: int) -> Iterator[Bit]:
    at = store.directory
    yield from ((at + k // 8, 1 << k % 8) for k in range(64))
    for start, count, length in ((at, DIRECTORY_BITS, BLOCK), (store.older, DIRECTORY_BITS, BLOCK),
                                 (0, bits, len(store.data))):
        for _ in range(count):
            yield start + chance.randrange(length), 1 << chance.randrange(8)


def flipped(place: Place, store: Store, bit: Bit, before: Sequence[Sequence[list[str]]],
            lines: Sequence[str]) -> Fate:
    """What became of a bit, where lines were answered like this before, and before that."""
    at, value = bit
    where = store.place(at)
    store.put(at, store.data[at] ^ value)
    try:
        ran = place.run("status", "--store", store.path)
        if ran.output.startswith("ERR 8 ") and ran.status == 1:
            if where == "unread":
                raise Wrong(f"byte {at} isn't read, and was refused")
            return where, "refused"
        if where not in ("gate", "unread"):
            raise Wrong(f"bit {value} of byte {at}, {where}: {ran.output!r}")
        said = answers(place, store.path, lines)
        if where != "unread" and said == before[0]:
            return where, "older"
        if said != before[1]:
            raise Wrong(f"bit {value} of byte {at}, {where}: other answers")
        return where, "same"
    finally:
        store.put(at, store.data[at])


def while_open(place: Place, store: Store, chance: random.Random, lines: Sequence[str],
               wanted: Sequence[list[str]]) -> int:
    """Rows are asked for while bits of a segment are turned over: how many were refused. A first
    reply is waited for, since the opening reads every record."""
    refused = 0
    with Server(place, store.path, place.releases) as server:
        server.ask("STATUS")
        for line, reply in zip(lines, wanted):
            start, end = chance.choice(store.segments)
            turned = [chance.randrange(start, end) for _ in range(BITS_AT_ONCE)]
            for at in turned:
                store.put(at, store.data[at] ^ 4)
            said = server.ask(line)
            for at in turned:
                store.put(at, store.data[at])
            if said[-1].startswith("ERR 8 "):
                refused += 1
            elif said != reply:
                raise Wrong(f"{line!r}: {said!r} in place of {reply!r}")
    return refused


def tried(place: Place, rows: int, bits: int, chance: random.Random) -> None:
    """Prints what became of the bits, and what was answered while the store was open."""
    make_release.make(place.releases, rows, is_package=True)
    path = place.make_store(layout=3)
    lines = list(some_questions(place.releases / "full", chance))
    shown = []
    for name in ("full", "delta"):
        place.import_one(path, place.releases / name)
        shown.append(answers(place, path, lines))
    store = Store(path)
    fates = Counter(flipped(place, store, bit, shown, lines) for bit in chosen(store, chance, bits))
    refused = while_open(place, store, chance, lines, shown[1][1:])
    for (where, what), count in sorted(fates.items()):
        print(f"{where} {what} {count}")
    print(f"while open: refused {refused} of {len(lines)}")
    if not fates["record", "refused"]:
        raise Wrong("NOTHING TRIED: no bit of a record was turned over")


def some_questions(folder: Path, chance: random.Random) -> Iterator[str]:
    """What is asked of some components of a release: their versions, and of concepts what is above
    them, what was ever said of them and what they were called, and of reference sets the members
    and the values, for which many rows are read."""
    for sort, (kind, _, _) in make_release.SORTS.items():
        if sort not in make_release.UNKEPT_SORTS:
            rows = list(make_release.rows_of(folder, sort))
            for row in chance.sample(rows, min(ASKED_OF_A_SORT, len(rows))):
                yield "HISTORY %s %s" % (kind, row[0])
                yield from questions_about(kind, row)


def questions_about(kind: str, row: Sequence[str]) -> Iterator[str]:
    """What is asked of a row beside its versions."""
    if kind == "C":
        yield "ANCESTORS %s 20991231" % row[0]
        yield "TIMELINE D %s" % row[0]
    if kind == "D":
        for language in make_release.LANGUAGES:
            yield "CALLED %s 20991231 %d" % (row[4], language)
    if kind == "M":
        yield "MEMBERS %s 20991231 %s 10" % (row[4], row[0])
        yield "VALUES %s 20991231 %s 10" % (row[4], row[5])


def main() -> int:
    parser = parser_of(__doc__)
    for name, usual in (("rows", 20_000), ("bits", 200), ("seed", 1)):
        parser.add_argument(name, type=int, nargs="?", default=usual)
    asked = parser.parse_args()
    with tempfile.TemporaryDirectory(prefix="sctd-flips-") as folder:
        place = Place(asked.program, Path(folder))
        place.seconds = SECONDS
        return tell(lambda: tried(place, asked.rows, asked.bits, random.Random(asked.seed)))


if __name__ == "__main__":
    sys.exit(main())
