"""Reads the transcripts of bench/cases/, which docs/internals/CASES.md describes: cases, and the
parts and releases that they name. A part of try_cases.py."""

import re
from collections.abc import Iterator, Mapping
from pathlib import Path
from typing import NamedTuple, Optional

from harness import TOP
import make_release as rf2  # harness.py looks for it.

# The files of transcripts; the releases that all of them share, and pieces that have to fail.
FOLDER = TOP / "bench" / "cases"
SHARED, WRONG = FOLDER / "releases.txt", FOLDER / "wrong.txt"
# What a name in capitals stands for, in a row.
MEANINGS = {"CORE": rf2.CORE, "PRIM": rf2.PRIMITIVE, "SYN": rf2.SYNONYM,
            "ECI": rf2.CASE_INSENSITIVE, "INF": rf2.INFERRED, "MOD": rf2.MODIFIER}
# The sorts of the files of a release, by the names of their kinds.
SORTS = {"concept": "C", "description": "D", "relationship": "R", "association": "A",
         "concrete": "V"}
# The file of members with so many further columns, of a Delta of a day.
MEMBERS, DELTA, DAY = "Refset/Content/der2_%sRefset_Example{}", "Delta", "20200131"
# What stands for a byte in a text in quotes, and a piece that is repeated.
ESCAPES = {"n": b"\n", "r": b"\r", "t": b"\t"}
ESCAPED = re.compile(rb"\\(?:([nrt])|x([0-9a-f]{2})|\(([^*]*)\*(\d+)\))")
BLOCKS = ("case", "part", "release")


class Fault(Exception):
    """A line that can't be carried out, or after which something else came, with what differs."""

    def __init__(self, number: int, why: str, told: str = "") -> None:
        super().__init__("line %d: %s" % (number, why))
        self.told = told


class Line(NamedTuple):
    """A line of a file: its number, its first word and the rest."""

    number: int
    word: str
    rest: str


class Block(NamedTuple):
    """A case, a part or a release: the line that it begins with, and those that follow it."""

    kind: str
    name: str
    number: int
    lines: list[Line]


def number_of(line: Line, word: str, base: int = 10) -> int:
    try:
        return int(word, base)
    except ValueError:
        raise Fault(line.number, "a number is wanted") from None


def numbers_of(line: Line, count: int) -> list[int]:
    """The numbers of a line, which has to have so many."""
    words = line.rest.split(" ")
    if len(words) != count:
        raise Fault(line.number, "so many numbers are wanted: %d" % count)
    return [number_of(line, word) for word in words]


def row(text: str) -> str:
    """A row, in which a bar stands for a TAB, and a name in capitals for an identifier."""
    return "\t".join(str(MEANINGS.get(column, column)) for column in text.split("|"))


def reply(text: str) -> str:
    """A line of a reply, which may be a row."""
    return row(text) if text.startswith("ROW ") else text


def unquoted(line: Line, text: str) -> bytes:
    if len(text) < 2 or text[0] + text[-1] != '""':
        raise Fault(line.number, "a text in quotes is wanted")

    def meant(found: re.Match[bytes]) -> bytes:
        letter, byte, piece, count = found.groups()
        if letter:
            return ESCAPES[letter.decode()]
        return bytes.fromhex(byte.decode()) if byte else piece * int(count)

    return ESCAPED.sub(meant, text[1:-1].encode())


def sort_of(line: Line) -> rf2.Sort:
    """The sort of the files of a kind, as `concept`, or `member+2` with two further columns, or of
    this name, as `Language`."""
    if line.word in SORTS:
        return rf2.BASIC_SORTS[SORTS[line.word]]
    if line.word in rf2.FURTHER_SORTS:
        return rf2.FURTHER_SORTS[line.word]
    kind, _, further = line.word.partition("+")
    if kind != "member":
        raise Fault(line.number, "no word of a release")
    count = number_of(line, further) if further else 0
    names = "".join(" column%d" % number for number in range(count))
    return rf2.members(MEMBERS % ("s" * count), names)


def files_of(release: Block) -> dict[str, bytes]:
    """The files of a release, by their paths: rows, or a text in quotes."""
    files: dict[str, bytes] = {}
    for line in release.lines:
        is_text = line.word == "text"
        if is_text:
            kind, _, text = line.rest.partition(" ")
            line = Line(line.number, kind, text)
        sort = sort_of(line)
        path = sort.name.format(DELTA, DAY)
        if is_text:
            files[path] = unquoted(line, line.rest)
            continue
        before = files.setdefault(path, sort.columns.replace(" ", "\t").encode() + b"\r\n")
        files[path] = before + (row(line.rest).encode() + b"\r\n" if line.rest else b"")
    return files


def write_release(folder: Path, files: dict[str, bytes]) -> None:
    for path, data in files.items():
        folder.joinpath(path).parent.mkdir(parents=True, exist_ok=True)
        folder.joinpath(path).write_bytes(data)


def blocks_of(text: str) -> Iterator[Block]:
    block: Optional[Block] = None
    for number, written in enumerate(text.split("\n"), 1):
        word, _, rest = written.partition(" ")
        if not written or word.startswith("#"):
            continue
        if word in BLOCKS:
            if block:
                yield block
            block = Block(word, rest, number, [])
        elif block is None:
            raise Fault(number, "it stands in no case")
        else:
            block.lines.append(Line(number, word, rest))
    if block:
        yield block


def files_of_cases() -> list[Path]:
    return sorted(set(FOLDER.glob("*.txt")) - {SHARED, WRONG})


def names_of_cases() -> list[str]:
    texts = (path.read_text(encoding="utf-8") for path in files_of_cases())
    return [block.name for text in texts for block in blocks_of(text) if block.kind == "case"]


class File:
    """The cases, the parts and the releases of a file, with those that all files share."""

    def __init__(self, text: str, shared: Mapping[str, Block]) -> None:
        self.cases: list[Block] = []
        self.parts: dict[str, Block] = {}
        self.asked: set[str] = set()
        own: dict[str, Block] = {}
        named = {"part": self.parts, "release": own}
        for block in blocks_of(text):
            if not block.lines:
                raise Fault(block.number, "the %s has no line" % block.kind)
            if block.kind == "case":
                self.cases.append(block)
            elif block.name in named[block.kind]:
                raise Fault(block.number, "there is another %s of this name" % block.kind)
            else:
                named[block.kind][block.name] = block
        if not self.cases:
            raise Fault(0, "no case stands in the file")
        words = set(self.words())
        for name, block in own.items():
            if name not in words:
                raise Fault(block.number, "no line names the release")
        self.releases = {name: files_of(block) for name, block in {**shared, **own}.items()
                         if name in words}

    def words(self) -> Iterator[str]:
        for block in (*self.cases, *self.parts.values()):
            for line in block.lines:
                yield from line.rest.split(" ")

    def part(self, line: Line) -> list[Line]:
        found = self.parts.get(line.rest)
        if found is None:
            raise Fault(line.number, "there is no part of this name")
        self.asked.add(line.rest)
        return found.lines

    def check_parts(self) -> None:
        for name, block in self.parts.items():
            if name not in self.asked:
                raise Fault(block.number, "no case asks for the part")
