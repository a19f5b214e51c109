"""Isn't started: what an edit is, the edits of crates, and the records of those that were refused.

An edit is a wrong change of a crate that the prover has to refuse, a file in must-fail/ or edits/:
a line `file: PATH`, and behind it pairs of lines `old: TEXT` and `new: TEXT`. An old text has to
stand just once in its file.

A crate's record is the file edits/tried: the day on which an edit was last tried, the version of
the kit that tried it, if it is known for all lines, and a line for each edit that was refused, with
a checksum of its file and one of its grounds, as grounds.py says. Standard library alone.
"""

import glob
import hashlib
import os
import re
from collections.abc import Iterable, Iterator
from dataclasses import dataclass
from typing import NamedTuple

from source import TOP, crates_below, folder_of, read

# The folders of a crate that hold edits: CI tries those of the first, try_edits.py all.
MUST_FAIL, EDITS = "must-fail", "edits"
FOLDERS = (MUST_FAIL, EDITS)
ENDING = ".edit"
# What edits change, and what refuses them.
SRC, SPECS, PROOFS = "src", "specs", "proofs"
# A file of src/ whose clauses hold for code of the crates above: one that declares a trait.
TRAIT = re.compile(r"^(?:pub(?:\([a-z]+\))? )?trait ", re.M)
RECORD = f"{EDITS}/tried"
# How a line begins that is a comment, in the files of these endings.
COMMENTS = {".rt": b"//", ".antt": b"--"}


@dataclass(frozen=True)
class Change:
    """A text in a file of the crate, and the one to put in its place."""

    path: str
    old: str
    new: str


@dataclass(frozen=True)
class Edit:
    """An edit: its crate, its folder there, its name, and what it changes."""

    crate: str
    folder: str
    name: str
    changes: tuple[Change, ...]

    def __str__(self) -> str:
        return f"{self.crate}/{self.name}"


class Misfit(Exception):
    """Why an edit can't be applied to the sources."""


class Line(NamedTuple):
    """What a record says of an edit: the checksum of its file, and that of its grounds."""

    edit: str
    grounds: str


@dataclass(frozen=True)
class Record:
    """Which edits were refused: the day of the last of them, the version of the kit, and a line for
    each edit by its name."""

    day: str
    kit: str | None
    lines: dict[str, Line]

    def text(self) -> str:
        kit = f"kit: {self.kit}\n" if self.kit else ""
        lines = (f"edit {name}: {line.edit} {line.grounds}\n"
                 for name, line in sorted(self.lines.items()))
        return f"date: {self.day}\n{kit}{''.join(lines)}"


def changes_in(text: str) -> Iterator[Change]:
    """The changes that the text of an edit asks for."""
    path = old = None
    for line in text.split("\n"):
        if line.startswith("file: "):
            path = line.removeprefix("file: ").strip()
        elif line.startswith("old: "):
            old = line.removeprefix("old: ")
        elif line.startswith("new:") and path and old:
            yield Change(path, old, line.removeprefix("new:").removeprefix(" "))
            old = None


def edits_of(crate: str, folder: str) -> list[Edit]:
    """The edits that stand in a folder of a crate, by their names."""
    found = []
    for path in sorted(glob.glob(os.path.join(folder_of(crate), folder, "*" + ENDING))):
        name = os.path.basename(path).removesuffix(ENDING)
        found.append(Edit(crate, folder, name, tuple(changes_in(read(path)))))
    return found


def texts_with(edits: list[Edit]) -> dict[str, str]:
    """The texts of the files that these edits of one crate change, by their paths in the crate."""
    texts: dict[str, str] = {}
    for edit, change in ((edit, change) for edit in edits for change in edit.changes):
        path = os.path.join(folder_of(edit.crate), change.path)
        if not os.path.isfile(path):
            raise Misfit(f"there is no {change.path}")
        text = texts.get(change.path) or read(path)
        if text.count(change.old) != 1:
            count = text.count(change.old)
            raise Misfit(f"an old text is in {change.path} {count} times, and not once")
        texts[change.path] = text.replace(change.old, change.new)
    return texts


def without_comments(path: str) -> bytes:
    """A file without its empty lines and those that are comments, which the prover doesn't read."""
    sign = COMMENTS[os.path.splitext(path)[1]]
    with open(path, "rb") as file:
        lines = [line for line in file.read().split(b"\n") if line.strip()]
    return b"\n".join(line for line in lines if not line.lstrip().startswith(sign))


def files_in(folder: str) -> Iterator[str]:
    return (os.path.join(at, name) for at, _, names in os.walk(folder) for name in names)


def checksum_of_files(start: str, paths: Iterable[str]) -> str:
    """A checksum of these files and of where they stand below a folder, without their comments."""
    total = hashlib.sha256()
    for path in sorted(paths):
        text = hashlib.sha256(without_comments(path)).hexdigest()
        total.update(f"{os.path.relpath(path, start)} {text}\n".encode())
    return total.hexdigest()


def checksum_of_sources(crate: str) -> str:
    """A checksum of all files of a crate that say whether its edits are refused."""
    folder = folder_of(crate)
    parts = (os.path.join(folder, part) for part in (SRC, SPECS, PROOFS))
    return checksum_of_files(folder, (path for part in parts for path in files_in(part)))


def checksum_below(crate: str) -> str:
    """A checksum of what the contracts of a crate can rest on in the crates below it: definitions,
    and traits."""
    folders = [folder_of(name) for name in crates_below(crate)]
    specs = (path for it in folders for path in files_in(os.path.join(it, SPECS)))
    traits = (path for it in folders for path in files_in(os.path.join(it, SRC))
              if TRAIT.search(read(path)))
    return checksum_of_files(TOP, [*specs, *traits])


def all_edits(crate: str) -> list[Edit]:
    """The edits of a crate, of both folders."""
    return [edit for folder in FOLDERS for edit in edits_of(crate, folder)]


def checksum_of(edit: Edit) -> str:
    """The checksum of an edit's file, which is the same in both folders."""
    path = os.path.join(folder_of(edit.crate), edit.folder, edit.name + ENDING)
    with open(path, "rb") as file:
        return hashlib.sha256(file.read()).hexdigest()


def path_of_record(crate: str) -> str:
    return os.path.join(folder_of(crate), RECORD)


def write_record(crate: str, record: Record) -> None:
    """Writes a crate's record, or removes it where it has no line."""
    if record.lines:
        with open(path_of_record(crate), "w", encoding="utf-8") as file:
            file.write(record.text())
    elif os.path.exists(path_of_record(crate)):
        os.remove(path_of_record(crate))


def record_of(crate: str) -> Record | None:
    """What a crate's record says; None where there is none that can be read."""
    if not os.path.isfile(path_of_record(crate)):
        return None
    text, line = read(path_of_record(crate)), r"edit (\w+): ([0-9a-f]{64}) ([0-9a-f]{64})\n"
    found = re.fullmatch(rf"date: (\d{{4}}-\d\d-\d\d)\n(?:kit: (.+)\n)?(?:{line})*", text)
    lines = {name: Line(own, grounds) for name, own, grounds in re.findall(line, text)}
    return Record(found[1], found[2], lines) if found else None
