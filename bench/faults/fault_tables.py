"""Isn't started: reads the tables of faults, the files *_faults.txt beside it, and the changes in
rattle/small_crates/."""

from collections import Counter
from collections.abc import Iterator
from pathlib import Path
from typing import NamedTuple


class Fault(NamedTuple):
    """What is wrong, the tests that notice it, a file, a text in it, and what stands there then."""

    fault: str
    tests: str
    file: str
    old: str
    new: str

    def text_in(self, top: Path) -> str:
        """The text of its file, in which the old one has to stand just once."""
        text = (top / self.file).read_text("utf-8")
        if text.count(self.old) != 1:
            raise ValueError(f"{self.file} has the text {text.count(self.old)} times")
        return text

    def put_in(self, top: Path, new: str) -> None:
        """Puts a text in the place of the old one."""
        text = self.text_in(top).replace(self.old, new)
        (top / self.file).write_text(text, encoding="utf-8")


def faults_in(path: Path) -> Iterator[Fault]:
    """The faults of a file, behind what it says of itself, with their fields in this order. A text
    of several lines has several lines of its field's name."""
    for block in path.read_text("utf-8").rstrip("\n").split("\n\n")[1:]:
        found: dict[str, list[str]] = {}
        for line in block.split("\n"):
            field, _, text = line.partition(":")
            found.setdefault(field, []).append(text.removeprefix(" "))
        yield Fault(*map("\n".join, found.values()))


def print_row(command: str, what: str, counts: Counter[str]) -> None:
    """Prints a script's row of bench/README.md: what fails with its faults, and with how many."""
    told = ", ".join(f"`{name}` {count}" for name, count in sorted(counts.items()))
    print(f"| `{command}` | {what} | {told} |")
