"""Checks the figures of the documents that don't depend on the machine, or writes them (--renew).

figures.txt names each of them: its document, the text around the number, which stands there just
once, and the command that prints it, which bash runs at the top of the repository. TABLES names
commands that print rows of a table. A number of edits, tests, cases in files or crates that stands
in a document without being in figures.txt is an error, but for the rows of dated measurements.
"""

import argparse
import functools
import re
import subprocess
import sys
from collections.abc import Iterator
from pathlib import Path
from typing import NamedTuple

from documents import TOP, documents, name_of

# Documents, and commands that print rows of tables in them: what is counted, and its numbers.
TABLES = (("docs/internals/ARCHITECTURE.md", "python3 bench/rattle/count_reach.py"),
          ("bench/README.md", "python3 bench/faults/always_refused.py --table"),
          ("bench/README.md", "python3 bench/faults/gateway_faults.py --table"))
# What the commands of figures are made of, which say why they fail to nobody.
COMMANDS = "exec 2> /dev/null; . bench/checks/figures.sh; "
# What has to be in figures.txt wherever it stands, and the rows that say what was so on a day.
COUNTED = re.compile(
    r"\b[0-9][0-9,]*\** (?:must-fail edits|edits|tests|cases in files|crates)\b(?!/)")
DATED = re.compile(r"\| (?:20[0-9]{2}-|the same )")


class Figure(NamedTuple):
    """A text in a document in which {} stands for what a command prints, once it is asked."""

    document: str
    text: str
    command: str

    def pattern(self) -> re.Pattern[str]:
        """The text, in which a line may end, with a group for its number."""
        front, behind = (r"\s+".join(map(re.escape, part.split(" ")))
                         for part in self.text.split("{}"))
        return re.compile(f"(?:{front})([0-9][0-9,]*)(?={behind})")

    def printed(self) -> str:
        """The number that the command prints, as documents write it; nothing if it prints none."""
        number = output_of(COMMANDS + self.command).strip()
        return f"{int(number):,}" if number.isdigit() else ""


class Row(NamedTuple):
    """A row of a table in a document, as a command prints it."""

    document: str
    text: str
    command: str

    def pattern(self) -> re.Pattern[str]:
        """The row that begins with the same cell."""
        return re.compile(f"^({re.escape(self.text[: self.text.index('|', 1) + 1])}.*)$", re.M)

    def printed(self) -> str:
        return self.text


@functools.cache
def output_of(command: str) -> str:
    """What a command prints; nothing where it fails."""
    done = subprocess.run(["bash", "-c", command], cwd=TOP, check=False, text=True,
                          stdout=subprocess.PIPE)
    return "" if done.returncode else done.stdout


def figures() -> list[Figure]:
    lines = Path(__file__).with_name("figures.txt").read_text("utf-8").splitlines()
    return [Figure(*line.split(" :: ")) for line in lines if not line.startswith("#")]


def renewed(text: str, one: Figure | Row, wrong: list[str]) -> str:
    """A document with a figure or a row as it is; what isn't so is added to `wrong`."""
    found, printed = list(one.pattern().finditer(text)), one.printed()
    if len(found) != 1:
        wrong.append(f"{one.document}: {one.text!r} stands there {len(found)} times")
    elif not printed:
        wrong.append(f"{one.document}: {one.text!r}: no number is printed by: {one.command}")
    else:
        if found[0][1] != printed:
            wrong.append(f"{one.document}: {found[0][0]!r}, and {printed} is printed by: "
                         f"{one.command}")
        text = text[: found[0].start(1)] + printed + text[found[0].end(1) :]
    return text


def unlisted(name: str, text: str) -> Iterator[str]:
    """The counts in a document that no figure covers, each with its place."""
    found = (it.pattern().search(text) for it in figures() if it.document == name)
    spans = [match.span(1) for match in found if match]
    for match in COUNTED.finditer(text):
        start = text.rfind("\n", 0, match.start()) + 1
        covered = any(first <= match.start() < last for first, last in spans)
        if not covered and not DATED.match(text, start):
            line = text.count("\n", 0, match.start()) + 1
            yield f"{name}:{line}: {match[0]!r} has no command"


def main() -> int:
    parser = argparse.ArgumentParser(description=(__doc__ or "").split("\n", maxsplit=1)[0])
    parser.add_argument("--renew", action="store_true", help="write them into the documents")
    asked = parser.parse_args()
    listed: list[Figure | Row] = [*figures()]
    listed += (Row(name, row, command) for name, command in TABLES
               for row in output_of(command).splitlines())
    wrong = [f"{name}: no rows are printed by: {command}" for name, command in TABLES
             if not output_of(command)]
    for path in documents():
        with open(path, encoding="utf-8", newline="") as file:
            before = text = file.read()
        for one in listed:
            text = renewed(text, one, wrong) if one.document == name_of(path) else text
        wrong += unlisted(name_of(path), text)
        if asked.renew and text != before:
            with open(path, "w", encoding="utf-8", newline="") as file:
                file.write(text)
    print(*wrong, f"{len(figures())} figures and {len(TABLES)} tables, {len(wrong)} not so",
          sep="\n", file=sys.stderr)
    return 1 if wrong else 0


if __name__ == "__main__":
    sys.exit(main())
