"""Makes the list of clauses at the end of docs/internals/PROMISES.md.

promises.py [--renew]
promises.py PROMISE ..

Each promise is an item of PROMISES under "Proved" that begins with its name. shown_by.txt names
below it edits (`crate/edit`), tests (`crate::test`), cases of the files in a crate's data/cases
(`crate: case`) and trials (`script: a text of the script`). The clauses behind it are those of the
sources with its name directly above them, in a line `// promise: NAME`, which may have several
names with commas: a clause of a function, a law too; or an impl, which is what its trait's clauses
say of one type.

The list has a row for each promise: of each crate the clauses, and how many edits change the body
of one of their functions, or of one that these call in the same crate (taken by name, as grounds.py
takes names); and what shown_by.txt names. With --renew it is written into PROMISES, and otherwise
it is printed. With names the edits of these promises are printed, and what each promise itself
names. Nothing is built. Standard library alone.
"""

import argparse
import functools
import os
import re
import sys
from collections.abc import Iterator
from typing import NamedTuple

import edits
import grounds
from edits import Edit
from source import TOP, Item, files_of, folder_of, parts_of_impl, read

DOCUMENT = os.path.join("docs", "internals", "PROMISES.md")
PROVED, LIST = "## Proved", "## The clauses"
LAWS = "laws"
ENTRY = re.compile(r"- `(?P<name>\w+)`: ")
SHOWN = os.path.join("bench", "rattle", "shown_by.txt")
MARK = re.compile(r"^ *// promise: (?P<names>.+)\n", re.M)
CLAUSE = re.compile(r" *ensures (?:(?P<name>\w+) )?\{| *impl\b")
HEAD = """
Each row has the clauses of a promise, crate by crate, and how many edits change the body of one of
their functions, or of a function that these call there; and the cases, tests, trials and other
edits that show it. `python3 bench/rattle/promises.py` makes it from the sources and
`bench/rattle/shown_by.txt`, and with the name of a promise prints these edits.

| Promise | Clauses | Shown by |
|---|---|---|
"""


class Promise(NamedTuple):
    """A promise: its name, the line in which it begins, and what it is shown by."""

    name: str
    line: int
    shown: list[str]


class Clause(NamedTuple):
    """A clause with the names of promises above it: its file and line, the item that has it, its
    own name, if it has one, and those of the promises."""

    path: str
    line: int
    item: Item | None
    name: str
    promises: list[str]

    @property
    def crate(self) -> str:
        return os.path.relpath(self.path, TOP).split(os.sep)[1]


# ---- PROMISES


def document() -> str:
    return read(os.path.join(TOP, DOCUMENT))


@functools.lru_cache(maxsize=None)
def shown_by() -> dict[str, list[str]]:
    """What shown_by.txt has below the name of each promise."""
    blocks = read(os.path.join(TOP, SHOWN)).rstrip("\n").split("\n\n")[1:]
    lines = ([line.strip() for line in block.split("\n")] for block in blocks)
    return {name: shown for name, *shown in lines}


def promises() -> list[Promise]:
    """The promises, in their order."""
    front, _, proved = document().partition(f"\n{PROVED}\n")
    found: list[Promise] = []
    begin = front.count("\n") + 2
    for part in re.split(r"\n(?=- |#|\n)", proved.partition("\n## ")[0]):
        entry = ENTRY.match(part)
        if entry:
            found.append(Promise(entry["name"], begin, shown_by().get(entry["name"], [])))
        begin += part.count("\n") + 1
    return found


# ---- the sources


@functools.lru_cache(maxsize=None)
def items_by_file() -> dict[str, list[Item]]:
    """By each file its items that may have a clause: functions, those in impls and traits too, and
    impls."""
    found: dict[str, list[Item]] = {}
    for item in grounds.tree().items():
        if item.sort in ("fn", "impl"):
            found.setdefault(item.module.path, []).append(item)
    return found


def item_at(path: str, at: int) -> Item | None:
    """The function, or else the impl, whose head has this position of a file."""
    around = [it for it in items_by_file().get(path, ()) if it.begin <= at < (it.body or it.end)]
    around.sort(key=lambda it: it.end - it.begin)
    return around[0] if around else None


def clauses_in(path: str) -> Iterator[Clause]:
    """The clauses of a file with names of promises; without an item where no clause follows."""
    text = read(path)
    names: list[str] = []
    for mark in MARK.finditer(text):
        names += [name.strip() for name in mark["names"].split(",")]
        if MARK.match(text, mark.end()):
            continue
        clause = CLAUSE.match(text, mark.end())
        item = item_at(path, clause.end() - 1) if clause else None
        own = clause["name"] or "" if clause else ""
        yield Clause(path, text.count("\n", 0, mark.start()) + 1, item, own, names)
        names = []


@functools.lru_cache(maxsize=None)
def clauses() -> list[Clause]:
    """All clauses with names of promises."""
    found: list[Clause] = []
    for crate in sorted(grounds.tree().crates):
        for path in files_of(os.path.join(folder_of(crate), edits.SRC), ".rt"):
            found += clauses_in(path)
    return found


def label(item: Item) -> str:
    """What a function or an impl is called in its crate, as `serve`, `Store::open`."""
    holder = item.holder
    trait, made = parts_of_impl((holder or item).head)
    trait, made = (text.partition("<")[0] for text in (trait, made))
    if item.sort == "impl":
        return f"impl {trait} for {made}" if trait else f"impl {made}"
    owner = made if holder and holder.sort == "impl" else holder.name if holder else ""
    owner = owner or (LAWS if item.module.name == LAWS else "")
    return f"{owner}::{item.name}" if owner else item.name


# ---- edits


def functions_of(item: Item) -> list[Item]:
    """A function, or those of an impl."""
    return [it for it in item.items if it.sort == "fn"] if item.sort == "impl" else [item]


def called_by(function: Item, own: set[Item]) -> set[Item]:
    """The functions of its crate that a function may call."""
    names = set(grounds.NAME.findall(grounds.plain(function.text[function.body - function.begin:])))
    found = grounds.tree().grounds([function])
    return {it for it in found if isinstance(it, Item) and it in own and it.name in names}


@functools.lru_cache(maxsize=None)
def callers(crate: str) -> dict[Item, set[Item]]:
    """By each function of a crate the ones that may call it."""
    own = set(grounds.tree().crates[crate].functions())
    found: dict[Item, set[Item]] = {}
    for function in own:
        for called in called_by(function, own) - {function}:
            found.setdefault(called, set()).add(function)
    return found


def nearest(crate: str, function: Item, named: set[Item]) -> set[Item]:
    """The functions among these that call a function, directly or by others that aren't among
    them; or itself."""
    seen: set[Item] = set()
    left = [function]
    while left:
        item = left.pop()
        if item not in seen:
            seen.add(item)
            left += () if item in named else callers(crate).get(item, ())
    return seen & named


@functools.lru_cache(maxsize=None)
def edits_by_function() -> dict[Item, list[Edit]]:
    """The edits that change the body of a function with a promise, or of one that it calls."""
    named = {it for clause in clauses() if clause.item for it in functions_of(clause.item)}
    found: dict[Item, list[Edit]] = {}
    for crate in sorted(grounds.tree().crates):
        for edit in edits.all_edits(crate):
            changed = grounds.tree().functions_of(edit)
            for item in set().union(*(nearest(crate, it, named) for it in changed)):
                found.setdefault(item, []).append(edit)
    return found


# ---- the list


class Row(NamedTuple):
    """A part of a row of the list: a promise, a crate, the clauses there, and their edits."""

    promise: str
    crate: str
    clauses: str
    edits: list[Edit]


def joined(front: str, names: list[str], behind: str = "") -> str:
    """Names behind what they have in common, as `Store::{get, page} · answer`."""
    inner = ", ".join(sorted(set(names)))
    return f"`{front}{{{inner}}}{behind}`" if "," in inner else f"`{front}{inner}{behind}`"


def said_of(found: list[Clause]) -> str:
    """The clauses of a row: functions with the same owner and clauses stand together."""
    names: dict[Item, list[str]] = {}
    for clause in found:
        if clause.item:
            names.setdefault(clause.item, []).append(clause.name)
    groups: dict[tuple[str, str], list[str]] = {}
    for item, own in names.items():
        front, dots, last = label(item).rpartition("::")
        if item.sort == "impl":
            front, last = last, ""
        behind = ", ".join(sorted(filter(None, own)))
        groups.setdefault((front + dots, behind and " · " + behind), []).append(last)
    return "; ".join(joined(front, lasts, behind)
                     for (front, behind), lasts in sorted(groups.items()))


@functools.lru_cache(maxsize=None)
def rows() -> list[Row]:
    """The parts of all rows of the list, in the order of the promises."""
    made: list[Row] = []
    for promise in promises():
        found = [it for it in clauses() if promise.name in it.promises]
        for crate in sorted({it.crate for it in found}):
            own = [it for it in found if it.crate == crate]
            items = {fn for it in own if it.item for fn in functions_of(it.item)}
            shown = {edit for fn in items for edit in edits_by_function().get(fn, ())}
            made.append(Row(promise.name, crate, said_of(own), sorted(shown, key=str)))
    return made


def made_list() -> str:
    """The list, with its heading."""
    cells: dict[str, list[str]] = {}
    for it in rows():
        count = f" (edits: {len(it.edits)})" if it.edits else ""
        cells.setdefault(it.promise, []).append(f"**{it.crate}**{count}: {it.clauses}")
    lines = [f"| `{name}` | {'<br>'.join(parts)} | "
             f"{', '.join(f'`{shown}`' for shown in shown_by().get(name, []))} |\n"
             for name, parts in cells.items()]
    return LIST + "\n" + HEAD + "".join(lines)


def written_list() -> str:
    """The list that PROMISES has."""
    return document()[document().find(LIST):] if LIST in document() else ""


def print_promise(name: str) -> None:
    """The clauses of a promise with their edits, and what it names."""
    for row in rows():
        if row.promise == name:
            print(f"{row.crate}: {row.clauses}")
            print("".join(f"  {edit}\n" for edit in row.edits), end="")
    for promise in promises():
        if promise.name == name:
            print("".join(f"{shown}\n" for shown in promise.shown), end="")


def main() -> int:
    assert __doc__
    parser = argparse.ArgumentParser(description=__doc__.split("\n", maxsplit=1)[0])
    parser.add_argument("promises", nargs="*", metavar="PROMISE")
    parser.add_argument("--renew", action="store_true", help="write the list into PROMISES")
    asked = parser.parse_args()
    if asked.renew:
        text = document().removesuffix(written_list()) + made_list()
        with open(os.path.join(TOP, DOCUMENT), "w", encoding="utf-8", newline="") as file:
            file.write(text)
    elif not asked.promises:
        print(made_list(), end="")
    for name in asked.promises:
        print_promise(name)
    return 0


if __name__ == "__main__":
    sys.exit(main())
