"""A release's own files, read without the program: what they say of a day. Those of a package have
text definitions, and members (M) of all reference sets but those of associations."""

import functools
import unicodedata
from collections.abc import Iterable
from pathlib import Path
from typing import NamedTuple

IS_A, FULLY_SPECIFIED, DEFINED = "116680003", "900000000000003001", "900000000000073002"
SYNONYM, TEXT_DEFINITION = "900000000000013009", "900000000000550004"
PREFERRED = "900000000000548007"
FILES = {
    "C": ["Terminology/sct2_Concept_*"],
    "D": ["Terminology/sct2_Description_*", "Terminology/sct2_TextDefinition_*"],
    "R": ["Terminology/sct2_Relationship_*"],
    "V": ["Terminology/sct2_RelationshipConcreteValues_*"],
    "A": ["Refset/Content/der2_cRefset_Association*"],
    "M": ["Terminology/sct2_*Refset_*", "Refset/*/der2_*Refset_*"]}
# The column that says which component a row is about.
ABOUT = {"D": 4, "R": 4, "V": 4, "A": 5, "M": 5}
# Those of a member: its reference set, and the first of its own.
REFSET, REFERENCED, FURTHER = 4, 5, 6

Row = list[str]


class Rows(NamedTuple):
    """The rows of a release by their kinds."""

    by_kind: dict[str, list[Row]]

    def days(self) -> list[str]:
        return sorted({row[1] for rows in self.by_kind.values() for row in rows})

    def concepts(self) -> list[str]:
        return sorted({row[0] for row in self.by_kind["C"]})


class Snapshot:
    """Of each component the latest row by a day, and the active rows about each concept."""

    def __init__(self, rows: Rows, day: str) -> None:
        self.day = day
        self.about: dict[str, dict[str, list[Row]]] = {kind: {} for kind in ABOUT}
        for kind, column in ABOUT.items():
            for row in latest(rows.by_kind[kind], day).values():
                if row[2] == "1":
                    self.about[kind].setdefault(row[column], []).append(row)
        self.concepts = latest(rows.by_kind["C"], day)
        self.described = sorted(self.about["D"])
        self.above = self.all_above()
        self.below: dict[str, set[str]] = {}
        for code, above in self.above.items():
            for one in above:
                self.below.setdefault(one, set()).add(code)

    def parents(self, code: str) -> set[str]:
        return {row[5] for row in self.about["R"].get(code, []) if row[7] == IS_A}

    def all_above(self) -> dict[str, set[str]]:
        """Of each concept itself and all that can be reached upwards."""
        found = {}
        for code in self.concepts:
            seen, turn = {code}, [code]
            while turn:
                new = self.parents(turn.pop()) - seen
                seen |= new
                turn += new
            found[code] = seen
        return found

    def within(self, top: str) -> set[str]:
        return self.below.get(top, set()) | {top}

    def terms(self, code: str) -> list[Row]:
        return self.about["D"].get(code, [])

    def names(self, code: str) -> list[Row]:
        return [row for row in self.terms(code) if row[6] != TEXT_DEFINITION]

    @functools.cached_property
    def names_by_word(self) -> dict[str, list[Row]]:
        """The names of concepts, by each of their words."""
        found: dict[str, list[Row]] = {}
        for code in self.described:
            for row in self.names(code):
                for word in set(words_in(row[7])):
                    found.setdefault(word, []).append(row)
        return found

    def with_words(self, text: str) -> list[Row]:
        """The names in which for each word of a text a word begins with it, the shortest first."""
        found: dict[str, Row] | None = None
        for wanted in words_in(text):
            own = {row[0]: row for word, rows in self.names_by_word.items()
                   if word.startswith(wanted) for row in rows}
            found = {name: row for name, row in own.items() if found is None or name in found}
        return sorted((found or {}).values(), key=lambda row: (len(row[7]), int(row[0])))

    def members(self, refset: str, component: str) -> list[Row]:
        """The active members of a reference set that refer to a component, by their ids."""
        found = [row for row in self.about["M"].get(component, []) if row[REFSET] == refset]
        return sorted(found, key=lambda row: row[0])

    def referred(self, refset: str) -> set[str]:
        """What the active members of a reference set refer to."""
        every = (row for rows in self.about["M"].values() for row in rows)
        return {row[REFERENCED] for row in every if row[REFSET] == refset}

    def preferred(self, code: str, refset: str) -> list[str]:
        """The synonyms that a language prefers, by their ids."""
        synonyms = sorted(
            (row for row in self.terms(code) if row[6] == SYNONYM), key=lambda row: int(row[0]))
        return [row[7] for row in synonyms
                if any(one[FURTHER] == PREFERRED for one in self.members(refset, row[0]))]


def plain(text: str) -> str:
    """Without case, and without the marks that letters may bear."""
    apart = unicodedata.normalize("NFD", text.casefold())
    return "".join(letter for letter in apart if unicodedata.category(letter)[0] != "M")


def words_in(text: str) -> list[str]:
    """The longest runs of letters and digits."""
    return "".join(letter if letter.isalnum() else " " for letter in plain(text)).split()


def latest(rows: Iterable[Row], day: str) -> dict[str, Row]:
    found: dict[str, Row] = {}
    for row in rows:
        if row[1] <= day and (row[0] not in found or found[row[0]][1] < row[1]):
            found[row[0]] = row
    return found


def read(*folders: Path) -> Rows:
    """The rows of all releases in these folders, each of which has Terminology and Refset."""
    found: dict[str, list[Row]] = {kind: [] for kind in FILES}
    every = [(kind, one, pattern) for kind in FILES for one in folders for pattern in FILES[kind]]
    for kind, folder, pattern in every:
        for path in sorted(folder.glob(pattern)):
            if kind == "M" and "der2_cRefset_Association" in path.name:
                continue
            lines = path.read_bytes().decode().split("\n")[1:]
            found[kind] += [line.rstrip("\r").split("\t") for line in lines if line]
    return Rows(found)
