"""A second evaluator of ECL: by the definitions, concept by concept, from releases' files.

It shares the tree of an expression with the gateway and nothing else: no set that is computed as a
whole, no question of the program."""

import functools
from collections import defaultdict
from collections.abc import Iterable, Iterator
from dataclasses import is_dataclass
from decimal import Decimal
from pathlib import Path

from sctd_service.gateway.ecl import syntax as s

from .release_files import plain, words_in

IS_A = "116680003"
LETTERS = {"sct2_Concept_": "C", "sct2_Description_": "D", "sct2_TextDefinition_": "D",
           "sct2_RelationshipConcreteValues_": "V", "sct2_Relationship_": "R",
           "der2_cRefset_Association": "A", "der2_": "M"}
PROFILES = {"MIN": ["900000000000527005"],
            "MOD": ["900000000000527005", "900000000000526001", "900000000000528000", "1186924009"]}
Row = dict[str, str]
Versions = dict[tuple[str, str], list[Row]]


def rows_of(folder: Path) -> Iterator[tuple[str, Row]]:
    """Each row, by the names of its columns, with the letter of its kind."""
    for path in sorted(folder.rglob("*.txt")):
        letter = next(one for begin, one in LETTERS.items() if path.name.startswith(begin))
        first, *lines = path.read_bytes().decode().replace("\r\n", "\n").split("\n")[:-1]
        for line in lines:
            yield letter, dict(zip(first.split("\t"), line.split("\t")))


def versions_of(folders: Iterable[Path]) -> Versions:
    """All versions of each component, oldest first."""
    found: Versions = defaultdict(list)
    for folder in folders:
        for letter, row in rows_of(folder):
            found[letter, row["id"]].append(row)
    for some in found.values():
        some.sort(key=lambda row: row["effectiveTime"])
    return found


def is_concept_id(text: str) -> bool:
    return text.isdigit() and text[-3:-1] in ("00", "10")


class ByFiles:
    """What was there on a day."""

    def __init__(self, versions: Versions, day: str) -> None:
        self.all: dict[str, list[Row]] = defaultdict(list)
        for (letter, _), some in versions.items():
            if there := [row for row in some if row["effectiveTime"] <= day]:
                self.all[letter].append(there[-1])
        self.own: dict[str, list[Row]] = defaultdict(list)
        self.to: dict[str, list[Row]] = defaultdict(list)
        for row in self.active("R"):
            self.own["R" + row["sourceId"]].append(row)
            self.to[row["destinationId"]].append(row)
        for row in self.active("V"):
            self.own["V" + row["sourceId"]].append(row)
        self.concepts = {row["id"]: row for row in self.all["C"]}
        # Whatever may be in an answer.
        self.codes = set(self.concepts)
        for row in self.all["R"]:
            self.codes |= {row["sourceId"], row["destinationId"]}
        for row in self.all["A"] + self.all["M"]:
            self.codes |= {one for one in row.values() if is_concept_id(one)}

    def active(self, letter: str) -> list[Row]:
        return [row for row in self.all[letter] if row["active"] == "1"]

    @functools.cache
    def parents(self, code: str) -> frozenset[str]:
        rows = self.own["R" + code]
        return frozenset(row["destinationId"] for row in rows if row["typeId"] == IS_A)

    @functools.cache
    def above(self, code: str) -> frozenset[str]:
        """All to which a path of one step or more leads up."""
        found: set[str] = set()
        left = [code]
        while left:
            new = self.parents(left.pop()) - found
            found |= new
            left += new
        return frozenset(found)

    def answer(self, e: s.Expression) -> frozenset[str]:
        return frozenset(code for code in self.codes if self.is_in(code, e))

    @functools.cache
    def is_in(self, code: str, e: s.Expression) -> bool:
        match e:
            case s.Wildcard():
                return code in self.concepts and self.concepts[code]["active"] == "1"
            case s.ConceptReference(own):
                return code == own and code in self.concepts
            case s.Related():
                return self.is_related(code, e.operator, e.of)
            case s.Compound("AND", parts):
                return all(self.is_in(code, part) for part in parts)
            case s.Compound("OR", parts):
                return any(self.is_in(code, part) for part in parts)
            case s.Compound(_, (first, without)):
                return self.is_in(code, first) and not self.is_in(code, without)
            case s.MemberOf():
                return self.is_member(code, e)
            case s.Refined(focus, refinement):
                return self.is_in(code, focus) and self.fits(
                    code, self.attributes(code), refinement)
            case s.Dotted(focus, attribute):
                return any(row["typeId"] != IS_A and self.is_any(row["typeId"], attribute)
                           and self.is_in(row["sourceId"], focus) for row in self.to[code])
            case s.Filtered():
                return self.is_filtered(code, e)
            case s.WithHistory():
                return self.is_in(code, e.focus) or self.was(code, e)
        raise TypeError(e)

    def is_any(self, code: str, e: s.Expression) -> bool:
        return isinstance(e, s.Wildcard) or self.is_in(code, e)

    def is_related(self, code: str, operator: str, of: s.Expression) -> bool:
        others = (other for other in self.codes if self.is_in(other, of))
        if operator == "!!>":
            return self.is_in(code, of) and not any(self.is_in(a, of) for a in self.above(code))
        if operator == "!!<":
            return self.is_in(code, of) and not any(code in self.above(one) for one in others)
        if operator[:2] in ("<<", ">>") and self.is_in(code, of):
            return True
        steps = self.parents if operator.endswith("!") else self.above
        if operator[0] == "<":
            return any(self.is_in(one, of) for one in steps(code))
        return any(code in steps(other) for other in others)

    def is_member(self, code: str, e: s.MemberOf) -> bool:
        asks_active = "active" in [f.name for f in e.filters]
        return is_concept_id(code) and any(
            row.get(e.field or "referencedComponentId") == code
            and (row["active"] == "1" or asks_active) and self.is_named(row["refsetId"], e.refsets)
            and all(f.name in row and self.says(row[f.name], f) for f in e.filters)
            for row in self.all["A"] + self.all["M"])

    def asks_no_column(self, tree: object) -> bool:
        """Whether a part asks for a column of members that none of its reference sets has."""
        if isinstance(tree, s.MemberOf) and self.lacks_column(tree):
            return True
        if isinstance(tree, tuple):
            return any(map(self.asks_no_column, tree))
        return is_dataclass(tree) and any(map(self.asks_no_column, vars(tree).values()))

    def lacks_column(self, e: s.MemberOf) -> bool:
        names = {f.name for f in e.filters} | {e.field or "referencedComponentId"}
        rows = [row for row in self.all["A"] + self.all["M"]
                if (row["active"] == "1" or "active" in names)
                and self.is_named(row["refsetId"], e.refsets)]
        return bool(rows) and any(all(name not in row for row in rows) for name in names)

    def is_named(self, refset: str, e: s.Expression) -> bool:
        """A reference set that is named by its id needs no row."""
        return e == s.ConceptReference(refset) or self.is_any(refset, e)

    def was(self, code: str, e: s.WithHistory) -> bool:
        if code not in self.concepts or self.concepts[code]["active"] == "1":
            return False
        return any(
            row["referencedComponentId"] == code and self.is_in(row["targetComponentId"], e.focus)
            and self.is_of_profile(row["refsetId"], e.by) for row in self.active("A"))

    def is_of_profile(self, refset: str, by: str | s.Expression) -> bool:
        if not isinstance(by, str):
            return self.is_named(refset, by)
        return by == "MAX" or refset in PROFILES[by]

    def attributes(self, code: str) -> list[Row]:
        rows = [row for row in self.own["R" + code] if row["typeId"] != IS_A]
        return rows + self.own["V" + code]

    def fits(self, code: str, rows: list[Row], r: s.Refinement) -> bool:
        if isinstance(r, s.Junction):
            each = [self.fits(code, rows, part) for part in r.parts]
            return all(each) if r.operator == "AND" else any(each)
        if isinstance(r, s.AttributeGroup):
            count = 0
            for group in sorted({row["relationshipGroup"] for row in rows} - {"0"}):
                own = [row for row in rows if row["relationshipGroup"] == group]
                count += self.fits(code, own, r.attributes)
            return within(count, r.cardinality)
        if r.is_reverse:
            assert not isinstance(r.value, s.Concrete)
            sources = {row["sourceId"] for row in self.to[code] if row["typeId"] != IS_A
                       and self.is_any(row["typeId"], r.name)
                       and self.is_any(row["sourceId"], r.value) == (r.comparison == "=")}
            return within(len(sources), r.cardinality)
        counted = {
            (row["relationshipGroup"], row["typeId"], row.get("destinationId"), row.get("value"))
            for row in rows if self.is_any(row["typeId"], r.name) and self.has_value(row, r)}
        return within(len(counted), r.cardinality)

    def has_value(self, row: Row, r: s.Attribute) -> bool:
        value = row.get("value", "")
        match r.value:
            case s.Number(number):
                return value.startswith("#") and ordered(Decimal(value[1:]), r.comparison, number)
            case s.Text():
                is_fit = text_fits(value[1:-1], r.value)
                return value.startswith('"') and is_fit == (r.comparison == "=")
            case s.Truth(truth):
                is_fit = (value == "true") == truth
                return value in ("true", "false") and is_fit == (r.comparison == "=")
            case _:
                is_there = "destinationId" in row
                return is_there and self.is_any(row["destinationId"], r.value) == (
                    r.comparison == "=")

    def is_filtered(self, code: str, e: s.Filtered) -> bool:
        asks_active = "active" in [f.name for f in e.filters]
        if e.about == "C":
            row = self.concepts.get(code)
            is_any = isinstance(e.focus, s.Wildcard) and asks_active
            is_there = row is not None and (is_any or self.is_in(code, e.focus))
            return is_there and all(self.says(row[f.name], f) for f in e.filters if row)
        return self.is_in(code, e.focus) and any(
            row["conceptId"] == code and (asks_active or row["active"] == "1")
            and all(self.description_says(row, f) for f in e.filters) for row in self.all["D"])

    def description_says(self, row: Row, f: s.Filter) -> bool:
        if f.name == "language":
            return self.says(row["languageCode"], f)
        if f.name != "dialectId":
            return self.says(row[f.name], f)
        return (f.comparison == "=") == any(
            member["referencedComponentId"] == row["id"] and self.is_in_dialect(member, f)
            for member in self.active("M"))

    def is_in_dialect(self, member: Row, f: s.Filter) -> bool:
        """A dialect of a list counts with its own acceptabilities, or else with those of all."""
        refset, how = member["refsetId"], member.get("acceptabilityId")
        if not f.own:
            return self.is_one(refset, f) and (not f.acceptabilities or how in f.acceptabilities)
        assert isinstance(f.value, tuple)
        every = [own or f.acceptabilities for one, own in zip(f.value, f.own) if one == refset]
        return any(not some or how in some for some in every)

    def is_one(self, said: str, f: s.Filter) -> bool:
        if isinstance(f.value, tuple):
            return said in f.value
        assert not isinstance(f.value, s.Concrete)
        return said.isdigit() and self.is_in(said, f.value)

    def says(self, said: str, f: s.Filter) -> bool:
        is_equal, value = f.comparison == "=", f.value
        if isinstance(value, s.Truth):
            return ((said == "1") == value.value) == is_equal
        if isinstance(value, s.Number):
            return said.isdigit() and ordered(Decimal(said), f.comparison, value.value)
        if not isinstance(value, s.Text):
            return self.is_one(said, f) == is_equal
        if f.name != "effectiveTime":
            return text_fits(said, value) == is_equal
        if f.comparison in ("=", "!="):
            return any(said == day for _, day in value.typed) == is_equal
        return ordered(Decimal(said), f.comparison, Decimal(value.typed[0][1]))


def within(count: int, cardinality: s.Cardinality) -> bool:
    most = count if cardinality.most is None else cardinality.most
    return cardinality.least <= count <= most


def ordered(a: Decimal, sign: str, b: Decimal) -> bool:
    return {"=": a == b, "!=": a != b, "<": a < b, "<=": a <= b, ">": a > b, ">=": a >= b}[sign]


def text_fits(said: str, wanted: s.Text) -> bool:
    for how, text in wanted.typed:
        if how == "exact" and said == text:
            return True
        if how == "match" and all(
                any(word[: len(one)] == one for word in words_in(said)) for one in words_in(text)):
            return True
        if how == "wild" and is_like(plain(said), plain(text)):
            return True
    return False


def is_like(said: str, pattern: str) -> bool:
    if not pattern:
        return not said
    if pattern[0] == "*":
        return any(is_like(said[at:], pattern[1:]) for at in range(len(said) + 1))
    return said[:1] == pattern[0] and is_like(said[1:], pattern[1:])
