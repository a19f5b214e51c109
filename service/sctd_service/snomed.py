"""The words of SNOMED CT and of its release files: identifiers, days, rows and their columns."""

from __future__ import annotations

import datetime
import re
from collections.abc import Iterable, Sequence
from typing import NamedTuple

IS_A = "116680003"
FULLY_SPECIFIED_NAME = "900000000000003001"
SYNONYM = "900000000000013009"
# The type of a text definition, which is a description but no name of the concept.
TEXT_DEFINITION = "900000000000550004"
# The acceptability of a description in a language.
PREFERRED = "900000000000548007"
ACCEPTABLE = "900000000000549004"
# All reference sets, those of simple maps, and the one that says why concepts were retired.
REFERENCE_SET = "900000000000455006"
SIMPLE_MAP = "900000000000496009"
INACTIVATION_INDICATOR = "900000000000489007"
# The reference set that says what the columns of others are.
REFSET_DESCRIPTOR = "900000000000456007"
# Association reference sets.
MOVED_FROM = "900000000000525002"
MOVED_TO = "900000000000524003"
REFERS_TO = "900000000000531004"
REPLACED_BY = "900000000000526001"
SAME_AS = "900000000000527005"
POSSIBLY_EQUIVALENT_TO = "900000000000523009"
ALTERNATIVE = "900000000000530003"
POSSIBLY_REPLACED_BY = "1186921001"
PARTIALLY_EQUIVALENT_TO = "1186924009"
WAS_A = "900000000000528000"
SIMILAR_TO = "900000000000529008"
# What they are called, in the order in which people are told of them.
ASSOCIATIONS = {
    REPLACED_BY: "Replaced by", SAME_AS: "Same as",
    POSSIBLY_EQUIVALENT_TO: "Possibly equivalent to", ALTERNATIVE: "Alternative",
    MOVED_TO: "Moved to", WAS_A: "Was a", SIMILAR_TO: "Similar to",
    POSSIBLY_REPLACED_BY: "Possibly replaced by",
    PARTIALLY_EQUIVALENT_TO: "Partially equivalent to", MOVED_FROM: "Moved from",
    REFERS_TO: "Refers to"}
PRIMITIVE, DEFINED = "900000000000074008", "900000000000073002"
CASE_INSENSITIVE = "900000000000448009"
INITIAL_CASE_INSENSITIVE = "900000000000020002"

# The kinds of SCTID, by the last digit of the partition: of concepts, descriptions, relationships.
CONCEPT_ID = "0"
COMPONENT_IDS = "012"

SCTID = re.compile(r"[1-9][0-9]{5,17}\Z", re.ASCII)
DAY = re.compile(r"[0-9]{8}\Z", re.ASCII)
FIRST_YEAR = 1000


class Concept(NamedTuple):
    id: str
    time: str
    active: str
    module: str
    definition_status: str

    @property
    def is_active(self) -> bool:
        return self.active == "1"


class Description(NamedTuple):
    id: str
    time: str
    active: str
    module: str
    concept: str
    language: str
    type: str
    term: str
    case_significance: str


class Relationship(NamedTuple):
    """A row of a relationship file. The target may be a concrete value, such as `#5`."""

    id: str
    time: str
    active: str
    module: str
    source: str
    target: str
    group: str
    type: str
    characteristic: str
    modifier: str


class Association(NamedTuple):
    id: str
    time: str
    active: str
    module: str
    refset: str
    source: str
    target: str


class RefsetMember(NamedTuple):
    """A row of any other reference set, with the columns that are its own."""

    id: str
    time: str
    active: str
    module: str
    refset: str
    component: str
    further: tuple[str, ...]


class Called(NamedTuple):
    """A description that a language reference set has, and how: as PREFERRED, or ACCEPTABLE."""

    description: Description
    acceptabilities: tuple[str, ...]

    @property
    def is_preferred_term(self) -> bool:
        """Whether it names the concept, as a name preferred among its own kind alone doesn't."""
        return self.description.type == SYNONYM and PREFERRED in self.acceptabilities


class Language(NamedTuple):
    """In which language a concept is shown: that of its descriptions, nothing for any, and the
    language reference sets that say which of them is preferred, the first that has one."""

    code: str = ""
    refsets: tuple[str, ...] = ()
    others: tuple[Language, ...] = ()

    @property
    def each(self) -> tuple[Language, ...]:
        """It, and those that are wanted where there is no term in it."""
        return (self, *self.others)

    @property
    def every_refset(self) -> list[str]:
        return distinct(refset for one in self.each for refset in one.refsets)


class Facts(NamedTuple):
    """What the store says of a concept on one day. `called` has what each of the reference sets of
    a language says, and `members` is empty where it wasn't asked for."""

    concept: Concept
    descriptions: list[Description]
    relationships: list[Relationship]
    values: list[Relationship]
    called: dict[str, list[Called]]
    members: list[RefsetMember]

    def display(self, language: Language) -> str:
        for one in language.each:
            for refset in one.refsets:
                if (preferred := preferred_term(self.called[refset])) is not None:
                    return preferred
            if has_name_in(one.code, self.descriptions):
                return display_of(self.concept.id, self.descriptions, one.code)
        return display_of(self.concept.id, self.descriptions, language.code)

    @property
    def reasons(self) -> list[str]:
        return reasons_of(self.members)

    @property
    def parents(self) -> list[str]:
        return distinct(row.target for row in self.relationships if row.type == IS_A)

    @property
    def attributes(self) -> list[Relationship]:
        """The relationships that say what distinguishes the concept, those with values last."""
        return [row for row in self.relationships if row.type != IS_A] + self.values


# Verhoeff's scheme: the permutation of a digit at each place, and the product of two digits.
PERMUTATIONS = [tuple(range(10))]
for _ in range(7):
    PERMUTATIONS.append(tuple((1, 5, 7, 6, 2, 8, 3, 0, 9, 4)[digit] for digit in PERMUTATIONS[-1]))


def product(left: int, right: int) -> int:
    """The product of two symmetries of a pentagon: 0 to 4 are rotations, 5 to 9 reflections."""
    turned = (left + right) % 5 if left < 5 else (left - right) % 5
    return turned if (left < 5) == (right < 5) else 5 + turned


PRODUCTS = [[product(left, right) for right in range(10)] for left in range(10)]


def is_sctid(text: str, kind: str) -> bool:
    """Whether the text is an SCTID of this kind, with its check digit."""
    if not SCTID.match(text) or text[-3] not in "01" or text[-2] != kind:
        return False
    check = 0
    for place, digit in enumerate(reversed(text)):
        check = PRODUCTS[check][PERMUTATIONS[place % 8][int(digit)]]
    return check == 0


def is_concept_id(text: str) -> bool:
    return is_sctid(text, CONCEPT_ID)


def is_day(text: str) -> bool:
    """Whether the text is a day of the calendar in eight digits."""
    if not DAY.match(text) or int(text[:4]) < FIRST_YEAR:
        return False
    try:
        datetime.date(int(text[:4]), int(text[4:6]), int(text[6:]))
    except ValueError:
        return False
    return True


def with_hyphens(day: str) -> str:
    return "%s-%s-%s" % (day[:4], day[4:6], day[6:])


def reasons_of(members: Iterable[RefsetMember]) -> list[str]:
    """Why a concept was retired, in codes, as the reference set of the indicators has it."""
    own = (row.further[:1] for row in members if row.refset == INACTIVATION_INDICATOR)
    return distinct(value for further in own for value in further if value)


def preferred_term(called: Iterable[Called]) -> str | None:
    """The term that a language prefers, if it has one: that of the least id."""
    return next((one.description.term for one in called if one.is_preferred_term), None)


def names_of(descriptions: Iterable[Description]) -> list[Description]:
    """Those that name the concept."""
    return [row for row in descriptions if row.type != TEXT_DEFINITION]


def has_name_in(language: str, descriptions: Iterable[Description]) -> bool:
    return any(row.language == language for row in names_of(descriptions))


def display_of(code: str, descriptions: Sequence[Description], language: str = "") -> str:
    """The fully specified name, of the wanted language where there is one in it. A concept without
    one is shown by a synonym, or else by its code."""

    def order(row: Description) -> tuple[bool, bool, int]:
        other_language = row.language != (language or "en")
        return row.type != FULLY_SPECIFIED_NAME, other_language, int(row.id)

    ordered = sorted(names_of(descriptions), key=order)
    wanted = [row for row in ordered if row.language == language]
    shown = wanted or ordered
    return shown[0].term if shown else code


def is_display(text: str, descriptions: Iterable[Description]) -> bool:
    """Whether it is a name of the concept, each with the case that its description allows."""
    return any(is_written_as(text, row) for row in names_of(descriptions))


def is_written_as(text: str, row: Description) -> bool:
    if row.case_significance == CASE_INSENSITIVE:
        return row.term.casefold() == text.casefold()
    if row.case_significance == INITIAL_CASE_INSENSITIVE:
        same_initial = row.term[:1].casefold() == text[:1].casefold()
        return same_initial and row.term[1:] == text[1:]
    return row.term == text


def distinct(words: Iterable[str]) -> list[str]:
    """Each word once, in their order."""
    return list(dict.fromkeys(words))


def is_id_of_concept(component: str) -> bool:
    """Whether an SCTID that the store has checked is a concept's."""
    return component[-2:-1] == CONCEPT_ID
