"""What an expression of ECL says, as a tree, in the words of its specification."""

from __future__ import annotations

from collections.abc import Awaitable, Callable, Iterator
from dataclasses import dataclass, is_dataclass
from decimal import Decimal

AND, OR, MINUS = "AND", "OR", "MINUS"
EQUAL, NOT_EQUAL = "=", "!="
# The constraint operators that have a meaning of their own.
TOP, BOTTOM = "!!>", "!!<"
# What a filter is about.
OF_CONCEPT, OF_DESCRIPTION, OF_MEMBER = "C", "D", "M"
# How a text is compared.
MATCH, WILD, EXACT = "match", "wild", "exact"
# The profiles of a history supplement.
MIN, MOD, MAX = "MIN", "MOD", "MAX"


@dataclass(frozen=True)
class Cardinality:
    """How often something holds: `most` is None where there is no limit."""

    least: int = 1
    most: int | None = None

    def allows(self, count: int) -> bool:
        return self.least <= count and (self.most is None or count <= self.most)


SOME = Cardinality()


@dataclass(frozen=True)
class ConceptReference:
    code: str


@dataclass(frozen=True)
class Wildcard:
    """`*`."""


@dataclass(frozen=True)
class Related:
    """A constraint operator, such as `<<`, and what it is said of."""

    operator: str
    of: Expression


@dataclass(frozen=True)
class MemberOf:
    """What active members of reference sets refer to, or what they have in one field."""

    refsets: Expression
    field: str = ""
    filters: tuple[Filter, ...] = ()


@dataclass(frozen=True)
class Compound:
    """Expressions with `AND`, `OR` or `MINUS` between them."""

    operator: str
    parts: tuple[Expression, ...]


@dataclass(frozen=True)
class Refined:
    focus: Expression
    refinement: Refinement


@dataclass(frozen=True)
class Dotted:
    focus: Expression
    attribute: Expression


@dataclass(frozen=True)
class Filtered:
    """An expression, and what has to hold of one description (`D`) or of the concept (`C`)."""

    focus: Expression
    about: str
    filters: tuple[Filter, ...]


@dataclass(frozen=True)
class WithHistory:
    """An expression with its history supplement: a profile, or the reference sets of another
    expression."""

    focus: Expression
    by: str | Expression


Expression = (
    ConceptReference | Wildcard | Related | MemberOf | Compound | Refined | Dotted | Filtered
    | WithHistory)


@dataclass(frozen=True)
class Concrete:
    """A value that is no concept."""


@dataclass(frozen=True)
class Number(Concrete):
    value: Decimal


@dataclass(frozen=True)
class Text(Concrete):
    """Texts, one of which has to fit, each with how it is compared: by words (`match`), as a
    pattern (`wild`), or exactly."""

    typed: tuple[tuple[str, str], ...]


@dataclass(frozen=True)
class Truth(Concrete):
    value: bool


Value = Expression | Number | Text | Truth


@dataclass(frozen=True)
class Attribute:
    cardinality: Cardinality
    is_reverse: bool
    name: Expression
    comparison: str
    value: Value


@dataclass(frozen=True)
class AttributeGroup:
    cardinality: Cardinality
    attributes: Refinement


@dataclass(frozen=True)
class Junction:
    """Refinements with `AND` or `OR` between them."""

    operator: str
    parts: tuple[Refinement, ...]


Refinement = Attribute | AttributeGroup | Junction


@dataclass(frozen=True)
class Filter:
    """The name of a filter, `=` or another comparison, and what it compares with, of which a tuple
    has words such as `fsn`, or codes. `acceptabilities` are those of a dialect, and `own` those
    that each of several dialects has for itself, if one has any."""

    name: str
    comparison: str
    value: Value | tuple[str, ...]
    acceptabilities: tuple[str, ...] = ()
    own: tuple[tuple[str, ...], ...] = ()


# Concepts by their codes, and what tells which of some concepts an expression means, or of all.
Ids = frozenset[str]
Meant = Callable[[Expression, Ids | None], Awaitable[Ids]]


def cost(e: Expression) -> int:
    """Which of several expressions is asked first. Below 2 it is found by a question or two."""
    match e:
        case ConceptReference():
            return 0
        case Related(_, ConceptReference()) | MemberOf(ConceptReference(), "", ()):
            return 1
        case Compound(_, parts):
            return max(1, *map(cost, parts))
        case Refined(focus) | Filtered(focus) | Dotted(focus):
            return max(cost(focus), 3)
        case Wildcard():
            return 4
    return 2


def named_refsets(tree: object) -> Iterator[str]:
    """The reference sets of which an expression asks the members by their ids."""
    if isinstance(tree, MemberOf) and isinstance(tree.refsets, ConceptReference):
        yield tree.refsets.code
    parts = tree if isinstance(tree, tuple) else vars(tree).values() if is_dataclass(tree) else ()
    for part in parts:
        yield from named_refsets(part)
