"""Expressions of ECL 2.2, the Expression Constraint Language of SNOMED CT, in its brief syntax: how
they are read, and which concepts they mean at a day and a pin."""

from collections.abc import Iterable

from ..pool import Codes
from ..store import View
from . import syntax
from .evaluation import Evaluation
from .spelling import spelled
from .terminology import Terminology

# Under which a set is remembered, beside those of reference sets.
REMEMBERED = "ecl/%s"


async def codes_of(view: View, day: str, expression: syntax.Expression) -> Codes:
    """The concepts that an expression means, ascending."""
    async def made() -> Codes:
        found = await Evaluation(Terminology(view, day)).meant(expression)
        return tuple(sorted(found, key=int))

    name = REMEMBERED % spelled(expression)
    return await view.session.recalled(view.session.pool.refsets, day, name, made)


async def those_in(view: View, day: str, expression: syntax.Expression,
                   codes: Iterable[str]) -> set[str]:
    among = frozenset(codes)
    name = REMEMBERED % spelled(expression)
    known = view.session.remembered_set(view.session.pool.refsets, day, name)
    if known is not None:
        return set(among.intersection(known))
    return set(await Evaluation(Terminology(view, day)).meant(expression, among))
