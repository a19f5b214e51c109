"""Concepts that are searched for by words of their terms, in any order, case and marks aside."""

from collections.abc import Awaitable, Callable, Collection
from typing import NamedTuple

from .pool import Member
from ..snomed import names_of
from .store import View

# Those of some concepts among which is searched.
Among = Callable[[list[str]], Awaitable[Collection[str]]]


class Hit(NamedTuple):
    """A concept, and the shortest of its terms that was found."""

    member: Member
    term: str


class Hits(NamedTuple):
    """Concepts, each once, and whether they are all."""

    found: list[Hit]
    are_all: bool


async def searched(view: View, text: str, day: str, languages: Collection[str], most: int,
                   among: Among | None = None) -> Hits:
    """The concepts with a term of one of the languages, or of any if there are none, that has the
    words of the text: active ones first, and then those with the shortest terms. They are all, or
    else at least `most`."""
    active, inactive, told = list[Hit](), list[Hit](), set[str]()
    async for rows, are_last in view.with_words(text, day, most):
        terms = dict[str, str]()
        for row in names_of(rows):
            if row.concept not in told and (not languages or row.language in languages):
                terms.setdefault(row.concept, row.term)
        told.update(terms)
        chosen = set(await among([*terms]) if among else terms)
        for member in await view.members([code for code in terms if code in chosen], day):
            kept = active if member.is_active else inactive
            kept.append(Hit(member, terms[member.code]))
        if 0 < most <= len(active) and not are_last:
            return Hits(active, False)
    return Hits(active + inactive, True)
