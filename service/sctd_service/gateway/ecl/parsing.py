"""Reads an expression of ECL as a tree of `syntax`."""

from __future__ import annotations

import functools
import re
from collections.abc import Callable, Sequence
from decimal import Decimal
from typing import Any

from lark import Lark, Token, Transformer, UnexpectedInput, UnexpectedToken, v_args
from lark.exceptions import VisitError

from . import syntax as s
from .. import limits
from ..languages import FOLDED
from ..problems import Problem, invalid, not_supported
from ...snomed import (
    ACCEPTABLE, COMPONENT_IDS, CONCEPT_ID, DEFINED, FULLY_SPECIFIED_NAME, PREFERRED, PRIMITIVE,
    SYNONYM, TEXT_DEFINITION, is_day, is_sctid)

# What a filter compares with: an expression or a list of concepts, ids of descriptions, words (some
# of which are known), a day, whether something is so, or a text.
CODES, IDS, WORDS, DAYS, TRUTHS, TEXTS = "codes", "ids", "words", "days", "truths", "texts"
# What those are that have no codes, words or days.
SORTS = {TRUTHS: s.Truth, TEXTS: s.Text}
COMMON = {"moduleId": CODES, "effectiveTime": DAYS, "active": TRUTHS}
FORMS = {
    s.OF_CONCEPT: {**COMMON, "definitionStatus": WORDS, "definitionStatusId": CODES},
    s.OF_DESCRIPTION: {
        **COMMON, "term": TEXTS, "language": WORDS, "type": WORDS, "typeId": CODES,
        "dialect": WORDS, "dialectId": CODES, "id": IDS},
    s.OF_MEMBER: COMMON,
}
# The concept that a word of a filter stands for.
KNOWN = {
    "definitionStatus": {"primitive": PRIMITIVE, "defined": DEFINED},
    "type": {"fsn": FULLY_SPECIFIED_NAME, "syn": SYNONYM, "def": TEXT_DEFINITION},
    "dialect": FOLDED,
}
ACCEPTABILITIES = {
    "prefer": PREFERRED, "preferred": PREFERRED, "accept": ACCEPTABLE, "acceptable": ACCEPTABLE}
PROFILE, WHOLE_PROFILE = "history", re.compile(r"history[-_](min|mod|max)\Z", re.I)
# What comes behind the last letter.
END = "$END"


def misspelt(place: int, why: str) -> Problem:
    """The letters are counted from 1."""
    return invalid("the expression is misspelt at letter %d: %s" % (place + 1, why))


def misspelt_at(token: Token, why: str) -> Problem:
    return misspelt(token.start_pos or 0, why)


def parse(text: str) -> s.Expression:
    must_be_shallow(text)
    try:
        tree = parser().parse(text)
    except UnexpectedInput as unexpected:
        place = unexpected.pos_in_stream
        is_at_end = isinstance(unexpected, UnexpectedToken) and unexpected.token.type == END
        if place is None or is_at_end:
            raise misspelt(len(text), "it isn't whole") from None
        raise misspelt(place, "%.40r isn't expected there" % text[place:]) from None
    try:
        found: s.Expression = Builder().transform(tree)
    except VisitError as error:
        raise error.orig_exc from None
    return found


def must_be_shallow(text: str) -> None:
    if len(text) > limits.EXPRESSION_LETTERS:
        raise invalid("an expression has %d letters at most" % limits.EXPRESSION_LETTERS)
    depth, filters = 0, 0
    for place, letter in enumerate(text):
        depth += (letter in "({") - (letter in ")}")
        filters += text.startswith("{{", place)
        if max(depth, filters) > limits.EXPRESSION_DEPTH:
            raise misspelt(place, "there are more than %d parentheses in one another, or filters"
                           % limits.EXPRESSION_DEPTH)


@functools.cache
def parser() -> Lark:
    return Lark.open("grammar.lark", __file__, parser="lalr", maybe_placeholders=False)


def joined_by(operator: str, kind: type[s.Compound] | type[s.Junction]) -> Callable[..., Any]:
    """Makes what has an operator between its parts."""
    return lambda _, *parts: kind(operator, parts)


@v_args(inline=True)
class Builder(Transformer[Token, Any]):
    """Makes the tree, from its leaves on. `others` are the places of ids that are no concept's."""

    conjunction, disjunction = joined_by(s.AND, s.Compound), joined_by(s.OR, s.Compound)
    exclusion = joined_by(s.MINUS, s.Compound)
    both, either = joined_by(s.AND, s.Junction), joined_by(s.OR, s.Junction)

    def __init__(self) -> None:
        super().__init__(visit_tokens=False)
        self.others: dict[str, Token] = {}

    def start(self, found: s.Expression) -> s.Expression:
        for token in self.others.values():
            raise misspelt_at(token, "%s isn't the id of a concept" % token)
        return found

    def concept(self, code: Token, _term: Token | None = None) -> s.ConceptReference:
        if not any(is_sctid(code, kind) for kind in COMPONENT_IDS):
            raise misspelt_at(code, "the check digit of %s is wrong" % code)
        if not is_sctid(code, CONCEPT_ID):
            self.others.setdefault(str(code), code)
        return s.ConceptReference(str(code))

    def wildcard(self) -> s.Wildcard:
        return s.Wildcard()

    def alternate(self, name: Token, _term: Token | None = None) -> s.Expression:
        raise not_supported("alternate identifiers such as %.40s aren't answered" % name)

    def related(self, operator: Token, of: s.Expression) -> s.Related:
        return s.Related(str(operator), of)

    def field(self, *names: Token) -> str:
        if len(names) != 1:
            raise not_supported("one field of a reference set is answered at a time")
        return str(names[0])

    def member_of(self, *found: Any) -> s.MemberOf:
        parts = list(found)
        field = parts.pop(0) if isinstance(parts[0], str) else ""
        filters = tuple(one for some in parts[1:] for one in checked(s.OF_MEMBER, some))
        return s.MemberOf(parts[0], field, filters)

    def refined(self, focus: s.Expression, refinement: s.Refinement) -> s.Refined:
        return s.Refined(focus, refinement)

    def dotted(self, focus: s.Expression, *attributes: s.Expression) -> s.Expression:
        if len(attributes) > limits.EXPRESSION_DEPTH:
            raise invalid("an expression has %d dots in a row at most" % limits.EXPRESSION_DEPTH)
        for attribute in attributes:
            focus = s.Dotted(focus, attribute)
        return focus

    def with_profile(self, focus: s.Expression, profile: Token) -> s.WithHistory:
        found = WHOLE_PROFILE.match(profile)
        return s.WithHistory(focus, found[1].upper() if found else s.MAX)

    def with_history(self, focus: s.Expression, profile: Token, by: s.Expression) -> s.WithHistory:
        if profile.lower() != PROFILE:
            raise misspelt_at(profile, "a profile and reference sets are given")
        return s.WithHistory(focus, by)

    def with_description(self, focus: s.Expression, filters: list[Named]) -> s.Filtered:
        return s.Filtered(focus, s.OF_DESCRIPTION, checked(s.OF_DESCRIPTION, filters, self.others))

    def with_concept(self, focus: s.Expression, filters: list[Named]) -> s.Filtered:
        return s.Filtered(focus, s.OF_CONCEPT, checked(s.OF_CONCEPT, filters))

    def filters(self, *filters: Named) -> list[Named]:
        return list(filters)

    def filter(self, name: Token, comparison: Token, wanted: Any) -> Named:
        value, within, own = wanted if isinstance(wanted, list) else (wanted, (), ())
        return name, s.Filter(str(name), str(comparison), value, within, own)

    def word(self, word: Token) -> tuple[Token, ...]:
        return (word.update(value=word.lower()),)

    def own(self, one: Token | s.ConceptReference, within: tuple[str, ...] = ()) -> Own:
        """A word or a concept of a list, with acceptabilities of its own if it has any."""
        return one.code if isinstance(one, s.ConceptReference) else self.word(one)[0], within

    def several(self, *found: Own) -> list[Any]:
        values, own = zip(*found)
        return [values, (), own if any(own) else ()]

    def one_code(self, *found: Any) -> list[Any]:
        return self.several(self.own(*found))

    def within(self, *words: Token | s.ConceptReference) -> tuple[str, ...]:
        """Acceptabilities, by their words or their concepts."""
        found = []
        for word in words:
            if not isinstance(word, s.ConceptReference) and word.lower() not in ACCEPTABILITIES:
                raise misspelt_at(word, "%.40s is no acceptability" % word)
            found.append(word.code if isinstance(word, s.ConceptReference)
                         else ACCEPTABILITIES[word.lower()])
        return tuple(found)

    def dialects(self, dialects: Any, within: tuple[str, ...]) -> list[Any]:
        value, _, own = dialects if isinstance(dialects, list) else (dialects, (), ())
        return [value, within, own]

    def group(self, *found: Any) -> s.AttributeGroup:
        *cardinality, begin, attributes = found
        if has_group(attributes):
            raise misspelt_at(begin, "a group in a group, or R in a group")
        return s.AttributeGroup(cardinality[0] if cardinality else s.SOME, attributes)

    def attribute(self, *found: Any) -> s.Attribute:
        *before, name, (comparison, value) = found
        cardinality = before.pop(0) if before and isinstance(before[0], s.Cardinality) else s.SOME
        if before and isinstance(value, s.Concrete):
            raise misspelt_at(before[0], "R, and a value that is no concept")
        return s.Attribute(cardinality, bool(before), name, comparison, value)

    def comparison(self, comparison: Token, value: s.Value) -> tuple[str, s.Value]:
        return str(comparison), value

    def cardinality(self, least: Token, most: Token | None) -> s.Cardinality:
        for number in filter(None, (least, most)):
            if not number.isdigit():
                raise misspelt_at(number, "a cardinality is of whole numbers")
        if most is not None and int(most) < int(least):
            raise misspelt_at(most, "the cardinality allows no number")
        return s.Cardinality(int(least), None if most is None else int(most))

    def most(self, most: Token | None = None) -> Token | None:
        return most

    def number(self, number: Token) -> s.Number:
        return s.Number(Decimal(str(number)))

    def truth(self, truth: Token) -> s.Truth:
        return s.Truth(truth.lower() in ("true", "1"))

    def typed(self, *found: Token) -> tuple[str, str]:
        how = found[0].rstrip(": \t\r\n").lower() if len(found) == 2 else s.MATCH
        return how, re.sub(r"\\(.)", r"\1", found[-1][1:-1])

    def texts(self, *typed: tuple[str, str]) -> s.Text:
        return s.Text(typed)


# A filter, with where its name stands; and what stands in a list, with its acceptabilities.
Named = tuple[Token, s.Filter]
Own = tuple[str, tuple[str, ...]]


def has_group(refinement: s.Refinement) -> bool:
    """Whether there is a group in it, or a reverse attribute, whose group would be another's."""
    if isinstance(refinement, s.Junction):
        return any(map(has_group, refinement.parts))
    return isinstance(refinement, s.AttributeGroup) or refinement.is_reverse


def checked(about: str, filters: Sequence[Named],
            others: dict[str, Token] | None = None) -> tuple[s.Filter, ...]:
    """The filters with their names as the specification spells them, each of which compares with
    what it may."""
    found = []
    for token, one in filters:
        names = {name.lower(): name for name in FORMS[about]}
        name = names.get(one.name.lower(), one.name)
        form = FORMS[about].get(name, "")
        if not form and about != s.OF_MEMBER:
            raise misspelt_at(token, "there is no filter %.40s" % token)
        if not is_of(form, one, others):
            raise misspelt_at(token, "%s isn't compared so" % name)
        if (one.acceptabilities or one.own) and not name.startswith("dialect"):
            raise misspelt_at(token, "%s has no acceptability" % name)
        found.append(normal(name, one, token))
    return tuple(found)


def is_of(form: str, one: s.Filter, others: dict[str, Token] | None) -> bool:
    """Whether a filter compares with what it may. (A field of a member has any form.)"""
    value, is_equality = one.value, one.comparison in (s.EQUAL, s.NOT_EQUAL)
    if form == DAYS:
        return isinstance(value, s.Text) and all(
            how == s.MATCH and is_day(text) for how, text in value.typed) and (
                is_equality or len(value.typed) == 1)
    if isinstance(value, s.Number) and not form:
        return True
    if not is_equality:
        return False
    if form in SORTS:
        return isinstance(value, SORTS[form])
    if form == WORDS:
        return isinstance(value, tuple) and not are_codes(value)
    if form == IDS:
        ids = (value.code,) if isinstance(value, s.ConceptReference) else value
        if not isinstance(ids, tuple) or not are_codes(ids):
            return False
        # They are ids of descriptions, as they should be.
        for code in ids:
            (others or {}).pop(code, None)
        return True
    if form == CODES:
        return are_codes(value) if isinstance(value, tuple) else not isinstance(value, s.Concrete)
    return not isinstance(value, tuple) or are_codes(value)


def are_codes(words: Sequence[str]) -> bool:
    return all(word.isdigit() for word in words)


def normal(name: str, one: s.Filter, token: Token) -> s.Filter:
    """The filter with codes where it may have words for them, or one code alone."""
    value = one.value
    if isinstance(value, s.ConceptReference):
        value = (value.code,)
    if name in KNOWN and isinstance(value, tuple):
        for word in value:
            if word not in KNOWN[name]:
                raise misspelt_at(token, "%.40s isn't known as a %s" % (word, name))
        name, value = name + "Id", tuple(KNOWN[name][word] for word in value)
    if isinstance(value, tuple):
        value = tuple(map(str, value))
    return s.Filter(name, one.comparison, value, one.acceptabilities, one.own)
