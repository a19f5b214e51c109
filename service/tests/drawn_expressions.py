"""Draws expressions of ECL over the codes of drawn releases."""

import random
from collections.abc import Mapping, Sequence
from decimal import Decimal

from sctd_service.gateway.ecl import syntax as s

from .demo_members import ACCEPTABLE, GB, PREFERRED, US
from .demo_releases import CORE, DEFINED, FULLY_SPECIFIED, PRIMITIVE, SYNONYM
from .drawn_releases import ASSOCIATIONS, DAYS, MODEL, TEXT_DEFINITION, Maker

OPERATORS = ("<", "<<", "<!", "<<!", ">", ">>", ">!", ">>!", "!!>", "!!<")
EQUALITIES, ORDERS = ("=", "=", "=", "!="), ("=", "!=", "<", "<=", ">", ">=")
# What is asked of terms, by how they are compared. Some have no word that begins one.
TERMS_ASKED = {
    "match": ("a", "heart frac", "FRA", "strass", "ode", "4.5 b1", "mg", "racture", "-", "mg a"),
    "wild": ("*cu*", "fracture*", "*heart", "* of *", "STRASSE", "*", "", "f*e of h*t", "*12* mg*"),
    "exact": ("acute", "Acute", "\u00d6dem", "Odem", "B12 4.5 mg/mL", "")}
# The same of concrete values.
VALUES_ASKED = {
    "match": ("tab", "oral", "tab oral", "Tablet", "x"), "wild": ("tablet", "*t*b*", "x"),
    "exact": ("tablet", "Oral tablet", "x")}
# What none of the releases has.
ABSENT = "73211009"


class Draw:
    """Draws with one seed."""

    def __init__(self, seed: int, maker: Maker) -> None:
        self.chance, self.maker = random.Random(seed), maker

    def wide(self, depth: int) -> s.Expression:
        """An expression that has many concepts, as a rule."""
        what = self.chance.random()
        if what < 0.3:
            return s.Wildcard()
        if what < 0.5:
            return s.Related("<<", s.ConceptReference(self.maker.concepts[0]))
        if what < 0.65:
            return s.Related("<", self.concept(self.maker.concepts[:6]))
        return self.expression(depth)

    def concept(self, some: list[str] | None = None) -> s.ConceptReference:
        if some is None and self.chance.random() < 0.03:
            return s.ConceptReference(ABSENT)
        near = self.maker.concepts[: 20 if self.chance.random() < 0.4 else None]
        return s.ConceptReference(self.chance.choice(some or near))

    def expression(self, depth: int) -> s.Expression:
        what = self.chance.randrange(4 if depth <= 0 else 14)
        below = depth - 1
        if what < 2:
            return s.Wildcard() if what and self.chance.random() < 0.4 else self.concept()
        if what < 4:
            return s.Related(self.chance.choice(OPERATORS), self.concept())
        if what == 4:
            return s.Related(self.chance.choice(OPERATORS), self.expression(below))
        if what == 5:
            return self.members(below)
        if what < 8:
            operator = self.chance.choice(["AND", "OR", "MINUS"])
            count = 2 if operator == "MINUS" else self.chance.choice([2, 2, 3])
            return s.Compound(operator, tuple(self.wide(below) for _ in range(count)))
        if what == 8:
            return s.Dotted(self.wide(below), self.type(below))
        if what == 9:
            return self.filtered(below)
        if what == 10:
            return self.with_history(below)
        return s.Refined(self.wide(below), self.refinement(below, False))

    def filtered(self, depth: int) -> s.Filtered:
        about = self.chance.choice("DC")
        draw = self.description_filter if about == "D" else self.concept_filter
        count = self.chance.choice([1, 1, 2, 3])
        return s.Filtered(self.wide(depth), about, tuple(draw() for _ in range(count)))

    def with_history(self, depth: int) -> s.WithHistory:
        by: str | s.Expression = self.chance.choice(["MIN", "MOD", "MAX"])
        if self.chance.random() < 0.25:
            some = self.chance.sample(ASSOCIATIONS, 2)
            by = s.Compound("OR", tuple(s.ConceptReference(code) for code in some))
        return s.WithHistory(self.wide(depth), by)

    def members(self, depth: int) -> s.MemberOf:
        maker, what = self.maker, self.chance.random()
        refsets: s.Expression = self.concept(maker.refsets)
        if what < 0.15:
            refsets = self.concept([*ASSOCIATIONS])
        elif what < 0.25:
            some = tuple(s.ConceptReference(one) for one in maker.refsets[:2])
            refsets = s.Compound("OR", some)
        elif what < 0.3:
            refsets = self.concept([GB])
        elif what < 0.35:
            refsets = s.Wildcard()
        elif what < 0.4:
            refsets = self.expression(depth)
        field = self.chance.choice(
            "referencedComponentId targetComponentId correlationId mapCategoryId mapTarget "
            "refsetId".split()
        )
        filters = tuple(self.member_filter() for _ in range(self.chance.choice([0, 0, 1, 2])))
        return s.MemberOf(refsets, field if self.chance.random() < 0.4 else "", filters)

    def cardinality(self) -> s.Cardinality:
        if self.chance.random() < 0.6:
            return s.SOME
        least = self.chance.choice([0, 0, 1, 2])
        return s.Cardinality(least, self.chance.choice([None, least, least + 1, 3]))

    def type(self, depth: int) -> s.Expression:
        what = self.chance.random()
        if what < 0.2:
            return s.Wildcard()
        if what < 0.3:
            return self.expression(depth)
        one = self.concept(self.maker.types)
        return s.Related("<<", one) if what < 0.4 else one

    def value(self, depth: int, is_concept: bool) -> s.Value:
        what = self.chance.random()
        if is_concept or what < 0.6:
            return s.Wildcard() if self.chance.random() < 0.2 else self.wide(depth)
        if what < 0.8:
            number = self.chance.choice(["5", "0.5", "12.5", "-3", "0", "5.0", "100"])
            return s.Number(Decimal(number))
        if what > 0.95:
            return s.Truth(self.chance.random() < 0.5)
        return self.text(VALUES_ASKED)

    def text(self, asked: Mapping[str, Sequence[str]]) -> s.Text:
        """One text or two, as a rule compared in the same way."""
        hows = [self.chance.choice([*asked])] * 2
        if self.chance.random() < 0.2:
            hows = self.chance.choices([*asked], k=2)
        typed = [(how, self.chance.choice(asked[how])) for how in hows]
        return s.Text(tuple(typed[: self.chance.choice([1, 1, 2])]))

    def attribute(self, depth: int, may_be_reverse: bool) -> s.Attribute:
        is_reverse = may_be_reverse and self.chance.random() < 0.35
        value = self.value(depth, is_reverse)
        comparisons = ORDERS if isinstance(value, s.Number) else EQUALITIES
        comparison, name = self.chance.choice(comparisons), self.type(depth)
        return s.Attribute(self.cardinality(), is_reverse, name, comparison, value)

    def refinement(self, depth: int, is_grouped: bool) -> s.Refinement:
        what = self.chance.random()
        if what < 0.25:
            count = self.chance.choice([2, 2, 3])
            parts = tuple(self.refinement(depth - 1, is_grouped) for _ in range(count))
            return s.Junction(self.chance.choice(["AND", "AND", "OR"]), parts)
        if what < 0.55 and not is_grouped:
            return s.AttributeGroup(self.cardinality(), self.refinement(depth - 1, True))
        return self.attribute(depth - 1, not is_grouped)

    def one_of(self, name: str, *choices: tuple[str, ...]) -> s.Filter:
        return s.Filter(name, self.chance.choice(EQUALITIES), self.chance.choice(choices))

    def common_filter(self) -> s.Filter:
        what = self.chance.randrange(3)
        if what == 0:
            truth = s.Truth(self.chance.random() < 0.5)
            return s.Filter("active", self.chance.choice(EQUALITIES), truth)
        if what == 1:
            return self.one_of("moduleId", (CORE, MODEL), (CORE,), (MODEL,))
        day = s.Text((("match", self.chance.choice(DAYS)),))
        return s.Filter("effectiveTime", self.chance.choice(ORDERS), day)

    def concept_filter(self) -> s.Filter:
        if self.chance.random() < 0.4:
            both = (PRIMITIVE, DEFINED)
            return self.one_of("definitionStatusId", (PRIMITIVE,), (DEFINED,), both)
        return self.common_filter()

    def description_filter(self) -> s.Filter:
        what = self.chance.randrange(7)
        if what > 4:
            return self.term_filter()
        if what == 0:
            kinds = (FULLY_SPECIFIED,), (SYNONYM, TEXT_DEFINITION), (FULLY_SPECIFIED, SYNONYM)
            return self.one_of("typeId", *kinds)
        if what == 1:
            return self.one_of("language", ("en",), ("de",), ("en", "de"))
        if what > 3:
            return self.common_filter()
        found = self.one_of("dialectId", (GB,), (US,), (GB, US))
        hows: tuple[tuple[str, ...], ...] = (), (PREFERRED,), (ACCEPTABLE,), (PREFERRED, ACCEPTABLE)
        how, own = self.chance.choice(hows), tuple[tuple[str, ...], ...]()
        if isinstance(found.value, tuple) and self.chance.random() < 0.5:
            own = tuple(self.chance.choice(hows) for _ in found.value)
        own = own if any(own) else ()
        return s.Filter(found.name, found.comparison, found.value, how, own)

    def term_filter(self) -> s.Filter:
        return s.Filter("term", self.chance.choice(EQUALITIES), self.text(TERMS_ASKED))

    def member_filter(self) -> s.Filter:
        what, comparison = self.chance.randrange(6), self.chance.choice(EQUALITIES)
        if what == 0:
            text = self.chance.choice(["J45", "J45.9", "A01*", "*b*"])
            how = self.chance.choice(["match", "wild", "exact"])
            return s.Filter("mapTarget", comparison, s.Text(((how, text),)))
        if what == 1:
            number = s.Number(Decimal(self.chance.choice([1, 2, 3])))
            name = self.chance.choice(["mapPriority", "mapGroup"])
            return s.Filter(name, self.chance.choice(ORDERS), number)
        if what > 3:
            return self.common_filter()
        name = "targetComponentId" if what == 2 else "referencedComponentId"
        below = s.Related("<<", self.concept(self.maker.concepts[:10]))
        return s.Filter(name, comparison, below)
