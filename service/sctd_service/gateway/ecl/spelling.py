"""Spells a tree of `syntax` as an expression that is read as this tree again. So expressions that
differ in spaces, terms and comments alone are spelled alike."""

from collections.abc import Iterable, Sequence

from . import syntax as s


def spelled(e: s.Expression) -> str:
    """An expression that stands for itself."""
    match e:
        case s.Compound(operator, parts):
            return (" %s " % operator).join(map(inner, parts))
        case s.Refined(focus, refinement):
            return "%s : %s" % (inner(focus), spelled_refinement(refinement))
        case s.Dotted(focus, attribute):
            first = spelled(focus) if isinstance(focus, s.Dotted) else inner(focus)
            return "%s . %s" % (first, inner(attribute))
    return inner(e)


def inner(e: s.Expression) -> str:
    """One that stands in another: in parentheses if its parts could belong to the other."""
    match e:
        case s.Filtered(focus, about, filters):
            return "%s {{ %s %s }}" % (filtered_focus(focus), about, spelled_filters(filters))
        case s.WithHistory(focus, by):
            profile = "-" + by if isinstance(by, str) else " (%s)" % spelled(by)
            return "%s {{ + HISTORY%s }}" % (filtered_focus(focus), profile)
        case s.Related(operator, of):
            return "%s %s" % (operator, operand(of))
    return operand(e)


def filtered_focus(e: s.Expression) -> str:
    return "(%s)" % spelled(e) if isinstance(e, s.WithHistory) else inner(e)


def operand(e: s.Expression) -> str:
    match e:
        case s.ConceptReference(code):
            return code
        case s.Wildcard():
            return "*"
        case s.MemberOf(refsets, field, filters):
            is_plain = isinstance(refsets, (s.ConceptReference, s.Wildcard))
            of = operand(refsets) if is_plain else "(%s)" % spelled(refsets)
            behind = " {{ M %s }}" % spelled_filters(filters) if filters else ""
            return "^ %s%s%s" % ("[%s] " % field if field else "", of, behind)
    return "(%s)" % spelled(e)


def spelled_refinement(r: s.Refinement) -> str:
    if isinstance(r, s.Junction):
        return (" %s " % r.operator).join(
            "(%s)" % spelled_refinement(part) if isinstance(part, s.Junction)
            else spelled_refinement(part) for part in r.parts)
    least, most = r.cardinality.least, r.cardinality.most
    times = "[%d..%s] " % (least, "*" if most is None else most) if r.cardinality != s.SOME else ""
    if isinstance(r, s.AttributeGroup):
        return "%s{ %s }" % (times, spelled_refinement(r.attributes))
    reverse = "R " if r.is_reverse else ""
    return "%s%s%s %s %s" % (times, reverse, inner(r.name), r.comparison, spelled_value(r.value))


def spelled_value(value: s.Value) -> str:
    match value:
        case s.Number(number):
            return "#%s" % number
        case s.Truth(truth):
            return "true" if truth else "false"
        case s.Text(typed):
            quoted = [(how, text.replace("\\", "\\\\").replace('"', '\\"')) for how, text in typed]
            return listed(
                '%s"%s"' % ("" if how == s.MATCH else how + ":", text) for how, text in quoted)
        case _:
            return inner(value)


def listed(words: Iterable[str]) -> str:
    found = list(words)
    return found[0] if len(found) == 1 else "(%s)" % " ".join(found)


def spelled_filters(filters: Iterable[s.Filter]) -> str:
    return ", ".join(map(spelled_filter, filters))


def spelled_filter(f: s.Filter) -> str:
    if not isinstance(f.value, tuple):
        value = spelled_value(f.value)
    elif f.own:
        value = "(%s)" % " ".join(one + within(own) for one, own in zip(f.value, f.own))
    else:
        value = listed(f.value)
    return "%s %s %s%s" % (f.name, f.comparison, value, within(f.acceptabilities))


def within(acceptabilities: Sequence[str]) -> str:
    return " (%s)" % " ".join(acceptabilities) if acceptabilities else ""
