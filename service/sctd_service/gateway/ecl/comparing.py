"""When a text, a number or a day fits what an expression compares it with."""

import operator
import re
import unicodedata
from collections.abc import Callable
from decimal import Decimal
from typing import Any

from . import syntax as s

# Letters of Unicode that Python doesn't count as such; a word, which is a longest run of letters
# and digits; and the words of a pattern that begin where a word of what fits it does.
FURTHER = "\u24b6-\u24e9\U0001f130-\U0001f149\U0001f150-\U0001f169\U0001f170-\U0001f189"
WORD = re.compile(r"(?:[^\W_]|[%s])+" % FURTHER)
WHOLE = re.compile(r"(?<![\w*%s])%s" % (FURTHER, WORD.pattern))
NUMBER = re.compile(r"[+-]?[0-9]+(\.[0-9]+)?\Z", re.ASCII)
ANY_LETTERS = "*"
ORDERS: dict[str, Callable[[Any, Any], bool]] = {
    "=": operator.eq, "!=": operator.ne, "<": operator.lt, "<=": operator.le, ">": operator.gt,
    ">=": operator.ge}
# A concrete value that is a truth, as a release writes it.
TRUTHS = {True: "true", False: "false"}


def folded(text: str) -> str:
    """Without case, and without the marks that letters may bear."""
    letters = unicodedata.normalize("NFD", text.casefold())
    return "".join(one for one in letters if unicodedata.category(one)[0] != "M")


def words_of(text: str) -> list[str]:
    return WORD.findall(folded(text))


def words_asked(wanted: s.Text) -> list[str]:
    """Of each of the texts the words that begin words of whatever fits it."""
    return [" ".join((WHOLE if how == s.WILD else WORD).findall(folded(text)))
            for how, text in wanted.typed]


def begins_all(wanted: str, text: str) -> bool:
    """Whether for each wanted word the text has a word that begins with it."""
    own = words_of(text)
    return all(any(word.startswith(one) for word in own) for one in words_of(wanted))


def fits_pattern(pattern: str, text: str) -> bool:
    """Whether the whole text fits, where `*` stands for any letters."""
    first, *middle = folded(pattern).split(ANY_LETTERS)
    text = folded(text)
    if not middle:
        return text == first
    last, place = middle.pop(), len(first)
    if not text.startswith(first) or len(text) < len(first) + len(last):
        return False
    end = len(text) - len(last)
    for part in middle:
        found = text.find(part, place, end)
        if found < 0:
            return False
        place = found + len(part)
    return text.endswith(last)


FITS: dict[str, Callable[[str, str], bool]] = {
    s.MATCH: begins_all, s.WILD: fits_pattern, s.EXACT: operator.eq}


def fits_text(wanted: s.Text, text: str) -> bool:
    return any(FITS[how](one, text) for how, one in wanted.typed)


def fits_number(said: str, comparison: str, wanted: s.Number) -> bool:
    return NUMBER.match(said) is not None and ORDERS[comparison](Decimal(said), wanted.value)


def fits_day(said: str, comparison: str, wanted: s.Text) -> bool:
    """Days are eight digits each, and are in the order of time."""
    days = [day for _, day in wanted.typed]
    if comparison in (s.EQUAL, s.NOT_EQUAL):
        return (said in days) == (comparison == s.EQUAL)
    return ORDERS[comparison](said, days[0])


def fits_concrete(said: str, comparison: str, wanted: s.Number | s.Text | s.Truth) -> bool:
    """Whether a concrete value, as a release writes it, fits. One of another kind never does."""
    is_equality = comparison == s.EQUAL
    if isinstance(wanted, s.Number):
        return said[:1] == "#" and fits_number(said[1:], comparison, wanted)
    if isinstance(wanted, s.Text):
        is_text = len(said) > 1 and said[0] == said[-1] == '"'
        return is_text and fits_text(wanted, said[1:-1]) == is_equality
    return said in TRUTHS.values() and (said == TRUTHS[wanted.value]) == is_equality
