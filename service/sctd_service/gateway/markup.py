"""The pages' markup, of which MarkupSafe escapes each text that isn't markup itself."""

import calendar
import re
import unicodedata
from urllib.parse import urlencode

from markupsafe import Markup

from ..snomed import with_hyphens

NOT_PLAIN = re.compile("[^\x20-\x7e]")
# Controls, formats such as those that turn a text around, line ends, halves of characters, and
# characters that nobody has assigned.
UNSEEN = ("Cc", "Cf", "Zl", "Zp", "Cs", "Co", "Cn")


def joined(*parts: str) -> Markup:
    return Markup().join(part if isinstance(part, Markup) else visible(part) for part in parts)


def tag(name: str, *inner: str, **attributes: str) -> Markup:
    """An element. `class_` and `for_` are the attributes `class` and `for`."""
    words = Markup().join(Markup(' %s="%s"') % (key.strip("_").replace("_", "-"), value)
                          for key, value in attributes.items())
    return Markup("<%s%s>%s</%s>") % (name, words, joined(*inner), name)


def visible(text: str) -> str:
    """The text with each character that can't be seen told by its number."""
    return NOT_PLAIN.sub(shown, text)


def shown(found: re.Match[str]) -> str:
    is_unseen = unicodedata.category(found[0]) in UNSEEN
    return "\u2039U+%04X\u203a" % ord(found[0]) if is_unseen else found[0]


def term(text: str, language: str = "") -> Markup:
    """A text of the store, which may be written from right to left."""
    return tag("bdi", text, lang=language) if language else tag("bdi", text)


def aside(*inner: str) -> Markup:
    return tag("span", *inner, class_="aside")


def verdict(*inner: str) -> Markup:
    return tag("p", *inner, class_="verdict")


def spoken(day: str) -> str:
    return "%d %s %s" % (int(day[6:]), calendar.month_name[int(day[4:6])], day[:4])


def time(day: str) -> Markup:
    return tag("time", spoken(day), datetime=with_hyphens(day))


def address(**words: str) -> str:
    return "?" + urlencode({name: word for name, word in words.items() if word})
