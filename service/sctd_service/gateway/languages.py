"""Languages by their tags: which reference sets say what a concept is called in them.

A tag of BCP 47, such as `en-GB`, means the reference set that DIALECTS has for it, or for the tag
without its last parts. A language alone, such as `en`, means those reference sets of the house that
are of this language, or else those of LANGUAGES. `en-x-sctlang-90000000-00005080-04` names its
reference set itself, by the digits of its SCTID in parts of up to eight. Any other language has no
reference set: a concept is shown by the descriptions that are in it. Of a list, such as
`de-CH, de, en;q=0.5`, the first language that has a term of the concept shows it, and `*` means the
languages of the house.
"""

import re
from collections.abc import Sequence

from . import limits
from .problems import invalid
from ..snomed import Language, is_concept_id

TAG = re.compile(r"([A-Za-z]{2,8})(-[A-Za-z0-9]{1,8})*\Z", re.ASCII)
# A tag of a list, or any other language, and how much it is wanted.
RANGE = re.compile(
    r"[ \t]*([A-Za-z0-9-]+|\*)[ \t]*(?:;[ \t]*q=([01](?:\.[0-9]{0,3})?)[ \t]*)?\Z", re.ASCII)
# Behind it stand the digits of a reference set.
BY_REFSET = "-x-sctlang-"
DIGITS = re.compile(r"[0-9]+(-[0-9]+)*\Z", re.ASCII)

# The reference set of each tag that isn't a language alone.
DIALECTS = {
    "en-US": "900000000000509007", "en-GB": "900000000000508004", "en-AU": "32570271000036106",
    "en-CA": "19491000087109", "en-IE": "21000220103", "en-NZ": "271000210107",
    "en-nhs-clinical": "999001261000000100", "en-nhs-pharmacy": "999000691000001104",
    "de-AT": "21000234103", "de-CH": "2041000195100", "fr-BE": "21000172104",
    "fr-CA": "20581000087109", "fr-CH": "2021000195106", "it-CH": "2031000195108",
    "nl-BE": "31000172101", "nl-NL": "31000146106", "da-DK": "554461000005103",
    "sv-SE": "46011000052107", "nb-NO": "61000202103", "nn-NO": "91000202106",
    "et-EE": "71000181105", "es-419": "450828004", "es-UY": "5641000179103", "ko-KR": "21000267104",
}
# Those of a language alone. The International Edition has its English in US spelling first.
LANGUAGES = {
    "en": ("900000000000509007", "900000000000508004"), "de": ("722130004",), "fr": ("722131000",),
    "nl": ("31000146106",), "da": ("554461000005103",), "sv": ("46011000052107",),
    "nb": ("61000202103",), "nn": ("91000202106",), "et": ("71000181105",), "es": ("448879004",),
    "ja": ("722129009",), "zh": ("722128001",), "ko": ("21000267104",),
}
# What a tag begins with whose language isn't known.
UNKNOWN = "und"
# Tags are alike whose letters differ in their case alone.
FOLDED = {tag.lower(): refset for tag, refset in DIALECTS.items()}


def language_of(tags: str, house: Sequence[str]) -> Language:
    """The language that is asked for by a list of tags, with those that are wanted if there is no
    term in it. The house prefers these reference sets."""
    found = [RANGE.match(part) for part in tags.split(",")]
    if not all(found) or len(found) > limits.LANGUAGES:
        raise invalid("displayLanguage must be languages, such as de-CH or de, en;q=0.5")
    ranges = [(one[1], float(one[2] or 1)) for one in found if one]
    ordered = sorted(ranges, key=lambda one: -one[1])
    of_house = Language("", tuple(house))
    first, *others = dict.fromkeys(
        of_house if tag == "*" else one_language_of(tag, house)
        for tag, quality in ordered if quality) or [of_house]
    return first._replace(others=tuple(others))


def one_language_of(tag: str, house: Sequence[str]) -> Language:
    found = TAG.match(tag)
    if not found:
        raise invalid("displayLanguage must be a language, such as de or de-CH")
    code, tag = found[1].lower(), tag.lower()
    _, by_refset, digits = tag.partition(BY_REFSET)
    if by_refset:
        refset = digits.replace("-", "")
        if not DIGITS.match(digits) or not is_concept_id(refset):
            raise invalid("behind x-sctlang- stand the digits of a reference set's SCTID")
        return Language(code, (refset,))
    parts = tag.split("-")
    for count in range(len(parts), 1, -1):
        if dialect := FOLDED.get("-".join(parts[:count])):
            return Language(code, (dialect,))
    known = {refset for one, refset in DIALECTS.items() if one.startswith(code + "-")}
    known.update(LANGUAGES.get(code, ()))
    own = tuple(refset for refset in house if refset in known)
    return Language(code, own or LANGUAGES.get(code, ()))


def searched_in(language: Language, house: Sequence[str]) -> frozenset[str]:
    """The languages of the terms that are searched: those of the house, and those that are asked
    for. Nothing stands for any language, as where one of the house isn't known."""
    found = {tag_of(refset).partition("-")[0] for refset in house}
    if not found or UNKNOWN in found:
        return frozenset()
    return frozenset(found.union(filter(None, (one.code for one in language.each))))


def tag_of(refset: str) -> str:
    """A tag that means a reference set: a dialect's, or else one that names it by its digits."""
    for tag, one in DIALECTS.items():
        if one == refset:
            return tag
    code = next((code for code, refsets in LANGUAGES.items() if refset in refsets), UNKNOWN)
    parts = [refset[place : place + 8] for place in range(0, len(refset), 8)]
    return code + BY_REFSET + "-".join(parts)
