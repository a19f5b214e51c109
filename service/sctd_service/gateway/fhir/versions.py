"""What one operation is asked, of which state of the store, and which day its answer is of.

A version of SNOMED CT is `http://snomed.info/sct/EDITION/version/YYYYMMDD`. The day that is asked
for is that of the version, a release's or not, or the parameter `date`; with neither it is the
latest day of the store. An answer is of the release in force on it, the greatest day of the store
up to it, and says so in its version. Nothing is guessed: another edition, a day before the first of
the store, one after the latest under the name of a version, and days of two releases are refused.
"""

import re
from collections.abc import Iterable, Mapping
from dataclasses import dataclass
from types import MappingProxyType
from typing import NamedTuple

from ..languages import language_of
from ..problems import Problem, conflict, invalid, not_found
from ...snomed import Facts, Language, is_day
from ..store import View
from .inputs import SCT, Query

VERSION = re.compile(r"http://snomed\.info/sct(?:/([0-9]+)(?:/version/([0-9]+))?)?\Z", re.ASCII)
# A date of FHIR that has a day, with or without a time. The last second of a minute may be a 61st.
DATE = re.compile(
    r"([0-9]{4})-([0-9]{2})-([0-9]{2})"
    r"(T([01][0-9]|2[0-3]):[0-5][0-9](:([0-5][0-9]|60)(\.[0-9]+)?)?"
    r"(Z|[+-]((0[0-9]|1[0-3]):[0-5][0-9]|14:00))?)?\Z", re.ASCII)
NOTHING_KNOWN = "the store knows nothing of the day %s: its first is %s"


class Moment(NamedTuple):
    """The day of the release that an answer is of, its version, and the day that was asked for, if
    one was."""

    day: str
    version: str
    asked: str = ""


class Edition(NamedTuple):
    """The edition that the store holds, by its module, and what else rows don't say: the language
    reference sets that its house prefers, in their order, and the code systems of its maps."""

    module: str
    languages: tuple[str, ...] = ()
    maps: Mapping[str, str] = MappingProxyType({})

    def version(self, day: str) -> str:
        return "%s/%s/version/%s" % (SCT, self.module, day)

    def day_of(self, version: str, latest: str) -> str | None:
        """The day that a version names; None where it names none."""
        found = VERSION.match(version)
        if not found:
            raise invalid(
                "the version %.100r isn't of the form %s" % (version, self.version("YYYYMMDD")))
        module, day = found.groups()
        if module is not None and module != self.module:
            raise not_found(
                "the edition %.20s isn't in this store, which has %s" % (module, self.module))
        if day is None:
            return None
        if not is_day(day):
            raise invalid("%.20s isn't a day of the calendar" % day)
        if day > latest:
            raise not_found("version %s isn't in this store, whose latest is %s"
                            % (day, latest or "none, since it is empty"))
        return str(day)

    def moment(self, view: View, versions: Iterable[str | None], date: str | None = None) -> Moment:
        """The moment that the versions and the date of a record name together."""
        found = (self.day_of(version, view.latest) for version in versions if version)
        days = [day for day in found if day]
        if date is not None:
            # Of later days the store knows nothing yet, and the version of the answer says so.
            days.append(day_of_record(date))
        if not view.latest:
            raise not_found("the store holds no release")
        releases = {view.in_force(day) for day in days} or {view.latest}
        if "" in releases:
            raise not_found(NOTHING_KNOWN % (min(days), view.days[0]))
        if len(releases) > 1:
            what = "the versions are" if date is None else "the date %s and the version are" % date
            raise conflict("%s of different releases" % what)
        release = releases.pop()
        return Moment(release, self.version(release), days[-1] if days else "")


def day_of_record(date: str) -> str:
    found = DATE.match(date)
    day = "".join(found.groups()[:3]) if found else ""
    if not is_day(day):
        raise invalid(
            "date must be a day of the calendar as YYYY-MM-DD, since an answer is of one day")
    return day


@dataclass
class OperationRequest:
    """An operation's parameters, the store as the request sees it, and the store's edition."""

    edition: Edition
    view: View
    query: Query

    def at(self, *versions: str | None) -> "Dated":
        """The request with its moment; `date` is that of the record where it is taken."""
        named = [*versions, *self.query.canonical]
        moment = self.edition.moment(self.view, named, self.query.text("date"))
        return Dated(self.edition, self.view, self.query, moment)

    def language(self) -> Language:
        """The language of `displayLanguage`, which HAPI calls `language`, or those of the house
        where none is given."""
        tag = self.query.text("displayLanguage") or self.query.text("language")
        house = self.edition.languages
        return Language("", house) if tag is None else language_of(tag, house)


@dataclass
class Dated(OperationRequest):
    """A request whose answer is of a moment."""

    moment: Moment

    @property
    def day(self) -> str:
        return self.moment.day

    async def facts(self, code: str, language: Language, with_members: bool) -> Facts:
        """What is said of a code that has to be there."""
        found = await self.view.facts(code, self.day, language, with_members)
        if found is None:
            raise self.not_there(code)
        return found

    async def must_have(self, code: str) -> None:
        if not await self.view.has(code, self.day):
            raise self.not_there(code)

    def not_there(self, code: str) -> Problem:
        why = "; expressions aren't read" if ":" in code else ""
        return not_found("the code %.60r isn't in %s%s" % (code, self.moment.version, why))
