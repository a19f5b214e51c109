"""What was known on a day: a request that names a day as `known` is answered as of the last import
that the hub's list of imports says was made by the end of it (UTC).

Nothing is guessed: a day before the first import, or one that hasn't begun, is 404, as a day is of
which the store knows nothing. A list that doesn't say which import that was is 422, as a store is
that doesn't keep what an answer needs.
"""

import re
from collections.abc import Iterable
from typing import Any

from .fhir.parameters import said_in
from .frame import day_of
from .hub import HubGone, HubRefused
from .pool import Pool
from .problems import Json, conflict, invalid, not_found, not_supported
from .store import Known

# What names the day in an address or a body, and in an answer; and the header that tells of it.
NAME, SAID, HEADER = "known", "sctd-known", "X-Sctd-Known"
TOLD = re.compile(r"OK ([0-9]{1,10}) ([0-9TZ:-]{20})\Z", re.ASCII)
REFUSED = re.compile(r"ERR hub (NoImport|NotListed) (.{1,400})\Z", re.ASCII)
NO_IMPORT = "NoImport"
NO_LIST = "the hub keeps no list of imports, which says what was known on a day"


def day_in(given: Iterable[tuple[str, Any]], pin: int | None) -> str:
    days = [value for name, value in given if name == NAME]
    if not days:
        return ""
    if pin is not None:
        raise conflict("an address below a pin can't have a known day: both name a pin")
    if len(days) > 1:
        raise invalid("%s is given more than once" % NAME)
    if not isinstance(days[0], str) or not days[0]:
        raise invalid("%s must be a day as YYYY-MM-DD" % NAME)
    return day_of(days[0], "")


async def known_on(pool: Pool, day: str) -> Known | None:
    """What was known on a day; nothing where none is named."""
    if not day:
        return None
    try:
        told = TOLD.match((await pool.asked("KNOWN %s" % day))[-1])
    except HubRefused as refused:
        why = REFUSED.match(str(refused))
        if why is None:
            raise not_supported(NO_LIST) from None
        raise (not_found if why[1] == NO_IMPORT else not_supported)(why[2]) from None
    if told is None:
        raise HubGone("the hub says what isn't an import", True)
    return Known(day, int(told[1]), told[2])


def with_known(resource: Json, known: Known | None) -> Json:
    """The answer with the day as of whose knowledge it is, if its kind has a place for that."""
    if known is not None:
        said_in(resource).append({"name": SAID, "valueString": str(known)})
    return resource
