"""What all pages have in common: the frame with its title and links, the forms, days, and tables.

Everything is made on the server, so the pages work without a script.
"""

import asyncio
import csv
import io
import re
from collections.abc import Callable, Iterable, Mapping, Sequence
from pathlib import Path
from typing import NamedTuple, TypeVar

from markupsafe import Markup

from . import limits
from .http import Headers, Response
from .markup import joined, tag, time
from .problems import invalid
from .store import Known, View
from ..snomed import is_day

Item = TypeVar("Item")
Made = TypeVar("Made")
FOLDER = Path(__file__).parent
RECORD, RECORDS, CHANGES = "/", "/records", "/changes"
# What leads to each of the pages, and the words of its form.
LINKS = {RECORD: ("./", "One record"), RECORDS: ("records", "A list of records"),
         CHANGES: ("changes", "What changed")}
WORDS = {RECORD: ("q", "date", "other", "first", "known"),
         RECORDS: ("list", "file", "format", "known"),
         CHANGES: ("concept", "from", "to", "format", "known")}
TITLE = "The record as it stood"
POLICY = (
    "default-src 'none'; script-src 'self'; style-src 'self'; connect-src 'self'; "
    "img-src data:; form-action 'self'; base-uri 'none'; frame-ancestors 'none'")
SAFE: Headers = (
    ("Cache-Control", "private, no-store"), ("Content-Security-Policy", POLICY),
    ("Cross-Origin-Resource-Policy", "same-origin"), ("Referrer-Policy", "no-referrer"),
    ("X-Content-Type-Options", "nosniff"))
# A link to a page of the same pin.
LINK = re.compile(r'href="(?:\./)?((?:changes)?\?)')
# With what a cell begins that a spreadsheet calculates, in its wide forms too, or that moves what
# is behind it into a cell of its own.
FORMULA = re.compile("[=+\\-@\t\r\n\uff1d\uff0b\uff0d\uff20]")
WITH_HYPHENS = re.compile(r"[0-9]{4}-[0-9]{2}-[0-9]{2}\Z", re.ASCII)
HTML, JSON, CSV = ("%s; charset=utf-8" % kind for kind in (
    "text/html", "application/json", "text/csv"))


def template(name: str) -> Markup:
    return Markup((FOLDER / name).read_text("utf-8"))


FRAME = template("page.html")
FORMS = {RECORD: template("form_record.html"), RECORDS: template("form_records.html"),
         CHANGES: template("form_changes.html")}
# Below a pin no day can be named: both say as of which import a page is.
KNOWN_FIELD = template("field_known.html")


class Shown(NamedTuple):
    """What a page shows, and what its title begins with."""

    title: str
    content: Markup


def framed(place: str, form: Mapping[str, str], shown: Shown, view: View | None,
           is_pinned: bool) -> Response:
    """One of the pages, with its form as it was filled in."""
    state, content = "", shown.content
    if view is not None and view.known:
        content = as_was_known(view, view.known, content)
    if view is not None:
        latest = time(view.latest) if view.latest else "no date"
        state = joined("Pin %d. The store\u2019s latest release is of " % view.pin, latest, ".")
    words = {name: form.get(name, "") for name in WORDS[place]}
    words["known"] = "" if is_pinned else KNOWN_FIELD.format(known=words["known"])
    filled = FORMS[place].format(**words)
    title = joined(" \u00b7 ".join(filter(None, (shown.title, TITLE))))
    page = FRAME.format(
        title=title, kind=LINKS[place][0].strip("./") or "record", pages=pages(place), form=filled,
        content=content, state=state)
    return Response(200, HTML, page.encode(), SAFE)


def as_was_known(view: View, known: Known, content: Markup) -> Markup:
    """What is shown of a day's knowledge, whose links lead to what was known then."""
    said = tag("p", "As it was known on ", time(known.day), ": import %d was the last one by the "
               "end of that day (UTC), made at %s." % (known.pin, known.time), class_="known")
    pinned = LINK.sub(lambda link: 'href="%s' % for_good(view, link[1]), content)
    return joined(said, Markup(pinned))


def pages(place: str) -> Markup:
    """The links to all pages, of which one is shown."""
    found = [tag("a", text, href=href, **({"aria_current": "page"} if one == place else {}))
             for one, (href, text) in LINKS.items()]
    return Markup(" ").join(found)


async def made_of(items: Sequence[Item], make: Callable[[Item], Made]) -> list[Made]:
    """What is made of each item. Other requests have their turn between slices of them."""
    found = list[Made]()
    for start in range(0, len(items), limits.SLICE_CONCEPTS):
        found += map(make, items[start : start + limits.SLICE_CONCEPTS])
        await asyncio.sleep(0)
    return found


def day_of(text: str, latest: str) -> str:
    """The day of a field, or the latest where it is empty."""
    if not text:
        return latest
    day = text.replace("-", "")
    if not WITH_HYPHENS.match(text) or not is_day(day):
        raise invalid("a date is a day of the calendar as YYYY-MM-DD")
    return day


def wants_file(form: Mapping[str, str]) -> bool:
    wanted = form.get("format", "")
    if wanted not in ("", "html", "csv"):
        raise invalid("the format is html or csv")
    return wanted == "csv"


def for_good(view: View, target: str) -> str:
    """An address below the pin, seen from one that has none."""
    return "pin/%d/%s" % (view.pin, target)


def listed(caption: str, heads: Iterable[str], body: Iterable[str]) -> Markup:
    """A table with a row for each of several records or concepts."""
    head = tag("thead", tag("tr", *(tag("th", text, scope="col") for text in heads)))
    return tag("table", tag("caption", caption), head, tag("tbody", *body), class_="listed")


def guarded(cell: str) -> str:
    """The cell as a text: an apostrophe stands before what would be calculated."""
    return "'" + cell if FORMULA.match(cell) else cell


def csv_of(name: str, head: Sequence[str], rows: Iterable[Sequence[str]]) -> Response:
    written = io.StringIO()
    writer = csv.writer(written)
    writer.writerow(head)
    writer.writerows(map(guarded, row) for row in rows)
    named = ("Content-Disposition", 'attachment; filename="%s.csv"' % name)
    return Response(200, CSV, written.getvalue().encode(), (*SAFE, named))
