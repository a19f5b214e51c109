"""What a browser or a program posts to a page: a form, with a file or without, or a list itself."""

import re
from collections.abc import Iterator
from urllib.parse import parse_qsl

from . import limits
from .http import Request
from .problems import Problem, invalid

Pair = tuple[str, str]
FORM, MULTIPART = "application/x-www-form-urlencoded", "multipart/form-data"
TEXTS = ("text/csv", "text/plain", "text/tab-separated-values")
PARAMETER = re.compile(r';[ \t]*([\w-]+)="?([^";\s]{1,70})"?', re.ASCII)
# The name of a field of a form in parts.
NAME = re.compile(rb'^content-disposition:[ \t]*form-data;(?:[^\r]*;)?[ \t]*name="([^"\r\n]*)"',
                  re.I | re.M)
END = b"\r\n"


def pairs_of(words: str) -> list[Pair]:
    """The parameters of an address or of a form."""
    try:
        return list(parse_qsl(words, True, errors="strict", max_num_fields=limits.PARAMETERS))
    except ValueError:
        raise invalid("the query isn't UTF-8, or has too many parts") from None


def pairs_posted(request: Request) -> list[Pair]:
    """The fields of what is posted. A mark of byte order before a list is left out."""
    kind, _, more = request.headers.get("content-type", "").partition(";")
    kind, named = kind.strip().lower(), {
        name.lower(): value for name, value in PARAMETER.findall(";" + more)}
    if kind not in (FORM, MULTIPART, *TEXTS) or named.get("charset", "utf-8").lower() != "utf-8":
        raise Problem(415, "not-supported",
                      "a list is posted as a form, as text/csv or as text/plain, in UTF-8")
    if kind == FORM:
        return pairs_of(text_of(request.body))
    if kind in TEXTS:
        return [("list", text_of(request.body))]
    return list(parts_of(request.body, named.get("boundary", "")))


def text_of(data: bytes) -> str:
    try:
        return data.decode("utf-8-sig")
    except UnicodeDecodeError:
        raise invalid("the list isn't UTF-8: save it as CSV in UTF-8") from None


def parts_of(body: bytes, boundary: str) -> Iterator[Pair]:
    """The fields of a form in parts, each between two lines of the boundary."""
    before, *parts = (END + body).split(END + b"--" + boundary.encode(), limits.PARAMETERS)
    if not boundary or before or not parts or not parts.pop().startswith(b"--"):
        raise invalid("the form isn't whole")
    for part in parts:
        head, between, value = part.partition(END * 2)
        found = NAME.search(head)
        if not between or not found:
            raise invalid("a part of the form has no name")
        yield text_of(found[1]), text_of(value)
