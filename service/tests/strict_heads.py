"""A strict reader of heads that shares nothing with h11: what is out of the ordinary is None."""

import re
from typing import NamedTuple

from sctd_service.gateway import limits

TOKEN = re.compile(r"[!#$%&'*+.^_`|~0-9A-Za-z-]+\Z")
CONTROL = re.compile(r"[\x00-\x08\x0a-\x1f\x7f]")
# A path, perhaps behind a scheme and a host.
TARGET = re.compile(r"(?:[Hh][Tt][Tt][Pp][Ss]?://[^/?#\x00-\x20\x7f]+)?(/[!-~]*)\Z")
SINGLE = ("host", "content-length", "transfer-encoding", "content-type", "expect")
WITH_BODY = ("POST", "PUT", "PATCH")
CHUNKS = -1


class Head(NamedTuple):
    """`length` is that of the body, or CHUNKS."""

    method: str
    target: str
    stays: bool
    headers: dict[str, list[str]]
    length: int


def strictly_read(data: bytes) -> Head | None:
    """The head, which ends with an empty line."""
    try:
        lines = data.decode("ascii").removesuffix("\r\n\r\n").split("\r\n")
    except UnicodeDecodeError:
        return None
    words = lines[0].split(" ")
    if any(map(CONTROL.search, lines)) or len(words) != 3 or not TOKEN.match(words[0]):
        return None
    target = TARGET.match(words[1])
    if words[2] not in ("HTTP/1.0", "HTTP/1.1") or not target:
        return None
    headers = headers_of(lines[1:])
    if headers is None or ("host" not in headers and words[2] == "HTTP/1.1"):
        return None
    length = length_of(words[0], words[2], headers)
    if length is None:
        return None
    closes = "close" in ",".join(headers.get("connection", [])).lower().replace(" ", "").split(",")
    return Head(words[0], target[1], words[2] == "HTTP/1.1" and not closes, headers, length)


def headers_of(lines: list[str]) -> dict[str, list[str]] | None:
    found: dict[str, list[str]] = {}
    for line in lines:
        name, colon, value = line.partition(":")
        if not colon or not TOKEN.match(name):
            return None
        found.setdefault(name.lower(), []).append(value.strip(" \t"))
    return None if any(len(found.get(name, [])) > 1 for name in SINGLE) else found


def length_of(method: str, version: str, headers: dict[str, list[str]]) -> int | None:
    if "content-encoding" in headers:
        return None
    coding, length = headers.get("transfer-encoding"), headers.get("content-length")
    if coding:
        is_plain = coding[0].lower() == "chunked" and not length and version == "HTTP/1.1"
        return CHUNKS if is_plain else None
    if not length:
        return None if method in WITH_BODY else 0
    is_number = re.fullmatch(r"[0-9]{1,12}", length[0], re.ASCII)
    return int(length[0]) if is_number and int(length[0]) <= limits.BODY_BYTES else None
