"""How an answer is delivered: compressed, with a name by which a client can ask whether it still
holds, and to which other sites' pages."""

import asyncio
import gzip
import hashlib
import re
from collections.abc import Sequence

from . import limits
from .http import Headers, Request, Response

# What a client says that it takes or doesn't take.
PACKED = re.compile(
    r"(?:^|,)[ \t]*(?:gzip|x-gzip|\*)[ \t]*(?:;[ \t]*q=([0-9.]+)[ \t]*)?(?=,|$)", re.I)
# How hard the compressor tries, of nine.
PACKED_LEVEL = 2
# An answer below a pin is the same for good.
FOR_GOOD = "private, max-age=31536000, immutable"
# Any other one may be kept, and has to be asked for again.
ASKED_AGAIN = "private, no-cache"
PAGES_READ = "ETag, X-Sctd-Pin, X-Sctd-Receipt, X-Sctd-Known, Retry-After"
PREFLIGHT_SECONDS = 600


def replaced(headers: Headers, *new: tuple[str, str]) -> Headers:
    """The headers, those of the same names in their place."""
    names = [name for name, _ in new]
    return (*(one for one in headers if one[0] not in names), *new)


async def packed(request: Request, response: Response) -> Response:
    """The answer, compressed where that saves something and the client takes it."""
    if len(response.body) < limits.PACKED_BYTES:
        return response
    headers = (*response.headers, ("Vary", "Accept-Encoding"))
    wanted = PACKED.search(request.headers.get("accept-encoding", ""))
    if not wanted or wanted[1] and not wanted[1].strip("0."):
        return response._replace(headers=headers)
    if len(response.body) < limits.PACKED_APART_BYTES:
        body = gzip.compress(response.body, PACKED_LEVEL, mtime=0)
    else:
        body = await asyncio.to_thread(gzip.compress, response.body, PACKED_LEVEL, mtime=0)
    return response._replace(body=body, headers=(*headers, ("Content-Encoding", "gzip")))


def tag_of(parts: Sequence[str]) -> str:
    """The name of an answer that follows from these. (Answers with one name may differ in bytes, as
    in the time at which an expansion was made.)"""
    return 'W/"%s"' % hashlib.sha256("\0".join(parts).encode()).hexdigest()[:32]


def is_known(request: Request, tag: str) -> bool:
    """Whether the client has the answer already."""
    known = [one.strip() for one in request.headers.get("if-none-match", "").split(",")]
    return tag in known or tag.removeprefix("W/") in known


def kept(headers: Headers, tag: str, is_pinned: bool) -> Headers:
    """The headers of an answer that its client may keep."""
    lasting = FOR_GOOD if is_pinned else ASKED_AGAIN
    return replaced(headers, ("Cache-Control", lasting), ("ETag", tag))


def shared(request: Request, response: Response, origins: Sequence[str]) -> Response:
    """The answer, which a page of one of these origins may read."""
    if not origins:
        return response
    origin = request.headers.get("origin", "")
    headers = (*response.headers, ("Vary", "Origin"))
    if origin and (origin in origins or "*" in origins):
        headers = replaced(
            headers, ("Cross-Origin-Resource-Policy", "cross-origin"),
            ("Access-Control-Allow-Origin", origin), ("Access-Control-Expose-Headers", PAGES_READ))
        if request.method == "OPTIONS":
            headers += (
                ("Access-Control-Allow-Methods", "GET, HEAD, POST, OPTIONS"),
                ("Access-Control-Allow-Headers", "Accept, Content-Type, If-None-Match, Prefer"),
                ("Access-Control-Max-Age", str(PREFLIGHT_SECONDS)))
    return response._replace(headers=headers)
