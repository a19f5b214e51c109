"""Which pages there are, the words that each knows, and how each is answered."""

import asyncio
import contextlib
import math
from collections.abc import Awaitable, Callable, Mapping, Sequence
from typing import NamedTuple

from . import limits, page, page_changes, page_records
from .fhir.versions import Edition
from .frame import CHANGES, RECORD, RECORDS, WORDS, Shown, framed
from .http import Request, Response
from .markup import tag
from .posted import pairs_of, pairs_posted
from .problems import Problem, invalid
from .store import View

# What a page shows, or else a file.
Answering = Callable[[Edition, View, dict[str, str], bool], Awaitable[Shown | Response]]


class Page(NamedTuple):
    """A page: the words of its address and of what is posted to it, how it is answered, which may
    take a place of a walk, and how many questions that may ask of `sctd`."""

    answer: Answering
    words: Sequence[str]
    posted: Sequence[str] = ()
    is_walk: bool = True
    questions: float = math.inf


PAGES: Mapping[str, Page] = {
    RECORD: Page(page.answer, WORDS[RECORD]),
    "/suggest": Page(page.suggest, ("text", "date"), is_walk=False),
    CHANGES: Page(page_changes.answer, WORDS[CHANGES], questions=limits.CHANGES_QUESTIONS),
    RECORDS: Page(page_records.answer, ("known",), WORDS[RECORDS],
                  questions=limits.RECORDS_QUESTIONS),
}


async def words_of(path: str, request: Request) -> dict[str, str]:
    is_post = request.method == "POST"
    known = PAGES[path].posted if is_post else PAGES[path].words
    pairs = pairs_of(request.target.partition("?")[2])
    if is_post:
        # (A large form takes a while, in which others have their turn.)
        pairs += await asyncio.to_thread(pairs_posted, request)
    words = {name: value.strip() for name, value in pairs}
    if len(words) < len(pairs) or not words.keys() <= set(known):
        raise invalid("a word of the address isn't known, or stands twice")
    return words


async def answered(path: str, edition: Edition, view: View, words: dict[str, str],
                   is_pinned: bool) -> Response:
    view.session.most = PAGES[path].questions
    found = await PAGES[path].answer(edition, view, words, is_pinned)
    return framed(path, words, found, view, is_pinned) if isinstance(found, Shown) else found


async def refused(path: str, request: Request, text: str, is_pinned: bool) -> Response:
    """A refusal, which keeps what was filled in as far as that can be read."""
    content = tag("p", "Refused: ", text, class_="verdict", role="alert")
    pairs = list[tuple[str, str]]()
    with contextlib.suppress(Problem):
        pairs += pairs_of(request.target.partition("?")[2])
        if request.method == "POST" and path in PAGES and PAGES[path].posted:
            pairs += await asyncio.to_thread(pairs_posted, request)
    place = path if path in WORDS else RECORD
    return framed(place, dict(pairs), Shown("Refused", content), None, is_pinned)
