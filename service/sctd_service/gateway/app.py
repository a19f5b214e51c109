"""Which answer belongs to a request: FHIR below `/fhir`, the pages at `/`, and all again below
`/pin/N`, as the first N imports left the store."""

import asyncio
import contextlib
import re
import traceback
from collections.abc import AsyncIterator, Awaitable, Sequence
from urllib.parse import unquote

from prometheus_client import CONTENT_TYPE_LATEST

from .. import VERSION
from ..logs import tell
from . import delivery, http, known, limits, metrics, pages
from .fhir import Operation, batch, operation_at, operation_of
from .fhir.inputs import Given, Query, parsed, posted
from .fhir.outputs import dumped, text_in_parts, written
from .fhir.parameters import with_warnings
from .fhir.versions import Edition, OperationRequest
from .frame import FOLDER, JSON, SAFE
from .hub import NEEDS_LATER_LAYOUT, NOT_KEPT, OUT_OF_MEMORY, HubGone, HubRefused, Reply
from .pages import PAGES
from .pool import DAMAGED, UNLISTED, Pool
from .posted import pairs_of
from .problems import (
    NO_MEMBERS, NO_WORDS, Json, Problem, invalid, missing, not_found, not_now, not_supported,
    too_costly)
from .store import View

FHIR = "application/fhir+json; charset=utf-8"
VARIED: http.Headers = (*SAFE, ("Vary", "Prefer"))
FILES = {"/page.css": "text/css; charset=utf-8", "/page.js": "text/javascript; charset=utf-8"}
# What a proxy and a monitor ask: whether the gateway runs, whether the store can be asked, and how
# often what was done.
LIVE, HEALTH, METRICS = "/live", "/health", "/metrics"
PATHS = {*FILES, *PAGES, LIVE, HEALTH, METRICS}
# As what a request is counted that is for none of these, and one that couldn't be read.
OTHER, UNREAD = "other", "unread"
READS = ("GET", "HEAD")
METHODS = (*READS, "POST")
PATH = re.compile(r"(?:/pin/([0-9]{1,10}))?(/[^?#]*)\Z", re.ASCII | re.DOTALL)
# A slash that isn't one to every program.
ENCODED_SLASH = re.compile("%2f", re.I)
FHIR_PATH = re.compile(r"(/pin/[0-9]+)?/fhir(/|\?|\Z)", re.ASCII)
FHIR_BASE = "/fhir/"
# As what a batch is counted, and where it is sent to.
BATCH, BASES = "batch", ("", "/fhir")
# What a client sends that wants nothing passed over.
STRICT = re.compile(r"(?:^|[,; \t])handling[ \t]*=[ \t]*\"?strict\"?(?=$|[,; \t])", re.I)
# How answers may be asked for, all of which are FHIR's JSON.
BODIES = ("application/json", "application/fhir+json")
ACCEPTED = {"*/*", "application/*", "json", "text/json", *BODIES}
# What a client says that it doesn't take.
UNWANTED = re.compile(r";[ \t]*q=0(\.0*)?[ \t]*(;|\Z)", re.I)
# Why there is no answer, by the number of `sctd`'s refusal.
LACKING = {NEEDS_LATER_LAYOUT: NO_MEMBERS, NOT_KEPT: NO_WORDS}
# What FHIR calls a request that isn't one.
ISSUES = {408: "timeout", 413: "too-long", 415: "not-supported", 431: "too-long",
          501: "not-supported", 503: "throttled"}
# Parameters of each request that say how its answer is written, and as of which imports.
FORMAT, PRETTY = "_format", "_pretty"
OF_ALL = (FORMAT, PRETTY, known.NAME)


class App:
    """The answers to requests. `walks` are places of those that may ask thousands of questions."""

    def __init__(self, pool: Pool, edition: Edition, origins: Sequence[str] = (),
                 is_strict: bool = False) -> None:
        self.pool, self.edition, self.origins = pool, edition, origins
        self.is_strict = is_strict
        self.walks, self.metrics = asyncio.Semaphore(limits.WALKS), metrics.Metrics()
        self.files = {path: http.Response(200, kind, (FOLDER / path[1:]).read_bytes(), SAFE)
                      for path, kind in FILES.items()}

    async def answer(self, request: http.Request) -> http.Response:
        """An answer whatever happens, within the time that there is for one."""
        try:
            async with asyncio.timeout(limits.SCTD_SECONDS):
                response = await self.of_one_pin(request)
        except http.ClientLeftError:
            raise
        except Exception as error:
            response = await refused(problem_of(error), request)
        return await delivery.packed(request, delivery.shared(request, response, self.origins))

    async def of_one_pin(self, request: http.Request) -> http.Response:
        while True:
            try:
                return await self.routed(request)
            except HubGone as gone:
                if gone.fresh:
                    raise
                # The connection was of a hub that has ended; there may be another one by now.

    async def routed(self, request: http.Request) -> http.Response:
        target, _, words = request.target.partition("?")
        if request.method == "OPTIONS" and self.origins:
            return http.Response(204, "", b"", (("Allow", ", ".join(METHODS)),))
        if request.method not in METHODS:
            raise Problem(405, "not-supported", "only GET, HEAD and POST are answered", METHODS)
        # (What is behind a pin begins where every program between says that it begins.)
        found = PATH.match(target)
        if found is None or ENCODED_SLASH.search(target):
            raise not_found("there is no such path")
        pin, path = int(found[1]) if found[1] else None, unquote(found[2], errors="replace")
        if path.startswith(FHIR_BASE) or path + "/" == FHIR_BASE:
            given = pairs_of(words)
            return await self.fhir(request, pin, path.removeprefix(FHIR_BASE), given)
        if path not in PATHS:
            raise not_found("there is no such page")
        if request.method == "POST" and not (path in PAGES and PAGES[path].posted):
            raise Problem(405, "not-supported", "a page is asked for by GET", READS)
        if path in self.files:
            return self.files[path]
        if path == LIVE:
            return http.Response(200, JSON, dumped({"live": True}), SAFE)
        if path == HEALTH:
            return await self.health(pin)
        if path == METRICS:
            return await self.monitored()
        return await self.page(request, pin, path)

    @contextlib.asynccontextmanager
    async def view(self, request: http.Request, pin: int | None, day: str,
                   is_walk: bool) -> AsyncIterator[View]:
        """The store as a request sees it, at its pin or as it was known on a day. No place is given
        to a walk whose client has left while it waited for one."""
        async with contextlib.AsyncExitStack() as places:
            if is_walk:
                waits = self.walks.locked()
                await places.enter_async_context(self.walks)
                if waits and request.has_left():
                    raise http.ClientLeftError
            found = await known.known_on(self.pool, day)
            seen = self.pool.session(found.pin if found else pin)
            yield View(await places.enter_async_context(seen), found)

    async def fhir(self, request: http.Request, pin: int | None, path: str,
                   given: list[Given]) -> http.Response:
        if request.method == "POST" and path in BASES:
            return await self.batched(request, pin, given)
        found = self.found(request.method, path)
        check_format(request, given)
        sent: list[Given] = []
        if request.method == "POST":
            check_body(request)
            sent = posted(parsed(request.body))
        operation, query = self.understood(found, given, sent, self.wants_all(request))
        day = known.day_in((*given, *sent), pin)
        async with self.view(request, pin, day, operation.is_walk) as view:
            # All that the answer follows from.
            whence = (VERSION, str(self.edition), view.receipt, str(view.pin), str(view.known),
                      request.target)
            tag = None if request.method == "POST" else delivery.tag_of(whence)
            if tag and delivery.is_known(request, tag):
                return http.Response(304, "", b"", delivery.kept(VARIED, tag, pin is not None))
            response = await with_pin(view, request, self.operated(operation, view, query))
        if not tag or response.status != 200:
            return response
        kept = delivery.kept(response.headers, tag, pin is not None)
        return response._replace(headers=kept)

    def wants_all(self, request: http.Request) -> bool:
        """Whether nothing may be passed over."""
        return self.is_strict or STRICT.search(request.headers.get("prefer", "")) is not None

    def found(self, method: str, path: str) -> tuple[Operation, list[Given]]:
        """The operation of a path, and what the path says of it."""
        found = operation_of(path, self.edition)
        if found is None:
            raise Problem(404, "not-supported", "%.80r isn't answered here; see metadata" % path)
        if method == "POST" and found[0].is_read:
            raise Problem(405, "not-supported", "this is asked for by GET", READS)
        return found

    def understood(self, found: tuple[Operation, list[Given]], given: list[Given],
                   sent: list[Given], is_strict: bool) -> tuple[Operation, Query]:
        """An operation with its parameters: those of its path, of its address, and of its body."""
        operation, of_path = found
        named = [one for one in given if one[0] not in OF_ALL]
        named += [one for one in sent if one[0] != known.NAME]
        asked = [one for one in of_path if one not in named] + named
        return operation, Query(asked, operation.ways, is_strict)

    async def resource(self, operation: Operation, view: View, query: Query) -> Json:
        resource = await operation.answer(OperationRequest(self.edition, view, query))
        return known.with_known(with_warnings(resource, query.passed), view.known)

    async def operated(self, operation: Operation, view: View, query: Query) -> http.Response:
        resource = await self.resource(operation, view, query)
        return http.Response(200, FHIR, await written(resource), VARIED)

    async def batched(self, request: http.Request, pin: int | None,
                      given: list[Given]) -> http.Response:
        """The answers to several requests, all as of one pin."""
        check_format(request, given)
        check_body(request)
        entries, is_strict = batch.entries_of(request.body), self.wants_all(request)
        async with self.view(request, pin, known.day_in(given, pin), is_walk=True) as view:
            return await with_pin(view, request, self.of_batch(view, entries, is_strict))

    async def of_batch(self, view: View, entries: Sequence[batch.Entry],
                       is_strict: bool) -> http.Response:
        texts, size = list[str](), 0
        for entry in entries:
            try:
                answer = batch.answered(await self.of_entry(view, entry, is_strict))
            except (Problem, HubRefused) as error:
                answer = batch.refused(problem_of(error))
            texts.append(await text_in_parts(answer))
            size += len(texts[-1])
            if size > limits.ANSWER_BYTES:
                raise too_large()
            await asyncio.sleep(0)
        return http.Response(200, FHIR, (batch.FORM % ",".join(texts)).encode(), SAFE)

    async def of_entry(self, view: View, entry: batch.Entry, is_strict: bool) -> Json:
        if entry.method not in METHODS:
            raise Problem(405, "not-supported", "only GET, HEAD and POST are answered", METHODS)
        path, _, words = entry.url.partition("?")
        found, given = self.found(entry.method, unquote(path, errors="replace")), pairs_of(words)
        sent = posted(entry.resource) if entry.method == "POST" else []
        if known.day_in((*given, *sent), None):
            raise invalid("a batch is answered as of one pin: its own address has the known day")
        operation, query = self.understood(found, given, sent, is_strict)
        return await self.resource(operation, view, query)

    async def page(self, request: http.Request, pin: int | None, path: str) -> http.Response:
        words = await pages.words_of(path, request)
        named = [(known.NAME, words[known.NAME])] if words.get(known.NAME) else []
        day = known.day_in(named, pin)
        async with self.view(request, pin, day, PAGES[path].is_walk) as view:
            shown = pages.answered(path, self.edition, view, words, pin is not None)
            return await with_pin(view, request, shown)

    async def health(self, pin: int | None) -> http.Response:
        """Whether the store can be asked, in time whatever hangs."""
        try:
            async with asyncio.timeout(limits.HEALTH_SECONDS), self.pool.opened(pin) as session:
                view, troubles = View(session), await session.troubles()
        except (HubGone, HubRefused, TimeoutError, Problem) as error:
            problem = problem_of(error)
            return health_of(problem.status, {"problem": problem.text})
        state = {"pin": view.pin, "latest": view.latest}
        if UNLISTED in troubles:
            state["warning"] = "an import has no line in the list of imports so far"
        if DAMAGED in troubles:
            return health_of(503, {**state, "problem": "the store is damaged"})
        return health_of(200, state)

    async def monitored(self) -> http.Response:
        """What a monitor counts. Of a hub that doesn't answer in time there is nothing."""
        told: Reply = ()
        view = None
        with contextlib.suppress(HubGone, HubRefused, TimeoutError):
            async with asyncio.timeout(limits.HEALTH_SECONDS):
                told = await self.pool.asked("METRICS")
                async with self.pool.opened(None) as session:
                    view = View(session)
        return http.Response(200, CONTENT_TYPE_LATEST, self.metrics.text(view, told), SAFE)

    def count(self, request: http.Request | None, response: http.Response, seconds: float) -> None:
        operation = counted_as(request.target) if request else UNREAD
        self.metrics.answered(operation, response.status, seconds)


def health_of(status: int, state: Json) -> http.Response:
    return http.Response(status, JSON, dumped(state), safe(status))


def safe(status: int) -> http.Headers:
    return (*SAFE, ("Retry-After", str(limits.RETRY_SECONDS))) if status == 503 else SAFE


async def with_pin(view: View, request: http.Request,
                  answer: Awaitable[http.Response]) -> http.Response:
    """An answer, or its refusal, with the pin that it is of."""
    try:
        response = await answer
        if len(response.body) > limits.ANSWER_BYTES:
            raise too_large()
    except Problem as problem:
        response = await refused(problem, request)
    pin = (("X-Sctd-Pin", str(view.pin)), ("X-Sctd-Receipt", view.receipt))
    told = ((known.HEADER, str(view.known)),) if view.known else ()
    return response._replace(headers=(*response.headers, *pin, *told))


def too_large() -> Problem:
    return too_costly("the answer would have more than %d bytes: ask for fewer concepts"
                      % limits.ANSWER_BYTES)


def counted_as(target: str) -> str:
    found = PATH.match(target.partition("?")[0])
    path = unquote(found[2]).removeprefix(FHIR_BASE) if found else OTHER
    if path in BASES:
        return BATCH
    return path if path in PATHS else operation_at(path) or OTHER


def check_format(request: http.Request, given: list[Given]) -> None:
    """Refuses a request that takes no JSON. A `+` in an address is a space, also of `fhir+json`."""
    formats = [value.replace(" ", "+") for name, value in given if name == FORMAT]
    if len(formats) > 1:
        raise invalid("%s is given more than once" % FORMAT)
    accepted = formats[0] if formats else request.headers.get("accept") or "*/*"
    wanted = [kind for kind in accepted.split(",") if not UNWANTED.search(kind)]
    if not ACCEPTED.intersection(kind.partition(";")[0].strip().lower() for kind in wanted):
        raise Problem(406, "not-supported", "answers are JSON only")


def check_body(request: http.Request) -> None:
    kind = request.headers.get("content-type", "").partition(";")[0].strip().lower()
    if kind not in BODIES:
        raise Problem(415, "not-supported", "a body must be application/fhir+json")
    if not request.body:
        raise missing("the body is missing")


def problem_of(error: Exception) -> Problem:
    """What a client is told of an error. A fault of the gateway or of `sctd` is logged."""
    if isinstance(error, Problem):
        return error
    if isinstance(error, (HubGone, TimeoutError)):
        why = str(error) or "it is busy, perhaps with an import"
        return not_now("the terminology can't be asked at the moment: %s" % why)
    if isinstance(error, HubRefused):
        if error.number in LACKING:
            return not_supported(LACKING[error.number])
        tell("sctd-gateway: the hub said %s" % error)
        return Problem(503 if error.number == OUT_OF_MEMORY else 500, "exception", str(error))
    tell("".join(traceback.format_exception(error)).rstrip("\n"))
    return Problem(500, "exception", "the gateway has a fault; its log says which")


async def refused(problem: Problem, request: http.Request) -> http.Response:
    """A refusal in the form in which there would have been an answer."""
    if FHIR_PATH.match(request.target):
        return refusal(problem)
    found = PATH.match(request.target.partition("?")[0])
    path, is_pinned = (unquote(found[2]), found[1] is not None) if found else ("", False)
    page = await pages.refused(path, request, problem.text, is_pinned)
    return page._replace(status=problem.status, headers=headers_of(problem))


def refusal(problem: Problem) -> http.Response:
    return http.Response(problem.status, FHIR, dumped(problem.outcome()), headers_of(problem))


def headers_of(problem: Problem) -> http.Headers:
    methods = (("Allow", ", ".join(problem.methods)),) if problem.methods else ()
    return (*safe(problem.status), *methods)


def refused_request(status: int, text: str) -> http.Response:
    """The answer to what isn't a request. Who sent it is a program, whatever it wanted."""
    return refusal(Problem(status, ISSUES.get(status, "invalid"), text))
