"""Resources that are there though nobody has stored them: the code system in each of its versions,
and the implicit value sets and concept maps. Their ids name them, with a day behind a dot for those
of a version: `sct.20190131`, `isa-404684003`, `map-447562003.20190131`."""

from collections.abc import Awaitable, Callable, Sequence

from ..ecl.spelling import spelled
from ..problems import Json, Problem, invalid, not_found
from ...snomed import is_concept_id, is_day
from .inputs import SCT, Given
from .parameters import Ways
from .translation import MAPS, map_of, system_of_map
from .valuesets import CONSTRAINT, FILTERS, IS, Sort, must_be_kept, value_set_of
from .versions import Edition, Moment, OperationRequest

CODE_SYSTEM, VALUE_SET, CONCEPT_MAP = "CodeSystem", "ValueSet", "ConceptMap"
CODE_SYSTEM_ID = "sct"
EXPRESSION_NAME = "SNOMED_CT_ecl"
# What stands behind the question mark of an address, by the id or by its beginning.
FORMS = {
    VALUE_SET: {
        "sct": "fhir_vs", "refset": "fhir_vs=refset", "isa-": "fhir_vs=isa/",
        "refset-": "fhir_vs=refset/"},
    CONCEPT_MAP: {"sct": "fhir_cm", "map-": "fhir_cm="},
}
# Those that are listed where none is asked for.
LISTED = {VALUE_SET: ("sct", "refset"), CONCEPT_MAP: ("sct",)}
# The searches, and what makes no difference since each answer is a summary.
SEARCH = Ways(frozenset(["url", "version", "_summary"]), frozenset(["_elements", "_count"]))
SYSTEM_SEARCH = Ways(SEARCH.taken | {"system"}, SEARCH.passed)
SUMMARIES = ("true", "false", "text", "data", "count")
# Why a resource isn't there.
MISSING = (404, 422)
OPS = {sort: op for op, sort in FILTERS.items()}


def address_of(kind: str, name: str, edition: Edition) -> tuple[str, str]:
    form, _, day = name.partition(".")
    version = edition.version(day) if day else SCT
    stem, _, code = form.rpartition("-")
    if day and not is_day(day) or "." in name and not day:
        raise not_there(kind, name)
    if kind == CODE_SYSTEM and form == CODE_SYSTEM_ID:
        return version, SCT
    forms = FORMS.get(kind, {})
    if form in forms and not form.endswith("-"):
        return version, "%s?%s" % (version, forms[form])
    if stem and is_concept_id(code) and stem + "-" in forms:
        return version, "%s?%s%s" % (version, forms[stem + "-"], code)
    raise not_there(kind, name)


def instance(kind: str, name: str, system: str, edition: Edition) -> list[Given]:
    """What the id of a resource stands for, as parameters of an operation on it. The operation
    calls the code system by its own word."""
    version, url = address_of(kind, name, edition)
    named = [("version", version)] if version != SCT else []
    return [(system, url), *named] if kind == CODE_SYSTEM else [("url", url)]


def not_there(kind: str, name: str) -> Problem:
    return not_found("there is no %s with the id %.60r" % (kind, name))


def code_system(edition: Edition, day: str, is_latest: bool) -> Json:
    version = {"version": edition.version(day)} if day else {}
    name = CODE_SYSTEM_ID if is_latest else "%s.%s" % (CODE_SYSTEM_ID, day)
    return {
        "resourceType": "CodeSystem", "id": name, "url": SCT, **version, "name": "SNOMED_CT",
        "title": "SNOMED CT, served by sctd", "status": "active", "caseSensitive": False,
        "hierarchyMeaning": "is-a", "versionNeeded": False, "content": "not-present"}


async def value_set(request: OperationRequest, address: str, version: str | None = None) -> Json:
    """The value set of an address, which has to be there."""
    found = value_set_of(address)
    asked = request.at(*found.versions, version)
    if found.sort is Sort.WITHIN:
        await asked.must_have(found.code)
    elif found.sort is Sort.IN_REFSET:
        await must_be_kept(asked, found.code)
    form = found.url.partition("?")[2].removesuffix(found.code)
    include: Json = {"system": SCT}
    if found.expression:
        one = {"property": CONSTRAINT, "op": IS, "value": spelled(found.expression)}
        # (It has no id, since an expression can't be written as one.)
        return {
            "resourceType": VALUE_SET, "url": found.url, "version": asked.moment.version,
            "name": EXPRESSION_NAME, "status": "active",
            "compose": {"include": [{**include, "filter": [one]}]}}
    if found.sort in OPS:
        include["filter"] = [{"property": "concept", "op": OPS[found.sort], "value": found.code}]
    # (That reference sets are asked for can't be said by a filter.)
    compose = {} if found.sort is Sort.ARE_REFSETS else {"compose": {"include": [include]}}
    return {**named(VALUE_SET, found.url, form, found.code, asked.moment), **compose}


async def concept_map(request: OperationRequest, address: str, version: str | None = None) -> Json:
    versions, refset = map_of(address)
    asked, url = request.at(*versions, version), address.partition("|")[0]
    if refset and refset not in MAPS:
        await system_of_map(asked, url, refset)
        await must_be_kept(asked, refset)
    form = url.partition("?")[2].removesuffix(refset)
    targets = {} if refset and refset not in MAPS else {"targetUri": SCT + "?fhir_vs"}
    return {
        **named(CONCEPT_MAP, url, form, refset, asked.moment), "sourceUri": SCT + "?fhir_vs",
        **targets}


def named(kind: str, url: str, form: str, code: str, moment: Moment) -> Json:
    """The beginning of a resource with this address."""
    stem = next(name for name, what in FORMS[kind].items() if what == form)
    name = stem + code + ("." + moment.day if "/version/" in url else "")
    words = name.replace("-", "_").replace(".", "_")
    return {
        "resourceType": kind, "id": name, "url": url, "version": moment.version,
        "name": "SNOMED_CT_" + words, "status": "active"}


MADE: dict[str, Callable[..., Awaitable[Json]]] = {VALUE_SET: value_set, CONCEPT_MAP: concept_map}


async def read(request: OperationRequest, kind: str, name: str) -> Json:
    version, address = address_of(kind, name, request.edition)
    if kind != CODE_SYSTEM:
        return await MADE[kind](request, address)
    latest = request.view.latest
    day = version.rpartition("/")[2] if version != SCT else latest
    if day != latest and day not in request.view.days:
        raise not_there(kind, name)
    return code_system(request.edition, day, version == SCT)


async def search_systems(request: OperationRequest) -> Json:
    """One code system of each version, the latest first."""
    query, edition, days = request.query, request.edition, request.view.days
    urls = [text.split(",") for name in ("url", "system") if (text := query.text(name))]
    # (Of several with commas between them one has to be it, as FHIR has searches.)
    is_here = all(SCT in [*map(query.system_of, some)] for some in urls)
    wanted = [query.canonical, (query.text("version") or "").split(",")]
    found = [
        code_system(edition, day, day == days[-1]) for day in reversed(days)
        if is_here and all(edition.version(day) in some for some in wanted if any(some))]
    return bundle(request, found)


async def search(request: OperationRequest, kind: str) -> Json:
    """The resource of an address, or those that can be listed."""
    query, found = request.query, list[Json]()
    url = query.text("url")
    listed = [address_of(kind, name, request.edition)[1] for name in LISTED[kind]]
    for address in listed if url is None else [url]:
        try:
            found.append(await MADE[kind](request, address, query.text("version")))
        except Problem as problem:
            if problem.status not in MISSING:
                raise
    return bundle(request, found)


def bundle(request: OperationRequest, found: Sequence[Json]) -> Json:
    summary = request.query.text("_summary")
    if summary not in (None, *SUMMARIES):
        raise invalid("_summary must be one of %s" % ", ".join(SUMMARIES))
    entries = [{"resource": one, "search": {"mode": "match"}} for one in found]
    listed = {"entry": entries} if entries and summary != "count" else {}
    return {"resourceType": "Bundle", "type": "searchset", "total": len(found), **listed}
