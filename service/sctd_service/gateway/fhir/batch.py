"""A batch: requests of one state of the store, in a Bundle, and their answers in another."""

from http import HTTPStatus
from typing import Any, NamedTuple

from .. import limits
from ..problems import Json, Problem, invalid
from .inputs import parsed

FORM = '{"resourceType":"Bundle","type":"batch-response","entry":[%s]}'


class Entry(NamedTuple):
    """A request of a batch: its method, its address below the base, and what it sends."""

    method: str
    url: str
    resource: Any


def entries_of(body: bytes) -> list[Entry]:
    resource = parsed(body)
    if not isinstance(resource, dict) or resource.get("resourceType") != "Bundle":
        raise Problem(400, "structure", "the body isn't a resource Bundle in JSON")
    if resource.get("type") != "batch":
        raise invalid("a Bundle is answered whose type is batch")
    entries = resource.get("entry", [])
    if not isinstance(entries, list) or len(entries) > limits.BATCH_ENTRIES:
        raise invalid("a batch has %d entries at most" % limits.BATCH_ENTRIES)
    return [entry_of(one) for one in entries]


def entry_of(one: Any) -> Entry:
    request = one.get("request") if isinstance(one, dict) else None
    asked: Json = request if isinstance(request, dict) else {}
    method, url = asked.get("method"), asked.get("url")
    if not isinstance(method, str) or not isinstance(url, str):
        raise invalid("an entry of a batch has no request with method and url")
    return Entry(method, url, one.get("resource"))


def answered(resource: Json) -> Json:
    return {"resource": resource, "response": {"status": status_of(200)}}


def refused(problem: Problem) -> Json:
    return {"response": {"status": status_of(problem.status), "outcome": problem.outcome()}}


def status_of(number: int) -> str:
    return "%d %s" % (number, HTTPStatus(number).phrase)
