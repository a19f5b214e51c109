"""FHIR R4 terminology operations, read only, as the store answers them for a day."""

from collections.abc import Awaitable, Callable
from functools import partial
from typing import NamedTuple

from ..problems import Json
from . import capabilities, expansion, implicit, lookup, subsumption, translation, validation
from .inputs import Given
from .parameters import OPERATIONS as TABLED
from .parameters import Ways, ways_of
from .versions import Edition, OperationRequest


class Operation(NamedTuple):
    """How an operation is answered, and the parameters that it takes. A read is asked by GET alone.
    A walk may ask thousands of questions."""

    answer: Callable[[OperationRequest], Awaitable[Json]]
    ways: Ways
    is_read: bool = False
    is_walk: bool = False


ANSWERS = (
    lookup.lookup, validation.validate_code, subsumption.subsumes, expansion.expand,
    validation.validate_member, translation.translate)
# What doesn't call the code system `system`.
SYSTEM_WORDS = {"CodeSystem/$validate-code": "url"}
# What stands for the id of a resource that is read.
READ = "/id"
OPERATIONS = {
    "metadata": Operation(capabilities.metadata, Ways(frozenset(["mode"])), is_read=True),
    "CodeSystem": Operation(implicit.search_systems, implicit.SYSTEM_SEARCH, is_read=True),
    **{
        kind: Operation(partial(implicit.search, kind=kind), implicit.SEARCH, is_read=True)
        for kind in implicit.FORMS},
    **{
        name: Operation(answer, ways_of(name), is_walk=name == "ValueSet/$expand")
        for name, answer in zip(TABLED, ANSWERS)},
}


def operation_at(path: str) -> str:
    """The operation that a path is for, on a resource or not, or nothing."""
    if path in OPERATIONS:
        return path
    kind, _, rest = path.partition("/")
    name, slash, what = rest.partition("/")
    if kind not in OPERATIONS or kind not in capabilities.OFFERED or not name or name[0] == "$":
        return ""
    if not slash:
        return kind + READ
    return "%s/%s" % (kind, what) if what[:1] == "$" and "%s/%s" % (kind, what) in TABLED else ""


def operation_of(path: str, edition: Edition) -> tuple[Operation, list[Given]] | None:
    """The operation that a path is for, and the parameters that the path says."""
    called = operation_at(path)
    if called in ("", path):
        return (OPERATIONS[path], []) if called else None
    kind, name, *_ = path.split("/")
    if called.endswith(READ):
        answer = partial(implicit.read, kind=kind, name=name)
        return Operation(answer, Ways(frozenset()), is_read=True), []
    word = SYSTEM_WORDS.get(called, "system")
    return OPERATIONS[called], implicit.instance(kind, name, word, edition)
