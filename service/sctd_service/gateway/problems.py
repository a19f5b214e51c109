"""A request that isn't answered, as the program of a client and a person are told."""

from collections.abc import Iterable
from functools import partial
from typing import Any

Json = dict[str, Any]


class Problem(Exception):
    """An HTTP status, an issue type of FHIR, and a text for people. With 405 it says by which
    methods there is an answer."""

    def __init__(self, status: int, code: str, text: str, methods: tuple[str, ...] = ()) -> None:
        super().__init__(text)
        self.status, self.code, self.text, self.methods = status, code, text, methods

    def outcome(self) -> Json:
        return outcome_of("error", self.code, [self.text])


def outcome_of(severity: str, code: str, texts: Iterable[str]) -> Json:
    issues = [{"severity": severity, "code": code, "diagnostics": text, "details": {"text": text}}
              for text in texts]
    return {"resourceType": "OperationOutcome", "issue": issues}


# The usual ones, of which only the text is to be said.
invalid = partial(Problem, 400, "invalid")
missing = partial(Problem, 400, "required")
conflict = partial(Problem, 400, "conflict")
unknown = partial(Problem, 400, "not-supported")
not_found = partial(Problem, 404, "not-found")
too_costly = partial(Problem, 422, "too-costly")
not_supported = partial(Problem, 422, "not-supported")
not_now = partial(Problem, 503, "transient")

# Why there is no answer from a store whose words aren't kept.
NO_WORDS = (
    "the store is served without its words, so nothing can be searched for in it: its hub has to "
    "be started without --without-words")
# Why there is none from one below layout 3.
NO_MEMBERS = (
    "the store's layout keeps no members of reference sets, which this needs: "
    "sctd copy --layout 3 makes a store that does")
