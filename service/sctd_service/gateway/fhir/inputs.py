"""The parameters of an operation, as they came in the address or in a body."""

import json
import re
from collections.abc import Iterable
from typing import Any, NamedTuple

from .. import limits
from ..problems import Json, Problem, conflict, invalid, missing, not_found, unknown
from .parameters import Ways

SCT = "http://snomed.info/sct"
NUMBER = re.compile(r"[0-9]{1,9}\Z", re.ASCII)

Given = tuple[str, Any]


class Coding(NamedTuple):
    system: str
    code: str
    version: str | None
    display: str | None


class CodeNames(NamedTuple):
    """What an operation calls the parameters of its code."""

    code: str = "code"
    system: str = "system"
    version: str = "version"
    coding: str = "coding"


class Query:
    """The parameters by their names. One that the operation doesn't know is refused, since an
    answer that passes over it would be the answer to another question. `passed` says what was
    passed over, which is refused where that is wanted; `canonical` are the versions that stand
    behind the address of the code system."""

    def __init__(self, given: Iterable[Given], ways: Ways, is_strict: bool = False) -> None:
        self.given: dict[str, list[Any]] = {}
        self.is_strict, self.passed, self.canonical = is_strict, list[str](), list[str]()
        for name, value in given:
            if name in ways.taken:
                self.given.setdefault(name, []).append(value)
            elif name in ways.passed:
                self.pass_over("the parameter %s is passed over: it changes no answer here" % name)
            else:
                raise unknown("the parameter %.60r isn't known here" % name)

    def pass_over(self, text: str) -> None:
        if self.is_strict:
            raise unknown(text)
        if text not in self.passed:
            self.passed.append(text)

    def all(self, name: str) -> list[str]:
        values = self.given.get(name, [])
        if not all(isinstance(value, str) and value for value in values):
            raise invalid("%s must be a text" % name)
        return values

    def one(self, name: str) -> Any:
        values = self.given.get(name, [])
        if len(values) > 1:
            raise invalid("%s is given more than once" % name)
        return values[0] if values else None

    def text(self, name: str) -> str | None:
        self.one(name)
        return next(iter(self.all(name)), None)

    def needed(self, name: str) -> str:
        value = self.text(name)
        if value is None:
            raise missing("%s is missing" % name)
        return value

    def flag(self, name: str) -> bool:
        value = self.one(name)
        if value in (None, "false") or value is False:
            return False
        if value == "true" or value is True:
            return True
        raise invalid("%s must be true or false" % name)

    def number(self, name: str) -> int | None:
        value = self.one(name)
        if value is None:
            return None
        if isinstance(value, bool) or not NUMBER.match(str(value)):
            raise invalid("%s must be a number from 0 on" % name)
        return int(value)

    def code_system(self, name: str) -> None:
        """Refuses another code system under this name."""
        text = self.text(name)
        if text is not None and (system := self.system_of(text)) != SCT:
            raise not_here(system)

    def system_of(self, text: str) -> str:
        """The code system that an address names, behind which a version may stand."""
        system, _, version = text.partition("|")
        if system == SCT and version:
            self.canonical.append(version)
        return system

    def coding(self, names: CodeNames) -> Coding:
        """The one code of SNOMED CT that is meant."""
        found = self.codings(names)
        if len(found) > 1:
            raise invalid("one code can be asked for at a time")
        if found[0].system != SCT:
            raise not_here(found[0].system)
        return found[0]

    def codings(self, names: CodeNames) -> list[Coding]:
        """The codes that are meant: a code with its system, or a coding, or those of a concept."""
        forms = [
            name for name in (names.code, names.coding, "codeableConcept") if name in self.given]
        if len(forms) > 1:
            raise conflict("%s and %s are two ways to name the code" % (forms[0], forms[1]))
        if forms == [names.code]:
            inferred = names.system not in self.given and self.flag("inferSystem")
            system = SCT if inferred else self.system_of(self.needed(names.system))
            return [Coding(system, self.needed(names.code), None, self.text("display"))]
        self.code_system(names.system)
        if "display" in self.given:
            raise missing("%s is missing, whose display is given" % names.code)
        if not forms:
            raise missing("%s or %s is missing" % (names.code, names.coding))
        if forms == [names.coding]:
            return [coding_of(self.one(names.coding))]
        concept = self.one("codeableConcept")
        found = concept.get("coding") if isinstance(concept, dict) else None
        if not isinstance(found, list) or not found:
            raise invalid("codeableConcept has no coding")
        if len(found) > limits.CODINGS:
            raise invalid("codeableConcept has more than %d codings" % limits.CODINGS)
        return [coding_of(one) for one in found]


def not_here(system: str) -> Problem:
    return not_found("the code system %.100r isn't here: %s is" % (system, SCT))


def coding_of(value: Any) -> Coding:
    parts = ("system", "code", "version", "display")
    if not isinstance(value, dict) or not all(
            isinstance(value[part], str) and value[part] for part in parts if part in value):
        raise invalid("a coding has system, code, version and display as texts")
    for part in ("system", "code"):
        if part not in value:
            raise missing("a coding has no %s" % part)
    return Coding(value["system"], value["code"], value.get("version"), value.get("display"))


def not_json() -> Problem:
    return Problem(400, "structure", "the body isn't a resource Parameters in JSON")


def parsed(body: bytes) -> Any:
    try:
        resource = json.loads(body.decode(), object_pairs_hook=object_of, parse_constant=no_number)
        # Half a character, which JSON can write, is no text.
        json.dumps(resource, ensure_ascii=False).encode()
    except (ValueError, TypeError, RecursionError):
        raise not_json() from None
    return resource


def no_number(text: str) -> None:
    """Refuses `NaN` and the like, which Python reads and JSON doesn't have."""
    raise ValueError(text)


def posted(resource: Any) -> list[Given]:
    """The parameters of a resource `Parameters` of FHIR. A value set by itself is the only one."""
    try:
        if resource["resourceType"] == "ValueSet":
            return [("valueSet", resource)]
        if resource["resourceType"] != "Parameters":
            raise ValueError
        given = [given_part(part) for part in resource.get("parameter", [])]
    except (ValueError, KeyError, TypeError, AttributeError):
        raise not_json() from None
    if len(given) > limits.PARAMETERS:
        raise invalid("the body has more than %d parameters" % limits.PARAMETERS)
    return given


def object_of(pairs: list[tuple[str, Any]]) -> Json:
    """An object of JSON. One in which a name stands twice could be read in two ways."""
    found = dict(pairs)
    if len(found) < len(pairs):
        raise ValueError
    return found


def given_part(part: Json) -> Given:
    values = [value for name, value in part.items() if name.startswith("value")]
    name = part["name"]
    # (A value that is null would be taken for none at all.)
    if len(values) > 1 or None in values or not isinstance(name, str):
        raise ValueError
    return name, values[0] if values else part.get("resource", "")
