"""What can be asked: `metadata`."""

from ... import VERSION
from ..languages import tag_of
from ..problems import Json, invalid
from ...snomed import with_hyphens
from . import lookup
from .inputs import SCT
from .parameters import ways_of
from .versions import OperationRequest
from .translation import ICD_10, MAPS
from .valuesets import CONSTRAINT, FILTERS, IS

FHIR_VERSION = "4.0.1"
DEFINITIONS = "http://hl7.org/fhir/OperationDefinition/"
# Of an empty store, since FHIR asks for a date.
NO_DAY = "19700101"
# What a terminology server is expected to answer.
INSTANTIATES = "http://hl7.org/fhir/CapabilityStatement/terminology-server"
SEARCHED = {"CodeSystem": ("url", "system", "version"), "ValueSet": ("url", "version"),
            "ConceptMap": ("url", "version")}
OFFERED = {"CodeSystem": ("lookup", "validate-code", "subsumes"),
           "ValueSet": ("expand", "validate-code"), "ConceptMap": ("translate",)}
# What an operation may be asked of, where its definition leaves that open.
OF_VALUE_SETS = (
    "url is %s?fhir_vs, ?fhir_vs=isa/CODE, ?fhir_vs=refset, ?fhir_vs=refset/CODE or "
    "?fhir_vs=ecl/EXPRESSION with an expression of ECL 2.2, or a version of it" % SCT)
OF_MAPS = "url is %s?fhir_cm= and a simple map, %s, or one of %s" % (SCT, ICD_10, ", ".join(MAPS))
# The filters that a value set of a client may have.
FILTERED = [{"code": "concept", "op": [*FILTERS]}, {"code": CONSTRAINT, "op": [IS]}]
DOCUMENTATION = {"ValueSet": OF_VALUE_SETS, "ConceptMap": OF_MAPS}


async def metadata(request: OperationRequest) -> Json:
    mode = request.query.text("mode")
    if mode == "terminology":
        return terminology_capabilities(request)
    if mode not in (None, "full", "normative"):
        raise invalid("mode must be full, normative or terminology")
    resources = [resource_capabilities(kind, names) for kind, names in OFFERED.items()]
    rest = {"mode": "server", "resource": resources, "interaction": [{"code": "batch"}]}
    return {"resourceType": "CapabilityStatement", **head(request), "instantiates": [INSTANTIATES],
            "fhirVersion": FHIR_VERSION, "format": ["json"], "rest": [rest]}


def head(request: OperationRequest) -> Json:
    view = request.view
    description = "SNOMED CT of any day, read only; pin %d, %s" % (view.pin, view.receipt)
    return {"status": "active", "date": with_hyphens(view.latest or NO_DAY), "kind": "instance",
            "software": {"name": "sctd-gateway", "version": VERSION},
            "implementation": {"description": description}}


def resource_capabilities(kind: str, names: tuple[str, ...]) -> Json:
    said = {"documentation": DOCUMENTATION[kind]} if kind in DOCUMENTATION else {}
    operations = [{"name": name, "definition": "%s%s-%s" % (DEFINITIONS, kind, name), **said}
                  for name in names]
    found: Json = {"type": kind, "operation": operations}
    found["interaction"] = [{"code": "read"}, {"code": "search-type"}]
    found["searchParam"] = [
        {"name": name, "type": "token" if name == "version" else "uri"} for name in SEARCHED[kind]]
    return found


def terminology_capabilities(request: OperationRequest) -> Json:
    latest = request.view.latest
    tags = [tag_of(refset) for refset in request.edition.languages]
    languages = {"language": tags} if tags else {}
    versions = [
        {
            "code": request.edition.version(day), "isDefault": day == latest,
            "compositional": False, **languages, "filter": FILTERED, "property": lookup.PROPERTIES}
        for day in request.view.days]
    system = {"uri": SCT, "subsumption": True, **({"version": versions} if versions else {})}
    names = [{"name": name} for name in sorted(ways_of("ValueSet/$expand").taken)]
    return {
        "resourceType": "TerminologyCapabilities", **head(request), "codeSystem": [system],
        "expansion": {
            "hierarchical": False, "paging": True, "incomplete": False, "parameter": names},
        # A display may be a term of any language.
        "validateCode": {"translations": True}, "translation": {"needsMap": True}}
