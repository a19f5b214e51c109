"""CodeSystem/$subsumes: whether one code was a kind of the other on a day."""

from ..problems import Json
from .inputs import CodeNames
from .outputs import dated, parameter, parameters
from .versions import OperationRequest

# By whether the first code is the second or above it, and whether it is the second or below it. Two
# codes that are both, as on a cycle of a faulty release, are kinds of each other.
OUTCOMES = {(True, True): "equivalent", (True, False): "subsumes", (False, True): "subsumed-by",
            (False, False): "not-subsumed"}


async def subsumes(request: OperationRequest) -> Json:
    query, view = request.query, request.view
    first, second = (
        query.coding(CodeNames(code="code" + letter, coding="coding" + letter)) for letter in "AB")
    asked = request.at(first.version, second.version, query.text("version"))
    for coding in (first, second):
        await asked.must_have(coding.code)
    is_above = await view.is_within(second.code, first.code, asked.day)
    is_below = await view.is_within(first.code, second.code, asked.day)
    outcome = OUTCOMES[is_above, is_below]
    return parameters([parameter("outcome", valueCode=outcome), *dated(asked.moment)])
