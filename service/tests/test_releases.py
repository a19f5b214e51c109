"""The comparison with a release's own files."""


from .compare_releases import compared
from .fixtures import program_and_hub

ROWS, ANSWERS, SEED = 20_000, 7_600, 2
SUBSUMPTIONS = 400
# At least so many of each, so that no round passes in which nothing was compared.
AT_LEAST = {"$lookup": 2_000, "$lookup of what isn't there": 200,
            "CodeSystem/$validate-code True": 100, "CodeSystem/$validate-code False": 100,
            "ValueSet/$validate-code True": 20, "ValueSet/$validate-code False": 100,
            "$expand": 200, "search": 2_000, "search on the page": 900, "$translate": 300,
            "$subsumes subsumes": 50, "$subsumes subsumed-by": 50, "$subsumes not-subsumed": 200}
# Of a package, whose rows are of other proportions.
PACKAGE_AT_LEAST = {
    "$lookup": 750, "$lookup in a language": 750, "CodeSystem/$validate-code True": 100,
    "$expand of a reference set": 12, "$translate by a map": 300, "search": 2_000}


class TestReleases:
    def test_answers_are_those_of_the_packages_files(self) -> None:
        counts = compared(*program_and_hub(), ROWS, ANSWERS, SEED, is_package=True)
        for what, least in PACKAGE_AT_LEAST.items():
            assert counts[what] >= least, counts

    def test_answers_are_those_of_the_files(self) -> None:
        counts = compared(*program_and_hub(), ROWS, ANSWERS, SEED)
        for what, least in AT_LEAST.items():
            assert counts[what] >= least, counts
        subsumptions = [count for what, count in counts.items() if what.startswith("$subsumes")]
        assert sum(subsumptions) >= SUBSUMPTIONS
