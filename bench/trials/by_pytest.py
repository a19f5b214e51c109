"""Makes trials of the built program by pytest.

by_pytest.py PROGRAM [--service [--hub HUB]] [--only TRIAL] [NAME ..]

NAME is that of a file `test_NAME.py` beside this one, all if none is given; with --service of one
in service/tests, whose tests may ask another hub. TRIAL takes the trials with this text in their
names. Where this Python lacks what they need the system's is taken. The last line is `N passed, M
failed`, and `, K skipped` where there are any; the status is 3 where nothing could be tried on this
machine.
"""

import os
import sys
from pathlib import Path
from typing import Any

from harness import NOT_RUN, TOP, NotRun, go_on_with, parser_of
from needs import MODULES, TESTED_WITH  # harness.py looks for it.
from try_program import Outcome

SERVICE = TOP / "service"


class Counts:
    """Counts the trials by what came of them."""

    def __init__(self) -> None:
        self.of = dict.fromkeys(("passed", "failed", "skipped"), 0)

    def outcome(self) -> Outcome:
        return Outcome(self.of["passed"], self.of["failed"], self.of["skipped"])

    def pytest_runtest_logreport(self, report: Any) -> None:
        if report.when == "call" or report.outcome != "passed":
            self.of[report.outcome] += 1


def main() -> int:
    parser = parser_of(__doc__)
    parser.add_argument("names", nargs="*", metavar="NAME", help="as in test_NAME.py")
    parser.add_argument("--only", metavar="TRIAL", default="", help="a text in names of trials")
    parser.add_argument("--service", action="store_true", help="the tests of hub and gateway")
    parser.add_argument("--hub", type=Path, default=SERVICE / "sctd-hub", help="another hub")
    asked = parser.parse_intermixed_args()
    try:
        go_on_with([*TESTED_WITH, *(MODULES if asked.service else ())])
    except NotRun as lacks:
        print(f"not run: {lacks}\n{Outcome(0, 0, 1)}")
        return NOT_RUN
    import pytest  # pylint: disable=import-outside-toplevel

    here, words = Path(__file__).resolve().parent, [f"--program={asked.program}"]
    if asked.service:
        words.append(f"--hub={asked.hub.resolve()}")
        here = SERVICE / "tests"
        os.chdir(SERVICE)
        sys.path.insert(0, str(SERVICE))
    files = [str(here / f"test_{name}.py") for name in asked.names] or [str(here)]
    counts = Counts()
    words += ["-q", "-rfEs", "--tb=short", "-p", "no:cacheprovider", "-k", asked.only, *files]
    if pytest.main(words, plugins=[counts]):
        counts.of["failed"] = max(counts.of["failed"], 1)
    print(counts.outcome())
    if counts.of["failed"]:
        return 1
    return 0 if counts.of["passed"] else NOT_RUN


if __name__ == "__main__":
    sys.exit(main())
