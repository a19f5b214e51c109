"""Tries the gateway with the built program and the hub: its own tests, in service/tests, by pytest.

try_gateway.py PROGRAM [HUB]

Several runs go on beside each other, since some tests mostly wait for a limit of time. Where no
Python has what the tests need the status is 3. Where mypy is installed it checks the types too, and
where there is a Chromium try_page.py looks at the page. The last line is `N passed, M failed`, with
`, K skipped` where something was.
"""

import os
import shutil
import signal
import subprocess
import sys
from collections.abc import Sequence
from pathlib import Path

from by_pytest import SERVICE
from harness import NOT_RUN, NotRun, go_on_with, parser_of
from needs import MODULES, TESTED_WITH  # harness.py looks for it.
from try_program import BENCH, Outcome, outcome_of, run_script, total

# (They take 75 on four processors that are busy.)
SECONDS = 400
LINES_TOLD = 60
# Modules that run beside each other. All others are one more run.
APART = (("waits",), ("silent_hub", "limits"), ("hub", "large_answers", "metrics"),
         ("releases", "delivery"), ("members",), ("ecl",), ("ecl_by_files",))


def runs() -> list[Sequence[str]]:
    """The names of all modules of tests, by the runs that they are in."""
    every = {path.stem.removeprefix("test_") for path in (SERVICE / "tests").glob("test_*.py")}
    return [*APART, sorted(every.difference(*APART))]


def begun(program: Path, hub: Path, names: Sequence[str]) -> subprocess.Popen[bytes]:
    script = BENCH / "trials" / "by_pytest.py"
    return subprocess.Popen(
        [sys.executable, script, program, "--service", "--hub", hub, *names],
        stdin=subprocess.DEVNULL, stdout=subprocess.PIPE, stderr=subprocess.STDOUT,
        start_new_session=True)


def ended(run: subprocess.Popen[bytes]) -> Outcome:
    try:
        printed = run.communicate(timeout=SECONDS)[0]
    except subprocess.TimeoutExpired:
        os.killpg(run.pid, signal.SIGKILL)
        printed = run.communicate()[0] + b"\nit takes too long"
    return outcome_of(run.returncode, printed, LINES_TOLD)


def types() -> Outcome:
    if shutil.which("mypy") is None:
        return Outcome(0, 0, 1, "mypy isn't installed: the types weren't checked")
    done = subprocess.run(["mypy", "--strict", "--python-executable", sys.executable, "-p",
                           "sctd_service", "-p", "tests"], cwd=SERVICE, text=True,
                          capture_output=True, check=False)
    return Outcome(0, 1, 0, done.stdout + done.stderr) if done.returncode else Outcome(1, 0)


def main() -> int:
    parser = parser_of(__doc__)
    parser.add_argument("hub", type=Path, nargs="?", default=SERVICE / "sctd-hub")
    asked = parser.parse_args()
    try:
        go_on_with([*MODULES, *TESTED_WITH])
    except NotRun as lacks:
        print(f"not run: {lacks}\n{Outcome(0, 0, 1)}")
        return NOT_RUN
    begun_runs = [begun(asked.program, asked.hub.resolve(), names) for names in runs()]
    outcomes = [types(), run_script(["trials/try_page.py", asked.program], LINES_TOLD),
                *map(ended, begun_runs)]
    for outcome in outcomes:
        if outcome.told:
            print(outcome.told, flush=True)
    print(total(outcomes))
    return 1 if total(outcomes).failed else 0


if __name__ == "__main__":
    sys.exit(main())
