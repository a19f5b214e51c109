"""Tries the built program as its users do: examples, transcripts, mistakes, many clients, kills.

try_program.py PROGRAM [PASSED FAILED]

Each of SCRIPTS is run with PROGRAM. One that counts what it tried ends with a line `N passed, M
failed`, and every other one counts as one. One that can't be run on this machine says why and ends
with status 3: it is skipped, and not counted as passed. PASSED and FAILED are what `rt ci` counted;
the last line is `N passed, M failed` of both together.
"""

import re
import subprocess
import sys
import time
from collections.abc import Iterable, Sequence
from pathlib import Path
from typing import NamedTuple

from harness import NOT_RUN, parser_of

BENCH = Path(__file__).resolve().parents[1]
# Each script of bench/ and its further words, none of which takes longer than this many seconds,
# also on a machine that has much else to do.
LONGEST = 1_200
SCRIPTS: list[tuple[str, ...]] = [
    ("checks/check_guide.py",),
    ("trials/try_cases.py",),
    ("trials/try_cases.py", "--wrong"),
    ("trials/by_pytest.py", "mistakes"),
    ("trials/by_pytest.py", "files", "cache", "syncs"),
    ("trials/by_pytest.py", "sessions", "crowds", "digests", "openings"),
    ("trials/by_pytest.py", "duties", "copies"),
    ("trials/by_pytest.py", "checks", "verify", "prepare", "warnings"),
    ("trials/by_pytest.py", "imports", "lists"),
    ("trials/by_pytest.py", "readers", "exports", "editions"),
    ("trials/by_pytest.py", "operators"),
    ("trials/refuse_growths.py", "script"),
    ("trials/refuse_growths.py", "tasks"),
    ("trials/refuse_growths.py", "room"),
    ("trials/by_pytest.py", "refusals", "programs_of_cases", "transcripts"),
    ("trials/soak.py", "12", "1"),
    ("trials/soak.py", "12", "2"),
    ("trials/try_flips.py", "5000", "100"),
    ("trials/by_pytest.py", "package"),
    ("trials/try_first_look.py",),
    ("trials/try_proxy.py",),
    ("trials/try_machines.py",)]
# The last line of a script that counts what it tried.
COUNTED = re.compile(r"(\d+) passed, (\d+) failed(?:, (\d+) skipped)?$")
# How much of what a script printed is told where it failed.
LINES_TOLD = 30


class Outcome(NamedTuple):
    """How many tests, scripts or programs passed, failed and were skipped, and what to tell."""

    passed: int
    failed: int
    skipped: int = 0
    told: str = ""

    def __str__(self) -> str:
        skipped = f", {self.skipped} skipped" if self.skipped else ""
        return f"{self.passed} passed, {self.failed} failed{skipped}"


def total(outcomes: Iterable[Outcome]) -> Outcome:
    """The sums of all, without what to tell."""
    passed, failed, skipped = (sum(counts) for counts in list(zip(*outcomes))[:3])
    return Outcome(passed, failed, skipped)


def outcome_of(status: int, printed: bytes, most_lines: int = LINES_TOLD) -> Outcome:
    """What came of a script, by its status and what it printed."""
    lines = printed.decode("utf-8", "backslashreplace").rstrip("\n").split("\n")
    told, found = "\n".join(lines[-most_lines:]), COUNTED.match(lines[-1])
    passed, failed, skipped = (int(n or 0) for n in found.groups()) if found else (1, 0, 0)
    if status == NOT_RUN:
        return Outcome(0, 0, max(skipped, 1), told if found else lines[-1])
    if status == 0:
        return Outcome(passed, failed, skipped, told if skipped else "")
    return Outcome(passed if found else 0, max(failed, 1), skipped, told)


def run_script(words: Sequence[str | Path], most_lines: int = LINES_TOLD,
               bench: Path = BENCH) -> Outcome:
    """What came of a script of bench/, or of a copy of it, with its words."""
    try:
        done = subprocess.run(
            [sys.executable, bench / words[0], *words[1:]], timeout=LONGEST, cwd=bench.parent,
            stdin=subprocess.DEVNULL, stdout=subprocess.PIPE, stderr=subprocess.STDOUT, check=False)
    except subprocess.TimeoutExpired as late:
        return outcome_of(1, (late.stdout or b"") + b"\nit takes too long", most_lines)
    return outcome_of(done.returncode, done.stdout, most_lines)


def main() -> int:
    parser = parser_of(__doc__)
    parser.add_argument("passed", type=int, nargs="?", default=0, help="how many passed before")
    parser.add_argument("failed", type=int, nargs="?", default=0, help="how many failed before")
    asked = parser.parse_args()
    outcomes = [Outcome(asked.passed, asked.failed)]
    for script, *more in SCRIPTS:
        begun = time.monotonic()
        outcome = run_script([script, asked.program, *more])
        took = time.monotonic() - begun
        print(f"bench/{' '.join([script, *more])}: {outcome} ({took:.0f} s)", flush=True)
        if outcome.told:
            print("\n".join("    " + line for line in outcome.told.split("\n")), flush=True)
        outcomes.append(outcome)
    every = total(outcomes)._replace(skipped=0)
    print(every)
    return 1 if every.failed else 0


if __name__ == "__main__":
    sys.exit(main())
