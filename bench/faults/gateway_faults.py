"""Puts faults into a copy of the gateway and the hub, one at a time, and says which tests fail.

gateway_faults.py PROGRAM [NUMBER|TESTS ..]
gateway_faults.py --table

Each fault of the files in TABLES is a text of a file that is exchanged, and the tests that are run
with it: TESTS, such as `test_hub`, stands for all faults that are tried with these. One that no
test fails for is said to be NOT SEEN, and the status is 1 then. With --table it prints the row that
bench/README.md has of it, and tries nothing; the status is 1 where a fault's text doesn't stand
just once in its file.
"""

import argparse
import re
import shutil
import sys
import tempfile
from collections import Counter
from pathlib import Path

from fault_tables import Fault, faults_in, print_row

TOP = Path(__file__).resolve().parents[2]
sys.path.append(str(TOP / "bench" / "trials"))
from harness import Wrong, go_on_with, tell  # noqa: E402
from needs import MODULES, TESTED_WITH  # noqa: E402
from try_program import run_script  # noqa: E402

# The browser's trial, and what makes all others.
PAGE, BY_PYTEST = "try_page.py", "trials/by_pytest.py"
# Where the files of faults are.
GATEWAY = Path("service", "sctd_service", "gateway")
# How much of what they print is looked at.
LINES = 1_000
TABLES = ("gateway_faults.txt", "page_faults.txt", "expression_faults.txt", "hub_faults.txt")
FAULTS = [fault for name in TABLES for fault in faults_in(Path(__file__).with_name(name))]


def failed(bench: Path, program: Path, tests: str) -> list[str]:
    """The tests that fail, or what the browser's trial says."""
    said = ""
    for test in tests.split():
        name, _, trial = test.removeprefix("test_").partition(":")
        words: list[str | Path] = ["trials/" + PAGE, program]
        if test != PAGE:
            words = [BY_PYTEST, program, *(["--only", trial] if trial else ["--service"]), name]
        said += run_script(words, LINES, bench).told + "\n"
    found = re.findall(r"^(?:FAILED|ERROR) \S+::(\w+)", said, re.M)
    return list(dict.fromkeys(found + re.findall(r"^WRONG: (.{1,90})", said, re.M)))


def is_seen(number: int, program: Path) -> bool:
    """Whether a test fails with a fault."""
    fault = FAULTS[number]
    with tempfile.TemporaryDirectory() as folder:
        for name in ("service", "packaging", "bench", "docs", "examples"):
            shutil.copytree(TOP / name, Path(folder, name),
                            ignore=shutil.ignore_patterns("__pycache__"))
        try:
            fault.put_in(Path(folder, GATEWAY), fault.new)
        except ValueError as why:
            print("%d: %s: NO FAULT: %s" % (number, fault.fault, why))
            return False
        found = failed(Path(folder, "bench"), program, fault.tests)
    print("%d: %s: %s" % (number, fault.fault, "; ".join(found) or "NOT SEEN"), flush=True)
    return bool(found)


def misfits() -> list[str]:
    """The faults that can't be put in any more, and why."""
    found: list[str] = []
    for fault in FAULTS:
        try:
            fault.text_in(TOP / GATEWAY)
        except ValueError as why:
            found.append("%s: NO FAULT: %s" % (fault.fault, why))
    return found


def files_of(fault: Fault) -> list[str]:
    """The files of tests that a fault is tried with."""
    return [test.partition(":")[0] for test in fault.tests.split()]


def tried(program: Path, words: list[str]) -> None:
    go_on_with([*MODULES, *TESTED_WITH])
    chosen = [number for number, fault in enumerate(FAULTS) if not words
              or any(word in (str(number), *files_of(fault)) for word in words)]
    seen = [is_seen(number, program) for number in chosen]
    print("%d faults, %d not seen" % (len(seen), seen.count(False)))
    if not seen or not all(seen):
        raise Wrong("a fault isn't seen, or there is none")


def main() -> int:
    assert __doc__
    parser = argparse.ArgumentParser(description=__doc__.split("\n", maxsplit=1)[0])
    parser.add_argument("--table", action="store_true", help="print the row of bench/README.md")
    parser.add_argument("program", type=Path, nargs="?", help="the built sctd")
    parser.add_argument("chosen", nargs="*", metavar="NUMBER|TESTS")
    asked = parser.parse_args()
    if asked.table or asked.program is None:
        counts = Counter(test for fault in FAULTS for test in files_of(fault))
        print_row("gateway_faults.py PROGRAM [NAME]", "of gateway, page and hub", counts)
        misfitting = misfits()
        print(*misfitting, sep="\n", end="", file=sys.stderr)
        return bool(misfitting)
    return tell(lambda: tried(asked.program.resolve(), asked.chosen))


if __name__ == "__main__":
    sys.exit(main())
