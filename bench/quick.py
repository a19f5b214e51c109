"""Runs every test and the trials of the program on this tree, and proves nothing.

quick.py [--only WORD]

The tests, the programs of the crates and `sctd` itself are built by the kit's `rt try`
(bench/unproved.py says how), two at a time and never more. The parts are: `sctd`, and the trials of
it; each program of the crates, whose output has to be its file `stdout`, or nothing where it has
none; the tests of each crate that has any; and the checks with which `.ci/run` begins. The last
line is `N passed, M failed`, and `, K skipped` where there are any. WORD takes the parts with this
text in their name.
"""

import argparse
import os
import re
import shutil
import subprocess
import sys
import tempfile
import threading
import time
from concurrent.futures import ThreadPoolExecutor
from functools import partial
from pathlib import Path
from typing import Callable, NamedTuple

from unproved import FAST_BUILD, FAST_RUN, Builder, bytes_of, kit_folder, run_program, status_of

TOP = Path(__file__).resolve().parent.parent
sys.path += [str(TOP / "bench" / "trials"), str(TOP / "bench" / "rattle")]
from source import uses  # noqa: E402
from transcripts import differences, text_of  # noqa: E402
from try_program import SCRIPTS, Outcome, run_script, total  # noqa: E402

PROGRAM, PROGRAM_OF = "sctd", "program of "
# How many parts may go on at a time.
MOST_AT_ONCE = 2
# How long a test and a program of a crate may take.
TEST_SECONDS = 120
PROGRAM_SECONDS = 120
# How much of what a part says is printed where it fails.
LINES_TOLD = 40

TEST = re.compile(r"^ *#\[test\]", re.MULTILINE)
# A check of the documents, as .ci/run has it: a script of bench/ and its words, and then what is
# done where it fails.
DOCUMENT_CHECK = re.compile(r"^python3 bench/([^|\n]+) \|\| \{", re.MULTILINE)
SOAK = "trials/soak.py"
# A soak of so many seconds, with a seed; those of .ci/run are shorter, and two.
LONG_SOAK = (SOAK, "20", "1")
# Trials that .ci/run doesn't make, or makes by themselves.
OTHER_TRIALS = (("trials/try_gateway.py",), ("trials/by_pytest.py", "failed_sync"))
# What of a crate is built and run.
TAKEN = ("src", "c", "data", "stdin", "stdout", "args", "status")


class Part(NamedTuple):
    """What is run, and whether it needs the built program."""

    name: str
    run: Callable[[], Outcome]
    is_trial: bool = False


def last_lines(text: str) -> str:
    return "\n".join(text.rstrip("\n").split("\n")[-LINES_TOLD:])


def copy_crate(name: str, to: Path) -> None:
    """Copies a crate, as far as building needs it."""
    for path in (TOP / "crates" / name / taken for taken in TAKEN):
        to.mkdir(parents=True, exist_ok=True)
        if path.is_dir():
            shutil.copytree(path, to / path.name)
        elif path.exists():
            shutil.copy(path, to)


class Tree:
    """What is run of this tree, in a folder."""

    def __init__(self, place: Path) -> None:
        self.place, self.kit = place, kit_folder()
        self.program = place / PROGRAM
        self.is_built = threading.Event()
        self.crates = {name: place / "crates" / name for name in uses()}
        shutil.copy(TOP / "crates.txt", place)
        for name, folder in self.crates.items():
            copy_crate(name, folder)

    def builder(self, name: str, is_run: bool) -> Builder:
        folder = self.place / ("kit_of_" + name)
        folder.mkdir()
        # The trials of it are mostly spent with waiting.
        level = FAST_BUILD if name == PROGRAM else FAST_RUN
        return Builder(self.kit, folder, is_run, level)

    def parts(self) -> list[Part]:
        """The parts in their order: what takes longest, and what others wait for, comes first."""
        names = [name for name, folder in self.crates.items() if (folder / "src/main.rt").exists()]
        programs = {name: Part(PROGRAM_OF + name, partial(self.run_program, name))
                    for name in names}
        trials = [script for script in SCRIPTS if script[0] != SOAK]
        parts = [programs.pop(PROGRAM)]
        parts += [Part("bench/" + " ".join(words), partial(self.run_trial, words), is_trial=True)
                  for words in (LONG_SOAK, *trials, *OTHER_TRIALS)]
        parts += programs.values()
        parts += [Part("tests of " + name, partial(self.run_tests, folder, count))
                  for name, folder in self.crates.items() if (count := count_tests(folder))]
        text = (TOP / ".ci" / "run").read_text(encoding="utf-8")
        return parts + [Part("bench/" + words.split()[0],
                             partial(run_script, words.split(), LINES_TOLD))
                        for words in DOCUMENT_CHECK.findall(text)]

    def run_tests(self, folder: Path, count: int) -> Outcome:
        """Runs the tests of a crate, which has to have so many."""
        words = ["--test", "--seconds", str(TEST_SECONDS)]
        done = self.builder(folder.name, is_run=True).run(folder, words)
        printed = text_of(done.stdout + done.stderr)
        ends = re.findall(r"^test (\S+) \.\.\. (\w+)((?:\n .*)*)", printed, re.MULTILINE)
        passed = sum(end == "ok" for _, end, _ in ends)
        told = "".join("test %s ... %s%s\n" % end for end in ends if end[1] != "ok")
        if passed == count and done.returncode == 0:
            return Outcome(passed, 0)
        if len(ends) != count:
            told += "%d of its %d tests were run\n%s" % (len(ends), count, last_lines(printed))
        return Outcome(passed, max(count - passed, 1), 0, told)

    def run_program(self, name: str) -> Outcome:
        """Builds a crate's program and runs it on its files; the trials wait for that of sctd."""
        try:
            built = self.built(name)
            if isinstance(built, Path) and name == PROGRAM:
                shutil.copy(built, self.program)
        finally:
            if name == PROGRAM:
                self.is_built.set()
        if isinstance(built, str):
            return Outcome(0, 1, 0, "it wasn't built\n" + last_lines(built))
        return compared(built, self.crates[name])

    def built(self, name: str) -> Path | str:
        """The program of a crate, or what was said where it can't be built."""
        builder = self.builder(name, is_run=False)
        done = builder.run(self.crates[name], [])
        is_there = builder.program.exists()
        return builder.program if is_there else text_of(done.stdout + done.stderr)

    def run_trial(self, words: tuple[str, ...]) -> Outcome:
        """Runs a script of bench/ on the built program, its first word."""
        self.is_built.wait()
        if not self.program.exists():
            return Outcome(0, 1, 0, "%s wasn't built" % PROGRAM)
        return run_script([words[0], self.program, *words[1:]], LINES_TOLD)


def count_tests(crate: Path) -> int:
    texts = (path.read_text(encoding="utf-8") for path in crate.rglob("src/**/*.rt"))
    return sum(len(TEST.findall(text)) for text in texts)


def compared(program: Path, crate: Path) -> Outcome:
    """Whether a crate's program writes its file `stdout` and ends with its status."""
    try:
        done = run_program(program, crate, PROGRAM_SECONDS)
    except subprocess.TimeoutExpired:
        return Outcome(0, 1, 0, "it hasn't ended after %d seconds" % PROGRAM_SECONDS)
    wanted, status = bytes_of(crate / "stdout"), status_of(crate)
    if done.stdout == wanted and done.returncode == status:
        return Outcome(1, 0)
    told = "\n".join(differences(text_of(wanted), text_of(done.stdout), "stdout")) + "\n"
    if done.returncode != status:
        told += "status %d, and %d was wanted\n" % (done.returncode, status)
    return Outcome(0, 1, 0, told + last_lines(text_of(done.stderr)))


class Progress:
    """Prints a line as each part begins, and one as it ends."""

    def __init__(self) -> None:
        self.begun = time.monotonic()
        self.lock = threading.Lock()

    def say(self, text: str) -> None:
        seconds = int(time.monotonic() - self.begun)
        with self.lock:
            print("[%d:%02d] %s" % (seconds // 60, seconds % 60, text), flush=True)

    def run(self, part: Part) -> Outcome:
        begun = time.monotonic()
        self.say("begins: %s" % part.name)
        try:
            outcome = part.run()
        except Exception as why:  # A part that can't be run has failed, and the others go on.
            outcome = Outcome(0, 1, 0, "%s: %s" % (type(why).__name__, why))
        took = time.monotonic() - begun
        self.say("%s: %s (%.0f s)" % (outcome, part.name, took) + indented(outcome.told))
        return outcome


def chosen(parts: list[Part], word: str) -> list[Part]:
    """The parts with a word in their name, and what they need."""
    taken = [part for part in parts if word in part.name]
    needed = [part for part in parts if part.name == PROGRAM_OF + PROGRAM and part not in taken]
    return needed + taken if any(part.is_trial for part in taken) else taken


def indented(text: str) -> str:
    return "".join("\n    " + line for line in text.rstrip("\n").split("\n") if text)


def main() -> int:
    assert __doc__
    parser = argparse.ArgumentParser(description=__doc__.strip().split("\n", maxsplit=1)[0])
    parser.add_argument("--only", default="", help="the parts with this word in their name")
    asked = parser.parse_args()
    if shutil.which("rt") is None:
        print("there is no `rt` of the Rattle kit on the path", file=sys.stderr)
        return 2
    at_once = min(MOST_AT_ONCE, len(os.sched_getaffinity(0)))
    progress = Progress()
    with tempfile.TemporaryDirectory(prefix="sctd-quick-") as place:
        tree = Tree(Path(place))
        parts = chosen(tree.parts(), asked.only)
        if not parts:
            print(f"no part has {asked.only!r} in its name", file=sys.stderr)
            return 2
        with ThreadPoolExecutor(at_once) as workers:
            outcomes = list(workers.map(progress.run, parts))
    every = total(outcomes)
    print(every)
    return 0 if every.passed and not every.failed else 1


if __name__ == "__main__":
    sys.exit(main())
