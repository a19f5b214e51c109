"""Tries that the programs of cases in crates/ fail where a case is wrong.

Each is run as `rt ci` built it, on a folder of cases that has one wrong file: it has to say in
which line the case fails, and why, and to end with status 1. (`try_cases.py --wrong` tries what a
wrong transcript comes to.) A program that isn't built here is left out."""

import shutil
import subprocess
from collections.abc import Iterator

import pytest

from harness import TOP, Place

SECONDS = 60
LACKS_COUNT = "the case doesn't end with the number of its questions"
# What a run prints whose output is taken, and then not written.
NAMES = TOP / "crates" / "store_cases" / "data" / "cases" / "names.txt"
UNWRITTEN = "\n= ".join(line[2:] for line in NAMES.read_text(encoding="utf-8").splitlines()
                        if line.startswith("= "))
# Questions: the program, what stands before the case, a question, its answer, and another one.
LINES = "part lines\ncall 0 STATUS\n"
LOOK = "part look\ncall run lines\n"
QUESTIONS = [
    ("store_cases", "", "0 STATUS", "OK 0 0 0 -", "OK 0 0 1 -"),
    ("store_cases", "", "0 IMPORT r1", "OK 1 6 0", "OK 1 6 1"),
    ("store_cases", "", "0 AT 0 GET C 138875005 20200131", "END 0", "END 1"),
    ("store_cases", "", "0 MERGE", "ERR 9 NothingToMerge", "ERR 10 MergeBusy"),
    ("store_cases", "", "imports", "0", "1"),
    ("store_cases", "part rows\nrow 1 C 138875005 138875005|20200131|1|CORE|PRIM\n", "holds rows",
     "yes", "no"),
    ("store_cases", "", "changes", "9", "8"),
    ("store_cases", "", "length", "16384", "16383"),
    ("store_cases", "", "crash kept 0", "done", "failed"),
    ("store_cases", "", "unspelled 0 AT 0 PAGE C 20200131 - 10", "0 rows", "1 rows"),
    ("store_cases", LINES, "run lines", "Ok(1)\n= OK 0 0 0 -", "Ok(1)\n= OK 0 0 1 -"),
    ("store_cases", LINES, "way lines reads 2", "Ok(1)\n= OK 0 0 0 -", "Ok(2)\n= OK 0 0 0 -"),
    ("store_cases", LINES, "way lines reads 1", "Err(Reads)\n= OK 0 0 0 -", "Ok(1)\n= OK 0 0 0 -"),
    ("store_cases", LINES, "way lines room 5 pieces 4", "Err(Write)\n= OK 0 ",
     "Err(Write)\n= OK 0"),
    ("store_cases", LINES, "noted-way lines pieces 9 reads 9", "Ok(1)\n= 0+11\n= OK 0 0 0 -",
     "Ok(1)\n= 0+10\n= OK 0 0 0 -"),
    ("store_cases", LINES + LOOK, "before-end kept 0 look",
     "9 calls\n= kept 0: Ok(1), OK 0 0 0 -", "8 calls\n= kept 0: Ok(1), OK 0 0 0 -"),
    ("store_cases", LINES + LOOK, "before-end lost,kept 0 look",
     "9 calls\n= lost 0: Ok(1), OK 0 0 0 -\n= kept 0: Ok(1), OK 0 0 0 -",
     "9 calls\n= lost 0: Ok(1), OK 0 0 0 -\n= kept 0: Ok(1), OK 1 0 0 -"),
    ("store_cases", "", "named len", "0", "1"),
    ("store_cases", "", "unwritten demo", UNWRITTEN, UNWRITTEN.replace("1", "0", 1)),
    ("layer_cases", "", 'time "20200131"', "20200131", "20200130"),
    ("history_cases", "", "at 0 get concept 138875005 20200131", "none",
     "138875005|20200131|1|CORE|PRIM"),
    ("history_cases", "part row\neach 100-101+1 concept #|20200131|1|CORE|PRIM\n", "import row",
     "1: 2 new, 0 repeated", "1: 1 new, 0 repeated"),
    ("history_cases", "", "spread 250", "250 lists", "249 lists"),
]
# Questions that are none, each behind some parts.
NONE = [
    ("store_cases", "", "run nothing"), ("store_cases", LINES, "way lines depth 5"),
    ("store_cases", LINES, "way lines reads"), ("store_cases", "", "crash kept"),
    ("store_cases", "", "shelve"), ("store_cases", "", "holds nothing"),
    ("history_cases", "", "fits 1-1"), ("layer_cases", "", "shelve"),
]


def run_with(program: str, place: Place, text: str) -> tuple[int, str]:
    """Runs a program of cases on its own data, but with one file in the place of its cases."""
    crate = TOP / "crates" / program
    path = crate / "out" / program
    if not path.exists():
        pytest.skip(f"{program} isn't built")
    data = place.path("data")
    shutil.rmtree(data, ignore_errors=True)
    shutil.copytree(crate / "data", data)
    for own in (data / "cases").glob("*.txt"):
        own.unlink()
    (data / "cases" / "wrong.txt").write_text(text, encoding="utf-8")
    done = subprocess.run([path], cwd=data, capture_output=True, timeout=SECONDS, check=False)
    return done.returncode, done.stdout.decode()


def case_of(before: str, question: str, answer: str, count: int = 1) -> str:
    first, *more = answer.split("\n= ")
    arrow = f" -> {first}" if not more else " ->" + "".join(f"\n= {one}" for one in (first, *more))
    return f"{before}case wrong\n{question}{arrow}\nasked {count}\n"


def wrong_files() -> Iterator[tuple[str, str, int, str]]:
    """Each program with wrong files, the line in which each fails, and why."""
    for program, before, question, right, wrong in QUESTIONS:
        text = case_of(before, question, wrong)
        yield program, text, text.count("\n"), "something else came"
        text = case_of(before, question, right, 2)
        line = text.count("\n")
        yield program, text, line, "it isn't the number of questions above"
        yield program, text.replace("asked 2\n", ""), line - 1, LACKS_COUNT
    for program, before, question in NONE:
        text = case_of(before, question, "done")
        yield program, text, text.count("\n") - 1, "it asks nothing that is known"
    for program in sorted({row[0] for row in QUESTIONS}):
        yield program, "case wrong\nshelve it\nasked 1\n", 2, "its answer lacks"
        yield program, "case wrong\n= done\n", 2, "it stands behind no question"
        yield program, "case wrong\nasked 0\n", 2, LACKS_COUNT
        yield program, "# A comment alone.\n", 1, "no case stands in the file"
    program, before, question, right, _ = QUESTIONS[0]
    text = LINES + case_of(before, question, right)
    yield program, text, text.count("\n"), "no case asks for one of its parts"


@pytest.mark.parametrize("program, text, line, why", wrong_files())
def test_wrong_files(place: Place, program: str, text: str, line: int, why: str) -> None:
    status, printed = run_with(program, place, text)
    what = "the file" if why.startswith("no case") else "wrong"
    assert f"FAILED {what}: wrong.txt, line {line}: {why}\n" in printed and status == 1


@pytest.mark.parametrize("program, before, question, right, _", QUESTIONS)
def test_right_answers(place: Place, program: str, before: str, question: str, right: str,
                       _: str) -> None:
    status, printed = run_with(program, place, case_of(before, question, right))
    assert "FAILED" not in printed and status == 0
