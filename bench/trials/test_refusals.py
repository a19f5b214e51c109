"""Tries that refuse_growths.py fails where something is wrong with it, or with what it expects.

Each trial puts a fault into its parts, and has few lines served on a store without rows with each
request for memory refused in turn. What it prints then has to say what is wrong."""

import re
import shutil
from collections.abc import Mapping
from pathlib import Path
from typing import NamedTuple, Sequence

import pytest

import growths_room
from growths_harness import Program
from growths_lines import Runs
from harness import Place, Ran
from soak_model import Model, Reply

LINES = ["0 STATUS", "0 IMPORT r1", "0 GET C 1000004 20200131"]
IMPORTED = "0 IMPORT r1"
# More refusals than there are.
TOO_MANY = 1_000_000
MORE_WANTED = f"NOT TRIED: {TOO_MANY} refusals of it are wanted"
RUN, REPLY = Program.run, Model.reply


def generous(program: Program, words: Sequence[str], folder: Path, given: str = "",
             *_: object) -> tuple[Ran, bool]:
    """A run in which no request for memory is refused, whatever is asked for."""
    return RUN(program, words, folder, given)


def other(model: Model, line: str) -> Reply:
    said = REPLY(model, line)
    return [text[:-1] for text in said] if line == IMPORTED else said


class Fault(NamedTuple):
    """What is changed, what is printed then, how often, and how many refusals an import needs."""

    changes: Mapping[str, object] = {}
    told: str = ""
    times: int = 1
    least: int = 1


OF_LINES = {
    "all is right": Fault(),
    "memory never runs out": Fault({"growths_harness.Program.run": generous}, "NOTHING TRIED"),
    "another reply is expected": Fault({"soak_model.Model.reply": other}, (
        rf"^WRONG with 1 refused: .*{IMPORTED!r}: \['OK 1 6 0'\]")),
    "more refusals of a line are wanted": Fault({"growths_lines.LEAST": TOO_MANY}, MORE_WANTED),
    "more refusals of an opening are wanted": Fault(
        {"growths_lines.LEAST_STARTS": TOO_MANY}, "NOTHING TRIED"),
    "no refusal of a line is wanted": Fault(
        {"growths_lines.NONE_READ": ("OK", "END", "ERR")}, "refused, as if memory had run out")}
OF_ROOM = {
    "all is right": Fault(),
    "there is always room": Fault(
        {"growths_room.STEP": TOO_MANY}, "IMPORT r1: refused 1\nNOT TRIED", least=2),
    "more refusals are wanted": Fault(
        {"growths_room.LEAST_MADE": TOO_MANY, "growths_room.LEAST_OPENED": TOO_MANY}, MORE_WANTED,
        times=3, least=TOO_MANY),
    "a line is refused that takes nothing": Fault(
        told="NOT TRIED: no refusals of it are wanted", least=0),
    "another reply is expected": Fault(
        {"soak_model.Model.reply": lambda model, line: ["OK 1 6 1"]},
        r"WRONG: 'IMPORT r1': \['OK 1 6 0'\]")}


def change(patch: pytest.MonkeyPatch, changes: Mapping[str, object]) -> None:
    if shutil.which("cc") is None:
        pytest.skip("there is no C compiler")
    for name, value in changes.items():
        patch.setattr(name, value)


def is_told(fault: Fault, is_right: bool, printed: str) -> None:
    """A run is right where nothing has to be told, and else tells it."""
    assert is_right == (not fault.told), printed
    assert is_right or len(re.findall(fault.told, printed)) == fault.times, printed


@pytest.mark.parametrize("fault", OF_LINES.values(), ids=OF_LINES.keys())
def test_lines(place: Place, monkeypatch: pytest.MonkeyPatch, capsys: pytest.CaptureFixture[str],
               fault: Fault) -> None:
    # (That many lines are refused in one run can't be wanted of so few, nor that each seventh
    # request is one of the last line, which makes few.)
    few = {"growths_lines.MANY": 1, "growths_lines.ROW_STEP": 1}
    change(monkeypatch, few | dict(fault.changes))
    store = place.make_store("empty", layout=3)
    place.link_releases("r1")
    runs = Runs(Program(place.program, place.folder), place.folder, LINES, store)
    is_told(fault, runs.are_right(), capsys.readouterr().out)


@pytest.mark.parametrize("fault", OF_ROOM.values(), ids=OF_ROOM.keys())
def test_room(place: Place, monkeypatch: pytest.MonkeyPatch, capsys: pytest.CaptureFixture[str],
              fault: Fault) -> None:
    change(monkeypatch, {"growths_room.LINES": ((IMPORTED[2:], fault.least), ("TRIM", 0)),
                         **fault.changes})
    is_right = growths_room.are_right(Program(place.program, place.folder), place.folder)
    is_told(fault, is_right, capsys.readouterr().out)
