"""Part of refuse_growths.py: lines that are served with little memory, and the model's replies."""

import hashlib
import re
import shutil
from collections import Counter
from pathlib import Path
from typing import NamedTuple, Optional, Sequence

import soak
from case_texts import FOLDER
from growths_harness import (ALL_BEHIND, ALONE, OUT_OF_MEMORY, Program, Refusals, told, try_each,
                             ways_to_be_refused)
from harness import RELEASES, TOP, Place, Ran, Wrong, replies_in
from soak_model import KINDS, File, Model, Reply

import make_release as rf2  # soak.py looks for it.

REFUSED = [OUT_OF_MEMORY.strip()]
# The lines that take no memory, and those that are refused for what they say: no such line is
# refused because memory ran out.
NEVER = re.compile("[0-9]+ ((AT [0-9]+ )?RECEIPT|PIN|UNPIN|STATUS|MERGE|PUBLISH|ABANDON|TRIM)( |$)")
NONE_READ = ("ERR 41 ", "ERR 42 ", "ERR 43 ")
# How many requests in a row are refused, of how many numbers each first one, so that lines come
# again after some were refused; of how many the runs are in which all behind one are; and of how
# many those in which the line that was refused comes again at once.
IN_A_ROW, ROW_STEP, ALL_STEP, AGAIN_STEP = 40, 7, 10, 10
# How many lines have to be refused in one of the runs.
MANY = 5
# How often each line of a script has to be refused alone, and a run at its start; and the line that
# takes no memory, since it is asked of a store without rows.
LEAST, LEAST_STARTS = 1, 1
TAKE_NONE = ("0 GET C 138875005 20230131",)


class Outcome(NamedTuple):
    """What came of a run: whether it was refused at its start, the places of the lines that were
    refused, and how many imports there are then."""

    is_start: bool
    refused: Sequence[int]
    imports: int


class Runs:
    """All runs on the same lines, on a store that some lines have made before."""

    def __init__(self, program: Program, folder: Path, lines: Sequence[str], store: Path,
                 before: Sequence[str] = ()) -> None:
        self.program, self.folder, self.lines = program, folder, lines
        self.store, self.before, self.files = store, before, samples()
        self.never = {line for line in lines if NEVER.match(line)
                      or Model({}).reply(line)[-1].startswith(NONE_READ)}
        self.untouched = store.read_bytes()
        # The stores that were looked at, with what they have to hold.
        self.looked_at: set[tuple[bytes, str, str]] = set()
        self.outcomes: dict[int, list[Outcome]] = {ALONE: [], IN_A_ROW: [], ALL_BEHIND: []}

    def model(self) -> Model:
        """The model of the store that a run begins with."""
        model = Model(self.files, keeps_all=True)
        for line in self.before:
            model.reply(line)
        model.state, model.pins = model.state.reopened(), {}
        return model

    def serve(self, folder: Path, lines: Sequence[str],
              refusals: Optional[Refusals] = None) -> tuple[Ran, bool]:
        words = ["serve", "--store", "store", "--releases", str(self.folder / "releases")]
        given = "".join(line + "\n" for line in lines)
        return self.program.run(words, folder, given, refusals)

    def check(self, model: Model, lines: Sequence[str], replies: Sequence[Reply]) -> list[int]:
        """Compares replies, and gives the places of refused lines, which the model isn't told."""
        refused = []
        for place, (line, said) in enumerate(zip(lines, replies)):
            if said == REFUSED:
                refused.append(place)
                if line in self.never:
                    raise Wrong("%r: refused, as if memory had run out" % line)
            elif said != model.reply(line):
                raise Wrong("%r: %r" % (line, said[:3]))
        return refused

    def outcome(self, place: int, lines: Sequence[str], refusals: Refusals) -> Optional[Outcome]:
        """What comes of a run; none where no request was refused in it."""
        folder = self.folder / ("place%d" % place)
        folder.mkdir(exist_ok=True)
        shutil.copyfile(self.store, folder / "store")
        ran, was_refused = self.serve(folder, lines, refusals)
        replies = replies_in(ran.output)
        model = self.model()
        if was_refused and ran.status == 1 and ran[1:] in ways_to_be_refused("store"):
            if (folder / "store").read_bytes() != self.untouched:
                raise Wrong("refused at its start, and another store afterwards")
            return Outcome(True, (), model.state.imports)
        if ran.status or len(replies) != len(lines):
            raise Wrong("%d replies, %s" % (len(replies), told(ran)))
        refused = self.check(model, lines, replies)
        if len(refused) > (refusals.how_many if was_refused else 0) >= 0:
            raise Wrong("%d lines refused" % len(refused))
        self.look(folder, model)
        return Outcome(False, refused, model.state.imports) if was_refused else None

    def look(self, folder: Path, model: Model) -> None:
        """Opens the store once more, and compares what it holds."""
        model.state, model.pins = model.state.reopened(), {}
        data = hashlib.sha256((folder / "store").read_bytes()).digest()
        seen = (data, model.state.status(), model.reply("0 DIGEST")[0])
        if seen in self.looked_at:
            return
        lines = ["0 STATUS"] + ["0 PAGE %s 99991231 - 1000" % kind for kind in KINDS]
        ran, _ = self.serve(folder, lines)
        if replies_in(ran.output) != [model.reply(line) for line in lines]:
            raise Wrong("another store afterwards")
        self.looked_at.add(seen)

    def run(self, place: int, refusals: Refusals) -> bool:
        """Makes a run; whether a request was refused in it."""
        outcome = self.outcome(place, self.lines, refusals)
        if outcome is None:
            return False
        self.outcomes[refusals.how_many].append(outcome)
        if refusals.how_many == ALONE and outcome.refused and refusals.first % AGAIN_STEP == 0:
            self.run_again(place, refusals, outcome.refused[0])
        return True

    def run_again(self, place: int, refusals: Refusals, at: int) -> None:
        """The same, but that the line which is refused comes twice: so it is answered then."""
        lines = [*self.lines[:at + 1], *self.lines[at:]]
        outcome = self.outcome(place, lines, refusals)
        if outcome is None or list(outcome.refused) != [at]:
            raise Wrong("%r comes twice: %s" % (lines[at], outcome))

    def are_right(self) -> bool:
        """Makes them, and prints what came; whether each was as it has to be."""
        for count, step in ((ALONE, 1), (IN_A_ROW, ROW_STEP), (ALL_BEHIND, ALL_STEP)):
            try:
                try_each(lambda place, first: self.run(place, Refusals(first, count)), step)
            except Wrong as wrong:
                print("WRONG with %d refused: %s" % (count, wrong))
                return False
        print("lines %d" % len(self.lines))
        alone, several = self.outcomes[ALONE], self.outcomes[IN_A_ROW] + self.outcomes[ALL_BEHIND]
        starts = sum(outcome.is_start for outcome in alone)
        refused = sum(len(outcome.refused) for outcome in alone)
        most = max((len(outcome.refused) for outcome in several), default=0)
        print("calls refused in turn %d" % len(alone))
        print("runs refused at their start %d" % starts)
        print("lines refused %d" % refused)
        print("refusals that show in no reply %d" % (len(alone) - starts - refused))
        print("runs with several calls refused %d, lines refused in one %d" % (len(several), most))
        if starts < LEAST_STARTS or not refused or most < MANY or not self.have_imports(several):
            print("NOTHING TRIED: no run was refused at its start, or none in a line, or too few "
                  "lines in one, or each import or none")
            return False
        return self.is_each_refused(alone)

    def is_each_refused(self, alone: Sequence[Outcome]) -> bool:
        """Whether each line that takes memory was refused in some run of these, each of which
        refuses one request; prints how often that was, of the line for which it is least."""
        counts = Counter(place for outcome in alone for place in outcome.refused)
        taking = [place for place, line in enumerate(self.lines)
                  if line not in self.never and line not in TAKE_NONE]
        least = min(taking, key=lambda place: counts[place])
        line = self.lines[least]
        print("refusals of %r, fewer than of any other line: %d" % (line, counts[least]))
        if counts[least] < LEAST:
            print("NOT TRIED: %d refusals of it are wanted" % LEAST)
            return False
        return True

    def have_imports(self, several: Sequence[Outcome]) -> bool:
        """Whether one of these runs refused all imports and another made one, if there are any."""
        before = self.model().state.imports
        came = {outcome.imports > before for outcome in several if outcome.refused}
        are_there = any(outcome.imports > before for outcome in self.outcomes[ALONE])
        return came == {False, True} or not are_there


# What is sent, as growths.txt says: further questions, what comes again, and lines for little room.
_, *ASKED = Path(__file__).with_name("growths.txt").read_text("utf-8").split("\n\n")
# The lines of the demonstration: those that change the store, with a merge that is given up, and
# with a second step, of more than one row, since a step that is refused behind it gives back its
# own rows alone; and what it asks then.
SAID = [line[2:] for line in (FOLDER / "demonstration.txt").read_text("utf-8").splitlines()
        if line.startswith("> ")]
CHANGES = SAID[: SAID.index("0 PUBLISH") + 1]
CHANGES[CHANGES.index("0 MERGE") : CHANGES.index("0 STEP 1") + 1] = [
    "0 MERGE", "0 ABANDON", "0 MERGE", "0 STEP 1", "0 STEP 2"]
MORE, AGAIN = ASKED[0].splitlines(), ASKED[1].splitlines()
QUESTIONS = SAID[SAID.index("0 PUBLISH") + 1 :] + MORE
FOLDERS = {"whole": TOP / "docs" / "package" / "Full",
           **{folder.name: folder for folder in RELEASES.iterdir()}}


def samples() -> dict[str, list[File]]:
    """The files of each release that the lines import, as the model takes them."""
    sorts = sorted(rf2.BASIC_SORTS | rf2.FURTHER_SORTS, key=soak.place_of)
    return {name: [File(rf2.SORTS[sort].kind, True, rows) for sort in sorts
                   if (rows := list(rf2.rows_of(folder, sort)))]
            for name, folder in FOLDERS.items()}


def are_right(program: Program, folder: Path) -> bool:
    """Makes the runs of the demonstration's lines, and of its questions on the store that it
    leaves; whether each was as it has to be."""
    empty, full, releases = (folder / name for name in ("empty", "full", "releases"))
    releases.mkdir()
    for name, path in FOLDERS.items():
        (releases / name).symlink_to(path)
    Place(program.program, folder).done("init", "--store", empty)
    script = Runs(program, folder, CHANGES + QUESTIONS + AGAIN, empty)
    shutil.copyfile(empty, folder / "store")
    script.serve(folder, CHANGES)
    (folder / "store").rename(full)
    asked = Runs(program, folder, QUESTIONS, full, CHANGES)
    return all([each.are_right() for each in (script, asked)])
