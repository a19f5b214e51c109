"""Tries the edits of crates, many in one check, each by the goals of its own function.

try_edits.py [--jobs N] [--must-fail] [--anew] [--logs FOLDER] CRATE[/EDIT]..
try_edits.py [--jobs N] [--must-fail] [--anew] [--logs FOLDER] --all

CRATE stands for the edits of its edits/, with --must-fail for those of its must-fail/ too, and
CRATE/EDIT for one edit of either folder; --all stands for every crate that has edits. CONTRIBUTING
says under "Edits" when one is refused, and what the record edits/tried has. (Where a function has
answers in proofs/, a change that means the same as before may be refused too, since they no longer
fit.) No proof reads the body of another function, so a check has edits of many functions, of which
none calls another one; an edit of what is no body, or whose check names no goal of its function, is
tried by a whole check of the crate. Each check of many edits also has a statement that does
nothing, planted in a function without an edit: where that isn't proved a refusal would say nothing,
the control is lost, and the crate fails.

A line for each edit says why it was refused. The last line counts the edits and those that were
not; the status is 1 where there are any. With --anew the lines of the edits that are tried go
first, and where a control is lost all that the run has added. A crate has to be proved and its work
kept, as `rt check` leaves it in out/. N checks go on at once, of whichever crates have one to make:
1 where none is given. What each check printed is written to FOLDER. It reads the kit's own scripts.
Standard library alone.
"""

import argparse
import datetime
import enum
import itertools
import os
import re
import shutil
import subprocess
import sys
import tempfile
import threading
from collections.abc import Iterable, Iterator
from concurrent.futures import Future, ThreadPoolExecutor
from dataclasses import dataclass
from importlib.machinery import SourceFileLoader
from pathlib import Path
from types import ModuleType
from typing import Any

import edits as editing
import grounds
from check_edits import faults_of_edits
from edits import EDITS, MUST_FAIL, PROOFS, SPECS, SRC, Edit, Line, Misfit, Record, texts_with
from source import TOP, Item, functions_of, parts_of_impl, read

# The statement that does nothing, and in how many functions it is tried before the edits.
PLANTED = " let planted = 0u8; let _ = planted;"
PLANTS = 6
# Where a crate has what a check of it kept.
KEPT = os.path.join("out", "incremental")

# What a check prints: of each function; of a goal that isn't proved, above its function's line; of
# an answer or a lemma in proofs/ that doesn't prove what it states, and of those that rest on one;
# and what it says of one if that only names what isn't there any more.
OF_FUNCTION = re.compile(r"fn (\w+)::(\S+): (.*)")
OF_GOAL = re.compile(r"note: \S+: it is not proved that .*?\(`([^`]+)`\)")
OF_PROOF = re.compile(r"(?:\./)?proofs/(\S+)\.antt:\d+:\d+: error: (.*)")
FAILED = re.compile(r"`([^`]+)`: (.*)")
RESTING = re.compile(r".* on `([^`]+)`, .* not checked: (.*)")
# What stands between the names of those that rest on a lemma: by which of them each does, too.
BETWEEN_NAMES = re.compile(r"(?: \(via \w+\))?(?:, | and \d+ more|$)")
LOST = re.compile(r"has no field|is not in scope|has no `|was not admitted|is no name")
UNPROVED = ("not proved", "no proof")
SEARCHED = re.compile(r"`search` did not prove ((?:`[^`]+`(?:, )?)+)")
ENDED = re.compile(r"(only=|logic=)\S+")


class Outcome(enum.Enum):
    """What a try of an edit came to."""

    REFUSED = "refused"
    PROVED = "NOT REFUSED: the crate is proved with this edit"
    UNEXPLAINED = "NOT REFUSED BY ITS REASON"
    NOT_COMPILED = "NOT COMPILED"
    NO_VERDICT = "NO VERDICT"


@dataclass(frozen=True)
class Verdict:
    """What a try of an edit came to, and what the check said."""

    edit: Edit
    outcome: Outcome
    why: str

    def __str__(self) -> str:
        return f"{self.edit}: {self.outcome.value}: {self.why}"


# An edit with the functions that it changes; and such edits.
Unsettled = tuple[Edit, frozenset[str]]
Batch = list[Unsettled]


class LostControl(Exception):
    """Why the refusals of a crate say nothing."""


def kit() -> Any:
    """The kit's `rt`, as a module."""
    path = os.path.realpath(shutil.which("rt") or sys.exit("rt is not on the path"))
    sys.path.insert(0, os.path.dirname(path))
    module = ModuleType("rt")
    module.__file__ = path
    SourceFileLoader("rt", path).exec_module(module)
    return module


def crates_of(rt: Any) -> dict[str, Any]:
    """The crates of the repository, by their names, as `rt ci` has them. (Its own `crates_of` puts
    aside what was kept.)"""
    rt.rtlib.Crate = rt.Crate
    return {crate.name: crate for crate in rt.rtlib.crates_below(TOP)}


def proved_owner(holder: Item | None) -> str | None:
    """The prover's name of an impl, by its type, or `Any` for one of its own parameters, and its
    trait; or of a trait."""
    if holder is None:
        return None
    if holder.sort == "trait":
        return holder.name
    trait, made = parts_of_impl(holder.head)
    name = re.split(r"\W", made)[0]
    is_parameter = re.match(rf"\s*<[^>]*\b{name}\b", holder.head)
    return ("Any" if name and is_parameter else name) + re.sub(r"\W", "", trait)


def proved_name(function: Item, names: Iterable[str]) -> str | None:
    """The prover's name of a function: of those in its module with its own name, the one whose type
    the head of the `impl` block names. A method may stand in another module than its type, by which
    the prover names it."""
    path, module = list[str](), function.module
    while module.above:
        path, module = [module.name, *path], module.above
    owner = proved_owner(function.holder)
    named = {name: name.split("::") for name in names if name.endswith(function.name)}
    named = {name: parts for name, parts in named.items() if parts[-1] == function.name}
    inside = [name for name, parts in named.items() if parts[: -2 if owner else -1] == path]
    owned = [name for name, parts in named.items() if owner and parts[-2:-1] == [owner]]
    both = [name for name in inside if name in owned]
    found = next((them for them in (both, inside, owned) if len(them) == 1), None)
    return found[0] if found else None


class Report:
    """What a check says of the functions of a crate, whose proofs are in a folder."""

    def __init__(self, ran: subprocess.CompletedProcess[str], crate: str, proofs: str) -> None:
        self.status, self.lines = ran.returncode, ran.stdout.rstrip("\n").split("\n")
        self.proofs = proofs
        self.said: dict[str, list[str]] = {}
        self.goals: dict[str, list[str]] = {}
        # By function, and "" for none, what its proofs don't prove; of each lemma that rests on one
        # which isn't true that one; and the goals of functions whose answers do.
        self.answers: dict[str, set[str]] = {}
        self.untrue: dict[str, str] = {}
        self.refuted: list[str] = []
        noted: list[str] = []
        for line in self.lines:
            goal, function, proof = (it.match(line) for it in (OF_GOAL, OF_FUNCTION, OF_PROOF))
            if proof:
                self.take_proof(function_of_folder(proof[1].rpartition("/")[0]), proof[2])
            elif goal:
                noted.append(goal[1])
            elif function and function[1] == crate:
                self.take_function(function[2], function[3], noted)
                noted = []

    def take_proof(self, function: str, said: str) -> None:
        """Takes what is said of an answer or a lemma that doesn't prove what it states, or of those
        that rest on one."""
        failed, resting = FAILED.match(said), RESTING.match(said)
        own = self.answers.setdefault(function, set())
        if failed and not LOST.search(failed[2]):
            own.add(failed[1])
            self.untrue.update({} if function else {failed[1]: failed[1]})
        elif resting:
            names = set(BETWEEN_NAMES.split(resting[2])) - {""}
            own |= names if resting[1] in own else set()
            if resting[1] in self.untrue:
                self.take_resting(function, names, self.untrue[resting[1]])

    def take_resting(self, function: str, names: set[str], lemma: str) -> None:
        """Takes what rests on a lemma that isn't true: goals of a function, or other lemmas."""
        goals = goals_answered(self.proofs, function) & names if function else set[str]()
        if goals:
            self.refuted.append(f"{function}: {min(goals)}, by its lemma {lemma}")
        else:
            self.untrue.update(dict.fromkeys(names, lemma))

    def take_function(self, name: str, said: str, noted: list[str]) -> None:
        """Takes the line of a function, above which these goals were noted."""
        self.said.setdefault(name, []).append(said)
        if said.startswith(UNPROVED):
            searched = SEARCHED.search(said)
            goals = re.findall(r"`([^`]+)`", searched[1]) if searched else []
            self.goals.setdefault(name, []).extend(goals or noted)

    def has_ended(self) -> bool:
        """Whether the prover came to an end with what it was asked."""
        return self.status in (0, 1) and ENDED.match(self.lines[-1]) is not None

    def is_proved(self, name: str) -> bool:
        return self.said.get(name) == ["proved"]

    def proved(self) -> set[str]:
        return {name for name in self.said if self.is_proved(name)}

    def reason(self, functions: Iterable[str] | None = None) -> str | None:
        """A goal that isn't proved, of one of these functions or of a closure of it, or of any
        function: one that was searched for, or else one whose answer no longer fits."""
        for function in [None] if functions is None else functions:
            own = [name for name in sorted(self.said) if not function or is_within(name, function)]
            own = [name for name in own if any(map(is_unproved, self.said[name]))]
            searched = (f"{it}: {self.goals[it][0]}" for it in own if self.goals.get(it))
            answered = (f"{it}: {min(goals)}, by its answer" for it in own if (
                goals := self.answers.get(it, set()) & goals_answered(self.proofs, it)))
            reason = next(itertools.chain(searched, answered), None)
            if reason:
                return reason
        return None

    def first_fault(self) -> str:
        """The first line that tells a fault, or the last one."""
        faults = [line for line in self.lines if re.search(r"\berror\b|not proved|no proof", line)]
        return (faults or self.lines[-1:])[0][:300]


def is_unproved(said: str) -> bool:
    """Whether a function's line says that it isn't proved, and not since its statement isn't."""
    return said.startswith(UNPROVED) and "did not admit" not in said


def function_of_folder(folder: str) -> str:
    """The function whose proofs a folder of proofs/ has. That of one that calls itself begins with
    a plus sign."""
    return folder.replace("/", "::").replace("::+", "::")


def folder_of(proofs: str, function: str) -> str | None:
    """The folder of a function's proofs, if it has one."""
    *around, own = function.split("::")
    folders = [os.path.join(proofs, *around, name) for name in (own, "+" + own)]
    return next((it for it in folders if os.path.isdir(it)), None)


def goals_answered(proofs: str, function: str) -> set[str]:
    """The goals of a function that have an answer."""
    folder = folder_of(proofs, function)
    path = os.path.join(folder, "Answers.antt") if folder else ""
    return set(re.findall(r"goal\.(\S+)", read(path))) if os.path.isfile(path) else set()


def is_within(name: str, function: str) -> bool:
    """Whether it is this function, by the prover's name, or a closure in it."""
    module, _, own = function.rpartition("::")
    inner = "::".join(filter(None, [module, "fn", own]))
    return name == function or name.startswith((f"{inner}::", f"{function}::"))


class Calls:
    """Which functions of a crate a function reaches, as the prover's kept files name them."""

    def __init__(self, crate: str, kept: str) -> None:
        self.reached: dict[str, set[str]] = {}
        self.direct: dict[str, set[str]] = {}
        head, ending = f"Rattle-{crate}-proofs.", ".Code.oantt"
        called = re.compile(rf"^--@ import {re.escape(head)}(\S+)\.Symbol ", re.M)
        for path in Path(kept).rglob(f"{head}*{ending}"):
            function = path.name.removeprefix(head).removesuffix(ending).replace(".", "::")
            found = called.findall(path.read_text("utf-8", "replace"))
            self.direct[function] = {it.replace(".", "::") for it in found} - {function}

    def reach(self, function: str) -> set[str]:
        if function not in self.reached:
            found: set[str] = set()
            left = [function]
            while left:
                new = self.direct.get(left.pop(), set()) - found
                found |= new
                left += new
            self.reached[function] = found
        return self.reached[function]

    def meet(self, ones: Iterable[str], others: Iterable[str]) -> bool:
        """Whether one of these functions is one of the others, or calls one, or is called."""
        return any(one == other or one in self.reach(other) or other in self.reach(one)
                   for one in ones for other in others)


class Checks:
    """The prover, so many of whose checks go on at once, of all crates together, and the folder to
    which what they print is written."""

    def __init__(self, rt: Any, jobs: int, logs: str | None) -> None:
        self.rt, self.jobs, self.logs = rt, jobs, logs
        self.turns, self.count = threading.BoundedSemaphore(jobs), itertools.count(1)

    def run(self, crate: Any, texts: dict[str, str], only: Iterable[str], kept: str) -> Report:
        """A check of a crate with these texts over what was kept, which it adds to."""
        words = ["--jobs", "1"] + [word for it in only for word in ("--only", it)]
        ran = self.rt.checked(crate, texts, words, kept)
        if self.logs:
            name = f"{self.logs}/{crate.name}.{next(self.count)}"
            with open(name, "w", encoding="utf-8") as file:
                file.write(ran.stdout)
        return Report(ran, crate.name, os.path.join(crate.folder, PROOFS))


class Trial:
    """The checks of one crate over what an earlier one kept."""

    def __init__(self, checks: Checks, crate: Any, room: str) -> None:
        self.checks, self.crate, self.folder, self.name = checks, crate, crate.folder, crate.name
        self.seed = os.path.join(room, crate.name)
        with checks.turns:
            checks.rt.linked(os.path.join(self.folder, KEPT), self.seed)
            unedited = checks.run(crate, {}, [], self.seed)
        if unedited.status != 0:
            raise LostControl("it isn't proved as it stands: run rt check first")
        self.names, self.calls = unedited.proved(), Calls(self.name, self.seed)
        # Functions whose proofs accept the statement that does nothing, by the prover's names.
        self.controls: dict[str, Item] = {}

    def over_copy(self, texts: dict[str, str], only: Iterable[str]) -> Report:
        """A check over a copy of what was kept, in its turn."""
        room = os.path.dirname(self.seed)
        with self.checks.turns, tempfile.TemporaryDirectory(dir=room) as own:
            self.checks.rt.linked(self.seed, f"{own}/kept")
            return self.checks.run(self.crate, texts, only, f"{own}/kept")

    def functions_of(self, edit: Edit) -> frozenset[str]:
        """The functions whose bodies an edit changes; none where it changes anything else."""
        changed = [proved_name(it, self.names) for it in grounds.tree().functions_of(edit)]
        names = frozenset(filter(None, changed))
        return names if all(changed) else frozenset()

    def plantable(self) -> dict[str, Item]:
        """Functions by their names: those first that have no proof file, whose answers a planted
        statement might no longer fit, and of these those that call no other."""
        found: list[tuple[bool, bool, str, Item]] = []
        for function in grounds.tree().crates[self.name].functions():
            name, holder = proved_name(function, self.names), function.holder
            is_of_trait = holder and (holder.sort == "trait" or parts_of_impl(holder.head)[0])
            if name and function.brace is not None and not is_of_trait:
                has_proof = folder_of(os.path.join(self.folder, PROOFS), name) is not None
                calls_one = bool(self.calls.direct.get(name, set()) & self.names)
                found.append((has_proof, calls_one, name, function))
        return {name: function for *_, name, function in sorted(found, key=lambda it: it[:3])}

    def planted(self, texts: dict[str, str], function: Item) -> dict[str, str]:
        """The texts with the statement that does nothing at the beginning of this function."""
        path = os.path.relpath(function.module.path, self.folder)
        text = texts.get(path) or read(function.module.path)
        same = [it.brace for it in functions_of(text) if it.brace is not None
                and (it.name, head_around(it)) == (function.name, head_around(function))]
        if len(same) != 1:
            raise LostControl(f"{function.name} stands in {path} {len(same)} times")
        at = same[0] + 1
        return {**texts, path: text[:at] + PLANTED + text[at:]}

    def find_controls(self) -> None:
        """Finds functions whose proofs accept the statement that does nothing."""
        chosen = dict(itertools.islice(self.plantable().items(), PLANTS))
        texts: dict[str, str] = {}
        for function in chosen.values():
            texts = self.planted(texts, function)
        report = self.over_copy(texts, sorted(chosen)) if chosen else None
        self.controls = {it: chosen[it] for it in sorted(chosen) if report and report.is_proved(it)}
        if not self.controls:
            raise LostControl("a statement that does nothing was refused wherever it was planted")

    def control_beside(self, functions: set[str]) -> str | None:
        """A control that is none of these functions, and calls none of them."""
        return next((name for name in self.controls
                     if not functions & ({name} | self.calls.reach(name))), None)

    def try_batch(self, batch: Batch) -> list[Verdict | Unsettled]:
        """Tries edits of different functions in one check: the verdict on each that is refused, and
        each edit of which it says nothing."""
        functions = {name for _, names in batch for name in names}
        texts, control = texts_with([edit for edit, _ in batch]), self.control_beside(functions)
        if control:
            texts = self.planted(texts, self.controls[control])
        report = self.over_copy(texts, sorted(functions | ({control} if control else set())))
        if not report.has_ended() and len(batch) > 1:
            half = len(batch) // 2
            return self.try_batch(batch[:half]) + self.try_batch(batch[half:])
        if report.has_ended() and control and not report.is_proved(control):
            raise LostControl(f"{control} isn't proved with a statement that does nothing")
        found: list[Verdict | Unsettled] = []
        for edit, names in batch:
            reason = report.reason(it for it in sorted(names) if len(report.said.get(it, [])) == 1)
            found.append(Verdict(edit, Outcome.REFUSED, reason) if reason else (edit, names))
        return found

    def try_alone(self, unsettled: Unsettled) -> Verdict:
        """Tries an edit by a whole check."""
        edit, functions = unsettled
        report = self.over_copy(texts_with([edit]), [])
        if report.status == 0:
            return Verdict(edit, Outcome.PROVED, report.lines[-1])
        if not report.has_ended():
            is_bad = any("error[" in line for line in report.lines)
            outcome = Outcome.NOT_COMPILED if is_bad else Outcome.NO_VERDICT
            return Verdict(edit, outcome, report.first_fault())
        reason = report.reason(sorted(functions) or None)
        if not functions and may_refute(edit):
            reason = reason or "; ".join(report.refuted)
        if reason:
            return Verdict(edit, Outcome.REFUSED, f"{reason} (whole check)")
        return Verdict(edit, Outcome.UNEXPLAINED, report.first_fault())


def head_around(function: Item) -> str:
    """The head of the impl or the trait around a function, or nothing."""
    return function.holder.sort + function.holder.head if function.holder else ""


def may_refute(edit: Edit) -> bool:
    """Whether an edit may make a lemma untrue: it changes sources or definitions, and no proof."""
    return all(it.path.startswith((f"{SRC}/", f"{SPECS}/")) for it in edit.changes)


def batches_of(edits: Batch, calls: Calls) -> list[Batch]:
    """The edits in as few checks as a first fit finds: in a check no two edits of one function, or
    of one that another one's calls, since the prover may wait for what is called."""
    batches: list[Batch] = []
    for edit, functions in sorted(edits, key=lambda it: -sum(len(calls.reach(f)) for f in it[1])):
        for batch in batches:
            if not any(calls.meet(functions, own) for _, own in batch) and fits(batch, edit):
                batch.append((edit, functions))
                break
        else:
            batches.append([(edit, functions)])
    return batches


def fits(batch: Batch, edit: Edit) -> bool:
    """Whether an edit can be applied beside these."""
    try:
        texts_with([*(it for it, _ in batch), edit])
    except Misfit:
        return False
    return True


def try_edits(trial: Trial, edits: list[Edit]) -> Iterator[Verdict]:
    """Tries the edits of a crate, and says what each came to as soon as its check has ended: first
    many in one check, then those that need a whole one, and what the former left unsettled."""
    every = [(edit, trial.functions_of(edit)) for edit in edits]
    alone = [it for it in every if not it[1]]
    trial.find_controls()
    batches = batches_of([it for it in every if it[1]], trial.calls)
    counts = f"{len(edits)} edits, {len(batches)} checks, {len(alone)} alone"
    print(f"{trial.name}: {counts}", flush=True)
    with ThreadPoolExecutor(trial.checks.jobs) as pool:
        for found in itertools.chain.from_iterable(pool.map(trial.try_batch, batches)):
            if isinstance(found, Verdict):
                yield found
            else:
                alone.append(found)
        yield from pool.map(trial.try_alone, alone)


def edits_asked(crate: str, wanted: set[str], has_must_fail: bool) -> list[Edit]:
    """The edits of a crate that are asked for: those with these names, or all of the folders."""
    every = editing.all_edits(crate)
    faults = list(faults_of_edits(every))
    unknown = wanted - {edit.name for edit in every}
    if faults or unknown:
        sys.exit("\n".join([*faults, *(f"{crate} has no edit {it}" for it in sorted(unknown))]))
    if wanted:
        return [edit for edit in every if edit.name in wanted]
    return [edit for edit in every if edit.folder == EDITS or has_must_fail]


class Refusals:
    """The edits of a crate that were refused, as its record has them. What is there of edits whose
    grounds are others now, or of an edit that has changed, goes."""

    def __init__(self, crate: str, forgotten: list[Edit]) -> None:
        self.crate, self.edits = crate, {edit.name: edit for edit in editing.all_edits(crate)}
        self.has_folder = any(edit.folder == EDITS for edit in self.edits.values())
        self.record = editing.record_of(crate) or Record("", grounds.kit_version(), {})
        names = self.edits.keys() - {edit.name for edit in forgotten}
        self.added: dict[str, Line] = {}
        self.found = {name: line for name, line in self.record.lines.items() if name in names
                      and grounds.why_stale(self.record, self.edits[name]) is None}
        self.write()

    def add(self, edit: Edit) -> None:
        self.added[edit.name] = line_of(edit)
        self.write()

    def take_back(self) -> None:
        """Takes away what was added."""
        self.added.clear()
        self.write()

    def are_of_sources(self) -> bool:
        """Whether the crate is as it was before, and what the refusals rest on."""
        edits = [self.edits[name] for name in self.added]
        before = grounds.whole(self.crate), [line_of(edit) for edit in edits]
        grounds.tree.cache_clear()
        grounds.whole.cache_clear()
        return before == (grounds.whole(self.crate), [line_of(edit) for edit in edits])

    def write(self) -> None:
        """Writes the record, or removes it where it has no line, or the crate no edits/."""
        day = datetime.date.today().isoformat() if self.added else self.record.day
        lines = self.found | self.added
        kit = self.record.kit if self.found else grounds.kit_version()
        editing.write_record(self.crate, Record(day, kit, lines if self.has_folder else {}))


def line_of(edit: Edit) -> Line:
    """The line of an edit that is refused as the sources stand."""
    return Line(editing.checksum_of(edit), grounds.tree().checksum(edit))


def try_crate(trial: Trial, edits: list[Edit], kept: Refusals) -> list[str]:
    """Tries edits of a crate, and returns those that aren't refused by their reasons."""
    verdicts: list[Verdict] = []
    for verdict in try_edits(trial, edits):
        print(verdict, flush=True)
        verdicts.append(verdict)
        if verdict.outcome is Outcome.REFUSED:
            kept.add(verdict.edit)
    if sorted(str(it.edit) for it in verdicts) != sorted(map(str, edits)):
        raise LostControl(f"{len(edits)} edits, and {len(verdicts)} verdicts")
    return [str(it.edit) for it in verdicts if it.outcome is not Outcome.REFUSED]


def try_rest(checks: Checks, crate: Any, edits: list[Edit], is_anew: bool) -> list[str]:
    """Tries those edits of a crate that an earlier try didn't refuse, and returns those that aren't
    refused now either; or the crate itself, where nothing is known of its edits."""
    kept = Refusals(crate.name, edits if is_anew else [])
    left = [edit for edit in edits if edit.name not in kept.found]
    if len(left) < len(edits):
        count, day = len(edits) - len(left), kept.record.day
        print(f"{crate.name}: {count} edits were refused before, by {day}")
    if not left:
        return []
    try:
        if not os.path.isdir(os.path.join(crate.folder, KEPT)):
            raise LostControl("no check of it is kept: run rt check first")
        with tempfile.TemporaryDirectory(prefix="try-edits-") as room:
            missed = try_crate(Trial(checks, crate, room), left, kept)
        if not kept.are_of_sources():
            raise LostControl("it was changed meanwhile, or a crate below it")
    except LostControl as why:
        kept.take_back()
        print(f"{crate.name}: LOST CONTROL: {why}", flush=True)
        return [crate.name]
    return missed


def try_all(checks: Checks, crates: dict[str, Any], asked: dict[str, list[Edit]],
            is_anew: bool) -> list[str]:
    """Tries the edits of these crates, the crates with the most edits first, and returns those that
    aren't refused. As many crates are begun as checks go on, and one more, so that while one waits
    for its last check another has some to make."""
    order = sorted(asked, key=lambda name: -len(asked[name]))
    with ThreadPoolExecutor(checks.jobs + 1) as pool:
        tried: list[Future[list[str]]] = [
            pool.submit(try_rest, checks, crates[name], asked[name], is_anew) for name in order]
        return [edit for crate in tried for edit in crate.result()]


def arguments() -> argparse.Namespace:
    asked = argparse.ArgumentParser(description="tries the edits of crates, many in one check")
    asked.add_argument("--jobs", type=int, default=1)
    asked.add_argument("--must-fail", action="store_true", help=f"those of {MUST_FAIL}/ too")
    asked.add_argument("--anew", action="store_true", help="those that were refused before too")
    asked.add_argument("--logs", metavar="FOLDER")
    asked.add_argument("--all", action="store_true", help="every crate that has edits")
    asked.add_argument("names", nargs="*", metavar="CRATE[/EDIT]")
    given = asked.parse_args()
    if given.all == bool(given.names):
        asked.error("either names or --all")
    os.makedirs(given.logs or TOP, exist_ok=True)
    given.logs = given.logs and os.path.abspath(given.logs)
    return given


def asked_for(given: argparse.Namespace, crates: Iterable[str]) -> dict[str, list[Edit]]:
    """The edits that are asked for, by their crates."""
    names = list(crates) if given.all else given.names
    found = {}
    for name in dict.fromkeys(it.partition("/")[0] for it in names):
        if name not in crates:
            sys.exit(f"there is no crate {name}")
        wanted = {it.partition("/")[2] for it in names if it.startswith(f"{name}/")}
        found[name] = edits_asked(name, wanted, given.must_fail)
    return {name: edits for name, edits in found.items() if edits}


def main() -> int:
    given = arguments()
    os.chdir(TOP)
    rt = kit()
    rt.rtlib.guarded()
    crates = crates_of(rt)
    asked = asked_for(given, crates)
    missed = try_all(Checks(rt, given.jobs, given.logs), crates, asked, given.anew)
    tried = sum(map(len, asked.values()))
    print(f"{tried} edits tried, {len(missed)} not refused{''.join(f' {it}' for it in missed)}")
    return 1 if missed else 0


if __name__ == "__main__":
    sys.exit(main())
