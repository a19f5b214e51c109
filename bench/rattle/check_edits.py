"""Checks that each edit fits the sources, and that those of edits/ were tried as they stand.

CONTRIBUTING says under "Edits" what an edit is, and what the record edits/tried of a crate has. A
crate that has edits in edits/ has to have this record, with a line for each of them and of its
grounds as they stand; and no line may name what is no edit. How many lines were made with another
version of the kit than the one on the path is said, and is no fault: nobody can try all edits on
the day of a new kit.
"""

import glob
import os
import sys
from collections.abc import Iterator

from edits import EDITS, ENDING, FOLDERS, RECORD, Edit, Misfit
from edits import all_edits, edits_of, record_of, texts_with
from grounds import Stale, kit_version, why_stale
from source import TOP, folder_of, tell

# Why a line doesn't count.
FAULTS = [why for why in Stale if why is not Stale.OTHER_KIT]


def faults_of_edits(edits: list[Edit]) -> Iterator[str]:
    """What isn't so of the edits of a crate."""
    for edit in edits:
        label = f"{edit.folder}/{edit.name}{ENDING}"
        try:
            if not edit.changes:
                raise Misfit("it has no pair of an old and a new text")
            texts_with([edit])
        except Misfit as why:
            yield f"{label}: {why}"
    names = [edit.name for edit in edits]
    for name in sorted({name for name in names if names.count(name) > 1}):
        yield f"{name} stands in {' and in '.join(FOLDERS)}"


def faults_of_files(crate: str) -> Iterator[str]:
    """The files beside a crate's edits that are none, and so would never be tried."""
    for folder in FOLDERS:
        for path in glob.glob(os.path.join(folder_of(crate), folder, "*")):
            inside = os.path.relpath(path, folder_of(crate))
            if not (inside == RECORD or path.endswith(ENDING) and os.path.isfile(path)):
                yield f"{inside} is no edit"
    if os.path.exists(os.path.join(folder_of(crate), RECORD)) and not edits_of(crate, EDITS):
        yield f"there is {RECORD}, and no edit beside it"


def faults_of_record(crate: str, edits: list[Edit]) -> Iterator[str]:
    """What isn't so of a crate's record, where it has to have one."""
    if not any(edit.folder == EDITS for edit in edits):
        return
    record = record_of(crate)
    if record is None:
        yield f"there is no {RECORD} that says which of its edits were refused"
        return
    stale = [(edit, why_stale(record, edit)) for edit in edits]
    for why in FAULTS:
        named = [edit.name for edit, found in stale if found is why
                 and (why is not Stale.NO_LINE or edit.folder == EDITS)]
        if named:
            yield f"{len(named)} stale, {why.value}: {', '.join(named)}"
    for name in sorted(record.lines.keys() - {edit.name for edit in edits}):
        yield f"{RECORD} has a line for {name}, which is no edit"


def main() -> int:
    count, other, unknown, wrong = 0, 0, 0, list[str]()
    for crate in sorted(os.listdir(os.path.join(TOP, "crates"))):
        edits = all_edits(crate)
        stale = (f"{fault}: run python3 bench/rattle/try_edits.py {crate}"
                 for fault in faults_of_record(crate, edits))
        wrong += (f"{crate}: {fault}"
                  for fault in (*faults_of_files(crate), *faults_of_edits(edits), *stale))
        count += len(edits)
        record = record_of(crate)
        if record and record.kit is None:
            unknown += len(record.lines)
        elif record and record.kit != kit_version():
            other += len(record.lines)
    print(f"{other} lines are of another version of the kit", file=sys.stderr)
    print(f"{unknown} lines don't say with which version of the kit", file=sys.stderr)
    return tell(wrong, f"{count} edits, %d not so", count)


if __name__ == "__main__":
    sys.exit(main())
