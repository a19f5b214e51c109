"""Checks the promises of docs/internals/PROMISES.md against the sources.

promises.py says what a promise is, how clauses name it and what its list has. Here each promise has
to have a name of its own, a clause, and an edit, a test, a case or a trial; where it has edits
alone, one of them has to be in must-fail/, whose edits CI tries. Each name in shown_by.txt has to
be that of a promise, and each below it that of an edit, a test, a case or a text in a trial that CI
makes. Each line `// promise:` of the sources has to stand directly above a clause, and to name
promises. What README names as `crate::function` or `crate::laws::law` has to have such a line, and
the list in PROMISES has to be the one that promises.py makes now.
"""

import functools
import os
import re
import sys
from collections.abc import Iterator

import edits
import grounds
from edits import MUST_FAIL
from promises import DOCUMENT, SHOWN, Clause, Promise, clauses, label, made_list, promises, rows
from promises import shown_by, written_list
from source import TOP, files_of, functions_of, read, tell

TRIALS = os.path.join(TOP, "bench", "trials")
sys.path.append(TRIALS)
from case_texts import names_of_cases  # noqa: E402
from try_program import SCRIPTS  # noqa: E402

# The trial that asks the cases of bench/cases/.
TRANSCRIPTS = "try_cases"
# What makes the trials of the files that it is given by their names.
BY_PYTEST = "trials/by_pytest.py"
CASE = re.compile(r"^case (.+)$", re.M)
# A function of a crate, as README names it.
NAMED = re.compile(r"`(\w+)::((?:laws::)?[a-z]\w*)(?: · \w+)?`")


@functools.lru_cache(maxsize=None)
def shown_names() -> set[str]:
    """All edits, tests and cases."""
    found = {str(edit) for crate in grounds.tree().crates for edit in edits.all_edits(crate)}
    found.update(f"{TRANSCRIPTS}: {name}" for name in names_of_cases())
    for crate, own in grounds.tree().crates.items():
        for path in files_of(os.path.join(own.folder, edits.SRC), ".rt"):
            found.update(f"{crate}::{it.name}" for it in functions_of(read(path)) if it.is_test)
        for path in files_of(os.path.join(own.folder, "data", "cases"), ".txt"):
            found.update(f"{crate}: {name}" for name in CASE.findall(read(path)))
    return found


@functools.lru_cache(maxsize=None)
def trials() -> dict[str, str]:
    """The texts of the trials that CI makes."""
    paths = [path for script, *words in SCRIPTS for path in (
        [f"trials/test_{word}.py" for word in words] if script == BY_PYTEST else [script])]
    return {os.path.basename(path)[: -len(".py")]: read(os.path.join(TOP, "bench", path))
            for path in paths}


def is_shown(name: str) -> bool:
    script, _, text = name.partition(": ")
    return name in shown_names() or len(text) > 0 and text in trials().get(script, "")


def tried_by_ci() -> set[str]:
    """The edits that CI tries."""
    return {str(edit) for crate in grounds.tree().crates
            for edit in edits.edits_of(crate, MUST_FAIL)}


def faults_of_promise(promise: Promise) -> Iterator[str]:
    """What isn't so of a promise."""
    own = [row for row in rows() if row.promise == promise.name]
    if not own:
        yield "no clause has its name"
    for name in promise.shown:
        if not is_shown(name):
            yield f"{name} is no edit, no test, no case and no trial"
    shown = {str(edit) for row in own for edit in row.edits} | set(promise.shown)
    if not shown:
        yield "it has no edit, no test, no case and no trial"
    elif all("/" in name for name in shown) and not shown & tried_by_ci():
        yield f"it has edits alone, and none of them is in {MUST_FAIL}/"


def faults_of_clause(clause: Clause, names: set[str]) -> Iterator[str]:
    """What isn't so of a line `// promise:`."""
    if clause.item is None:
        yield "no clause stands below it"
    for name in clause.promises:
        if name not in names:
            yield f"there is no promise {name}"


def faults_of_readme() -> Iterator[str]:
    """The functions that README names and that have no promise."""
    known = {(it.crate, label(it.item)) for it in clauses() if it.item}
    for crate, name in NAMED.findall(read(os.path.join(TOP, "README.md"))):
        if (crate, name) not in known:
            yield f"README.md: no clause of {crate}::{name} has a promise"


def faults() -> Iterator[str]:
    """What isn't so, with its place."""
    names: set[str] = set()
    for promise in promises():
        place = f"{DOCUMENT}:{promise.line}: {promise.name}"
        yield from (f"{place}: {fault}" for fault in faults_of_promise(promise))
        if promise.name in names:
            yield f"{place}: another promise has this name"
        names.add(promise.name)
    for clause in clauses():
        place = f"{os.path.relpath(clause.path, TOP)}:{clause.line}"
        yield from (f"{place}: {fault}" for fault in faults_of_clause(clause, names))
    yield from (f"{SHOWN}: there is no promise {name}" for name in shown_by() if name not in names)
    yield from faults_of_readme()
    if written_list() != made_list():
        yield f"{DOCUMENT}: the list isn't that of the sources: promises.py --renew"


if __name__ == "__main__":
    count = len(promises())
    sys.exit(tell(faults(), f"{count} promises with {len(clauses())} clauses, %d not so", count))
