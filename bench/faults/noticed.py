"""Tells which cases, tests and programs notice an edit: what fails with the wrong body built in.

noticed.py [--by CRATE,..] [--keep FOLDER] [--alone] CRATE[/EDIT] ..

The functions that the edits change get a copy each with the edit, in a copy of this repository; a
function calls its copy while the edit's number is in a byte of the built program. There each crate
of `--by` is built once by `rt try`, which proves nothing, and run once as it is and once with each
edit's number in the byte. An edit of what is no function of its own (a constant, a function of a
trait) can't be planted so, which is told: put it in by hand. `try_cases` stands in `--by` for the
transcripts of bench/cases/. The status is 1 where an edit isn't noticed.
"""

import argparse
import re
import sys
import tempfile
from pathlib import Path

TOP = Path(__file__).resolve().parents[2]
sys.path += [str(TOP / "bench"), str(TOP / "bench" / "rattle")]
from always_refused import SWITCH, Tests, add_switch, at_its_begin, copied, crate_of  # noqa: E402
from always_refused import is_program, programs  # noqa: E402
from edits import Change, Edit, all_edits  # noqa: E402
from source import Item, function_around, parameters, parts_of_impl  # noqa: E402
from unproved import Builder, kit_folder  # noqa: E402

BY = "layer_cases,store_cases,history_cases,try_cases"
# The number of an edit is one byte, and 0 is none.
MOST = 255


def edits_named(name: str) -> list[Edit]:
    """The edits of a crate, or the one of a name `CRATE/EDIT`."""
    crate, _, edit = name.partition("/")
    found = [one for one in all_edits(crate) if edit in ("", one.name)]
    if not found:
        raise SystemExit("noticed.py: there is no edit %s" % name)
    return found


def call_of(name: str, names: list[str], is_method: bool) -> str:
    """A call of a function with its own parameters."""
    if names and names[0] == "self":
        return "self.%s(%s)" % (name, ", ".join(names[1:]))
    return "%s%s(%s)" % ("Self::" if is_method else "", name, ", ".join(names))


def planted(text: str, function: Item, is_method: bool, changes: list[Change], number: int) -> str:
    """The text of a file with a changed copy of a function before it, which it calls while the
    number is on."""
    changed, name = function.text, function.name
    for change in changes:
        changed = changed.replace(change.old, change.new, 1)
    copied = f"{name}_edited_{number}"
    changed = re.sub(rf"\bfn {name}\b", f"fn {copied}", changed, count=1)
    call = call_of(copied, parameters(function.head.strip()), is_method)
    text = at_its_begin(text, function, f"if {SWITCH}::is_on({number}) {{ return {call}; }}")
    return text[: function.begin] + changed + text[function.begin :]


def plant(top: Path, edit: Edit, number: int) -> None:
    """Plants an edit in a copy of the repository. A ValueError says why it can't be."""
    for file in dict.fromkeys(change.path for change in edit.changes):
        path = top / "crates" / edit.crate / file
        text = path.read_text(encoding="utf-8")
        of_function: dict[int, list[Change]] = {}
        for change in (change for change in edit.changes if change.path == file):
            # Changed copies stand before their functions.
            of_function.setdefault(place_in(text, change), []).append(change)
        for at in sorted(of_function, reverse=True):
            found = function_around(text, at)
            assert found
            function, holder = found
            if holder and (holder.sort == "trait" or parts_of_impl(holder.head)[0]):
                raise ValueError("it changes a function of a trait")
            text = planted(text, function, holder is not None, of_function[at], number)
        path.write_text(text, encoding="utf-8")


def place_in(text: str, change: Change) -> int:
    """Where the function begins that a change changes."""
    at = text.rfind(change.old)
    found = function_around(text, at)
    if at < 0 or found is None:
        raise ValueError(f"{change.old!r} isn't there" if at < 0 else "it changes no function")
    return found[0].begin


def plant_all(top: Path, edits: list[Edit]) -> dict[int, Edit]:
    """Plants the edits that can be, each under its number; the others are told."""
    planted = {}
    for number, edit in enumerate(edits, 1):
        try:
            plant(top, edit, number)
            planted[number] = edit
        except (ValueError, StopIteration) as why:
            print("%s: NOT PLANTED: %s" % (edit, why), flush=True)
    add_switch(top, {edit.crate for edit in planted.values()})
    return planted


def told(crate: str, failed: list[str]) -> list[str]:
    """What fails of a crate with an edit, each behind the crate's name."""
    return ["%s `%s`" % (crate, what) for what in failed]


def seen_in(top: Path, edits: list[Edit], crates: list[str]) -> dict[Edit, list[str]]:
    """What fails with each edit that can be planted, of programs that are built once."""
    planted = plant_all(top, edits)
    seen: dict[Edit, list[str]] = {edit: [] for edit in planted.values()}
    for tests in programs(top, crates):
        for number, edit in planted.items():
            failed = tests.failed(number)
            seen[edit] += told(tests.name, ["(too slow)"] if failed is None else failed)
    return seen


def put_in(top: Path, edit: Edit) -> None:
    """Puts an edit into a copy of the repository, as it is."""
    for change in edit.changes:
        path = top / "crates" / edit.crate / change.path
        text = path.read_text(encoding="utf-8")
        path.write_text(text.replace(change.old, change.new, 1), encoding="utf-8")


def failed_with(edit: Edit, name: str) -> list[str]:
    """What fails of a crate that is built with the edit."""
    kit = kit_folder()
    with copied() as top, tempfile.TemporaryDirectory() as place:
        put_in(top, edit)
        crate, builder = crate_of(top, name), Builder(kit, Path(place), is_run=False)
        builder.run(crate, [] if is_program(crate) else ["--test"])
        if not builder.program.exists():
            return ["(it can't be built)"]
        tests = Tests(kit, top, name, builder.program)
        found = tests.run(builder.program)
        return ["(nothing was run)"] if found is None else found


def main() -> int:
    assert __doc__
    parser = argparse.ArgumentParser(description=__doc__.strip().split("\n", maxsplit=1)[0])
    parser.add_argument("edits", nargs="+", metavar="CRATE[/EDIT]")
    parser.add_argument("--by", default=BY, help="the crates whose tests and cases are run")
    parser.add_argument("--alone", action="store_true", help="build anew for each edit")
    parser.add_argument("--keep", type=Path, help="the folder of the copy, which stays")
    asked = parser.parse_args()
    edits = [edit for name in asked.edits for edit in edits_named(name)]
    by = asked.by.split(",")
    if len(edits) > MOST and not asked.alone:
        parser.error("at most %d edits can be tried together" % MOST)
    if asked.alone:
        seen = {edit: [one for name in by for one in told(name, failed_with(edit, name))]
                for edit in edits}
    else:
        with copied(asked.keep) as top:
            seen = seen_in(top, edits, by)
    for edit, by_what in seen.items():
        print("| %s | %s |" % (edit, ", ".join(by_what[:3]) or "NOTICED BY NOTHING"))
    unseen = len(edits) - sum(bool(by_what) for by_what in seen.values())
    print("%d edits, %d not noticed" % (len(edits), unseen))
    return 1 if unseen else 0


if __name__ == "__main__":
    sys.exit(main())
