#!/usr/bin/env python3
"""Tries which changes make an edit stale, on a tree of four small crates.

try_grounds.py

A record is written of the tree small_crates/. There crates.txt is called uses.txt, and sources have
.txt behind their names, since rt takes each such file of a repository for one of its crates. Each
change of changes.txt puts a text in the place of another one, and names the edits that are stale by
that record then, as grounds.py finds. A line tells each change that isn't so. The last line counts
them; the status is 1 where there are any. Nothing is built, and the kit isn't asked for its
version. Standard library alone.
"""

from __future__ import annotations

import os
import shutil
import subprocess
import sys
import tempfile
from pathlib import Path

sys.path.append(str(Path(__file__).resolve().parents[1] / "faults"))
from fault_tables import Fault, faults_in  # noqa: E402

TREE = Path(__file__).with_name("small_crates")
SCRIPTS = ("edits.py", "grounds.py", "source.py")

# Prints the edits of the tree, in which the scripts stand, that are stale by its record; or writes
# that.
ASK = """
import sys, edits, grounds
grounds.kit_version = lambda: "kit"
every, tree = edits.all_edits("top"), grounds.tree()
if "write" in sys.argv:
    lines = {it.name: edits.Line(edits.checksum_of(it), tree.checksum(it)) for it in every}
    edits.write_record("top", edits.Record("2026-11-29", "kit", lines))
record = edits.record_of("top")
print(*sorted(it.name for it in every if grounds.why_stale(record, it)))
"""


def write_tree(top: Path) -> None:
    shutil.copytree(TREE, top, dirs_exist_ok=True)
    (top / "uses.txt").rename(top / "crates.txt")
    for path in top.glob("crates/*/*/*.txt"):
        path.rename(path.with_suffix(""))
    scripts = top / "bench" / "rattle"
    scripts.mkdir(parents=True)
    for name in SCRIPTS:
        shutil.copy(TREE.with_name(name), scripts)


def ask(top: Path, *words: str) -> str:
    """The edits of the tree that are stale."""
    environment = os.environ | {"PYTHONPATH": str(top / "bench" / "rattle")}
    run = subprocess.run([sys.executable, "-c", ASK, *words], env=environment,
                         capture_output=True, text=True, check=False)
    return run.stdout.strip() if run.returncode == 0 else run.stderr


def after(top: Path, change: Fault) -> str:
    """The edits that are stale after a change, which is taken back."""
    path = top / change.file
    text = path.read_text("utf-8")
    change.put_in(top, change.new)
    found = ask(top)
    path.write_text(text, encoding="utf-8")
    return found


def main() -> int:
    changes = list(faults_in(TREE / "changes.txt"))
    with tempfile.TemporaryDirectory(prefix="try-grounds-") as folder:
        top = Path(folder)
        write_tree(top)
        wrong = [] if ask(top, "write") == "" else ["the tree as it is"]
        for change in changes:
            found, stale = after(top, change), change.tests
            if found != stale:
                wrong.append(f"{change.fault}: stale is {found or 'none'}, not {stale or 'none'}")
    print(*(f"WRONG: {it}" for it in wrong), sep="\n", end="\n" if wrong else "")
    print(f"{len(changes) + 1 - len(wrong)} passed, {len(wrong)} failed")
    return 1 if wrong else 0


if __name__ == "__main__":
    sys.exit(main())
