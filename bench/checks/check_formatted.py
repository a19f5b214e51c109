#!/usr/bin/env python3
"""Checks that every crate's files are as `rt fmt` writes them, which `rt ci` does only once it has
proved the crates below, and that none stands outside crates/, where `rt ci` reads none and stops.
It needs the kit's `rt` on the path.
"""

import shutil
import subprocess
import sys
from collections.abc import Iterator
from pathlib import Path

from documents import TOP

sys.path.append(str(TOP / "bench" / "rattle"))
from source import files_of, tell  # noqa: E402

# The folders of a crate whose files are formatted, and how their names end.
FOLDERS, ENDINGS = ("src", "specs", "proofs"), (".rt", ".antt")


def faults_of(rattle: str, crate: Path) -> Iterator[str]:
    """What the kit says of the crate's files that aren't formatted."""
    files = [path for folder in FOLDERS for ending in ENDINGS
             for path in files_of(str(crate / folder), ending)]
    said = subprocess.run([rattle, "fmt", "--check", *files], text=True, check=False,
                          stdout=subprocess.PIPE, stderr=subprocess.STDOUT)
    if said.returncode:
        yield from said.stdout.splitlines() or [f"{crate}: not formatted"]


def outside_crates() -> Iterator[str]:
    """The files of Rattle that are in another folder than those of the crates."""
    for folder in TOP.iterdir():
        if folder.is_dir() and folder.name not in ("crates", ".git"):
            yield from (f"{path}: no check reads it" for path in folder.rglob("*")
                        if path.suffix in ENDINGS)


def main() -> int:
    kit = Path(shutil.which("rt") or sys.exit("rt is not on the path")).resolve().parent
    crates = sorted(path.parent for path in TOP.glob("crates/*/src"))
    faults = [fault for crate in crates for fault in faults_of(str(kit / "rattle"), crate)]
    faults += outside_crates()
    return tell(faults, f"{len(crates)} crates, %d files aren't formatted", len(crates))


if __name__ == "__main__":
    sys.exit(main())
