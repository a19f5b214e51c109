"""Lets chosen system calls of a program fail, or does something just before them, by a library for
LD_PRELOAD, moments.c, which needs a C compiler (`cc`). A part of test_files.py; test_syncs.py and
growths_harness.py compile theirs by it."""

import os
import subprocess
from collections.abc import Sequence
from pathlib import Path
from typing import NamedTuple

# More calls than a program makes.
ALWAYS = 1_000_000_000
# What separates the parts of a moment, and moments.
BETWEEN_PARTS, BETWEEN_MOMENTS = "\x1f", "\x1e"


class Moment(NamedTuple):
    """A call of this name, of a file whose path ends so: from which such call on, up to which.
    First the command is run by a shell, if there is one; then the call fails with this error, if
    there is one."""

    call: str
    path: str
    first: int = 1
    last: int = 1
    error: int = 0
    does: str = ""


def compiled(name: str, folder: Path) -> Path:
    """The library for LD_PRELOAD that is made of a file NAME.c beside this one."""
    source, library = Path(__file__).with_name(f"{name}.c"), folder / f"{name}.so"
    subprocess.run(
        ["cc", "-shared", "-fPIC", "-w", "-O1", "-o", library, source, "-ldl"], check=True)
    return library


class Library:
    """The compiled library, and the file that it writes to when it meets a moment."""

    def __init__(self, folder: Path) -> None:
        self.path, self.log = compiled("moments", folder), folder / "met"

    def around(self, moments: Sequence[Moment]) -> dict[str, str]:
        """The environment of a program that meets these moments."""
        self.log.unlink(missing_ok=True)
        parts = (BETWEEN_PARTS.join(map(str, moment)) for moment in moments)
        return {**os.environ, "LD_PRELOAD": str(self.path), "MOMENTS_MET": str(self.log),
                "MOMENTS": BETWEEN_MOMENTS.join(parts)}

    def met(self) -> list[int]:
        """Which moments were met, by their numbers."""
        text = self.log.read_text(encoding="ascii") if self.log.exists() else ""
        return sorted(set(map(int, text)))
