"""Builds the program, and says what it was built from.

The commit isn't in the program: the text would change with each commit, and the crate that has it
would have to be proved again for each. So a record beside the program has it, and a command around
the program prints both where it is asked for its version. It needs the kit's `rt` on the path.
"""

from __future__ import annotations

import hashlib
import shlex
import shutil
import subprocess
import sys
import tempfile
from collections.abc import Iterator, Sequence
from pathlib import Path
from typing import NamedTuple

TOP = Path(__file__).resolve().parents[1]
sys.path.append(str(TOP / "bench"))
from unproved import FAST_RUN, Builder, kit_folder  # noqa: E402

CRATE = "sctd"
# What the program is made of, and what else is in a package.
PROGRAM_PARTS = ("crates", "crates.txt")
PACKAGE_PARTS = (*PROGRAM_PARTS, "service", "examples", "packaging", "docs")
# What has the version of the program.
WORDS = TOP / "crates" / "command_line" / "src" / "words.rt"
# Beside a program that is built without a proof: of which sources it is.
SOURCES = "sources"
NO_KIT = (
    "there is no `rt` of the Rattle kit on the path. Where the kit is at hand:\n"
    '  export PATH="$PATH:/where/the/kit/is/bin"\n'
    "README.md says which version it takes."
)

COMMAND = """#!/bin/sh
# Runs the program. What it says of its version is followed by what it was built from.
case "${{1-}}" in
    --version | -V) {program} "$@" && echo {origin} ;;
    *) exec {program} "$@" ;;
esac
"""


class NotBuilt(Exception):
    """Why there is no program."""


class Built(NamedTuple):
    """A program, and what it was built from: its commit, and whether it is proved."""

    program: Path
    origin: str


def git(*words: str) -> str | None:
    """What git says of this folder; None where it isn't a clone, or there is no git."""
    try:
        done = subprocess.run(["git", "-C", str(TOP), *words], capture_output=True, check=False)
    except OSError:
        return None
    return done.stdout.decode().strip() if done.returncode == 0 else None


def commit_of(parts: Sequence[str]) -> str:
    """The commit of these parts of the clone, and whether they differ from it."""
    commit = git("rev-parse", "--short=12", "HEAD")
    if commit is None:
        return "an unknown commit"
    changed = git("status", "--porcelain", "--", *parts)
    return "commit %s" % commit + (" with changes" if changed else "")


def origin_of(is_proved: bool) -> str:
    proved = "proved" if is_proved else "NOT PROVED"
    return "built from %s, %s" % (commit_of(PROGRAM_PARTS), proved)


def command_of(built: Built) -> str:
    """The text of a command that runs the program, and says what it was built from."""
    return COMMAND.format(
        program=shlex.quote(str(built.program)), origin=shlex.quote(built.origin)
    )


def version() -> str:
    """The version of the program, as its sources have it."""
    _, found, rest = WORDS.read_text("utf-8").partition('const VERSION: &str = "')
    assert found
    return rest.partition(",")[0]


def crates_of_program() -> Iterator[str]:
    """The crates of this repository that the program is made of."""
    uses: dict[str, list[str]] = {}
    for line in (TOP / "crates.txt").read_text("utf-8").splitlines():
        name, colon, used = line.partition(":")
        if colon and not name.startswith("#"):
            uses[name.split()[0]] = used.split()
    found, rest = set[str](), [CRATE]
    while rest:
        name = rest.pop()
        if name in uses and name not in found:
            found.add(name)
            rest += uses[name]
    yield from sorted(found)


def digest_of_sources(kit: Path) -> str:
    """A checksum of what the program is built from, and of how."""
    digest = hashlib.sha256((kit / "KIT-ID").read_bytes() + FAST_RUN.encode())
    digest.update((TOP / "crates.txt").read_bytes())
    for name in crates_of_program():
        for path in sorted((TOP / "crates" / name / "src").rglob("*")):
            if path.is_file():
                digest.update(str(path.relative_to(TOP)).encode() + b"\0" + path.read_bytes())
    return digest.hexdigest()


def unproved(folder: Path) -> Built:
    """Builds the program without a proof, unless it was built from these sources before."""
    if shutil.which("rt") is None:
        raise NotBuilt(NO_KIT)
    kit, program, known = kit_folder(), folder / CRATE, folder / SOURCES
    digest = digest_of_sources(kit)
    if not (program.exists() and known.exists() and known.read_text("ascii") == digest):
        print("Building the program without a proof, which takes minutes ..", flush=True)
        known.unlink(missing_ok=True)
        build_unproved(kit, program)
        known.write_text(digest, encoding="ascii")
    return Built(program, origin_of(is_proved=False))


def build_unproved(kit: Path, to: Path) -> None:
    """Builds the program into a file, by a kit that leaves out the proof."""
    to.parent.mkdir(parents=True, exist_ok=True)
    with tempfile.TemporaryDirectory(prefix="sctd-build-") as place:
        builder = Builder(kit, Path(place), is_run=False, level=FAST_RUN)
        done = builder.run(TOP / "crates" / CRATE, [])
        if not builder.program.exists():
            told = (done.stdout + done.stderr).decode("utf-8", "backslashreplace")
            raise NotBuilt("`rt try` ended with status %d: %s" % (done.returncode, told.strip()))
        shutil.copy(builder.program, to)


def proved(folder: Path) -> Built:
    """Proves the program, and builds it."""
    if shutil.which("rt") is None:
        raise NotBuilt(NO_KIT)
    crate, program = TOP / "crates" / CRATE, folder / CRATE
    done = subprocess.run(["rt", "run", "--", "--version"], cwd=crate, check=False)
    if done.returncode:
        raise NotBuilt("`rt run` in %s ended with status %d" % (crate, done.returncode))
    folder.mkdir(parents=True, exist_ok=True)
    shutil.copy(crate / "out" / CRATE, program)
    return Built(program, origin_of(is_proved=True))
