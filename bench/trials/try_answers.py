"""Compares answers over HTTP with what a program says that reads the releases' own files.

try_answers.py PROGRAM [--answers N] [--rows N] [--seed N] [--hub HUB]
try_answers.py --address URL --edition MODULE --files FOLDER [--files FOLDER ..]
               [--languages REFSET,..] [--answers N] [--seed N]

With PROGRAM two Full releases of about so many rows are made and imported, the second one a whole
package, and half of the answers are compared of each, on days that are drawn. With --address a
gateway is asked that runs, with the releases that its store has: FOLDER has a folder Terminology,
as the folders Full of a release have. For a whole edition that takes some gigabytes of memory.
Nothing of the program is used to read the files. It ends at the first answer that differs.
"""

import argparse
import http.client
import os
import sys
from collections import Counter
from pathlib import Path
from urllib.parse import urlsplit

from harness import TOP, Wrong, go_on_with, tell

sys.path.insert(0, str(TOP / "service"))

ANSWERS, ROWS, SEED = 2_000, 20_000, 1
# The releases that are made: without members, and a whole package.
KINDS = (False, True)
# How long an answer may take, and what is read of a folder.
SECONDS = 60
TERMINOLOGY = "Terminology"


def arguments() -> argparse.Namespace:
    assert __doc__
    parser = argparse.ArgumentParser(description=__doc__.split("\n", maxsplit=1)[0])
    parser.add_argument("program", nargs="?", type=Path, help="the built sctd")
    parser.add_argument("--answers", type=int, default=ANSWERS, help="at least so many")
    parser.add_argument("--rows", type=int, default=ROWS, help="of a made release")
    parser.add_argument("--seed", type=int, default=SEED)
    parser.add_argument("--hub", type=Path, default=TOP / "service" / "sctd-hub")
    parser.add_argument("--address", help="of a gateway that runs, or /pin/N of it")
    parser.add_argument("--edition", help="the gateway's module")
    parser.add_argument("--files", type=Path, action="append", default=[], help="of its store")
    parser.add_argument("--languages", default="", help="the gateway's, separated by commas")
    found = parser.parse_args()
    is_whole = found.address and found.edition and found.files
    if bool(found.program) == bool(is_whole):
        parser.error("PROGRAM, or --address with --edition and --files")
    for folder in found.files:
        if not (folder / TERMINOLOGY).is_dir():
            parser.error(f"{folder} has no folder {TERMINOLOGY}")
    return found


def of_program(asked: argparse.Namespace) -> Counter[str]:
    """How many answers of made releases were alike."""
    from tests.compare_releases import compared

    program, hub = str(asked.program.resolve()), str(asked.hub.resolve())
    os.environ.update(SCTD_PROGRAM=program, SCTD_HUB=hub)
    half = -(-asked.answers // len(KINDS))
    counts = Counter[str]()
    for is_package in KINDS:
        counts += compared(program, hub, asked.rows, half, asked.seed, is_package)
    return counts


def of_address(asked: argparse.Namespace) -> Counter[str]:
    """The same of a gateway that runs, and of the files of its store."""
    from tests.compare_releases import Comparison
    from tests.release_files import read

    parts = urlsplit(asked.address)
    kind = http.client.HTTPSConnection if parts.scheme == "https" else http.client.HTTPConnection
    connection = kind(parts.netloc, timeout=SECONDS)
    languages: tuple[str, ...] = tuple(filter(None, asked.languages.split(",")))
    rows = read(*asked.files)
    comparison = Comparison(connection, parts.path.rstrip("/"), rows, asked.seed, languages)
    comparison.edition = asked.edition
    comparison.run(asked.answers)
    return comparison.counts


def tried(asked: argparse.Namespace) -> None:
    go_on_with()
    from tests.compare_releases import Differs

    try:
        counts = of_program(asked) if asked.program else of_address(asked)
    except Differs as differs:
        raise Wrong(f"DIFFERS: {differs}") from None
    for what, count in sorted(counts.items()):
        print(f"{count} {what}")
    print(f"{counts.total()} answers, 0 differ")


if __name__ == "__main__":
    sys.exit(tell(lambda: tried(arguments())))
