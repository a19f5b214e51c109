"""Compares what the build of the program takes for granted with what PROMISES.md says of it.

check_axioms.py FILE

FILE is what `rt ci` printed: of the crate sctd a line `axioms LIBRARY: ..` for each library with
the number of its C functions that are taken as they are written, and a last line with `axioms=` and
the number of all. PROMISES has the same three numbers. Where an earlier run on the machine proved
sctd none of these lines is printed, and there is nothing to compare: this is said.
"""

import argparse
import re
import sys
from collections.abc import Iterable
from pathlib import Path

from documents import TOP

CRATE = "sctd"
DOCUMENT = "docs/internals/PROMISES.md"
# What `rt ci` prints of the crate: of its proof, or that an earlier one is kept.
PROOF = re.compile(rf"^== {CRATE}\n(.*?)^rt: {CRATE} proved$", re.M | re.S)
KEPT = re.compile(rf"^rt: {CRATE} is kept:", re.M)
LIBRARY = re.compile(r"^axioms (\w+): .*\((\d+) of the \d+ declared\)$", re.M)
ALL = re.compile(r"^logic=proved .*\baxioms=(\d+) ", re.M)
SAID = re.compile(r"`axioms=(\d+)`,\s+which\s+are\s+(\d+)\s+of\s+the\s+C\s+library's\s+functions"
                  r"\s+and\s+(\d+)\s+of\s+the\s+system's\s+calls")


def axioms(total: str, libraries: Iterable[tuple[str, str]]) -> str:
    """How many C functions are taken for granted, and how many of them are of each library."""
    return f"{total}: " + ", ".join(f"{count} of {name}" for name, count in sorted(libraries))


def printed(text: str) -> str:
    """The axioms of the program, as `rt ci` printed them; nothing where it printed none."""
    proof = PROOF.search(text)
    total = ALL.search(proof[1]) if proof else None
    return axioms(total[1], LIBRARY.findall(proof[1])) if proof and total else ""


def said(text: str) -> str:
    """The axioms of the program, as PROMISES has them; nothing where it has none."""
    found = SAID.search(text)
    return axioms(found[1], [("libc", found[2]), ("os", found[3])]) if found else ""


def fault_of(output: str, document: str) -> str | None:
    """What isn't so, or None."""
    built, written = printed(output), said(document)
    if not written:
        return f"{DOCUMENT} doesn't say how many axioms the build of {CRATE} has"
    if not built:
        return None if KEPT.search(output) else f"the output has no axioms of {CRATE}"
    if built != written:
        return f"{DOCUMENT} has {written}, and the build of {CRATE} says {built}"
    return None


def main() -> int:
    parser = argparse.ArgumentParser(description=(__doc__ or "").split("\n", maxsplit=1)[0])
    parser.add_argument("file", type=Path, help="what `rt ci` printed")
    output = parser.parse_args().file.read_text("utf-8")
    built = printed(output)
    fault = fault_of(output, (TOP / DOCUMENT).read_text("utf-8"))
    agreed = (f"axioms as {DOCUMENT} has them: {built}" if built
              else f"axioms not compared: {CRATE} was proved by an earlier run")
    print(fault or agreed, file=sys.stderr)
    return 1 if fault else 0


if __name__ == "__main__":
    sys.exit(main())
