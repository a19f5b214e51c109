#!/usr/bin/env python3
"""Runs the examples of the documents that begin with `$`, and compares what they print.

check_guide.py PROGRAM [PAGE ..]

PROGRAM is the built program sctd, and the pages are those of PAGES unless others are named. Each
line that begins with `$ ` in a ```console block of a page, with the lines after it that begin with
`> `, is run by bash, in order, in a folder of the page's own, which has a link `docs` to that of
this repository. What it writes to standard output and standard error has to be the lines up to the
next command, byte for byte, and it has to end within a minute, with the status 0: one that ends
with another says so in its own lines, as by `echo "status $?"`. The pages of GATEWAY need what the
gateway imports, in the system's Python: where it is missing their commands are left out, and the
last line says how many. Standard library alone.
"""

from __future__ import annotations

import os
import sys
from collections.abc import Iterator, Sequence

ROOT = os.path.dirname(os.path.dirname(os.path.dirname(os.path.abspath(__file__))))
sys.path.append(os.path.join(ROOT, "bench", "trials"))
from harness import parser_of  # noqa: E402
from needs import SYSTEM_PYTHON, has_modules  # noqa: E402
from transcripts import SECONDS, Given, Place, differences, place_for, text_of  # noqa: E402

PAGES = ("README.md", "docs/START.md", "docs/ASK.md", "docs/OPERATE.md", "docs/FHIR.md",
         "docs/AUDIT.md")
GATEWAY = ("docs/FHIR.md",)


class Example:
    """A command of a page, the line it stands in, and what it has to print."""

    def __init__(self, number: int, command: str) -> None:
        self.number = number
        self.command = command
        self.wanted = ""


def examples(page: str) -> list[Example]:
    """The commands of all console blocks of a page, in order."""
    with open(os.path.join(ROOT, page), encoding="utf-8", newline="") as file:
        lines = file.read().split("\n")
    found: list[Example] = []
    in_block = False
    for number, line in enumerate(lines, 1):
        if line.startswith("```"):
            in_block = not in_block and line == "```console"
        elif not in_block:
            continue
        elif line.startswith("$ "):
            found.append(Example(number, line[2:]))
        elif line.startswith("> ") and found and not found[-1].wanted:
            found[-1].command += "\n" + line[2:]
        elif found:
            found[-1].wanted += line + "\n"
        else:
            raise SystemExit("%s:%d: no command before it" % (page, number))
    return found


def run(command: str, place: Place) -> str:
    """What a command prints, and with it all that it started; behind that, what it ends with, where
    it doesn't end in time or with the status 0."""
    status, printed, _ = place.run(["bash", "-c", command], Given(is_joined=True))
    end = "(it ended with the status %d)\n" % status if status else ""
    if status is None:
        end = "(it had not ended after %d seconds)\n" % SECONDS
    return text_of(printed) + end


def wrong_in(page: str, wanted: Sequence[Example], program: str) -> Iterator[Example]:
    """The examples of a page that don't print what they have to, run in a folder; each is told."""
    with place_for(program) as place:
        for example in wanted:
            printed = run(example.command, place)
            if printed != example.wanted:
                tell(page, example, printed)
                yield example


def tell(page: str, example: Example, printed: str) -> None:
    """Tells in what an example differs from what it prints."""
    print("%s:%d: %s" % (page, example.number, example.command.split("\n")[0]))
    for line in differences(example.wanted, printed, "page"):
        print(line)


def main() -> int:
    parser = parser_of(__doc__)
    parser.add_argument("pages", nargs="*", metavar="PAGE", default=PAGES)
    asked = parser.parse_args()
    pages: Sequence[str] = asked.pages
    has_gateway = has_modules(SYSTEM_PYTHON)
    tried, wrong, left_out = 0, 0, 0
    for page in pages:
        wanted = examples(page)
        if page in GATEWAY and not has_gateway:
            left_out += len(wanted)
            continue
        tried += len(wanted)
        wrong += len(list(wrong_in(page, wanted, str(asked.program))))
    print("%d commands of %d pages, %d print something else or fail%s" % (
        tried, len(pages), wrong,
        ", %d left out: a package is missing" % left_out if left_out else ""))
    return 1 if wrong or not tried else 0


if __name__ == "__main__":
    sys.exit(main())
