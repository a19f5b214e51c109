#!/usr/bin/env python3
"""Asks the built program what the transcripts of bench/cases/ say, each case in a fresh folder.

try_cases.py PROGRAM [--wrong] [FILE ..]

PROGRAM is the built `sctd`, and each FILE has transcripts: all of bench/cases/ unless some are
named. docs/internals/CASES.md has the words that they are written in. A line for each case tells
`ok` and its name, or what failed, in which line, and how what came differs from what was wanted.
With --wrong the pieces of bench/cases/wrong.txt are tried, each of which is a transcript that has
to fail in the line and for the reason that its heading has. The last line is `N passed, M failed`,
and the status is 0 where there were cases and none failed. Standard library alone.
"""

import re
import shutil
import sys
from collections.abc import Callable, Iterable, Iterator
from concurrent.futures import ThreadPoolExecutor
from itertools import zip_longest
from pathlib import Path
from typing import Optional

from case_texts import FOLDER, SHARED, WRONG, Block, Fault, File, Line, blocks_of, files_of
from case_texts import files_of_cases, number_of, numbers_of, reply, write_release
from harness import LAST_WORDS, RELEASES as SAMPLES, parser_of
from transcripts import Given, Place, differences, place_for, text_of

# The folders that each case finds in its own: those beside the transcripts, and the samples.
DATA = ("packages", "releases", "rows", "spoiled")
STORE, RELEASES = "store", "releases"
SERVE = ("sctd", "serve", "--store", STORE, "--releases", RELEASES)
# How many cases are carried out at a time: they mostly wait for the disk.
AT_ONCE = 4
# The length of a name for which a line with it has more than 4,096 bytes.
LONG = 4088
# The row of a year, and the release that brings it.
YEAR_ROW, YEAR_RELEASE = "138875005|%d0131|1|CORE|PRIM", "new-in-%d"
HEADING = re.compile(r"^==== (.*)\n", re.MULTILINE)
# The status of what is refused, which leaves all files as they were; of a session each line is.
REFUSED, SESSION = 1, "serve"
ELSE, THE_FILE = "something else came", "the file"

TELLS: dict[str, Callable[[str, str], bool]] = {
    "tells": lambda told, text: text in told,
    "tells-line": lambda told, text: text in told.splitlines(),
    "tells-last": lambda told, text: told.splitlines()[-1:] == [text],
    "tells-nothing-of": lambda told, text: text not in told,
    "tells-something": lambda told, text: told != "",
}


class Run:
    """A run of the program, once its lines are known: a command, or the server of a case's store,
    in which each line has its reply behind it."""

    def __init__(self, number: int, words: list[str], is_server: bool) -> None:
        self.number, self.words, self.is_server = number, words, is_server
        self.sent = b""
        self.room: Optional[int] = None
        self.piece: Optional[int] = None
        self.fails = self.begins = self.is_due = False
        self.status = 0
        self.output: list[tuple[int, str]] = []
        self.faults: list[str] = []
        self.tells: list[Line] = []

    def send(self, line: Line, end: str) -> None:
        if self.is_due:
            raise Fault(line.number, "the line before has no whole reply")
        self.is_due = self.is_server
        self.sent += (line.rest + end).encode()

    def send_bytes(self, line: Line) -> None:
        """Adds bytes, of two digits of base 16 each."""
        try:
            self.sent += bytes.fromhex(line.rest)
        except ValueError:
            raise Fault(line.number, "bytes are two digits of base 16 each") from None

    def fill(self, line: Line) -> None:
        """Adds a letter until all that is sent has a length."""
        length, _, letter = line.rest.partition(" ")
        missing = number_of(line, length) - len(self.sent)
        if len(letter) != 1 or missing <= 0:
            raise Fault(line.number, "it wants a greater length, and one letter")
        self.sent += letter.encode() * missing

    def take_reply(self, line: Line) -> None:
        if self.is_server and not self.is_due:
            raise Fault(line.number, "the reply stands behind no line")
        self.is_due = self.is_due and line.rest.split(" ")[0] not in LAST_WORDS
        self.output.append((line.number, reply(line.rest)))

    def take(self, line: Line) -> None:
        """Takes a line that says what the run is given, or what is expected of it."""
        if line.word in (">", ">-"):
            self.send(line, "\n" if line.word == ">" else "")
        elif line.word == "<":
            self.take_reply(line)
        elif line.word in SENT:
            SENT[line.word](self, line)
        elif line.word == "pieces":
            self.piece = number_of(line, line.rest)
        elif self.is_server:
            raise Fault(line.number, "no word of a case of lines")
        elif line.word == "!":
            self.faults.append(line.rest)
        elif line.word in TELLS:
            self.tells.append(line)
        elif line.word == "status":
            self.status = number_of(line, line.rest)
        elif line.word == "room":
            self.room = number_of(line, line.rest)
        elif line.word == "fails" and not self.sent:
            self.fails = True
        elif line.word == "begins" and self.output:
            self.begins = True
        else:
            raise Fault(line.number, "no word of a run")

    def carry_out(self, place: Place) -> None:
        """Carries the run out, and compares what came with what is expected."""
        if self.is_due:
            raise Fault(self.number, "the last line has no whole reply")
        given = Given(None if self.fails else self.sent, self.room, piece=self.piece)
        before = place.files()
        came = place.run(self.words, given)
        # (A command whose reply had no room may have been done.)
        is_refused = came.status == REFUSED and self.room is None and SESSION not in self.words
        if is_refused and place.files() != before:
            raise Fault(self.number, "a file isn't as it was before the refusal")
        told = text_of(came.faults)
        for line in self.tells:
            if not TELLS[line.word](told, line.rest):
                raise Fault(line.number, ELSE, told)
        wanted = lines_of(text for _, text in self.output)[: self.room]
        output = came.output[: len(wanted)] if self.begins else came.output
        is_told = self.is_server or self.tells and not self.faults
        pair = ((self.status, wanted, b"" if is_told else lines_of(self.faults)),
                (came.status, output, b"" if is_told else came.faults))
        if pair[0] != pair[1]:
            told = "\n".join(differences(spelled(*pair[0]), spelled(*pair[1]), "wanted"))
            raise Fault(self.first_wrong(text_of(output)), ELSE, told)

    def first_wrong(self, output: str) -> int:
        """The number of the first line of the output that isn't so; else that of the run."""
        for (number, wanted), found in zip_longest(
                self.output, output.splitlines(), fillvalue=(self.number, "")):
            if wanted != found:
                return number
        return self.number


SENT: dict[str, Callable[[Run, Line], None]] = {"raw": Run.send_bytes, "fill": Run.fill}


def lines_of(texts: Iterable[str]) -> bytes:
    return "".join(text + "\n" for text in texts).encode()


def spelled(status: Optional[int], output: bytes, faults: bytes) -> str:
    return "status %s\n%sstandard error:\n%s" % (status, text_of(output), text_of(faults))


class Case:
    def __init__(self, place: Place, file: File) -> None:
        self.place, self.file = place, file
        self.run: Optional[Run] = None
        self.is_of_commands = self.has_run = self.is_closed = False
        self.layout: Optional[str] = None
        self.store = place.folder / STORE

    def carry_out(self, case: Block) -> None:
        for line in case.lines:
            self.take(line)
        self.finish()
        if not self.has_run:
            raise Fault(case.number, "the case asks nothing")

    def take(self, line: Line) -> None:
        if line.word in WORDS:
            WORDS[line.word](self, line)
        elif self.is_of_commands and self.run is None:
            raise Fault(line.number, "it stands behind no run")
        elif self.is_of_commands and self.run:
            self.run.take(line)
        else:
            self.server(line).take(line)

    def finish(self) -> None:
        run, self.run = self.run, None
        if run:
            self.has_run = True
            run.carry_out(self.place)

    def command(self, line: Line) -> None:
        if self.layout or line.rest.split(" ")[0] != "sctd":
            raise Fault(line.number, "no word of a case of lines" if self.layout
                        else "no run of the program")
        self.finish()
        self.is_of_commands = True
        words = ["n" * LONG if word == "LONG" else
                 re.sub("^HERE/", "%s/" % self.place.folder, word) for word in line.rest.split(" ")]
        self.run = Run(line.number, words, is_server=False)

    def server(self, line: Line) -> Run:
        """The server of the case's store, which is made if there is none."""
        if self.is_of_commands or self.is_closed:
            raise Fault(line.number, "no word of a case of commands" if self.is_of_commands
                        else "the store is closed")
        if self.run is None:
            if not self.store.exists():
                self.make_store(line, "2")
            self.run = Run(line.number, list(SERVE), is_server=True)
        return self.run

    def make_store(self, line: Line, layout: str) -> None:
        made = self.place.run(["sctd", "init", "--layout", layout, "--store", STORE])
        if made.status != 0:
            raise Fault(line.number, "no layout of a new store")
        self.layout = layout

    def set_layout(self, line: Line) -> None:
        if self.is_of_commands or self.layout:
            raise Fault(line.number, "the case has begun")
        self.make_store(line, line.rest)

    def close(self, line: Line) -> None:
        self.server(line)
        self.finish()
        self.is_closed = True

    def open(self, line: Line) -> None:
        if not self.is_closed:
            raise Fault(line.number, "the store is open")
        self.is_closed = False
        self.server(line)

    def ask(self, line: Line) -> None:
        server = self.server(line)
        for asked in self.file.part(line):
            if asked.word not in (">", "<"):
                raise Fault(asked.number, "no word of a part")
            server.take(asked)

    def years(self, line: Line) -> None:
        """Sends an import of a new row for each of these years."""
        first, last = numbers_of(line, 2)
        server = self.server(line)
        for year in range(first, last + 1):
            name = YEAR_RELEASE % year
            block = Block("release", name, line.number,
                          [Line(line.number, "concept", YEAR_ROW % year)])
            write_release(self.place.folder / RELEASES / name, files_of(block))
            server.take(Line(line.number, ">", "0 IMPORT " + name))
            server.take(Line(line.number, "<", "OK %d 1 0" % (year - first + 1)))

    def bytes_of_store(self, line: Line) -> bytes:
        """The bytes of the case's store, which has to be closed."""
        if not self.is_closed:
            raise Fault(line.number, "the store is open")
        return self.store.read_bytes()

    def check_length(self, line: Line) -> None:
        self.compare(line, str(len(self.bytes_of_store(line))), line.rest)

    def check_bytes(self, line: Line) -> None:
        """Compares the bytes from an offset on with those in the line, in hexadecimal."""
        place, _, wanted = line.rest.partition(" ")
        first, count = number_of(line, place), len(wanted.split(" "))
        self.compare(line, self.bytes_of_store(line)[first : first + count].hex(" "), wanted)

    def check_zeros(self, line: Line) -> None:
        first, end = numbers_of(line, 2)
        if self.bytes_of_store(line)[first:end] != bytes(end - first):
            raise Fault(line.number, "not all of these bytes are there and 0")

    def compare(self, line: Line, found: str, wanted: str) -> None:
        if found != wanted:
            raise Fault(line.number, ELSE, "\n".join(differences(wanted, found, "wanted")))

    def patch(self, line: Line) -> None:
        """Writes a byte at all offsets from one up to another."""
        first, end, byte = numbers_of(line, 3)
        data = self.bytes_of_store(line)
        self.store.write_bytes(data[:first] + bytes([byte]) * (end - first) + data[end:])

    def write_sample(self, line: Line) -> None:
        self.finish()
        folder, _, name = line.rest.partition(" ")
        if name not in (path.name for path in SAMPLES.iterdir()):
            raise Fault(line.number, "there is no sample of this name")
        shutil.copytree(SAMPLES / name, self.place.folder / folder)

    def write_file(self, line: Line) -> None:
        """Writes a file, given as its length and its first byte. All other bytes are 0."""
        self.finish()
        name, length, byte = (line.rest + "  ").split(" ")[:3]
        data = bytes([number_of(line, byte, 16)]).ljust(number_of(line, length), b"\0")
        (self.place.folder / name).write_bytes(data)


WORDS: dict[str, Callable[[Case, Line], None]] = {
    "$": Case.command, "layout": Case.set_layout, "close": Case.close, "open": Case.open,
    "ask": Case.ask, "years": Case.years, "length": Case.check_length, "holds": Case.check_bytes,
    "zeros": Case.check_zeros, "patch": Case.patch, "sample": Case.write_sample,
    "file": Case.write_file,
}


def carried_out(program: Path, file: File, case: Block) -> Optional[Fault]:
    """Carries a case out, in a folder that has the releases. What failed, if something did."""
    with place_for(program) as place:
        for name in DATA:
            shutil.copytree(FOLDER / name, place.folder / name)
        releases = place.folder / RELEASES
        shutil.copytree(SAMPLES, releases, dirs_exist_ok=True)
        for name, files in file.releases.items():
            write_release(releases / name, files)
        try:
            Case(place, file).carry_out(case)
        except Fault as fault:
            return fault
    return None


class Cases:
    """The program, the releases that all files share, and what was tried of them."""

    def __init__(self, program: Path) -> None:
        self.program = program
        text = SHARED.read_text(encoding="utf-8")
        self.shared = {block.name: block for block in blocks_of(text)}
        self.named: set[str] = set()
        self.known: set[str] = set()
        self.passed = self.failed = 0

    def count(self, name: str, path: Path, fault: Optional[Fault]) -> None:
        print("FAILED %s: %s, %s" % (name, path.name, fault) if fault else "ok " + name)
        if fault and fault.told:
            print(fault.told)
        self.passed, self.failed = self.passed + (fault is None), self.failed + (fault is not None)

    def faults_of(self, text: str) -> Iterator[tuple[str, Optional[Fault]]]:
        """The cases of a file, and what failed of each, if something did."""
        try:
            file = File(text, self.shared)
        except Fault as fault:
            yield THE_FILE, fault
            return
        self.named.update(file.releases)
        with ThreadPoolExecutor(AT_ONCE) as workers:
            ends = workers.map(lambda case: carried_out(self.program, file, case), file.cases)
        for case, end in zip(file.cases, ends):
            if case.name in self.known:
                end = Fault(case.number, "there is another case of this name")
            self.known.add(case.name)
            yield case.name, end
        try:
            file.check_parts()
        except Fault as fault:
            yield THE_FILE, fault

    def try_file(self, path: Path) -> None:
        for name, fault in self.faults_of(path.read_text(encoding="utf-8")):
            self.count(name, path, fault)

    def try_wrong(self, path: Path) -> None:
        """Tries the pieces of a file, each of which has to fail as its heading says."""
        _, *pieces = HEADING.split(path.read_text(encoding="utf-8"))
        for wanted, text in zip(pieces[::2], pieces[1::2]):
            found = [str(fault) for _, fault in self.faults_of(text) if fault]
            is_so = found == [wanted]
            self.count(wanted, path, None if is_so else Fault(0, "it says %s" % found))
            self.known.clear()

    def check_shared(self) -> None:
        """Whether some file names each release that all share."""
        for name, block in self.shared.items():
            if name not in self.named:
                self.count(THE_FILE, SHARED, Fault(block.number, "no line names the release"))


def main() -> int:
    parser = parser_of(__doc__)
    parser.add_argument("--wrong", action="store_true", help="try those that have to fail")
    parser.add_argument("files", nargs="*", type=Path, metavar="FILE")
    asked = parser.parse_args()
    cases = Cases(asked.program)
    if asked.wrong:
        cases.try_wrong(WRONG)
    else:
        for path in asked.files or files_of_cases():
            cases.try_file(path)
        if not asked.files:
            cases.check_shared()
    print("%d passed, %d failed" % (cases.passed, cases.failed))
    return 0 if cases.passed and not cases.failed else 1


if __name__ == "__main__":
    sys.exit(main())
