"""Tries examples/client.py and examples/read_records.py with the built program and the hub."""

import contextlib
import csv
import io
import random
import subprocess
import sys
from collections.abc import Iterable, Iterator, Sequence
from functools import partial
from pathlib import Path

import pytest

import harness
from harness import AROUND, HUB_SECONDS, TOP, Hub, Place, Wrong, concept, concept_id, write_release
import make_release as rf2

sys.path.append(str(TOP / "service"))
from tests.release_files import Rows, Snapshot  # noqa: E402

ADDED = ["active_then", "name_then", "active_now", "name_now", "replaced_by",
         "may_be_replaced_by", "problem", "pin", "receipt"]
POSSIBLY_EQUIVALENT = "900000000000523009"
MOVED_FROM = "900000000000525002"
CLIENT, READER = "examples/client.py", "examples/read_records.py"
# The most memory that a long run may take beside that of a short one.
MOST_MEMORY = 8 << 20
# Runs a command, and prints how much memory it took at most. (Of what this process itself starts
# the system counts what this one has, too.)
MEASURING = """
import resource, subprocess, sys
subprocess.run(sys.argv[1:], stdout=subprocess.DEVNULL, check=True)
print(resource.getrusage(resource.RUSAGE_CHILDREN).ru_maxrss)
"""


class Script:
    """A script that runs, with what it is given, prints and says of faults in pipes."""

    def __init__(self, place: Place, name: str, *words: str | Path) -> None:
        self.process = subprocess.Popen(
            [sys.executable, place.script(name), *words], stdin=subprocess.PIPE,
            stdout=subprocess.PIPE, stderr=subprocess.PIPE, env=AROUND)
        assert self.process.stdin and self.process.stdout and self.process.stderr
        self.input, self.output = self.process.stdin, self.process.stdout
        self.faults = self.process.stderr

    def send(self, data: bytes) -> None:
        self.input.write(data)
        self.input.flush()

    def ended(self) -> tuple[int, str]:
        """Its status and what it says of faults, which is one line of its own and no traceback."""
        try:
            self.process.wait(HUB_SECONDS)
        except subprocess.TimeoutExpired:
            self.process.kill()
            raise Wrong(f"a script hasn't ended after {HUB_SECONDS} seconds") from None
        told = self.faults.read().decode()
        for pipe in (self.input, self.output, self.faults):
            with contextlib.suppress(BrokenPipeError):
                pipe.close()
        return self.process.returncode, told


# ---- client.py


@pytest.mark.parametrize("given, printed, status", (
    (b"STATUS", "OK 2 10 2 -\n", 0), (b"", "", 0),
    (b"STEP 1\nSTATUS\n", "ERR 11 NoMerge\nOK 2 10 2 -\n", 1),
    (b"STATUS\nx\n", "OK 2 10 2 -\nERR 42 Command\n", 1)))
def test_client(hub: Hub, place: Place, given: bytes, printed: str, status: int) -> None:
    """client.py ends with 1 after an ERR, and never with a traceback."""
    assert place.run_script(CLIENT, hub.socket, given=given) == (status, printed, "")


def test_client_in_another_locale(hub: Hub, place: Place) -> None:
    """Where that isn't UTF-8, its lines and replies are the same bytes."""
    ran = place.run_script(CLIENT, hub.socket, given="TERMS 20200131 10 Straße\n".encode(),
                           PYTHONIOENCODING="latin-1")
    reply = "".join(line + "\n" for line in hub.owner.ask("TERMS 20200131 10 STRASSE"))
    assert ran == (0, reply, "") and "\tStraße\t" in reply


def test_client_unread(hub: Hub, place: Place) -> None:
    """And where nobody reads what it prints."""
    unread = Script(place, CLIENT, hub.socket)
    unread.output.close()
    unread.send(b"STATUS\n")
    assert unread.ended() == (1, "client: standard output: Broken pipe\n")
    with open("/dev/full", "wb") as full:
        done = subprocess.run(
            [sys.executable, place.script(CLIENT), hub.socket], input=b"STATUS\n", stdout=full,
            stderr=subprocess.PIPE, timeout=HUB_SECONDS, check=False, env=AROUND)
    assert (done.returncode, done.stderr) == (
        1, b"client: standard output: No space left on device\n")


def test_client_whose_hub_ends(hub: Hub, place: Place) -> None:
    left = Script(place, CLIENT, hub.socket)
    left.send(b"STATUS\n")
    assert left.output.readline() == b"OK 2 10 2 -\n"
    assert hub.stop() == 0
    left.send(b"STATUS\n")
    assert left.ended() == (1, "client: the hub has ended\n")


@pytest.mark.parametrize("path, why", (
    ("{}/none", "No such file or directory"), ("{}/store", "Connection refused"),
    ("x" * 200, "AF_UNIX path too long")))
def test_client_without_hub(place: Place, store: Path, path: str, why: str) -> None:
    path = path.format(store.parent)
    told = f"client: {path}: {why}\n"
    assert place.run_script(CLIENT, path, given=b"STATUS\n") == (1, "", told)


# ---- What was known of records


def description(number: int, about: int, term: str, date: str, kind: int = rf2.FULLY_SPECIFIED,
                language: str = "en", active: int = 1) -> str:
    return harness.description(number, concept_id(about), term, date, kind, active, language)


def association(number: int, reference_set: object, source: int, target: int,
                date: str = "20200131", active: int = 1) -> str:
    return "\t".join(map(str, [
        f"00000000-0000-4000-8000-{number:012d}", date, active, rf2.CORE, reference_set,
        concept_id(source), concept_id(target)]))


# Concept 1 was renamed; 2 is the same as 3, which 4 replaced; 5 may be 1 or 6, and 6 is the same as
# 7; 8 and 9 replaced each other; 10 came late; 11 was moved from 1; 12 is the same as 1 and may be
# 1.
CHAINS = {
    "C": [concept(number, "20100131") for number in (1, 2, 3, 4, 5, 6, 7, 8, 9, 11, 12)]
    + [concept(number, "20200131", 0) for number in (2, 3, 5, 6, 8, 9, 11, 12)]
    + [concept(10, "20220131")],
    "D": [
        description(1, 1, "Strasse (old)", "20100131"),
        description(1, 1, "x", "20150131", active=0),
        description(2, 1, "Straße, \"neu\" (new)", "20150131"),
        description(0, 1, "Way", "20100131", rf2.SYNONYM),
        description(4, 2, "Zwei (de)", "20100131", language="de"),
        description(5, 2, "Two (en)", "20110131"), description(6, 10, "Ten\rCR (late)", "20220131"),
        description(7, 4, "=1+1 (four)", "20100131")],
    "A": [association(1, rf2.SAME_AS, 2, 3), association(2, rf2.REPLACED_BY, 3, 4),
          association(3, POSSIBLY_EQUIVALENT, 5, 1), association(4, POSSIBLY_EQUIVALENT, 5, 6),
          association(5, rf2.SAME_AS, 6, 7), association(6, rf2.REPLACED_BY, 8, 9),
          association(7, rf2.REPLACED_BY, 9, 8), association(8, MOVED_FROM, 11, 1),
          association(9, rf2.SAME_AS, 12, 1), association(10, POSSIBLY_EQUIVALENT, 12, 1),
          association(11, rf2.SAME_AS, 12, 4, active=0)]}
NO_DAY = "the date isn't a day such as 20200630 or 2020-06-30"
NO_CODE = "the code is no concept's SCTID"
NOT_THERE = "the concept wasn't there yet on that date"
LATER = "the store has no such concept"
ONE, TWO, NEW = "Strasse (old)", "Two (en)", "Straße, \"neu\" (new)"
# A code and a date, and what is added: numbers are those of made concepts.
READINGS = [
    (1, "20120630", "1", ONE, "1", NEW, "", "", ""),
    (1, "2015-01-31", "1", NEW, "1", NEW, "", "", ""),
    (1, "20150130", "1", ONE, "1", NEW, "", "", ""),
    (1, "20100130", "", "", "1", NEW, "", "", NOT_THERE),
    (2, "20100630", "1", "Zwei (de)", "0", TWO, "4", "", ""),
    (2, "20210630", "0", TWO, "0", TWO, "4", "", ""),
    (3, "20120630", "1", "", "0", "", "4", "", ""),
    (4, "20120630", "1", "=1+1 (four)", "1", "=1+1 (four)", "", "", ""),
    (5, "20120630", "1", "", "0", "", "", "1 7", ""), (8, "20120630", "1", "", "0", "", "", "", ""),
    (10, "20210630", "", "", "1", "Ten\rCR (late)", "", "", NOT_THERE),
    (10, "20220630", "1", "Ten\rCR (late)", "1", "Ten\rCR (late)", "", "", ""),
    (11, "20120630", "1", "", "0", "", "", "", ""), (12, "20120630", "1", "", "0", "", "1", "", ""),
    (99, "20120630", "", "", "", "", "", "", LATER)]
# Records that can't be read.
BAD_READINGS = [(code, "20120630", NO_CODE) for code in (
    "", "x", "1000005", str(rf2.sctid(1_001, "01")), "1000004 20200101\nIMPORT r3", "١٠٠٠٠٠٤",
    "9" * 400)]
BAD_READINGS += [("1000004", date, NO_DAY) for date in (
    "", "20201331", "20230229", "2020-0630", "202006", "00000101", "09991231",
    "20200630\r\nIMPORT r3", "٢٠٢٠٠٦٣٠")]


def ids(numbers: str) -> str:
    return " ".join(str(concept_id(int(number))) for number in numbers.split())


def read(place: Place, hub: Hub, given: bytes, *words: str) -> list[list[str]]:
    """The rows that read_records.py prints."""
    ran = place.run_script(READER, "--socket", hub.questions, *words, given=given)
    if ran.status or "Traceback" in ran.faults:
        raise Wrong(f"read_records.py: status {ran.status}, {ran.faults[-300:]!r}")
    return list(csv.reader(io.StringIO(ran.output, newline=""), strict=True))


def written(rows: Iterable[Sequence[object]]) -> bytes:
    """A CSV file, as bytes."""
    text = io.StringIO(newline="")
    csv.writer(text).writerows(rows)
    return text.getvalue().encode("utf-8", "surrogateescape")


def with_release(place: Place, name: str, rows: dict[str, list[str]]) -> Hub:
    """A hub that is asked alone, on a store with a release."""
    own = place.make_store()
    place.import_one(own, write_release(place.releases / name, rows))
    return Hub(place, own, releases=place.releases, asks=True)


@pytest.fixture(scope="module")
def chains(tried: Place) -> Iterator[Hub]:
    """The same with the chains, which trials leave as it is."""
    with with_release(tried.below("with chains"), "chains", CHAINS) as hub:
        yield hub


def test_readings(place: Place) -> None:
    """What each record meant and means, as the releases' rows say; bad ones among them."""
    rows: list[list[str]] = []
    wanted: list[list[str]] = []
    for number, (code, date, *states, replaced, maybe, problem) in enumerate(READINGS * 40):
        note = f"no\ntes, \"{number}\""
        rows.append([f"p{number}", date, note, f" {concept_id(code)} ", "\udcff"])
        wanted.append([*rows[-1], *states, ids(replaced), ids(maybe), problem])
        bad, day, why = BAD_READINGS[number % len(BAD_READINGS)]
        rows.append(["", day, "", bad, ""])
        wanted.append([*rows[-1], *[""] * 6, why])
    with with_release(place, "chains", CHAINS) as hub:
        receipt = hub.owner.ask("RECEIPT 1")[0]
        header = ["Patient", " Date", "note", "CODE", "x"]
        found = read(place, hub, written([header, *rows]))
        assert found[0] == header + ADDED
        for number, (row, line) in enumerate(zip(wanted, found[1:])):
            assert line == row + ["1", receipt], number
        assert len(found) == len(rows) + 1
        # A later import changes nothing for those who pin the run.
        write_release(place.releases / "late", {"C": [concept(1, "20230131", 0)]})
        assert hub.owner.ask("IMPORT late") == ["OK 2 1 0"]
        again = read(place, hub, written([header, *rows]), "--pin", "1")
        assert again == found
        now = read(place, hub, written([["code", "date"], [concept_id(1), "20120630"]]))
        assert now[1][2:6] == ["1", ONE, "0", NEW]
        assert now[1][-2:] == ["2", "OK 2 1 20230131"]


def state(known: Snapshot, code: str) -> list[str]:
    """Whether a concept is active on a day, and its name then."""
    if code not in known.concepts:
        return ["", ""]
    names = [row for row in known.terms(code) if row[6] == str(rf2.FULLY_SPECIFIED)]
    return [known.concepts[code][2], min(names, key=lambda row: int(row[0]))[7] if names else ""]


def replacing(known: Snapshot, code: str) -> set[str]:
    """The active concepts that took the place of a retired one."""
    found: set[str] = set()
    seen, left = {code}, [code]
    while left:
        for row in known.about["A"].get(left.pop(), []):
            if row[6] not in seen:
                seen.add(row[6])
                if state(known, row[6])[0] == "1":
                    found.add(row[6])
                else:
                    left.append(row[6])
    return found


def test_made_release(place: Place) -> None:
    """Records of a made release, against what its files say."""
    rows = rf2.full(rf2.Edition(3), 4_000)
    files = Rows({kind: [row.split("\t") for row in rows.get(kind, [])] for kind in "CDRVAM"})
    codes, chance = files.concepts(), random.Random(3)
    records = [[chance.choice(codes), chance.choice(rf2.DATES)] for _ in range(300)]
    with with_release(place, "made", rows) as hub:
        found = read(place, hub, written([["code", "date"], *records]))[1:]
    assert len(found) == len(records)
    now, then = Snapshot(files, "99991231"), {day: Snapshot(files, day) for day in rf2.DATES}
    for (code, date), row in zip(records, found):
        assert row[2:6] == state(then[date], code) + state(now, code), (code, date)
        wanted = replacing(now, code) if state(now, code)[0] == "0" else set()
        assert set(row[6].split()) == wanted, code
    assert sum(bool(row[6]) for row in found) >= 10


HEAD, GOOD = b"code,date,note\n", b"%d,20120630,\n" % concept_id(1)
READ_WELL = [str(concept_id(1)), "20120630", "", "1", ONE, "1", NEW, "", "", ""]


@pytest.mark.parametrize("line, why", (
    (b'x,20120630,"open\n', "line 3 can't be read: unexpected end of data"),
    (b'"a"b,20120630,\n', "line 3 can't be read: ',' expected after '\"'"),
    (b"x,20120630\n", "it has 2 columns in place of 3"),
    (b"x,20120630,,y\n", "it has 4 columns in place of 3"),
    (b"x" * 100_000 + b"\n", "line 3 can't be read: a line of more than 65536 bytes"),
    (b"\xff\xfe,20120630,\n", NO_CODE), (b"\x00,20120630,\n", NO_CODE)),
    ids=("open", "quoted", "few", "many", "long", "no text", "NUL"))
def test_odd_lines(place: Place, chains: Hub, line: bytes, why: str) -> None:
    """Of a file that is odd each record is there, or a line that says why not."""
    # Three records stand behind the bad one.
    found = read(place, chains, HEAD + GOOD + line + GOOD * 3)[1:]
    assert [row[:-2] for row in found if row[9] == ""] == [READ_WELL] * 4
    assert [row[9] for row in found if row[9]] == [why]


def test_open_records(place: Place, chains: Hub) -> None:
    """A quotation mark that isn't closed for longer than a record may be; and names alone."""
    found = read(place, chains, HEAD + b'x,20120630,"open\n' + GOOD * 1_000)[1:]
    assert sum(row[:-2] == READ_WELL for row in found) == 1_000
    assert found[0][9] == "line 2 can't be read: a record of more than 100 lines"
    assert read(place, chains, HEAD) == [["code", "date", "note", *ADDED]]


@pytest.mark.parametrize("separator", ",;\t")
@pytest.mark.parametrize("start, mark", ((b"", ""), (b"\xef\xbb\xbf", "\ufeff")))
def test_spreadsheets(place: Place, chains: Hub, start: bytes, mark: str, separator: str) -> None:
    """What spreadsheets write."""
    file = b"n,code,date\r\n\r\n1,%d,20120630" % concept_id(1)
    file = start + file.replace(b",", separator.encode())
    ran = place.run_script(READER, "--socket", chains.questions, given=file)
    rows = list(csv.reader(ran.output.splitlines(), delimiter=separator))
    assert rows[0] == [mark + "n", "code", "date", *ADDED]
    assert rows[1][3:7] == ["1", ONE, "1", NEW]


def test_no_imports(place: Place) -> None:
    with Hub(place, place.make_store(), asks=True) as hub:
        empty = read(place, hub, b"code,date\n%d,20120630\n" % concept_id(1))
        assert empty[1][2:] == [""] * 6 + [LATER, "0", ""]


@pytest.mark.parametrize("given, words, status, why", (
    (b"", [], 2, "the first line names no columns code and date"),
    (b"code;date,x\n", [], 2, "the first line names no columns code and date"),
    (b"code,date,pin\n", [], 2, "the first line names a column that is added here"),
    (b"x" * 70_000, [], 2, "a line of more than 65536 bytes"),
    (b"code,date\n", ["--pin", "2"], 1, "PIN 2 was answered ERR 44 PinRange"),
    (b"code,date\n", ["--pin", "-1"], 1, "PIN -1 was answered ERR 43 Arguments")),
    ids=("nothing", "no columns", "an added one", "long", "no such pin", "no pin"))
def test_bad_runs(place: Place, chains: Hub, given: bytes, words: list[str], status: int,
                  why: str) -> None:
    """What ends a run is said in one line."""
    ran = place.run_script(READER, "--socket", chains.questions, *words, given=given)
    assert ran == (status, "", f"read_records: {why}\n")


@pytest.mark.parametrize("count", (1, 100_000))
def test_runs_that_nobody_reads(place: Place, chains: Hub, count: int) -> None:
    unread = Script(place, READER, "--socket", chains.questions)
    unread.output.close()
    with contextlib.suppress(BrokenPipeError):
        unread.input.write(b"code,date\n" + b"1,2\n" * count)
        unread.input.close()
    assert unread.ended() == (1, "read_records: [Errno 32] Broken pipe\n")


def test_runs_whose_hub_ends(place: Place) -> None:
    with with_release(place, "chains", CHAINS) as hub:
        left = Script(place, READER, "--socket", hub.questions)
        left.send(b"code,date\n" + b"1,2\n" * 150)
        assert left.output.readline().startswith(b"code,")
        assert hub.stop() == 0
        left.input.write(b"%d,20120630\n" % concept_id(1) * 100)
        left.input.close()
        assert left.ended() == (1, "read_records: the hub has ended\n")
    assert place.run_script(READER, "--socket", hub.questions, given=b"code,date\n") == (
        1, "", f"read_records: {hub.questions}: No such file or directory\n")


def memory_of_run(place: Place, hub: Hub, count: int) -> int:
    """The most bytes of memory that a run of so many records takes."""
    path = place.path("long")
    lines = (b"%s,%d,none\n" % (b"n" * 500, number) for number in range(count))
    path.write_bytes(b"note,code,date\n" + b"".join(lines))
    with open(path, "rb") as file:
        done = subprocess.run(
            [sys.executable, "-c", MEASURING, sys.executable, place.script(READER), "--socket",
             hub.questions], stdin=file, check=True, stdout=subprocess.PIPE,
            stderr=subprocess.DEVNULL)
    return int(done.stdout) * 1024


def test_long_runs(place: Place, chains: Hub) -> None:
    """A long file takes no more memory than a short one."""
    short, long = map(partial(memory_of_run, place, chains), (100, 30_000))
    assert long - short <= MOST_MEMORY
