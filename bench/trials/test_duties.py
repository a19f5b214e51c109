"""Tries what the hub does with the built program beside answering: its socket for questions, the
rights of its sockets, its log, its merges, and the units."""

import contextlib
import grp
import os
import re
import shutil
import subprocess
import time
from collections.abc import Sequence
from pathlib import Path

import pytest

from harness import HANDING_ON, HUB_SECONDS, RECORDER, RELEASES, TOP, TRACE, Client, Hub, Place
from harness import Threads, Wrong, concept, concept_id, has_strace, mode, until, write_release
from test_copies import begin_copy, slow_copies

NOT_A_QUESTION = ["ERR hub NotAQuestion"]
STATUS = ["OK 2 10 2 -"]
# More imports than a store may have segments.
NIGHTS = 300
MOST_SEGMENTS = 250
ALMOST_FULL = MOST_SEGMENTS - 1
# Lines that are on their way at the same time.
ASKED = b"STATUS\n" * 200
MERGE_ABOVE = 100
# Another user and group than the hub's.
NOBODY = 65534
CHANGES = ["IMPORT r3", "MERGE", "STEP 1", "PUBLISH", "ABANDON", "TRIM", "BACKUP /no folder/copy"]
# Lines that only look like questions, or like nothing.
ODD = [
    "IMPORT r3\r", "IMPORT", " IMPORT r3", "IMPORT\tr3", "import r3", "\0IMPORT r3", "GETIMPORT r3",
    "GET\rIMPORT r3", "\rIMPORT r3", "0 IMPORT r3", "1 UNPIN", "STATUS\0", " STATUS", "status",
    "STATUS\tx", "STATUS\r\r", "", "\r", " ", "\v", "CHECK r3", "STATUS\u2028IMPORT r3", "ŠTATUS"]
# Questions that are refused, which the program does itself.
FAULTY = [
    "STATUS ", "STATUS  ", "GET  C 1000004 20200131", "GET", "PIN 9", "UNPIN IMPORT r3",
    "GET C 1000004 20200131\0", "AT", "AT 1", "AT 1 IMPORT r3", "AT 1 UNPIN", "AT 1 AT 1 DATES",
    "AT 3 DATES", "DATES ", "ANCESTORS 1000015 20200131", "DIGEST ", "DIGEST 1", "AT 1 CHECK r3",
    "AT 3 DIGEST", "AT 01 DIGEST", "AT 12345678901 DIGEST", "AT 1  DIGEST", "AT DIGEST",
    "AT 1 DIGEST "]
# Those for which the hub asks for rows, and what it asks for first.
MAYBE, PAGE_ROWS = ("AT 3 DIGEST", "AT 01 DIGEST"), 250
FIRST_PAGE = f"ROWS C - - {PAGE_ROWS}"


# What examples/digest.py says of r1, and of r1 and r2.
DIGEST_IN_2020 = "f7a233c7191872b693ccbfd82de00044fc814d77d323e51e5fbafb5e06671b5b"
DIGEST_IN_2021 = "c90a8f82de0dccf7f92d4d999bde82dad4914097938c58c11ff3ea917dfec364"
# An auditor's questions. (A store of this layout keeps no members of reference sets.)
AUDIT = [
    "DATES", "ANCESTORS 1000004 20200630", "DESCENDANTS 138875005 20200630",
    "DELTA A 20200131 20210131 - 10", "REPLACES 2000001 20210131", "TIMELINE A 1000004",
    "MEMBERS 900000000000509007 20210131 - 10", "VALUES 900000000000509007 20210131 - 10",
    "CALLED 1000004 20210131 900000000000509007", "DIGEST"]
AT_A_PIN = [f"AT {pin} {line}" for pin in (1, 2) for line in AUDIT]


def test_questions_alone(place: Place, store: Path) -> None:
    """On the socket for questions nothing can be changed, and what the program says by itself is
    answered; the replies come in their order."""
    before = store.read_bytes()
    by_program = dict(zip(AUDIT + FAULTY, place.ask(store, AUDIT + FAULTY)))
    asked = [(line, NOT_A_QUESTION) for line in CHANGES + ODD]
    asked += [("STATUS", STATUS), ("STATUS\r", STATUS), ("x" * 5_000, ["ERR 40 Long"])]
    asked += [("RECEIPT 1", ["OK 1 6 20200131"]), ("PIN 1", ["OK 1"]), ("UNPIN", ["OK"])]
    asked += zip(AT_A_PIN, place.ask(store, AT_A_PIN))
    assert ("AT 1 DIGEST", ["OK " + DIGEST_IN_2020]) in asked
    with Hub(place, store, asks=True) as hub:
        for line, wanted in [*by_program.items(), *asked]:
            assert hub.guest.ask(line) == wanted, line[:40]
        mixed = [asked[place * 7 % len(asked)] for place in range(200)]
        hub.guest.send(b"".join(line.encode() + b"\n" for line, _ in mixed))
        for line, wanted in mixed:
            assert hub.guest.read() == wanted, line[:40]
        assert hub.guest.ask("STATUS") == STATUS
        assert (hub.stop(), hub.told()) == (0, "")
    assert store.read_bytes() == before


@pytest.mark.parametrize("options, wanted", (
    ([], ["1000015", "END 1"]), (["--without-words"], ["ERR 16 NotKept"])))
def test_words(place: Place, store: Path, options: list[str], wanted: list[str]) -> None:
    """A hub may keep none; all else is answered then."""
    with Hub(place, store, *options, asks=True) as hub:
        told = hub.guest.ask("WORDS 20200131 - 0 10 STR")
        assert [line.removeprefix("ROW ").partition("\t")[0] for line in told] == wanted
        assert hub.guest.ask("STATUS") == STATUS
        assert len(hub.guest.ask("TERMS 20200131 10 STR")) == 2


def test_what_arrives(place: Place, store: Path) -> None:
    """What comes to the program from the socket for questions is questions, each of its session."""
    recording = place.wrapped(RECORDER)
    with Hub(recording, store, asks=True) as hub:
        for line in CHANGES + ODD + FAULTY:
            hub.guest.ask(line)
    arrived = recording.path("lines").read_bytes().decode().split("\n")
    asked = [line.replace("DIGEST", FIRST_PAGE) if line in MAYBE else line for line in FAULTY]
    assert set(arrived) == {"1 " + line for line in asked} | {"0 STATUS", "1 UNPIN", ""}
    assert arrived.count("1 UNPIN") == 1


def test_days_to_come(hub: Hub) -> None:
    """A question about such a day is answered, and logged once a client."""
    client, other = hub.asker(), hub.client()
    for line in ("GET C 1000004 20200131", "GET C 20991231 20200131", "AT 1 DATES", "RECEIPT 1",
                 "TERMS 20200131 1 20991231", "PAGE C 20200131 20991231 1",
                 "GET C 1000004 209912311"):
        client.ask(line)
    assert hub.logged() == []
    for line in ("AT 1 DELTA C 20200131 20991231 - 1", "GET C 1000004 20991230"):
        assert client.ask(line)[-1].startswith("END ")
    other.ask("CHILDREN 1000004 20991230\r")
    hub.client().ask("WORDS 20991229 - 0 1 str")
    assert hub.logged() == [f"user {os.getuid()} asks about {day}, which is yet to come"
                            for day in ("20991231", "20991230", "20991229")]


def test_pins_apart(hub: Hub) -> None:
    """No client can touch the pin of another one, on whichever sockets they are."""
    clients = [hub.asker(), hub.asker(), hub.client(), hub.client()]
    assert clients[0].ask("PIN 1") == ["OK 1"]
    assert clients[2].ask("PIN 1") == ["OK 1"]
    for line in ("UNPIN", "PIN 2", "PIN", "1 UNPIN", "2 UNPIN", "3 UNPIN", "0 UNPIN", "UNPIN 1"):
        clients[1].ask(line)
        clients[3].ask(line)
    for client in clients[::2]:
        assert client.ask("RECEIPT 2") == ["ERR 44 PinRange"]
    for client in clients[1::2]:
        assert client.ask("RECEIPT 2") == ["OK 2 4 20210131"]


@pytest.mark.parametrize("has_group, wanted", ((False, 0o600), (True, 0o660)))
def test_rights(place: Place, store: Path, has_group: bool, wanted: int) -> None:
    """The sockets are their owner's alone, that for questions also a group's where one is named,
    whatever the umask, from the moment at which they are there."""
    words = ["--group", grp.getgrgid(os.getegid()).gr_name] if has_group else []
    # Where there is strace, these calls take their time, so that no moment is missed.
    calls = "chmod,fchmodat,chown,fchownat,lchown,listen"
    slowly = [*TRACE, "-o", "/dev/null", "-e", f"inject={calls}:delay_enter=100000"]
    seen = Watched(place.path("hub"), place.path("questions"))
    with seen, Hub(place, store, *words, umask=0, before=slowly if has_strace() else [],
                   asks=True) as hub:
        assert hub.first_line == "OK ready"
        assert (mode(hub.socket), mode(hub.questions)) == (0o600, wanted)
        assert hub.questions.lstat().st_gid == os.getegid()
    assert seen.modes[hub.socket] == {0o600}
    assert seen.modes[hub.questions] <= {0o600, wanted}


class Watched(Threads):
    def __init__(self, *paths: Path) -> None:
        super().__init__(1, self.watch)
        self.modes: dict[Path, set[int]] = {path: set() for path in paths}

    def watch(self, _: int) -> None:
        while not self.is_over:
            for path, modes in self.modes.items():
                with contextlib.suppress(FileNotFoundError):
                    modes.add(mode(path))


@pytest.mark.skipif(os.geteuid() != 0, reason="it takes root to be another user")
def test_other_users(place: Place, store: Path) -> None:
    """Another user can't connect; one of the group can ask."""
    group = next(one for one in grp.getgrall() if one.gr_gid not in (0, NOBODY))
    with Hub(place, store, "--group", group.gr_name, asks=True) as hub:
        groups: tuple[list[int], ...] = ([], [group.gr_gid])
        assert [asks_as_nobody(path, own) for path in (hub.socket, hub.questions)
                for own in groups] == [1, 1, 1, 0]


def asks_as_nobody(path: Path, groups: Sequence[int]) -> int:
    """0 if a user with these groups alone is answered, 1 if it may not connect."""
    child = os.fork()
    if child == 0:
        status = 2
        try:
            os.setgroups(groups)
            os.setgid(NOBODY)
            os.setuid(NOBODY)
            assert Client(path).ask("STATUS") == STATUS
            status = 0
        except Wrong as wrong:
            status = 1 if "Permission denied" in str(wrong) else 2
        finally:
            os._exit(status)
    return os.waitstatus_to_exitcode(os.waitpid(child, 0)[1])


def test_the_log(place: Place) -> None:
    """The log tells of imports, published merges and copies, and of what is refused; nothing from
    outside can look like another line of it."""
    copy = place.path("copy")
    with Hub(place, place.make_store()) as hub:
        assert hub.owner.ask("CHECK r1") == ["OK 1 6 0"]
        for line in ("IMPORT r1", "IMPORT r2", "STATUS", "GET C 1 2", "x", "IMPORT r9", "STEP 1",
                     "MERGE", "STEP 10", "PUBLISH", "TRIM", "IMPORT r\x1b[31m",
                     "IMPORT a\rb\u2028c\\n", f"BACKUP {copy}"):
            hub.owner.ask(line)
        hub.owner.send(b"IMPORT \xff\x00\x7f\n")
        assert hub.owner.read() == ["ERR 43 Arguments"]
        assert hub.stop() == 0
        told, lines = hub.told(), hub.logged(is_alone=False)
    assert lines == [
        "CHECK r1: OK 1 6 0", "IMPORT r1: OK 1 6 0", "IMPORT r2: OK 2 4 0",
        "IMPORT r9: ERR 45 NoFolder", "STEP 1: ERR 11 NoMerge", "PUBLISH: OK",
        "IMPORT r\\x1b[31m: ERR 43 Arguments", "IMPORT a\\rb\\u2028c\\\\n: ERR 43 Arguments",
        f"BACKUP {copy}: OK 2 10 1", "IMPORT \\xff\\x00\\x7f: ERR 43 Arguments"]
    assert all(sign.isprintable() for sign in told.replace("\n", ""))
    assert f"sctd: {RELEASES / 'r9'}: no such folder" in told


def test_no_reply(place: Place, store: Path) -> None:
    """Where the program ends within an import, the log says which it was."""
    ending = place.wrapped(HANDING_ON % ("""
    if b"IMPORT" in line:
        break""", ""))
    with Hub(ending, store) as hub:
        hub.owner.send(b"IMPORT r1\x1b\n")
        assert hub.owner.line() == b""
        assert hub.end() == 1
        assert hub.logged(is_alone=False) == ["IMPORT r1\\x1b: no reply"]


def check_and_import(client: Client, line: str) -> str:
    """The reply to an import, which a check said before."""
    reply = client.ask(line.replace("IMPORT", "CHECK"))
    assert client.ask(line) == reply
    return reply[0]


def test_nights(place: Place) -> None:
    """The hub merges in time, so that no import meets too many segments, and answers meanwhile."""
    lines = [f"IMPORT {one.name}" for one in place.write_nights(NIGHTS)]
    with Hub(place, place.make_store(), releases=place.releases) as hub:
        client, other = hub.client(), hub.client()
        for number, line in enumerate(lines, 1):
            assert check_and_import(client, line) == f"OK {number} 1 0"
        until("the segments are merged",
              lambda: int(other.ask("STATUS")[0].split(" ")[3]) <= MERGE_ABOVE)
        assert other.ask("STATUS")[0].split(" ")[:3] == ["OK", str(NIGHTS), str(NIGHTS)]
        for number in (1, 100, NIGHTS):
            history = client.ask(f"HISTORY C {concept_id(number)}")
            assert history == ["ROW " + concept(number), "END 1"]
            assert client.ask(f"RECEIPT {number}") == [f"OK {number} 1 20250131"]
        assert hub.stop() == 0
        assert hub.logged().count("PUBLISH: OK") >= NIGHTS - MERGE_ABOVE


def test_no_merge_at_start(place: Place) -> None:
    """A hub that is started merges nothing before the first import. If there was no space for a
    merge, each hub would otherwise end as the one before did."""
    own = place.make_store()
    lines = [f"IMPORT {one.name}" for one in place.write_nights(4)]
    import_alone(place, own, lines[:3])
    with Hub(place, own, "--merge-above", "1", releases=place.releases) as hub:
        time.sleep(0.2)
        assert hub.owner.ask("STATUS") == ["OK 3 3 3 -"]
        assert hub.owner.ask(lines[3]) == ["OK 4 1 0"]
        until("one segment", lambda: hub.owner.ask("STATUS") == ["OK 4 4 1 -"])


def import_alone(place: Place, store: Path, lines: Sequence[str]) -> None:
    """Imports without a hub, and so without merges."""
    ran = place.run("serve", "--store", store, "--releases", place.releases,
                    given="".join(f"0 {line}\n" for line in lines))
    assert ran.output.count(" 1 0\n") == len(lines)


def test_full_store(place: Place) -> None:
    """Imports that come faster than segments are merged wait for that where a store is full, also
    those that waited for a copy before; but not where nobody wants merges."""
    own, releases, go_on = place.make_store(), place.releases, place.path("go on")
    lines = [f"IMPORT {one.name}" for one in place.write_nights(ALMOST_FULL + 20)]
    import_alone(place, own, lines[:ALMOST_FULL])
    slow = slow_copies(place.changed("store.py", 'b"STEP 1000"', 'b"STEP 1"'), go_on)
    with Hub(slow, own, "--merge-above", str(ALMOST_FULL), releases=releases) as hub:
        owner, *importing = [hub.client() for _ in range(3)]
        begin_copy(owner, place.path("copy"))
        for number, client in enumerate(importing, ALMOST_FULL):
            client.send("".join(line + "\n" for line in lines[number:-2:2]).encode())
        # So both wait for the copy, and there is room for one.
        time.sleep(0.1)
        go_on.touch()
        replies = {client.read()[0] for _ in range(9) for client in importing}
        assert replies == {f"OK {number} 1 0" for number in range(MOST_SEGMENTS, len(lines) - 1)}
        assert owner.read() == ["OK" + f" {ALMOST_FULL}" * 3]
        until("a merge", lambda: owner.ask("STATUS")[0].endswith(f" {ALMOST_FULL} -"))
    with Hub(place, own, "--merge-above", str(MOST_SEGMENTS), releases=releases) as hub:
        last = [check_and_import(hub.owner, line) for line in lines[-2:]]
        assert last == [f"OK {len(lines) - 1} 1 0", "ERR 6 TooManySegments"]
    with Hub(place, own, "--merge-above", str(ALMOST_FULL), releases=releases) as hub:
        assert check_and_import(hub.owner, lines[-1]) == f"OK {len(lines)} 1 0"


def store_to_merge(place: Place) -> Path:
    """A store of two large segments, beside releases of one that is smaller and two of one row."""
    own = place.make_store()
    made = {"big": range(1, 6_001), "other": range(6_001, 12_001), "third": range(12_001, 14_001),
            "between": range(19_999, 20_000), "fifth": range(20_000, 20_001)}
    for name, numbers in made.items():
        write_release(place.releases / name, {"C": [concept(one) for one in numbers]})
    place.import_all(own, [place.releases / "big", place.releases / "other"])
    return own


class Asking(Threads):
    """A client that always has lines on their way, also while one that imports waits until the
    list of imports has the line of its import."""

    def __init__(self, hub: Hub) -> None:
        super().__init__(1, self.ask)
        self.client = hub.client()

    def ask(self, _: int) -> None:
        self.client.send(ASKED)
        while not self.is_over:
            self.client.send(ASKED)
            self.read()
        self.read()

    def read(self) -> None:
        for _ in range(ASKED.count(b"\n")):
            self.client.read()


def test_steps(place: Place) -> None:
    """Merges go in steps of 1,000 rows, and clients are answered between them, imports too. A merge
    that a client has begun is left to that."""
    recording = place.wrapped(RECORDER)
    own = store_to_merge(place)
    words = ("--merge-above", "2", "--import-unchecked")
    with Hub(recording, own, *words, releases=place.releases) as hub, Asking(hub):
        for line, count in ((b"IMPORT third\n", 100), (b"IMPORT between\n", 2_000)):
            hub.owner.send(line + b"STATUS\n" * count)
        assert hub.owner.read() == ["OK 3 2000 0"]
        for _ in range(100):
            assert hub.owner.read()[0].split(" ")[:3] == ["OK", "3", "14000"]
        assert hub.owner.read() == ["OK 4 1 0"]
        for _ in range(2_000):
            assert hub.owner.read()[0].split(" ")[:3] == ["OK", "4", "14001"]
        until("two segments", lambda: hub.owner.ask("STATUS") == ["OK 4 14001 2 -"])
        leaving = hub.client()
        assert leaving.ask("MERGE") == ["OK 14001"]
        assert leaving.ask("STEP 5") == ["OK 13996"]
        # While that client is there, the merge is its own; then it is the hub's.
        assert hub.owner.ask("IMPORT fifth") == ["OK 5 1 0"]
        time.sleep(0.2)
        assert hub.owner.ask("STATUS") == ["OK 5 14002 3 13996"]
        leaving.leave()
        until("two segments", lambda: hub.owner.ask("STATUS") == ["OK 5 14002 2 -"])
    lines = recording.path("lines").read_bytes().split(b"\n")
    at = [place for place, line in enumerate(lines) if line == b"0 STEP 1000"]
    # Of 8,000 rows, of 6,001, and of 13,996.
    assert len(at) == 29
    between = [lines[one:other] for one, other in zip(at[:8], at[1:8])]
    assert all(len(some) > 1 for some in between)
    assert sum(line.endswith(b" IMPORT between") for some in between for line in some) == 1


UNIT, GATEWAY_UNIT = (TOP / "packaging" / name for name in ("sctd.service", "sctd-gateway.service"))
# Lines of both units, and of that of the hub.
LINES = ["NoNewPrivileges=yes", "CapabilityBoundingSet=", "ProtectSystem=strict", "UMask=0077",
         "SupplementaryGroups=sctd-ask", "SystemCallFilter=@system-service"]
HUB_LINES = ["PrivateNetwork=yes", "RestrictAddressFamilies=AF_UNIX",
             "Environment=GLIBC_TUNABLES=glibc.malloc.hugetlb=1"]
# The greatest exposures that `systemd-analyze security` may find, in tenths; one was 87 once.
MOST_EXPOSED, GATEWAY_EXPOSED = 6, 10


@pytest.mark.parametrize("path, lines, most", (
    (UNIT, LINES + HUB_LINES, MOST_EXPOSED), (GATEWAY_UNIT, LINES, GATEWAY_EXPOSED)))
def test_units(path: Path, lines: Sequence[str], most: int) -> None:
    """Units are hardened. That of the hub gives questions to a group and imports to its owner."""
    text = path.read_text("utf-8")
    for line in lines:
        assert text.count(f"\n{line}\n") == 1, line
    assert text.count("\nMemoryMax=") == 1
    analysing = shutil.which("systemd-analyze")
    if analysing is None:
        pytest.skip("there is no systemd-analyze")
    done = subprocess.run(
        [analysing, "security", "--offline=true", f"--threshold={most}", path],
        stdout=subprocess.PIPE, stderr=subprocess.STDOUT, timeout=HUB_SECONDS, check=False)
    if b"unrecognized option" in done.stdout:
        pytest.skip("this systemd-analyze can't look at a file")
    assert done.returncode == 0, done.stdout.splitlines()[-1:]


def allowed_calls(lists: Sequence[str]) -> set[str]:
    def calls(name: str) -> set[str]:
        if not name.startswith("@"):
            return {name}
        done = subprocess.run(["systemd-analyze", "syscall-filter", name], stdout=subprocess.PIPE,
                              timeout=HUB_SECONDS, check=True)
        words = [line.strip() for line in done.stdout.decode().splitlines()[1:]]
        names = [word for word in words if word and not word.startswith("#")]
        return set[str]().union(*map(calls, names))

    allowed: set[str] = set()
    for words in lists:
        found = set[str]().union(*map(calls, words.lstrip("~").split(" ")))
        allowed = allowed - found if words.startswith("~") else allowed | found
    return allowed


@pytest.mark.skipif(shutil.which("systemd-analyze") is None or not has_strace(),
                    reason="it takes systemd-analyze and strace")
def test_system_calls(place: Place) -> None:
    """What the hub and the program ask of the system, the unit allows. A copy and its folder are
    synced before it is checked."""
    allowed = allowed_calls(re.findall(r"^SystemCallFilter=(.*)$", UNIT.read_text("utf-8"), re.M))
    trace, group = place.path("trace"), grp.getgrgid(os.getegid()).gr_name
    tracing = [*TRACE, "-o", str(trace), "-e", "signal=none"]
    with Hub(place, place.make_store(), "--group", group, "--merge-above", "1", before=tracing,
             asks=True) as hub:
        for line in ("IMPORT r1", "IMPORT r2", f"BACKUP {place.path('copy')}", "TRIM"):
            assert hub.owner.ask(line)[0].startswith("OK")
    until("the trace has its end", lambda: b"exit_group" in trace.read_bytes()[-200:])
    lines = trace.read_text("utf-8", "backslashreplace")
    called = set(re.findall(r"^[0-9]+ +([a-z_0-9]+)\(", lines, re.M))
    assert {"chown", "fadvise64", "fdatasync", "flock", "bind"} <= called
    assert called <= allowed
    for forbidden in (
            r"PROT_WRITE\|PROT_EXEC", r"mprotect\([^)\n]*PROT_EXEC", r"socket\(AF_(?!UNIX)"):
        assert re.findall(forbidden, lines) == []
    copying = lines[lines.index('copy", O_WRONLY|O_CREAT|O_EXCL') :]
    copying = copying[: copying.index('"status", "--store"')]
    assert copying.count(" fsync(", copying.rindex("write(")) == 2


@pytest.mark.skipif(shutil.which("mypy") is None, reason="there is no mypy")
def test_types(place: Place) -> None:
    """The types of the examples are right. (Those of the package try_gateway.py looks at.)"""
    examples = place.script("examples")
    files = sorted(path.name for path in examples.glob("*.py"))
    done = subprocess.run(["mypy", "--strict", "--cache-dir=/dev/null", *files], cwd=examples,
                          env=os.environ | {"MYPYPATH": str(place.script("service"))},
                          stdout=subprocess.PIPE, stderr=subprocess.STDOUT, check=False)
    assert (done.returncode, done.stdout.decode()) == (
        0, f"Success: no issues found in {len(files)} source files\n")
