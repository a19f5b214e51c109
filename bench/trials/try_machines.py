"""Tries one machine that imports and two that are fed by its backups, behind a proxy.

try_machines.py PROGRAM [--long] [--minutes N] [--haproxy] [--processes]

RELIABILITY says what is done, under "Three machines". Each answer has to be what the releases
themselves say of the pin that it names, as service/tests reads them. One that isn't is counted as
mixed where it has rows of several imports, and as wrong otherwise. A request may be refused only
where no machine that ran all the time has its pin, or the proxy was started again.

With --long 200 imports and 100,000 requests are made in place of 20 and 3,000, or as many of these
as N minutes allow. Where no networks can be made, as without root, or with --processes, the
machines are processes with an address each on the loopback, and a line says so. Where the proxy,
openssl, curl or what the gateway imports is missing the status is 3.
"""

import argparse
import contextlib
import http.client
import json
import math
import os
import random
import shutil
import signal
import subprocess
import sys
import time
from collections import Counter
from collections.abc import Sequence
from contextlib import closing
from functools import lru_cache
from pathlib import Path
from typing import Any, NamedTuple, Optional
from urllib.parse import urlencode

from machines_releases import CODES, TOP, days_of, rows_of, wording_of, write
import harness
from harness import children, parser_of, same, tell, until
from proxy_harness import (
    HAPROXY, LOOK_SECONDS, NGINX, OPENSSL, ROOT, SECONDS, Asking, Client, Process, Proxy,
    gateway_words, hub_words, need, open_folder, ready, run, stop)
from tests.compare_releases import Comparison, Differs
from tests.fixtures import SCT, Json, version
from tests.release_files import Rows, Snapshot


class Size(NamedTuple):
    """How many imports are made while so many requests are made by so many clients."""

    imports: int
    requests: int
    clients: int


SHORT, LONG = Size(20, 3_000, 4), Size(200, 100_000, 8)
# Of how many imports a round consists, every how many the others are fed, and when what is done.
ROUND, FED_EVERY = 20, 4
KILL_WRITER, START_BALANCER, KILL_READER, START_READER = 6, 10, 13, 15
# The rounds' imports before which the last machine isn't fed.
BEHIND = range(14, 20)
MACHINES = ("writer", "near", "far")
# The addresses of the bridge, of a machine by its number in its network and without one (others
# may try machines at the same time), and of what machines listen on.
BRIDGE, ADDRESS, PORT, COPIES_PORT = "10.77.0.1", "10.77.0.%d", 8080, 8090
LOCAL_ADDRESS = "127.77.%d.%d"
# How a copy is fetched, also from a machine that is just being started.
FETCH = ("curl", "--fail", "--silent", "--show-error", "--retry-connrefused", "--retry", "30",
         "--retry-delay", "1", "--output")
# How long a process that ended stays away, as under systemd, and what starts it again as long as
# the trial goes on.
AWAY_SECONDS = 0.3
AGAIN = 'while kill -0 $PPID; do "$@"; sleep %s; done' % AWAY_SECONDS
# What serves copies, once it has said that it is ready.
SERVING = ("sh", "-c", 'echo OK ready; exec "$@"', "sh", sys.executable, "-m", "http.server")
# What says that nobody could answer.
REFUSED = (502, 503, 504)
# A part of the requests names no pin, a part is an expansion, and of those at a pin a part is at
# the latest one.
WITHOUT_PIN, EXPANSIONS, LATEST = 0.3, 0.15, 0.4
# How many Snapshots are remembered.
SNAPSHOTS = 1_000
NETWORK_TOOLS = ("ip", "unshare", "nsenter")
# What says that the networks are there.
INSIDE = "--inside"
UNSHARED = ("unshare", "--net", "--pid", "--mount-proc", "--fork", "--kill-child")


class Network:
    """A network of its own, or an address on the loopback where machines are processes."""

    def __init__(self, number: int, is_apart: bool) -> None:
        self.holder: Optional[Process] = None
        self.address = LOCAL_ADDRESS % (os.getpid() % 250, number + 2)
        if is_apart:
            self.address = ADDRESS % (number + 2)
            self.holder = subprocess.Popen(["unshare", "--net", "sleep", "infinity"])
            self.connect(self.holder.pid, number)

    @property
    def within(self) -> list[str]:
        """What begins a command in it."""
        return ["nsenter", "--net=/proc/%d/ns/net" % self.holder.pid] if self.holder else []

    def connect(self, pid: int, number: int) -> None:
        own = os.readlink("/proc/self/ns/net")
        path = "/proc/%d/ns/net" % pid
        until("a network of its own", lambda: os.readlink(path) != own, SECONDS)
        outer, inner = "out%d" % number, "in%d" % number
        run("ip", "link", "add", outer, "type", "veth", "peer", "name", inner, "netns", str(pid))
        run("ip", "link", "set", outer, "master", "bridge", "up")
        run(*self.within, "ip", "address", "add", self.address + "/24", "dev", inner)
        for name in (inner, "lo"):
            run(*self.within, "ip", "link", "set", name, "up")

    def end(self) -> None:
        if self.holder:
            stop(self.holder)


def tree_of(pid: int) -> list[int]:
    """A process, and all that it has started."""
    return [pid, *(one for child in children(pid) for one in tree_of(child))]


class Machine:
    """A network with a hub and a gateway, which are started again where they end. `levels` has from
    when on it had how many imports, or none where it didn't run for sure."""

    def __init__(self, program: str, place: Path, number: int, is_apart: bool) -> None:
        self.program, self.name = program, MACHINES[number]
        self.place, self.releases = place / self.name, place / "releases"
        for folder in ("store", "copies"):
            (self.place / folder).mkdir(parents=True)
        self.store, self.own, self.questions = (
            self.place / name for name in ("store/terms", "own", "questions"))
        self.levels: list[tuple[float, int]] = [(0.0, -1)]
        # What starts each again; none while the whole machine is off.
        self.processes: dict[str, Process] = {}
        self.network = Network(number, is_apart)
        self.address, self.within = self.network.address, self.network.within

    def words(self) -> dict[str, list[str]]:
        sockets = ["--questions", str(self.questions)]
        if self.name == MACHINES[0]:
            sockets += ["--socket", str(self.own)]
        return {"hub": hub_words(self.program, self.store, self.releases, *sockets),
                "gateway": gateway_words(self.questions, "%s:%d" % (self.address, PORT)),
                "copies": [*SERVING, "--bind", self.address, "--directory",
                           str(self.place / "copies"), str(COPIES_PORT)]}

    def start(self) -> None:
        """Starts what it does, and answers once it does it."""
        for name, words in self.words().items():
            again = ["sh", "-c", AGAIN, "sh", *self.within, *words]
            self.processes[name] = ready(again, self.place / "log")

    def start_after_kill(self) -> None:
        self.start()
        self.note(self.imports())

    def hub(self) -> int:
        """The process of its hub."""
        number, = children(self.processes["hub"].pid)
        return number

    def kill(self) -> None:
        """Ends all its processes at once, the program among them."""
        self.note(-1)
        for one in self.processes.values():
            for pid in tree_of(one.pid):
                with contextlib.suppress(ProcessLookupError):
                    os.kill(pid, signal.SIGKILL)
            one.wait()
        self.processes = {}

    def note(self, imports: int) -> None:
        self.levels.append((time.monotonic(), imports))

    def has_had(self, pin: int, since: float, until: float) -> bool:
        """Whether it has answered at this pin for all of that time."""
        first = max(at for at, (when, _) in enumerate(self.levels) if when <= since)
        return all(imports >= pin for when, imports in self.levels[first:] if when <= until)

    def asked(self, line: str, path: Optional[Path] = None) -> str:
        """The last line of the hub's reply."""
        with closing(harness.Client(path or self.questions)) as client:
            return client.ask(line)[-1]

    def imports(self) -> int:
        return int(self.asked("STATUS").split()[1])

    def end(self) -> None:
        self.kill()
        self.network.end()


class Question(NamedTuple):
    """What is asked at a pin or none, of a release's day or the latest, of a code or all below."""

    pin: Optional[int]
    day: Optional[str]
    code: str

    @property
    def path(self) -> str:
        named = version(self.day) if self.day else None
        if self.code == TOP:
            operation = "ValueSet/$expand"
            words = {"url": "%s?fhir_vs=isa/%s" % (named or SCT, TOP)}
        else:
            operation, words = "CodeSystem/$lookup", {"system": SCT, "code": self.code}
            words |= {"version": named} if named else {}
        base = "/fhir" if self.pin is None else "/pin/%d/fhir" % self.pin
        return "%s/%s?%s" % (base, operation, urlencode(words))


@lru_cache(maxsize=SNAPSHOTS)
def snapshot_of(pin: int, day: str) -> Snapshot:
    """What the first so many releases say of a day."""
    return Snapshot(rows_of(pin), day)


class Judge(Comparison):
    """Says of an answer whether it is what the releases say."""

    def __init__(self) -> None:
        self.rows, self.counts = Rows({}), Counter[str]()
        self.languages: tuple[str, ...] = ()
        self.answer: tuple[int, Json] = (0, {})
        self.is_dated = False

    def ask(self, path: str, **words: Any) -> tuple[int, Json]:
        return self.answer

    def asked(self, snapshot: Snapshot) -> list[str]:
        return super().asked(snapshot) if self.is_dated else []

    def fault(self, question: Question, pin: int, status: int, body: bytes) -> str:
        """What is wrong about an answer; nothing where it is right."""
        self.days, self.is_dated = days_of(pin), question.day is not None
        snapshot = snapshot_of(pin, question.day or self.days[-1])
        try:
            self.answer = status, json.loads(body, parse_float=str, parse_int=str)
            if question.code == TOP:
                self.alike("status", status, 200)
                self.expand(snapshot, TOP)
            else:
                self.lookup(snapshot, question.code)
        except (Differs, ValueError, KeyError) as why:
            is_mixed = len(set(wording_of(body.decode()))) > 1
            return "%s: %r" % ("mixed" if is_mixed else "wrong", why)
        return ""


def make_bridge() -> None:
    run("ip", "link", "add", "bridge", "type", "bridge")
    run("ip", "address", "add", BRIDGE + "/24", "dev", "bridge")
    for name in ("bridge", "lo"):
        run("ip", "link", "set", name, "up")


class Site:
    """The machines, the proxy, and what is known of them."""

    def __init__(self, place: Path, options: argparse.Namespace) -> None:
        self.program, self.place = str(options.program), place
        self.size = LONG if options.long else SHORT
        self.end_at: float = time.monotonic() + options.minutes * 60
        if options.inside:
            make_bridge()
        write(place / "releases", self.size.imports)
        self.machines = [Machine(self.program, place, number, options.inside)
                         for number in range(len(MACHINES))]
        self.writer, self.near, self.far = self.machines
        self.proxy = Proxy(place, ["%s:%d" % (one.address, PORT) for one in self.machines],
                           HAPROXY if options.haproxy else NGINX)
        # Imports that were answered, and the times in which the proxy wasn't there.
        self.imports, self.gaps = 0, list[tuple[float, float]]()

    def start(self) -> None:
        for machine in self.machines:
            machine.start()
        self.proxy.start()

    def import_next(self) -> None:
        number = self.imports + 1
        reply = self.writer.asked("IMPORT r%d" % number, self.writer.own)
        same("an import", reply.split()[:2], ["OK", str(number)])
        self.imported(number)

    def imported(self, number: int) -> None:
        self.imports = number
        self.writer.note(number)

    def kill_in_an_import(self) -> None:
        """Kills the machine that imports while it does, and repeats what wasn't done."""
        client = harness.Client(self.writer.own)
        client.send(b"IMPORT r%d\n" % (self.imports + 1))
        time.sleep(random.random() * LOOK_SECONDS)
        self.writer.kill()
        client.close()
        time.sleep(AWAY_SECONDS)
        self.writer.start()
        if (found := self.writer.imports()) > self.imports:
            same("the imports after a kill", found, self.imports + 1)
            return self.imported(found)
        self.writer.note(found)
        self.import_next()

    def feed(self, readers: Sequence[Machine]) -> None:
        """Has the readers take a backup, one after the other."""
        name = "%d.store" % self.imports
        copy = self.writer.place / "copies" / name
        listed = Path("%s.imports" % copy)
        reply = self.writer.asked("BACKUP %s" % copy, self.writer.own)
        same("a backup", reply.split()[:2], ["OK", str(self.imports)])
        for reader in readers:
            to = reader.place / "copies" / name
            for ending in ("", ".imports"):
                run(*reader.within, *FETCH, str(to) + ending,
                    "http://%s:%d/%s" % (self.writer.address, COPIES_PORT, name + ending))
            reader.note(-1)
            file = to.stat().st_ino
            said = run(*self.taking(reader, to)).splitlines()
            same("what take_copy.py says", said[-1:], ["OK %d" % self.imports])
            # (A file that was written over would be neither the one nor the other after a crash.)
            same("whether the copy is the store", reader.store.stat().st_ino == file, True)
            own = Path("%s.imports" % reader.store)
            same("the list of imports", own.read_bytes(), listed.read_bytes())
            reader.note(self.imports)
        copy.unlink()
        listed.unlink()

    def taking(self, reader: Machine, copy: Path) -> list[str]:
        """The command that puts a copy in place on a machine."""
        return [*reader.within, sys.executable, str(ROOT / "examples" / "take_copy.py"),
                "--program", self.program, "--store", str(reader.store), "--questions",
                str(reader.questions), str(copy), "kill", str(reader.hub())]

    def start_proxy_again(self) -> None:
        began = time.monotonic()
        self.gaps.append((began, math.inf))
        self.proxy.end()
        self.proxy.start()
        self.gaps[-1] = began, time.monotonic()

    def may_refuse(self, pin: Optional[int], since: float, until: float) -> bool:
        """Whether nobody had to answer at a pin, or at any, for all of that time."""
        if any(begin <= until and since <= end for begin, end in self.gaps):
            return True
        return not any(one.has_had(pin or 0, since, until) for one in self.machines)

    def close(self) -> None:
        self.proxy.end()
        for machine in self.machines:
            machine.end()


class Questions(Asking):
    """Clients whose answers are judged, and counted by what they are."""

    def __init__(self, site: Site) -> None:
        super().__init__(site.proxy, site.size.clients)
        self.site, self.counts = site, Counter[str]()

    def question(self, chance: random.Random) -> Question:
        latest = self.site.imports
        asked = latest if chance.random() < LATEST else chance.randint(1, latest)
        # (A day that a pin doesn't show is refused.)
        days = days_of(asked)
        day = chance.choice([None, days[0], days[len(days) // 2]])
        code = TOP if chance.random() < EXPANSIONS else chance.choice(CODES)
        if chance.random() < WITHOUT_PIN:
            return Question(None, day if day == days[0] else None, code)
        return Question(asked, day, code)

    def ask(self, client: Client, chance: random.Random) -> None:
        question, began = self.question(chance), time.monotonic()
        try:
            status, headers, body = client.told(question.path)
        except (OSError, http.client.HTTPException) as why:
            return self.refused(question, began, repr(why))
        if status in REFUSED:
            return self.refused(question, began, str(status))
        kind = "at a pin" if question.pin is not None else "without a pin"
        pin = int(headers.get("x-sctd-pin", "-1"))
        # (Without a pin that of an import that is being made is right, too.)
        if pin not in ([question.pin] if question.pin else range(1, self.site.imports + 2)):
            fault = "wrong: pin %d, status %d: %r" % (pin, status, body[:200])
        else:
            fault = Judge().fault(question, pin, status, body)
        self.counts[fault.partition(":")[0] or "answered " + kind] += 1
        if fault:
            self.faults.append("%s: %s" % (question.path, fault))

    def refused(self, question: Question, began: float, why: str) -> None:
        self.counts.update(("refused", "refused: " + why))
        if not self.site.may_refuse(question.pin, began, time.monotonic()):
            self.counts["refused without need"] += 1
            self.faults.append("%s: refused without need: %s" % (question.path, why))

    def wait_for(self, count: int) -> None:
        """Waits until so many are asked, or there is no more time."""
        while self.asked < count and not self.faults and time.monotonic() < self.site.end_at:
            time.sleep(LOOK_SECONDS)
        self.look()


def disturb(site: Site) -> None:
    """The next import, and what happens beside it."""
    turn = (site.imports + 1) % ROUND
    if turn == KILL_WRITER:
        site.kill_in_an_import()
    else:
        site.import_next()
    if turn == START_BALANCER:
        site.start_proxy_again()
    elif turn == KILL_READER:
        site.near.kill()
    elif turn == START_READER:
        site.near.start_after_kill()
    if site.imports % FED_EVERY == 0:
        site.feed([site.near] if turn in BEHIND else [site.near, site.far])


def refused_copies(site: Site) -> None:
    """A copy that is cut short, one that is behind and one of other imports aren't taken."""
    near, copies = site.near, site.near.place / "copies"
    whole = copies / "whole"
    site.writer.asked("BACKUP %s" % whole, site.writer.own)
    short, behind, other = (copies / name for name in ("short", "behind", "other"))
    short.write_bytes(whole.read_bytes()[:-1])
    run(site.program, "copy", "--imports", "1", "--store", str(whole), "--to", str(behind))
    run(site.program, "init", "--store", str(other))
    for number in [2, 1, *range(3, site.imports + 1)]:
        run(site.program, "import", "--quiet", "--store", str(other),
            str(site.place / "releases" / ("r%d" % number)))
    before = near.store.read_bytes()
    for copy, why in ((short, "status"), (behind, "it has 1 imports"), (other, "has an import")):
        done = subprocess.run(site.taking(near, copy), capture_output=True, check=False)
        said = done.stderr.decode()
        same("%s: status, why" % copy.name, (done.returncode, why in said), (1, True))
        same("the store, the copy", (near.store.read_bytes() == before, copy.exists()),
             (True, True))
    same("the imports", near.imports(), site.imports)


def tried(site: Site) -> None:
    size = site.size
    site.import_next()
    site.feed([site.near, site.far])
    began = time.monotonic()
    with Questions(site) as asking:
        while site.imports < size.imports and time.monotonic() < site.end_at:
            asking.wait_for(size.requests * site.imports // size.imports)
            disturb(site)
        asking.wait_for(size.requests)
    asking.look()
    counts = asking.counts + Counter({"connections made again": asking.again})
    if not site.near.processes:
        site.near.start_after_kill()
    site.feed([site.near, site.far])
    digests = {one.asked("DIGEST") for one in site.machines}
    same("how many digests the machines have", len(digests), 1)
    shown = ", ".join("%s: %d" % one for one in sorted(counts.items()))
    print("%d imports, %d requests in %.0f s: 0 wrong, 0 mixed; %s" % (
        site.imports, asking.asked, time.monotonic() - began, shown), flush=True)
    for what in ("answered at a pin", "answered without a pin"):
        same("whether some were " + what, counts[what] > 0, True)


def has_networks() -> bool:
    if any(shutil.which(tool) is None for tool in NETWORK_TOOLS):
        return False
    return subprocess.run([*UNSHARED, "true"], capture_output=True, check=False).returncode == 0


def begin(options: argparse.Namespace) -> None:
    """Makes the trial, within networks where there can be any."""
    if not options.inside:
        need((HAPROXY if options.haproxy else NGINX).name, OPENSSL, "curl")
        if not options.processes and has_networks():
            # (With this process all that it starts is ended, too.)
            os.execvp(UNSHARED[0], [*UNSHARED, sys.executable, *sys.argv, INSIDE])
        print("the machines are processes, without networks of their own", flush=True)
    with open_folder() as place, closing(Site(place, options)) as site:
        site.start()
        tried(site)
        refused_copies(site)
        print("copies that aren't taken: as it has to be", flush=True)


def main() -> int:
    parser = parser_of(__doc__)
    parser.add_argument("--long", action="store_true", help="more imports and requests")
    parser.add_argument("--minutes", type=float, default=math.inf, help="the most that it takes")
    parser.add_argument("--haproxy", action="store_true", help="haproxy in place of nginx")
    parser.add_argument("--processes", action="store_true", help="no networks")
    parser.add_argument(INSIDE, action="store_true", help=argparse.SUPPRESS)
    options = parser.parse_args()
    return tell(lambda: begin(options))


if __name__ == "__main__":
    sys.exit(main())
