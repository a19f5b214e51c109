"""What trials share: the words of scripts, the program in a folder of its own, a server, a hub, its
clients, and made releases. Their fixtures are in conftest.py."""

from __future__ import annotations

import argparse
import contextlib
import http.client
import os
import re
import select
import shutil
import signal
import socket
import stat
import subprocess
import sys
import threading
import time
from collections.abc import Callable, Iterable, Mapping, Sequence
from functools import cached_property
from pathlib import Path
from typing import NamedTuple, Self

TOP = Path(__file__).resolve().parents[2]
sys.path += [str(TOP / "bench" / "measurements"), str(TOP / "packaging")]
import make_release as rf2  # noqa: E402
from needs import MODULES, python_with  # noqa: E402

# Three small releases, whose rows the guide shows.
RELEASES = TOP / "docs" / "releases"
SMALL_RELEASES = [RELEASES / name for name in ("r1", "r2", "r3")]
HUB = "service/sctd-hub"
# The status of a script that can't be run on this machine.
NOT_RUN = 3
PIPE_SIZE = 1 << 16
# How long a call of the program, a reply of it and its end may take; and the same of a hub.
SECONDS, HUB_SECONDS = 120, 30
LAST_WORDS = ("OK", "ERR", "END")
DIGEST = re.compile(r"OK ([0-9a-f]{64})\n")
BLOCK = 4096
# Where the first segment begins, behind the two slots of the directory, with its first row.
FIRST_ROW = 4 * BLOCK
# What one byte of a file is changed to.
FLIPPED = b"\xff"
# The day of what is made where no other is named.
DAY = "20250131"
# What is around scripts: Python keeps their output until they flush it, as it mostly does.
AROUND = {name: value for name, value in os.environ.items() if name != "PYTHONUNBUFFERED"}
# Stands before the program, and writes down what comes, and how many lines at once.
RECORDER = """
import os, subprocess, sys
real = subprocess.Popen([PROGRAM, *sys.argv[1:]], stdin=subprocess.PIPE)
while part := os.read(0, 1 << 20):
    with open(FOLDER + "/parts", "a") as file:
        file.write("%d\\n" % part.count(b"\\n"))
    with open(FOLDER + "/lines", "ab") as file:
        file.write(part)
    real.stdin.write(part)
    real.stdin.flush()
real.stdin.close()
sys.exit(real.wait())
"""
# Stands before it too, and does something with each line before it hands that on, and at the end.
HANDING_ON = """
import os, subprocess, sys, time
real = subprocess.Popen([PROGRAM, *sys.argv[1:]], stdin=subprocess.PIPE)
for line in sys.stdin.buffer:
    %s
    real.stdin.write(line)
    real.stdin.flush()
%s
real.stdin.close()
sys.exit(real.wait())
"""
# Stands before the program, whose calls with these first words wait until there is a file.
WAITING = """
import os, sys, time
if sys.argv[1] in %r:
    open(FOLDER + "/begun", "w").close()
    while not os.path.exists(FOLDER + "/go on"):
        time.sleep(0.01)
os.execv(PROGRAM, [PROGRAM, *sys.argv[1:]])
"""
# strace beside what it traces, which keeps its place as the trial's child.
TRACE = ("strace", "-D", "-f", "-qq")
# When a line of a hub's log was written.
TIME = re.compile(r"[0-9]{4}-[0-9]{2}-[0-9]{2}T[0-9]{2}:[0-9]{2}:[0-9]{2}Z ")
# What it tells at its start of a store that it has imported nothing to.
NO_LINES = re.compile(TIME.pattern + r".*\.imports: it has no line for ([0-9]+) of \1 imports, "
                      r"the first of which is 1\n")


class Wrong(Exception):
    """Something isn't as it has to be."""


# What a trial ends with that can't go on.
FAULTS = (Wrong, OSError, subprocess.SubprocessError, http.client.HTTPException)


class NotRun(Exception):
    """What a trial needs and this machine lacks."""


def same(what: str, found: object, wanted: object) -> None:
    if found != wanted:
        raise Wrong(f"{what}: {found!r}, not {wanted!r}")


# ---- Scripts that make a trial


def parser_of(doc: str | None) -> argparse.ArgumentParser:
    """The words of a script of this text: the program first."""
    parser = argparse.ArgumentParser(description=(doc or "").strip().split("\n", maxsplit=1)[0])
    parser.add_argument("program", type=lambda path: Path(path).resolve(), help="the built sctd")
    return parser


def go_on_with(modules: Iterable[str] = MODULES) -> None:
    """Goes on in a Python that has these modules: this one, or else the system's."""
    python = python_with(modules)
    if python is None:
        raise NotRun(f"there is no Python with {', '.join(modules)}")
    if python != sys.executable:
        os.execv(python, [python, *sys.argv])


def tell(trial: Callable[[], object]) -> int:
    """Makes a trial, and prints what is wrong or missing: the status of its script."""
    try:
        trial()
    except NotRun as lacks:
        print(f"not run: {lacks}")
        return NOT_RUN
    except FAULTS as why:
        print(f"WRONG: {why}")
        return 1
    return 0


def replies_in(output: str) -> list[list[str]]:
    """The lines of each whole reply."""
    replies: list[list[str]] = [[]]
    for line in output.split("\n")[:-1]:
        replies[-1].append(line)
        if line.split(" ")[0] in LAST_WORDS:
            replies.append([])
    return replies[:-1]


class Ran(NamedTuple):
    """How a call ended: its status, its reply, and the lines for people."""

    status: int
    output: str
    faults: str


class Place:
    """What is tried: the program, and a tree with `service` and `examples`; and a folder for it."""

    def __init__(self, program: Path, folder: Path, tree: Path = TOP) -> None:
        self.program, self.folder, self.tree = program, folder, tree
        self.releases, self.seconds = folder / "releases", SECONDS

    def path(self, name: str) -> Path:
        return self.folder / name

    def below(self, name: str) -> Place:
        """The same in a new folder of its own."""
        place = Place(self.program, self.path(name), self.tree)
        place.releases.mkdir(parents=True)
        return place

    def changed(self, file: str, old: str, new: str) -> Place:
        """The same with a file of the hub in which one text is another one."""
        place = self.below("changed")
        place.tree = place.path("tree")
        for folder in ("service", "examples"):
            shutil.copytree(self.tree / folder, place.tree / folder)
        path = place.tree / "service" / "sctd_service" / "hub" / file
        before = path.read_text("utf-8")
        same(f"how often {file} has {old!r}", before.count(old), 1)
        path.write_text(before.replace(old, new), encoding="utf-8")
        return place

    def stopping(self, file: str, before: str, unless: str) -> Place:
        """The same with a hub that waits before a line of a file until something is so."""
        indent = before[: len(before) - len(before.lstrip())]
        wait = f"{indent}while not ({unless}):\n{indent}    __import__('time').sleep(0.01)\n"
        return self.changed(file, before, wait + before)

    def wrapped(self, script: str) -> Place:
        """The same with a program that a Python script stands before; PROGRAM is the real one."""
        place = self.below("wrapped")
        place.program = place.path("program")
        place.program.write_text(f"#!{sys.executable}\nPROGRAM = {str(self.program)!r}\n"
                                 f"FOLDER = {str(place.folder)!r}\n{script}", encoding="utf-8")
        place.program.chmod(0o755)
        return place

    def waiting(self, *commands: str) -> Place:
        """The same with a program that begins these commands, and then waits for `go_on`."""
        return self.wrapped(WAITING % (commands,))

    def until_begun(self) -> None:
        until("such a command is begun", self.path("begun").exists)

    def go_on(self) -> None:
        self.path("go on").touch()

    def link_releases(self, *names: str) -> None:
        """Puts these small releases, or all, beside those that are made."""
        for name in names or os.listdir(RELEASES):
            self.releases.joinpath(name).symlink_to(RELEASES / name)

    def write_nights(self, count: int, first: int = 1) -> list[Path]:
        """Releases n1, n2 and so on, of a new row each."""
        return [write_release(self.releases / f"n{number + 1}", {"C": [concept(first + number)]})
                for number in range(count)]

    def contents(self) -> dict[str, bytes | None]:
        """The bytes of each file by its path, and none of what is something else."""
        return {str(path.relative_to(self.folder)): path.read_bytes() if path.is_file() else None
                for path in self.folder.rglob("*")}

    # ---- the program

    def run(self, *words: str | Path, given: str = "", around: Mapping[str, str] | None = None,
            before: Callable[[], object] | None = None) -> Ran:
        """Runs the program to its end. The process that becomes it does what is before it."""
        done = subprocess.run([self.program, *words], cwd=self.folder, input=given.encode(),
                              stdout=subprocess.PIPE, stderr=subprocess.PIPE, timeout=self.seconds,
                              env=around, preexec_fn=before, check=False)
        return Ran(done.returncode, done.stdout.decode(), done.stderr.decode())

    def done(self, *words: str | Path) -> str:
        """The reply to a call that has to be done, without its end of line."""
        ran = self.run(*words)
        if ran.status != 0 or not ran.output.startswith("OK"):
            raise Wrong(f"{' '.join(map(str, words))}: {ran!r}")
        return ran.output.rstrip("\n")

    def refuses(self, words: Sequence[str | Path], reply: str, why: str,
                before: Callable[[], object] | None = None) -> None:
        """A call that has to be refused by this reply, with this in its only line for people. All
        files stay as they were."""
        there = self.contents()
        ran = self.run(*words, before=before)
        same("what is answered", ran[:2], (1, reply + "\n"))
        is_told = ran.faults.startswith("sctd: ") and why in ran.faults
        if not is_told or len(ran.faults.splitlines()) > 1:
            raise Wrong(f"{ran.faults!r}, not {why!r}")
        same("whether a file was changed", self.contents() == there, True)

    def make_store(self, name: str = "store", layout: int = 2) -> Path:
        path = self.path(name)
        self.done("init", "--store", path, "--layout", str(layout))
        return path

    def import_one(self, store: Path, release: Path) -> str:
        return self.done("import", "--quiet", "--store", store, release)

    def import_all(self, store: Path, releases: Sequence[Path]) -> None:
        for release in releases:
            self.import_one(store, release)

    def small_store(self, layout: int = 2) -> Path:
        """A store with the three releases of the guide, 6, 4 and 2 new rows in a segment each."""
        store = self.make_store(layout=layout)
        self.import_all(store, SMALL_RELEASES)
        return store

    def status(self, store: Path) -> str:
        return self.done("status", "--store", store)

    def digest(self, store: Path, imports: int | None = None) -> str:
        """The digest of a store's rows, or of those of its first imports."""
        words = [] if imports is None else ["--imports", str(imports)]
        ran = self.run("digest", "--store", store, *words)
        found = DIGEST.fullmatch(ran.output)
        if ran.status != 0 or not found:
            raise Wrong(f"a digest of {store.name}: {ran!r}")
        return found[1]

    def copy(self, store: Path, name: str, imports: int | None = None,
             layout: int | None = None) -> Path:
        """A new store with the first imports of one, or with all, in a layout, or in its own."""
        path = self.path(name)
        words: list[str] = []
        for option, number in (("--imports", imports), ("--layout", layout)):
            words += [] if number is None else [option, str(number)]
        self.done("copy", "--store", store, "--to", path, *words)
        return path

    def digest_of(self, *releases: Path | str) -> str:
        """The digest that examples/digest.py computes from releases; those behind `--all` were
        imported into a store that keeps all their files."""
        ran = self.run_script("examples/digest.py", *releases)
        same("how a digest is computed", (ran.status, ran.faults), (0, ""))
        return ran.output.rstrip("\n")

    def ask(self, store: Path, lines: Sequence[str]) -> list[list[str]]:
        """The replies to lines of one session."""
        with Server(self, store) as server:
            return [server.ask(line) for line in lines]

    # ---- scripts

    def script(self, name: str) -> Path:
        return self.tree / name

    def run_script(self, name: str, *words: str | Path, given: bytes = b"",
                   seconds: float = HUB_SECONDS, **around: str) -> Ran:
        """Runs a script of the tree to its end, with more words around it."""
        try:
            done = subprocess.run([sys.executable, self.script(name), *words], input=given,
                                  capture_output=True, timeout=seconds, check=False,
                                  env=AROUND | around)
        except subprocess.TimeoutExpired:
            raise Wrong(f"{name} hasn't ended after {seconds} seconds") from None
        # (A record that is read may have bytes that are no text.)
        output, faults = (told.decode("utf-8", "surrogateescape")
                          for told in (done.stdout, done.stderr))
        return Ran(done.returncode, output, faults)


class Server:
    """`sctd serve`, which runs no longer than its `with` block."""

    def __init__(self, place: Place, store: Path | str, releases: Path = RELEASES,
                 *words: str, user: int | None = None,
                 around: Mapping[str, str] | None = None) -> None:
        self.faults, self.unread = place.path("faults"), b""
        with open(self.faults, "wb") as faults:
            self.process = subprocess.Popen(
                [place.program, "serve", "--store", store, "--releases", releases, *words],
                cwd=place.folder, stdin=subprocess.PIPE, stdout=subprocess.PIPE, stderr=faults,
                user=user, env=around)

    def __enter__(self) -> Server:
        return self

    def __exit__(self, *_: object) -> None:
        if self.process.stdout and not self.process.stdout.closed:
            self.kill()

    def kill(self) -> None:
        """Ends it at once. What it had written is left unread."""
        assert self.process.stdin and self.process.stdout
        self.process.kill()
        self.unread += self.process.stdout.read()
        with contextlib.suppress(BrokenPipeError):
            self.process.stdin.close()
        self.process.stdout.close()
        self.process.wait()

    def send(self, data: bytes) -> None:
        assert self.process.stdin
        with contextlib.suppress(BrokenPipeError):  # What it said before it ended is read next.
            self.process.stdin.write(data)
            self.process.stdin.flush()

    def read(self, wanted: int, until: float, end: bytes = b"\xff") -> None:
        """Reads up to so many bytes, or one that ends it (0xff is in no reply), until a moment."""
        assert self.process.stdout
        while len(self.unread) < wanted and end not in self.unread:
            left = until - time.monotonic()
            if left <= 0 or not select.select([self.process.stdout], [], [], left)[0]:
                return
            part = os.read(self.process.stdout.fileno(), PIPE_SIZE)
            if not part:
                return
            self.unread += part

    def ask(self, line: str) -> list[str]:
        """The lines of the reply to a line of session 0."""
        self.send(f"0 {line}\n".encode())
        reply = [self.line(line)]
        while reply[-1].split(" ")[0] not in LAST_WORDS:
            reply.append(self.line(line))
        return reply

    def line(self, asked: str) -> str:
        self.read(sys.maxsize, time.monotonic() + SECONDS, b"\n")
        if b"\n" not in self.unread:
            raise Wrong(f"{asked!r} ends the server, or isn't answered within {SECONDS} seconds")
        line, _, self.unread = self.unread.partition(b"\n")
        return line.decode()

    def end(self) -> int:
        """Its status, once its input has ended. What it still wrote is left unread."""
        assert self.process.stdin and self.process.stdout
        self.process.stdin.close()
        status = self.process.wait(SECONDS)
        self.unread += self.process.stdout.read()
        self.process.stdout.close()
        return status

    def told(self) -> str:
        """What it has written to standard error."""
        return self.faults.read_text("utf-8")


class Hub:
    """A hub on a store. It runs no longer than its `with` block: where it still runs at the end, it
    is stopped, and has to end well."""

    def __init__(self, place: Place, store: Path | str, *words: str | Path,
                 path: Path | None = None, releases: Path = RELEASES, before: Sequence[str] = (),
                 umask: int = -1, asks: bool = False, has_own: bool = True) -> None:
        self.place = place
        self.socket, self.questions = path or place.path("hub"), place.path("questions")
        self.faults, self.clients = place.path("faults"), list[Client]()
        command: list[Path | str] = [
            *before, sys.executable, place.script(HUB), "--program", place.program, "--store",
            store, "--releases", releases, *words]
        command += ["--socket", self.socket] if has_own else []
        command += ["--questions", self.questions] if asks else []
        with open(self.faults, "wb") as faults:
            self.process = subprocess.Popen(
                command, stdout=subprocess.PIPE, stderr=faults, umask=umask)
        assert self.process.stdout
        try:
            if not select.select([self.process.stdout], [], [], HUB_SECONDS)[0]:
                raise Wrong(f"a hub says nothing for {HUB_SECONDS} seconds after its start")
            self.first_line = self.process.stdout.readline().decode("utf-8", "replace").rstrip("\n")
        except BaseException:
            self.close()
            raise

    def __enter__(self) -> Hub:
        return self

    def __exit__(self, kind: type[BaseException] | None, *_: object) -> None:
        try:
            for client in self.clients:
                client.leave()
            if kind is None and self.process.poll() is None:
                same("the end of a hub", self.stop(), 0)
        finally:
            self.close()

    @cached_property
    def owner(self) -> Client:
        """One client on the socket of its owner."""
        return self.client()

    @cached_property
    def guest(self) -> Client:
        """One on the socket for questions."""
        return self.asker()

    def client(self, path: Path | None = None) -> Client:
        """A client on the socket of its owner, or on another one."""
        self.clients.append(Client(path or self.socket))
        return self.clients[-1]

    def asker(self) -> Client:
        """A client on the socket for questions."""
        return self.client(self.questions)

    def programs(self) -> list[int]:
        """The processes that it has started."""
        return list(children(self.process.pid))

    def close(self) -> None:
        """Ends it and its program, whatever they do."""
        started = self.programs()
        if self.process.poll() is None:
            self.process.kill()
            self.process.wait()
            for number in started:
                with contextlib.suppress(ProcessLookupError):  # Its input ended.
                    os.kill(number, signal.SIGKILL)
        assert self.process.stdout
        self.process.stdout.close()

    def end(self) -> int:
        """Its status, once it has ended."""
        try:
            return self.process.wait(HUB_SECONDS)
        except subprocess.TimeoutExpired:
            raise Wrong(f"a hub hasn't ended after {HUB_SECONDS} seconds") from None

    def stop(self) -> int:
        """Its status, once it was told to end and has."""
        self.process.send_signal(signal.SIGTERM)
        return self.end()

    def told(self) -> str:
        """What it and its program have written to standard error, without a first line that says
        that no import has a line in the list of imports."""
        text = self.faults.read_text("utf-8", "backslashreplace")
        return NO_LINES.sub("", text, count=1) if NO_LINES.match(text) else text

    def logged(self, is_alone: bool = True) -> list[str]:
        """The lines of its log, without their times; the program's may stand among them."""
        lines = self.told().splitlines()
        others = [line for line in lines if not TIME.match(line)]
        same("lines of the log without a time", others if is_alone else [], [])
        return [TIME.sub("", line) for line in lines if line not in others]


class Client:
    def __init__(self, path: Path) -> None:
        self.sent = b""
        self.connection = socket.socket(socket.AF_UNIX)
        self.connection.settimeout(HUB_SECONDS)
        try:
            self.connection.connect(str(path))
        except OSError as why:
            raise Wrong(f"a client can't reach the hub: {why}") from None
        self.lines = self.connection.makefile("rb")

    def send(self, data: bytes) -> None:
        self.sent = data[-60:]
        try:
            self.connection.sendall(data)
        except ConnectionError:
            pass  # What the hub said before it hung up is read next.
        except OSError as why:
            raise Wrong(f"a client can't send {self.sent!r}: {why}") from None

    def line(self) -> bytes:
        """The next line, and none where the hub hung up."""
        try:
            return self.lines.readline()
        except ConnectionError:
            return b""
        except OSError:
            raise Wrong(f"no reply to {self.sent!r} within {HUB_SECONDS} seconds") from None

    def read(self) -> list[str]:
        reply: list[str] = []
        while not reply or reply[-1].split(" ")[0] not in LAST_WORDS:
            line = self.line()
            if not line.endswith(b"\n"):
                found = [*reply, line] if line else reply
                raise Wrong(f"the hub hangs up on a client that sent {self.sent!r}, after {found}")
            reply.append(line.decode("utf-8", "backslashreplace")[:-1])
        return reply

    def ask(self, line: str) -> list[str]:
        self.send(line.encode() + b"\n")
        return self.read()

    def has_reply(self, seconds: float = 0.0) -> bool:
        return bool(select.select([self.connection], [], [], seconds)[0])

    def leave(self) -> None:
        self.lines.close()
        self.connection.close()

    close = leave


class Threads:
    """Threads within a `with` block: each makes its calls of `ask` until it is over."""

    def __init__(self, count: int, ask: Callable[[int], None]) -> None:
        self.is_over = False
        self.threads = [threading.Thread(target=ask, args=(number,)) for number in range(count)]

    def __enter__(self) -> Self:
        for thread in self.threads:
            thread.start()
        return self

    def __exit__(self, *_: object) -> None:
        self.is_over = True
        for thread in self.threads:
            thread.join(SECONDS)


def mode(path: Path) -> int:
    """The rights of a file, and not of what a link leads to."""
    return stat.S_IMODE(path.lstat().st_mode)


def has_strace() -> bool:
    """Whether strace is there, and allowed."""
    if shutil.which("strace") is None:
        return False
    return subprocess.run([*TRACE, "-o", os.devnull, "true"], stderr=subprocess.DEVNULL,
                          timeout=HUB_SECONDS, check=False).returncode == 0


def children(number: int) -> set[int]:
    """The processes that a process has started; none where it has ended."""
    try:
        text = Path(f"/proc/{number}/task/{number}/children").read_text("ascii")
    except OSError:
        return set()
    return set(map(int, text.split()))


def until(what: str, is_so: Callable[[], object], seconds: float = HUB_SECONDS) -> None:
    end = time.monotonic() + seconds
    while not is_so():
        if time.monotonic() > end:
            raise Wrong(f"{what}: not after {seconds} seconds")
        time.sleep(0.02)


# ---- Releases


def write_release(folder: Path, rows: Mapping[str, Sequence[str]], date: str = DAY) -> Path:
    """Writes a Delta; the rows of each sort of files are texts with tabs, and a sort may lack."""
    texts = {sort: rows.get(sort, []) for sort in (*rf2.KINDS, *rows)}
    rf2.write(str(folder), "Delta", date, texts)
    return folder


def head_of(sort: str) -> str:
    """The first line of the files of a sort."""
    return rf2.SORTS[sort].columns.replace(" ", "\t") + "\n"


def concept_id(number: int) -> int:
    return rf2.sctid(1_000 + number, "00")


def concept(number: int, date: str = DAY, active: int = 1, module: int = rf2.CORE) -> str:
    """The row of a made concept."""
    return "\t".join(map(str, [concept_id(number), date, active, module, rf2.PRIMITIVE]))


def description(number: int, of: int, term: str, date: str = DAY, kind: int = rf2.SYNONYM,
                active: int = 1, language: str = "en") -> str:
    """The row of a made description, of the concept with an SCTID."""
    return "\t".join(map(str, [
        rf2.sctid(1_000 + number, "01"), date, active, rf2.CORE, of, language, kind, term,
        rf2.CASE_INSENSITIVE]))


def flip(path: Path, at: int = FIRST_ROW, byte: bytes = FLIPPED) -> bytes:
    """Changes a byte of a file, and answers the one that was there."""
    with open(path, "r+b") as file:
        before = os.pread(file.fileno(), 1, at)
        os.pwrite(file.fileno(), byte, at)
    return before
