"""Takes a first look, as `./try` offers it in a new clone, and does what it says.

try_first_look.py [--build] PROGRAM

PROGRAM stands in for the one that ./try builds without a proof; with `--build` that is built, which
takes minutes. The page, the FHIR request and the line that ./try prints are tried as they are
printed, the page also by Chromium where there is one. It has to say that the program isn't proved,
to end with all that it started at Ctrl-C, to keep its store for the next time, to take another port
where the usual one is taken, and to name what is missing.
"""

from __future__ import annotations

import contextlib
import os
import re
import shutil
import signal
import socket
import subprocess
import sys
import tempfile
import time
from collections.abc import Iterator
from pathlib import Path
from typing import NamedTuple
from urllib.parse import urlsplit

import chromium
from harness import NotRun, Wrong, parser_of, same, tell, until

ROOT = Path(__file__).resolve().parents[2]
sys.path += [str(ROOT / "packaging"), str(ROOT / "bench")]
import built  # noqa: E402
import first_look  # noqa: E402
from needs import MODULES  # noqa: E402
from unproved import kit_folder  # noqa: E402

# How long the first look may take to be there: with a build, and without one.
BUILD_SECONDS, SECONDS = 1800, 120
# What of this tree ./try needs; of crates/ what the program is built from.
TAKEN = ("try", "packaging", "service", "examples", "docs/package", "bench/unproved.py",
         "crates.txt")
WANTED_FHIR = '"name":"display","valueString":"Street"'
WANTED_LINE = "ROW 1000004\t20200131\t1\t900000000000207008\t900000000000074008\nEND 1\n"
WANTED_PAGE = "SNOMED CT 1000004 |Street (environment)| on 2020-06-30: active"
NOT_PROVED = "NOT PROVED"
LAST_LINE = "Ctrl-C ends all.\n"


class Told:
    """What ./try prints: the address of the page and its port, commands, and all of it."""

    def __init__(self, text: str) -> None:
        self.text = text
        self.page = self.found(r"^The page: +(http://127\.0\.0\.1:\d+/\S+)$")
        self.port = urlsplit(self.page).port or 0
        self.fhir, self.line = self.found("^FHIR: +(.*)$"), self.found("^A line to ask: +(.*)$")
        self.version = self.found(r"\((\S.* --version)\)$")

    def found(self, pattern: str) -> str:
        found = re.search(pattern, self.text, re.M)
        if not found:
            raise Wrong("what it prints lacks something: %r" % self.text)
        return found[1]


def shell(command: str) -> str:
    done = subprocess.run(["bash", "-c", command], stdin=subprocess.DEVNULL, capture_output=True,
                          timeout=SECONDS, check=False)
    return done.stdout.decode("utf-8", "backslashreplace")


def make_clone(place: Path) -> Path:
    """A copy of what of this tree ./try needs."""
    clone, kept_out = place / "a clone", shutil.ignore_patterns("__pycache__", ".*", "out")
    for name in TAKEN:
        source, to = ROOT / name, clone / name
        to.parent.mkdir(parents=True, exist_ok=True)
        if source.is_dir():
            shutil.copytree(source, to, ignore=kept_out)
        else:
            shutil.copy(source, to)
    for crate in (ROOT / "crates").iterdir():
        for part in ("src", "specs", "proofs"):
            if (crate / part).is_dir():
                shutil.copytree(crate / part, clone / "crates" / crate.name / part)
    return clone


def put_program(clone: Path, program: Path) -> None:
    """Puts the program where ./try would have built it."""
    home = clone / "out" / "try"
    home.mkdir(parents=True)
    shutil.copy(program, home / built.CRATE)
    digest = built.digest_of_sources(kit_folder())
    (home / built.SOURCES).write_text(digest, encoding="ascii")


@contextlib.contextmanager
def looking(clone: Path, *words: str, **around: str) -> Iterator[Look]:
    with open(clone.with_name("printed"), "wb") as printed:
        process = subprocess.Popen([str(clone / "try"), *words], cwd="/", env=os.environ | around,
                                   stdin=subprocess.DEVNULL, stdout=printed,
                                   stderr=subprocess.STDOUT, start_new_session=True)
    try:
        yield Look(process, Path(printed.name))
    finally:
        # (Where it was right it has ended by now.)
        process.terminate()
        process.wait(SECONDS)


class Look(NamedTuple):
    """./try, and the file of what it prints."""

    process: subprocess.Popen[bytes]
    printed: Path

    def told(self, seconds: float = SECONDS) -> Told:
        """What it prints once all is there."""
        until("all that ./try starts", lambda: LAST_LINE in self.printed.read_text("utf-8")
              or self.process.poll() is not None, seconds)
        return Told(self.printed.read_text("utf-8"))

    def end(self, how: signal.Signals) -> int:
        """Its status after a signal, as after Ctrl-C."""
        self.process.send_signal(how)
        return self.process.wait(SECONDS)


def is_open(port: int) -> bool:
    with socket.socket() as trial:
        return trial.connect_ex((first_look.HOST, port)) == 0


def asks(told: Told) -> None:
    same("the line to ask", shell(told.line), WANTED_LINE)
    answer = shell(told.fhir)
    same("whether FHIR answers %r" % answer[:300], WANTED_FHIR in answer, True)
    page = shell("curl -s '%s'" % told.page)
    same("whether the page has the record", WANTED_PAGE in page, True)
    version = shell(told.version)
    same("whether the version says so: %r" % version, version.strip().endswith(NOT_PROVED), True)


def by_chromium(told: Told) -> None:
    path = chromium.found()
    if path is None:
        print("skipped: there is no Chromium", flush=True)
        return
    with contextlib.closing(chromium.Browser(path)) as browser:
        browser.open(told.page)
        shown = str(browser.value("document.body.innerText"))
    parts = ["Street", "Way", "retired"]
    same("what the page doesn't show", [part for part in parts if part not in shown], [])


def first(clone: Path, is_built: bool) -> None:
    begun = time.monotonic()
    with looking(clone) as look:
        told = look.told(BUILD_SECONDS if is_built else SECONDS)
        print("the first time: %.0f s" % (time.monotonic() - begun), flush=True)
        same("whether it says so", NOT_PROVED in told.text, True)
        asks(told)
        by_chromium(told)
        again = told.line.replace("GET C 1000004 20200630", "IMPORT package/Full")
        imported = shell(again.replace("/questions.sock", "/sctd.sock"))
        same("an import of one's own", imported, "OK 2 0 34\n")
        same("the status after Ctrl-C", look.end(signal.SIGINT), 0)
        same("whether the page is still there", is_open(told.port), False)
        sockets = re.findall(r"\S+/questions.sock", told.line)
        same("sockets that are left", [path for path in sockets if os.path.exists(path)], [])


@contextlib.contextmanager
def usual_port_taken() -> Iterator[None]:
    with socket.socket() as taken:
        taken.setsockopt(socket.SOL_SOCKET, socket.SO_REUSEADDR, 1)
        with contextlib.suppress(OSError):  # Another program has taken it.
            taken.bind((first_look.HOST, first_look.PORT))
            taken.listen()
        yield


def second(clone: Path) -> None:
    """The second time, with the usual port taken. The store is that of the first time."""
    with usual_port_taken():
        begun = time.monotonic()
        with looking(clone) as look:
            told = look.told()
            print("the second time: %.1f s" % (time.monotonic() - begun), flush=True)
            same("whether it is another port", told.port != first_look.PORT, True)
            asks(told)
            status = shell(told.line.replace("GET C 1000004 20200630", "STATUS"))
            same("the store", status, "OK 2 34 1 -\n")
            same("the status after SIGTERM", look.end(signal.SIGTERM), 0)


def what_is_missing(clone: Path, place: Path) -> None:
    """What this machine would lack is named, with the command that installs it."""
    hiding = place / "hiding"
    hiding.mkdir()
    for module in MODULES:
        (hiding / (module + ".py")).write_text("raise ImportError\n", encoding="ascii")
    bare = place / "bin"
    bare.mkdir()
    for name in ("sh", "dirname", "git"):
        (bare / name).symlink_to(shutil.which(name) or "/nowhere")
    # (A Python that stands on the path alone finds its own library.)
    (bare / "python3").write_text("#!/bin/sh\nexec %s \"$@\"\n" % sys.executable, encoding="utf-8")
    (bare / "python3").chmod(0o755)
    with looking(clone, PATH=str(bare), PYTHONPATH=str(hiding)) as look:
        same("the status without a kit and modules", look.process.wait(SECONDS), 1)
        packages, text = " ".join(MODULES.values()), look.printed.read_text("utf-8")
        for part in ("sudo apt-get install %s\n" % packages, "export PATH=", "README.md says"):
            same("whether it says %r: %r" % (part, text), part in text, True)


def tried(program: Path, is_built: bool) -> None:
    if shutil.which("curl") is None:
        raise NotRun("there is no curl")
    try:
        first_look.look_for_all()
    except first_look.Failed as why:
        raise NotRun(str(why).replace("\n", " ")) from None
    # (A shell's background job ignores SIGINT, and what it starts would, too.)
    signal.signal(signal.SIGINT, signal.default_int_handler)
    with tempfile.TemporaryDirectory(prefix="sctd-look-") as folder:
        clone = make_clone(Path(folder))
        if not is_built:
            put_program(clone, program)
        first(clone, is_built)
        second(clone)
        what_is_missing(clone, Path(folder))


def main() -> int:
    parser = parser_of(__doc__)
    parser.add_argument("--build", action="store_true", help="builds it, which takes minutes")
    asked = parser.parse_args()
    return tell(lambda: tried(asked.program, asked.build))


if __name__ == "__main__":
    sys.exit(main())
