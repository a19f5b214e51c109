#!/usr/bin/env python3
"""A first look: builds the program without a proof, and serves a small sample store.

./try [--port N]

The store, the program and the log are in out/try of this clone; `rm -r out/try` begins anew. The
hub and the gateway listen until Ctrl-C, on this machine alone.
"""

from __future__ import annotations

import argparse
import shlex
import shutil
import signal
import socket
import subprocess
import sys
import tempfile
import time
from collections.abc import Sequence
from pathlib import Path

import built
from needs import MODULES, python_with

TOP = built.TOP
sys.path.append(str(TOP / "service"))
from sctd_service.protocol import HubClient, HubFailed  # noqa: E402

HOME = TOP / "out" / "try"
HOST, PORT = "127.0.0.1", 8080
# The sample package, below docs/: what of it is imported, its module and its language.
SAMPLE = "package/Full"
EDITION, LANGUAGE = "900000000000207008", "900000000000509007"
LOOKED_UP = "code=1000004&date=2020-06-30"
# How long each of the two may take to be ready, and to end.
SECONDS = 30
TOLD = """
The page:       {base}/?q=1000004&date=2020-06-30
FHIR:           curl -s '{base}/fhir/CodeSystem/$lookup?system=http://snomed.info/sct&{looked_up}'
A line to ask:  echo 'GET C 1000004 20200630' | {python} {client} {questions}

The program is NOT PROVED: it is for a look, and not for use. ({command} --version)
Ctrl-C ends all.
"""


class Failed(Exception):
    """Why there is nothing to look at."""


def look_for_all() -> str:
    """The Python that the gateway takes. What this machine lacks is told all at once."""
    python, lacks = python_with(), []
    if python is None:
        lacks.append("the gateway needs: sudo apt-get install " + " ".join(MODULES.values()))
    if shutil.which("rt") is None:
        lacks.append(built.NO_KIT)
    if python is None or lacks:
        raise Failed("\n".join(lacks))
    return python


def port_of(asked: int | None) -> int:
    """The port that was asked for; or else the usual one, or another one where that is taken."""
    if asked is not None:
        return asked
    with socket.socket() as trial:
        trial.setsockopt(socket.SOL_SOCKET, socket.SO_REUSEADDR, 1)
        try:
            trial.bind((HOST, PORT))
        except OSError:
            trial.bind((HOST, 0))
        return int(trial.getsockname()[1])


class Service:
    """The hub and the gateway, as processes."""

    def __init__(self, program: Path, sockets: Path, log: Path) -> None:
        self.program, self.log = program, log
        self.own, self.questions = sockets / "sctd.sock", sockets / "questions.sock"
        self.running: list[tuple[str, subprocess.Popen[bytes]]] = []

    def start(self, name: str, words: Sequence[str]) -> None:
        """Starts one of them, and waits until it is ready."""
        with open(self.log, "ab") as log:
            process = subprocess.Popen(
                words, stdin=subprocess.DEVNULL, stdout=subprocess.PIPE, stderr=log,
                start_new_session=True)
        self.running.append((name, process))
        assert process.stdout
        line = process.stdout.readline()
        if line != b"OK ready\n":
            raise Failed("%s doesn't start: %s%s" % (name, line.decode(), last_lines(self.log)))

    def start_hub(self, store: Path) -> None:
        self.start("the hub", [
            sys.executable, str(TOP / "service" / "sctd-hub"), "--program", str(self.program),
            "--store", str(store), "--make-store", "--releases", str(TOP / "docs"),
            "--socket", str(self.own), "--questions", str(self.questions)])

    def start_gateway(self, python: str, port: int) -> None:
        self.start("the gateway", [
            python, str(TOP / "service" / "sctd-gateway"), "--socket", str(self.questions),
            "--edition", EDITION, "--languages", LANGUAGE, "--listen", "%s:%d" % (HOST, port)])

    def import_sample(self) -> None:
        """Imports the sample package, unless the store has an import already."""
        hub = HubClient(str(self.own))
        hub.send([b"STATUS"])
        if hub.reply().startswith(b"OK 0 "):
            hub.send([b"IMPORT " + SAMPLE.encode()])
            reply = hub.reply()
            if not reply.startswith(b"OK "):
                raise Failed("the import: %s%s" % (reply.decode(), last_lines(self.log)))
        hub.close()

    def wait(self) -> None:
        """Waits until one of them ends, which none has to."""
        while True:
            for name, process in self.running:
                if process.poll() is not None:
                    raise Failed("%s has ended: %s" % (name, last_lines(self.log)))
            time.sleep(0.2)

    def end(self) -> None:
        """Ends both, the last one first."""
        for _, process in reversed(self.running):
            process.terminate()
            try:
                process.wait(SECONDS)
            except subprocess.TimeoutExpired:
                process.kill()


def last_lines(path: Path) -> str:
    return "\n".join(path.read_text("utf-8", "replace").splitlines()[-5:])


def told(service: Service, python: str, port: int, command: Path) -> str:
    return TOLD.format(
        base="http://%s:%d" % (HOST, port),
        looked_up=LOOKED_UP,
        python=shlex.quote(python),
        client=shlex.quote(str(TOP / "examples" / "client.py")),
        questions=shlex.quote(str(service.questions)),
        command=shlex.quote(str(command)),
    )


def write_command(made: built.Built) -> Path:
    """The command `sctd`, which says what the program was built from."""
    command = HOME / "bin" / "sctd"
    command.parent.mkdir(exist_ok=True)
    command.write_text(built.command_of(made), encoding="utf-8")
    command.chmod(0o755)
    return command


def look(port: int | None) -> None:
    """Builds, serves and tells, until it is interrupted."""
    python = look_for_all()
    made = built.unproved(HOME)
    command = write_command(made)
    with tempfile.TemporaryDirectory(prefix="sctd-try-") as sockets:
        service = Service(made.program, Path(sockets), HOME / "log")
        try:
            (HOME / "store").mkdir(exist_ok=True)
            service.start_hub(HOME / "store" / "terms.store")
            service.import_sample()
            chosen = port_of(port)
            service.start_gateway(python, chosen)
            print(told(service, sys.executable, chosen, command), flush=True)
            service.wait()
        finally:
            service.end()


def main() -> int:
    assert __doc__
    parser = argparse.ArgumentParser(prog="./try", description=__doc__.split("\n", maxsplit=1)[0])
    parser.add_argument("--port", type=int, help="of the page; %d, or a free one" % PORT)
    asked = parser.parse_args()
    # (SIGTERM ends all as Ctrl-C does.)
    signal.signal(signal.SIGTERM, signal.default_int_handler)
    try:
        look(asked.port)
    except KeyboardInterrupt:
        print("\nEnded.")
    except (Failed, HubFailed, built.NotBuilt, OSError) as why:
        print("try: %s" % why, file=sys.stderr)
        return 1
    return 0


if __name__ == "__main__":
    sys.exit(main())
