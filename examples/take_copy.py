#!/usr/bin/env python3
"""Puts a copy of another machine's store in place of this one's, and has the hub started again.

take_copy.py --program SCTD --store FILE --questions PATH COPY COMMAND ..

COPY is a file that BACKUP made on the machine that imports, in the folder of FILE or elsewhere on
its disk. It is taken only if it is a whole store, and if it has all imports that the hub at PATH
has, with the same receipts: so a pin means what it meant before. Then it gets the name FILE, with
the owner of the file before, and its list of imports, COPY.imports, if it is there, the name
FILE.imports; COMMAND is run, such as `systemctl restart sctd`, and the hub has to answer with the
imports of COPY. Where FILE is missing, there is nothing to compare.

The status is 0 where the hub has all imports of COPY, with as many as it said, which is printed; it
is 1 where COPY isn't taken, and stays where it is, or where the hub doesn't answer afterwards. So
`take_copy.py .. && ssh NEXT take_copy.py ..` takes one machine after the other. It takes the folder
`service/` beside its own.
"""

import argparse
import os
import subprocess
import sys
import time
from collections.abc import Sequence
from pathlib import Path

sys.path.append(str(Path(__file__).resolve().parent.parent / "service"))
from sctd_service.hub.imports import ENDING  # noqa: E402
from sctd_service.protocol import REFUSED, HubClient, HubFailed, last_line  # noqa: E402

# How long the hub may take to open the store, and how often it is looked whether it has.
OPEN_SECONDS, LOOK_SECONDS = 900, 0.2
# How many receipts are asked for at once.
BATCH = 200
# The rights of a store's file.
OWNERS_ALONE = 0o600


class NotTaken(Exception):
    """Why the copy isn't taken."""


def run(words: Sequence[str], given: str = "") -> str:
    """What a command prints."""
    done = subprocess.run(words, input=given, text=True, stdout=subprocess.PIPE, check=False)
    if done.returncode:
        said = done.stdout.strip() or "status %d" % done.returncode
        raise NotTaken("%s: %s" % (" ".join(words[:2]), said))
    return done.stdout


def imports_of(status: str) -> int:
    """How many imports a reply to STATUS tells of."""
    words = status.split()
    if words[:1] != ["OK"]:
        raise NotTaken("the store's state is %r" % status.strip())
    return int(words[1])


def asked(path: str, lines: Sequence[str]) -> list[str]:
    """The hub's replies, each of one line."""
    hub = HubClient(path)
    try:
        hub.send([line.encode() for line in lines])
        replies = [hub.reply() for _ in lines]
    finally:
        hub.close()
    refused = next((one for one in replies if last_line(one).startswith(REFUSED)), None)
    if refused:
        raise NotTaken("the hub says %s" % refused.decode().strip())
    return [one.decode().strip() for one in replies]


def compare(program: str, copy: Path, questions: str, imports: int) -> None:
    """Refuses a copy that lacks an import of the hub, or has another one in its place."""
    here = imports_of(asked(questions, ["STATUS"])[0])
    if here > imports:
        raise NotTaken("it has %d imports, and the hub has %d" % (imports, here))
    serve = [program, "serve", "--store", str(copy), "--releases", str(copy.parent)]
    for first in range(1, here + 1, BATCH):
        lines = ["RECEIPT %d" % number for number in range(first, min(first + BATCH, here + 1))]
        theirs = run(serve, "".join("0 %s\n" % line for line in lines)).splitlines()
        for own, other in zip(asked(questions, lines), theirs, strict=True):
            if own != other:
                raise NotTaken("it has an import %r where the hub has %r" % (other, own))


def put(copy: Path, store: Path) -> None:
    """Gives the copy and its list of imports the store's names, once they are on the disk."""
    like = os.stat(store if store.exists() else store.parent)
    names = [(Path(f"{copy}{ending}"), f"{store}{ending}") for ending in ("", ENDING)]
    names = [(path, name) for path, name in names if path.exists()]
    for path, _ in names:
        with open(path, "rb") as file:
            os.fchown(file.fileno(), like.st_uid, like.st_gid)
            os.fchmod(file.fileno(), OWNERS_ALONE)
            os.fsync(file.fileno())
    for path, name in names:
        os.replace(path, name)
    folder = os.open(store.parent, os.O_RDONLY | os.O_DIRECTORY)
    os.fsync(folder)
    os.close(folder)


def wait_for(questions: str, imports: int) -> None:
    """Waits until the hub has so many imports."""
    end = time.monotonic() + OPEN_SECONDS
    while True:
        try:
            if imports_of(asked(questions, ["STATUS"])[0]) == imports:
                return
            why = "the hub has another store"
        except (HubFailed, NotTaken) as failed:
            why = str(failed)
        if time.monotonic() > end:
            raise NotTaken(why)
        time.sleep(LOOK_SECONDS)


def take(options: argparse.Namespace) -> int:
    """How many imports the copy has that was taken."""
    imports = imports_of(run([options.program, "status", "--store", str(options.copy)]))
    if options.store.exists():
        compare(options.program, options.copy, options.questions, imports)
    put(options.copy, options.store)
    run(options.command)
    wait_for(options.questions, imports)
    return imports


def main() -> int:
    words = argparse.ArgumentParser(description="Puts a copy in place of a store.")
    words.add_argument("--program", required=True, metavar="SCTD")
    words.add_argument("--store", required=True, type=Path, metavar="FILE")
    words.add_argument("--questions", required=True, metavar="PATH")
    words.add_argument("copy", type=Path, metavar="COPY")
    words.add_argument("command", nargs=argparse.REMAINDER, metavar="COMMAND")
    options = words.parse_args()
    if not options.command:
        words.error("the command that starts the hub again is missing")
    try:
        print("OK %d" % take(options))
    except (NotTaken, HubFailed, OSError) as why:
        print("take_copy: %s: %s" % (options.copy, why), file=sys.stderr)
        return 1
    return 0


if __name__ == "__main__":
    sys.exit(main())
