"""The gateway: `sctd`'s answers as FHIR R4 over HTTP, and a page for people. It only reads.

    sctd-gateway --socket /run/sctd/questions.sock --edition 900000000000207008

It asks through a socket of the hub and listens on 127.0.0.1:8080, or where `--listen`
says. It prints `OK ready` once it does. `--languages` has the SCTIDs of the language reference sets
whose preferred terms are shown, such as 900000000000509007,900000000000508004, the most wanted
first; without it fully specified names are. Options may also stand in the table `[gateway]` of the
file of `--config`. TLS, users and the log of who asked what are those of the house's own proxy in
front of it.
"""

import argparse
import asyncio
import gc
import contextlib
import re
import signal
import sys

from .. import settings, sockets
from ..logs import tell
from ..snomed import distinct, is_concept_id
from . import http, limits
from .app import App, refused_request
from .fhir.versions import Edition
from .hub import HubGone, HubRefused
from .pool import Pool
from .problems import NO_MEMBERS, Problem
from .store import View

# A URI that names a code system: a scheme, and no space or control character.
SYSTEM = re.compile(r"[A-Za-z][A-Za-z0-9+.-]*:[\x21-\x7e]+\Z", re.ASCII)
# Why a gateway isn't begun.
NO_ROWS = (
    "the store has no concept of the module %s: --edition has to be that of the edition in it, "
    "since each answer says of which edition it is"
)
ORIGIN = re.compile(r"https?://[A-Za-z0-9.\[\]:-]+\Z", re.ASCII)


def options() -> argparse.Namespace:
    words = argparse.ArgumentParser(
        prog="sctd-gateway", description="sctd as FHIR R4 over HTTP, and a page for people.")
    words.add_argument("--socket", required=True, help="the hub's socket")
    words.add_argument(
        "--edition", required=True, help="the module of the edition that the store holds")
    words.add_argument(
        "--listen", default="127.0.0.1:8080", help="HOST:PORT, or the path of a socket")
    words.add_argument(
        "--languages", type=refsets_of, default=(), metavar="SCTID,..",
        help="the language reference sets whose preferred terms are shown, the most wanted first")
    words.add_argument("--map", type=map_of, action="append", default=[], metavar="SCTID=URI",
                       help="the code system to which the simple map of this reference set leads")
    words.add_argument(
        "--cors", type=origin_of, action="append", default=[], metavar="ORIGIN",
        help="a site whose pages may read answers, such as https://forms.example.org, or *")
    words.add_argument(
        "--strict", action="store_true",
        help="refuse parameters that can't change an answer, for all clients")
    words.add_argument("--log", action="store_true",
                       help="a line of each request to standard error")
    found = settings.parsed(words, "gateway", sys.argv[1:])
    if not is_concept_id(found.edition):
        words.error("the edition is the SCTID of a module, such as 900000000000207008")
    if len(dict(found.map)) < len(found.map):
        words.error("--map names a reference set twice")
    # (Without a host it would listen on every address of the machine.)
    host, _, port = found.listen.rpartition(":")
    if "/" not in found.listen and not (host and port.isdecimal() and int(port) < 1 << 16):
        words.error("--listen is HOST:PORT, or the path of a socket with a slash in it")
    return found


def refsets_of(text: str) -> tuple[str, ...]:
    found = tuple(distinct(text.split(",")))
    if not all(map(is_concept_id, found)):
        raise argparse.ArgumentTypeError("they are SCTIDs of reference sets, separated by commas")
    if len(found) > limits.LANGUAGES:
        raise argparse.ArgumentTypeError("there may be %d at most" % limits.LANGUAGES)
    return found


def origin_of(text: str) -> str:
    if text != "*" and not ORIGIN.match(text):
        raise argparse.ArgumentTypeError("it is a scheme, ://, a host and perhaps a port, or *")
    return text


def map_of(text: str) -> tuple[str, str]:
    refset, _, system = text.partition("=")
    if not is_concept_id(refset) or not SYSTEM.match(system):
        raise argparse.ArgumentTypeError("it is the SCTID of a reference set, =, and a URI")
    return refset, system


async def listening(server: http.Server, place: str) -> asyncio.Server:
    if "/" in place:
        sockets.clear(place)
        return await asyncio.start_unix_server(server.connected, place, backlog=limits.BACKLOG)
    host, _, port = place.rpartition(":")
    return await asyncio.start_server(
        server.connected, host.strip("[]"), int(port), backlog=limits.BACKLOG)


async def is_of(pool: Pool, edition: Edition) -> bool:
    """Whether the store has rows of the edition's module. Says on standard error if it has none,
    or if its layout keeps no members of reference sets. Where no hub answers yet or what it says is
    too much, or the store is empty, nothing is said."""
    with contextlib.suppress(HubGone, HubRefused, Problem, TimeoutError):
        async with asyncio.timeout(limits.BEGIN_SECONDS) as left, pool.session(None) as session:
            view = View(session)
            if not await view.keeps_members():
                tell("sctd-gateway: " + NO_MEMBERS)
            left.reschedule(asyncio.get_running_loop().time() + limits.EDITION_SECONDS)
            if view.latest and not await view.has_module(edition.module):
                tell("sctd-gateway: " + NO_ROWS % edition.module)
                return False
    return True


async def serve(found: argparse.Namespace) -> int:
    edition = Edition(found.edition, found.languages, dict(found.map))
    pool = Pool(found.socket)
    if not await is_of(pool, edition):
        return 1
    app = App(pool, edition, found.cors, found.strict)
    server = http.Server(app.answer, refused_request, [app.count, *[http.log] * found.log])
    try:
        listens = await listening(server, found.listen)
    except OSError as error:
        tell("sctd-gateway: %s: %s" % (found.listen, error))
        return 1
    own = sockets.identity_of(found.listen) if "/" in found.listen else None
    end = asyncio.Event()
    for number in (signal.SIGTERM, signal.SIGINT):
        asyncio.get_running_loop().add_signal_handler(number, end.set)
    # What is made by now stays: a collection of garbage needn't look at it, which took some 25 ms.
    gc.freeze()
    print("OK ready", flush=True)
    await end.wait()
    listens.close()
    await server.stop()
    # (From 3.13 on Python has removed it already, and another gateway may have made its own.)
    sockets.remove(found.listen, own)
    return 0


def main() -> int:
    return asyncio.run(serve(options()))


if __name__ == "__main__":
    sys.exit(main())
