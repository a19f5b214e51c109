"""Puts three gateways behind nginx and haproxy as packaging/ does, and asks them with certificates.

try_proxy.py PROGRAM [--long]

Two hubs have stores with the same imports: two gateways ask the first one, and one asks the second.
Only who has a certificate of the authority is let in, and the proxy's log has the user's name, the
pin and the gateway. While clients ask, gateways are started again (with --long 100 times), the
proxy reads its configuration anew, only the second hub has the pin that is asked for, and that hub
is ended: no request may be refused, and all answers have to be the same. Where only a proxy is
missing it tries the other one, says which is skipped, and ends with status 3.
"""

import http.client
import json
import random
import shutil
import signal
import sys
from collections.abc import Callable, Sequence
from contextlib import closing
from pathlib import Path
from typing import Optional

from harness import Hub, NotRun, Place, parser_of, same, tell
from proxy_harness import (
    HOST, KINDS, LANGUAGE, OPENSSL, ROOT, SECONDS, USER, Asking, Authority, Client, Kind, Process,
    Proxy, free_ports, gateway_words, need, open_folder, ready, stop)

HUBS, GATEWAYS = 2, 3
# Which hub each gateway asks.
HUB_OF = (0, 0, 1)
# How many clients ask beside each trial, and how often each of them does so at least.
CLIENTS, ASKED = 4, 60
# How often gateways are started again, and the proxy reads its configuration.
RESTARTS, LONG_RESTARTS, READINGS = 3, 100, 3
LOOKUP = "/fhir/CodeSystem/$lookup?system=http://snomed.info/sct&code=2000001&date=2020-06-30"
BATCH = "/fhir"
# The entries of a batch, which is longer than a proxy takes by itself.
ENTRIES, FILLING = 40, 4_000
UNMONITORED = (
    "/metrics", "//metrics", "/x/../metrics", "/%6detrics", "/pin/1/metrics", "/metrics?a=1")


class Site:
    """The hubs, the gateways and a proxy, in a folder."""

    def __init__(self, program: str, place: Path, kind: Kind, restarts: int) -> None:
        self.program, self.place, self.kind, self.restarts = program, place, kind, restarts
        self.addresses = ["%s:%d" % (HOST, port) for port in free_ports(GATEWAYS)]
        self.hubs: list[Hub] = []
        self.gateways: list[Process] = []
        self.imports = [0] * HUBS
        self.proxy = Proxy(place, self.addresses, kind)
        self.stranger = Authority(place, "strangers").sign("stranger", "/CN=" + USER)

    def start(self) -> None:
        for number in range(HUBS):
            here = Place(Path(self.program), self.place).below("hub%d" % number)
            self.hubs.append(Hub(here, here.releases / "a.store", "--make-store",
                                 releases=ROOT / "docs", asks=True))
            self.import_to(number)
        for number in range(GATEWAYS):
            self.gateways.append(self.start_gateway(number))
        self.proxy.start()

    def import_to(self, number: int) -> None:
        """Imports the sample package, also once more."""
        self.imports[number] += 1
        reply, = self.hubs[number].client().ask("IMPORT package/Full")
        same("an import", reply.split()[:2], ["OK", str(self.imports[number])])

    def start_gateway(self, number: int) -> Process:
        hub = self.hubs[HUB_OF[number]]
        return ready(gateway_words(hub.questions, self.addresses[number], "--languages", LANGUAGE),
                     self.place / "log")

    def client(self) -> Client:
        return Client(self.proxy, self.proxy.user)

    def log(self) -> list[dict[str, object]]:
        """What the proxy has logged of requests. (haproxy tells there of gateways, too.)"""
        lines = (self.place / "sctd.log").read_text().splitlines()
        told = [json.loads(line) for line in lines if line.startswith("{")]
        return [line for line in told if "request" in line]

    def close(self) -> None:
        self.proxy.end()
        for process in self.gateways:
            stop(process)
        for hub in self.hubs:
            hub.close()


def is_let_in(site: Site, certificate: Optional[Path]) -> bool:
    """Whether a client is answered. (nginx says 400, and haproxy ends the handshake.)"""
    try:
        return Client(site.proxy, certificate).get(LOOKUP)[0] == 200
    except (OSError, http.client.HTTPException):
        return False


def was_sent_again(line: dict[str, object]) -> bool:
    """Whether a gateway was passed over: nginx logs each that it asked, and haproxy how many."""
    return ", " in str(line["gateway"]) or line.get("sent_again", "0") != "0"


def who_may_ask(site: Site) -> None:
    """Who has a certificate of the authority is answered, and nobody else; the log has the name."""
    status, answer = site.client().get(LOOKUP)
    same("with a certificate", (status, b'"valueString":"Path"' in answer), (200, True))
    same("without one", is_let_in(site, None), False)
    same("with one of another authority", is_let_in(site, site.stranger), False)
    for path in UNMONITORED:
        status, answer = site.client().get(path)
        same("%s, and whether it is the metrics" % path, (status, b"sctd_" in answer), (404, False))
    line = next(one for one in site.log() if one["status"] == 200)
    same("the gateway that is logged", line["gateway"] in site.addresses, True)
    wanted = {"user": site.kind.user, "method": "GET", "request": LOOKUP, "pin": "1"}
    same("what is logged", {name: line[name] for name in wanted}, wanted)


def long_requests(site: Site) -> None:
    """What a gateway takes isn't too long for the proxy."""
    request = {"method": "GET", "url": LOOKUP.removeprefix("/fhir/")}
    entry = {"request": request, "id": "x" * FILLING}
    batch = {"resourceType": "Bundle", "type": "batch", "entry": [entry] * ENTRIES}
    status, _, answer = site.client().asked(
        "POST", BATCH, json.dumps(batch).encode(), **{"Content-Type": "application/fhir+json"})
    same("a long batch", (status, answer.count(b'"status":"200')), (200, ENTRIES))


class Repeating(Asking):
    """Clients that ask for a path, and keep what isn't as at first."""

    def __init__(self, site: Site, path: str = LOOKUP) -> None:
        super().__init__(site.proxy, CLIENTS, ASKED)
        self.path, self.wanted = path, site.client().get(path)
        same("the status of %s" % path, self.wanted[0], 200)

    def ask(self, client: Client, chance: random.Random) -> None:
        try:
            found = client.get(self.path)
        except (OSError, http.client.HTTPException) as why:
            self.faults.append(repr(why))
        else:
            if found != self.wanted:
                self.faults.append(repr(found))

    def look(self, may_be_cut: bool = False) -> None:
        same("whether all have asked", self.asked >= CLIENTS * ASKED, True)
        super().look()
        if not may_be_cut:
            same("connections that were made again", self.again, 0)


def restarts(site: Site) -> str:
    """Gateways are ended and started again while clients ask: none of them notices."""
    with Repeating(site) as asking:
        for count in range(site.restarts):
            number = count % GATEWAYS
            site.gateways[number].send_signal(signal.SIGTERM)
            same("the end of a gateway", site.gateways[number].wait(SECONDS), 0)
            site.gateways[number] = site.start_gateway(number)
    asking.look()
    used = {one for line in site.log() for one in str(line["gateway"]).split(", ")}
    same("whether each gateway was asked", set(site.addresses) <= used, True)
    return "%d restarts, %d requests, 0 lost" % (site.restarts, asking.asked)


def readings(site: Site) -> str:
    """The proxy reads its configuration while clients ask, whose connections it may end."""
    with Repeating(site) as asking:
        for _ in range(READINGS):
            site.proxy.read_anew()
    asking.look(may_be_cut=True)
    return "%d readings, %d requests, 0 lost, %d connections made again" % (
        READINGS, asking.asked, asking.again)


def lacking_a_pin(site: Site) -> str:
    """Two of the gateways lack the imports of a pin, and are passed over."""
    site.import_to(1)
    before, pin = len(site.log()), site.imports[1]
    with Repeating(site, "/pin/%d%s" % (pin, LOOKUP)) as asking:
        pass
    asking.look()
    asked = site.log()[before:]
    last = {str(line["gateway"]).split(", ")[-1] for line in asked}
    same("who answered", last, {site.addresses[HUB_OF.index(1)]})
    passed_over = sum(map(was_sent_again, asked))
    same("whether others were passed over", passed_over > 0, True)
    status, headers, _ = site.client().told("/pin/%d%s" % (pin + 1, LOOKUP))
    same("a pin that nobody has", (status, "retry-after" in headers), (503, True))
    site.import_to(0)
    return "%d requests, of which %d were sent again, 0 lost" % (asking.asked, passed_over)


def without_a_hub(site: Site) -> str:
    """A gateway whose hub has ended is passed over; without any hub the answer is 503."""
    before = len(site.log())
    with Repeating(site) as asking:
        same("the end of a hub", site.hubs[1].stop(), 0)
    asking.look()
    same("whether its gateway was passed over", any(map(was_sent_again, site.log()[before:])), True)
    same("the end of the other hub", site.hubs[0].stop(), 0)
    status, headers, _ = site.client().told("/health")
    same("without a hub", (status, "retry-after" in headers), (503, True))
    return "%d requests, 0 lost" % asking.asked


TRIALS: Sequence[Callable[[Site], Optional[str]]] = (
    who_may_ask, long_requests, restarts, readings, lacking_a_pin, without_a_hub)


def tried(program: str, restarts: int) -> None:
    need(OPENSSL)
    absent = [kind for kind in KINDS if shutil.which(kind.name) is None]
    for kind in KINDS:
        if kind in absent:
            continue
        with open_folder() as place, closing(Site(program, place, kind, restarts)) as site:
            site.start()
            for trial in TRIALS:
                said = trial(site) or "as it has to be"
                print("%s: %s: %s" % (kind.name, trial.__name__, said), flush=True)
    if absent:
        raise NotRun("there is no " + " and no ".join(kind.name for kind in absent))


def main() -> int:
    parser = parser_of(__doc__)
    parser.add_argument("--long", dest="restarts", action="store_const", const=LONG_RESTARTS,
                        default=RESTARTS, help="more restarts")
    asked = parser.parse_args()
    return tell(lambda: tried(str(asked.program), asked.restarts))


if __name__ == "__main__":
    sys.exit(main())
