#!/usr/bin/env python3
"""Measures in one run what a service of one hub and three gateways behind nginx answers.

measure_service.py PROGRAM [--rows N] [--seconds N] [--restarts N]

PROGRAM is the built `sctd`. A store is made of a release of N rows (440,000 if not said). Then

- 1, 8 and 64 clients ask the hub one question at a time, each as soon as it has the reply before;
- 64 clients ask nginx, as packaging/nginx.conf has it, for $lookup of any code on any day, which
  the gateways don't remember;
- the same is asked of one gateway by one client and by 16, also of 200 codes on one day, whose
  replies are remembered; by one client two words are searched, as the page does while one types;
- the same as by one client, beside three others that ask for large expansions;
- the gateways are started again in turn, so many times as is said (100), while four clients ask
  nginx: what isn't answered with 200 or 404 is counted as lost.

Each takes some seconds (5 if not said). A line tells how many a second, the median and the 99th of
100 waits in milliseconds, and the microseconds of the processor for each answer in each of the
processes, and at the end how loaded the machine was. Clients are in two processes, which need a
processor of their own. It needs what try_proxy.py needs.
"""

from __future__ import annotations

import argparse
import contextlib
import datetime
import functools
import http.client
import os
import random
import select
import socket
import ssl
import statistics
import sys
import time
from collections.abc import Callable, Sequence
from concurrent.futures import ProcessPoolExecutor
from pathlib import Path
from typing import NamedTuple
from urllib.parse import urlencode

import make_release as rf2
from measure_harness import (
    MS, child_of, column_of, make_store, options_of, print_head, print_row, seconds_used)

sys.path.append(str(Path(__file__).resolve().parents[1] / "trials"))
from harness import Threads, children, tell, until  # noqa: E402
from proxy_harness import (  # noqa: E402
    EDITION, HOST, NGINX, OPENSSL, Client, Process, Proxy, free_ports, gateway_words, hub_words,
    need, open_folder, ready, stop)

GATEWAYS, EXPANDING, RESTARTED = 3, 3, 4
# How many clients ask the hub, at most, and one gateway; and how many codes are remembered.
OF_HUB, OF_GATEWAY, FEW_CODES = (1, 8, 64), 16, 200
DEFAULT_ROWS, DEFAULT_SECONDS, DEFAULT_RESTARTS = 440_000, 5, 100
PAGE = 1_000
# How long between the restarts of two gateways.
BETWEEN_SECONDS = 0.05
# How a question for any code on any day is answered.
ANSWERED = (200, 404)
# In how many processes clients ask.
PROCESSES = 2
DAYS = ["%d0731" % year for year in range(2016, 2026)]
READ_BYTES = 1 << 18
VERSION = "http://snomed.info/sct/%s/version/" % EDITION
# How many letters of a word are typed.
TYPED = 3
US = 1e6
LAST_LINES = (b"OK", b"END", b"ERR")
# The ends of an HTTP head, and what says how long its body is.
END_OF_HEAD, LENGTH = b"\r\n\r\n", b"Content-Length: "
QUESTIONS = ("GET C", "ABOUT D", "ABOUT R", "ABOUT V")

# What clients connect to, and what makes the next question of one.
Connect = Callable[[], socket.socket]
Make = Callable[[], bytes]


class Waits(NamedTuple):
    """How long each answer was waited for, in their order, and how many were refused."""

    seconds: list[float]
    refused: int


# ---- clients


def over_unix(path: str) -> socket.socket:
    found = socket.socket(socket.AF_UNIX)
    found.connect(path)
    return found


def over_tcp(address: str) -> socket.socket:
    host, _, port = address.partition(":")
    return socket.create_connection((host, int(port)))


def over_tls(address: str, authority: Path, certificate: Path) -> socket.socket:
    around = ssl.create_default_context(cafile=authority)
    around.load_cert_chain(certificate, certificate.with_suffix(".key"))
    return around.wrap_socket(over_tcp(address), server_hostname=HOST)


class HttpClient:
    """One client over HTTP: a question at a time, and when it was asked."""

    def __init__(self, connect: Connect, make: Make) -> None:
        self.socket, self.make = connect(), make
        self.sent, self.got, self.asked, self.refused = b"", b"", 0.0, 0
        self.waits: list[float] = []

    def ask(self) -> None:
        self.got, self.asked, self.sent = b"", time.perf_counter(), self.make()
        self.socket.sendall(self.sent)

    def is_done(self) -> bool:
        """Reads what has come. Whether it is all of the answer."""
        self.got += self.socket.recv(READ_BYTES)
        while isinstance(self.socket, ssl.SSLSocket) and self.socket.pending():
            self.got += self.socket.recv(READ_BYTES)
        if not self.is_whole():
            return False
        self.waits.append(time.perf_counter() - self.asked)
        return True

    def is_whole(self) -> bool:
        """Whether what has come is all of the answer."""
        head, end, body = self.got.partition(END_OF_HEAD)
        if not end or len(body) < int(head.split(LENGTH)[1].split(b"\r\n")[0]):
            return False
        self.refused += int(head[9:12]) not in ANSWERED
        return True


class HubClient(HttpClient):
    """The same over the hub's protocol of lines."""

    def is_whole(self) -> bool:
        last = [line for line in self.got.split(b"\n") if line.startswith(LAST_LINES)]
        return self.got.endswith(b"\n") and len(last) == self.sent.count(b"\n")


def run(client: type[HttpClient], connect: Connect, make: Make, clients: int, seconds: int,
        seed: int) -> Waits:
    """One process of clients."""
    random.seed(seed)
    every = [client(connect, make) for _ in range(clients)]
    connections = {one.socket: one for one in every}
    for one in every:
        one.ask()
    end = time.perf_counter() + seconds
    while time.perf_counter() < end:
        for ready_one in select.select(list(connections), [], [], 1)[0]:
            if connections[ready_one].is_done():
                connections[ready_one].ask()
    return Waits([wait for one in every for wait in one.waits], sum(it.refused for it in every))


class Asked:
    """Clients that ask in processes of their own from now on, for some seconds."""

    def __init__(self, client: type[HttpClient], connect: Connect, make: Make, clients: int,
                 seconds: int) -> None:
        count = min(PROCESSES, clients)
        self.pool = ProcessPoolExecutor(count)
        self.runs = [self.pool.submit(run, client, connect, make, clients // count, seconds, seed)
                     for seed in range(count)]

    def waits(self) -> Waits:
        """The waits of all, once they have ended."""
        with self.pool:
            found = [one.result() for one in self.runs]
        return Waits(sorted(wait for one in found for wait in one.seconds),
                     sum(one.refused for one in found))


# ---- questions


def request(target: str) -> bytes:
    head = "GET %s HTTP/1.1\r\nHost: x\r\nAccept: application/fhir+json\r\n\r\n"
    return (head % target).encode()


def lookup(codes: Sequence[str], days: Sequence[str]) -> bytes:
    code, day = random.choice(codes), random.choice(days)
    return request("/fhir/CodeSystem/$lookup?system=http://snomed.info/sct&code=%s&version=%s%s" % (
        code, VERSION, day))


def search(terms: Sequence[str]) -> bytes:
    words = random.sample(random.choice(terms).split(), 2)
    text = " ".join(word[:TYPED] for word in words)
    day = datetime.date.fromisoformat(random.choice(DAYS)).isoformat()
    return request("/suggest?" + urlencode({"text": text, "date": day}))


def question(codes: Sequence[str]) -> bytes:
    line = random.choice(QUESTIONS)
    return ("%s %s %s\n" % (line, random.choice(codes), random.choice(DAYS))).encode()


def expansion(day: str) -> bytes:
    """A request for a large page of all concepts, anywhere."""
    target = "/fhir/ValueSet/$expand?url=%s%s?fhir_vs&count=%d&offset=%d&includeDesignations=true"
    return request(target % (VERSION, day, PAGE, random.randrange(10) * PAGE))


# ---- the service


class Service:
    """The hub, the gateways and nginx on a store."""

    def __init__(self, options: argparse.Namespace, place: Path) -> None:
        self.options, self.log, self.questions = options, place / "log", place / "questions"
        folder = place / "store"
        folder.mkdir()
        make_store(options.program, place, folder / "terms", options.rows)
        self.codes = sorted(set(column_of(place, "C", "id")))
        self.terms = column_of(place, "D", "term")
        self.addresses = ["%s:%d" % (HOST, port) for port in free_ports(GATEWAYS)]
        self.proxy = Proxy(place, self.addresses)
        sockets = ("--questions", str(self.questions))
        self.hub = ready(hub_words(options.program, folder / "terms", place, *sockets), self.log)
        self.gateways = [self.gateway(number) for number in range(GATEWAYS)]
        self.proxy.start()
        # What asks the first gateway, and for any code on any day.
        self.first = functools.partial(over_tcp, self.addresses[0])
        self.any_code = functools.partial(lookup, self.codes, DAYS)

    def gateway(self, number: int) -> Process:
        return ready(gateway_words(self.questions, self.addresses[number]), self.log)

    def processes(self) -> dict[str, int]:
        """The processes that answer, by their names."""
        assert self.proxy.process
        master = self.proxy.process.pid
        until("a worker of nginx", lambda: children(master))
        gateways = {"gateway %d" % place: one.pid for place, one in enumerate(self.gateways, 1)}
        return {"nginx": child_of(master), **gateways, "hub": self.hub.pid,
                "program": child_of(self.hub.pid)}

    def measured(self, name: str, client: type[HttpClient], connect: Connect, make: Make,
                 clients: int) -> None:
        """Prints a line of the table."""
        before = {pid: seconds_used(pid) for pid in self.processes().values()}
        waits, refused = Asked(client, connect, make, clients, self.options.seconds).waits()
        spent = {name: (seconds_used(pid) - before[pid]) / len(waits) * US
                 for name, pid in self.processes().items()}
        print_row(name, "%.0f" % (len(waits) / self.options.seconds),
                  "%.1f" % (statistics.median(waits) * MS), "%.1f" % (last_but_few(waits) * MS),
                  ", ".join("%s %.0f" % pair for pair in spent.items() if pair[1]),
                  behind=" %d refused" % refused if refused else "")

    def alone(self) -> None:
        """Clients of the hub, of nginx and of one gateway."""
        for clients in OF_HUB:
            self.measured("the hub, clients: %d" % clients, HubClient,
                          functools.partial(over_unix, str(self.questions)),
                          functools.partial(question, self.codes), clients)
        proxy = self.proxy
        tls = functools.partial(over_tls, "%s:%d" % (HOST, proxy.port), proxy.server.path,
                                proxy.user)
        self.measured("$lookup by nginx, clients: %d" % OF_HUB[-1], HttpClient, tls, self.any_code,
                      OF_HUB[-1])
        few = functools.partial(lookup, self.codes[:FEW_CODES], DAYS[-1:])
        words = functools.partial(search, self.terms)
        asked: Sequence[tuple[str, Make, int]] = (
            ("$lookup, remembered", few, OF_GATEWAY), ("$lookup", self.any_code, OF_GATEWAY),
            ("a search by words", words, 1), ("$lookup", self.any_code, 1))
        for name, make, clients in asked:
            self.measured("%s, clients: %d" % (name, clients), HttpClient, self.first, make,
                          clients)

    def beside(self) -> None:
        """A client of one gateway beside large expansions."""
        make = functools.partial(expansion, DAYS[-1])
        expanding = [Asked(HttpClient, self.first, make, clients, self.options.seconds + 1)
                     for clients in (EXPANDING - 1, 1)]
        self.measured("the same beside expansions", HttpClient, self.first, self.any_code, 1)
        done = sum(len(one.waits().seconds) for one in expanding)
        print("(%d expansions of %d concepts meanwhile)" % (done, PAGE), flush=True)

    def restarted(self) -> None:
        """Starts the gateways again in turn, while clients ask."""
        with Restarting(self) as asking:
            for number in range(self.options.restarts):
                stop(self.gateways[number % GATEWAYS])
                self.gateways[number % GATEWAYS] = self.gateway(number % GATEWAYS)
                time.sleep(BETWEEN_SECONDS)
        print("%d restarts of gateways: %d requests, %d lost, p99 %.0f ms" % (
            self.options.restarts, len(asking.waits), asking.lost,
            last_but_few(sorted(asking.waits)) * MS))

    def close(self) -> None:
        self.proxy.end()
        for one in (*self.gateways, self.hub):
            stop(one)


def last_but_few(waits: Sequence[float]) -> float:
    """The 99th of 100 waits, which are in their order."""
    return waits[len(waits) * 99 // 100]


class Restarting(Threads):
    """Clients of nginx, and how long each answer was waited for."""

    def __init__(self, service: Service) -> None:
        super().__init__(RESTARTED, self.ask)
        self.service, self.waits, self.lost = service, list[float](), 0

    def ask(self, _seed: int) -> None:
        proxy = self.service.proxy
        client = Client(proxy, proxy.user)
        while not self.is_over:
            began = time.perf_counter()
            try:
                target = self.service.any_code().split()[1].decode()
                is_lost = client.get(target)[0] not in ANSWERED
            except (OSError, http.client.HTTPException):
                is_lost = True
                client.connection.close()
            self.lost += is_lost
            self.waits.append(time.perf_counter() - began)


def tried(options: argparse.Namespace) -> None:
    need(NGINX.name, OPENSSL)
    with open_folder() as place, contextlib.closing(Service(options, place)) as service:
        print_head("Asked", "a second", "median ms", "p99 ms", "processor us")
        service.alone()
        service.beside()
        service.restarted()
        print("load %.1f on %d processors" % (os.getloadavg()[0], os.cpu_count() or 0))


def main() -> int:
    options = options_of(__doc__, rows=DEFAULT_ROWS, seconds=DEFAULT_SECONDS,
                         restarts=DEFAULT_RESTARTS)
    return tell(lambda: tried(options))


if __name__ == "__main__":
    sys.exit(main())
