"""The hub ends and starts, `sctd` is killed, another store takes the place of the first, releases
are imported while the gateway answers."""

import asyncio
import contextlib
import os
import re
import signal
import socket
import subprocess
import sys
import tempfile
from collections.abc import Iterator
from pathlib import Path

import pytest
from sctd_service.gateway.languages import DIALECTS
from sctd_service.gateway.pool import Pool
from sctd_service.gateway.store import View

from .asked import Asked
from .demo_releases import RELEASES
from .fixtures import SCT, SECONDS, SERVICE, Gateway, Service, begun_hub, issue, told, version

LOOKUP = "CodeSystem/$lookup"
MEMORY_KB = 200_000


class TestHub(Asked):
    of = "own_service"

    @property
    def wrist(self) -> dict[str, str]:
        return {"system": SCT, "code": self.codes["wrist"]}

    def another_store(self, *releases: str) -> None:
        self.service.stop_hub()
        os.unlink(self.service.store)
        self.service.make_store(*releases)
        self.service.start_hub()

    def send(self, *lines: str) -> list[str]:
        """The last line of each reply on the hub's own socket."""
        with socket.socket(socket.AF_UNIX) as hub:
            hub.settimeout(SECONDS)
            hub.connect(self.service.socket)
            with hub.makefile("rw") as stream:
                found = []
                for line in lines:
                    stream.write(line + "\n")
                    stream.flush()
                    found.append(stream.readline().rstrip("\n"))
                return found

    def test_1_hub_that_is_started_again(self) -> None:
        assert self.gateway.fhir("metadata")[0] == 200
        self.service.stop_hub()
        answer = self.gateway.send("GET", "/fhir/metadata")
        assert (answer.status, answer.headers["retry-after"], issue(answer.json())) == (
            503, "5", "transient")
        assert self.service.folder.name not in answer.text
        assert self.gateway.send("GET", "/health").status == 503
        self.service.start_hub()
        assert self.gateway.fhir("metadata")[0] == 200
        self.service.stop_hub()
        self.service.start_hub()  # The gateway's connections are of the hub before.
        assert self.gateway.fhir("metadata")[0] == 200

    def test_2_program_that_is_killed(self) -> None:
        hub = self.service.hub
        assert hub
        with open("/proc/%d/task/%d/children" % (hub.pid, hub.pid)) as file:
            os.kill(int(file.read().split()[0]), signal.SIGKILL)
        assert hub.wait(SECONDS) == 1
        assert self.gateway.send("GET", "/fhir/metadata").status == 503
        self.service.stop_hub()
        self.service.start_hub()
        assert self.gateway.fhir("metadata")[0] == 200

    def test_3_another_store(self) -> None:
        words = {**self.wrist, "version": version("20180101")}
        top = "%s?fhir_vs=isa/%s" % (SCT, self.service.codes["finding"])
        assert self.gateway.fhir(LOOKUP, "/pin/1/fhir/", **words)[0] == 200
        assert self.gateway.fhir("ValueSet/$expand", url=top)[0] == 200
        # Its first import is another one: nothing that is remembered holds.
        self.another_store("d2")
        assert self.gateway.fhir(LOOKUP, "/pin/1/fhir/", **words)[0] == 404
        assert self.gateway.fhir("ValueSet/$expand", url=top)[0] == 404
        assert (self.gateway.send("GET", "/fhir/metadata").headers[
                    "x-sctd-receipt"] == "RECEIPT 1: OK 1 18 20210131")
        self.another_store()
        assert self.gateway.fhir(LOOKUP, "/pin/1/fhir/", **words)[0] == 503
        assert self.gateway.fhir(LOOKUP, **self.wrist)[0] == 404
        assert self.gateway.fhir("metadata", mode="terminology")[0] == 200
        assert self.gateway.send("GET", "/?q=1105007").status == 200

    def test_4_subtree_of_another_store(self) -> None:
        url = "%s?fhir_vs=isa/%s" % (version("20210131"), self.service.codes["limb"])
        for releases, names in (
                (("d1", "d2"), ("limb", "radius", "carpal")), (("d1", "d3"), ("limb", "wrist"))):
            self.another_store(*releases)
            said = self.gateway.fhir("ValueSet/$expand", "/pin/2/fhir/", url=url)[1]["expansion"]
            found = {one["code"] for one in said["contains"]}
            assert found == {self.service.codes[name] for name in names}, releases
        self.another_store()

    def test_5_imports_while_it_runs(self) -> None:
        """A pin is there once its import is. Before, a balancer is told to ask another machine."""
        for pin, (name, day) in enumerate(RELEASES.items(), 1):
            for target in ("/fhir/metadata", "/", "/suggest?text=x", "/health"):
                answer = self.gateway.send("GET", "/pin/%d%s" % (pin, target))
                assert (answer.status, answer.headers["retry-after"]) == (503, "5"), target
            assert issue(self.gateway.fhir("metadata", "/pin/%d/fhir/" % pin)[1]) == "transient"
            assert self.send("IMPORT " + name)[0].startswith("OK ")
            assert self.gateway.fhir("metadata", "/pin/%d/fhir/" % pin)[0] == 200
            assert self.gateway.send("GET", "/pin/%d/health" % pin).json()["pin"] == pin
            if name == "d2":  # Of the new release at once, though the gateway knows the one before.
                assert self.gateway.fhir(LOOKUP, version=version(day), **self.wrist)[0] == 200
            assert told(self.gateway.fhir(LOOKUP, **self.wrist)[1], "version") == [version(day)]
        said = self.gateway.fhir(LOOKUP, "/pin/2/fhir/", **self.wrist)[1]
        assert told(said, "version") == [version("20210131")]

    def test_6_refusal_that_an_import_ends(self) -> None:
        """A code that isn't there yet is there at once when its release is imported."""
        self.another_store("d1")
        carpal = {"system": SCT, "code": self.service.codes["carpal"]}
        assert self.gateway.fhir(LOOKUP, **carpal)[0] == 404
        assert self.send("IMPORT d2") == ["OK 2 18 0"]
        assert self.gateway.fhir(LOOKUP, **carpal)[0] == 200

    def test_7_another_store_while_nothing_is_connected(self) -> None:
        """What was said by the socket of another hub isn't remembered, though nothing saw it
        end."""
        found = asyncio.run(self.of_two_stores())
        assert found == [True, False]

    async def of_two_stores(self) -> list[bool]:
        pool, found = Pool(self.service.questions), []
        for releases in (("d1", "d2"), ("d2", "d1")):
            self.another_store(*releases)
            async with pool.session(1) as session:
                found.append(await View(session).has(self.service.codes["wrist"], "20180101"))
            pool.idle.clear()
        return found

    def test_8_its_log_and_its_memory(self) -> None:
        assert self.gateway.process.poll() is None
        with open("/proc/%d/status" % self.gateway.process.pid) as file:
            peak = re.search(r"VmHWM:\s+(\d+)", file.read())
        assert peak
        assert int(peak[1]) < MEMORY_KB
        assert self.gateway.told() == ""

    def test_9_end(self) -> None:
        """SIGTERM ends it with status 0 and without a word, whoever is connected."""
        clients = [self.gateway.connect() for _ in range(3)]
        clients[1].sendall(b"GET /fhir/metadata HTTP/1.1\r\nHost: x\r\n\r\n")
        assert clients[1].recv(100).startswith(b"HTTP/1.1 200 ")
        clients[2].sendall(b"GET /fhir")
        assert self.gateway.stop() == 0
        assert [client.recv(1 << 20)[-1:] for client in clients[::2]] == [b"", b""]
        assert self.gateway.told() == ""
        assert not os.path.exists(self.gateway.socket)


class TestReaders:
    """Hubs that only read one store, at the same time."""

    @pytest.fixture
    def stopped(self) -> Iterator[Service]:
        service = Service()
        service.stop_hub()
        yield service
        service.end()

    def hub_words(self, service: Service, name: str) -> tuple[str, ...]:
        words = (service.hub_script, service.program, service.store, str(service.releases))
        return *words, "--questions", "%s/%s" % (service.folder.name, name)

    def ask(self, path: str, line: str) -> str:
        with socket.socket(socket.AF_UNIX) as hub:
            hub.settimeout(SECONDS)
            hub.connect(path)
            with hub.makefile("rw") as stream:
                stream.write(line + "\n")
                stream.flush()
                return stream.readline().rstrip("\n")

    def test_nobody_changes_what_two_read(self, stopped: Service) -> None:
        with contextlib.ExitStack() as hubs:
            for name in ("one", "other"):
                hub = begun_hub(*self.hub_words(stopped, name), "--read-only")
                hubs.enter_context(hub)
                hubs.callback(hub.terminate)
            for name in ("one", "other"):
                path = "%s/%s" % (stopped.folder.name, name)
                assert self.ask(path, "STATUS").startswith("OK %d " % len(RELEASES))
                assert self.ask(path, "MERGE").startswith("ERR ")
            _, program, store, releases, *sockets = self.hub_words(stopped, "writer")
            words = ["--program", program, "--store", store, "--releases", releases, *sockets]
            writer = subprocess.run([sys.executable, stopped.hub_script, *words], check=False,
                                    capture_output=True, text=True, timeout=SECONDS)
            assert (writer.returncode, writer.stdout) == (1, "ERR 2 DiskFault\n")

    def test_words_that_change_a_store(self, stopped: Service) -> None:
        _, program, store, releases, *sockets = self.hub_words(stopped, "one")
        words = ["--program", program, "--store", store, "--releases", releases, *sockets]
        words += ["--read-only", "--make-store"]
        done = subprocess.run([sys.executable, stopped.hub_script, *words], check=False,
                              capture_output=True, text=True, timeout=SECONDS)
        assert (done.returncode, done.stdout) == (2, "")
        assert "--read-only and --make-store don't go together" in done.stderr


class TestStart:
    def start(self, *words: str) -> "subprocess.CompletedProcess[str]":
        return subprocess.run([sys.executable, "-m", "sctd_service.gateway", *words], cwd=SERVICE,
                              text=True, capture_output=True, timeout=SECONDS)

    @pytest.mark.parametrize("words", (
        ("--socket", "/nowhere"),
        ("--edition", "900000000000207008"),
        ("--socket", "/nowhere", "--edition", "900000000000207009"),
        ("--socket", "/nowhere", "--edition", "900000000000207008", "--listen", "x"),
        ("--socket", "/nowhere", "--edition", "900000000000207008", "--listen", "8080"),
        ("--socket", "/nowhere", "--edition", "900000000000207008", "--listen", ":8080")))
    def test_words_that_are_refused(self, words: tuple[str, ...]) -> None:
        done = self.start(*words)
        assert (done.returncode, done.stdout) == (2, ""), words

    def test_languages_and_maps_that_are_refused(self) -> None:
        whole = ("--socket", "/nowhere", "--edition", "900000000000207008")
        nine = ",".join(sorted(DIALECTS.values())[:9])
        twice = ("--map", "900000000000497000=urn:a", "--map", "900000000000497000=urn:b")
        for words in (("--languages", ""), ("--languages", "en-US"),
                      ("--languages", "900000000000509008"), ("--languages", "900000000000509007,"),
                      ("--languages", nine), ("--map", "900000000000497000"),
                      ("--map", "900000000000497001=urn:a"), ("--map", "900000000000497000=ctv3"),
                      ("--map", "900000000000497000=urn:a b"), twice):
            done = self.start(*whole, *words)
            assert (done.returncode, done.stdout) == (2, ""), words

    def test_edition_that_is_not_in_the_store(self, service: Service) -> None:
        """An answer never claims an edition of which the store has nothing."""
        for module in ("138875005", "731000124108"):
            with tempfile.TemporaryDirectory() as folder:
                listen = folder + "/socket"
                done = self.start(
                    "--socket", service.questions, "--edition", module, "--listen", listen)
                assert (done.returncode, done.stdout) == (1, "")
                assert "the store has no concept of the module %s: " % module in done.stderr
                assert not os.path.exists(listen)

    def test_end_where_the_socket_is_removed_already(self) -> None:
        with tempfile.TemporaryDirectory() as folder:
            gateway = Gateway("/nowhere", Path(folder))
            os.unlink(gateway.socket)
            assert (gateway.stop(), gateway.told()) == (0, "")

    def test_end_where_another_listens_by_then(self) -> None:
        with tempfile.TemporaryDirectory() as one, tempfile.TemporaryDirectory() as other:
            gateway = Gateway("/nowhere", Path(one))
            os.unlink(gateway.socket)
            later = Gateway("/nowhere", Path(other), gateway.socket)
            assert gateway.stop() == 0
            assert later.send("GET", "/page.css").status == 200
            assert later.stop() == 0
            assert not os.path.exists(later.socket)

    def test_places_that_are_taken(self) -> None:
        with socket.create_server(("127.0.0.1", 0)) as taken:
            place = "127.0.0.1:%d" % taken.getsockname()[1]
            for listen in (place, "/dev/null", "/nowhere/socket"):
                done = self.start(
                    "--socket", "/nowhere", "--edition", "900000000000207008", "--listen", listen)
                assert (done.returncode, done.stdout) == (1, ""), listen
                assert "sctd-gateway: %s: " % listen in done.stderr
        assert os.path.exists("/dev/null")

    def test_socket_of_a_program_that_takes_no_more_connections(self) -> None:
        """It stays, and isn't waited for."""
        with (tempfile.TemporaryDirectory() as folder, socket.socket(socket.AF_UNIX) as taken,
              socket.socket(socket.AF_UNIX) as first):
            listen = folder + "/socket"
            taken.bind(listen)
            taken.listen(0)
            first.connect(listen)
            done = self.start(
                "--socket", "/nowhere", "--edition", "900000000000207008", "--listen", listen)
            assert (done.returncode, done.stdout) == (1, "")
            assert "another program listens" in done.stderr
            assert os.path.exists(listen)
