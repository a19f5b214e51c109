"""What try_proxy.py and try_machines.py share: certificates, clients that have one, and a proxy
with its configuration in packaging/."""

import contextlib
import http.client
import os
import random
import re
import shutil
import signal
import socket
import ssl
import subprocess
import sys
import tempfile
import threading
import time
from collections.abc import Iterator, Mapping, Sequence
from pathlib import Path
from typing import NamedTuple, Optional

from harness import NotRun, Threads, Wrong, children, same, until

ROOT = Path(__file__).resolve().parents[2]
SERVICE = ROOT / "service"
sys.path += [str(ROOT / "packaging"), str(SERVICE)]
import first_look  # noqa: E402
from needs import python_with  # noqa: E402

SECONDS = 60
# How often it is looked whether something is as it is waited for.
LOOK_SECONDS = 0.05
# How long a client waits until it asks again, and how many faults are told.
BETWEEN_SECONDS, TOLD = 0.03, 5
HOST = "127.0.0.1"
NAME = "terms.example.org"
OPENSSL = "openssl"
USER = "Smith, Alice"
EDITION, LANGUAGE = first_look.EDITION, first_look.LANGUAGE
MAIN = Path(__file__).with_name("nginx_of_trials.conf")
# How a gateway and the folder of certificates stand in a configuration, and what only root may do.
GATEWAY = re.compile(r"127\.0\.0\.1:808([1-9])\b")
CERTIFICATES = "/etc/sctd/tls"
PRIVILEGED = re.compile(r"^    (?:user|group|chroot) .*\n", re.MULTILINE)
Process = subprocess.Popen[bytes]
# What a client sees of a connection that has ended before an answer came.
ENDED = (ConnectionError, ssl.SSLEOFError, http.client.RemoteDisconnected,
         http.client.CannotSendRequest)


class Kind(NamedTuple):
    """A proxy: its configuration in packaging/, what stands there before the port that it listens
    on and for the folder of its log, if any; what starts it with the folder of a trial, and has it
    read its configuration anew; and what a user with a comma in the name is in its log."""

    name: str
    config: str
    listening: str
    logs: Optional[str]
    words: str
    anew: signal.Signals
    user: str


NGINX = Kind("nginx", "nginx.conf", "listen ", "/var/log/nginx/",
             "nginx -e %(place)s/error.log -c %(place)s/nginx.conf", signal.SIGHUP,
             USER.replace(",", "\\,"))
HAPROXY = Kind("haproxy", "haproxy.cfg", "bind :", None, "haproxy -W -f %(place)s/sctd.conf",
               signal.SIGUSR2, USER)
KINDS = (NGINX, HAPROXY)


def run(*words: str) -> str:
    """What a command says, which has to end well."""
    done = subprocess.run(words, stdin=subprocess.DEVNULL, stdout=subprocess.PIPE,
                          stderr=subprocess.STDOUT, timeout=SECONDS, check=False)
    said = done.stdout.decode("utf-8", "replace").strip()
    if done.returncode:
        raise Wrong("%s: status %d: %s" % (" ".join(words), done.returncode, said))
    return said


def need(*tools: str) -> None:
    """Looks for what a trial needs: these tools, and what the gateway imports."""
    for tool in tools:
        if shutil.which(tool) is None:
            raise NotRun(f"there is no {tool}")
    if python_with() is None:
        raise NotRun("there is no Python with what the gateway imports")


class Authority:
    def __init__(self, place: Path, name: str) -> None:
        self.place, self.path = place, place / (name + ".pem")
        self.key = place / (name + ".key")
        run("openssl", "req", "-x509", "-newkey", "rsa:2048", "-nodes", "-days", "2", "-subj",
            "/CN=" + name, "-keyout", str(self.key), "-out", str(self.path))

    def sign(self, name: str, subject: str) -> Path:
        """Makes a key and a certificate, which is at the path that is answered."""
        key, asked, to = (self.place / (name + end) for end in (".key", ".csr", ".pem"))
        run("openssl", "req", "-newkey", "rsa:2048", "-nodes", "-subj", subject, "-addext",
            "subjectAltName=IP:" + HOST, "-keyout", str(key), "-out", str(asked))
        run("openssl", "x509", "-req", "-days", "2", "-in", str(asked), "-CA", str(self.path),
            "-CAkey", str(self.key), "-CAcreateserial", "-copy_extensions", "copy", "-out", str(to))
        return to


class Proxy:
    """A proxy with its configuration in packaging/, with a trial's names, addresses and paths."""

    def __init__(self, place: Path, gateways: Sequence[str], kind: Kind = NGINX) -> None:
        self.place, self.gateways, self.kind = place, gateways, kind
        self.port = free_ports(1)[0]
        self.authority = Authority(place, "users")
        self.user = self.authority.sign("user", "/CN=%s/O=House\\,CN=nobody" % USER)
        self.server = Authority(place, "servers")
        own = self.server.sign("server", "/CN=" + NAME)
        own.with_suffix(".pem.key").symlink_to(own.with_suffix(".key"))
        self.process: Optional[Process] = None

    def replaced(self) -> str:
        """What stands in packaging/, with what is this trial's in its place."""
        text = (ROOT / "packaging" / self.kind.config).read_text("utf-8")
        numbers = [int(found[1]) for found in GATEWAY.finditer(text)]
        same("the gateways", numbers, list(range(1, len(self.gateways) + 1)))
        text = GATEWAY.sub(lambda found: self.gateways[int(found[1]) - 1], text)
        listening, logs = self.kind.listening, self.kind.logs
        new = {CERTIFICATES: str(self.place),
               listening + "443 ": "%s%s:%d " % (listening.rstrip(":"), HOST, self.port)}
        if logs:
            new[logs] = "%s/" % self.place
        for old, text_instead in new.items():
            same("whether %s is in %s" % (old, self.kind.config), old in text, True)
            text = text.replace(old, text_instead)
        return text if os.geteuid() == 0 else PRIVILEGED.sub("", text)

    def start(self) -> None:
        (self.place / "sctd.conf").write_text(self.replaced(), encoding="utf-8")
        named = {"place": self.place}
        main = MAIN.read_text("utf-8") % named
        (self.place / "nginx.conf").write_text(main, encoding="utf-8")
        words = self.kind.words % named
        # (What has no folder of logs logs to its output.)
        output = self.place / ("log" if self.kind.logs else "sctd.log")
        with open(output, "ab") as to, open(self.place / "log", "ab") as faults:
            self.process = subprocess.Popen(words.split(), stdin=subprocess.DEVNULL, stdout=to,
                                            stderr=faults, start_new_session=True)
        until(self.kind.name, self.is_ready, SECONDS)

    def is_ready(self) -> bool:
        assert self.process
        if self.process.poll() is not None:
            said = (self.place / "log").read_text("utf-8")
            raise Wrong("%s doesn't start: %s" % (self.kind.name, said))
        with socket.socket() as trial:
            return trial.connect_ex((HOST, self.port)) == 0

    def read_anew(self) -> None:
        """Has it read its configuration, for which other processes take over from those before.
        (As long as these are there, haproxy may miss that it is told so again.)"""
        assert self.process
        pid, before = self.process.pid, children(self.process.pid)
        self.process.send_signal(self.kind.anew)
        until("a process in their place",
              lambda: children(pid) and not children(pid) & before, SECONDS)

    def end(self) -> None:
        if self.process:
            stop(self.process)


class Client:
    def __init__(self, proxy: Proxy, certificate: Optional[Path]) -> None:
        around = ssl.create_default_context(cafile=str(proxy.server.path))
        if certificate:
            around.load_cert_chain(certificate, certificate.with_suffix(".key"))
        self.connection = http.client.HTTPSConnection(
            HOST, proxy.port, timeout=SECONDS, context=around)
        # How often a connection was made again.
        self.again = 0

    def get(self, path: str) -> tuple[int, bytes]:
        status, _, answer = self.told(path)
        return status, answer

    def told(self, path: str) -> tuple[int, Mapping[str, str], bytes]:
        """An answer with its headers. A connection that has ended before it came is made again,
        once, as each client of HTTP does."""
        try:
            return self.asked("GET", path)
        except ENDED:
            self.connection.close()
            self.again += 1
        try:
            return self.asked("GET", path)
        except BaseException:
            self.connection.close()
            raise

    def asked(self, method: str, path: str, body: Optional[bytes] = None,
              **words: str) -> tuple[int, Mapping[str, str], bytes]:
        """An answer with its headers, whose names are in small letters."""
        self.connection.request(method, path, body, words)
        answer = self.connection.getresponse()
        headers = {name.lower(): value for name, value in answer.getheaders()}
        return answer.status, headers, answer.read()


class Asking(Threads):
    """Clients that ask until they are told to end, and each so often at least."""

    def __init__(self, proxy: Proxy, count: int, least: int = 0) -> None:
        super().__init__(count, self.ask_all)
        self.proxy, self.least, self.lock = proxy, least, threading.Lock()
        # How often all have asked, how many connections were made again, and what isn't right.
        self.asked, self.again, self.faults = 0, 0, list[str]()

    def ask_all(self, seed: int) -> None:
        client, chance, asked = Client(self.proxy, self.proxy.user), random.Random(seed), 0
        while not self.is_over or asked < self.least:
            try:
                self.ask(client, chance)
            except Exception as why:  # A fault of the trial ends it, too.
                self.faults.append("a client: %r" % why)
                raise
            asked += 1
            with self.lock:
                self.asked += 1
            time.sleep(BETWEEN_SECONDS)
        with self.lock:
            self.again += client.again

    def ask(self, client: Client, chance: random.Random) -> None:
        """Asks once, and notes what isn't right."""
        raise NotImplementedError

    def look(self) -> None:
        """Nothing was noted."""
        same("how many were answered otherwise, and the first of these",
             (len(self.faults), self.faults[:TOLD]), (0, []))


@contextlib.contextmanager
def open_folder() -> Iterator[Path]:
    """A new folder that everybody may go into: nginx's workers are another user's where it is
    started by root."""
    with tempfile.TemporaryDirectory(prefix="sctd-proxy-") as place:
        os.chmod(place, 0o755)
        yield Path(place)


def ready(words: Sequence[str], log: Path) -> Process:
    """A hub or a gateway, once it says that it is ready."""
    with open(log, "ab") as faults:
        process = subprocess.Popen(words, stdin=subprocess.DEVNULL, stdout=subprocess.PIPE,
                                   stderr=faults, start_new_session=True)
    assert process.stdout
    same("the first line of " + " ".join(words[:3]), process.stdout.readline(), b"OK ready\n")
    return process


def hub_words(program: str, store: Path, releases: Path, *sockets: str) -> list[str]:
    return [sys.executable, str(SERVICE / "sctd-hub"), "--program", program, "--store", str(store),
            "--make-store", "--releases", str(releases), *sockets]


def gateway_words(questions: Path, listen: str, *words: str) -> list[str]:
    python = python_with()
    assert python
    return [python, str(SERVICE / "sctd-gateway"), "--socket", str(questions), "--edition",
            EDITION, "--listen", listen, *words]


def stop(process: Process) -> None:
    if process.poll() is None:
        process.terminate()
        with contextlib.suppress(subprocess.TimeoutExpired):
            process.wait(SECONDS)


def free_ports(count: int) -> list[int]:
    with contextlib.ExitStack() as stack:
        found = [stack.enter_context(socket.socket()) for _ in range(count)]
        for one in found:
            one.bind((HOST, 0))
        ports = [int(one.getsockname()[1]) for one in found]
    return ports
