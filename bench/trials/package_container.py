"""Installs a package of sctd in a container with a systemd of its own, and looks at what runs
there. A part of test_package.py, which starts it.

systemd-nspawn boots a container on this machine's own files; what is changed there stays in memory
and is dropped, and the network is the container's. package_steps.txt has what is done and looked at
there. It needs root, overlayfs, systemd-nspawn and curl, and what the package depends on.
"""

import os
import shutil
import subprocess
import sys
import time
from collections.abc import Sequence
from pathlib import Path
from typing import NamedTuple

PYTHON = "/usr/bin/python3"
NOT_RUN = 3
# How long the container may run, a command may take, and one is tried again until it prints what it
# has to. After so many wrong steps the others aren't looked at.
SECONDS = 280
COMMAND_SECONDS = 60
WAIT_SECONDS = 30
MOST_WRONG = 3
# In the container: this script with its steps, both packages, and what it says there.
PLACE, SAID = "opt/trial", "opt/said"
SYSTEM = "etc/systemd/system"
LOOKING = """[Service]
Type=oneshot
ExecStart=%s /%s/package_container.py
StandardOutput=file:/%s
StandardError=file:/%s
ExecStopPost=/bin/systemctl poweroff --force
"""

STEPS = Path(__file__).with_name("package_steps.txt")


class Step(NamedTuple):
    """What is looked at, a command of the shell, what it has to print, and whether it changes
    nothing, so that it may be tried again until it does."""

    what: str
    command: str
    wanted: str
    is_repeated: bool = False


def steps() -> list[Step]:
    found = []
    for block in STEPS.read_text("utf-8").rstrip("\n").split("\n\n")[1:]:
        pairs = [line.partition(":")[::2] for line in block.split("\n")]
        what, command, *wanted = (text.removeprefix(" ") for _, text in pairs)
        found.append(Step(what, command, "\n".join(wanted), pairs[-1][0] == "waits for"))
    return found


def printed(command: str) -> str:
    try:
        done = subprocess.run(["bash", "-c", command], stdin=subprocess.DEVNULL,
                              stdout=subprocess.PIPE, timeout=COMMAND_SECONDS, check=False)
    except subprocess.TimeoutExpired:
        return "it takes too long"
    return "\n".join(line.strip() for line in done.stdout.decode().strip().split("\n"))


def look() -> int:
    """In the container: does each step, and tells what wasn't as wanted."""
    wrong, count, every = 0, 0, steps()
    for step in every:
        if wrong == MOST_WRONG:
            break
        count += 1
        end, found = time.monotonic() + WAIT_SECONDS, printed(step.command)
        while found != step.wanted and step.is_repeated and time.monotonic() < end:
            time.sleep(0.2)
            found = printed(step.command)
        if found != step.wanted:
            wrong += 1
            print("WRONG: %s: %.300r in place of %r" % (step.what, found, step.wanted), flush=True)
    said = "package: %d of %d looked at, %d not as wanted"
    print(said % (count, len(every), wrong), flush=True)
    return 1 if wrong else 0


def lacks() -> str:
    """What this machine lacks, or nothing."""
    if os.geteuid() != 0:
        return "it takes root"
    for command in ("systemd-nspawn", "unshare", "curl", "runuser", "dpkg"):
        if shutil.which(command) is None:
            return "there is no " + command
    return ""


def fill(root: Path, packages: Sequence[Path]) -> None:
    """Puts into the container what is looked at, and what looks."""
    place = root / PLACE
    place.mkdir(parents=True)
    for own in (Path(__file__), STEPS):
        shutil.copy(own, place)
    for package, name in zip(packages, ("first.deb", "second.deb")):
        shutil.copy(package, place / name)
    # A machine for builds forbids that services are started, and manual pages are indexed for long.
    for name in ("usr/sbin/policy-rc.d", "var/lib/man-db/auto-update"):
        (root / name).unlink(missing_ok=True)
    # Nothing else that this machine starts is started there.
    for link in (root / SYSTEM).glob("*.wants/*"):
        link.unlink()
    looking = LOOKING % (PYTHON, PLACE, SAID, SAID)
    (root / SYSTEM / "looking.service").write_text(looking, encoding="utf-8")


def boot(folder: Path, packages: Sequence[Path]) -> int:
    """In mounts of its own: boots the container, and tells what it says."""
    def mount(*words: str) -> None:
        subprocess.run(["mount", *words], check=True)

    mount("--make-rprivate", "/")
    mount("-t", "tmpfs", "tmpfs", str(folder))
    root, upper, work = (folder / name for name in ("root", "upper", "work"))
    for path in (root, upper, work):
        path.mkdir()
    layers = "lowerdir=/,upperdir=%s,workdir=%s" % (upper, work)
    mount("-t", "overlay", "overlay", "-o", layers, str(root))
    fill(root, packages)
    words = ["systemd-nspawn", "--register=no", "--keep-unit", "--link-journal=no",
             "--private-network", "--console=pipe", "--boot", "--directory", str(root),
             "systemd.unit=multi-user.target", "systemd.wants=looking.service"]
    container = subprocess.Popen(words, stdin=subprocess.DEVNULL, stdout=subprocess.PIPE,
                                 stderr=subprocess.STDOUT)
    try:
        console = container.communicate(timeout=SECONDS)[0].decode("utf-8", "replace")
    except subprocess.TimeoutExpired:
        # (It ends the container first, which goes on where it is killed.)
        container.terminate()
        container.communicate(timeout=COMMAND_SECONDS)
        console = "the container hasn't ended after %d seconds" % SECONDS
    if not (root / SAID).exists():
        print("not run: %s" % console.strip().split("\n")[-1])
        return NOT_RUN
    said = (root / SAID).read_text("utf-8")
    print(said, end="")
    return 0 if said.endswith(", 0 not as wanted\n") else 1


def main(words: Sequence[str]) -> int:
    """Without words: in the container. With a folder and packages: outside of it."""
    if not words:
        return look()
    return boot(Path(words[0]), [Path(word) for word in words[1:]])


if __name__ == "__main__":
    sys.exit(main(sys.argv[1:]))
