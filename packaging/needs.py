#!/usr/bin/env python3
"""What the service and its trials need of Debian: the one list of it, for the package, ./try and
for .ci/run.

packaging/needs.py

It prints the packages that this machine lacks, in one line. Which modules the service imports stands
in service/pyproject.toml.
"""

import importlib.util
import re
import shutil
import subprocess
import sys
import tomllib
from collections.abc import Iterable, Iterator
from pathlib import Path

PROJECT = Path(__file__).resolve().parents[1] / "service" / "pyproject.toml"
SYSTEM_PYTHON = "/usr/bin/python3"
LEAST_PYTHON = (3, 11)
# What of Python only tests need, and the commands that only trials need, with Debian's packages.
TESTED_WITH = {"pytest": "python3-pytest"}
TRIED_WITH = {
    "curl": "curl",
    "haproxy": "haproxy",
    "ip": "iproute2",
    "lintian": "lintian",
    "nginx": "nginx-light",
    "openssl": "openssl",
    "strip": "binutils",
    "systemd-nspawn": "systemd-container",
    "zsh": "zsh",
}


def modules() -> dict[str, str]:
    """The modules of Python that the service imports, and Debian's package of each."""
    listed = tomllib.loads(PROJECT.read_text("utf-8"))["project"]["dependencies"]
    names = [re.split(r"[^\w-]", one)[0].lower() for one in listed]
    return {name.replace("-", "_"): "python3-" + name.replace("_", "-") for name in names}


MODULES = modules()
# What the installed package depends on. The program needs the C library alone.
DEPENDS = (
    "libc6 (>= 2.34)",
    "python3 (>= %d.%d)" % LEAST_PYTHON,
    *MODULES.values(),
    "systemd",
)


def has_modules(python: str, modules: Iterable[str] = MODULES) -> bool:
    """Whether a Python is new enough, and has some modules."""
    check = "import sys, %s; sys.exit(sys.version_info < %r)" % (", ".join(modules), LEAST_PYTHON)
    try:
        done = subprocess.run([python, "-c", check], stderr=subprocess.DEVNULL, check=False)
    except OSError:
        return False
    return done.returncode == 0


def python_with(modules: Iterable[str] = MODULES) -> str | None:
    """A Python that has some modules, this one or the system's; None where neither does."""
    names = tuple(modules)
    return next((one for one in (sys.executable, SYSTEM_PYTHON) if has_modules(one, names)), None)


def lacking() -> Iterator[str]:
    """The packages that this machine and this Python lack."""
    for module, package in {**MODULES, **TESTED_WITH}.items():
        if importlib.util.find_spec(module) is None:
            yield package
    for command, package in TRIED_WITH.items():
        if shutil.which(command) is None:
            yield package


if __name__ == "__main__":
    print(" ".join(lacking()))
