"""Makes the Debian package: puts its files into a folder, and has dpkg-deb pack it."""

from __future__ import annotations

import gzip
import os
import re
import shutil
import subprocess
import sys
import tempfile
import time
import tomllib
from collections.abc import Sequence
from pathlib import Path
from typing import NamedTuple

import built
import manuals
from needs import DEPENDS

TOP = built.TOP
HERE = TOP / "packaging"
NAME, ARCHITECTURE = "sctd", "amd64"
PROGRAM = "usr/libexec/sctd/sctd"
SHARE, DOC = "usr/share/sctd", "usr/share/doc/sctd"
UNITS = "lib/systemd/system"
SCRIPTS = ("postinst", "prerm", "postrm")
CONTROL = """Package: {name}
Version: {version}
Architecture: {architecture}
Maintainer: {maintainer}
Installed-Size: {size}
Depends: {depends}
Section: science
Priority: optional
Description: SNOMED CT terminology, as it stood on any date
 sctd keeps the whole release history of a SNOMED CT terminology in one file,
 and tells what any concept, description, relationship or member of a
 reference set looked like on any past date.
 .
 The hub lets many programs ask one store, and the gateway answers FHIR R4
 and shows a page.
 .
 The program is {origin}.
"""
COPYRIGHT = """Format: https://www.debian.org/doc/packaging-manuals/copyright-format/1.0/
Upstream-Name: sctd

Files: *
Copyright: 2026, the owner of sctd
License: {licence}
 {text}
Comment: The program also has code of the Rattle kit's libraries, whose licences come with the kit.
"""
CHANGES = """{name} ({version}) unstable; urgency=medium

  * The program is {origin}.
  * CHANGELOG.md.gz says what is new.

 -- {maintainer}  {date}
"""
# What lintian isn't to tell as long as the owner hasn't said whom to write to.
OVERRIDES = """{name}: bogus-mail-host
{name}: bogus-mail-host-in-debian-changelog
"""
UNLICENSED = "UNLICENSED"
# What differs in the unit of an instance, and what stands there instead. Each occurs.
INSTANCE = {
    "packaging/sctd.service": {
        "/etc/sctd/sctd.conf": "/etc/sctd/%i.conf",
        "/run/sctd/": "/run/sctd-%i/",
        "StateDirectory=sctd\n": "StateDirectory=sctd-%i\n",
        "RuntimeDirectory=sctd\n": "RuntimeDirectory=sctd-%i\n",
    },
    "packaging/sctd-gateway.service": {
        "/etc/sctd/sctd.conf": "/etc/sctd/%i.conf",
        "/run/sctd/": "/run/sctd-%i/",
        "After=sctd.service": "After=sctd@%i.service",
    },
}


class Copied(NamedTuple):
    """A file or folder of the clone, its place in the package, and whether it is compressed."""

    source: str
    to: str
    is_compressed: bool = False


PAGES = (
    "docs/GUIDE.md", "docs/START.md", "docs/ASK.md", "docs/OPERATE.md", "docs/FHIR.md",
    "docs/AUDIT.md", "docs/internals/PROMISES.md", "docs/internals/FORMAT.md", "CHANGELOG.md",
)
COPIED = (
    Copied("service/sctd_service", SHARE + "/service/sctd_service"),
    Copied("service/sctd-hub", SHARE + "/service/sctd-hub"),
    Copied("service/sctd-gateway", SHARE + "/service/sctd-gateway"),
    Copied("examples", SHARE + "/examples"),
    Copied("docs/releases", SHARE + "/docs/releases"),
    Copied("docs/package", SHARE + "/docs/package"),
    Copied("packaging/sctd.conf", "etc/sctd/sctd.conf"),
    Copied("packaging/sysusers.conf", "usr/lib/sysusers.d/sctd.conf"),
    Copied("packaging/tmpfiles.conf", "usr/lib/tmpfiles.d/sctd.conf"),
    Copied("packaging/sctd.service", UNITS + "/sctd.service"),
    Copied("packaging/sctd-gateway.service", UNITS + "/sctd-gateway.service"),
    Copied("packaging/haproxy.cfg", SHARE + "/examples/haproxy.cfg"),
    Copied("packaging/nginx.conf", SHARE + "/examples/nginx.conf"),
    Copied("packaging/debian/README", DOC + "/README"),
    *(Copied(name, "%s/%s.gz" % (DOC, Path(name).name), is_compressed=True) for name in PAGES),
)
# Commands, as links to where they are.
LINKS = {
    "usr/bin/sctd-hub": "../share/sctd/service/sctd-hub",
    "usr/bin/sctd-gateway": "../share/sctd/service/sctd-gateway",
    DOC + "/examples": "../../sctd/examples",
}
LEFT_OUT = shutil.ignore_patterns("__pycache__", ".*")


def moment() -> int:
    """The time that the package's files have: that of the commit."""
    said = built.git("log", "-1", "--format=%ct")
    return int(said) if said else int(time.time())


def version_of(package: built.Built) -> str:
    """The package's version: the program's, and its commit's time and name. One that isn't proved
    comes before the same one that is."""
    day = time.strftime("%Y%m%d%H%M%S", time.gmtime(moment()))
    commit = built.git("rev-parse", "--short=12", "HEAD") or "unknown"
    mark = "" if package.origin.endswith(", proved") else "~unproved"
    return "%s+%s.%s%s" % (built.version(), day, commit, mark)


class Tree:
    """The folder in which the package is put together."""

    def __init__(self, folder: Path) -> None:
        self.folder = folder

    def write(self, name: str, text: str, mode: int = 0o644) -> None:
        path = self.folder / name
        path.parent.mkdir(parents=True, exist_ok=True)
        path.write_text(text, encoding="utf-8")
        path.chmod(mode)

    def compress(self, name: str, text: str) -> None:
        path = self.folder / name
        path.parent.mkdir(parents=True, exist_ok=True)
        path.write_bytes(gzip.compress(text.encode(), compresslevel=9, mtime=0))

    def copy(self, copied: Copied) -> None:
        source, to = TOP / copied.source, self.folder / copied.to
        to.parent.mkdir(parents=True, exist_ok=True)
        if copied.is_compressed:
            self.compress(copied.to, source.read_text("utf-8"))
        elif source.is_dir():
            shutil.copytree(source, to, ignore=LEFT_OUT)
        else:
            shutil.copy(source, to)

    def link(self, name: str, to: str) -> None:
        path = self.folder / name
        path.parent.mkdir(parents=True, exist_ok=True)
        path.symlink_to(to)

    def files(self) -> list[Path]:
        return sorted(path for path in self.folder.rglob("*") if not path.is_symlink())

    def size_kb(self) -> int:
        return sum(path.stat().st_size for path in self.files() if path.is_file()) // 1024 + 1


def put_program(tree: Tree, package: built.Built) -> None:
    """The program without the names of its functions, and the command around it."""
    to = tree.folder / PROGRAM
    to.parent.mkdir(parents=True)
    subprocess.run(["strip", "-o", str(to), "--strip-unneeded", "--remove-section=.comment",
                    "--remove-section=.note", str(package.program)], check=True)
    to.chmod(0o755)
    installed = built.Built(Path("/") / PROGRAM, package.origin)
    tree.write("usr/bin/sctd", built.command_of(installed), 0o755)


def put_service(tree: Tree) -> None:
    """The files that are as in the clone; scripts take the system's Python."""
    for copied in COPIED:
        tree.copy(copied)
    for name, to in LINKS.items():
        tree.link(name, to)
    for path in (tree.folder / SHARE).rglob("*"):
        if path.is_file():
            is_script = path.read_bytes().startswith(b"#!")
            if is_script:
                text = path.read_text("utf-8")
                path.write_text(re.sub(r"^#!.*", "#!/usr/bin/python3", text), encoding="utf-8")
            path.chmod(0o755 if is_script else 0o644)
    commit = built.commit_of(built.PACKAGE_PARTS)
    tree.write(SHARE + "/service/sctd_service/commit", commit + "\n")


def put_instances(tree: Tree) -> None:
    """The units of instances."""
    for source, replaced in INSTANCE.items():
        text = (TOP / source).read_text("utf-8")
        for old, new in replaced.items():
            assert old in text, old
            text = text.replace(old, new)
        tree.write("%s/%s@.service" % (UNITS, Path(source).stem), text)


def help_of(words: Sequence[str], name: str) -> manuals.Command:
    """What a command says of itself, as a wide terminal shows it."""
    done = subprocess.run([*words, "--help"], stdout=subprocess.PIPE, check=True,
                          env={**os.environ, "COLUMNS": "100", "PYTHONDONTWRITEBYTECODE": "1"})
    return manuals.Command(name, done.stdout.decode())


def put_manuals(tree: Tree, package: built.Built, python: str) -> None:
    """The manual pages and the completions."""
    program = [help_of([str(package.program)], NAME)]
    for name in manuals.commands_of(program[0].help):
        program.append(help_of([str(package.program), name], "%s %s" % (NAME, name)))
    services = {part: help_of([python, str(TOP / "service" / ("sctd-" + part))], "sctd-" + part)
                for part in ("hub", "gateway")}
    version, pages = built.version(), "usr/share/man"
    tree.compress(pages + "/man1/sctd.1.gz",
                  manuals.program_page(program[0], program[1:], version))
    for part, command in services.items():
        source = TOP / "service" / "sctd_service" / part / "__main__.py"
        text = manuals.service_page(command, source.read_text("utf-8"), version)
        tree.compress("%s/man8/%s.8.gz" % (pages, command.words), text)
    operating = (TOP / "docs" / "OPERATE.md").read_text("utf-8")
    tree.compress(pages + "/man5/sctd.conf.5.gz",
                  manuals.settings_page(operating, "Settings", version))
    others = list(services.values())
    tree.write("usr/share/bash-completion/completions/sctd",
               manuals.bash_completion(program, others))
    for command in others:
        tree.link("usr/share/bash-completion/completions/" + command.words, "sctd")
    tree.write("usr/share/zsh/vendor-completions/_sctd", manuals.zsh_completion(program, others))


def put_control(tree: Tree, package: built.Built, version: str) -> None:
    """What dpkg reads."""
    owner = tomllib.loads((HERE / "debian" / "owner.toml").read_text("utf-8"))
    date = time.strftime("%a, %d %b %Y %H:%M:%S +0000", time.gmtime(moment()))
    said = {**owner, "name": NAME, "version": version, "architecture": ARCHITECTURE,
            "origin": package.origin, "depends": ", ".join(DEPENDS), "date": date}
    tree.write(DOC + "/copyright", COPYRIGHT.format(**said))
    tree.compress(DOC + "/changelog.gz", CHANGES.format(**said))
    if owner["licence"] == UNLICENSED:
        tree.write("usr/share/lintian/overrides/" + NAME, OVERRIDES.format(**said))
    tree.write("DEBIAN/control", CONTROL.format(size=tree.size_kb(), **said))
    tree.write("DEBIAN/conffiles", "/etc/sctd/sctd.conf\n")
    for name in SCRIPTS:
        tree.write("DEBIAN/" + name, (HERE / "debian" / name).read_text("utf-8"), 0o755)


def pack(tree: Tree, to: Path) -> None:
    """Has dpkg-deb pack the folder. All files are root's, and of the commit's time."""
    for path in tree.files():
        if path.is_dir():
            path.chmod(0o755)
    when = str(moment())
    subprocess.run(["dpkg-deb", "--root-owner-group", "-Zxz", "--build", str(tree.folder), str(to)],
                   env={**os.environ, "SOURCE_DATE_EPOCH": when}, stdout=subprocess.DEVNULL,
                   check=True)


def make(package: built.Built, folder: Path, python: str = sys.executable,
         version: str | None = None) -> Path:
    """Makes the package in a folder, and answers its path."""
    version = version or version_of(package)
    folder.mkdir(parents=True, exist_ok=True)
    to = folder / ("%s_%s_%s.deb" % (NAME, version, ARCHITECTURE))
    with tempfile.TemporaryDirectory(prefix="sctd-package-") as place:
        tree = Tree(Path(place) / NAME)
        tree.folder.mkdir()
        put_program(tree, package)
        put_service(tree)
        put_instances(tree)
        put_manuals(tree, package, python)
        put_control(tree, package, version)
        pack(tree, to)
    return to
