"""Makes the Debian package of the built program, and looks at it.

The package has to be the same when it is made again, to have what it has to have and nothing else,
to complete words in bash and zsh, to have manual pages without warnings, and nothing that lintian
calls an error. Each option of the hub and of the gateway has to stand in OPERATE's chapter about
settings, and each key of the settings has to be an option. Then it is installed in a container
(package_container.py). What this machine lacks is skipped.
"""

import hashlib
import os
import re
import shutil
import signal
import subprocess
import sys
import tomllib
from collections.abc import Iterator
from pathlib import Path

import pytest

import package_container
from harness import TOP, Place

sys.path.append(str(TOP / "packaging"))
import built  # noqa: E402
import debian  # noqa: E402
from needs import MODULES, python_with  # noqa: E402

SECONDS = 320
TOOLS = ("dpkg-deb", "strip")
# What a package has to have; and the folders that are in it as they are in the clone.
FILES = Path(__file__).with_name("package_files.txt").read_text("utf-8").splitlines()[1:]
FOLDERS = ("service/sctd_service", "examples", "docs/releases", "docs/package")
# Options that are no settings.
NO_SETTINGS = {"help", "config", "version"}
MOST_LINES_OF_README = 10
# A line to complete in bash, and what has to be among its completions; * is a file of the folder.
COMPLETED = (
    ("sctd i", ["import", "init"]),
    ("sctd copy --l", ["--layout"]),
    ("sctd import --", ["--check", "--help", "--quiet", "--releases", "--store"]),
    ("sctd serve --store a-", ["a-file", "a-folder"]),
    ("sctd serve --releases a-", ["a-folder"]),
    ("sctd-hub --conn", ["--connections-a-user"]),
    ("sctd-gateway --l", ["--languages", "--listen", "--log"]))
COMPLETING = """
source "$1"; words=($2); [[ $2 == *" " ]] && words+=("")
COMP_WORDS=("${words[@]}"); COMP_CWORD=$((${#words[@]} - 1)); _sctd "${words[0]}"
printf '%s\\n' "${COMPREPLY[@]}" | sort
"""


def run(*words: str, place: Path | None = None, **around: str) -> tuple[int, str]:
    """The status of a command, which may run in a folder, and all that it says."""
    done = subprocess.run(words, stdin=subprocess.DEVNULL, stdout=subprocess.PIPE,
                          stderr=subprocess.STDOUT, timeout=SECONDS, check=False, cwd=place,
                          env=os.environ | around)
    return done.returncode, done.stdout.decode("utf-8", "backslashreplace")


class Made:
    """Two packages of the program, of which the second one is an upgrade of the first."""

    def __init__(self, program: Path, folder: Path, python: str) -> None:
        folder.mkdir()
        self.package = built.Built(program, built.origin_of(is_proved=False))
        self.folder, self.python = folder, python
        self.first, self.second = self.make("first", "+first"), self.make("second", "+second")
        self.root = folder / "root"
        subprocess.run(["dpkg-deb", "--extract", str(self.first), str(self.root)], check=True)

    def make(self, folder: str, version: str) -> Path:
        return debian.make(self.package, self.folder / folder, self.python,
                           built.version() + version)

    def path(self, name: str) -> Path:
        return self.root / name


@pytest.fixture(scope="module")
def made(tried: Place) -> Made:
    lacking, python = [tool for tool in TOOLS if shutil.which(tool) is None], python_with()
    if lacking or python is None:
        pytest.skip(f"there is no {' '.join(lacking) or 'Python with what the gateway imports'}")
    signal.alarm(0)  # (No trial waits for this, and each command has a limit of its own.)
    return Made(tried.program, tried.path("package"), python)


def test_same_again(made: Made) -> None:
    """The same sources make the same package."""
    first, again = (hashlib.sha256(path.read_bytes()).hexdigest()
                    for path in (made.first, made.make("again", "+first")))
    assert again == first


def wanted_files() -> Iterator[str]:
    yield from FILES
    for folder in FOLDERS:
        for path in (TOP / folder).rglob("*"):
            if path.is_file() and "__pycache__" not in path.parts and path.name[0] != ".":
                yield "./%s/%s" % (debian.SHARE, path.relative_to(TOP))


def test_contents(made: Made) -> None:
    """It has the files that it has to have, which are root's, and nobody else may write."""
    _, told = run("dpkg-deb", "--contents", str(made.first), TZ="UTC")
    lines = [line.split() for line in told.strip().split("\n")]
    found = {words[5] for words in lines if words[0][0] != "d"}
    assert sorted(found ^ set(wanted_files())) == []
    assert {words[1] for words in lines} == {"root/root"}
    assert {words[0] for words in lines} == {"drwxr-xr-x", "-rwxr-xr-x", "-rw-r--r--", "lrwxrwxrwx"}
    commands = [words[5] for words in lines if words[0] == "-rwxr-xr-x"]
    assert sorted(os.path.basename(name) for name in commands) == [
        "check_edition.py", "client.py", "digest.py", "export.py", "follow.py", "read_records.py",
        "sctd", "sctd", "sctd-gateway", "sctd-hub", "take_copy.py"]
    readme = made.path(debian.DOC + "/README").read_text("utf-8")
    assert readme.count("\n") <= MOST_LINES_OF_README


def test_versions(made: Made) -> None:
    """The commands say the version, the commit, and whether the program is proved."""
    text = made.path("usr/bin/sctd").read_text("utf-8")
    for name in set(re.findall(r"/usr/libexec\S*", text)):
        text = text.replace(name, str(made.root) + name)
    command = made.folder / "command"
    command.write_text(text, encoding="utf-8")
    command.chmod(0o755)
    plain = run(str(made.package.program), "--version")[1]
    for option in ("--version", "-V"):
        assert run(str(command), option) == (0, plain + made.package.origin + "\n")
    words = ["status", "--store", "/no/such file"]
    assert run(str(command), *words) == run(str(made.package.program), *words)
    commit = built.commit_of(built.PACKAGE_PARTS)
    for name in ("sctd-hub", "sctd-gateway"):
        told = run(made.python, str(made.path(debian.SHARE + "/service/" + name)), "--version")
        assert told == (0, "%s %s, %s\n" % (name, built.version(), commit))


def options_of(made: Made, part: str) -> set[str]:
    """The options of the hub or of the gateway, as its help has them."""
    help_of = debian.help_of([made.python, str(TOP / "service" / ("sctd-" + part))], part)
    return {option.name for option in help_of.options()} - NO_SETTINGS


def test_settings(made: Made) -> None:
    """OPERATE has each key, and the installed settings have no other one."""
    document = (TOP / "docs" / "OPERATE.md").read_text("utf-8")
    text = made.path("etc/sctd/sctd.conf").read_text("utf-8")
    told = tomllib.loads(re.sub(r"^#(\w+ = )", r"\1", text, flags=re.M))
    assert sorted(told) == ["gateway", "hub"]
    for part, keys in told.items():
        table = re.search(r"^\| Key of `\[%s\]`.*?\n\n" % part, document, re.M | re.S)
        assert table, part
        in_table = set(re.findall(r"^\| `([\w-]+)`", table[0], re.M))
        assert in_table == options_of(made, part)
        assert set(keys) - in_table == set(), part


def test_manual_pages(made: Made) -> None:
    """The manual pages can be shown, and have what the helps have."""
    if shutil.which("man") is None:
        pytest.skip("there is no man")
    shown = {}
    for path in sorted(made.path("usr/share/man").rglob("*.gz")):
        words = ["man", "--warnings", "-E", "UTF-8", "-l", "-Tutf8", "-P", "cat", str(path)]
        done = subprocess.run(words, capture_output=True, timeout=SECONDS, check=False,
                              env=os.environ | {"MANWIDTH": "120", "GROFF_NO_SGR": "1"})
        shown[path.name] = re.sub(r".\x08", "", done.stdout.decode())
        assert (done.returncode, done.stderr.decode()) == (0, ""), path.name
    texts = {"sctd.1.gz": ["sctd import --quiet", "--layout <N>", "0 CALLED 1000004"],
             "sctd-hub.8.gz": ["--connections-a-user N", "SYNOPSIS", "goes alone"],
             "sctd-gateway.8.gz": ["--languages SCTID,..", "It only reads"],
             "sctd.conf.5.gz": ["merge-above", "SCTID of the module of the edition"]}
    assert sorted(shown) == sorted(texts)
    for name, parts in texts.items():
        assert [part for part in parts if part not in shown[name]] == [], name


def test_completions(made: Made) -> None:
    """What bash completes, and that zsh can read its file."""
    place = made.folder / "completing"
    (place / "a-folder").mkdir(parents=True)
    (place / "a-file").touch()
    script = str(made.path("usr/share/bash-completion/completions/sctd"))
    for line, wanted in COMPLETED:
        _, told = run("bash", "-c", COMPLETING, "bash", script, line, place=place)
        assert told.split() == wanted, line
    if shutil.which("zsh") is None:
        pytest.skip("there is no zsh")
    zsh = str(made.path("usr/share/zsh/vendor-completions/_sctd"))
    assert run("zsh", "-n", zsh) == (0, "")


def test_types(made: Made) -> None:
    """The types of what makes it are right, and a shell can read its scripts."""
    scripts = [TOP / "packaging" / "debian" / name for name in debian.SCRIPTS]
    for script in [TOP / "try", *scripts]:
        assert run("sh", "-n", str(script)) == (0, ""), script.name
    if shutil.which("mypy") is None:
        pytest.skip("there is no mypy")
    modules = [path.name for path in sorted((TOP / "packaging").glob("*.py"))]
    for files in (modules, ["build"], ["deb"]):
        status, told = run("mypy", "--strict", "--cache-dir=/dev/null", *files,
                           place=TOP / "packaging", MYPYPATH="%s/bench:%s/service" % (TOP, TOP))
        assert (status, told.partition(":")[0]) == (0, "Success"), told


def test_lintian(made: Made) -> None:
    if shutil.which("lintian") is None:
        pytest.skip("there is no lintian")
    _, told = run("lintian", "--allow-root", str(made.first))
    assert [line for line in told.split("\n") if line.startswith("E:")] == []


def test_container(made: Made) -> None:
    """It is installed, used, upgraded and removed by a systemd in a container."""
    lacks = package_container.lacks() or ", ".join(
        name for name in MODULES.values() if run("dpkg", "--status", name)[0])
    if lacks:
        pytest.skip(lacks)
    signal.alarm(0)  # (It has a limit of its own.)
    place = made.folder / "container"
    place.mkdir()
    status, told = run("unshare", "--mount", sys.executable, package_container.__file__, str(place),
                       str(made.first), str(made.second))
    if status == package_container.NOT_RUN:
        pytest.skip(told.strip())
    assert status == 0, told
