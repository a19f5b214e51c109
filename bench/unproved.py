"""Builds a crate by the kit's `rt try`, which proves nothing, and keeps the program that it makes.

`rt try` removes what it has built, builds it with a sanitizer that makes it ten times as slow, and
looks for names that a later check would refuse. So it is run here from a folder of links to the
kit, in which clang builds without the sanitizer, the linker leaves a copy of the program behind,
and the look for names is left out. What is built stops, as by `rt try` itself, at an index out of
bounds, at a sum that overflows and where `prove!` fails.
"""

import os
import shlex
import shutil
import subprocess
import tempfile
from pathlib import Path
from typing import Mapping, Sequence

# Files of the kit that are replaced here; all else in it is a link.
REPLACED = {"bin": ("rt", "rtlib.py", "rattle"), "toolchain/bin": ("clang", "ld.lld")}

# What `rt ci` gives a program as its search path.
SYSTEM_PATH = "/usr/local/bin:/usr/bin:/bin"

# The look for names is a check that is to start with a function that no crate can have.
CHECK = """#!/bin/sh
case "$*" in *"--start no function"*) exit 0;; esac
exec {kit}/bin/rattle "$@"
"""

CLANG = """#!/bin/sh
for word do
    shift
    case "$word" in
        -fsanitize=address) ;;
        -O0) set -- "$@" {level} ;;
        *) set -- "$@" "$word" ;;
    esac
done
exec {kit}/toolchain/bin/clang "$@"
"""

# The archive that is linked whole is the sanitizer's; another object is linked in its place. The
# linker gets no environment, so the place of the copy stands in its script.
LINKER = """#!/bin/sh
is_whole= program=
for word do
    shift
    case "$word" in
        --whole-archive) is_whole=yes ;;
        --no-whole-archive) is_whole= ;;
        *) [ "$is_whole" ] || set -- "$@" "$word" ;;
    esac
    [ "$last" = -o ] && program=$word
    last=$word
done
{kit}/toolchain/bin/ld.lld "$@" && /bin/cp "$program" {program} && exit {status}
"""

# How clang builds. Without optimisation it takes a fifth of the time, but what it builds takes ten
# times as long, which is too long for the tests.
FAST_BUILD = "-O0"
FAST_RUN = "-O1"


def kit_folder() -> Path:
    """The folder of the kit, in which the page lies that `rt doc` names."""
    done = subprocess.run(["rt", "doc"], stdout=subprocess.PIPE, check=True)
    return Path(done.stdout.decode().strip()).parent


def link_all(folder: Path, to: Path, but: Sequence[str]) -> None:
    """Makes a folder of links to what lies in another one."""
    to.mkdir(parents=True)
    for path in folder.iterdir():
        if path.name not in but:
            (to / path.name).symlink_to(path)


def write_script(path: Path, text: str) -> None:
    path.write_text(text, encoding="utf-8")
    path.chmod(0o755)


class Builder:
    """A folder of links to the kit, and the program that was built last by it."""

    def __init__(self, kit: Path, folder: Path, is_run: bool, level: str = FAST_RUN) -> None:
        """Where `is_run` is false, what was built is kept and isn't run."""
        self.program = folder / "program"
        self.rt = folder / "kit" / "bin" / "rt"
        own = folder / "kit"
        link_all(kit, own, ("bin", "toolchain"))
        link_all(kit / "toolchain", own / "toolchain", ("bin",))
        for name, replaced in REPLACED.items():
            link_all(kit / name, own / name, replaced)
        # It finds its kit by where its own file lies.
        shutil.copy(kit / "bin" / "rt", self.rt)
        library = (kit / "bin" / "rtlib.py").read_text(encoding="utf-8")
        # It also runs clang under another name, which the script doesn't hand on.
        own_clang, clang = 'f"{KIT}/toolchain/bin/clang"', repr(f"{kit}/toolchain/bin/clang")
        library = library.replace(own_clang, clang)
        (own / "bin" / "rtlib.py").write_text(library, encoding="utf-8")
        write_script(own / "bin" / "rattle", CHECK.format(kit=kit))
        tools = own / "toolchain" / "bin"
        write_script(tools / "clang", CLANG.format(kit=kit, level=level))
        linker = LINKER.format(kit=kit, program=shlex.quote(str(self.program)),
                               status=0 if is_run else 1)
        write_script(tools / "ld.lld", linker)

    def run(self, crate: Path, words: Sequence[str],
            around: Mapping[str, str] | None = None) -> subprocess.CompletedProcess[bytes]:
        """Runs `rt try` with these words in a crate's folder. What the program prints is its
        standard output, and what rt says its standard error."""
        return subprocess.run([str(self.rt), "try", *words], cwd=crate,
                              env={**os.environ, **(around or {})}, stdin=subprocess.DEVNULL,
                              stdout=subprocess.PIPE, stderr=subprocess.PIPE, check=False)


def words_of(crate: Path) -> list[str]:
    """The words that a program is run with: one a line of its crate's file `args`."""
    path = crate / "args"
    return path.read_text(encoding="utf-8").splitlines() if path.exists() else []


def status_of(crate: Path) -> int:
    """The status that a program is to end with."""
    path = crate / "status"
    return int(path.read_text(encoding="ascii")) if path.exists() else 0


def bytes_of(path: Path) -> bytes:
    """What a file has; nothing where there is none."""
    return path.read_bytes() if path.exists() else b""


def run_program(program: Path, crate: Path, seconds: int) -> subprocess.CompletedProcess[bytes]:
    """Runs a crate's program as `rt ci` does: in a copy of the crate's data/, on its `stdin`."""
    with tempfile.TemporaryDirectory() as place:
        data = Path(place) / "data"
        if (crate / "data").is_dir():
            shutil.copytree(crate / "data", data)
        else:
            data.mkdir()
        around = {"PATH": SYSTEM_PATH, "HOME": str(data), "TMPDIR": str(data), "LANG": "C.UTF-8"}
        return subprocess.run([str(program), *words_of(crate)], cwd=data, env=around,
                              input=bytes_of(crate / "stdin"), stdout=subprocess.PIPE,
                              stderr=subprocess.PIPE, timeout=seconds, check=False)
