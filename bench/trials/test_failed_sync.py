"""Tries what a failed sync leaves on Linux, on a medium that refuses one block.

Linux forgets the pages of a file whose write failed: a later read gets from memory what the medium
doesn't have. This makes a file system on a loop device, lets the last sync of an import fail,
starts the program again as the hub does, kills the next import before one of its syncs, and looks
at what the medium has. It fails if the import that was confirmed before isn't told both times: the
hub has to drop what memory keeps of the file.

It takes root, a C compiler, e2fsprogs, util-linux and a loop device; what this machine lacks is
skipped.
"""

from __future__ import annotations

import os
import shlex
import shutil
import subprocess
import sys
from pathlib import Path

import pytest

from harness import BLOCK, RELEASES, TOP, Place, Ran
from moments import Library, Moment
from test_files import library as library

sys.path.append(str(TOP / "service"))
from sctd_service.hub import opening  # noqa: E402

# An import's syncs: two of the opening, then one of the segment, of the gate that is closed, of the
# content, and of the gate that is opened.
CONTENT_SYNC, GATE_SYNC = 5, 6
# The byte of a gate that is open.
OPEN = 0xA5
KILLING = "kill -9 $PPID"
TOOLS = ("mkfs.ext4", "filefrag", "mount", "umount", "truncate", "fallocate", "dd")


def run(*words: str | Path, check: bool = True) -> subprocess.CompletedProcess[str]:
    done = subprocess.run(words, capture_output=True, text=True, check=False)
    if check and done.returncode != 0:
        pytest.skip(f"{words[0]}: {done.stderr.strip()}")
    return done


class Medium:
    """A file system on a loop device whose blocks stand in a small tmpfs."""

    def __init__(self, place: Place) -> None:
        self.outer, self.inner = place.path("outer"), place.path("inner")
        self.image, self.filler = self.outer / "image", self.outer / "filler"
        self.store = self.inner / "store"

    def __enter__(self) -> Medium:
        self.outer.mkdir()
        self.inner.mkdir()
        run("mount", "-t", "tmpfs", "-o", "size=9m", "tmpfs", self.outer)
        try:
            run("truncate", "-s", "6m", self.image)
            run("mkfs.ext4", "-q", "-O", "^has_journal", "-E", "lazy_itable_init=0,nodiscard",
                "-b", str(BLOCK), self.image)
            self.mount()
            # Every block of the image gets room in the tmpfs, so that only the one below lacks it.
            zeros = self.inner / "zeros"
            run("dd", "if=/dev/zero", f"of={zeros}", f"bs={BLOCK}", check=False)
            os.sync()
            zeros.unlink()
            os.sync()
        except BaseException:
            self.__exit__()
            raise
        return self

    def __exit__(self, *_: object) -> None:
        run("umount", self.inner, check=False)
        run("umount", self.outer, check=False)

    def mount(self) -> None:
        run("mount", "-o", "loop,nodiscard", self.image, self.inner)

    def mount_again(self) -> None:
        """From here on only what the medium has is seen."""
        run("umount", self.inner)
        Path("/proc/sys/vm/drop_caches").write_text("3\n", encoding="ascii")
        self.mount()

    def block_of(self, block: int) -> int:
        for line in run("filefrag", "-v", self.store).stdout.split("\n"):
            parts = line.replace(":", " ").replace("..", " ").split()
            if len(parts) > 5 and parts[0].isdigit() and int(parts[1]) <= block <= int(parts[2]):
                return int(parts[3]) + block - int(parts[1])
        pytest.skip("filefrag doesn't say where the store lies")

    def refusing(self, block: int) -> str:
        """A command that lets each write of this block of the store fail."""
        begin, size = str(self.block_of(block) * BLOCK), str(BLOCK)
        return "; ".join(map(shlex.join, (
            ["fallocate", "-p", "-o", begin, "-l", size, str(self.image)],
            ["dd", "status=none", "if=/dev/zero", f"of={self.filler}", f"bs={size}"])))

    def accept(self) -> None:
        self.filler.unlink()


def older_gate(store: Path) -> int:
    """The block of the gate that the next import opens: one that is closed, or else that of the
    older directory."""
    head = store.read_bytes()[: 4 * BLOCK]
    is_open = [head[at] == OPEN for at in (0, 2 * BLOCK)]
    if not all(is_open):
        return 2 if is_open[0] else 0
    first, second = (int.from_bytes(head[at : at + 8], "big") for at in (BLOCK, 3 * BLOCK))
    return 0 if first < second else 2


def status(place: Place, store: Path) -> str:
    return place.run("serve", "--store", store, "--releases", RELEASES,
                     given="0 STATUS\n").output.strip()


def imported(place: Place, library: Library, store: Path, release: str, sync: int,
             does: str) -> Ran:
    """An import, and a command that is run before one of its syncs."""
    around = library.around([Moment("fsync", "store", sync, sync, 0, does)])
    ran = place.run("import", "--store", store, RELEASES / release, around=around)
    assert library.met() == [0]
    return ran


@pytest.mark.skipif(os.geteuid() != 0, reason="it takes root")
@pytest.mark.skipif(not all(map(shutil.which, TOOLS)), reason="a tool is missing")
def test_failed_sync(place: Place, library: Library) -> None:
    """The import before it is what the server says after the restart, and what the medium has."""
    with Medium(place) as medium:
        store = medium.store
        place.done("init", "--store", store)
        assert place.import_one(store, RELEASES / "r1") == "OK 1 6 0"
        os.sync()
        # The last sync of the import after it is that of this gate.
        refusing = medium.refusing(older_gate(store))
        ran = imported(place, library, store, "r2", GATE_SYNC, refusing)
        if not ran.output.startswith("ERR 2 "):
            pytest.skip(f"the medium took the block: {ran.output!r}")
        medium.accept()
        opening.drop_pages(str(store), is_read_only=False)
        assert status(place, store) == "OK 1 6 1 -"
        imported(place, library, store, "r3", CONTENT_SYNC, KILLING)
        medium.mount_again()
        assert status(place, store) == "OK 1 6 1 -"
