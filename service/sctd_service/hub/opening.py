"""What is done with the store's file before the program opens it.

A first start may make the store. It is made only where its folder has nothing but folders, and a
note is left there: so a store that was removed, or a name that was mistyped, doesn't become an
empty store, which would answer that no code exists. And the file's pages are dropped from memory:
after a write or a sync has failed, Linux may keep there what the disk doesn't have.
"""

import os
import subprocess
from pathlib import Path

from ..logs import now, tell

# The note that is left beside the store. While it is there, no store is made.
NOTE = "first-start"
NOTED = "%s: %s\nWhile this file is here, no start makes a store in this folder.\n"


class NoStore(Exception):
    """Why there is no store, and none is made."""


def make(program: str, store: str) -> None:
    """Makes the store and leaves the note if this is the first start."""
    folder = Path(store).absolute().parent
    if not os.path.lexists(store):
        beside = [entry.name for entry in os.scandir(folder) if not entry.is_dir()]
        if beside:
            raise NoStore("%s: there is no such file, and no store is made beside %s" % (
                store, min(beside)))
        done = subprocess.run([program, "init", "--store", store], stdin=subprocess.DEVNULL,
                              stdout=subprocess.PIPE, check=False)
        if done.returncode:
            raise NoStore("%s: it can't be made: %s" % (store, done.stdout.decode().strip()))
        tell("hub: %s: a new store" % store)
    if not (note := folder / NOTE).exists():
        note.write_text(NOTED % (now(), os.path.basename(store)), encoding="utf-8")


def drop_pages(store: str, is_read_only: bool) -> None:
    """Drops what memory has of the store's file, so that the program reads it from the disk. Why a
    file can't be opened is the program's to say."""
    access = os.O_RDONLY if is_read_only else os.O_WRONLY
    try:
        file = os.open(store, access | os.O_CLOEXEC | os.O_NONBLOCK)
    except OSError:
        return
    try:
        os.fdatasync(file)
        os.posix_fadvise(file, 0, 0, os.POSIX_FADV_DONTNEED)
    finally:
        os.close(file)
