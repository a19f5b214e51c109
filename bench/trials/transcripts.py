"""Runs commands of the built program, and tells how what they write differs from what they have to.
A part of check_guide.py and of try_cases.py."""

import difflib
import os
import signal
import subprocess
import tempfile
from collections.abc import Iterator, Mapping, Sequence
from contextlib import contextmanager, suppress
from pathlib import Path
from threading import Thread
from typing import IO, NamedTuple, Optional, Union

ROOT = Path(__file__).resolve().parents[2]
# How long a command may take.
SECONDS = 60
# Where the room of an output ends that has little, in its file: no file of a command may be longer.
# (The shell counts in blocks of 1,024 bytes. What would end a command that writes more is ignored.)
LONGEST_FILE = 1 << 20
LIMITED = ["bash", "-c", 'ulimit -f %d; trap "" XFSZ; exec "$@"' % (LONGEST_FILE >> 10), "bash"]
# What can't be read.
UNREADABLE = "/"


class Outcome(NamedTuple):
    """How a command ended: its status, None where it hadn't ended in time, and what it wrote."""

    status: Optional[int]
    output: bytes
    faults: bytes


class Given(NamedTuple):
    """What a command is given: its input, None where reading it fails; how many bytes its output
    takes, if not any number; whether what it writes to standard error goes to its output; and how
    many bytes of the input a read returns at most, if not any number."""

    sent: Optional[bytes] = b""
    room: Optional[int] = None
    is_joined: bool = False
    piece: Optional[int] = None


class Place:
    """A folder in which commands are run, and what they find there: the program, as `sctd`."""

    def __init__(self, folder: Path, around: Mapping[str, str]) -> None:
        self.folder, self.around = folder, around

    def run(self, words: Sequence[str], given: Given = Given()) -> Outcome:
        """Runs a command to its end, and ends all that it started where it takes too long."""
        with given_output(given) as output, given_input(given) as sent:
            made = subprocess.Popen(
                [*LIMITED, *words] if output else words, cwd=self.folder, env=self.around,
                start_new_session=True, stdin=sent, stdout=output or subprocess.PIPE,
                stderr=subprocess.STDOUT if given.is_joined else subprocess.PIPE)
            try:
                text = given.sent if sent == subprocess.PIPE else None
                wrote = made.communicate(text, timeout=SECONDS)
                status: Optional[int] = made.returncode
            except subprocess.TimeoutExpired:
                os.killpg(made.pid, signal.SIGKILL)
                wrote, status = made.communicate(), None
            room = given.room or 0
            taken = os.pread(output.fileno(), room, LONGEST_FILE - room) if output else wrote[0]
            return Outcome(status, taken, wrote[1] or b"")


    def files(self) -> dict[Path, tuple[int, int]]:
        """When each file in the folder was last written, and what else was done to it last."""
        stats = ((path, path.lstat()) for path in self.folder.rglob("*"))
        return {path: (stat.st_mtime_ns, stat.st_ctime_ns) for path, stat in stats}


@contextmanager
def given_input(given: Given) -> Iterator[int]:
    """What a command reads: nothing, a pipe, a piece at a time, or what can't be read."""
    if given.sent is None:
        unreadable = os.open(UNREADABLE, os.O_RDONLY)
        try:
            yield unreadable
        finally:
            os.close(unreadable)
    elif given.piece:
        # (Each write is a packet, and each read returns one.)
        end, begin = os.pipe2(os.O_DIRECT | os.O_CLOEXEC)
        writer = Thread(target=write_pieces, args=(begin, given.sent, given.piece))
        writer.start()
        try:
            yield end
        finally:
            os.close(end)
            writer.join()
    else:
        yield subprocess.PIPE if given.sent else subprocess.DEVNULL


def write_pieces(begin: int, text: bytes, piece: int) -> None:
    """Writes a text in pieces, as long as some of it is read."""
    with suppress(BrokenPipeError):
        for first in range(0, len(text), piece):
            os.write(begin, text[first : first + piece])
    os.close(begin)


@contextmanager
def given_output(given: Given) -> Iterator[Optional[IO[bytes]]]:
    """The file that a command writes to where there is little room: its end is near."""
    if given.room is None:
        yield None
    else:
        with tempfile.TemporaryFile() as file:
            file.seek(LONGEST_FILE - given.room)
            yield file


@contextmanager
def place_for(program: Union[str, Path]) -> Iterator[Place]:
    """A fresh folder in which commands find the program, and a link `docs` to the documents."""
    with tempfile.TemporaryDirectory() as folder:
        tools, work = Path(folder) / "tools", Path(folder) / "work"
        tools.mkdir()
        work.mkdir()
        (tools / "sctd").symlink_to(os.path.abspath(program))
        (work / "docs").symlink_to(ROOT / "docs")
        path = str(tools) + os.pathsep + os.environ["PATH"]
        yield Place(work, dict(os.environ, SCTD=str(ROOT), PATH=path, LC_ALL="C"))


def text_of(data: bytes) -> str:
    return data.decode("utf-8", "backslashreplace")


def differences(wanted: str, found: str, place: str) -> Iterator[str]:
    """In which lines what has to be written at a place differs from what was written."""
    pair = wanted.splitlines(), found.splitlines()
    for line in difflib.unified_diff(*pair, place, "printed", lineterm=""):
        yield "    " + line
