"""Makes the mistakes that people make with the built program, beside those that the transcripts of
bench/cases/ make. Each is refused within ten seconds with its reply, its status and a line on
standard error, and the store is left as it was; of imports at once those that were answered OK are
there. The lines in the help of `serve` are requests, and the demonstration is that of a case."""

import os
import pty
import re
import resource
import shutil
import subprocess
from collections.abc import Callable, Mapping, Sequence
from concurrent.futures import ThreadPoolExecutor
from pathlib import Path
from typing import NamedTuple

import pytest

from case_texts import row
from harness import TOP, Place, Server, head_of, mode

# How long a call may take.
SECONDS = 10
# The lines of the demonstration with their replies, as cases are written.
DEMONSTRATION = TOP / "bench" / "cases" / "demonstration.txt"
# How many lines the help of `serve` has as examples, and the refusals of a line that is no request.
EXAMPLES = 37
NO_REQUEST = ("ERR 40 ", "ERR 41 ", "ERR 42 ", "ERR 43 ")
CONCEPTS = "sct2_Concept_Delta_INT_20200131.txt"
COLUMNS = head_of("C")
ROOT_ROW = "138875005\t%s\t1\t900000000000207008\t900000000000074008\n"
ROW = ROOT_ROW % "20200131"
ROWS = COLUMNS + ROW
# What tells the process that holds a store's lock.
HOLDER = re.compile(r"in use by another process, whose id is (\d+)\n$")
# The number of a user who owns nothing.
OTHER_USER = 65534
LANGUAGE = "der2_cRefset_LanguageDelta-en_INT_20200131.txt"
MEMBER_COLUMNS = head_of("Language")
MISSING, FAILED = "ERR 45 NoFolder", "ERR 2 DiskFault"
SERVE = ("serve", "--store", "store", "--releases", "releases")
IMPORT = ("import", "--quiet", "--store", "store", "--releases", "releases")
IN_USE = "in use by another process"
READ_ONLY = "--read-only"
# The releases that are beside a store, of a row each.
NAMES = ("r1", "r2", "r3", "r4")
# Files of column names, without which a release with concepts is warned of.
USUAL = {f"Refset/Content/der2_cRefset_{name}Delta_INT_20210131.txt": MEMBER_COLUMNS
         for name in ("Language", "AttributeValue")}
USUAL["Refset/Content/der2_cRefset_AssociationFull_INT_20200131.txt"] = head_of("A")
USUAL["Terminology/sct2_TextDefinition_Delta-en_INT_20200131.txt"] = head_of("TextDefinition")

# What stands at a path: a text, or what makes it.
Made = str | Callable[[Path], object]
Files = Mapping[str, Made]


# ---- What is there


def endless(path: Path) -> None:
    path.symlink_to("/dev/zero")


def dangling(path: Path) -> None:
    path.symlink_to("nowhere")


def write(folder: Path, files: Files) -> None:
    for name, made in files.items():
        path = folder / name
        path.parent.mkdir(parents=True, exist_ok=True)
        if isinstance(made, str):
            path.write_text(made, encoding="utf-8")
        else:
            made(path)


@pytest.fixture(name="place")
def place_with_releases(place: Place) -> Place:
    """The program, beside releases of a row each."""
    place.seconds = SECONDS
    for year, name in enumerate(NAMES, 2020):
        rows = COLUMNS + ROOT_ROW % f"{year}0131"
        write(place.releases / name, {f"Terminology/{CONCEPTS}": rows, **USUAL})
    return place


@pytest.fixture
def store(place: Place) -> Path:
    """A store without rows."""
    assert place.run("init", "--store", "store") == (0, "OK\n", "")
    return place.path("store")


# ---- What is refused


class Mistake(NamedTuple):
    """The words of a call, why it is refused and by which reply, and what is there beside a store
    of a layout and the releases."""

    words: Sequence[str]
    why: str
    reply: str = MISSING
    files: Files = {}
    layout: int = 3


def of_release(files: Files, name: str, why: str, layout: int = 2) -> Mistake:
    """The import of a folder that is no release."""
    there = {f"releases/{path}": made for path, made in files.items()}
    return Mistake([*IMPORT, name], why, MISSING, there, layout)


def half(part: str, whole: str) -> Mistake:
    """A release of which one folder is a link that leads nowhere."""
    files: Files = {f"half/{whole}/{CONCEPTS}": ROWS, f"half/{part}": dangling}
    return of_release(files, "half", "leads nowhere")


def in_refset(path: str, made: Made, why: str) -> Mistake:
    """A package, of which all is read, with something in Refset."""
    files: Files = {f"r/Terminology/{CONCEPTS}": ROWS, "r/Refset/Map/readme.txt": "",
                    "r/Refset/Language": Path.mkdir, f"r/Refset/{path}": made}
    return of_release(files, "r", why, layout=3)


FORGED = "store\nsctd: all is well\x1b[2J\r"
SHOWN = "store\\nsctd: all is well\\u{1b}[2J\\r"
# What stands in the place of a file of a release, and what is told of it.
ODD_FILES: dict[str, tuple[Made, str]] = {
    "a FIFO": (os.mkfifo, "not a regular file"),
    "an endless device": (endless, "not a regular file"),
    "a dangling file": (dangling, "leads nowhere")}
MISTAKES = {
    **{what: of_release({f"r/Terminology/{CONCEPTS}": made}, "r", why)
       for what, (made, why) in ODD_FILES.items()},
    **{f"{what} in Refset": in_refset(f"Language/{LANGUAGE}", made, why)
       for what, (made, why) in ODD_FILES.items()},
    "a dangling Terminology": half("Terminology", "Refset/Content"),
    "a dangling Refset": half("Refset", "Terminology"),
    "a dangling Refset/Content": half("Refset/Content", "Terminology"),
    "a dangling release": of_release({"gone": dangling}, "gone", "leads nowhere"),
    "a name that isn't UTF-8": of_release(
        {"r/Terminology/caf\udce9\n.txt": ""}, "r",
        "the name of a file in it isn't UTF-8: caf\\xe9\\n.txt\n"),
    "a misnamed file in Refset": in_refset("Language/\udcff.txt", "", "isn't UTF-8: \\xff.txt"),
    "a misnamed folder in Refset": in_refset("\udcff", Path.mkdir, "isn't UTF-8: \\xff"),
    "a dangling folder in Refset": in_refset("Metadata", dangling, "Metadata: a link that leads"),
    # Paths with control characters make no line of their own on standard error.
    "a forged path of a new store": Mistake(["init", "--store", "absent/" + FORGED],
                                            f"sctd: absent/{SHOWN}: No such file", FAILED),
    "a forged path of a store": Mistake(["status", "--store", "absent/" + FORGED],
                                        f"sctd: absent/{SHOWN}: No such file", FAILED),
    "a forged folder": Mistake(["serve", "--store", "store", "--releases", FORGED],
                               f"sctd: {SHOWN}: No such file"),
    **{f"{words[0]} with a FIFO as a store": Mistake(
        [*words, "--store", "pipe"], "pipe: not a regular file", FAILED, {"pipe": os.mkfifo})
       for words in (["import", "releases/r1"], ["serve", "--releases", "releases"], ["init"])},
}


@pytest.mark.parametrize("mistake", MISTAKES.values(), ids=MISTAKES.keys())
def test_mistakes(place: Place, mistake: Mistake) -> None:
    """What can't be done is refused, why is told, and all files are left as they were."""
    place.make_store(layout=mistake.layout)
    write(place.folder, mistake.files)
    place.refuses(mistake.words, mistake.reply, mistake.why)


def test_forged_names(place: Place) -> None:
    """Nor does the name of a store, or of a file of a release, make a line of its own."""
    assert place.run("init", "--store", FORGED) == (0, "OK\n", "")
    faults = place.run("status", "--store", FORGED).faults
    assert faults.startswith(f"sctd: {SHOWN}: layout 3, ") and faults.count("\n") == 1
    name = CONCEPTS.replace(".txt", "\nsctd: took it.txt")
    write(place.releases / "forged", {f"Terminology/{name}": COLUMNS + "?\n",
                                      "notes\nsctd: forged": ""})
    ran = place.run("import", "--store", FORGED, "releases/forged")
    assert ran.output == "ERR 23 Columns 1 2\n"
    assert "sctd: passed over notes\\nsctd: forged" in ran.faults.splitlines()
    assert re.findall("\nsctd: (took it|forged)", ran.faults) == []
    assert CONCEPTS.replace(".txt", "\\nsctd: took it.txt, line 2: ") in ran.faults


def test_passed_over(place: Place, store: Path) -> None:
    """What is no folder of Refset, beside files of all sorts that are wanted, is passed over."""
    write(place.releases / "package", {
        f"Terminology/{CONCEPTS}": ROWS, **USUAL, "Refset/Language": "", "Refset/fifo": os.mkfifo})
    ran = place.run("import", "--store", store, "releases/package")
    assert ran[:2] == (0, "OK 1 1 0\n")
    lines = ran.faults.splitlines()
    assert {"sctd: passed over Refset/Language", "sctd: passed over Refset/fifo"} <= set(lines)
    assert [line for line in lines if "warning" in line] == []


# ---- Rights, the help, the demonstration


def given(path: Path) -> None:
    path.touch()
    path.chmod(0o640)


@pytest.mark.parametrize("name, file, made, rights", (
    ("private", "private", None, 0o600), ("given", "given", given, 0o640),
    ("link", "linked", lambda path: path.with_name("link").symlink_to(path), 0o600)),
    ids=("alone", "that was there", "behind a link"))
def test_new_rights(place: Place, name: str, file: str, made: Callable[[Path], None] | None,
                    rights: int) -> None:
    """A store is made for its owner alone, whatever the umask is; a file keeps its rights."""
    path = place.path(file)
    if made:
        made(path)
    ran = place.run("init", "--store", name, before=lambda: os.umask(0))
    assert (ran.output, mode(path)) == ("OK\n", rights)


def test_help(place: Place) -> None:
    """Each line that the help of `serve` has as an example is a request: it is indented by two
    spaces, and what it asks stands behind two more."""
    told = place.run("serve", "--help").output.split("\n")
    lines = [line[2:].split("  ")[0] for line in told if line.startswith("  0 ")]
    assert len(lines) == EXAMPLES
    place.make_store("helped", layout=3)
    place.path("nothing").mkdir()
    for line in lines:
        ran = place.run("serve", "--store", "helped", "--releases", "nothing", given=line + "\n")
        assert ran.status == 0 and ran.output, line
        assert not ran.output.startswith(NO_REQUEST), line


def demonstrated() -> list[str]:
    """The lines of the demonstration, as a terminal shows them, each before those of its reply."""
    shown = []
    for line in DEMONSTRATION.read_text("utf-8").splitlines():
        if line.startswith("> "):
            shown.append(line)
        elif line.startswith("< "):
            shown.append(row(line[2:]))
    return shown


def test_demonstration(place: Place) -> None:
    """The demonstration has the lines and replies of the case that bench/cases/ has of it. Its
    questions aren't shown where its output is no terminal."""
    replies = "".join(line + "\n" for line in demonstrated() if not line.startswith("> "))
    assert place.run("demo") == (0, replies, "")


def test_demonstration_on_a_terminal(place: Place, capfd: pytest.CaptureFixture[str]) -> None:
    """There the questions are shown."""
    assert pty.spawn([str(place.program), "demo"]) == 0
    assert capfd.readouterr().out.replace("\r\n", "\n").splitlines() == demonstrated()


# ---- What the system doesn't give


@pytest.mark.skipif(os.geteuid() == 0, reason="root may read everything")
def test_no_permission(place: Place, store: Path) -> None:
    folder = place.releases / "r1" / "Terminology"
    folder.chmod(0o200)
    place.refuses([*IMPORT, "r1"], MISSING, "Permission denied")
    folder.chmod(0o700)
    store.chmod(0)
    assert place.run("serve", "--store", "store", "--releases", "releases") == (
        1, FAILED + "\n", "sctd: store: Permission denied (os error 13)\n")


def test_a_full_disk(place: Place, small_disk: Path) -> None:
    place.make_store("small/store")
    other = small_disk / "other"
    room = os.statvfs(small_disk)
    other.write_bytes(bytes(room.f_bavail * room.f_frsize))
    words = ("import", "--quiet", "--store", "small/store", "--releases", "releases", "r1")
    place.refuses(words, FAILED, "small/store: No space left")
    other.unlink()
    assert place.run(*words)[:2] == (0, "OK 1 1 0\n")


def test_few_files(place: Place, store: Path) -> None:
    """A process that may have five files open, as with `ulimit -n 5`: one too few to begin with."""
    ran = place.run("status", "--store", store,
                    before=lambda: resource.setrlimit(resource.RLIMIT_NOFILE, (5, 5)))
    assert ran == (1, "", "sctd: /: Too many open files (os error 24)\nERR 2 DiskFault\n")


# ---- A store whose file is replaced while it is served


def move_copy(path: Path) -> None:
    shutil.copy(path, f"{path}-copy")
    os.replace(f"{path}-copy", path)


def link_copy(path: Path) -> None:
    shutil.copy(path, f"{path}-copy")
    path.unlink()
    path.symlink_to(f"{path}-copy")


@pytest.mark.parametrize("change, left", (
    (move_copy, "OK 1 1 1 -\n"), (link_copy, "OK 1 1 1 -\n"), (Path.unlink, None),
    (lambda path: os.truncate(path, 16384), None)),
    ids=("a replaced file", "a linked copy", "a removed file", "a cut file"))
def test_replaced(place: Place, store: Path, change: Callable[[Path], object],
                  left: str | None) -> None:
    """Another file is put in the place of a store that is served, or the file goes or is cut: an
    import is refused, and why is told. What the path leads to then is left as it is."""
    assert place.done(*IMPORT, "r1") == "OK 1 1 0"
    with Server(place, "store", place.releases) as server:
        assert server.ask("STATUS") == ["OK 1 1 1 -"]
        change(store)
        before = place.contents()
        assert server.ask("IMPORT r2") == [FAILED]
        assert (server.end(), server.unread) == (0, b"")
        assert server.told() == "sctd: store: the file was replaced or removed while it was open\n"
    after = place.contents()
    after["faults"] = before["faults"]
    assert after == before
    if left:
        assert place.run("status", "--store", store)[:2] == (0, left)


def test_moved_back(place: Place, store: Path) -> None:
    """The path leads to the same file again."""
    with Server(place, store, place.releases) as server:
        assert server.ask("STATUS") == ["OK 0 0 0 -"]
        store.rename(place.path("away")).rename(store)
        assert server.ask("IMPORT r1") == ["OK 1 1 0"]
        assert (server.end(), server.unread, server.told()) == (0, b"", "")


# ---- A store that is in use


@pytest.mark.skipif(os.geteuid() != 0, reason="it takes the superuser")
@pytest.mark.skipif(shutil.which("flock") is None, reason="there is no flock")
def test_other_user(place: Place, store: Path) -> None:
    """Another user's process has the lock: it is told which one."""
    store.chmod(0o644)
    place.folder.chmod(0o755)
    # It has the lock once it says something.
    with subprocess.Popen(["flock", store, "cat"], user=OTHER_USER, stdin=subprocess.PIPE,
                          stdout=subprocess.PIPE) as holder:
        assert holder.stdin and holder.stdout
        holder.stdin.write(b"locked\n")
        holder.stdin.flush()
        assert holder.stdout.readline() == b"locked\n"
        ran = place.run("status", "--store", store)
        assert ran[:2] == (1, "ERR 2 DiskFault\n")
        assert HOLDER.findall(ran.faults) == [str(holder.pid)]
    assert place.run("status", "--store", store)[:2] == (0, "OK 0 0 0 -\n")


def import_at_once(place: Place) -> tuple[int, list[str]]:
    """Imports releases by processes of their own at once. How many were answered OK, and which ids
    of processes that hold the store the others were told."""
    with ThreadPoolExecutor(len(NAMES)) as workers:
        ended = list(workers.map(lambda name: place.run(*IMPORT, name), NAMES))
    refused = [ran for ran in ended if not (ran.status == 0 and ran.output.startswith("OK "))]
    for ran in refused:
        assert ran[:2] == (1, FAILED + "\n") and IN_USE in ran.faults
    told = [holder for ran in refused for holder in HOLDER.findall(ran.faults)]
    return len(ended) - len(refused), told


def count_imports(place: Place) -> list[str]:
    """The words for how many imports and rows there are after an opening."""
    return place.status(place.path("store")).split()[1:3]


@pytest.mark.parametrize("_turn", range(5))
def test_four_at_once(place: Place, store: Path, _turn: int) -> None:
    passed, _ = import_at_once(place)
    assert passed >= 1
    assert count_imports(place) == [str(passed)] * 2
    assert store.exists()


def test_beside_a_server(place: Place) -> None:
    """Four at once beside a server, which imports too."""
    with Server(place, place.make_store(), place.releases) as server:
        assert server.ask("STATUS") == ["OK 0 0 0 -"]
        refused = (0, [str(server.process.pid)] * len(NAMES))
        assert import_at_once(place) == refused
        assert [server.ask("IMPORT " + name) for name in NAMES] == [
            [f"OK {number} 1 0"] for number in range(1, 5)]
        assert import_at_once(place) == refused
        assert (server.end(), server.unread) == (0, b"")
    assert count_imports(place) == ["4", "4"]


# ---- A store that is only read


def test_two_readers(place: Place) -> None:
    """Others may read a store that is only read, and nobody may change it meanwhile."""
    store = place.make_store()
    place.import_one(store, place.releases / "r1")
    with Server(place, store, place.releases, READ_ONLY) as one:
        with Server(place, store, place.releases, READ_ONLY) as other:
            for server in (one, other):
                assert server.ask("STATUS") == ["OK 1 1 1 -"]
                assert server.ask("IMPORT r2") == ["ERR 42 Command"]
                for words in (SERVE, (*IMPORT, "r2")):
                    place.refuses(words, FAILED, IN_USE)
    with Server(place, store, place.releases) as server:
        assert server.ask("STATUS") == ["OK 1 1 1 -"]
        place.refuses((*SERVE, READ_ONLY), FAILED, IN_USE)


@pytest.mark.skipif(os.geteuid() != 0, reason="it takes the superuser")
def test_reader_without_rights(place: Place) -> None:
    """A file that a user may only read can be served to be read, and in no other way."""
    store = place.make_store()
    place.folder.chmod(0o755)
    store.chmod(0o444)
    with Server(place, store, place.releases, READ_ONLY, user=OTHER_USER) as server:
        assert server.ask("STATUS") == ["OK 0 0 0 -"]
    with Server(place, store, place.releases, user=OTHER_USER) as server:
        assert server.ask("STATUS") == ["ERR 2 DiskFault"]
        assert "Permission denied" in server.told()
