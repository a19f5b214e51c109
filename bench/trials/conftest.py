"""Which program is tried by pytest, and a folder for each trial."""

import itertools
import resource
import shutil
import signal
import subprocess
import tempfile
from collections.abc import Iterator
from pathlib import Path

import pytest
from harness import RELEASES, Hub, Place, Wrong

# How long a trial may take: no longer than ten seconds on a machine that has nothing else to do.
TRIAL_SECONDS = 280
# How much room a small file system has.
SMALL = "64k"
NUMBERS = itertools.count(1)


def pytest_addoption(parser: pytest.Parser) -> None:
    parser.addoption("--program", required=True, type=Path, help="the built sctd")


def pytest_configure() -> None:
    """What trials have started is ended on the way out, so that is taken at a signal too."""
    signal.signal(signal.SIGTERM, lambda *_: pytest.exit("the trials were stopped", returncode=1))
    signal.signal(signal.SIGALRM, late)
    # (Some have more than a thousand clients.)
    most = resource.getrlimit(resource.RLIMIT_NOFILE)[1]
    resource.setrlimit(resource.RLIMIT_NOFILE, (most, most))


def late(*_: object) -> None:
    raise Wrong(f"the trial hasn't ended after {TRIAL_SECONDS} seconds")


def pytest_runtest_setup() -> None:
    signal.alarm(TRIAL_SECONDS)


@pytest.fixture(scope="session")
def tried(request: pytest.FixtureRequest) -> Iterator[Place]:
    """The program, and a folder for what trials share, in which another user may reach sockets."""
    program = request.config.getoption("--program")
    with tempfile.TemporaryDirectory(prefix="sctd-") as folder:
        Path(folder).chmod(0o711)
        yield Place(program.resolve(), Path(folder))


@pytest.fixture
def place(tried: Place) -> Iterator[Place]:
    """The program, and a new folder."""
    here = tried.below(str(next(NUMBERS)))
    yield here
    shutil.rmtree(here.folder)


@pytest.fixture(scope="session")
def two_imports(tried: Place) -> Path:
    """A store into which the first two of the small releases were imported."""
    path = tried.make_store("two imports")
    tried.import_all(path, [RELEASES / "r1", RELEASES / "r2"])
    return path


@pytest.fixture
def store(place: Place, two_imports: Path) -> Path:
    """A copy of that store, which a trial may change."""
    shutil.copy(two_imports, place.path("store"))
    return place.path("store")


@pytest.fixture
def hub(place: Place, store: Path) -> Iterator[Hub]:
    """A hub on that store, which is asked by both of its sockets."""
    with Hub(place, store, asks=True) as hub:
        yield hub


@pytest.fixture
def small_disk(place: Place) -> Iterator[Path]:
    """A file system of its own, which has little room."""
    path = place.path("small")
    path.mkdir()
    mounting = ["mount", "-t", "tmpfs", "-o", f"size={SMALL}", "tmpfs", str(path)]
    if subprocess.run(mounting, capture_output=True, check=False).returncode:
        pytest.skip("a full disk: no file system can be mounted here")
    try:
        yield path
    finally:
        subprocess.run(["umount", str(path)], check=False)
