"""Which program and hub are tested, the stores that tests ask, and the order of the tests.

    python3 -m pytest tests --program=SCTD [--hub=HUB]

in the folder `service`. SCTD is the built program, HUB another hub than `sctd-hub`.
"""

import os
from collections.abc import Iterator
from pathlib import Path

import pytest

from .demo_members import WORDS
from .fixtures import PROGRAM_AND_HUB, SERVICE, Service

# It looks at what all others have sent.
LAST = "test_recorded.py"
# So much of what a test is given is in its name.
NAME_LETTERS = 60


def pytest_addoption(parser: pytest.Parser) -> None:
    parser.addoption("--program", required=True, type=Path, help="the built sctd")
    parser.addoption("--hub", default=SERVICE / "sctd-hub", type=Path)


def pytest_configure(config: pytest.Config) -> None:
    paths = [config.getoption(name).resolve() for name in ("program", "hub")]
    os.environ.update(zip(PROGRAM_AND_HUB, map(str, paths)))


def pytest_make_parametrize_id(config: pytest.Config, val: object, argname: str) -> str:
    return repr(val)[:NAME_LETTERS]


def pytest_collection_modifyitems(items: list[pytest.Item]) -> None:
    items.sort(key=lambda item: item.path.name == LAST)


def until_left(service: Service) -> Iterator[Service]:
    try:
        yield service
    finally:
        service.end()


@pytest.fixture(scope="session")
def service() -> Iterator[Service]:
    """A store whose releases have no members, which tests leave as it is. What its gateway asks is
    recorded."""
    yield from until_left(Service(is_recorded=True))


@pytest.fixture(scope="session")
def whole_service() -> Iterator[Service]:
    """A store of whole packages, which tests leave as it is."""
    yield from until_left(Service(is_whole=True, words=WORDS))


@pytest.fixture(scope="module")
def own_service(request: pytest.FixtureRequest) -> Iterator[Service]:
    """One that the tests of a module may change, and whose gateway has its words."""
    yield from until_left(Service(words=getattr(request.module, "GATEWAY_WORDS", ())))
