"""What tests of a store have at hand."""

import pytest

from .fixtures import Service


class Asked:
    """Tests that ask a service: the one that all share, if a class names no other fixture."""

    of = "service"

    @pytest.fixture(autouse=True)
    def begin(self, request: pytest.FixtureRequest) -> None:
        self.service: Service = request.getfixturevalue(self.of)
        self.gateway, self.codes = self.service.gateway, self.service.codes
