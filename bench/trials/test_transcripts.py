"""Tries how commands are run for transcripts: in which pieces they get their input."""

import sys

import pytest

from harness import Place
from transcripts import Given, place_for

# Prints how many bytes each read returns, up to the end.
READS = """import os
while True:
    length = len(os.read(0, 4096))
    print(length)
    if not length: break
"""
# More packets than a pipe has room for.
MANY = 100_000


@pytest.mark.parametrize("piece, lengths", [(3, [3, 3, 2, 0]), (8, [8, 0]), (9, [8, 0])])
def test_each_read_returns_a_piece(tried: Place, piece: int, lengths: list[int]) -> None:
    with place_for(tried.program) as place:
        came = place.run([sys.executable, "-c", READS], Given(b"abcdefgh", piece=piece))
    assert [int(line) for line in came.output.split()] == lengths and came.status == 0


def test_a_command_reads_nothing(tried: Place) -> None:
    with place_for(tried.program) as place:
        assert place.run(["true"], Given(b"a" * MANY, piece=1)).status == 0
