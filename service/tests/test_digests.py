"""What the hub makes of a DIGEST: which line is one, at which pin, and what is hashed."""

import pytest

from sctd_service.hub.digests import key_of, text_of
from sctd_service.hub.lines import Sort, pin_after, pin_named, sort_of

# A term may have a CR, behind which what follows only looks like another row.
ROWS = b"ROW 15\t20200131\t1\ta\rROW 9\nROW 27\t20210131\t0\tROW OK\n"


class TestDigests:
    @pytest.mark.parametrize("line, pin", (
        (b"DIGEST", None), (b"DIGEST\r", None), (b"AT 0 DIGEST", b"0"), (b"AT 01 DIGEST", b"01"),
        (b"AT 4294967295 DIGEST\r", b"4294967295")))
    def test_digests(self, line: bytes, pin: bytes | None) -> None:
        for may_change in (False, True):
            assert sort_of(line, may_change) is Sort.DIGEST
        assert pin_named(line) == pin

    @pytest.mark.parametrize("line", (
        b"DIGEST ", b"DIGEST 1", b"DIGEST\r\r", b"AT DIGEST", b"AT 1  DIGEST", b"AT -1 DIGEST",
        b"AT 12345678901 DIGEST", b"AT 1 AT 1 DIGEST", b"SEARCH 20200131 - 5 DIGEST"))
    def test_other_lines_are_the_program_s(self, line: bytes) -> None:
        assert sort_of(line, False) in (Sort.QUESTION, Sort.REFUSED)

    def test_pins(self) -> None:
        """The pin of a session after each of its lines."""
        pin: bytes | None = None
        for line, reply, wanted in (
                (b"7 RECEIPT 1\n", b"OK 1 6 20200131\n", None), (b"7 PIN\n", b"OK 2\n", b"2"),
                (b"7 PIN 9\n", b"ERR 44 PinRange\n", b"2"),
                (b"7 AT 1 RECEIPT 1\n", b"OK 1 6 20200131\n", b"2"),
                (b"7 PIN 0\r\n", b"OK 0\n", b"0"), (b"7 GET C 1 20200131\n", b"END 0\n", b"0"),
                (b"7 UNPIN x\n", b"ERR 43 Arguments\n", b"0"), (b"7 UNPIN\r\n", b"OK\n", None)):
            pin = pin_after(line, reply, pin)
            assert pin == wanted, line

    def test_text(self) -> None:
        """Each row is a line of the text, behind its kind, whatever is in its columns."""
        wanted = b"D 15\t20200131\t1\ta\rROW 9\nD 27\t20210131\t0\tROW OK\n"
        assert (text_of(b"D", ROWS), text_of(b"D", b"")) == (wanted, b"")
        assert key_of(ROWS) == b"27 20210131"
