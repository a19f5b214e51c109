"""Lines that the gateway would never make: none of them is sent, and what a hub says is read
strictly."""

import asyncio
from types import SimpleNamespace
from typing import cast

import pytest

from sctd_service.gateway import hub
from sctd_service.gateway.hub import HubRefused, encoded, refusal
from sctd_service.protocol import NotAReply, Replies
from sctd_service.snomed import CASE_INSENSITIVE, INITIAL_CASE_INSENSITIVE, Description, is_display

CASE_SENSITIVE = "900000000000017005"


class TestLines:
    def test_what_cannot_be_sent(self) -> None:
        assert encoded(["PIN", "SEARCH 20200101 - 5 a b"]) == b"PIN\nSEARCH 20200101 - 5 a b\n"
        for line in ("", "a\nb", "a\rb", "a\n", "\0", "a\x85b", "a\u2028b", "x" * 5_000,
                     "\u4e2d" * 2_000):
            with pytest.raises(ValueError):
                encoded(["PIN", line])

    @pytest.mark.parametrize("line", (
        b"", b"row 1", b"ROWS 1", b"OKAY", b"ERRO 1", b"HTTP/1.1 200 OK"))
    def test_what_is_no_line_of_a_reply(self, line: bytes) -> None:
        with pytest.raises(NotAReply):
            list(Replies().feed(b"ROW a\n" + line + b"\n"))

    def test_replies_that_come_in_parts(self) -> None:
        """However they are cut, they are the same."""
        wanted = ["ROW a\tStra\u00dfe\nROW \u2028OK\nEND 2\n", "OK\n"]
        wanted += ["ERR 43 Arguments\n", "END 0\n"]
        data = "".join(wanted).encode()
        for size in range(1, len(data) + 1):
            replies = Replies()
            parts = [data[start : start + size] for start in range(0, len(data), size)]
            found = [reply.decode() for part in parts for reply in replies.feed(part)]
            assert (found, replies.rest) == (wanted, b""), size

    def test_a_refusal_among_replies(self) -> None:
        """What comes behind it is no reply to what is asked next."""
        async def told() -> list[hub.Reply]:
            reader = asyncio.StreamReader()
            writer = cast(asyncio.StreamWriter, SimpleNamespace(write=lambda data: None))
            connection = hub.Connection(reader, writer, (0, 0, 0))
            reader.feed_data(b"END 0\nERR 16 NotKept\n")
            later = asyncio.get_running_loop().call_later
            later(0.05, reader.feed_data, b"DATE 20200131\nEND 1\n")
            with pytest.raises(HubRefused, match="NotKept"):
                await connection.ask(["DATES", "WORDS", "DATES"])
            later(0.1, reader.feed_data, b"OK 7\n")
            return await connection.ask(["PIN"])

        assert asyncio.run(told()) == [("OK 7",)]

    def test_refusals(self) -> None:
        for line, number in (
                ("ERR 43 Arguments", 43), ("ERR hub NotAQuestion", None), ("ERR ", None)):
            found = refusal(line)
            assert isinstance(found, HubRefused)
            assert found.number == number
        assert isinstance(refusal("ERR 41 Session"), hub.HubGone)


class TestDisplays:
    @pytest.mark.parametrize("case, text, valid", (
        (CASE_SENSITIVE, "pH of Urine", True),
        (CASE_SENSITIVE, "PH of Urine", False),
        (INITIAL_CASE_INSENSITIVE, "PH of Urine", True),
        (INITIAL_CASE_INSENSITIVE, "pH of urine", False),
        (CASE_INSENSITIVE, "PH OF URINE", True),
        (CASE_INSENSITIVE, "pH of urin", False)))
    def test_case_counts_as_the_description_says(self, case: str, text: str, valid: bool) -> None:
        row = Description("1", "20200101", "1", "2", "3", "en", "4", "pH of Urine", case)
        assert is_display(text, [row]) == valid, (case, text)
