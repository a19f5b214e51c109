"""What the gateway sent to the hub in all tests before these: nothing but questions, each well
formed."""

import re

from sctd_service.snomed import is_concept_id, is_day

from .asked import Asked

DAY, CODE, COUNT = "(?P<day>[0-9]{8})", "(?P<code>[1-9][0-9]{5,17})", "[0-9]{1,4}"
AFTER, AT = "(?:-|[1-9][0-9]{5,17})", "AT [0-9]{1,10} "
REFSET = "(?P<refset>[1-9][0-9]{5,17})"
LINES = [
    re.compile(line)
    for line in (
        "WATCH",
        "STATUS",
        f"KNOWN {DAY}",
        f"{AT}DATES",
        f"{AT}RECEIPT [0-9]{{1,10}}",
        f"{AT}GET C {CODE} {DAY}",
        f"{AT}ABOUT [DRV] {CODE} {DAY}",
        # What changed, and what was there before.
        f"{AT}DELTA [CDRVA] {DAY} [0-9]{{8}} {AFTER} {COUNT}",
        f"{AT}GET [DRV] [1-9][0-9]{{5,17}} {DAY}",
        f"{AT}GET A [0-9a-f-]{{36}} {DAY}",
        f"{AT}ABOUT M {CODE} {DAY}",
        f"{AT}CALLED {CODE} {DAY} {REFSET}",
        f"{AT}VALUES {REFSET} {DAY} {AFTER} {COUNT}",
        f"{AT}MEMBERS {REFSET} {DAY} - 1",
        f"{AT}CHILDREN {CODE} {DAY}",
        f"{AT}ANCESTORS {CODE} {DAY}",
        f"{AT}DESCENDANTS {CODE} {DAY}",
        f"{AT}SOURCES (-|[1-9][0-9]{{5,17}}) {CODE} {DAY} {AFTER} {COUNT}",
        f"{AT}REPLAC(ED|ES) {CODE} {DAY}",
        f"{AT}PAGE A {DAY} (-|[0-9a-f-]{{36}}) {COUNT}",
        f"{AT}HISTORY C {CODE}",
        # At the start, whether the store has rows of the edition's module (and `PAGE A`, below).
        f"{AT}PAGE [DR] {DAY} - {COUNT}",
        # At the start, whether the store's layout keeps members.
        f"{AT}HISTORY M 0{{8}}(-0{{4}}){{3}}-0{{12}}",
        f"{AT}TIMELINE [DRVAM] {CODE}",
        f"{AT}PAGE C {DAY} {AFTER} {COUNT}",
        f"{AT}PAGE M {DAY} - 1",
        f"{AT}WORDS {DAY} - [0-9]{{1,5}} {COUNT} [^\\x00-\\x1f\\x7f-\\x9f]{{1,200}}",
    )
]


class TestRecorded(Asked):
    def test_only_questions_were_sent(self) -> None:
        recorder = self.service.recorder
        assert recorder
        lines = [line.decode() for line in recorder.lines]
        for line in lines:
            found = [match for match in (one.fullmatch(line) for one in LINES) if match]
            assert len(found) == 1, line
            words = found[0].groupdict()
            assert is_concept_id(words.get("code", "138875005")), line
            assert is_concept_id(words.get("refset", "138875005")), line
            assert is_day(words.get("day", "20000101")), line
        # Each kind of question was among them, so the tests before these were run.
        for one in LINES:
            assert any(map(one.fullmatch, lines)), one.pattern
