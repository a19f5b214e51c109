"""Drawn expressions on drawn releases: the gateway's answers are those of an evaluator that reads
the releases' files itself."""

import asyncio
import random
import subprocess
import tempfile
from collections import Counter
from dataclasses import is_dataclass
from pathlib import Path

import pytest
from sctd_service.gateway import limits
from sctd_service.gateway.ecl import syntax as s
from sctd_service.gateway.ecl.evaluation import Evaluation
from sctd_service.gateway.ecl.parsing import parse
from sctd_service.gateway.ecl.spelling import spelled
from sctd_service.gateway.ecl.terminology import Terminology
from sctd_service.gateway.pool import Pool
from sctd_service.gateway.problems import Problem
from sctd_service.gateway.store import TooManyTerms, View

from .drawn_expressions import Draw
from .drawn_releases import DAYS, RELEASES, Maker
from .ecl_by_files import ByFiles, versions_of
from .fixtures import SECONDS, begun_hub, program_and_hub

SEED, EXPRESSIONS, DEPTH = 1, 3_000, 3
# The releases are drawn anew after so many of them.
OF_ONE_STORE = 1_000
ASKED = (*DAYS, "20200801", "20210101", "20211231", "20991231")
# So many are asked beside each other.
AT_A_TIME = 25
FEW_TERMS = 20
SIZES = {"ASKED_UPWARDS": (0, 3, 40), "ASKED_ONE_BY_ONE": (0, 10, 1000),
         "QUESTION_ROWS": (20, 100, 1000, 1000), "FILTER_TERMS": (FEW_TERMS, 10_000)}
NO_FIELD = "no reference set there has a field"
# How many of each have to be among them.
AT_LEAST = {"some": 1500, "none": 450}


class Drawn:
    """A store of drawn releases with its hub."""

    def __init__(self, seed: int) -> None:
        self.program, hub = program_and_hub()
        self.folder = tempfile.TemporaryDirectory()
        root, self.maker = Path(self.folder.name), Maker(seed)
        self.maker.write(root)
        self.questions, store = str(root / "questions"), str(root / "store")
        self.run("init", "--store", store)
        for release in RELEASES:
            self.run("import", "--quiet", "--store", store, str(root / release))
        self.hub = begun_hub(hub, self.program, store, str(root), "--questions", self.questions)
        self.versions = [versions_of(root / name for name in RELEASES[:pin]) for pin in (1, 2)]
        self.by_files: dict[tuple[int, str], ByFiles] = {}

    def run(self, *words: str) -> None:
        subprocess.run([self.program, *words], check=True, capture_output=True, timeout=SECONDS)

    def files(self, pin: int, day: str) -> ByFiles:
        if (pin, day) not in self.by_files:
            self.by_files[pin, day] = ByFiles(self.versions[pin - 1], day)
        return self.by_files[pin, day]

    def end(self) -> None:
        self.hub.terminate()
        self.hub.communicate(timeout=SECONDS)
        self.folder.cleanup()


def test_answers_are_those_of_the_files(monkeypatch: pytest.MonkeyPatch) -> None:
    chance, counts = random.Random(SEED), Counter[str]()
    for number in range(EXPRESSIONS // OF_ONE_STORE):
        drawn = Drawn(SEED * 1000 + number)
        try:
            asyncio.run(compare(drawn, chance, monkeypatch, counts))
        finally:
            drawn.end()
    assert all(counts[what] >= least for what, least in AT_LEAST.items()), counts


async def compare(drawn: Drawn, chance: random.Random, monkeypatch: pytest.MonkeyPatch,
                  counts: Counter[str]) -> None:
    """Draws expressions and asks them, some at a time, each time with other limits of when what is
    asked in which way."""
    pool, draw = Pool(drawn.questions), Draw(chance.getrandbits(32), drawn.maker)
    for _ in range(OF_ONE_STORE // AT_A_TIME):
        for name, sizes in SIZES.items():
            monkeypatch.setattr(limits, name, chance.choice(sizes))
        await asyncio.gather(
            *(one_compared(drawn, pool, draw.expression(DEPTH), chance.choice(ASKED),
                           chance.choice([1, 2]), frozenset(chance.sample(drawn.maker.concepts, 2)),
                           counts) for _ in range(AT_A_TIME)))


async def one_compared(drawn: Drawn, pool: Pool, tree: s.Expression, day: str, pin: int,
                       some: s.Ids, counts: Counter[str]) -> None:
    text = spelled(tree)
    read = parse(text)
    assert read == tree, text
    files = drawn.files(pin, day)
    wanted = files.answer(tree)
    async with pool.session(pin) as session:
        found = await answered(View(session), day, read, None)
        among = await answered(View(session), day, read, some)
    assert found in (None, wanted), (text, day, pin, found, wanted)
    assert among in (None, wanted & some), (text, day, pin, some, among)
    if None in (found, among):
        # What is asked first decides whether such a part is asked at all.
        is_many = limits.FILTER_TERMS == FEW_TERMS and asks_terms_of_all(tree)
        assert is_many or files.asks_no_column(tree), (text, day, pin)
        counts["refused"] += 1
    else:
        counts["some" if wanted else "none"] += 1


def asks_terms_of_all(tree: object) -> bool:
    """Whether a part has a filter of the terms of any concept."""
    if isinstance(tree, s.Filtered) and isinstance(tree.focus, s.Wildcard):
        if "term" in [one.name for one in tree.filters]:
            return True
    parts = tree if isinstance(tree, tuple) else vars(tree).values() if is_dataclass(tree) else ()
    return any(map(asks_terms_of_all, parts))


async def answered(view: View, day: str, expression: s.Expression,
                   among: s.Ids | None) -> s.Ids | None:
    """What the gateway says, or None where it refuses a column, or many terms of any concept."""
    try:
        return await Evaluation(Terminology(view, day)).meant(expression, among)
    except Problem as problem:
        is_many = isinstance(problem, TooManyTerms)
        assert is_many or NO_FIELD in problem.text, (expression, problem.text)
        return None
