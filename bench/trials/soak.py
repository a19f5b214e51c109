"""Runs the built program on a real file for some seconds, and kills it at random moments.

soak.py PROGRAM [SECONDS [SEED [FOLDER]]]

It serves a store in FOLDER, as RELIABILITY says under "The soak", and the model in soak_model.py
answers each line too: each reply has to be the model's, and after a kill the store what the model
is after the first so many lines. The status is 3 where no import or no publication was cut short,
or no MEMBERS, VALUES or CALLED was answered by a row: until all were, a run goes on for up to four
times SECONDS, and its store is copied in layout 3 after SECONDS. The same SEED gives the same lines
up to the first kill.
"""

import os
import random
import re
import shutil
import subprocess
import sys
import tempfile
import time
from collections import Counter
from collections.abc import Callable, Sequence
from pathlib import Path
from typing import NamedTuple, Optional

from harness import NOT_RUN, Place, Server, Wrong, parser_of, same, tell
from soak_model import CONCEPT, DESTINATION, KINDS, REFERENCED, REFSET, SUBJECTS, TARGET, TERM
from soak_model import TYPE, Columns, Fault, File, Model, Reply, State, publications
import make_release as rf2  # harness.py looks for it.

DATES = ["%d%s31" % (year, month) for year in range(2015, 2026) for month in ("01", "07")]
LAST_DATE = "99991231"
# How many concepts are asked at the end what is around them, and how many lines are sent at once.
ASKED_AROUND, LINES_AT_ONCE = 200, 50
# The questions of members that have to be answered by a row, which is counted.
ANSWERED = ("MEMBERS", "VALUES", "CALLED")
# How many members of a reference set are asked for at a time.
MEMBERS_AT_ONCE = 50
# How long a reply may take, and a program that ends by itself.
SECONDS = 60
# How many seconds it runs where none are given, and up to how many times as long where something
# wasn't tried by then.
RUN_SECONDS, TIMES_LONGER = 60, 4
# Where the layouts stand in the two directories of a store, and layout 1.
LAYOUTS_AT = (4111, 12303)
LAYOUT_ONE = b"1"


def odd_members(count: int) -> rf2.Sort:
    """A sort of files that no package has, with so many further columns."""
    letters = "cis" * count
    name = "der2_%sRefset_Odd%d" % (letters[:count], count)
    return rf2.members("Refset/Odd/" + name + "{}", " odd" * count)


# The sorts of the files of a release: those of a package, members with other columns, associations
# in another folder, and relationships that no store keeps.
ODD_SORTS = {"Odd%d" % count: odd_members(count) for count in (0, 1, 3)}
OTHER_ASSOCIATIONS = "OtherAssociations"
UNKEPT = "StatedRelationship"
SORTS = {**rf2.BASIC_SORTS, **rf2.FURTHER_SORTS, **ODD_SORTS, UNKEPT: rf2.UNKEPT_SORTS[UNKEPT],
         OTHER_ASSOCIATIONS: rf2.BASIC_SORTS["A"]._replace(
             name="Refset/More/der2_cRefset_AssociationOther{}_INT_{}.txt")}
# The sorts of a package that rows of the others are made like.
LIKE = {UNKEPT: "R", OTHER_ASSOCIATIONS: "A", **dict.fromkeys(ODD_SORTS, "Simple")}
# Of which sorts rows are made, each as likely as another.
DRAWN = [*"CCDDDDRRRRAV", *["Language"] * 4, *SORTS]
# What may stand in a further column that no package has.
ODD_TEXTS = ("", "", "0", "x", "Straße", "a b ", "#5", "\r", "\ufeff", "TRUE | IFA", "-")
# What is wrong with a row of a faulty release: its column with its new text, or none where the last
# column is left out, and how that is refused.
SPOILED = {
    "C": ((0, "1000005", "24 Id"),),
    "M": ((None, "", "23 Columns"), (0, "0b6a0c2e5d0f4c539f6e8d9d2a7b1c01", "30 MemberId"),
          (1, "20201301", "26 Time"), (2, "2", "27 Active"), (REFSET, "1000015", "28 Reference"),
          (REFERENCED, "1000005", "28 Reference"))}


# What is asked, each form behind how often it is.
FORMS = """4 GET {kind} {id} {date}
2 HISTORY {kind} {id}
1 SEARCH {date} {after_D} {limit} {prefix}
1 PAGE {kind} {date} {after} {limit}
2 DELTA {kind} {begin} {date} {after} {limit}
1 TERMS {date} {few} {prefix}
3 WORDS {date} {kind_of_term} {offset} {few} {words}
1 CHILDREN {C} {date}
1 ANCESTORS {C} {date}
1 DESCENDANTS {C} {date}
1 REPLACED {C} {date}
1 REPLACES {replacing} {date}
3 ABOUT {kind} {subject} {date}
2 TIMELINE {kind} {subject}
2 MEMBERS {refset} {date} {after_M} {limit}
2 VALUES {refset} {date} {after_value} {limit}
2 CALLED {named}
1 {days}
1 RECEIPT {import}
2 SOURCES {links} {date} {after_C} {limit}
1 ROWS {kind} {key} {limit}
1 ADDED {import} {kind} {key} {limit}"""
# What is asked of some concepts at the end.
AROUND = [f"{word} {{C}} {{date}}" for word in ("ANCESTORS", "DESCENDANTS", "REPLACED", "REPLACES")]
AROUND += [f"TIMELINE {kind} {{C}}" for kind in SUBJECTS]
AROUND += [f"CALLED {{C}} {{date}} {language}" for language in rf2.LANGUAGES]
QUESTIONS = [form for line in FORMS.split("\n") for form in [line[2:]] * int(line[0])]


def place_of(sort: str) -> tuple[bool, str]:
    """Where the files of a sort stand among those of a release: first those of Terminology, then
    those of each folder of Refset, by the name of the folder, and in a folder by their names."""
    name = SORTS[sort].name.format("Delta", DATES[0])
    return (not name.startswith("Terminology/"), name)


def is_written(sort: str, rows: dict[str, list[Columns]]) -> bool:
    """Whether a release has a file of a sort: each has those that every store keeps."""
    return sort in rf2.BASIC_SORTS or bool(rows[sort])


class Edition(rf2.Edition):
    """An edition with members of other columns, and with files that no package has."""

    def __init__(self, seed: int) -> None:
        super().__init__(seed)
        self.made.update({sort: [] for sort in SORTS})

    def name(self, sort: str) -> object:
        return super().name(LIKE.get(sort, sort))

    def body(self, sort: str) -> list[object]:
        if sort not in ODD_SORTS:
            return super().body(LIKE.get(sort, sort))
        count = int(sort.removeprefix("Odd"))
        texts = [self.random.choice(ODD_TEXTS) for _ in range(count)]
        refset = self.random.choice([*rf2.VALUE_SETS, rf2.US_ENGLISH])
        return [refset, self.a_description() if count else self.a_concept(), *texts]


class Releases:
    """Random releases, written as folders."""

    def __init__(self, chance: random.Random, folder: str) -> None:
        self.chance, self.folder = chance, folder
        # A server wants a folder to look in, also before there is a release.
        os.makedirs(folder, exist_ok=True)
        self.edition = Edition(chance.getrandbits(32))
        # The rows that were written, and what each first said, by its identifier and date.
        self.lines: dict[str, list[Columns]] = {sort: [] for sort in SORTS}
        self.known: dict[tuple[str, str], Columns] = {}
        self.files: dict[str, list[File]] = {}

    def columns(self, sort: str) -> Columns:
        """A new component, a new version of one, or a row that was written before. A new version
        may be about something else."""
        what, made = self.chance.random(), self.edition.made[sort]
        if what < 0.15 and self.lines[sort]:
            return self.chance.choice(self.lines[sort])
        component = self.edition.component(sort)
        if what < 0.55 and len(made) > 1:
            made.pop()
            component = self.chance.choice(made)
        body = self.edition.body(sort) if what < 0.3 else None
        active = self.chance.choice([1, 1, 1, 0])
        return rf2.line(component, self.chance.choice(DATES), active, body).split("\t")

    def make(self) -> str:
        """The name of a new release; a few are faulty."""
        name = "r%d" % (len(self.files) + 1)
        rows: dict[str, list[Columns]] = {sort: [] for sort in SORTS}
        for _ in range(self.chance.choice([0, 1, 5, 20, 60, 200])):
            sort = self.chance.choice(DRAWN)
            rows[sort].append(self.columns(sort))
        consistent = {sort: [columns for columns in rows[sort] if columns == self.known.setdefault(
            (columns[0], columns[1]), columns)] for sort in SORTS}
        if self.chance.random() < 0.9:
            rows = consistent
        faults = self.spoil(rows) if self.chance.random() < 0.1 else {}
        self.write(name, rows)
        self.files[name] = [
            File(SORTS[sort].kind, sort in rf2.BASIC_SORTS, rows[sort], faults.get(sort))
            for sort in sorted(SORTS, key=place_of) if sort != UNKEPT and is_written(sort, rows)]
        if not faults:
            for sort in SORTS:
                self.lines[sort] += rows[sort]
        return name

    def write(self, name: str, rows: dict[str, list[Columns]]) -> None:
        """Writes a release; some UUIDs are in capitals."""
        date = self.chance.choice(DATES)
        for sort in filter(lambda sort: is_written(sort, rows), SORTS):
            texts = ("\t".join([self.spelled(first), *others]) for first, *others in rows[sort])
            rf2.write_file(os.path.join(self.folder, name), "Delta", date, self.headed(sort), texts)

    def spelled(self, name: str) -> str:
        return name.upper() if self.chance.random() < 0.05 else name

    def headed(self, sort: str) -> rf2.Sort:
        """The sort with other names of the columns that may have any."""
        if sort not in ODD_SORTS:
            return SORTS[sort]
        count = int(sort.removeprefix("Odd"))
        names = [self.chance.choice(["", "valueId", "mapTarget", "Ü"]) for _ in range(count)]
        columns = " ".join([rf2.MEMBER_COLUMNS, *names])
        return SORTS[sort]._replace(columns=columns)

    def spoil(self, rows: dict[str, list[Columns]]) -> dict[str, Fault]:
        """Spoils a row of a concept or of a member, if there is one."""
        sorts = [sort for sort in rows if SORTS[sort].kind in SPOILED and rows[sort]]
        if not sorts:
            return {}
        sort = "C" if "C" in sorts and self.chance.random() < 0.5 else self.chance.choice(sorts)
        place = self.chance.randrange(len(rows[sort]))
        column, text, refusal = self.chance.choice(SPOILED[SORTS[sort].kind])
        columns = list(rows[sort][place])
        if column is None:
            columns.pop()
        else:
            columns[column] = text
        rows[sort][place] = columns
        return {sort: Fault(place + 2, refusal)}

    def named(self) -> Optional[tuple[str, str]]:
        """A concept of which a description has a member, and the member's reference set."""
        if not self.lines["Language"]:
            return None
        member = self.chance.choice(self.lines["Language"])
        descriptions = [row for row in self.lines["D"] if row[0] == member[REFERENCED]]
        if not descriptions:
            return None
        return self.chance.choice(descriptions)[CONCEPT], member[REFSET]

    def row_of(self, kind: str) -> Optional[Columns]:
        """A row of a kind that was written, if there is one."""
        found = [self.lines[sort] for sort in SORTS
                 if SORTS[sort].kind == kind and sort != UNKEPT and self.lines[sort]]
        return self.chance.choice(self.chance.choice(found)) if found else None


class Asked(NamedTuple):
    """A line, what the model says to it, and what the model's state is then."""

    line: str
    said: Reply
    state: State

    @property
    def reply(self) -> bytes:
        return "".join(line + "\n" for line in self.said).encode()


class Soak:
    def __init__(self, program: str, seed: int, folder: str) -> None:
        self.place = Place(Path(program), Path(folder))
        self.chance, self.kind = random.Random(seed), "C"
        self.releases = Releases(self.chance, os.path.join(folder, "releases"))
        # Some begin with a store of layout 3, and some with one of layout 1.
        self.layout = (2, 1, 3)[seed % 3]
        self.model = Model(self.releases.files, keeps_all=self.layout == 3)
        self.store = self.place.path("store")
        self.serving: Optional[Server] = None
        self.took = 0.05
        self.counts = Counter[str]()

    def start(self) -> None:
        self.counts["openings"] += 1
        self.serving = Server(self.place, self.store, Path(self.releases.folder))

    @property
    def served(self) -> Server:
        assert self.serving is not None
        return self.serving

    def component(self, kind: str) -> str:
        """The identifier of a component, now and then one that no release has."""
        if self.model.rows[kind] and not self.is_so(0.05):
            return self.chance.choice(self.model.rows[kind]).columns[0]
        if kind not in rf2.PARTITIONS:
            return "00000000-0000-4000-8000-000000000000"
        return str(rf2.sctid(3000, rf2.PARTITIONS[kind]))

    def question(self, session: int) -> str:
        """A question, now and then of an import that the session isn't pinned to."""
        self.kind, at = self.chance.choice(KINDS), "AT {import} " if self.is_so(0.2) else ""
        return "%d %s" % (session, self.filled(at + self.chance.choice(QUESTIONS)))

    def is_so(self, likelihood: float) -> bool:
        return self.chance.random() < likelihood

    def filled(self, form: str) -> str:
        """A form of a question, in which something drawn by chance stands for each name."""
        return re.sub(r"\{(\w+)\}", lambda found: str(PARTS[found[1]](self)), form)

    def after(self, kind: str) -> str:
        """What a page comes after: nothing, or a component of a kind."""
        return self.chance.choice(["-", self.component(kind)])

    def key(self) -> str:
        """The key of a row of the kind, as a rule, or none, or one that has no name."""
        found = self.releases.row_of(self.kind)
        key = "%s %s" % (found[0], found[1]) if found and self.is_so(0.7) else "- -"
        return self.chance.choice([key, key, key, "- %s" % DATES[0]])

    def words(self) -> str:
        """Beginnings of words of one term, as a rule, or a text that has no word."""
        found = self.releases.row_of("D")
        words = found[TERM].split(" ") if found else [rf2.WORDS[0]]
        some = self.chance.sample(words, min(len(words), self.chance.choice([1, 1, 2, 3])))
        text = " ".join(word[: self.chance.choice([1, 3, 9])] for word in some)
        return self.chance.choice([text, text.upper(), text.lower(), text, "-"])

    def links(self) -> str:
        """A type of relationships or none, and a concept, as a rule one that is a destination."""
        found = self.releases.row_of("R") if self.is_so(0.7) else None
        to, kind = (found[DESTINATION], found[TYPE]) if found else (
            self.component("C"), self.component("C"))
        return "%s %s" % (self.chance.choice(["-", kind, str(rf2.ROOT)]), to)

    def named(self) -> str:
        """A concept, a date and a language in which it has a name, as a rule."""
        concept, refset = self.releases.named() or (self.component("C"), self.refset())
        return "%s %s %s" % (concept, self.chance.choice(DATES + [LAST_DATE] * len(DATES)), refset)

    def refset(self) -> str:
        """A reference set that has members, as a rule; now and then what is none."""
        member = self.releases.row_of("M")
        if member is None or self.is_so(0.1):
            return self.chance.choice([self.component("C"), self.component("D")])
        return str(self.chance.choice(rf2.LANGUAGES)) if self.is_so(0.4) else member[REFSET]

    def told_by(self, kind: str, column: int) -> str:
        """What a column of a row of a kind has, as a rule, or a concept that there is."""
        found = self.releases.row_of(kind)
        return found[column] if found and self.is_so(0.7) else self.component("C")

    def subject(self) -> str:
        """What a row of the kind is about, as a rule, or a concept that there is."""
        kind = self.kind
        return self.told_by(kind, SUBJECTS[kind]) if kind in SUBJECTS else self.component("C")

    def line(self) -> str:
        chance, session = self.chance, self.chance.randrange(8)
        what = chance.random()
        if what < 0.16:
            return "%d IMPORT %s" % (session, self.release())
        if what < 0.42:
            return self.question(session)
        if what < 0.47:
            number = chance.choice(["", " %d" % chance.randint(0, self.model.state.imports + 1)])
            return "%d PIN%s" % (session, number)
        if what < 0.50:
            return "%d UNPIN" % session
        if what < 0.92:
            if self.model.state.merge is None:
                return chance.choice(["0 MERGE", "0 MERGE", "0 MERGE", "0 STEP 9"])
            if self.model.state.merge.left == 0:
                return chance.choice(["0 PUBLISH"] * 6 + ["0 MERGE", "0 ABANDON"])
            steps = ["0 STEP 1", "0 STEP 40", "0 PUBLISH"] + ["0 STEP 100000"] * 4
            return chance.choice(steps)
        strange = ["0 STATUS", "0 TRIM", "1023 STATUS", "1024 STATUS", "0 status", "0 IMPORT none"]
        strange += ["0 AT 0 PIN", "1 AT 0 STATUS", "2 AT 0 AT 0 DATES", "3 AT 1", "4 AT 1 get"]
        return chance.choice(strange + ["", "x" * 5000])

    def release(self) -> str:
        """The name of a new release, or now and then of one that was made before: a store that was
        copied in layout 3 meanwhile may take more of it."""
        if self.releases.files and self.chance.random() < 0.1:
            self.counts["releases_again"] += 1
            return self.chance.choice(list(self.releases.files))
        return self.releases.make()

    def asked(self, line: str) -> Asked:
        """A line with what the model says."""
        return Asked(line, self.model.reply(line), self.model.state)

    def batch(self) -> list[Asked]:
        batch = [self.asked(self.line()) for _ in range(self.chance.choice([1, 3, 10, 30]))]
        for word in ANSWERED:
            self.counts[word] += sum(" %s " % word in one.line and len(one.said) > 1
                                     for one in batch)
        return batch

    def ask(self, batch: Sequence[Asked]) -> None:
        """Sends lines, and compares what is answered."""
        begun = time.monotonic()
        self.send(batch)
        came = self.read(sum(len(one.reply) for one in batch), SECONDS)
        self.compare(came, batch, all_of_it=True)
        self.took = 0.9 * self.took + 0.1 * (time.monotonic() - begun)

    def send(self, batch: Sequence[Asked]) -> None:
        self.served.send("".join(one.line + "\n" for one in batch).encode())

    def read(self, wanted: int, seconds: float, end: bytes = b"\xff") -> bytes:
        """So many bytes of replies, or those up to an end, as far as they come in time."""
        self.served.read(wanted, time.monotonic() + seconds, end)
        came, self.served.unread = self.served.unread, b""
        return came

    def compare(self, came: bytes, batch: Sequence[Asked], all_of_it: bool) -> int:
        """How many replies came whole."""
        place = 0
        for number, (line, reply) in enumerate((one.line, one.reply) for one in batch):
            part = came[place : place + len(reply)]
            if part != reply[: len(part)] or (all_of_it and len(part) < len(reply)):
                raise Wrong("%r: %r in place of %r" % (line, part[:300], reply[:300]))
            if len(part) < len(reply):
                return number
            place += len(reply)
            self.counts["lines"] += 1
        if place != len(came):
            raise Wrong("more than the replies: %r" % came[place : place + 300])
        return len(batch)

    def count(self, states: Sequence[State]) -> None:
        self.counts["imports"] += states[-1].imports - states[0].imports
        self.counts["publications"] += publications(states)

    def whole_batch(self) -> None:
        before, batch = self.model.state, self.batch()
        self.ask(batch)
        self.count([before, *(one.state for one in batch)])
        self.counts["trims"] += sum(one.line == "0 TRIM" for one in batch)

    def killed_batch(self) -> None:
        before, batch = self.model.state, self.batch()
        self.send(batch)
        wanted = sum(len(one.reply) for one in batch) + 1
        came = self.read(wanted, self.chance.random() * 1.5 * self.took)
        self.served.kill()
        self.counts["kills_in_batches"] += 1
        answered = self.compare(came + self.served.unread, batch, all_of_it=False)
        self.start_again([before, *(one.state for one in batch)], answered)

    def start_again(self, states: Sequence[State], answered: int) -> None:
        """Finds which of the lines that were sent the store has done, and goes on from there."""
        if self.chance.random() < 0.3:
            self.start()
            time.sleep(self.chance.random() * 0.02)
            self.served.kill()
            self.counts["kills_in_openings"] += 1
        self.start()
        self.served.send(b"0 STATUS\n")
        came = self.read(sys.maxsize, SECONDS, b"\n").decode(errors="replace")
        if not came:
            raise Wrong("after a kill: no reply to STATUS, with %d lines answered" % answered)
        done_by = [number for number, state in enumerate(states) if number >= answered
                   and came == state.reopened().status() + "\n"]
        if not done_by:
            raise Wrong("after a kill: %r, with %d lines answered" % (came, answered))
        done = states[done_by[0]]
        self.count(states[: done_by[0] + 1])
        kept = done.imports - states[answered].imports
        self.counts["imports_cut_kept"] += kept
        self.counts["imports_cut_lost"] += states[-1].imports - done.imports
        self.counts["publications_cut_kept"] += publications(states[answered : done_by[0] + 1])
        self.counts["publications_cut_lost"] += publications(states[done_by[0] :])
        self.model.go_back(done)
        self.dump()

    def dump(self) -> None:
        """Compares all that two pins show, at two dates, page by page."""
        self.counts["dumps"] += 1
        imports = self.model.state.imports
        for pin in {imports, self.chance.randint(0, imports)}:
            self.check("9 PIN %d" % pin, "9 RECEIPT 1", "9 RECEIPT %d" % pin, "9 DATES",
                       "9 DESCENDANTS %d %s" % (rf2.ROOT, LAST_DATE))
            for kind in KINDS:
                for date in (self.chance.choice(DATES), LAST_DATE):
                    self.pages("9 PAGE %s %s" % (kind, date), 1000)
        self.check("9 UNPIN")

    def pages(self, question: str, limit: int, column: int = 0) -> None:
        """Asks for pages up to an empty one, each from behind what a column of the last row has."""
        said = self.check("%s - %d" % (question, limit))
        while len(said) > 1:
            after = said[-2].removeprefix("ROW ").split("\t")[column]
            said = self.check("%s %s %d" % (question, after, limit))

    def check(self, *lines: str) -> Reply:
        """Asks lines, some at a time. The reply to the last one."""
        asked = [self.asked(line) for line in lines]
        for start in range(0, len(asked), LINES_AT_ONCE):
            self.ask(asked[start : start + LINES_AT_ONCE])
        return asked[-1].said

    def everything(self) -> None:
        """Compares every version of every component, what each import brought, the days that it
        left, and what is around some concepts."""
        imports = self.model.state.imports
        self.check(*("0 HISTORY %s %s" % (kind, name)
                     for kind in KINDS for name in self.column(kind, 0)))
        self.check(*("0 RECEIPT %d" % number for number in range(imports + 1)))
        self.check(*("0 AT %d DATES" % number for number in range(imports + 1)))
        self.check(*("0 AT %d DIGEST" % number for number in (0, imports // 2, imports)))
        self.check(*("0 AT %d %s" % (self.chance.randint(0, imports),
                                     self.filled(self.chance.choice(AROUND)))
                     for _ in range(ASKED_AROUND)))
        for refset in self.column("M", REFSET):
            for date in (self.chance.choice(DATES), LAST_DATE):
                self.pages("0 MEMBERS %s %s" % (refset, date), MEMBERS_AT_ONCE)
                self.pages("0 VALUES %s %s" % (refset, date), MEMBERS_AT_ONCE, REFERENCED)

    def column(self, kind: str, place: int) -> list[str]:
        """What a column of a kind has, in any version of a component."""
        return sorted({row.columns[place] for row in self.model.rows[kind]})

    def run(self, seconds: int) -> None:
        self.make_store()
        self.start()
        begun = time.monotonic()
        while time.monotonic() < begun + seconds * (TIMES_LONGER if self.untried() else 1):
            what = self.chance.random()
            if what < 0.25:
                self.killed_batch()
            elif what < 0.3:
                self.second_import()
            elif what < 0.31 or time.monotonic() > begun + seconds and not self.model.keeps_all:
                self.copy_in_layout_three()
            else:
                self.whole_batch()
        self.check("0 UNPIN")
        self.everything()
        same("the end", (self.served.end(), self.served.unread), (0, b""))

    def make_store(self) -> None:
        self.place.make_store(layout=max(self.layout, 2))
        if self.layout == 1:
            with open(self.store, "r+b") as file:
                for at in LAYOUTS_AT:
                    file.seek(at - 7)
                    if file.read(7) == b"SCTHIST":
                        file.write(LAYOUT_ONE)

    def copy_in_layout_three(self) -> None:
        """Between two servers a copy in layout 3 replaces the store, perhaps after a killed one."""
        same("the end before a copy", (self.served.end(), self.served.unread), (0, b""))
        if self.is_so(0.5):
            to, words = self.place.path("cut"), ["--layout", "3"]
            with subprocess.Popen([self.place.program, "copy", "--store", self.store, "--to", to,
                                   *words], stdout=subprocess.DEVNULL) as cut:
                time.sleep(self.chance.random() * 0.02)
                cut.kill()
            self.counts["copies_cut"] += 1
            to.unlink(missing_ok=True)
        os.replace(self.place.copy(self.store, "copy", layout=3), self.store)
        self.counts["copies"] += 1
        self.model.keeps_all = True
        self.start_again([self.model.state], 0)

    def second_import(self) -> None:
        """A second program on the file is refused, and changes nothing."""
        self.check("0 STATUS")
        before, name = self.store.read_bytes(), self.releases.make()
        ran = self.place.run("import", "--store", self.store, "--releases", self.releases.folder,
                             name)
        same("a second program", ran[:2], (1, "ERR 2 DiskFault\n"))
        same("whether it changes the store", self.store.read_bytes() == before, True)
        self.counts["seconds_refused"] += 1

    def figures(self, seconds: int) -> None:
        state = self.model.state
        print("seconds %d" % seconds)
        for name, count in self.counts.items():
            print("%s %d" % (name, count))
        print("at the end: imports %d, rows %d, segments %d" % state.counts())
        print("bytes of the store %d" % os.path.getsize(self.store))

    def untried(self) -> list[str]:
        """What was to be cut short and never was, or asked and never answered by a row."""
        missed = ["no kill cut any %s short" % name for name in ("imports", "publications")
                  if not self.counts[name + "_cut_kept"] + self.counts[name + "_cut_lost"]]
        return missed + ["no %s was answered by a row" % word
                         for word in ANSWERED if not self.counts[word]]


# What stands for a name in a form of a question.
PARTS: dict[str, Callable[[Soak], object]] = {
    "kind": lambda it: it.kind, "id": lambda it: it.component(it.kind),
    "C": lambda it: it.component("C"), "date": lambda it: it.chance.choice(DATES + [LAST_DATE]),
    "begin": lambda it: it.chance.choice(DATES), "limit": lambda it: it.chance.choice([1, 7, 50]),
    "few": lambda it: it.chance.choice([1, 10]), "after": lambda it: it.after(it.kind),
    "after_C": lambda it: it.chance.choice(["-", it.after("C")]),
    "after_D": lambda it: it.after("D"),
    "after_M": lambda it: it.chance.choice(["-", "-", it.component("M"), rf2.ROOT]),
    "after_value": lambda it: it.chance.choice([
        "-", it.told_by("M", REFERENCED), it.component("D")]),
    "prefix": lambda it: it.chance.choice(rf2.WORDS)[: it.chance.choice([1, 2, 9])].upper(),
    "kind_of_term": lambda it: it.chance.choice(["-", "-", rf2.SYNONYM, rf2.FULLY_SPECIFIED]),
    "offset": lambda it: it.chance.choice([0, 0, 1, 20]), "words": lambda it: it.words(),
    "import": lambda it: it.chance.randint(0, it.model.state.imports + 1),
    "days": lambda it: it.chance.choice(["DATES", "DATES", "DIGEST"]),
    "replacing": lambda it: it.told_by("A", TARGET), "subject": lambda it: it.subject(),
    "refset": lambda it: it.refset(), "named": lambda it: it.named(), "key": lambda it: it.key(),
    "links": lambda it: it.links()}


def main() -> int:
    parser = parser_of(__doc__)
    parser.add_argument("seconds", type=int, nargs="?", default=RUN_SECONDS)
    parser.add_argument("seed", type=int, nargs="?", default=1)
    parser.add_argument("folder", nargs="?", help="of the store and the releases, which stays")
    asked = parser.parse_args()
    folder = asked.folder or tempfile.mkdtemp(prefix="sctd-soak-")
    soak = Soak(str(asked.program), asked.seed, folder)
    status = tell(lambda: soak.run(asked.seconds))
    if soak.serving is not None:
        soak.serving.__exit__()
    if status:
        print("the files are in %s" % folder)
        return status
    soak.figures(asked.seconds)
    if not asked.folder:
        shutil.rmtree(folder)
    for what in soak.untried():
        print("NOT TRIED: %s" % what)
    return NOT_RUN if soak.untried() else 0


if __name__ == "__main__":
    sys.exit(main())
