"""What each line is answered, by the definitions: slow and plain. Part of soak.py and of
refuse_growths.py. It shares nothing with the program. Standard library alone."""

import hashlib
import inspect
import unicodedata
from bisect import bisect_left, bisect_right
from collections.abc import Callable, Iterable, Iterator, Mapping, Sequence
from typing import NamedTuple, Optional

Columns = list[str]
Reply = list[str]

# The kinds in the order of their keys, by which a digest goes.
KINDS = "CDRAVM"
# The column that says what a row of a kind is about; a concept's row has none.
SUBJECTS = {"D": 4, "V": 4, "R": 4, "A": 5, "M": 5}
# The columns of a relationship, and of an association or another member of a reference set.
SOURCE, DESTINATION, TYPE = 4, 5, 7
REFSET, REFERENCED, TARGET = 4, 5, 6
# The columns of a description that have its concept, its type and its term.
CONCEPT, KIND_OF_TERM, TERM = 4, 6, 7
IS_A = "116680003"
# What stands before the check digit of a concept's SCTID, and of any component's.
OF_CONCEPTS = ("00", "10")
OF_COMPONENTS = (*OF_CONCEPTS, "01", "11", "02", "12")
MOST_SEGMENTS = 250
LINE_LIMIT, LAST_SESSION = 4096, 1023
NO_ARGUMENTS, NO_SUCH_IMPORT = ["ERR 43 Arguments"], ["ERR 44 PinRange"]


class Refused(Exception):
    """A line is refused: its text is the reply."""


class Fault(NamedTuple):
    """What is wrong with a line of a file: its number, and the number and name of the refusal."""

    line: int
    name: str


class File(NamedTuple):
    """A file of a release: the letter of its rows, whether each store keeps it or only one of
    layout 3, its rows, and its first fault."""

    kind: str
    is_basic: bool
    rows: list[Columns]
    fault: Optional[Fault] = None


class Row(NamedTuple):
    """A row of a store: its component's identifier, its date, the number of its import, and what it
    says. Rows of a kind are in their order by the first two."""

    name: int
    date: str
    number: int
    columns: Columns


class Merge(NamedTuple):
    """A merge: the places of its two segments, how many rows are left, and how many there are."""

    first: int
    second: int
    left: int
    both: int


class State(NamedTuple):
    """What a store shows beside its rows; plain values, so that it can be kept for each line."""

    imports: int = 0
    rows: int = 0
    segments: tuple[int, ...] = ()
    merge: Optional[Merge] = None

    def reopened(self) -> "State":
        return self._replace(merge=None)

    def counts(self) -> tuple[int, int, int]:
        return (self.imports, self.rows, len(self.segments))

    def status(self) -> str:
        left = "-" if self.merge is None else str(self.merge.left)
        return "OK %d %d %d %s" % (*self.counts(), left)

    def merging(self) -> Merge:
        if self.merge is None:
            raise Refused("ERR 11 NoMerge")
        return self.merge


def publications(states: Sequence[State]) -> int:
    """How many merges were published from the first of these states to the last one."""
    pairs = zip(states, states[1:])
    return sum(len(new.segments) < len(old.segments) for old, new in pairs if old.merge is not None)


def name_of(kind: str, text: str) -> int:
    """An identifier in its order, that of numbers; less than each where a page begins."""
    if text == "-":
        return -1
    return int(text.replace("-", ""), 16) if kind in "AM" else int(text)


def is_sctid_of(partitions: Sequence[str], text: str) -> bool:
    """Whether an SCTID, whose check digit is right, is one of these partitions."""
    return text.isdigit() and text[-3:-1] in partitions


def ids_and_end(found: Iterable[int]) -> Reply:
    ids = sorted(found)
    return ["ID %d" % name for name in ids] + ["END %d" % len(ids)]


def rows_and_end(found: Sequence[Columns]) -> Reply:
    return ["ROW " + "\t".join(columns) for columns in found] + ["END %d" % len(found)]


def reached(first: int, steps: Iterable[tuple[int, int]]) -> set[int]:
    """What is reached from a concept by one step or more, each from one concept to another."""
    found: set[int] = set()
    turn, pairs = {first}, list(steps)
    while turn:
        turn = {after for before, after in pairs if before in turn} - found
        found |= turn
    return found


def words_of(text: str) -> list[str]:
    """The words of a text: its runs of letters and digits, of no case and without marks."""
    parts = (part for c in text.casefold() for part in unicodedata.normalize("NFD", c))
    plain = (part for part in parts if unicodedata.category(part)[0] != "M")
    return "".join(part if unicodedata.category(part)[0] in "LN" else " " for part in plain).split()


def begins_each(wanted: Iterable[str], words: Sequence[str]) -> bool:
    return all(any(word.startswith(one) for word in words) for one in wanted)


class Model:
    """What each line is answered. A store of layout 3 asks for all files of a release, one of a
    layout below for the basic ones alone. A question is answered by the method `ask_` of its name,
    another command by `do_`, which takes the words of the line that it names."""

    def __init__(self, releases: Mapping[str, Sequence[File]], keeps_all: bool = False) -> None:
        self.releases, self.keeps_all = releases, keeps_all
        self.rows: dict[str, list[Row]] = {kind: [] for kind in KINDS}
        self.state = State()
        self.pins: dict[int, int] = {}
        # Of the line that is answered: its session, and up to which import it sees rows.
        self.session = self.pin = 0

    def reply(self, line: str) -> Reply:
        if len(line.encode()) > LINE_LIMIT:
            return ["ERR 40 Long"]
        session, _, rest = line.partition(" ")
        command, _, words = rest.partition(" ")
        if not session.isdigit() or int(session) > LAST_SESSION:
            return ["ERR 41 Session"]
        self.session = int(session)
        self.pin = self.pins.get(self.session, self.state.imports)
        method = self.method("ask_", command) or self.method("do_", command)
        return self.answer(method, words) if method else ["ERR 42 Command"]

    def method(self, sort: str, command: str) -> Optional[Callable[..., Reply]]:
        found: Optional[Callable[..., Reply]] = getattr(self, sort + command.lower(), None)
        return found if command.isupper() else None

    def answer(self, method: Callable[..., Reply], words: str) -> Reply:
        """What a method answers, whose last word is all that follows the others."""
        count = len(inspect.signature(method).parameters)
        try:
            return method(*words.split(" ", count - 1)[:count])
        except Refused as refusal:
            return [str(refusal)]

    # ---- The rows that are asked about

    def seen(self, kind: str, first: int = 0, end: Optional[int] = None) -> Iterator[Row]:
        """The rows of a kind that the line sees, or a part of them."""
        if kind == "M" and not self.keeps_all:
            raise Refused("ERR 14 LaterVersion")
        return (row for row in self.rows[kind][first:end] if row.number <= self.pin)

    def versions(self, kind: str, name: str) -> list[Row]:
        """The versions of a component, by their dates."""
        rows, number = self.rows[kind], name_of(kind, name)
        first, end = (cut(rows, number, key=lambda row: row.name)
                      for cut in (bisect_left, bisect_right))
        return list(self.seen(kind, first, end))

    def shown(self, kind: str, date: str) -> dict[int, Columns]:
        """The latest version of each component up to a date, by their identifiers."""
        return {row.name: row.columns for row in self.seen(kind) if row.date <= date}

    def active(self, kind: str, date: str) -> list[Columns]:
        return [c for c in self.shown(kind, date).values() if c[2] == "1"]

    def members(self, refset: str, date: str) -> list[Columns]:
        return [c for c in self.active("M", date) if c[REFSET] == refset]

    def links(self, date: str) -> list[tuple[int, int]]:
        """Each active "is a" at a date: a child and its parent."""
        return [(int(c[SOURCE]), int(c[DESTINATION])) for c in self.active("R", date)
                if c[TYPE] == IS_A]

    # ---- Questions

    def ask_get(self, kind: str, name: str, date: str) -> Reply:
        found = [row.columns for row in self.versions(kind, name) if row.date <= date]
        return rows_and_end(found[-1:])

    def ask_history(self, kind: str, name: str) -> Reply:
        return rows_and_end([row.columns for row in self.versions(kind, name)])

    def page(self, kind: str, date: str, after: str, limit: str,
             is_wanted: Callable[[Columns], bool]) -> Reply:
        """The first so many rows that are wanted, of components after an identifier."""
        least = name_of(kind, after)
        found = [c for name, c in self.shown(kind, date).items() if name > least and is_wanted(c)]
        return rows_and_end(found[: int(limit)])

    def ask_page(self, kind: str, date: str, after: str, limit: str) -> Reply:
        return self.page(kind, date, after, limit, lambda columns: True)

    def ask_delta(self, kind: str, begin: str, date: str, after: str, limit: str) -> Reply:
        return self.page(kind, date, after, limit, lambda columns: columns[1] > begin)

    def ask_members(self, refset: str, date: str, after: str, limit: str) -> Reply:
        if not is_sctid_of(OF_CONCEPTS, refset) or is_sctid_of(OF_COMPONENTS, after):
            return NO_ARGUMENTS
        return self.page("M", date, after, limit, lambda columns: columns[REFSET] == refset)

    def ask_values(self, refset: str, date: str, after: str, limit: str) -> Reply:
        if not is_sctid_of(OF_CONCEPTS, refset):
            return NO_ARGUMENTS
        if after != "-" and not is_sctid_of(OF_COMPONENTS, after):
            return NO_ARGUMENTS
        members = self.members(refset, date)
        found = sorted((int(c[REFERENCED]), name_of("M", c[0]), c) for c in members
                       if int(c[REFERENCED]) > name_of("C", after))
        # A row is answered if fewer than the limit refer to a component before its own.
        components = [component for component, _, _ in found]
        return rows_and_end([c for component, _, c in found
                             if bisect_left(components, component) < int(limit)])

    def ask_called(self, concept: str, date: str, refset: str) -> Reply:
        if not all(is_sctid_of(OF_CONCEPTS, text) for text in (concept, refset)):
            return NO_ARGUMENTS
        found, members = [], self.members(refset, date)
        for description in self.active("D", date):
            if description[CONCEPT] == concept:
                its = [c for c in members if c[REFERENCED] == description[0]]
                found += [description, *its] if its else []
        return rows_and_end(found)

    def ask_terms(self, date: str, limit: str, prefix: str) -> Reply:
        return self.ask_search(date, "-", limit, prefix)

    def ask_search(self, date: str, after: str, limit: str, prefix: str) -> Reply:
        folded = prefix.casefold()
        found = [c for c in self.active("D", date)
                 if int(c[0]) > name_of("D", after) and c[TERM].casefold().startswith(folded)]
        return rows_and_end(found[: int(limit)])

    def ask_words(self, date: str, kind_of_term: str, offset: str, limit: str, text: str) -> Reply:
        wanted = words_of(text)
        if not wanted:
            return NO_ARGUMENTS
        found = [c for c in self.active("D", date) if kind_of_term in ("-", c[KIND_OF_TERM])
                 and begins_each(wanted, words_of(c[TERM]))]
        found.sort(key=lambda c: (len(c[TERM]), int(c[0])))
        return rows_and_end(found[int(offset) :][: int(limit)])

    def ask_about(self, kind: str, name: str, date: str) -> Reply:
        if kind not in SUBJECTS:
            return NO_ARGUMENTS
        return rows_and_end([c for c in self.active(kind, date) if c[SUBJECTS[kind]] == name])

    def ask_timeline(self, kind: str, name: str) -> Reply:
        if kind not in SUBJECTS:
            return NO_ARGUMENTS
        place, rows = SUBJECTS[kind], list(self.seen(kind))
        its = {row.name for row in rows if row.columns[2] == "1" and row.columns[place] == name}
        return rows_and_end([row.columns for row in rows if row.name in its])

    def ask_dates(self) -> Reply:
        found = {row.date for rows in self.rows.values() for row in rows if row.number <= self.pin}
        return ["DATE " + date for date in sorted(found)] + ["END %d" % len(found)]

    def ask_digest(self) -> Reply:
        digest = hashlib.sha256()
        for kind, rows in self.rows.items():
            for row in rows:
                if row.number <= self.pin:
                    digest.update(("%s %s\n" % (kind, "\t".join(row.columns))).encode())
        return ["OK " + digest.hexdigest()]

    def after(self, kind: str, name: str, date: str) -> list[Row]:
        """The rows of a kind after a key."""
        if (name == "-") != (date == "-"):
            raise Refused(*NO_ARGUMENTS)
        return [row for row in self.seen(kind) if row[:2] > (name_of(kind, name), date)]

    def ask_rows(self, kind: str, name: str, date: str, limit: str) -> Reply:
        return rows_and_end([row.columns for row in self.after(kind, name, date)][: int(limit)])

    def ask_added(self, number: str, kind: str, name: str, date: str, limit: str) -> Reply:
        its = [row.columns for row in self.after(kind, name, date) if row.number == int(number)]
        if not 1 <= int(number) <= self.pin:
            return NO_SUCH_IMPORT
        return rows_and_end(its[: int(limit)])

    def ask_receipt(self, words: str) -> Reply:
        number = int(words)
        if number == 0:
            return NO_ARGUMENTS
        if number > self.pin:
            return NO_SUCH_IMPORT
        dates = [row.date for rows in self.rows.values() for row in rows if row.number == number]
        return ["OK %d %d %s" % (number, len(dates), max(dates, default="-"))]

    def ask_children(self, concept: str, date: str) -> Reply:
        return ids_and_end({child for child, parent in self.links(date) if parent == int(concept)})

    def ask_sources(self, type_id: str, destination: str, date: str, after: str,
                    limit: str) -> Reply:
        found = {int(c[SOURCE]) for c in self.active("R", date)
                 if c[DESTINATION] == destination and type_id in ("-", c[TYPE])}
        least = name_of("C", after)
        return ids_and_end(sorted(name for name in found if name > least)[: int(limit)])

    def ask_ancestors(self, concept: str, date: str) -> Reply:
        return ids_and_end(reached(int(concept), self.links(date)))

    def ask_descendants(self, concept: str, date: str) -> Reply:
        links = [(parent, child) for child, parent in self.links(date)]
        return ids_and_end(reached(int(concept), links))

    def associations(self, date: str, place: int, name: str, other: int) -> Reply:
        """The active ones with a component in one column, by refset, the other column, member."""
        found = [c for c in self.active("A", date) if c[place] == name]
        found.sort(key=lambda c: (int(c[REFSET]), int(c[other]), name_of("A", c[0])))
        return rows_and_end(found)

    def ask_replaced(self, name: str, date: str) -> Reply:
        return self.associations(date, REFERENCED, name, TARGET)

    def ask_replaces(self, name: str, date: str) -> Reply:
        return self.associations(date, TARGET, name, REFERENCED)

    # ---- Other commands

    def do_at(self, words: str) -> Reply:
        """What a session is answered that is pinned so."""
        number, _, question = words.partition(" ")
        command, _, rest = question.partition(" ")
        self.pin, ask = int(number), self.method("ask_", command)
        said = self.answer(ask, rest) if ask else NO_ARGUMENTS
        # A question that is none is refused before its number is looked at.
        return NO_SUCH_IMPORT if self.pin > self.state.imports and said != NO_ARGUMENTS else said

    def do_pin(self, words: str) -> Reply:
        number = self.state.imports if words == "" else int(words)
        if number > self.state.imports:
            return NO_SUCH_IMPORT
        self.pins[self.session] = number
        return ["OK %d" % number]

    def do_unpin(self) -> Reply:
        self.pins.pop(self.session, None)
        return ["OK"]

    def do_status(self) -> Reply:
        return [self.state.status()]

    def new_rows(self, files: Sequence[File]) -> dict[tuple[str, int, str], Columns]:
        """The rows that aren't known. A line that says otherwise than a known one, or than one
        before it, is refused."""
        new: dict[tuple[str, int, str], Columns] = {}
        known = {(kind, row.name, row.date): row.columns for kind in {file.kind for file in files}
                 for row in self.rows[kind]}
        for number, file in enumerate(files, 1):
            for line, columns in enumerate(file.rows, 2):
                key = (file.kind, name_of(file.kind, columns[0]), columns[1])
                said = known[key] if key in known else new.setdefault(key, columns)
                if said != columns:
                    raise Refused("ERR 32 Contradiction %d %d" % (number, line))
        return new

    def judged(self, name: str) -> tuple[Reply, dict[tuple[str, int, str], Columns]]:
        """What the import of a release is answered, and its new rows."""
        if name not in self.releases:
            raise Refused("ERR 45 NoFolder")
        files = [file for file in self.releases[name] if file.is_basic or self.keeps_all]
        for place, file in enumerate(files, 1):
            if file.fault:
                raise Refused("ERR %s %d %d" % (file.fault.name, place, file.fault.line))
        new = self.new_rows(files)
        if new and len(self.state.segments) == MOST_SEGMENTS:
            raise Refused("ERR 6 TooManySegments")
        lines = sum(len(file.rows) for file in files)
        return ["OK %d %d %d" % (self.state.imports + 1, len(new), lines - len(new))], new

    def do_check(self, name: str) -> Reply:
        return self.judged(name)[0]

    def do_import(self, name: str) -> Reply:
        said, new = self.judged(name)
        old, number = self.state, self.state.imports + 1
        for (kind, ident, date), columns in new.items():
            self.rows[kind].append(Row(ident, date, number, columns))
        for rows in self.rows.values():
            rows.sort()
        segments = old.segments + ((len(new),) if new else ())
        self.state = State(number, old.rows + len(new), segments, old.merge)
        return said

    def do_merge(self) -> Reply:
        old = self.state
        if old.merge is not None:
            return ["ERR 10 MergeBusy"]
        if len(old.segments) < 2:
            return ["ERR 9 NothingToMerge"]
        order = sorted(range(len(old.segments)), key=lambda place: (old.segments[place], place))
        i, j = sorted(order[:2])
        left = old.segments[i] + old.segments[j]
        self.state = old._replace(merge=Merge(i, j, left, left))
        return ["OK %d" % left]

    def do_step(self, words: str) -> Reply:
        if int(words) == 0:
            return NO_ARGUMENTS
        merge = self.state.merging()
        left = max(merge.left - int(words), 0)
        self.state = self.state._replace(merge=merge._replace(left=left))
        return ["OK %d" % left]

    def do_publish(self) -> Reply:
        merge, segments = self.state.merging(), list(self.state.segments)
        if merge.left:
            return ["ERR 12 MergeUnfinished"]
        segments[merge.first] = merge.both
        del segments[merge.second]
        self.state = self.state._replace(segments=tuple(segments), merge=None)
        return ["OK"]

    def do_abandon(self) -> Reply:
        self.state.merging()
        self.state = self.state.reopened()
        return ["OK"]

    def do_trim(self) -> Reply:
        return ["OK"]

    def go_back(self, state: State) -> None:
        """As it was at a state, and opened again: no merge, no pins."""
        self.state, self.pins = state.reopened(), {}
        for kind, rows in self.rows.items():
            self.rows[kind] = [row for row in rows if row.number <= state.imports]
