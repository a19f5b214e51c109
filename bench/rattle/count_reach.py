"""Counts what a reader of a contract has to trust, and how large the house is.

count_reach.py [CRATE::PATH ..]

For each function or law that is named, such as `history_store::Store::open`, it prints how many
words of specs/ the contract cites, itself or through other words, and how many lines their
definitions have. Without a name it prints the table that ARCHITECTURE has.

A word is reached as `check_private.py` says, and for a function that is no law also by what the
traits in its head ensure. Lines of a definition are those that have text besides a comment. A
clause is a meter if it is called `meters`, or if it counts reads, calls or failures, or says what
becomes of the blocks in memory, and hands none of that on to a word that says more. Product crates
are those that `sctd` uses, by crates.txt; the others count for specs and proofs alone.
"""

import argparse
import os
import re
import sys
from collections.abc import Iterable, Iterator

from check_private import TYPES, Reached
from source import Item, Project, crates_below, files_of, folder_of
from source import functions_in, parts_of_impl, read, without_comments

IMPORT = "history_store::Store::import"
# What README promises, and the calls through which it is kept.
CONTRACTS = (
    ("promise 1 of README",
     ("store_life::laws::each_life_is_opened", "store_life::laws::kept_are_acknowledged")),
    ("`line_server::answer`", ("line_server::answer",)),
    ("`line_server::serve`", ("line_server::serve",)),
    ("`Store::open`", ("history_store::Store::open",)),
    ("`Store::import`", (IMPORT,)))

METERS = re.compile(r"\b(?:bytes_read|other_calls|failures|failure_count|disk_faults|damages|work"
                    r"|call_count|raised_by|cap|faults)(?:_of)?\b|\w*Makes\w*Calls\b|\bCounts\w*"
                    r"|\w*ThroughCache\b|\bLooksUp\w*|\bForgets\w*|\bKeepsAll\b")
METER_NAMES = re.compile(r"ensures (?:meters|cache|same_cache|keeps|capacity|looked_up|forgets)$")
# A clause that hands on what a system is to a word that says more than counts.
HANDS_ON = re.compile(r"\bP\.stands")

# What names the layout of a store, or the form of its segments; and a comment of src/.
COMMENT = re.compile(r"//.*")
LAYOUTS = re.compile(r"\b(?:[Ll]ayouts?|layout_number|Form|forms)\b")

PROGRAM = "sctd"
# Where the store's questions stand.
STORE = "history_store/src"
QUESTIONS = ("queries.rt", "key_order.rt")


class Reach(Reached):
    """The words that some contracts reach."""

    def __init__(self, *names: str) -> None:
        self.names = names
        super().__init__()

    def reach_public(self) -> None:
        """Reaches what the functions of these names cite."""
        for name in self.names:
            function = self.function(name)
            self.reach_function(function, name)
            heads = " ".join(it.head for it in (function, function.holder) if it)
            for named in set(self.types_in(function.module, heads)):
                if named.sort in TYPES:
                    self.reach(named, name)
                # (A law takes nothing and answers nothing, and so calls nothing of a trait.)
                elif named.sort == "trait" and not function.head.rstrip().endswith("()"):
                    self.reach_members(named, name, lambda member: True)

    def function(self, name: str) -> Item:
        """The public function, or the method of a public type, with this path."""
        crate, *path = name.split("::")
        root = self.crates[crate].root if crate in self.crates and path else None
        item = self.resolve(root, path) if root else None
        if isinstance(item, Item) and item.sort == "fn":
            return item
        owner = self.resolve(root, path[:-1]) if root and path[1:] else None
        for method in self.methods(owner) if isinstance(owner, Item) else ():
            if method.name == path[-1]:
                return method
        raise LookupError(f"no public function is called {name}")

    def methods(self, owner: Item) -> Iterator[Item]:
        """The methods of a type, in impls without a trait."""
        for impl in self.impls:
            trait, made = parts_of_impl(impl.head)
            if not trait and owner in self.types_in(impl.module, made.split("<")[0]):
                yield from (it for it in impl.items if it.sort == "fn")


def reach_of(project: Reached) -> tuple[int, int]:
    """How many words are reached, and how many lines their definitions have besides comments."""
    reached = [word for word in project.words.values() if word.key in project.why]
    lines = (line for word in reached for line in without_comments(word.text).split("\n"))
    return len(reached), sum(1 for line in lines if line.strip())


def product_crates() -> set[str]:
    """The crates that the program uses, itself or through others."""
    return crates_below(PROGRAM) | {PROGRAM}


def clauses_of(project: Project) -> list[list[tuple[str, str]]]:
    """The clauses of each function of product crates: the head of each clause, and its term."""
    return [it.clauses for crate in product_crates() for it in project.crates[crate].functions()]


def is_meter(head: str, term: str) -> bool:
    """Whether a clause is a meter."""
    named = METER_NAMES.match(head) or (METERS.search(term) and not HANDS_ON.search(term))
    return head.startswith("ensures") and bool(named)


def texts_in(folder: str, crates: Iterable[str]) -> Iterator[str]:
    """The files of a folder of these crates."""
    for crate in crates:
        for ending in (".rt", ".antt"):
            yield from map(read, files_of(os.path.join(folder_of(crate), folder), ending))


def lines_in(folder: str, crates: Iterable[str]) -> int:
    return sum(text.count("\n") for text in texts_in(folder, crates))


def files_that_name(pattern: re.Pattern[str], folder: str, crates: Iterable[str]) -> int:
    """How many files of a folder of these crates have the pattern outside of comments."""
    texts = (without_comments(COMMENT.sub("", text)) for text in texts_in(folder, crates))
    return sum(bool(pattern.search(text)) for text in texts)


def ensured_by(clauses: Iterable[tuple[str, str]]) -> int:
    """How many of these clauses say what a function ensures."""
    return sum(head.startswith("ensures") for head, _ in clauses)


def rows() -> Iterator[tuple[str, tuple[int, ...]]]:
    """The rows of the table: what is counted, and its number or numbers."""
    for title, names in CONTRACTS:
        yield f"words and lines that {title} reaches", reach_of(Reach(*names))
    project = Reached()
    yield "public words, and their lines", reach_of(project)
    yield "lines of specs/", (lines_in("specs", project.crates),)
    functions = clauses_of(project)
    clauses = [clause for function in functions for clause in function]
    yield "clauses that are meters, and clauses in all", (
        sum(is_meter(*clause) for clause in clauses), len(clauses))
    most = max(map(ensured_by, functions))
    yield "what `Store::import` ensures, and the function with most", (
        ensured_by(Reach(IMPORT).function(IMPORT).clauses), most)
    yield f"lines of the store's questions in `{STORE}`", (sum(
        read(os.path.join(folder_of(STORE), name)).count("\n") for name in QUESTIONS),)
    yield "files of src/, specs/ and proofs/ in product crates that name a layout or a form", tuple(
        files_that_name(LAYOUTS, folder, product_crates())
        for folder in ("src", "specs", "proofs"))
    yield "lines of src/ in product crates", (lines_in("src", product_crates()),)
    yield "lines of proofs/", (lines_in("proofs", project.crates),)


def main() -> int:
    assert __doc__
    parser = argparse.ArgumentParser(description=__doc__.split("\n", maxsplit=1)[0])
    parser.add_argument("names", nargs="*", metavar="CRATE::PATH")
    names = parser.parse_args().names
    try:
        for name in names:
            print("%s: %d words, %d lines" % (name, *reach_of(Reach(name))))
        if names[1:]:
            print("together: %d words, %d lines" % reach_of(Reach(*names)))
        for title, numbers in () if names else rows():
            print(f"| {title} | {', '.join(map('{:,}'.format, numbers))} |")
    except LookupError as error:
        print(error, file=sys.stderr)
        return 1
    return 0


if __name__ == "__main__":
    sys.exit(main())
