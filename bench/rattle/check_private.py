"""Checks that the words of specs/ which no public contract reaches stand apart.

check_private.py [--list] [--why CRATE.WORD]

A word is a definition of a crate's specs/. It is reached if a public contract cites it, or the
definition of a word that is reached. Public contracts are the clauses of functions and traits that
other crates can name (a law is such a function), the ghost members of these traits and of their
impls for types that other crates can name, the Model and the ghost fields of these types, and the
Value and the view of the types in their fields. Proofs cite words too, and reach none; and where a
ghost member cites a definition whose body is shut, that is a proof, and isn't reached.

A module is private if its name, or that of a module around it, begins or ends with `Private`. A
word that is reached and stands in one is a fault; with `--list` so is one that isn't reached and
stands in no such module. `--why` prints the path to a word. A name that a term binds itself counts
as the word of that name: so a word may be taken for a reached one, and never the other way round.
"""

import argparse
import os
import re
import sys
from collections.abc import Callable

from source import TOP, Found, Item, Node, Project, RustModule, Word, names_in
from source import parts_of_impl, tell

TYPES = ("struct", "enum")
# The members of a Model that say what value a type has.
OF_VALUE = ("Value", "view", "inverse")


def is_private_name(module: str) -> bool:
    """Whether a module's path says that its words are private."""
    return any(re.match(r"Private|.*Private$", part) for part in module.split("."))


class Reached(Project):
    """What the public contracts of all crates reach."""

    def __init__(self) -> None:
        super().__init__()
        self.public: set[Item] = set()
        # By what each node is reached: another one, or a public contract.
        self.why: dict[Node, Node | str] = {}
        self.left: list[Node] = []
        for crate in self.crates.values():
            self.take_exports(crate.root, set())
        self.reach_public()
        while self.left:
            self.follow(self.left.pop())

    def take_exports(self, module: RustModule, seen: set[RustModule]) -> None:
        """Takes what a module hands out: its `pub` items, and what it passes on."""
        if module in seen:
            return
        seen.add(module)
        found: list[Found] = [
            item for item in module.named.values() if item.is_open or item.name == "main"]
        found += [below for below in module.below.values() if below.is_open]
        for parts, is_open in module.used.values():
            if is_open:
                found.append(self.resolve(module, parts))
        for item in found:
            if isinstance(item, RustModule):
                self.take_exports(item, seen)
            elif item is not None:
                self.public.add(item)

    # ---- what is reached

    def reach(self, node: Node, by: Node | str) -> None:
        if node not in self.why:
            self.why[node] = by
            self.left.append(node)

    def reach_clauses(self, item: Item, holder: Item | None, by: str,
                      hidden: frozenset[str] = frozenset()) -> None:
        """Reaches what the clauses of an item cite, which stands in a holder or in none. `hidden`
        are names that mean something else there, as do the ghost members of a trait."""
        scope = self.scope_within(item.module, holder)
        if holder and holder.sort == "trait":
            hidden |= {it.name for it in holder.items if it.sort == "ghost"}
        for name, text in item.clauses:
            said = f"{by} · {name}"
            for node in self.cited(text, scope, hidden):
                if not (item.sort == "ghost" and holder and self.is_proof(node)):
                    self.reach(node, said)
            for parts in names_in(text):
                found = self.resolve(item.module, parts[:1]) if parts[0] not in scope else None
                if isinstance(found, Item) and found.sort in TYPES:
                    self.reach(found, said)

    def is_proof(self, node: Node) -> bool:
        """Whether it is a word whose body is shut."""
        return not isinstance(node, Item) and self.words[node].is_proof

    def reach_function(self, item: Item, by: str) -> None:
        inside = item.head[item.head.find("("):]
        own = re.findall(r"(?:\(|,)\s*(?:mut )?(\w+)\s*:", inside)
        self.reach_clauses(item, item.holder, by, frozenset(own) | {"result", "self"})

    def reach_members(self, holder: Item, by: str, is_wanted: Callable[[Item], bool]) -> None:
        """Reaches what the members of a trait or an impl cite."""
        for item in filter(is_wanted, holder.items):
            if item.sort == "fn":
                self.reach_function(item, f"{by}::{item.name}")
            elif item.sort == "ghost":
                self.reach_clauses(item, holder, by)

    def reach_public(self) -> None:
        """Reaches what public functions, traits, types and impls cite."""
        for item in sorted(self.public, key=lambda it: (it.module.crate, it.name)):
            by = f"{item.module.crate}::{item.name}"
            if item.sort == "fn":
                self.reach_function(item, by)
            elif item.sort == "trait":
                self.reach_members(item, by, lambda member: True)
            elif item.sort in TYPES:
                self.reach(item, by)
                for field in item.items:
                    self.reach_clauses(field, None, by)
        for impl in self.impls:
            self.reach_impl(impl)

    def reach_impl(self, impl: Item) -> None:
        """Reaches what an impl cites, if it is one for a public type, of a public trait."""
        trait, made = parts_of_impl(impl.head)
        types = list(self.types_in(impl.module, made.split("<")[0]))
        front = list(self.types_in(impl.module, trait))
        name = re.sub(r"(?s)[^&\w'].*", "", made.split("::")[-1].strip())
        by = f"{impl.module.crate}::{name}"
        if not all(it in self.public for it in types + front):
            return
        if not trait:
            self.reach_members(impl, by, lambda it: it.sort == "fn" and it.is_open)
        elif trait.split("::")[-1] != "Model" or types:
            self.reach_members(impl, f"{trait} for {by}", lambda member: True)

    def follow(self, node: Node) -> None:
        """Reaches what a node that is reached cites itself."""
        if isinstance(node, Item):
            self.follow_type(node)
            return
        module = self.crates[node[0]].specs[node[1]]
        for cited in self.cited(self.words[node].text, self.scope_at(module)):
            if (isinstance(cited, Item) or cited[:2] != node[:2]
                    or self.words[cited].line < self.words[node].line):
                self.reach(cited, node)

    def follow_type(self, item: Item) -> None:
        """Reaches the types of the fields, and what the Model says of the value."""
        for found in self.types_in(item.module, item.head):
            if found.sort in TYPES and found is not item:
                self.reach(found, item)
        for impl in self.impls:
            trait, made = parts_of_impl(impl.head)
            if impl.module.crate == item.module.crate and trait.split("::")[-1] == "Model":
                if item in self.types_in(impl.module, made.split("<")[0]):
                    self.reach_members(impl, self.said(item), lambda it: it.name in OF_VALUE)

    # ---- what is said

    def said(self, node: Node | str) -> str:
        if isinstance(node, str):
            return node
        if isinstance(node, Item):
            return f"{node.module.crate}::{node.name}"
        return "%s.specs.%s.%s" % node

    def path_to(self, node: Node | str) -> str:
        """How a node is reached, from itself up to a public contract."""
        path = [self.said(node)]
        while not isinstance(node, str):
            node = self.why[node]
            path.append(self.said(node))
        return ", by ".join(path)

    def is_wrong(self, word: Word, is_listing: bool) -> bool:
        is_reached = word.key in self.why
        return is_reached == is_private_name(word.module) and (is_reached or is_listing)


def main() -> int:
    assert __doc__
    parser = argparse.ArgumentParser(description=__doc__.split("\n", maxsplit=1)[0])
    parser.add_argument("--list", action="store_true", help="those that belong apart, too")
    parser.add_argument("--why", nargs="+", default=[], metavar="CRATE.WORD")
    asked = parser.parse_args()
    project, wrong = Reached(), list[str]()
    for key, word in project.words.items():
        if f"{word.crate}.{word.name}" in asked.why:
            print(project.path_to(key) if key in project.why else project.said(key) + ": private")
        if project.is_wrong(word, asked.list):
            path = os.path.relpath(project.crates[word.crate].specs[word.module].path, TOP)
            what = project.path_to(key) if key in project.why else "no public contract reaches it"
            wrong.append(f"{path}:{word.line}: {word.name}: {what}")
    count = len(project.words)
    return tell(wrong, f"{count} words, %d not so", count)


if __name__ == "__main__":
    sys.exit(main())
