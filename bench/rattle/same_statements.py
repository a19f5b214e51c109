"""Lists the lemmas of proofs/ that state the same under other names, in groups.

same_statements.py [--only CRATE]

Two statements are the same if they are but for the names and the types of what they bind, for the
order of their premises, for braces in place of parentheses, and for the names that a file gives to
what it imports. `--only` takes the groups that have a lemma of this crate. Each line is a lemma,
with its file and its line.
"""

import argparse
import os
import re
from collections import defaultdict
from collections.abc import Iterable, Iterator
from typing import NamedTuple, Union

from source import CRATES, TOP, files_of, import_in, read

# What answers a goal of a function is stated by the goal.
ANSWERS = ("Lib.antt", "Answers.antt", "Invariants.antt")
# How the paths of the library begin. Its words go by their names alone, as many have two paths.
LIBRARY = ("Rattle.std", "Prim", "lib.", "mathlib")
# What the type of a value begins with, which is no statement.
VALUES = ("List ", "Option ", "Type ")
# How much of a statement is printed.
MOST_SAID = 300

# A module with parameters, what has a name and a type, or another line that isn't a comment.
ITEM = re.compile(r"^(?P<indent> *)(?!--)(?:module _ (?P<parameters>(?s:.*?))where$"
                  r"|(?P<sort>(?:pub |abbrev |unfoldable )*)(?P<name>[^\s:(){}]+) : "
                  r"(?P<said>.*(?:\n(?P=indent) +\S.*)*)|\S)", re.M)
WORD = re.compile(r"[()\[\],;]|[^\s()\[\],;]+")
BOUND = re.compile(r"%[^\s.]+")

# A word, or a group of words with its brackets.
Tree = Union[str, list["Tree"]]


class Lemma(NamedTuple):
    """A lemma: where it stands, and its premises and last what it gives from them."""

    name: str
    path: str
    line: int
    parts: list[str]

    def is_statement(self) -> bool:
        """Whether it states something, rather than naming a value."""
        last = self.parts[-1]
        return " " in last and not last.startswith(VALUES) or last == "⊥"

    def said(self) -> str:
        """What is stated, with the premises in one order, and what it binds numbered."""
        *premises, last = self.parts
        premises.sort(key=lambda premise: BOUND.sub("%", premise))
        numbers: dict[str, str] = {}
        text = " | ".join(premises) + " ⊢ " + last
        return BOUND.sub(lambda it: numbers.setdefault(it[0], f"%{len(numbers)}"), text)


def trees_of(words: Iterator[str]) -> list[Tree]:
    """The words up to the end of a group, or up to the last one, with the groups among them."""
    found: list[Tree] = []
    for word in words:
        found.append([word, *trees_of(words)] if word in ("(", "[") else word)
        if word in (")", "]"):
            break
    return found


def flat(trees: Iterable[Tree]) -> Iterator[str]:
    """The words of trees."""
    for tree in trees:
        yield from [tree] if isinstance(tree, str) else flat(tree)


def bound_by(tree: Tree) -> list[str]:
    """The names that a group such as `(x y : A)` binds."""
    if isinstance(tree, str) or tree[0] != "(" or ":" not in tree:
        return []
    names = tree[1 : tree.index(":")]
    return [it for it in names if isinstance(it, str)] if all(map(is_name, names)) else []


def is_name(tree: Tree) -> bool:
    return isinstance(tree, str) and tree not in (",", ";")


def bound_in(trees: Iterable[Tree]) -> Iterator[str]:
    """The names that trees bind, by a group or between a λ and its full stop."""
    is_lambda = False
    for tree in trees:
        is_lambda = tree == "λ" or is_lambda and tree != "."
        if not isinstance(tree, str):
            yield from (*bound_by(tree), *bound_in(tree))
        elif is_lambda and tree != "λ":
            yield tree


def parts_of(text: str, parameters: str, known: dict[str, str]) -> list[str]:
    """The premises of a statement, and last what it gives, without what each begins with binding.
    What is bound has a sign before its name, and other names are as they are known."""
    trees, around = (trees_of(iter(WORD.findall(re.sub(
        r"\.(?=\s)", " .", it.replace("{", "(").replace("}", ")"))))) for it in (text, parameters))
    meant = known | {name: f"%{name}" for name in bound_in([*around, *trees])}
    parts: list[list[Tree]] = [[]]
    for tree in trees:
        if tree == "→":
            parts.append([])
        elif parts[-1] or not bound_by(tree):
            parts[-1].append(tree)
    return [" ".join(named(word, meant) for word in flat(part)) for part in parts if part]


def named(word: str, meant: dict[str, str]) -> str:
    """What a word stands for, or what its first part does if it has fields behind it."""
    if word in meant:
        return meant[word]
    root, dot, fields = word.partition(".")
    return meant.get(root, root) + dot + fields


def items_of(text: str) -> Iterator[tuple[re.Match[str], str]]:
    """What has a name and a type in a file, with the parameters of the modules around it."""
    around: list[tuple[int, str]] = []
    for found in ITEM.finditer(text):
        indent = len(found["indent"])
        around = [(deep, parameters) for deep, parameters in around if deep < indent]
        if found["parameters"] is not None:
            around.append((indent, found["parameters"]))
        elif found["name"] and indent == 2 * len(around):
            yield found, " ".join(parameters for _, parameters in around)


def lemmas_of(path: str) -> Iterator[Lemma]:
    """The lemmas of a file, without the abbreviations of types."""
    text, inside = read(path), os.path.relpath(path, TOP)
    items = list(items_of(text))
    known = {found["name"]: f"{inside}.{found['name']}" for found, _ in items}
    for it in filter(None, map(import_in, text.split("\n"))):
        known.update((here, name if it.path.startswith(LIBRARY) else f"{it.path}.{name}")
                     for name, here in it.names or ())
    for found, parameters in items:
        if not found["sort"].startswith("abbrev") or "Type" not in found["said"]:
            yield Lemma(found["name"], inside, text.count("\n", 0, found.start()) + 1,
                        parts_of(found["said"], parameters, known))


def main() -> None:
    parser = argparse.ArgumentParser(description=(__doc__ or "").split("\n", maxsplit=1)[0])
    parser.add_argument("--only", metavar="CRATE", default="", help="with a lemma of this crate")
    top = os.path.join(CRATES, parser.parse_args().only, "")
    groups: dict[str, list[Lemma]] = defaultdict(list)
    for path in files_of(os.path.join(CRATES, "*", "proofs"), ".antt"):
        for lemma in lemmas_of(path) if os.path.basename(path) not in ANSWERS else ():
            groups[lemma.said()].append(lemma)
    told = [(said, group) for said, group in groups.items()
            if len(group) > 1 and group[0].is_statement()
            and any(os.path.join(TOP, it.path).startswith(top) for it in group)]
    for said, group in sorted(told, key=lambda one: (-len(one[1]), one[0])):
        print(f"== {len(group)} lemmas: {said[:MOST_SAID]}")
        print(*(f"   {it.path}:{it.line} {it.name}" for it in group), sep="\n")
    print(f"{len(told)} groups, {sum(len(group) for _, group in told)} lemmas, "
          f"of {sum(map(len, groups.values()))}")


if __name__ == "__main__":
    main()
