"""Isn't started: the one reader of Rattle and of specs/, which all scripts here stand on.

Of a file of Rattle it reads the items, with the clauses of functions, and passes over bodies; of a
file of specs/ the lines `use` and the words, which are its definitions. A project is all crates,
and what the names in them are. Standard library alone.
"""

from __future__ import annotations

import functools
import glob
import os
import re
import sys
from collections.abc import Collection, Iterable, Iterator, Sequence
from typing import NamedTuple, Union

TOP = os.path.dirname(os.path.dirname(os.path.dirname(os.path.abspath(__file__))))
CRATES = os.path.join(TOP, "crates")

# A line of crates.txt: a crate, and which ones it uses.
USES = re.compile(r"^(\w+)[^:#\n]*:([^#\n]*)", re.M)
USE = re.compile(r"\s*(?:pub )?(?:ghost )?use (?P<path>[^\s;{]+?)(?:\.\{(?P<names>[^}]*)\})?"
                 r"(?: as (?P<alias>\S+?))?;?\s*$")
DECLARATION = re.compile(r"(?:(?:abbrev|unfoldable|pattern) )*(?:pub )?(?:(?P<sort>record|data) )?"
                         r"(?P<name>[^\s(){}]+)(?= )")
HEAD = re.compile(r"(?:abbrev|unfoldable|pattern|pub|record|data|module|mutual|infix\w*)\s"
                  r"|[^\s(){}]+(?: \{[^}]*\})? :(?:\s|$)")
ANTT_NAME = re.compile(r'[^\s(){};,"«»]+')
STRING = re.compile(r'"(?:[^"\\\n]|\\.)*"')
QUOTED = re.compile(STRING.pattern + r"|(?:^|(?<=\s))--.*$", re.M)
CONSTRUCTORS = re.compile(r"^  (?P<names>[^\s:(){}]+(?: [^\s:(){}]+)*) :", re.M)

# A word: its crate, its module and its name. What a name can be of is a word, or an item of Rattle;
# in a scope also the path of a module, or nothing.
Key = tuple[str, str, str]
Node = Union[Key, "Item"]
Scope = dict[str, Union[Node, str, None]]


def read(path: str) -> str:
    with open(path, encoding="utf-8", newline="") as file:
        return file.read()


@functools.cache
def uses() -> dict[str, list[str]]:
    """Of each crate of the repository those that it uses, in the order of crates.txt."""
    found = {it[1]: it[2].split() for it in USES.finditer(read(os.path.join(TOP, "crates.txt")))}
    return {name: [one for one in used if one in found] for name, used in found.items()}


def crates_below(crate: str) -> set[str]:
    """The crates of the repository that a crate uses, directly or through others."""
    below: set[str] = set()
    left = [crate]
    while left:
        new = set(uses()[left.pop()]) - below
        below |= new
        left += new
    return below


def folder_of(crate: str) -> str:
    return os.path.join(CRATES, crate)


def files_of(folder: str, ending: str) -> list[str]:
    """The files below a folder of a crate whose names end so."""
    return sorted(glob.glob(f"{folder}/**/*{ending}", recursive=True))


def tell(faults: Iterable[str], said: str, count: int) -> int:
    """Prints what isn't so, and behind it the number of that in a text: the status of a script that
    looked at so many things."""
    wrong = list(faults)
    print(*wrong, said % len(wrong), sep="\n", file=sys.stderr)
    return 1 if wrong or not count else 0


def without_comments(text: str) -> str:
    return QUOTED.sub(lambda found: found[0] if found[0].startswith('"') else "", text)


def spellings(name: str) -> list[str]:
    """A name, and the parts that stand between the arguments if it is an operator."""
    return [name] + [part for part in name.split("◌") if part and part != name]


# ---- antt


class Import(NamedTuple):
    """A `use` line: the path of a module, what that is called here, and its names, if it is for
    these, with what each is called."""

    path: str
    alias: str
    names: list[tuple[str, str]] | None


def import_in(line: str) -> Import | None:
    """The import that a line is, or None."""
    found = USE.match(line)
    if not found:
        return None
    names = None
    if found["names"] is not None:
        pairs = (part.split(" as ") for part in found["names"].split(",") if part.strip())
        names = [(pair[0].strip(), pair[-1].strip()) for pair in pairs]
    return Import(found["path"], found["alias"] or found["path"].split(".")[-1], names)


class Word:
    """A definition: its name, its text, and the line on which it begins."""

    def __init__(self, key: Key, sort: str | None, text: str, line: int) -> None:
        self.key, self.sort, self.text, self.line = key, sort, text, line
        self.crate, self.module, self.name = key
        # Its body is shut, so that nothing but what its signature says is known of it.
        self.is_proof = not sort and not re.match(r"abbrev|unfoldable|pattern", text)
        self.constructors: list[str] = []
        if sort == "data":
            for found in CONSTRUCTORS.finditer(text):
                self.constructors += found["names"].split(" ")


class Module:
    """A file of specs/: its imports, its words, and the modules that it names or passes on."""

    def __init__(self, crate: str, name: str, path: str) -> None:
        self.crate, self.name, self.path = crate, name, path
        self.imports: list[Import] = []
        self.words: list[Word] = []
        # The lines of no word, such as how tightly an operator binds.
        self.rest: list[str] = []
        self.passed: dict[str, str] = {}
        self.passed_names: dict[str, tuple[str, str]] = {}
        begun = 0
        lines = read(path).split("\n")
        for number, line in enumerate(lines + ["pub "], 1):
            if re.match(r"(pub )?use ", line):
                self.take_use(line)
            elif HEAD.match(line) and not line.startswith("pub mod "):
                if begun:
                    self.take_word(lines[begun - 1: number - 1], begun)
                begun = number

    def take_use(self, line: str) -> None:
        found = import_in(line)
        assert found is not None, line
        self.imports.append(found)
        if line.startswith("pub ") and found.names is None:
            self.passed[found.alias] = found.path
        elif line.startswith("pub "):
            self.passed_names.update((here, (found.path, name)) for name, here in found.names or ())

    def take_word(self, lines: list[str], number: int) -> None:
        found = DECLARATION.match(lines[0])
        if found and not re.match(r"infix|module|mutual", lines[0]):
            key = (self.crate, self.name, found["name"])
            text = without_comments("\n".join(lines))
            self.words.append(Word(key, found["sort"], text, number))
        else:
            self.rest += lines


def names_in(text: str) -> Iterator[list[str]]:
    """The names that a term has, each as its parts between dots; what follows a `)` is a field."""
    text = QUOTED.sub(" ", text)
    for token in ANTT_NAME.findall(text):
        parts = token.split(".")
        if parts[0] or len(parts) == 1:
            yield parts
    if re.search(r"(?<![^\s(])do(?!\S)", text):
        yield [">>="]


# ---- Rattle


HOLDERS = ("impl", "trait")


class Item:
    """An item of Rattle: what it is, its name, whether it is `pub`, and what stands in it."""

    def __init__(self, sort: str, name: str, is_open: bool) -> None:
        self.sort, self.name, self.is_open = sort, name, is_open
        self.head, self.is_test, self.is_inline = "", False, False
        # Its text in its file, and where that begins and ends. Of a function where its head and its
        # clauses end, and where the brace of its body stands, if it has one.
        self.text, self.begin, self.end, self.body = "", 0, 0, 0
        self.brace: int | None = None
        # The head of each clause, and its term.
        self.clauses: list[tuple[str, str]] = []
        self.items: list[Item] = []
        # The impl or the trait around it, and the module that it stands in, once that has taken it.
        self.holder: Item | None = None
        self.module: RustModule

    def members(self) -> list[Item]:
        """What stands in an impl or a trait."""
        return self.items if self.sort in HOLDERS else []


class Reader:
    """Reads the items of a file of Rattle; bodies of functions are passed over."""

    SKIPPED = re.compile(r'\s+|//[^\n]*|/\*.*?\*/', re.S)
    TEXT = re.compile(r'b?r(#*)".*?"\1|b?"(?:[^"\\]|\\.)*"|b?\'(?:[^\'\\]|\\[^\']+)\'', re.S)
    NAME = re.compile(r"\w+")
    OPENERS, CLOSERS = "([{", ")]}"

    def __init__(self, text: str) -> None:
        self.text, self.at = text, 0

    def token(self) -> str:
        """The next token, or an empty one at the end."""
        found = self.SKIPPED.match(self.text, self.at)
        while found:
            self.at = found.end()
            found = self.SKIPPED.match(self.text, self.at)
        for form in (self.TEXT, self.NAME):
            found = form.match(self.text, self.at)
            if found:
                self.at = found.end()
                return found[0]
        self.at += 1
        return self.text[self.at - 1: self.at]

    def peek(self) -> str:
        at = self.at
        token = self.token()
        self.at = at
        return token

    def skip_group(self) -> None:
        """Passes over a group, from its opening bracket to the one that closes it."""
        depth = 0
        while True:
            token = self.token()
            depth += (token in self.OPENERS) - (token in self.CLOSERS) if token else 0
            if depth <= 0 or not token:
                return

    def term(self) -> str:
        """The term of a clause, between braces."""
        self.token()
        begin, depth = self.at, 1
        while depth:
            found = re.compile(r'[{}]|"(?:[^"\\]|\\.)*"').search(self.text, self.at)
            assert found is not None, self.text[begin:]
            depth += {"{": 1, "}": -1}.get(found[0], 0)
            self.at = found.end()
        return self.text[begin: self.at - 1]

    def until(self, stops: Collection[str]) -> str:
        """What stands before one of these tokens, outside of groups."""
        begin = self.at
        while self.peek() and self.peek() not in stops:
            if self.peek() in self.OPENERS:
                self.skip_group()
            else:
                self.token()
        return self.text[begin: self.at]

    def items(self) -> list[Item]:
        """The items up to the end of the block."""
        items: list[Item] = []
        while self.peek() and self.peek() != "}":
            item = self.item()
            if item:
                items.append(item)
        self.token()
        return items

    def item(self) -> Item | None:
        """The next item, with what stands before its first word."""
        is_test = is_open = False
        begin = self.at
        while True:
            token = self.token()
            if token == "#":
                at = self.at
                self.until("[")
                self.skip_group()
                found = re.match(r"\[(cfg\()?test", self.text[at: self.at])
                is_test = is_test or found is not None
            elif token == "pub":
                is_open = self.peek() != "("
                if not is_open:
                    self.skip_group()
            elif not (token == "const" and self.peek() == "fn") and token != "unsafe":
                break
        item = self.item_of(token, is_open)
        if item:
            item.is_test = is_test
            item.begin, item.end, item.text = begin, self.at, self.text[begin: self.at]
        return item

    def item_of(self, sort: str, is_open: bool) -> Item | None:
        """The item that begins with this word."""
        if sort == "ghost":
            return self.ghost()
        if sort in ("use", "type", "const", "static"):
            item = Item(sort, self.peek(), is_open)
            item.head = self.until(";")
            self.token()
            return item
        if sort in ("mod", "struct", "enum", "trait", "impl", "fn"):
            item = Item(sort, self.peek(), is_open)
            getattr(self, "read_" + sort)(item)
            return item
        self.until(";{")
        self.skip_group()
        return None

    def ghost(self) -> Item:
        """A `ghost use`, or a ghost field or member."""
        name = self.token()
        item = Item("ghost", name, True)
        if name == "use":
            item.sort = "ghost use"
            begin = self.text.rindex("ghost", 0, self.at)
            self.at = self.text.index(";", self.at) + 1
            item.head = self.text[begin: self.at]
            return item
        self.token()
        item.clauses.append((name, self.term()))
        if self.peek() in (";", ","):
            self.token()
        return item

    def read_block(self, item: Item) -> None:
        """Reads a module, an impl or a trait."""
        item.head = self.until(";{")
        item.is_inline = self.token() == "{"
        item.items = self.items() if item.is_inline else []
        for member in item.members():
            member.holder = item

    read_mod = read_impl = read_trait = read_block

    def read_struct(self, item: Item) -> None:
        item.head = self.until("{;")
        if self.token() == "{":
            item.items = self.fields()
            item.head += " ".join(field.head for field in item.items)

    def fields(self) -> list[Item]:
        fields: list[Item] = []
        while self.peek() not in ("}", ""):
            if self.peek() == "#":
                self.token()
                self.skip_group()
            elif self.peek() == "ghost":
                self.token()
                fields.append(self.ghost())
            else:
                field = Item("field", "", True)
                field.head = self.until(",}")
                fields.append(field)
                if self.peek() == ",":
                    self.token()
        self.token()
        return fields

    def read_enum(self, item: Item) -> None:
        item.head = self.until("{")
        begin = self.at
        self.skip_group()
        item.head += self.text[begin: self.at]

    def read_fn(self, item: Item) -> None:
        stops = ("requires", "ensures", "ghost", "{", ";")
        item.head = self.until(stops)
        while self.peek() in stops[:3]:
            kind = self.token()
            name = self.until("{")
            item.clauses.append((kind + " " + name.strip(), self.term()))
        item.body = self.at
        if self.token() == "{":
            item.brace = self.at = self.at - 1
            self.skip_group()


def functions_in(items: Iterable[Item]) -> Iterator[Item]:
    """The functions among items, and in the impls, traits and modules among them."""
    for item in items:
        if item.sort == "fn":
            yield item
        elif item.sort in (*HOLDERS, "mod"):
            yield from functions_in(item.items)


def functions_of(text: str) -> Iterator[Item]:
    """The functions of the text of a file."""
    return functions_in(Reader(text).items())


def function_around(text: str, at: int) -> tuple[Item, Item | None] | None:
    """The function of the text of a file in which a place lies, if it has a body, with the impl or
    the trait around it."""
    return next(((it, it.holder) for it in functions_of(text)
                 if it.begin <= at < it.end and it.brace is not None), None)


# Brackets around arguments, of types too.
OPENED, CLOSED = "([{<", ")]}>"
RUST_PATH = re.compile(r"[A-Za-z_]\w*(?:::[A-Za-z_]\w*)*")


def depths(text: str) -> Iterator[tuple[int, str, int]]:
    """Each sign of a text with its place, and in how many brackets it stands; an arrow closes
    none."""
    depth = 0
    for at, sign in enumerate(text):
        depth -= sign in CLOSED and text[at - 1 : at + 1] not in ("->", "=>")
        yield at, sign, depth
        depth += sign in OPENED


def pieces(text: str) -> list[str]:
    """What stands between the commas that are in no brackets, up to the end of a text or of the
    brackets that it stands in."""
    found = [""]
    for _, sign, depth in depths(text):
        if depth < 0:
            break
        if sign == "," and depth == 0:
            found.append("")
        else:
            found[-1] += sign
    return [piece for piece in map(str.strip, found) if piece]


def parameters(head: str) -> list[str]:
    """The names of a function's parameters, by its head."""
    begin = next(at for at, sign, depth in depths(head) if sign == "(" and depth == 0)
    names = (piece.split(":")[0].replace("mut ", "").strip(" &\n")
             for piece in pieces(head[begin + 1 :]))
    return [re.sub(r"^'\w+ ", "", name) for name in names if name]


def used_names(text: str, front: Sequence[str] = ()) -> Iterator[tuple[list[str], str]]:
    """The names that a `use` brings: each with its path, without braces."""
    path, brace, inner = text.strip().partition("{")
    if brace:
        for piece in pieces(inner):
            yield from used_names(piece, [*front, *filter(None, path.split("::"))])
        return
    path, _, alias = path.partition(" as ")
    parts = [*front, *path.strip().split("::")]
    if parts[-1] == "self":
        parts.pop()
    yield parts, alias.strip() or parts[-1]


class RustModule:
    """A module of Rattle: its items, the modules below it, and what its `use` lines bring."""

    def __init__(self, crate: str, name: str, above: RustModule | None, path: str) -> None:
        self.crate, self.name, self.above, self.path = crate, name, above, path
        self.is_open = False
        self.items: list[Item] = []
        self.below: dict[str, RustModule] = {}
        # The path of each name that a `use` brings, and whether that is `pub`.
        self.used: dict[str, tuple[list[str], bool]] = {}
        self.ghost_uses: list[str] = []
        self.named: dict[str, Item] = {}

    def take(self, items: list[Item], folder: str) -> None:
        """Takes items, and reads the files of the modules that they name."""
        for item in items:
            for one in (item, *item.items):
                one.module = self
            if item.sort == "use":
                for parts, alias in used_names(item.head):
                    self.used[alias] = (parts, item.is_open)
            elif item.sort == "ghost use":
                self.ghost_uses.append(item.head)
            elif item.sort == "mod" and not item.is_test:
                self.take_module(item, folder)
            elif item.sort != "impl" and not item.is_test:
                self.named[item.name] = item
        self.items = [item for item in items if not item.is_test]

    def take_module(self, item: Item, folder: str) -> None:
        below = RustModule(self.crate, item.name, self, self.path)
        below.is_open = item.is_open
        items = item.items
        if not item.is_inline:
            below.path = os.path.join(folder, item.name + ".rt")
            items = Reader(read(below.path)).items()
        below.take(items, os.path.join(folder, item.name))
        self.below[item.name] = below

    def all(self) -> Iterator[RustModule]:
        yield self
        for below in self.below.values():
            yield from below.all()


class Crate:
    """A crate: its modules of Rattle, and those of specs/."""

    def __init__(self, name: str) -> None:
        self.name = name
        self.folder = os.path.join(TOP, "crates", name)
        self.specs: dict[str, Module] = {}
        for path in sorted(glob.glob(self.folder + "/specs/**/*.antt", recursive=True)):
            module = os.path.relpath(path, self.folder + "/specs")[: -len(".antt")]
            module = module.replace(os.sep, ".")
            self.specs[module] = Module(name, module, path)
        self.root = RustModule(name, "", None, "")
        for root in ("lib", "main"):
            path = os.path.join(self.folder, "src", root + ".rt")
            if os.path.exists(path):
                self.root = RustModule(name, "", None, path)
                self.root.take(Reader(read(path)).items(), os.path.join(self.folder, "src"))

    def functions(self) -> Iterator[Item]:
        """Its functions, those in impls and traits too."""
        for module in self.root.all():
            yield from functions_in(it for it in module.items if it.sort != "mod")


# What a path of Rattle names, if it names anything.
Found = Union[Item, RustModule, None]


class Project:
    """All crates, and what the names in them are."""

    def __init__(self) -> None:
        names = sorted(os.path.basename(d) for d in glob.glob(CRATES + "/*"))
        self.crates = {name: Crate(name) for name in names}
        self.words = {w.key: w for c in self.crates.values() for m in c.specs.values()
                      for w in m.words}
        self.scopes: dict[Module, Scope] = {}
        self.modules = [it for crate in self.crates.values() for it in crate.root.all()]
        self.impls = [it for module in self.modules for it in module.items if it.sort == "impl"]

    # ---- names

    def module_at(self, path: str) -> Module | None:
        """The module of specs/ with this path, such as `Rattle.blocks.specs.Cache`."""
        parts = path.split(".")
        crate = self.crates.get(parts[1]) if len(parts) > 3 and parts[0] == "Rattle" else None
        if crate is None or parts[2] != "specs" or parts[3] == "declared":
            return None
        parts = parts[3:]
        for at, part in enumerate(parts):
            above = crate.specs.get(".".join(parts[:at]) or "Lib")
            if above and part in above.passed:
                return self.module_at(".".join([above.passed[part]] + parts[at + 1:]))
        return crate.specs.get(".".join(parts))

    def node_at(self, path: str, name: str) -> Node | None:
        """What a name of a module is: a word, a type of Rattle, or None for what isn't ours."""
        parts = path.split(".")
        if len(parts) > 4 and parts[2:4] == ["specs", "declared"] and parts[1] in self.crates:
            parts = [part for part in parts[4:] if not part.startswith("The")]
            return self.type_at(self.crates[path.split(".")[1]], parts)
        module = self.module_at(path)
        for word in module.words if module else []:
            if name == word.name or name in word.constructors:
                return word.key
        if module and name in module.passed_names:
            return self.node_at(*module.passed_names[name])
        return None

    def node_of(self, parts: list[str], scope: Scope) -> Node | None:
        """What a name with dots is, in a scope: its first part may be a module, or `Rattle`."""
        node = "Rattle" if parts[0] == "Rattle" else scope.get(parts[0])
        if not isinstance(node, str):
            return node
        for at in range(1, len(parts)):
            found = self.node_at(".".join([node] + parts[1:at]), parts[at])
            if found:
                return found
        return None

    def type_at(self, crate: Crate, parts: list[str]) -> Item | None:
        """The type that stands at a path of a crate."""
        module = crate.root
        for part in parts:
            if part in module.named and part == parts[-1]:
                return module.named[part]
            if part not in module.below:
                return None
            module = module.below[part]
        return None

    def scope_of(self, imports: Iterable[Import], own: Iterable[Word] = ()) -> Scope:
        """What names mean below some imports: a node, or the path of a module."""
        scope: Scope = {}
        for found in imports:
            if found.names is None:
                scope[found.alias] = found.path
                continue
            for name, here in found.names:
                node = self.node_at(found.path, name)
                scope.update((part, node) for part in spellings(here) if node or part == here)
        for word in own:
            for name in spellings(word.name) + word.constructors:
                scope[name] = word.key
        return scope

    def scope_at(self, module: Module) -> Scope:
        """What names mean in a module of specs/."""
        if module not in self.scopes:
            self.scopes[module] = self.scope_of(module.imports, module.words)
        return self.scopes[module]

    def scope_within(self, module: RustModule, holder: Item | None) -> Scope:
        """What names mean in clauses that stand in a module of Rattle, in an impl or a trait or in
        none."""
        lines = [it.head for it in holder.items if it.sort == "ghost use"] if holder else []
        around: RustModule | None = module
        while around and around.path == module.path:
            lines = around.ghost_uses + lines
            around = around.above
        return self.scope_of(filter(None, map(import_in, lines)))

    def cited(self, text: str, scope: Scope, hidden: Collection[str] = ()) -> Iterator[Node]:
        """The nodes that a term names, in a scope."""
        for parts in names_in(text):
            node = self.node_of(parts, scope) if parts[0] not in hidden else None
            if node:
                yield node

    def resolve(self, module: RustModule, parts: list[str],
                seen: tuple[tuple[RustModule, tuple[str, ...]], ...] = ()) -> Found:
        """The item or the module that a path of Rattle names, or None."""
        if (module, tuple(parts)) in seen:
            return None
        seen = seen + ((module, tuple(parts)),)
        first, rest = parts[0], parts[1:]
        found: Found
        if first in ("crate", "self", "super"):
            found = {"crate": self.crates[module.crate].root, "self": module,
                     "super": module.above}[first]
        elif first in module.named:
            found = module.named[first]
        elif first in module.below:
            found = module.below[first]
        elif first in module.used and module.used[first][0] != parts:
            found = self.resolve(module, module.used[first][0], seen)
        else:
            found = self.crates[first].root if first in self.crates else None
        if rest and isinstance(found, RustModule):
            return self.resolve(found, rest, seen)
        return found

    def types_in(self, module: RustModule, text: str) -> Iterator[Item]:
        """The types that a piece of Rattle names."""
        for path in RUST_PATH.findall(STRING.sub("", text)):
            found = self.resolve(module, path.split("::"))
            if isinstance(found, Item) and found.sort in ("struct", "enum", "type", "trait"):
                yield found


def parts_of_impl(head: str) -> tuple[str, str]:
    """The trait, or nothing, and the type of an impl."""
    head = re.sub(r"\s+", " ", head).strip()
    if head.startswith("<"):
        end = next(at for at, sign, depth in depths(head) if sign == ">" and depth == 0)
        head = head[end + 1:].strip()
    head = head.split(" where ")[0]
    trait, found, made = head.partition(" for ")
    return (trait.strip(), made.strip()) if found else ("", head.strip())
