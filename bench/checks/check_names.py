"""Checks that what the documents name and link to is there.

A link has to lead to a file of the repository and, behind `#`, to one of its headings. Of each text
between backquotes that begins with the name of a crate and `::`, each further word has to stand in
that crate's src/ or specs/, where `crate::{one, other}` names two. Each text that ends with .rt,
.antt, .py, .md, .rs or .service and has a slash has to be a path from the top of the repository,
from crates/ or from a crate's folder. And no module, type or trait of the sources may have the name
of a crate, and no folder of proofs/ stand for what is gone, both of which `rt ci` refuses only once
it comes to that crate; and bench/README.md has to have each script of bench/.
"""

import functools
import glob
import os
import re
import sys
from collections.abc import Iterator

from documents import TOP, documents, lost_links, name_of

sys.path.append(str(TOP / "bench" / "rattle"))
from source import TOP as ROOT, files_of, folder_of, read, tell  # noqa: E402

QUOTED = re.compile(r"`([^`]+)`")
NAMED = re.compile(r"(?<![\w:])(\w+)::((?:\w+::)*)(\{[^}]*\}|\w+)")
PATH = re.compile(r"[\w.-]+(?:/[\w.-]+)+\.(?:rt|antt|py|md|rs|service)$")
FUNCTION = re.compile(r"\bfn (\w+)")
ITEM = re.compile(r"^\s*(?:pub(?:\([a-z]+\))? )?(mod|struct|enum|trait|type) (\w+)", re.M)
# (The proofs of what a type does for a trait stand under both names, put together.)
MEETS = re.compile(r"^impl(?:<.*?>)? (?:\w+::)*(\w+)(?:<.*?>)? for (\w+)", re.M)
INDEX = "bench/README.md"
HEADING = re.compile(r"^## (\w+)", re.M)
# What is named as an example of a path or of a release, and not as a file of this repository.
EXAMPLES = ("releases/",)


@functools.cache
def text_of(crate: str, part: str, ending: str) -> str:
    """All files of a folder of a crate, as one text."""
    return "\n".join(map(read, files_of(os.path.join(folder_of(crate), part), ending)))


def words_of(crate: str) -> set[str]:
    """The words of a crate's sources and definitions."""
    both = text_of(crate, "src", ".rt") + text_of(crate, "specs", ".antt")
    return set(re.findall(r"\w+", both))


def is_file(path: str) -> bool:
    """Whether it is a path from the top, from crates/ or, as `src/..`, from some crate."""
    return any(glob.glob(os.path.join(ROOT, top, path)) for top in ("", "crates", "crates/*"))


def faults_of(text: str, words: dict[str, set[str]]) -> Iterator[str]:
    """What a document names that isn't there."""
    for quoted in QUOTED.findall(re.sub(r"```.*?```", "", text, flags=re.S)):
        quoted = " ".join(quoted.split())
        for crate, modules, last in NAMED.findall(quoted):
            if crate in words:
                names = re.findall(r"\w+", modules + last)
                lost = [name for name in names if name not in words[crate]]
                yield from (quoted + ": " + crate + " has no " + name for name in lost)
        if PATH.match(quoted) and not quoted.startswith(EXAMPLES) and not is_file(quoted):
            yield quoted + ": there is no such file"


def named_as_crates(crates: list[str]) -> Iterator[str]:
    """The items of the sources that are named as a crate."""
    for path in sorted(path for crate in crates
                       for path in files_of(os.path.join(folder_of(crate), "src"), ".rt")):
        for kind, name in ITEM.findall(read(path)):
            if name in crates:
                yield "%s: %s %s: a crate has that name" % (os.path.relpath(path, ROOT), kind, name)


def proofs_of_nothing(words: dict[str, set[str]]) -> Iterator[str]:
    """The folders of proofs/ whose module, type or function is gone; what a type has of a trait
    stands under the names of both as one word."""
    for crate in sorted(words):
        text, top = text_of(crate, "src", ".rt"), folder_of(crate)
        known = words[crate] | {kind + trait for trait, kind in MEETS.findall(text)}
        functions = set(FUNCTION.findall(text))
        for path in sorted(glob.glob(top + "/proofs/*/**/", recursive=True)):
            folder = os.path.relpath(path, top)
            has_answers = os.path.exists(os.path.join(path, "Answers.antt"))
            # (The folder of a function that calls itself begins with a plus sign.)
            name = os.path.basename(folder).removeprefix("+")
            if name not in (functions if has_answers else known):
                yield "crates/%s/%s: there is no such item" % (crate, folder)


def scripts_listed(text: str) -> Iterator[str]:
    """The scripts that the index of bench/ has, by their paths in bench/."""
    parts = HEADING.split(text)
    folders = ["", *(name + "/" for name in parts[1::2])]
    for folder, part in zip(folders, parts[::2]):
        for line in part.split("\n"):
            if line.startswith("| `"):
                cell = re.split(r"(?<!\\)\|", line)[1]
                yield from (folder + name for name in re.findall(r"`([\w.]+\.(?:py|rs))\b", cell))


def scripts_not_listed() -> Iterator[str]:
    """Where the index of bench/ differs from its scripts."""
    found = {os.path.relpath(path, ROOT + "/bench")
             for path in glob.glob(ROOT + "/bench/**/*", recursive=True)
             if path.endswith((".py", ".rs"))}
    listed = set(scripts_listed(read(os.path.join(ROOT, INDEX))))
    yield from (INDEX + ": it has no line for " + name for name in sorted(found - listed))
    yield from (INDEX + ": there is no " + name for name in sorted(listed - found))


def main() -> int:
    crates = [os.path.basename(path) for path in glob.glob(ROOT + "/crates/*")]
    words = {crate: words_of(crate) for crate in crates}
    count, lost = 0, list[str]()
    for path in documents():
        text = read(str(path))
        count += len(QUOTED.findall(text))
        lost += ("%s: %s" % (name_of(path), fault)
                 for fault in (*faults_of(text, words), *lost_links(path, text)))
    lost += [*named_as_crates(crates), *proofs_of_nothing(words), *scripts_not_listed()]
    return tell(lost, f"quoted texts: {count}, of what isn't there: %d", count)


if __name__ == "__main__":
    sys.exit(main())
