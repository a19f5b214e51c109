"""The documents of this repository, and the links in them. Standard library alone."""

import os
import re
from collections.abc import Iterator
from pathlib import Path

TOP = Path(__file__).resolve().parents[2]
FENCED = re.compile(r"^```.*?^```", re.M | re.S)
HEADING = re.compile(r"^#+ (.+)$", re.M)
LINK = re.compile(r"\]\(([^)\s]+)\)")


def documents() -> list[Path]:
    """All documents: they say how the program is now."""
    tops = [TOP / name for name in ("README.md", "CHANGELOG.md", "bench/README.md")]
    return tops + sorted((TOP / "docs").rglob("*.md"))


def name_of(path: Path) -> str:
    """A document's path from the top of the repository."""
    return str(path.relative_to(TOP))


def anchors_of(text: str) -> set[str]:
    """What a link may name in a document: its headings, as GitHub and GitLab spell them."""
    kept = (re.sub(r"[^\w\- ]", "", title.lower()) for title in HEADING.findall(text))
    return {title.replace(" ", "-") for title in kept}


def lost_links(path: Path, text: str) -> Iterator[str]:
    """The links of a document that lead nowhere in this repository."""
    for link in LINK.findall(FENCED.sub("", text)):
        name, _, anchor = link.partition("#")
        if re.match(r"\w+:", name):
            continue
        target = Path(os.path.normpath(path.parent / name)) if name else path
        if not target.exists():
            yield "%s: there is no such file" % link
        elif anchor and anchor not in anchors_of(FENCED.sub("", target.read_text("utf-8"))):
            yield "%s: there is no such heading" % link
