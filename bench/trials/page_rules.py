"""What holds of each page in a browser: names, contrast, the ring of the focus, sizes, silence.

The rules are those of WCAG 2.2 at level AA that can be decided by a program. `broken` returns what
of a page breaks one of them. Standard library alone; axe isn't needed.
"""

from collections.abc import Iterator
from pathlib import Path
from typing import Any

import chromium

# What the page is asked: `ofTexts()` and the like.
SCRIPT = Path(__file__).with_suffix(".js").read_text("utf-8")
# The least contrasts: of a text, and of the edge of a field or the ring of the focus.
TEXT_CONTRAST, EDGE_CONTRAST = 4.5, 3.0
LEAST_RING = 2
# The events that a page may not cause.
UNWANTED = ("Runtime.consoleAPICalled", "Runtime.exceptionThrown", "Log.entryAdded",
            "Page.javascriptDialogOpening")
# What needs a name for those who don't see it, by its role.
NAMED = {"link", "button", "textbox", "searchbox", "combobox", "checkbox", "Date", "table",
         "navigation", "heading", "columnheader", "rowheader", "listbox", "option"}


def asked(browser: chromium.Browser, question: str) -> Any:
    """What a question of page_rules.js, or another expression, is in the page."""
    return browser.value("(() => {%s\nreturn %s; })()" % (SCRIPT, question))


def broken(browser: chromium.Browser, events: list[chromium.Message]) -> Iterator[str]:
    """What of a page that was opened breaks a rule."""
    yield from (str(event) for event in events if event["method"] in UNWANTED)
    wide, texts, edges, ids, landmarks, heads, small, headings, title = asked(
        browser, "[tooWide(), ofTexts(), ofEdges(), wrongIds(), landmarks(), brokenHeads(),"
        " smallTargets(), headings(), document.title]")
    if wide > 0:
        yield "%d pixels wider than the window" % wide
    for what, (least, which), wanted in (("a text", texts, TEXT_CONTRAST),
                                         ("the edge of a field", edges, EDGE_CONTRAST)):
        if least < wanted:
            yield "%s has a contrast of %.2f: %r" % (what, least, which)
    yield from ids
    yield from ("not once: " + one for one in landmarks)
    yield from ("a head that breaks: " + one for one in heads)
    yield from ("too small to be hit: " + one for one in small)
    steps = zip(headings, headings[1:])
    if headings[0] != 1 or any(after > before + 1 for before, after in steps):
        yield "headings %s" % headings
    if not title:
        yield "no title"
    for node in nodes(browser):
        if role_of(node) in NAMED and not str(node.get("name", {}).get("value", "")).strip():
            yield "a %s without a name" % role_of(node)


def nodes(browser: chromium.Browser) -> list[dict[str, Any]]:
    """What a screen reader is told of the page."""
    found: list[dict[str, Any]] = browser.ask("Accessibility.getFullAXTree")["nodes"]
    return [one for one in found if not one.get("ignored")]


def role_of(node: dict[str, Any]) -> str:
    return str(node.get("role", {}).get("value", ""))


def walked(browser: chromium.Browser) -> Iterator[str]:
    """What is wrong where a page is gone through by the tab key alone, from its beginning on."""
    wanted, found = asked(browser, "canHaveFocus()"), list[Any]()
    for _ in range(2 * len(wanted) + 10):
        browser.press("Tab")
        focus = asked(browser, "ofFocus()")
        # (Behind the last one the browser has its own, or begins again.)
        if focus is None or len(found) > 1 and [focus[-1], focus[0]] == found[0]:
            break
        name, ring, contrast, is_seen, place = focus
        # (A field of a date has the focus once for each of its parts.)
        if [place, name] not in found[-1:]:
            found.append([place, name])
        if ring < LEAST_RING or contrast < EDGE_CONTRAST:
            yield "the focus at %r: a ring of %s pixels, contrast %.2f" % (name, ring, contrast)
        if not is_seen:
            yield "what has the focus isn't seen: %r" % name
    if found != wanted:
        yield "by the keyboard: %s, and %s is there" % (found, wanted)
