"""Opens the gateway's pages in a headless Chromium, and looks at them.

try_page.py PROGRAM [PICTURE]

page_steps.txt has what is opened, typed and looked at, at 390 and at 1,280 pixels, in light and in
dark colours, and at 320 pixels: records, a retired concept, hostile terms, a search, refusals, what
changed between two days and a list of records. The rules of page_rules.py hold of each page.
PICTURE is written with the page of a record. Where there is no Chromium, or something that the
gateway imports is missing, the status is 3.
"""

import base64
import contextlib
import json
import os
import shutil
import socket
import subprocess
import sys
import tempfile
from collections.abc import Iterator, Mapping
from pathlib import Path
from string import Template
from typing import NamedTuple

import chromium
import page_rules
from harness import HUB, TOP, NotRun, Wrong, go_on_with, parser_of, same, tell

SERVICE = str(TOP / "service")
STEPS = Path(__file__).with_name("page_steps.txt")
# The last one is a window of 1,280 pixels that is enlarged four times.
DESK, PHONE, ENLARGED = 1280, 390, 320
LIGHT, DARK = "light", "dark"
# How wide the page of PICTURE is, and which that is.
PICTURE_WIDTH, PICTURED = 1000, "?q=$wrist&date=2018-01-01"
TEXT = "document.body.innerText"
# How the size of a page of A4 in landscape begins in a PDF, whose width is 842 points.
LANDSCAPE = b"/MediaBox [0 0 84"


class Look(NamedTuple):
    """How wide a window is, and its colours."""

    width: int
    scheme: str = LIGHT

    def __str__(self) -> str:
        return f"at {self.width} pixels, {self.scheme}"


WIDE = (Look(DESK), Look(DESK, DARK))
NARROW = (Look(PHONE), Look(PHONE, DARK), Look(ENLARGED))
LOOKS = {"all": (*WIDE, *NARROW), "wide": WIDE, "narrow": NARROW, "desk": WIDE[:1],
         "enlarged": NARROW[-1:]}


class Trial(NamedTuple):
    """A trial of page_steps.txt: its name, at which looks it is made, and its steps with what each
    is made of."""

    name: str
    looks: tuple[Look, ...]
    steps: list[tuple[str, str]]


def trials(codes: Mapping[str, str]) -> Iterator[Trial]:
    text = Template(STEPS.read_text("utf-8")).safe_substitute(codes)
    for block in text.rstrip("\n").split("\n\n")[1:]:
        lines = (line.partition(":") for line in block.split("\n") if not line.startswith("# "))
        (_, name), (_, where), *steps = ((word, rest.strip()) for word, _, rest in lines)
        yield Trial(name, LOOKS[where], steps)


class Page:
    """The pages of one gateway in one browser. Its methods are the steps of trials."""

    def __init__(self, browser: chromium.Browser, base: str, folder: Path) -> None:
        self.browser, self.base, self.look = browser, base, Look(DESK)
        self.chosen = folder / "chosen.csv"
        # What the page that is open says, or its source.
        self.said = ""

    def make(self, trial: Trial) -> None:
        for look in trial.looks:
            self.look = look
            self.browser.width(look.width, look.width != DESK)
            self.browser.media(scheme=look.scheme)
            for step, words in trial.steps:
                try:
                    getattr(self, step.replace(" ", "_"))(words)
                except Wrong as wrong:
                    told = f"{trial.name}, {look}: {step} {words}: {wrong}"
                    raise Wrong(told) from None

    def open(self, address: str) -> None:
        self.browser.open(self.base + address)
        self.rules()

    def open_refused(self, address: str) -> None:
        self.browser.open(self.base + address)
        self.browser.events = []  # Chromium tells the console of the status.
        self.rules()

    def source(self, address: str) -> None:
        """Opens a page without its script, in which nothing can be asked."""
        self.browser.ask("Emulation.setScriptExecutionDisabled", value=True)
        self.browser.open(self.base + address)
        self.said = self.browser.ask("DOM.getOuterHTML", nodeId=self.root())["outerHTML"]
        self.browser.ask("Emulation.setScriptExecutionDisabled", value=False)

    def root(self) -> int:
        return int(self.browser.ask("DOM.getDocument")["root"]["nodeId"])

    def go(self, _: str) -> None:
        """Presses Enter, by which another page is opened."""
        self.browser.events = []
        self.browser.press("Enter")
        self.browser.wait("Page.loadEventFired")
        self.rules()

    def rules(self, _: str = "") -> None:
        """The page that is open breaks no rule."""
        # What the page's script may still say.
        self.browser.value("new Promise(done => setTimeout(done, 100))")
        for one in page_rules.broken(self.browser, self.browser.events):
            raise Wrong(one)
        self.said = str(self.browser.value(TEXT))

    def has(self, part: str) -> None:
        same("whether the page has it", part in self.said, True)

    def walk(self, _: str) -> None:
        for one in page_rules.walked(self.browser):
            raise Wrong(one)

    def is_so(self, words: str) -> None:
        expression, _, wanted = words.partition(" = ")
        same("it", page_rules.asked(self.browser, expression), json.loads(wanted or "true"))

    def does(self, script: str) -> None:
        self.browser.value(script)

    def tab_to(self, name: str) -> None:
        """Goes to a field, a button or a link by the tab key."""
        for _ in range(100):
            self.browser.press("Tab")
            focus = page_rules.asked(self.browser, "ofFocus()")
            if focus and focus[0] == name:
                return
        raise Wrong("the tab key doesn't lead to it")

    def write(self, text: str) -> None:
        self.browser.write(json.loads(text))

    def press(self, keys: str) -> None:
        for key in keys.split():
            self.browser.press(" " if key == "Space" else key)

    def choose(self, text: str) -> None:
        """Chooses a file with this text."""
        self.chosen.write_text(json.loads(text), encoding="utf-8")
        field = self.browser.ask("DOM.querySelector", nodeId=self.root(), selector="#file")
        self.browser.ask("DOM.setFileInputFiles", files=[str(self.chosen)], **field)

    def roles(self, wanted: str) -> None:
        found = set(map(page_rules.role_of, page_rules.nodes(self.browser)))
        same("what lacks", set(wanted.split()) - found, set())

    def coloured(self, _: str) -> None:
        """The page is as light as its colours say."""
        light = page_rules.asked(self.browser, "lightOfPage()")
        same(f"whether it is light: {light:.2f}", light > 0.5, self.look.scheme == LIGHT)

    def on_paper(self, _: str) -> None:
        """The page as it is printed, also by who has dark colours."""
        self.browser.media("print", DARK)
        self.is_so("notPrinted() = []")
        self.is_so("document.querySelector('table').checkVisibility()")
        self.coloured("")

    def landscape(self, _: str) -> None:
        paper = self.browser.ask("Page.printToPDF", preferCSSPageSize=True)["data"]
        same("whether it is in landscape", LANDSCAPE in base64.b64decode(paper), True)


def pictured(page: Page, address: str, picture: Path) -> None:
    """Writes the picture, with fewer colours where pngquant is there to choose them."""
    page.browser.width(PICTURE_WIDTH)
    page.browser.media()
    page.open(address)
    taken = page.browser.ask("Page.captureScreenshot", format="png", captureBeyondViewport=True)
    data = base64.b64decode(taken["data"])
    if shutil.which("pngquant"):
        words = ["pngquant", "--speed", "1", "--strip", "-"]
        data = subprocess.run(words, input=data, check=True, stdout=subprocess.PIPE).stdout
    picture.write_bytes(data)


def tried(program: Path, picture: Path | None) -> None:
    """Looks at the pages of a gateway that listens where a browser reaches it."""
    go_on_with()
    path = chromium.found()
    if path is None:
        raise NotRun("there is no Chromium")
    sys.path.insert(0, SERVICE)
    from tests.demo_members import WORDS
    from tests.fixtures import Gateway, Service

    os.environ.update(SCTD_PROGRAM=str(program), SCTD_HUB=str(TOP / HUB))
    with contextlib.ExitStack() as stack:
        browser = stack.enter_context(contextlib.closing(chromium.Browser(path)))
        service = Service(layout=3, is_whole=True)
        stack.callback(service.end)
        folder = Path(stack.enter_context(tempfile.TemporaryDirectory()))
        with socket.create_server(("127.0.0.1", 0)) as free:
            place = "127.0.0.1:%d" % free.getsockname()[1]
        gateway = Gateway(service.questions, folder, place, WORDS)
        stack.callback(gateway.stop)
        page = Page(browser, "http://%s/" % place, folder)
        for trial in trials(service.codes):
            page.make(trial)
        if picture:
            pictured(page, Template(PICTURED).substitute(service.codes), picture)
    print("the page is as it has to be")


def main() -> int:
    parser = parser_of(__doc__)
    parser.add_argument("picture", type=Path, nargs="?", help="of the page of a record")
    asked = parser.parse_args()
    return tell(lambda: tried(asked.program, asked.picture))


if __name__ == "__main__":
    sys.exit(main())
