// What page_rules.py and try_page.py ask of a page that is open.

const all = selector => [...document.querySelectorAll(selector)];
const parts = colour => colour.match(/[\d.]+/g).map(Number);
const light = colour => parts(colour).slice(0, 3).map(part => part / 255)
  .map(part => part <= 0.04045 ? part / 12.92 : ((part + 0.055) / 1.055) ** 2.4)
  .reduce((sum, part, place) => sum + part * [0.2126, 0.7152, 0.0722][place], 0);
// The first colour behind an element.
const behind = element => {
  for (let one = element; one; one = one.parentElement) {
    const colour = getComputedStyle(one).backgroundColor;
    if (colour !== "transparent" && parts(colour)[3] !== 0) return colour;
  }
  return "rgb(255, 255, 255)";
};
const contrast = (one, other) => {
  const both = [light(one), light(other)].sort((a, b) => b - a);
  return (both[0] + 0.05) / (both[1] + 0.05);
};

// The least contrast of a text to the first colour behind it, and that text.
const ofTexts = () => {
  let least = [99, ""];
  const texts = document.createTreeWalker(document.body, NodeFilter.SHOW_TEXT);
  while (texts.nextNode()) {
    const text = texts.currentNode.data.trim(), element = texts.currentNode.parentElement;
    if (!text || !element.getClientRects().length) continue;
    const found = contrast(getComputedStyle(element).color, behind(element));
    if (found < least[0]) least = [found, text.slice(0, 40)];
  }
  return least;
};

// That of the edge of a field to what is around it, and its id.
const ofEdges = () => {
  let least = [99, ""];
  for (const one of all("input:not([type=checkbox]), textarea")) {
    if (!one.getClientRects().length) continue;
    const found = contrast(getComputedStyle(one).borderTopColor, behind(one.parentElement));
    if (found < least[0]) least = [found, one.id];
  }
  return least;
};

// What can have the focus, and what an element is called here.
const FOCUSED = "a[href], button, input, textarea";
const called = one => one.id || one.getAttribute("href") || one.textContent.trim();

// What has the focus: what it is called, the width and the contrast of its ring, whether it is seen,
// and which it is of all that can have it.
const ofFocus = () => {
  const one = document.activeElement, style = getComputedStyle(one);
  const at = one.getBoundingClientRect();
  if (one === document.body) return null;
  const ring = style.outlineStyle === "none" ? 0 : parseFloat(style.outlineWidth);
  return [called(one), ring, contrast(style.outlineColor, behind(one.parentElement)),
    at.right > 0 && at.bottom > 0 && at.left < innerWidth && at.top < innerHeight,
    all(FOCUSED).indexOf(one)];
};

const canHaveFocus = () => all(FOCUSED).map((one, place) =>
  [place, called(one), one.checkVisibility()]).filter(one => one.pop());

const tooWide = () => document.documentElement.scrollWidth - document.documentElement.clientWidth;

const headings = () => all("h1, h2, h3").map(one => Number(one.tagName[1]));

// Ids that stand twice, labels of nothing, and fields without a label.
const wrongIds = () => {
  const ids = all("[id]").map(one => one.id);
  return [
    ...ids.filter((one, place) => ids.indexOf(one) !== place).map(one => "twice: " + one),
    ...all("label").filter(one => !one.control)
      .map(one => "a label of nothing: " + one.textContent),
    ...all("input, textarea").filter(one => !one.labels.length)
      .map(one => "without a label: " + one.id)];
};

const landmarks = () => ["html[lang]", "main", "header", "footer", "nav"]
  .filter(one => all(one).length !== 1);

// The heads of rows and columns that break within a word, since one is wider than they are. (On a
// phone those of columns aren't seen.)
const brokenHeads = () => all("thead th, .compared tbody th").filter(one => {
  const heads = one.closest("thead");
  if (heads && getComputedStyle(heads).position === "absolute") return false;
  const words = document.createElement("span");
  words.style.cssText = "position: absolute; white-space: nowrap";
  return one.checkVisibility() && one.textContent.split(" ").some(word => {
    words.textContent = word;
    one.append(words);
    const style = getComputedStyle(one), around = parseFloat(style.paddingLeft) * 2;
    const wide = words.getBoundingClientRect().width, room = one.clientWidth - around;
    words.remove();
    return wide > room + 1;
  });
}).map(one => one.textContent);

// How light the page is behind its texts, from 0 to 1.
const lightOfPage = () => light(behind(document.body));

const allRows = () => all(".compared tbody tr").length;
const shownRows = () => all(".compared tbody tr").filter(one => one.checkVisibility()).length;
const saidOfRows = () => `Only what differs: ${shownRows()} of ${allRows()} rows`;

// Where the cells of the first row of a table stand: the second at the side of the first or below.
const places = () => {
  const [one, other] = all(".compared tbody tr td").map(cell => cell.getBoundingClientRect());
  return other.top >= one.bottom && Math.abs(other.left - one.left) < 1 ? "below"
    : other.left >= one.right && Math.abs(other.top - one.top) < 1 ? "beside" : "elsewhere";
};

const saidBefore = () => {
  const cell = document.querySelector(".compared tbody td");
  return getComputedStyle(cell, "::before").content
    .replace(/^attr.*/, JSON.stringify(cell.dataset.head));
};

// What is to be hit and is less than 24 pixels wide or high. (Links within a text may be, and the
// label of a box belongs to it.)
const TARGETS = "button, input:not([type=checkbox]), textarea, nav a, .links a";
const smallTargets = () => all(TARGETS).filter(one => one.checkVisibility()).filter(one => {
  const at = one.getBoundingClientRect();
  return Math.min(at.width, at.height) < 24;
}).map(called);

// What isn't to be on paper, as far as it is shown.
const notPrinted = () => all("form, nav, .links, .skip").filter(one => one.checkVisibility())
  .map(one => one.tagName);

// What the field for a code and its list say they are, whether the list is open, and which of its
// options is chosen.
const combobox = () => {
  const field = document.getElementById("q");
  const [list, option] = ["aria-controls", "aria-activedescendant"]
    .map(name => document.getElementById(field.getAttribute(name)));
  const isOpen = field.getAttribute("aria-expanded") === "true";
  return [field.role, list.role, isOpen && list.checkVisibility(), option?.dataset.code ?? ""];
};

// What the field for a code suggests, once it suggests anything.
const suggested = () => new Promise(done => {
  const look = () => {
    const found = all("#found li").map(one => one.dataset.code);
    if (found.length) done(found); else setTimeout(look, 50);
  };
  look();
  setTimeout(() => done([]), 20000);
});
