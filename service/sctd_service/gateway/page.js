// Adds to the page what a script alone can: terms while typing, and a button that copies the line.
// All texts are set as texts, never as markup.
"use strict";

const input = document.getElementById("q");
const found = document.getElementById("found");
let waiting = 0, asking = null;

// The field with its list is a combobox of ARIA: the field keeps the focus, and one of the options
// may be chosen.
const chosen = () => found.querySelector("[aria-selected=true]");

function choose(option) {
  chosen()?.setAttribute("aria-selected", "false");
  option?.setAttribute("aria-selected", "true");
  option?.scrollIntoView({ block: "nearest" });
  input.setAttribute("aria-activedescendant", option?.id ?? "");
}

function optionOf(one, place) {
  const option = document.createElement("li"), term = document.createElement("bdi");
  const aside = document.createElement("span");
  term.textContent = one.term;
  aside.className = "aside";
  aside.textContent = " " + one.code + (one.active ? "" : " (inactive)");
  option.id = "found-" + place;
  option.dataset.code = one.code;
  option.setAttribute("role", "option");
  option.setAttribute("aria-selected", "false");
  option.append(term, aside);
  return option;
}

function show(options) {
  found.replaceChildren(...options);
  found.hidden = !options.length;
  input.setAttribute("aria-expanded", String(!found.hidden));
  choose(null);
}

function close() {
  clearTimeout(waiting);
  asking?.abort();
  show([]);
}

function take(option) {
  input.value = option.dataset.code;
  close();
}

async function suggest() {
  const text = input.value.trim();
  asking?.abort();
  if (text.length < 3 || /^[0-9]+$/.test(text)) { show([]); return; }
  asking = new AbortController();
  const words = new URLSearchParams({ text, date: document.getElementById("date").value });
  try {
    const answer = await fetch("suggest?" + words, { signal: asking.signal });
    show(answer.ok ? (await answer.json()).map(optionOf) : []);
  } catch (error) { if (error.name !== "AbortError") show([]); }
}

function pressed(event) {
  const options = [...found.children], place = options.indexOf(chosen());
  const step = { ArrowDown: 1, ArrowUp: -1 }[event.key];
  if (event.isComposing) return;
  if (found.hidden) { if (step) suggest(); return; }
  // (Behind the last option, and before the first one, none is chosen.)
  const count = options.length + 1;
  if (step) choose(options[(place + 1 + step + count) % count - 1]);
  else if (event.key === "Enter" && place >= 0) take(options[place]);
  else if (event.key === "Escape") close();
  else return;
  event.preventDefault();
}

// (Only the page of one record has this field.)
if (input) {
  const attributes = {
    "role": "combobox", "aria-autocomplete": "list", "aria-controls": found.id,
    "aria-expanded": "false" };
  for (const [name, value] of Object.entries(attributes)) input.setAttribute(name, value);
  found.setAttribute("role", "listbox");
  found.setAttribute("aria-label", "Concepts with these words");
  input.addEventListener("input", () => {
    clearTimeout(waiting);
    waiting = setTimeout(suggest, 150);
  });
  input.addEventListener("keydown", pressed);
  input.addEventListener("blur", close);
  // (The field keeps the focus.)
  found.addEventListener("mousedown", event => event.preventDefault());
  found.addEventListener("click", event => {
    const option = event.target.closest("li");
    if (option) take(option);
  });
}

const copy = document.getElementById("copy");
if (copy && navigator.clipboard) {
  copy.hidden = false;
  copy.addEventListener("click", async () => {
    await navigator.clipboard.writeText(document.getElementById("line").value);
    copy.textContent = "Copied";
  });
}
