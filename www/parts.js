// Parts that several pages have and the board hasn't: tags of signals and verdicts, notices,
// tables, facts.

import { ICONS, icon, make } from "./page.js";
import { say, word } from "./words.js";

Object.assign(ICONS, {
  void: "M4 4h16v16H4zM4 20L20 4",
  next: "M5 12h14M13 6l6 6l-6 6",
  print: "M6 9V3h12v6M6 17H3V9h18v8h-3M6 14h12v7H6z",
  dot: "M12 8a4 4 0 1 0 0 8a4 4 0 1 0 0-8",
});

// A sign and its word: what is said by colour is said by these too.
export function tag(kind, sign, text) {
  return make("span", { className: `tag ${kind}` }, icon(sign), make("span", {}, text));
}

export function notice(kind, sign, title, ...more) {
  return make("div", { className: `notice ${kind}` },
    icon(sign), make("div", {}, make("strong", {}, title), more));
}

// Puts parts in the place of those that are there where they differ, so that a link keeps its
// focus.
export function redraw(place, parts) {
  const now = make("div", {}, parts);
  if (now.innerHTML !== place.innerHTML) place.replaceChildren(...now.childNodes);
}

export function signalTag(signal) {
  const isPass = signal === "pass";
  return isPass ? tag("calm", "pass", word(signal)) : tag("alarm", "reject", word(signal));
}

// A verdict as its word, with what fails.
export function verdictTag(verdict) {
  if (!verdict) return tag("calm", "dot", say("noVerdict"));
  const [first, ...reasons] = verdict.split(" ");
  const sign = { released: "pass", withheld: "reject" }[first] ?? "dot";
  const kind = { released: "ok", withheld: "alarm" }[first] ?? "calm";
  const why = reasons.length ? `: ${reasons.map(word).join(", ")}` : "";
  return tag(kind, sign, word(first) + why);
}

// A table with a caption and heads; "right" in `sides` puts a column's figures to the right.
export function table(caption, heads, rows, sides = []) {
  const cell = (kind) => (text, at) => make(kind,
    { className: sides[at] ?? "", scope: kind === "th" ? "col" : null }, text);
  const line = (cells, kind) => make("tr", {}, cells.map(cell(kind)));
  return make("table", {}, make("caption", {}, caption), make("thead", {}, line(heads, "th")),
    make("tbody", {}, rows.map((row) => line(row, "td"))));
}

// Facts, each with its name and, in small, what belongs to it.
export function facts(pairs, className = "facts") {
  return make("dl", { className }, pairs.map(([name, value, more]) => make("div", {},
    make("dt", {}, name), make("dd", {}, value, more ? make("small", {}, more) : null))));
}
