// Search over all books: batches by the beginning of their names, product, verdict, days and
// person; a number finds packs. A batch of any book leads to its page and its sheet as they were.
// Without an archive the page says so.

import { addWords, say } from "./words.js";
import { batchLink } from "./reportwords.js";
import { count, day, grams } from "./numbers.js";
import { loadStyles, make } from "./page.js";
import { notice, signalTag, table, tag, verdictTag } from "./parts.js";
import { reach } from "./office.js";
import { archivePage } from "./soon.js";

addWords({
  searchAll: ["Search all books", "Alle Bücher durchsuchen"],
  "s.text": ["Batch or pack number", "Charge oder Packungsnummer"],
  "s.hint": ["RICE-11 finds all that begin so; a number finds packs",
    "RICE-11 findet alle, die so beginnen; eine Nummer findet Packungen"],
  "s.product": ["Product", "Ware"],
  "s.verdict": ["Verdict", "Urteil"],
  "s.person": ["Person who acted", "Wer gehandelt hat"],
  "s.first": ["From", "Von"],
  "s.last": ["To", "Bis"],
  "s.any": ["any", "alle"],
  "s.go": ["Search", "Suchen"],
  "s.found": ["{count} batches, the newest first", "{count} Chargen, die neuesten zuerst"],
  "s.most": ["The newest {count} batches; ask closer",
    "Die neuesten {count} Chargen; enger fragen"],
  "s.packs": ["Packs of this number", "Packungen dieser Nummer"],
  "s.answer": ["What was found", "Gefunden"],
  "s.nothing": ["No batch and no pack is like that.", "Keine Charge und keine Packung ist so."],
  "s.bad": ["The archive can't be asked so.", "So kann das Archiv nicht gefragt werden."],
});

const MOST = 200;
const FIELDS = [["text", "search"], ["product", "text"], ["verdict", "select"], ["person", "text"],
  ["first", "date"], ["last", "date"]];
const VERDICTS = ["released", "withheld", "empty"];

function inputOf(name, kind) {
  const id = `s-${name}`;
  if (kind !== "select") return make("input", { id, name, type: kind, autocomplete: "off" });
  const option = (value, text) => make("option", { value }, text);
  return make("select", { id, name }, option("", say("s.any")),
    VERDICTS.map((word) => option(word, say(word))));
}

function batchTable(batches, halls) {
  const heads = ["batch", "product", "dayOf", "packs", "f.mean_over", "verdict", "bookOf"];
  const rows = batches.map((one) => [batchLink(one, halls), one.product, day(one.day),
    count(one.packs), one.over === null ? "–" : grams(one.over, 2, true),
    one.verdict ? verdictTag(one.verdict) : tag("calm", "dot", say(one.state)), one.book]);
  const title = say(batches.length < MOST ? "s.found" : "s.most", { count: count(batches.length) });
  return make("section", { className: "panel scroll" }, table(title,
    heads.map((name) => say(name)), rows, ["", "goods", "keep", "right", "right", "", "keep"]));
}

function packTable(packs, halls) {
  const heads = ["bookOf", "batch", "product", "dayOf", "lane", "gross", "signal"];
  const rows = packs.map((one) => [one.book, batchLink(one, halls), one.product, day(one.day),
    count(one.lane), grams(one.gross), signalTag(one.signal)]);
  return make("section", { className: "panel scroll" }, table(say("s.packs"),
    heads.map((name) => say(name)), rows, ["keep", "", "goods", "keep", "right", "right", ""]));
}

async function find(form, place, halls) {
  const given = FIELDS.map(([name]) => [name, form.elements[name].value.trim()])
    .filter(([, value]) => value);
  const answer = await reach(`archive/found?${new URLSearchParams(given)}`).catch(() => null);
  if (answer?.status !== 200) {
    place.replaceChildren(notice("warn", "warn", say("s.bad")));
    return;
  }
  const { batches, packs } = JSON.parse(answer.text);
  const parts = [packs.length ? packTable(packs, halls) : [],
    batches.length ? batchTable(batches, halls) : []].flat();
  place.replaceChildren(...(parts.length ? parts : [notice("", "dot", say("s.nothing"))]));
}

async function draw(section, { halls }) {
  await loadStyles("tables.css", "forms.css", "search.css");
  const place = make("div", { role: "region", "aria-live": "polite", className: "s-found",
    "aria-label": say("s.answer") });
  const form = make("form", { className: "panel s-form", role: "search" },
    FIELDS.map(([name, kind]) => make("p", { className: "field" },
      make("label", { for: `s-${name}` }, say(`s.${name}`)), inputOf(name, kind))),
    make("button", {}, say("s.go")));
  form.addEventListener("submit", (event) => {
    event.preventDefault();
    find(form, place, halls);
  });
  section.append(make("h1", {}, say("searchAll")), make("p", { className: "quiet" }, say("s.hint")),
    form, place);
  await find(form, place, halls);
}

export const { build, refresh } = archivePage("search", "halls", draw);
