// The pick list of a sample, to be printed, and its labels as ZPL for a label printer: which packs
// were drawn, and where they lie.

import * as office from "./office.js";
import { addWords, say } from "./words.js";
import { count, grams, nominalOf } from "./numbers.js";
import { loadStyles, make, put } from "./page.js";
import { notice, table } from "./parts.js";
import { packAt } from "./packs.js";
import { packsOf } from "./batchpacks.js";

addWords({
  pickTitle: ["Pick list of {batch}: {count} packs", "Suchliste {batch}: {count} Packungen"],
  pickHint: ["By lane and place: so they are found in one walk.",
    "Nach Linie und Platz: so sind sie in einem Gang gefunden."],
  pickReads: ["Reading where they lie: {found} of {all} packs.",
    "Liest, wo sie liegen: {found} von {all} Packungen."],
  pickNo: ["Drawn as no.", "Gezogen als Nr."],
  pickPlace: ["No. on its lane", "Nr. auf ihrer Linie"],
  pickFound: ["Found", "Gefunden"],
  labels: ["Labels (ZPL)", "Etiketten (ZPL)"],
  pickNone: ["No sample of this batch was drawn.", "Von dieser Charge ist keine Probe gezogen."],
});

const plain = (text) => text.replace(/[^A-Za-z0-9 ./-]/g, (letter) =>
  [...new TextEncoder().encode(letter)]
    .map((byte) => `_${byte.toString(16).toUpperCase().padStart(2, "0")}`).join(""));

// A label of 60 by 40 mm at 8 dots a mm for each pack: its number in large and as Code 128.
export function zplOf(batch, packs) {
  return packs.map(({ number, lane }, at) => [
    "^XA", "^CI28", "^PW480", "^LL320",
    `^FO24,24^A0N,64,64^FH^FD${number}^FS`,
    `^FO24,100^A0N,32,32^FH^FD${plain(batch)}^FS`,
    `^FO24,144^A0N,32,32^FH^FD${at + 1}/${packs.length}  L${lane}^FS`,
    `^FO24,196^BY2^BCN,72,N,N,N^FD${number}^FS`,
    "^XZ", ""].join("\n")).join("");
}

// The drawn packs with their place on their lane, in drawing order.
async function drawnPacks(sheet, progress) {
  const sample = await office.sample(sheet.batch);
  const numbers = sample.second.length ? sample.second : sample.first;
  const places = new Map();
  const counts = new Map();
  for (const { number, lane } of await packsOf(sheet, progress)) {
    counts.set(lane, (counts.get(lane) ?? 0) + 1);
    places.set(number, counts.get(lane));
  }
  const drawn = await Promise.all(numbers.map((number) => packAt(number)));
  return drawn.map((pack, at) => ({ ...pack, at: at + 1, place: places.get(pack.number) }));
}

function download(name, text) {
  const address = URL.createObjectURL(new Blob([text], { type: "text/plain" }));
  const link = make("a", { href: address, download: name });
  link.click();
  URL.revokeObjectURL(address);
}

function listTable(sheet, packs) {
  const byPlace = [...packs].sort((one, other) => one.lane - other.lane
    || one.number - other.number);
  const heads = ["pack", "lane", "pickPlace", "gross", "pickNo", "pickFound"]
    .map((key) => say(key));
  const rows = byPlace.map(({ number, lane, place, gross, at }) => [count(number), String(lane),
    place ? count(place) : "–", grams(gross), String(at), "☐"]);
  return table(say("pickTitle", { batch: sheet.batch, count: packs.length }), heads, rows,
    ["right", "right", "right", "right", "right", ""]);
}

function button(text, kind, act) {
  const made = make("button", { type: "button", className: kind }, text);
  made.addEventListener("click", act);
  return made;
}

// ---- the page

const page = { about: "", isOpen: false, isBusy: false };

export async function build(section) {
  await loadStyles("parts.css", "tables.css", "forms.css", "picks.css");
  page.place = section;
}

// The pick list of a batch, with buttons to print it and to save its labels.
async function open(batch) {
  const sheet = await office.sheet(batch);
  const back = make("a", { className: "button second", href: `#desk/${batch}` }, say("desk"));
  if (!sheet.first) {
    page.place.replaceChildren(make("h1", {}, batch), notice("", "idle", say("pickNone"),
      make("p", {}, back)));
    return;
  }
  const said = make("p", { role: "status", className: "quiet" });
  page.place.replaceChildren(make("h1", { className: "unseen" }, `${say("picks")} ${batch}`),
    make("section", { className: "panel" }, said));
  const packs = await drawnPacks(sheet, (found, all) => {
    put(said, say("pickReads", { found: count(found), all: count(all) }));
    return said.isConnected;
  });
  put(said, `${sheet.product} · ${nominalOf(sheet)}. ${say("pickHint")}`);
  said.after(make("div", { className: "scroll" }, listTable(sheet, packs)),
    make("p", { className: "acts no-print" }, button(say("print"), "", () => print()),
      button(say("labels"), "second", () => download(`${batch}.zpl`, zplOf(batch, packs))), back));
}

export async function show(batch) {
  Object.assign(page, { about: batch, isOpen: false, isBusy: true });
  await open(batch).finally(() => { page.isBusy = false; });
  page.isOpen = true;
}

export async function refresh() {
  await office.summary();
  // no answer came as it was opened
  if (!page.isOpen && !page.isBusy) await show(page.about);
}
