// The packs of a batch for a page: chosen by a field, read with a word on how far, and read anew
// where the book has more rows.

import * as office from "./office.js";
import { addNames, names } from "./names.js";
import { addWords, say } from "./words.js";
import { atRows } from "./packs.js";
import { make, put } from "./page.js";
import { notice } from "./parts.js";
import { count } from "./numbers.js";
import { settledPacks } from "./batchpacks.js";

addWords({
  reading: ["{found} of {all} packs read, at row {row}",
    "{found} von {all} Packungen gelesen, bei Zeile {row}"],
  ofBook: ["From the book {book}, as the archive has it",
    "Aus dem Buch {book}, wie das Archiv es hat"],
  partly: ["Shown are {found} of {all} packs.", "Gezeigt sind {found} von {all} Packungen."],
});

// Milliseconds between two words on how far.
const EVERY = 250;

// A page about a batch: a field for its name, and below it what `draw` makes of its packs.
export class BatchPage {
  constructor(name, draw) {
    Object.assign(this, { name, draw, batch: "", rows: 0, isStopped: false, isBusy: false });
  }

  build(section) {
    const id = `${this.name}-batch`;
    this.field = make("input", { id, required: true, list: `${id}-names`, autocomplete: "off" });
    this.names = make("datalist", { id: `${id}-names` });
    this.said = make("p", { role: "status", className: "quiet read-so-far" });
    this.stopper = make("button", { type: "button", className: "second", hidden: true },
      say("stop"));
    this.stopper.addEventListener("click", () => { this.isStopped = true; });
    this.place = make("div", { className: "result" });
    const form = make("form", { className: "chooser" }, make("label", { for: id }, say("batch")),
      this.field, make("button", {}, say("show")), this.stopper, this.names);
    form.addEventListener("submit", (event) => {
      event.preventDefault();
      const book = office.oldBook ? `/${office.oldBook}` : "";
      location.hash = `#${this.name}/${this.field.value.trim()}${book}`;
    });
    const { oldBook: book } = office;
    const old = book ? [notice("", "clock", say("ofBook", { book }))] : [];
    section.append(make("h1", { className: "unseen" }, say(this.name)), form, ...old, this.said,
      this.place);
  }

  async show(batch) {
    const known = names().batches;
    this.names.replaceChildren(...known.map((name) => make("option", { value: name })));
    const chosen = batch || this.batch || (known[0] ?? "");
    if (chosen !== this.batch) {
      Object.assign(this, { batch: chosen, rows: 0, isStopped: false });
      this.place.replaceChildren();
    }
    this.field.value = chosen;
    await this.refresh();
  }

  // Draws the batch anew where the book has more rows than what is drawn.
  async refresh() {
    const { batch } = this;
    const { rows } = await office.summary();
    atRows(rows);
    if (!batch || this.isBusy || this.isStopped || rows === this.rows) return;
    this.isBusy = true;
    try {
      await this.load(batch, rows);
    } finally {
      this.isBusy = false;
      this.stopper.hidden = true;
    }
    if (batch !== this.batch) await this.refresh();
  }

  async load(batch, rows) {
    const sheet = await office.sheet(batch);
    Object.assign(this, { rows, saidAt: performance.now() });
    if (sheet.refused) {
      const { refusal } = await import("./refusals.js");
      put(this.said, refusal(sheet.refused, sheet.kept));
      this.place.replaceChildren();
      return;
    }
    // a batch of which nothing changed isn't drawn anew, so that its cursor stays
    if (this.text === sheet.text && this.place.firstChild) return;
    addNames("batches", [batch]);
    const found = await settledPacks(sheet, (...at) => this.progress(batch, ...at));
    if (batch !== this.batch) return;
    const all = { found: count(found.length), all: count(sheet.piles.readings) };
    put(this.said, found.length < sheet.piles.readings ? say("partly", all) : "");
    this.text = sheet.text;
    await this.draw(this.place, sheet, found.map((pack, place) => ({ ...pack, place })));
  }

  progress(batch, found, readings, row) {
    this.stopper.hidden = found >= readings;
    // each word costs a frame, which the reading would wait for
    const now = performance.now();
    if (found < readings && now > this.saidAt + EVERY) {
      this.saidAt = now;
      put(this.said, say("reading", { found: count(found), all: count(readings),
        row: count(row) }));
    }
    return !this.isStopped && batch === this.batch;
  }
}
