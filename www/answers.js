// Reads the texts that the office answers. Pure: no page is needed.

import { UNIT_DENSITY } from "./rules.js";
import { readMass } from "./grams.js";

export const linesOf = (text) => text.split("\n").filter((line) => line);

export function readPack(number, text) {
  const words = text.trim().split(" ");
  return { number, batch: words[3], lane: Number(words[5]), gross: readMass(words[7]),
    net: readMass(words[9]), class: words[10], signal: words.slice(11, -1).join(" "),
    pile: words.at(-1) };
}

// The packs of a page, each in a line.
export const readPacks = (text) => linesOf(text)
  .map((line) => readPack(Number(line.split(" ")[1]), line));

// Rows of the book as text: the number of each, its answer, and the words of its act, without
// its desk.
export const readActs = (text) => linesOf(text).map((line) => {
  const [told, , asked] = line.split("\t");
  const [row, ...answer] = told.split(" ");
  const words = asked.split(" ");
  return { row: Number(row), told: answer.join(" "),
    words: words[0].startsWith("@") ? words.slice(2) : words };
});

export function readSample(text) {
  const words = text.trim().split(" ").slice(3);
  const cut = words.indexOf("second");
  const numbers = (list) => list.map(Number);
  if (cut < 0) return { first: numbers(words), second: [] };
  return { first: numbers(words.slice(0, cut)), second: numbers(words.slice(cut + 1)) };
}

// The first line of a sheet: quantities in mg or microlitres, the density in mg a litre.
function readGoods(words, told) {
  const isVolume = words[6] === "ml";
  Object.assign(told, { product: words[3], unit: isVolume ? "ml" : "g",
    quantity: readMass(words[5]), density: isVolume ? readMass(words[11]) : UNIT_DENSITY });
}

function readTest(words, told) {
  const at = words.indexOf("first") < 0 ? words.indexOf("second") : words.indexOf("first");
  const [count, measured, defective] = [1, 3, 5].map((place) => Number(words[at + place]));
  if (words[0] === "test") told.mode = words[1];
  told[words[at]] = { count, measured, defective };
}

function readPopulation(words, told) {
  const [population, , net, , nonstandard, , inadequate] = words.slice(1);
  Object.assign(told, { population: Number(population), net: readMass(net),
    nonstandard: Number(nonstandard), inadequate: Number(inadequate) });
}

// The sheet of a batch. Piles are counted by their words.
export function readSheet(batch, text, rows) {
  const told = { batch, rows, text, piles: {}, verdict: null };
  for (const line of linesOf(text)) {
    const words = line.split(" ");
    if (words[0] === "batch") readGoods(words, told);
    else if (words[0] === "state") told.state = words[1];
    else if (words[0] === "held") told.held = words[1] === "yes";
    else if (words[0] === "test" || words[0] === "second") readTest(words, told);
    else if (words[0] === "verdict") told.verdict = words.slice(1).join(" ");
    else if (words[0] === "population") readPopulation(words, told);
    else told.piles[words[0]] = Number(words[1]);
  }
  return told;
}

// A text of `hall list`: the day, products, batches, and the rows left.
export function readList(text) {
  const told = { day: null, products: [], batches: [], text, left: null };
  for (const words of linesOf(text).map((line) => line.split(" "))) {
    const [kind, name] = words;
    if (kind === "day" && name !== "none") told.day = name;
    if (kind === "product") told.products.push(name);
    if (kind === "batch") told.batches.push({ batch: name, product: words[3], state: words[5] });
    if (kind === "rows") Object.assign(told, { rows: Number(name), left: Number(words[3]) });
  }
  return told;
}

// A text of the lanes of the plan: each with its batch and its state in words, and the book's rows.
export function readLanes(text) {
  const told = { lanes: [], isFull: false, left: null };
  for (const words of linesOf(text).map((line) => line.split(" "))) {
    if (words[0] === "lane" && words[2] === "batch") {
      told.lanes.push({ number: Number(words[1]), batch: words[3],
        state: words.slice(4).join(" ") });
    }
    if (words[0] === "lane" && words[2] === "changes") {
      told.lanes.push({ number: Number(words[1]), batch: null, changes: true,
        state: words.slice(3).join(" ") });
    }
    if (words[0] === "book" && words[1] === "full") Object.assign(told, { isFull: true, left: 0 });
    if (words[0] === "book" && words[1] === "rows") told.left = Number(words[4]);
  }
  return told;
}
