// The packs that a page has heard of, and what else is kept of the book until there is another one.

import * as office from "./office.js";

// Packs by their number; null where a row is no pack.
export const packs = new Map();
const state = { rows: 0, kept: [packs] };

// What is kept of a book in a map, until there is another book.
export function keptOfBook() {
  const kept = new Map();
  state.kept.push(kept);
  return kept;
}

// There is another book: nothing that is kept is of it.
export function forgetBook() {
  for (const kept of state.kept) kept.clear();
}

// A book of fewer rows than were seen is another book.
export function atRows(rows) {
  if (rows < state.rows) forgetBook();
  state.rows = rows;
}

// A pack, asked where it isn't known or is to be asked anew. Where an act moved it meanwhile, the
// answer may be from before.
export async function packAt(number, anew = false) {
  if (anew || !packs.has(number)) {
    const was = packs.get(number)?.pile;
    const pack = await office.pack(number);
    const now = packs.get(number)?.pile;
    if (pack && was && now && now !== was) pack.pile = now;
    packs.set(number, pack);
  }
  return packs.get(number);
}
