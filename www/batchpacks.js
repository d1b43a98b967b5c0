// The packs of a batch in order of weighing, read page by page from a few places at once, and what
// was read kept for the next time.

import * as office from "./office.js";
import { MOST_LANES, PAGE } from "./rules.js";
import { keptOfBook, packs } from "./packs.js";

// The newest packs may lie elsewhere once their gate was heard of: so many are read again.
const UNSETTLED = 2 * MOST_LANES;
// What was read of batches, of the newest few.
const MOST_READ = 4;
const paged = keptOfBook();

function keep(batch, found) {
  paged.delete(batch);
  paged.set(batch, found);
  if (paged.size > MOST_READ) paged.delete(paged.keys().next().value);
}

function isAsTold(sheet, found) {
  const pile = (word) => found.filter((pack) => pack.pile === word);
  const counted = [...pile("passed"), ...pile("sampled")];
  return ["passed", "rejected", "sampled", "voided"]
    .every((word) => pile(word).length === sheet.piles[word])
    && counted.reduce((sum, pack) => sum + pack.net, 0) === sheet.net;
}

// Pages of a batch that are asked for at once: as many as a front mostly has doors.
const AT_ONCE = 3;

// The parts in which the packs of a batch after a page are read at once, each above one number up
// to an end; about as many in each, as the page shows how far apart they lie.
function partsBehind(page, left) {
  const [first, last] = [page[0].number, page.at(-1).number];
  const many = Math.min(AT_ONCE, Math.ceil(left / PAGE));
  const wide = (last - first) / PAGE * left / many;
  const starts = Array.from({ length: many }, (_, at) => last + Math.round(at * wide));
  return starts.map((at, place) => ({ at, end: starts[place + 1] ?? Infinity, found: [] }));
}

// Reads a part page by page, as long as somebody waits for it.
async function readPart(batch, part, goesOn) {
  for (let isMore = true; isMore;) {
    const page = await office.packsAbove(batch, part.at);
    part.found.push(...page.filter(({ number }) => number <= part.end));
    part.at = page.at(-1)?.number ?? part.end;
    part.isWhole = page.length < PAGE || part.at >= part.end;
    isMore = goesOn(page.length, part.at) && !part.isWhole;
  }
}

// The packs of a batch in order of weighing, after those that were read before. Of parts that were
// stopped on the way all up to the first of them is kept.
export async function packsOf(sheet, progress) {
  const { batch, piles: { readings } } = sheet;
  const found = (paged.get(batch) ?? []).slice(0, -UNSETTLED);
  let has = found.length;
  const goesOn = (more, row) => {
    has = Math.min(has + more, readings);
    return progress(has, readings, row);
  };
  const page = await office.packsAbove(batch, found.at(-1)?.number ?? 0);
  found.push(...page);
  const isMore = goesOn(page.length, found.at(-1)?.number ?? 0) && page.length === PAGE;
  const parts = isMore && has < readings ? partsBehind(page, readings - has) : [];
  await Promise.all(parts.map((part) => readPart(batch, part, goesOn)));
  const cut = parts.findIndex(({ isWhole }) => !isWhole);
  found.push(...parts.slice(0, cut < 0 ? parts.length : cut + 1).flatMap((part) => part.found));
  keep(batch, found);
  for (const pack of found) packs.set(pack.number, pack);
  return found.slice(0, readings);
}

// The packs of a batch as they now lie. Where they don't add up to its sheet, a pack was voided or
// drawn, or a tare was corrected meanwhile: then all are read again.
export async function settledPacks(sheet, progress) {
  const found = await packsOf(sheet, progress);
  if (found.length < sheet.piles.readings || isAsTold(sheet, found)) return found;
  paged.delete(sheet.batch);
  return packsOf(sheet, progress);
}
