// Asks the office its questions, and the front the files beside them.

import { readActs, readLanes, readList, readPack, readPacks, readSample, readSheet }
  from "./answers.js";
import { MOST_LANES } from "./rules.js";

// Milliseconds that an answer is waited for: longer than the front itself waits for a door.
export const PATIENCE = 20_000;
// Questions of this page that are under way at once, so that others come in between.
const AT_ONCE = 4;
const PACK_UNKNOWN = 24;

// The book that an address names after a batch, as `#sheet/MORNING/2026-11`: the archive answers of
// it what its office did. Without one it is the hall itself.
export function bookOf(hash) {
  const [page, , book] = hash.slice(1).split("/");
  return ["batch", "sheet"].includes(page) ? decodeURIComponent(book ?? "") : "";
}

export const oldBook = bookOf(location.hash);
const OFFICE = oldBook ? `archive/old/${encodeURIComponent(oldBook)}/` : "hall/";

// No answer came, or one that isn't the office's: what was asked may be asked again.
export class Missing extends Error {}

// When a question was last answered, by the office of which book, and why the newest wasn't: a
// status, or the name of a fault.
export const link = { at: 0, why: "", book: null };

let free = AT_ONCE;
const waiting = [];

// A question that can wait comes after all others.
async function enter(canWait) {
  if (free > 0) free -= 1;
  else await new Promise((go) => (canWait ? waiting.push(go) : waiting.unshift(go)));
}

function leave() {
  const next = waiting.shift();
  if (next) next();
  else free += 1;
}

export async function reach(path, options = {}) {
  const limits = { cache: "no-store", redirect: "error", signal: AbortSignal.timeout(PATIENCE) };
  try {
    // without the name and password that the address of the page may have
    const address = new URL(path, location.origin + location.pathname);
    const response = await fetch(address, { ...limits, ...options });
    const text = await response.text();
    const [row, book] = ["Row", "Name"].map((name) => response.headers.get(`Book-${name}`));
    return { status: response.status, row: Number(row), book, text };
  } catch (fault) {
    throw new Missing(fault.name);
  }
}

// The answer to a question: `text`, or `refused` with its number, name and what is kept. Other
// statuses than these are no answer.
export async function ask(path, canWait = false) {
  await enter(canWait);
  try {
    const answer = await reach(OFFICE + path);
    if (![200, 409].includes(answer.status)) throw new Missing(String(answer.status));
    // another book was begun: nothing that the page shows is of it
    if (answer.book && answer.book !== (link.book ?? answer.book)) location.reload();
    Object.assign(link, { at: Date.now(), why: "", book: answer.book ?? link.book });
    return answer.status === 409 ? { ...answer, ...JSON.parse(answer.text) } : answer;
  } catch (fault) {
    link.why = fault.message;
    throw fault;
  } finally {
    leave();
  }
}

// Does what asks the office. Where an answer is missing nothing more is done: the page says so.
export async function following(work) {
  try {
    return await work();
  } catch (fault) {
    if (!(fault instanceof Missing)) console.error(fault);
    return null;
  }
}

// How many rows the book has.
export const summary = async () => ({ rows: (await ask("summary")).row });

export async function lane(number) {
  const { refused, row, text } = await ask(`lanes/${number}`);
  const words = refused ? [] : text.trim().split(" ");
  return { number, rows: row, batch: words[2] === "batch" ? words[3] : null,
    unsettled: words[5] ? Number(words[5]) : null };
}

// What all lanes now do.
export function allLanes() {
  const numbers = Array.from({ length: MOST_LANES }, (_, at) => at + 1);
  return Promise.all(numbers.map(lane));
}

// A pack, or null where the row of this number is none.
export async function pack(number) {
  const answer = await ask(`packs/${number}`, true);
  return answer.refused === PACK_UNKNOWN ? null : readPack(number, answer.text);
}

// The acts after a row, a page of them, and how many rows the book has.
export async function acts(after) {
  const answer = await ask(`acts/${after}`);
  return { rows: answer.row, acts: readActs(answer.text) };
}

// The packs of a batch above a number, a page of them.
export async function packsAbove(batch, number) {
  const answer = await ask(`batches/${batch}/packs/${number}`, true);
  return answer.refused ? [] : readPacks(answer.text);
}

// The drawn packs in drawing order; none where nothing was drawn.
export async function sample(batch) {
  const answer = await ask(`batches/${batch}/sample`);
  return answer.refused ? { first: [], second: [] } : readSample(answer.text);
}

// The sheet of a batch, or the refusal where there is no such batch.
export async function sheet(batch) {
  const answer = await ask(`batches/${batch}`);
  return answer.refused ? answer : readSheet(batch, answer.text, answer.row);
}

// A file that the front may serve beside the pages; its text, or nothing.
async function file(path) {
  const answer = await reach(path).catch(() => null);
  return answer?.status === 200 ? answer.text : "";
}

export const list = async () => readList(await file("list.txt"));
export const lanes = async () => readLanes(await file("lanes.txt"));
export const paper = (batch) => file(`${oldBook ? OFFICE : ""}papers/${batch}.txt`);
