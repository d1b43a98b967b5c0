// The acts of a desk: numbered, kept in this browser before they are sent, and asked again in
// order until they are answered. One page of a browser at a time acts as a desk, since what one
// page keeps another may see a moment later; when it is closed, the next goes on with what it left.

import { Missing, reach } from "./office.js";
import { keepOf, pending, readOf, told } from "./kept.js";

const FIRST_PAUSE = 500;
const LONGEST_PAUSE = 5_000;
// Until what a page kept that was closed is seen by every other.
const SEEN = 1_000;
// How many outcomes are kept of a desk.
const TOLD = 100;
const OLD = 2;
const REUSED = 3;
const GAP = 4;
// A request of number 0 is never an act: it is refused as old, with the desk's last number.
const ASK_LAST = { request: 0, members: '"act":"day","day":"1970-01-01"' };

// Why the first act of a desk has no answer yet: a status, or the name of a fault.
export const why = new Map();

const listeners = new Set();

export function onChange(listener) {
  listeners.add(listener);
}

function changed(desk) {
  for (const listener of listeners) listener(desk);
}

addEventListener("storage", (event) => {
  const parts = /^hall\.(?:acts|told|lost)\.(\d+)$/.exec(event.key ?? "");
  if (parts) changed(Number(parts[1]));
});

export function canKeep() {
  try {
    localStorage.setItem("hall.room", "1");
    return Boolean(navigator.locks);
  } catch {
    return false;
  }
}

const pause = (time) => new Promise((go) => setTimeout(go, time));

// The desk that this page has, and what it sends for it.
let mine = 0;
let sending = null;
let giveBack = () => {};

export const isMine = (desk) => desk === mine;

// Takes a desk for this page, in the place of the one that it has. Where another page of the
// browser has it, `waits` is called, and it is taken when that page gives it back or is closed.
export async function take(desk, waits, taken) {
  giveBack();
  let isWanted = true;
  const back = new Promise((go) => {
    giveBack = () => {
      isWanted = false;
      mine = 0;
      Promise.resolve(sending).then(go);
    };
  });
  const have = async () => {
    if (!isWanted) return;
    mine = desk;
    taken();
    send(desk);
    await back;
  };
  const name = `hall.desk.${desk}`;
  const isFree = await navigator.locks.request(name, { ifAvailable: true }, async (lock) => {
    if (lock) await have();
    return Boolean(lock);
  });
  if (isFree || !isWanted) return;
  waits();
  await navigator.locks.request(name, () => pause(SEEN).then(have));
}

// The members of an act as JSON; a word of 64 bits is more than a number of this language holds.
function spell(act) {
  const text = (value) => (typeof value === "bigint" ? String(value) : JSON.stringify(value));
  return Object.entries(act).map(([name, value]) => `"${name}":${text(value)}`).join(",");
}

// Keeps an act under the next number, and sends it. Says by which mark its outcome is found.
export function give(desk, act) {
  const mark = crypto.randomUUID();
  const acts = pending(desk);
  const request = (acts.at(-1)?.request ?? readOf(desk, "last", 0)) + 1;
  keepOf(desk, "acts", [...acts, { mark, request, act: act.act, members: spell(act), tries: 0 }]);
  changed(desk);
  send(desk);
  return mark;
}

// The outcome of an act, as soon as it is known, by whichever page of this browser.
export function outcome(desk, mark) {
  return new Promise((tell) => {
    const look = () => {
      const found = told(desk).find((entry) => entry.mark === mark);
      if (!found) return;
      listeners.delete(look);
      tell(found);
    };
    onChange(look);
    look();
  });
}

// Sends what is pending, one act at a time, as long as this page has the desk.
function send(desk) {
  sending ??= sendAll(desk).finally(() => {
    sending = null;
    if (mine && pending(mine).length > 0) send(mine);
  });
}

async function sendAll(desk) {
  let wait = FIRST_PAUSE;
  while (isMine(desk) && pending(desk).length > 0) {
    const found = await sendFirst(desk);
    if (!found.again) {
      settle(desk, pending(desk)[0], found);
      wait = FIRST_PAUSE;
    } else {
      why.set(desk, found.again);
      changed(desk);
      await pause(wait);
      wait = Math.min(2 * wait, LONGEST_PAUSE);
    }
  }
}

// Sends the first act, after what the book says of the desk's last number where it is new.
async function sendFirst(desk) {
  const isNew = pending(desk)[0].tries === 0;
  const found = isNew ? judge(isNew, await post(desk, ASK_LAST)) : null;
  if (found && found.last === undefined) return found;
  if (found) number(desk, pending(desk), found.last);
  countTry(desk);
  changed(desk);
  return judge(isNew, await post(desk, pending(desk)[0]));
}

function countTry(desk) {
  const acts = pending(desk);
  acts[0].tries += 1;
  keepOf(desk, "acts", acts);
}

async function post(desk, head) {
  const body = `{"desk":${desk},"request":${head.request},${head.members}}`;
  const headers = { "Content-Type": "application/json" };
  try {
    return await reach("hall/acts", { method: "POST", headers, body });
  } catch (fault) {
    if (fault instanceof Missing) return { status: 0, text: fault.message };
    throw fault;
  }
}

// What an answer says of an act that is new, or was tried before:
// `again` it has to be asked, it is `done`, was `refused`, or takes the number after `last`.
function judge(isNew, answer) {
  if (answer.status === 200 && isObject(answer.text)) return { done: JSON.parse(answer.text) };
  if (answer.status === 409 && isObject(answer.text)) {
    return judgeRefusal(isNew, JSON.parse(answer.text));
  }
  if (answer.status === 403) return isNew ? { foreign: true } : { doubt: "?" };
  if ([400, 404, 405, 411, 413].includes(answer.status)) return { broken: answer.status };
  return { again: String(answer.status || answer.text) };
}

const isObject = (text) => text.startsWith("{") && text.endsWith("}");

function judgeRefusal(isNew, { refused, kept }) {
  // the number is another act's, or leaves a gap: this one has acted under no number
  if (refused === REUSED) return { last: "this" };
  if (refused === GAP) return { last: Number(kept) };
  if (refused !== OLD) return { refused, kept };
  // an earlier try may have acted before another page went on
  return isNew ? { last: Number(kept) } : { doubt: kept };
}

// Numbers acts that haven't been sent under a number that counts, from the one after `last`.
function number(desk, acts, last) {
  keepOf(desk, "last", last);
  keepOf(desk, "acts", acts.map((act, place) => ({ ...act, request: last + 1 + place, tries: 0 })));
}

// Keeps what became of the first act. Those after it weren't sent yet.
function settle(desk, head, found) {
  if (found.last !== undefined) {
    number(desk, pending(desk), found.last === "this" ? head.request : found.last);
  } else {
    const { mark, request, act, members } = head;
    keepOf(desk, "told", [{ mark, request, act, members, found }, ...told(desk)].slice(0, TOLD));
    number(desk, pending(desk).slice(1), found.done ? request : request - 1);
  }
  why.delete(desk);
  changed(desk);
}
