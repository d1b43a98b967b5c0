// What this browser keeps of a desk: acts that wait for an answer, outcomes, the desk's last
// number. Another program or an older page may have written there too; acts that can't be read are
// set aside and shown, since nobody knows whether they were done.

import { keep, readKept, readText } from "./store.js";

const key = (desk, what) => `hall.${what}.${desk}`;
// So many spoiled texts are shown, and so many letters of one.
const MOST_LOST = 20;
const LONGEST_LOST = 500;

export const readOf = (desk, what, otherwise) => readKept(key(desk, what), otherwise);

export function keepOf(desk, what, value) {
  localStorage.setItem(key(desk, what), JSON.stringify(value));
}

const isEntry = (entry) => typeof entry?.mark === "string" && Number.isSafeInteger(entry.request)
  && typeof entry.members === "string";

export const told = (desk) => readOf(desk, "told", [])
  .filter((entry) => isEntry(entry) && entry.found);

// The acts of a desk that have no answer yet, in order.
export function pending(desk) {
  const text = readText(key(desk, "acts"));
  const kept = readOf(desk, "acts", []);
  const acts = kept.filter(isEntry);
  const isSpoiled = text !== null && (acts.length < kept.length || !isList(text));
  if (isSpoiled) setAside(desk, text, acts);
  return acts;
}

function isList(text) {
  try {
    return Array.isArray(JSON.parse(text));
  } catch {
    return false;
  }
}

// Without room for them the acts stay as they are, and are set aside another time.
function setAside(desk, text, acts) {
  const all = [...lost(desk), text.slice(0, LONGEST_LOST)].slice(-MOST_LOST);
  if (keep(key(desk, "lost"), all)) keepOf(desk, "acts", acts);
}

// Texts of acts that couldn't be read, until somebody has looked what became of them.
export const lost = (desk) => readOf(desk, "lost", []).filter((text) => typeof text === "string");

export const forgetLost = (desk) => keepOf(desk, "lost", []);
