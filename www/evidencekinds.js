// The kinds of evidence and what becomes of one, in both languages, and the hour of a record.

import { LANGUAGE, addWords } from "./words.js";

addWords({
  "kind.scale": ["Check of a scale", "Prüfung einer Waage"],
  "kind.tare": ["Tare of a product", "Tara einer Ware"],
  "kind.density": ["Density of a product", "Dichte einer Ware"],
  "kind.uncertainty": ["Errors of measuring", "Messfehler"],
  "result.good": ["in order", "in Ordnung"],
  "result.more": ["weigh 25 empties", "25 leere wiegen"],
  "result.bad": ["not in order", "nicht in Ordnung"],
});

// The hour of a record, in ms of UTC, by the clock of this machine.
export const spellDay = (moment) => new Date(moment).toLocaleString(LANGUAGE ? "de" : "en-GB",
  { dateStyle: "short", timeStyle: "short" });
