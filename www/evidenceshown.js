// What of the evidence is due, in words; on the board alarms for what is overdue or not in order,
// and for lanes that call for help. Where no archive answers, nothing is said of it.

import { addWords, say } from "./words.js";
import { askArchive } from "./archived.js";
import { laneWords } from "./settings.js";
import "./evidencekinds.js";

// How often the board asks, and how often where no archive answered, in ms; and how long it shows
// that the archive and a book differ.
const EVERY = 5_000, SELDOM = 600_000, DAY = 86_400_000;

addWords({
  "due.old": ["{kind}, {subject}: overdue (limit {days} d), do it again",
    "{kind}, {subject}: überfällig (Frist {days} d), neu machen"],
  "due.more": ["{kind}, {subject}: weigh 25 empties", "{kind}, {subject}: 25 leere wiegen"],
  "due.bad": ["{kind}, {subject}: not in order", "{kind}, {subject}: nicht in Ordnung"],
  differsFrom: ["{book}: archive and book differ. {what}",
    "{book}: Archiv und Buch weichen ab. {what}"],
  calls: ["{lane} calls for help", "{lane} ruft Hilfe"],
});

export const dueWords = ({ kind, subject, why, days }) => (kind === "call"
  ? say("calls", { lane: laneWords(subject) })
  : say(`due.${why}`, { kind: say(`kind.${kind}`), subject, days }));

const dueAlarm = (one) => (one.kind === "call" ? ["alarm", "warn", dueWords(one)]
  : ["warn", "clock", dueWords(one)]);

// ---- the board

const due = { at: -Infinity, alarms: [] };

async function askDue() {
  const told = await askArchive("alarms");
  due.at = Date.now() + (told ? EVERY : SELDOM);
  const books = (told?.books ?? []).filter(({ moment }) => Date.now() - moment < DAY);
  due.alarms = [...books.map((one) => ["alarm", "reject", say("differsFrom", one)]),
    ...(told?.evidence ?? []).map(dueAlarm)];
}

// The alarms as they were a moment ago; nothing waits for the archive.
export function evidenceAlarms() {
  if (Date.now() >= due.at) {
    due.at = Infinity;
    askDue();
  }
  return due.alarms;
}
