// What is typed as evidence, as the archive wants it: masses in milligrams, densities in milligrams
// a litre, temperatures in thousandths of a degree. A value that can't be read is null.

import { isName, readAmount } from "./grams.js";

export const KINDS = ["scale", "tare", "density", "uncertainty"];

const lines = (text) => text.split("\n").map((line) => line.trim()).filter(Boolean);
const isWhole = (values) => values.length > 0 && values.every((value) => value !== null);
const whole = (values) => (isWhole(values) ? values : null);

// A list of amounts, one a line.
export const readList = (text, unit) => whole(lines(text).map((line) => readAmount(line, unit)));

// What a list that is being typed comes to: how many values, their mean and s; or in which line,
// from 1, is no amount. The last line may not be done yet.
export function soFar(text) {
  const typed = lines(text).map((line) => readAmount(line, "g"));
  const bad = typed.slice(0, -1).indexOf(null) + 1;
  const values = typed.filter((value) => value !== null);
  const mean = values.reduce((sum, value) => sum + value, 0) / values.length;
  const squares = values.reduce((sum, value) => sum + (value - mean) ** 2, 0);
  return { bad, count: values.length, mean, spread: Math.sqrt(squares / (values.length - 1)) };
}

// Pairs, one a line: a test weight and what was shown of it.
export function readPairs(text) {
  const amounts = (line) => line.split(/[\s;]+/).map((part) => readAmount(part, "g"));
  const pairs = lines(text).map(amounts);
  const isPair = (pair) => pair.length === 2 && !pair.includes(null);
  return pairs.length > 0 && pairs.every(isPair) ? pairs : null;
}

// Parts with their names, one a line: `scale 0,5`.
export function readParts(text) {
  const parts = lines(text).map((line) => /^(.*\S)\s+(\S+)$/.exec(line) ?? [line, "", ""]);
  const masses = whole(parts.map(([, , mass]) => readAmount(mass, "g")));
  return masses && Object.fromEntries(parts.map(([, name], at) => [name, masses[at]]));
}

// Degrees, below zero too.
export function readDegrees(text) {
  const parts = /^\s*([-−]?)(.*)$/.exec(text);
  const size = readAmount(parts[2], "°C");
  return size === null ? null : parts[1] ? -size : size;
}

// The fields of each kind, how each is read, and whether it takes several lines.
export const FIELDS = {
  scale: [["pairs", readPairs, true], ["limit", (text) => readAmount(text, "g")]],
  tare: [["nominal", (text) => readAmount(text, "g")],
    ["empties", (text) => readList(text, "g"), true]],
  density: [["method", (text) => text.trim() || null], ["temperature", readDegrees],
    ["readings", (text) => readList(text, "g/l"), true]],
  uncertainty: [["nominal", (text) => readAmount(text, "g")], ["parts", readParts, true]],
};

// What was typed in the fields of a kind, as the archive takes it: `faulty` names the first field
// that can't be read.
export function readEntry(kind, subject, texts) {
  if (!isName(subject.trim())) return { faulty: "subject" };
  const body = {};
  for (const [name, read] of FIELDS[kind]) {
    const value = read(texts[name] ?? "");
    if (value === null) return { faulty: name };
    body[name] = value;
  }
  if (kind !== "scale") return { body };
  const [weights, shown] = [0, 1].map((at) => body.pairs.map((pair) => pair[at]));
  return { body: { weights, shown, limit: body.limit } };
}
