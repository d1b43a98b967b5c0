// Reads the paper of a closed batch, as `hall paper` prints it. Pure: no page is needed.

import { linesOf } from "./answers.js";
import { readMass } from "./grams.js";

// What a paper says of a closed batch, or null where the text is none: its tares by day, and its
// samples with their words.
export function readPaper(text) {
  const lines = linesOf(text).map((line) => line.split(" "));
  if (lines[0]?.join(" ") !== "paper 1" || lines[1]?.[0] !== "batch") return null;
  const [, batch, , product, , nominal, , unit, , density, , row] = lines[1];
  const told = { batch, product, quantity: readMass(nominal), unit, density: readMass(density),
    row: Number(row), tares: [], days: new Map(), words: [], first: [], second: [], verdict: "" };
  for (const words of lines.slice(2)) readPaperLine(words, told);
  return told;
}

function readPaperLine(words, told) {
  const [kind, name, third, fourth] = words;
  if (kind === "tare") told.tares.push([name, readMass(third)]);
  if (kind === "pack") told.days.set(Number(name), third);
  if (kind === "mode") told.mode = name;
  if (kind === "mode" || kind === "word") told.words.push(words.at(-1));
  if (kind === "verdict") told.verdict = words.slice(1).join(" ");
  if (kind !== "first" && kind !== "second") return;
  const isMeasured = third === "gross";
  told[kind].push({ pack: Number(name), gross: isMeasured ? readMass(fourth) : null,
    empty: isMeasured ? readMass(words[5]) : null });
}
