// Why a lane of the plan stands, in words.

import { addWords, say } from "./words.js";

addWords({
  waitsRefused: ["no batch, {batch} was refused ({why})",
    "keine Charge, {batch} wurde abgelehnt ({why})"],
  waitsWeights: ["no batch, and packs come", "keine Charge, und Packungen kommen"],
  // why a lane of the plan stands, as deploy/start writes it
  "state done": ["its scale ended", "ihre Waage hat geendet"],
  "state cell": ["its scale failed", "ihre Waage versagt"],
  "state gate": ["its gate failed", "ihr Tor versagt"],
  "state bad": ["its scale sent no weight", "ihre Waage sandte kein Gewicht"],
  "state refused": ["refused by the book", "vom Buch abgelehnt"],
  "state disk": ["the book's disk failed", "die Platte des Buchs versagt"],
  "state memory": ["no memory", "kein Speicher"],
  "state idle": ["its scale ended, and weights had no batch",
    "ihre Waage hat geendet, und Gewichte hatten keine Charge"],
  "state turns": ["its scale reached its bound", "ihre Waage ist an ihrer Grenze"],
});

// Why a changing lane has no batch: `batch NAME refused NUMBER WORD`, or `weights`.
function waitsWords([, batch, , ...why]) {
  return batch ? say("waitsRefused", { batch, why: why.join(" ") }) : say("waitsWeights");
}

// Why a lane of the plan stands, in words; nothing where it runs. What a changing lane was refused
// is over once it has a batch.
export function idleWords(state, batch) {
  const [first, ...rest] = state.split(" ");
  if (!first || ["weighing", "serving"].includes(first)) return "";
  if (first === "waits") return batch ? "" : waitsWords(rest);
  const told = say(`state ${first}`);
  const words = told.startsWith("state ") ? first : told;
  return rest.length ? `${words} (${rest.join(" ")})` : words;
}
