// What is next for a batch, by its sheet and the lanes: pure, so that it can be shown and tested.

import { planOf } from "./rules.js";

export const STEPS = ["weigh", "end", "draw", "measure", "close"];

// One of: `held`, a pack has to be voided or a tare corrected; `weigh`, nothing to do yet; `end`;
// `draw`; `measure`; `second`; `close`; and `closed`.
export function nextOf(sheet, isOnLane) {
  if (sheet.state === "closed") return "closed";
  if (sheet.held && (sheet.state === "running" || sheet.state === "ended")) return "held";
  if (sheet.state === "running") return isOnLane || !sheet.piles.readings ? "weigh" : "end";
  if (sheet.state === "ended") return sheet.population ? "draw" : "close";
  return nextOfSample(sheet);
}

function nextOfSample({ population, mode, first, second }) {
  if (first.measured < first.count) return "measure";
  const plan = planOf(population, mode);
  const isOpen = first.defective > plan.c1 && first.defective < plan.r1;
  if (!isOpen) return "close";
  if (!second) return "second";
  return second.measured < second.count ? "measure" : "close";
}

// At which of the steps a batch is.
export function stepOf(next) {
  const at = { held: "weigh", second: "measure" }[next] ?? next;
  return next === "closed" ? STEPS.length : STEPS.indexOf(at);
}

// Whether it waits for a person.
export const isTask = (next) => next !== "weigh" && next !== "closed";
