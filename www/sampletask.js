// What measuring a sample goes by: its packs, its plan and limits, what this browser knows of their
// weights; and how the sample is doing, in figures and as a row of squares.

import * as office from "./office.js";
import { actsOf, hourOf } from "./archived.js";
import { contentsCheck, meanCheck } from "./sample.js";
import { count, fixed, grams } from "./numbers.js";
import { limitsOf, planOf } from "./rules.js";
import { measuredOf } from "./measured.js";
import { packAt } from "./packs.js";
import { packsOf } from "./batchpacks.js";
import { say } from "./words.js";
import { shape } from "./page.js";

const SQUARES = 30;

// The packs to measure in drawing order: of a sample of which M are measured, those after the first
// M come first, and then those before, which the book refuses where they are measured.
const inTurn = (numbers, many) => [...numbers.slice(many), ...numbers.slice(0, many)];

// The part of a sample that is measured now.
export const partOf = ({ isSecond, sheet }) => (isSecond ? sheet.second : sheet.first);

export async function taskOf(sheet) {
  const sample = await office.sample(sheet.batch);
  const isSecond = sample.second.length > 0;
  const numbers = isSecond ? sample.second : sample.first;
  const task = { sheet, sample, isSecond, numbers, plan: planOf(sheet.population, sheet.mode),
    limits: limitsOf(sheet), mode: sheet.mode, known: measuredOf(sheet.batch), passed: new Set(),
    tares: new Map(), order: null, hours: new Map() };
  task.turn = inTurn(numbers, partOf(task).measured);
  await askTares(task);
  return task;
}

async function askTares(task) {
  const all = [...task.sample.first, ...task.sample.second];
  for (const pack of await Promise.all(all.map((number) => packAt(number)))) {
    task.tares.set(pack.number, pack.gross - pack.net);
  }
}

// What a measured pack contains; nothing where it isn't known here.
export function contentsOf(task, number, weights = task.known.get(number)) {
  if (!weights) return null;
  if (task.mode === "destroy") return weights[0] - weights[1];
  return task.tares.has(number) ? weights[0] - task.tares.get(number) : null;
}

// ---- how the sample is doing

function meanLines(task) {
  const { plan, sample, sheet } = task;
  const contents = sample.first.slice(0, plan.means).map((number) => contentsOf(task, number))
    .filter((one) => one !== null);
  const told = meanCheck(contents, { ...sheet, k: plan.k });
  if (!told) return [[say("mMean", plan), "–", ""], [say("mSpread"), "–", ""]];
  const isAll = contents.length === Math.min(plan.means, sheet.first.measured);
  const need = say("mNeed", { need: grams(told.limit), k: fixed(plan.k / 1000, 3) });
  const known = isAll ? need : `${need} · ${say("mKnown", { known: contents.length })}`;
  return [[say("mMean", plan), `${grams(told.mean)} g`, known],
    [say("mSpread"), `${grams(told.s)} g`, ""]];
}

// Defective packs against the numbers of the plan, mean, s and limit: each with what it is held
// against.
export function figuresOf(task) {
  const { plan, sheet, isSecond } = task;
  const { first, second } = sheet;
  const isDecided = first.measured === first.count
    && (!second || second.measured === second.count);
  const check = contentsCheck(plan, first.defective, second ? second.defective : null);
  const more = isDecided ? ` · ${say(`check ${check}`)}` : "";
  const defects = isSecond
    ? [say("mDefects2"), count(first.defective + second.defective), say("mAccepts2", plan) + more]
    : [say("mDefects"), count(first.defective), say("mAccepts", plan) + more];
  return [defects, ...meanLines(task)];
}

// A square for each pack: measured here, defective, next, not yet.
export function squares(task, next) {
  const rows = Math.ceil(task.numbers.length / SQUARES);
  const boxes = task.numbers.map((number, at) => {
    const [x, y] = [(at % SQUARES) * 24, Math.floor(at / SQUARES) * 24];
    const contents = contentsOf(task, number);
    const isLight = contents !== null && contents < task.limits.t1;
    const isDone = task.known.has(number) || task.passed.has(number);
    const kind = number === next ? "now" : isLight ? "bad" : isDone ? "good" : "later";
    const marks = { good: `M${x + 6} ${y + 11}l3.5 3.5l6.5 -7.5`,
      bad: `M${x + 6} ${y + 6}l10 10m0 -10l-10 10` };
    const box = shape("rect",
      { class: `sq ${kind}`, x: x + 1.5, y: y + 1.5, width: 19, height: 19 });
    return marks[kind] ? [box, shape("path", { class: `sq-${kind}`, d: marks[kind] })] : [box];
  });
  const { measured, count: all } = partOf(task);
  return shape("svg", { class: "squares", viewBox: `0 0 ${SQUARES * 24} ${rows * 24}`, role: "img",
    "aria-label": say("mAll", { done: measured, all }) }, boxes);
}

// ---- where a pack lies

// Reads the batch's packs once, beside the measuring, so that the place of each on its lane is
// known.
export async function readOrder(task, isWanted) {
  const packs = await packsOf(task.sheet, isWanted);
  const lanes = new Map();
  task.order = new Map();
  for (const { number, lane } of packs) {
    lanes.set(lane, (lanes.get(lane) ?? 0) + 1);
    task.order.set(number, { lane, place: lanes.get(lane) });
  }
  task.laneCounts = lanes;
}

// The hours of the drawn packs, where an archive has them.
export async function readHours(task, isWanted) {
  const [opened] = await actsOf(task.sheet, Math.min(...task.numbers));
  if (!opened) return;
  for (const number of task.turn) {
    if (!isWanted()) return;
    task.hours.set(number, await hourOf(opened.book, number));
  }
}
