// The reference test of a batch from its measured weights: contents, and the mean check over them.
// The weights are those of the batch's paper, or those that this browser measured. Pure.

import { meanCheck } from "./sample.js";
import { planOf } from "./rules.js";

// The tare of each pack, as the book now reckons with it.
export const tareOf = (packs) =>
  new Map(packs.map(({ number, gross, net }) => [number, gross - net]));

// What a measured pack contains; nothing where its weight isn't known.
export function contentsOf({ gross, empty }, tare, mode) {
  if (gross === null) return null;
  return mode === "destroy" ? gross - empty : gross - tare;
}

// The samples of a paper, each pack with its contents; the paper has the tares by day.
export function samplesOfPaper(paper, tares = new Map()) {
  const byDay = new Map(paper.tares);
  const tare = (pack) => byDay.get(paper.days.get(pack)) ?? tares.get(pack);
  const part = (list) => list.map((one) => ({ ...one,
    contents: contentsOf(one, tare(one.pack), paper.mode) }));
  return { first: part(paper.first), second: part(paper.second), words: paper.words, paper };
}

// The samples as they were drawn, with the weights that are known.
export function samplesMeasured(sample, known, tares, mode) {
  const part = (numbers) => numbers.map((pack) => {
    const [gross, empty] = known.get(pack) ?? [null, null];
    return { pack, gross, empty, contents: contentsOf({ gross, empty }, tares.get(pack), mode) };
  });
  return { first: part(sample.first), second: part(sample.second), words: [], paper: null };
}

// The figures of the reference test; `mean` is nothing where a weight isn't known.
export function testOf(sheet, samples) {
  const plan = planOf(sheet.population, sheet.mode ?? "keep");
  const contents = samples.first.slice(0, plan.means).map((one) => one.contents);
  const isKnown = contents.length > 0 && !contents.includes(null);
  return { plan, mean: isKnown ? meanCheck(contents, { ...sheet, k: plan.k }) : null };
}
