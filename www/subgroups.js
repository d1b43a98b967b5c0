// Subgroups of packs with their limits, and the run rules over their means. Pure. Packs have their
// place in the batch, from 0.

import { isCounted, meanAndS } from "./control.js";

// How many packs a subgroup has, by how many there are.
export function groupSize(packs) {
  if (packs <= 500) return 5;
  if (packs <= 2_000) return 10;
  return packs <= 5_000 ? 20 : 50;
}

// What the mean of s of so many packs is to sigma: sqrt(2 / (n - 1)) Gamma(n/2) / Gamma((n-1)/2).
export function c4(size) {
  let quotient = 1 / Math.sqrt(Math.PI);
  for (let n = 2; n < size; n += 1) quotient = (n - 1) / 2 / quotient;
  return Math.sqrt(2 / (size - 1)) * quotient;
}

// Subgroups of packs that count and follow one another, with three-sigma limits of their means and
// of their s, by the mean of s.
export function subgroups(packs, size) {
  const counted = packs.filter(isCounted);
  const groups = [];
  for (let at = 0; at + size <= counted.length; at += size) {
    const part = counted.slice(at, at + size);
    const [first, last] = [part[0].place, part.at(-1).place];
    groups.push({ first, last, place: (first + last) / 2,
      ...meanAndS(part.map(({ net }) => net)) });
  }
  const average = (pick) => groups.reduce((sum, group) => sum + pick(group), 0) / groups.length;
  const [centre, spread, fit] = [average(({ mean }) => mean), average(({ s }) => s), c4(size)];
  const sigma = spread / fit / Math.sqrt(size);
  const b = 3 * Math.sqrt(1 - fit * fit) / fit;
  const bounds = { centre, sigma, low: centre - 3 * sigma, high: centre + 3 * sigma, spread,
    sLow: Math.max(0, 1 - b) * spread, sHigh: (1 + b) * spread };
  for (const group of groups) group.isWide = group.s > bounds.sHigh || group.s < bounds.sLow;
  return { size, groups, bounds };
}

// The run rules of Western Electric over the means: so many of so many points that follow one
// another lie on one side beyond so many sigmas.
export const RULES = [
  { name: "beyond3", hits: 1, of: 1, sigmas: 3 },
  { name: "two3", hits: 2, of: 3, sigmas: 2 },
  { name: "four5", hits: 4, of: 5, sigmas: 1 },
  { name: "eight", hits: 8, of: 8, sigmas: 0 },
];

// Marks each group at which a rule is first met with the name of that rule, the first that holds.
export function markRules(groups, { centre, sigma }) {
  groups.forEach((group, at) => {
    const isMet = ({ hits, of, sigmas }) => [1, -1].some((side) => {
      const beyond = (one) => side * (one.mean - centre) > sigmas * sigma;
      const last = groups.slice(Math.max(0, at - of + 1), at + 1);
      return beyond(group) && last.filter(beyond).length >= hits;
    });
    group.rule = RULES.find(isMet)?.name ?? "";
  });
  return groups.filter(({ rule }) => rule);
}
