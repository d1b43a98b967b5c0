// The figures of the reference test of a sample, for measuring and for the sheet: defective packs
// against the numbers of the plan, mean, standard deviation and limit. The decisions are in whole
// numbers, as the book's; what is shown of mean, s and limit is rounded. Pure.

import { UNIT_DENSITY } from "./rules.js";

const MILLION = 1_000_000n;

export const defectsOf = (contents, t1) => contents.filter((mass) => mass < t1).length;

// What the contents check says of the defective packs, `second` being null without such a sample.
export function contentsCheck({ c1, r1, c2 }, first, second) {
  if (first <= c1) return "accepts";
  if (first >= r1) return "rejects";
  if (second === null) return "open";
  return first + second <= c2 ? "accepts" : "rejects";
}

// The whole part of the root of a number.
function rootOf(number) {
  if (number < 2n) return number;
  let root = BigInt(Math.floor(Math.sqrt(Number(number))));
  while (root * root > number) root -= 1n;
  while ((root + 1n) * (root + 1n) <= number) root += 1n;
  return root;
}

// A quotient rounded to the nearest, halves away from zero; under is above zero.
function nearest(over, under) {
  const size = over < 0n ? -over : over;
  const whole = (2n * size + under) / (2n * under);
  return over < 0n ? -whole : whole;
}

// The limit is reckoned in billionths of a mg before it is rounded.
const BILLION = 1_000_000_000n;

// The mean check over the contents of the first packs, in mg: whether it accepts, exactly; and
// mean, s and the limit Qn - k s, each rounded to the mg. Nothing where there are no contents.
export function meanCheck(contents, { quantity, density = UNIT_DENSITY, k }) {
  const count = BigInt(contents.length);
  if (count === 0n) return null;
  const masses = contents.map(BigInt);
  const sum = masses.reduce((all, mass) => all + mass, 0n);
  const squares = masses.reduce((all, mass) => all + (count * mass - sum) ** 2n, 0n);
  const nominal = BigInt(density) * BigInt(quantity);
  const lack = count * nominal - MILLION * sum;
  const within = (count - 1n) * lack ** 2n <= MILLION * BigInt(k) ** 2n * squares;
  const accepts = lack <= 0n || (count >= 2n && k > 0 && within);
  // s^2 is squares / under
  const under = count < 2n ? 1n : count ** 2n * (count - 1n);
  const fine = rootOf(BILLION ** 2n * squares / under);
  return {
    accepts,
    mean: Number(nearest(sum, count)),
    s: Number((rootOf(4n * squares / under) + 1n) / 2n),
    limit: Number(nearest(1_000n * nominal - BigInt(k) * fine / 1_000n, BILLION)),
  };
}
