// The rules of the book as far as the pages reckon by them: limits, classes, plans. The book
// decides; this only foretells and explains. Masses are whole milligrams. Goods by volume have a
// density in milligrams a litre, at which a mass in mg and a volume in microlitres are compared as
// 10^6 * mass with density * volume; that of goods by mass is 1 000 000.

export const MOST_PACKS = 10_000;
export const MOST_ROWS = 1_000_000;
export const MOST_LANES = 16;
// How many rows or packs an answer of the office has at most; one with fewer is the last.
export const PAGE = 128;
// One pack in so many may be non-standard.
export const ONE_IN = 40;
// From so many packs on a batch has a plan with two samples.
export const LEAST_PLANNED = 100;
export const UNIT_DENSITY = 1_000_000;

// Whole quotients, without a fraction on the way.
const MILLION = 1_000_000n;
const upwards = (over, under) => Number((over + under - 1n) / under);

// The tolerable negative error of a nominal quantity, both in mg or microlitres.
export function errorOf(nominal) {
  const isUpTo = (grams) => nominal <= grams * 1000;
  const part = (thousandths) => upwards(BigInt(nominal) * BigInt(thousandths), 100_000n) * 100;
  if (isUpTo(50)) return part(90);
  if (isUpTo(100)) return 4_500;
  if (isUpTo(200)) return part(45);
  if (isUpTo(300)) return 9_000;
  if (isUpTo(500)) return part(30);
  if (isUpTo(1_000)) return 15_000;
  return part(15);
}

// The least mass in mg that isn't below a quantity at a density.
export function leastMass(quantity, density = UNIT_DENSITY) {
  return upwards(BigInt(quantity) * BigInt(density), MILLION);
}

// The limits of a nominal quantity as masses in mg: a pack is below one where its net is.
export function limitsOf({ quantity, density = UNIT_DENSITY }) {
  const error = errorOf(quantity);
  const [nominal, t1, t2] = [quantity, quantity - error, quantity - 2 * error]
    .map((limit) => leastMass(limit, density));
  return { nominal, t1, t2, error: nominal - t1 };
}

export function classOf(net, { t1, t2 }) {
  return net < t2 ? "inadequate" : net < t1 ? "nonstandard" : "standard";
}

export const allowedOf = (packs) => Math.floor(packs / ONE_IN);

// What the nets lack of the nominal quantities in all, in millionths of a milligram; negative where
// they have more.
export function lackOf({ population, net, quantity, density = UNIT_DENSITY }) {
  return BigInt(population) * BigInt(density) * BigInt(quantity) - MILLION * BigInt(net);
}

// The words of the packers' part of the verdict that would fail, in its order.
export function failsOf(batch) {
  const fails = [];
  if (batch.population === 0) return fails;
  if (lackOf(batch) > 0n) fails.push("average");
  if (ONE_IN * batch.nonstandard > batch.population) fails.push("allowance");
  if (batch.inadequate > 0) fails.push("inadequate");
  return fails;
}

// The plan of the reference test for so many packs; `k` are thousandths.
export function planOf(packs, mode = "keep") {
  const plan = (first, c1, r1, second, c2, r2, means, k) =>
    ({ first, c1, r1, second, c2, r2, means, k });
  if (packs < LEAST_PLANNED) {
    return plan(packs, allowedOf(packs), allowedOf(packs) + 1, 0, 0, 0, packs, 0);
  }
  if (mode === "destroy") return plan(20, 1, 2, 0, 0, 0, 20, 640);
  if (packs <= 500) return plan(30, 1, 3, 30, 4, 5, 30, 503);
  if (packs <= 3_200) return plan(50, 2, 5, 50, 6, 7, 50, 379);
  return plan(80, 3, 7, 80, 8, 9, 50, 379);
}
