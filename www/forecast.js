// How a batch would fare in the three checks of all its packs if it were ended now, exact to the
// milligram and the pack: the packers' part of the verdict. The reference test isn't foretold,
// since its sample isn't drawn yet. Pure: it asks nobody and shows nothing.
//
// A batch is what its sheet says: `population` packs with `net` mg in all, `nonstandard` and
// `inadequate` of them, a nominal `quantity` in mg or microlitres at a `density`.

import { LEAST_PLANNED, MOST_PACKS, ONE_IN, UNIT_DENSITY, allowedOf, failsOf, lackOf }
  from "./rules.js";

// For so many packs is said what they would have to weigh.
export const NEXT_PACKS = 100;

const MILLION = 1_000_000n;

// A quotient rounded upwards, also of a negative number.
function upwards(over, under) {
  const whole = over / under;
  return Number(over % under > 0n ? whole + 1n : whole);
}

// What the next packs would have to weigh each, in whole mg, so that the average holds.
function averageOf(batch) {
  const lack = lackOf(batch);
  const next = Math.min(NEXT_PACKS, MOST_PACKS - batch.population);
  const { quantity, density = UNIT_DENSITY } = batch;
  const wanted = BigInt(next) * BigInt(density) * BigInt(quantity) + lack;
  return {
    short: Math.max(0, upwards(lack, MILLION)),
    above: batch.population ? Number(-lack) / 1e6 / batch.population : 0,
    aboveAll: Number(-lack) / 1e6,
    next,
    each: next > 0 ? upwards(wanted, MILLION * BigInt(next)) : null,
  };
}

// The whole forecast. `kind` is how loud it is shown: `empty`; `held`; `early`, under 100 packs;
// `edge`, one pack over the allowance and nothing else, which good packs mend by themselves, since
// the gate lets one such pack out; `fail`; `ok`.
export function forecastOf(batch, share = null) {
  const fails = failsOf(batch);
  const allowed = allowedOf(batch.population);
  const over = Math.max(0, batch.nonstandard - allowed);
  const figures = {
    fails, allowed, over,
    // so many good packs, until one in forty is kept again
    mend: Math.max(0, ONE_IN * batch.nonstandard - batch.population),
    left: MOST_PACKS - batch.population,
    average: averageOf(batch),
    country: share === null ? null : countryOf(batch, share),
  };
  return { kind: kindOf(batch, figures), ...figures };
}

function kindOf({ population, inadequate }, { fails, over }) {
  if (inadequate > 0) return "held";
  if (population === 0) return "empty";
  if (population < LEAST_PLANNED) return "early";
  if (fails.length === 1 && over === 1) return "edge";
  return fails.length ? "fail" : "ok";
}

// A rule of the country that allows another share of packs below T1, in hundredths of a percent.
function countryOf({ population, nonstandard }, share) {
  const allowed = Math.floor(population * share / 10_000);
  return { allowed, used: nonstandard, isOver: nonstandard > allowed };
}
