// The weights of a sample that this browser measured, or that answered a pack measured twice:
// kept for each batch, since the office can't be asked for them before the batch is closed.

import { keep, readKept } from "./store.js";

const MOST_BATCHES = 20;
const KEPT = "hall.measured";

const isWeights = (weights) => Array.isArray(weights) && weights.every(Number.isSafeInteger);

// The weights of a batch by pack: gross and empty pack.
export function measuredOf(batch) {
  const all = readKept(KEPT, {});
  const kept = Object.hasOwn(all, batch) ? all[batch] : {};
  return new Map(Object.entries(kept).filter(([, weights]) => isWeights(weights))
    .map(([pack, weights]) => [Number(pack), weights]));
}

export function keepMeasured(batch, pack, gross, empty = 0) {
  const { [batch]: own = {}, ...others } = readKept(KEPT, {});
  const older = Object.entries(others).slice(-MOST_BATCHES + 1);
  keep(KEPT, { ...Object.fromEntries(older), [batch]: { ...own, [pack]: [gross, empty] } });
}
