// The figures of a chart of nets: means of 30, a histogram, tares, causes. Pure. Packs have their
// place in the batch, from 0.

const MEAN_OF = 30;

export const isCounted = ({ pile }) => pile === "passed" || pile === "sampled";

export function meanAndS(values) {
  const mean = values.reduce((sum, value) => sum + value, 0) / values.length;
  const squares = values.reduce((sum, value) => sum + (value - mean) ** 2, 0);
  return { mean, s: values.length > 1 ? Math.sqrt(squares / (values.length - 1)) : 0 };
}

// The means of the last 30 packs that count, at each of these.
export function runningMeans(packs) {
  const last = [];
  let sum = 0;
  return packs.filter(isCounted).flatMap(({ place, net }) => {
    last.push(net);
    sum += net;
    if (last.length > MEAN_OF) sum -= last.shift();
    return last.length === MEAN_OF ? [[place, sum / MEAN_OF]] : [];
  });
}

// How many packs that count lie in each of so many steps between two nets; those beyond lie in the
// first and the last.
export function histogram(packs, low, high, steps) {
  const counts = Array(steps).fill(0);
  for (const { net } of packs.filter(isCounted)) {
    const at = Math.floor((net - low) / (high - low) * steps);
    counts[Math.max(0, Math.min(steps - 1, at))] += 1;
  }
  return counts;
}

// Where the tare of packs changes from one to the next.
export function tareChanges(packs) {
  return packs.flatMap((pack, at) => {
    const tare = pack.gross - pack.net;
    const before = at ? packs[at - 1].gross - packs[at - 1].net : tare;
    return tare === before ? [] : [{ place: pack.place, tare, before }];
  });
}

// Rejected and voided packs by cause, most first.
export function causesOf(packs) {
  const counts = new Map();
  for (const { pile, signal } of packs) {
    const isOut = pile === "rejected" || pile === "voided";
    const cause = pile === "voided" ? "voided" : signal === "pass" ? "stayed" : signal;
    if (isOut) counts.set(cause, (counts.get(cause) ?? 0) + 1);
  }
  return [...counts].sort(([, one], [, other]) => other - one);
}
