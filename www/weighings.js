// What the acts of the book say of packs, taken in order. Pure: no page is needed.

import { readMass } from "./grams.js";

// The pile of a passed pack whose gate didn't open, by what the next act of its lane says.
const UNOPENED = { stayed: "rejected", unknown: "voided" };
const OF_A_BATCH = ["open", "end", "draw", "second", "close"];
// After these a pack may weigh or lie otherwise, which the acts alone don't say.
const UNSURE = ["tare", "draw", "second"];

// What each lane does. The batch of a lane that started before the first act isn't known: it is
// null until somebody says it, and empty where the lane has none. `day` counts the days that came.
export class Weighings {
  constructor() {
    Object.assign(this, { lanes: new Map(), day: 0 });
    this.news();
  }

  // What came since the last call: packs; numbers of earlier ones with the pile where they now lie,
  // if it is another; batches that were named; whether packs have to be asked again.
  news() {
    const { fresh, moved, named, isUnsure } = this;
    Object.assign(this, { fresh: [], moved: [], named: new Set(), isUnsure: false });
    return { fresh, moved, named, isUnsure };
  }

  take({ row, told, words: [kind, first, second, third] }) {
    if (kind === "weigh") this.weigh(row, Number(first), readMass(second), told, third);
    if (kind === "start") this.start(Number(first), second);
    if (kind === "stop") this.stop(Number(first), second);
    if (kind === "void") this.moved.push([Number(first), "voided"]);
    if (kind === "measure") this.moved.push([Number(first), null]);
    if (kind === "day") this.day += 1;
    if (OF_A_BATCH.includes(kind)) this.named.add(first);
    if (UNSURE.includes(kind)) this.isUnsure = true;
  }

  run(lane) {
    if (!this.lanes.has(lane)) this.lanes.set(lane, { batch: null, last: null });
    return this.lanes.get(lane);
  }

  start(lane, batch) {
    this.lanes.set(lane, { batch, last: null });
    this.named.add(batch);
  }

  weigh(number, lane, gross, signal, prior) {
    const run = this.run(lane);
    this.settle(run, prior);
    const isPass = signal === "pass";
    const pile = isPass ? "passed" : "rejected";
    this.fresh.push({ number, run, lane, gross, signal, pile, day: this.day });
    run.last = isPass ? number : null;
  }

  stop(lane, prior) {
    const run = this.run(lane);
    this.settle(run, prior);
    if (run.batch) this.named.add(run.batch);
    this.lanes.set(lane, { batch: "", last: null });
  }

  settle(run, prior) {
    if (UNOPENED[prior] && run.last) this.moved.push([run.last, UNOPENED[prior]]);
    else if (UNOPENED[prior]) this.isUnsure = true;
    run.last = null;
  }
}
