// Follows the book by its acts: one question asks for all that is new after a row. What is shown of
// a pack is reckoned from its act, with the tare that the book gives once for a batch and a day.

import * as office from "./office.js";
import { PAGE, classOf, limitsOf } from "./rules.js";
import { atRows, forgetBook, keptOfBook, packAt, packs } from "./packs.js";
import { Weighings } from "./weighings.js";

const limits = keptOfBook();

// So many rows that were seen are asked again, to see that it still is the same book: another one
// may have more rows by the time a browser wakes.
const SEEN_AGAIN = 3;

const isSame = (acts, others) => JSON.stringify(acts) === JSON.stringify(others);

// A pack of an act; where there is none there is another book by now, and it is asked again.
async function packOfAct(number) {
  const pack = await packAt(number, true);
  if (!pack) throw new office.Missing("another book");
  return pack;
}

async function limitsIn(batch) {
  if (!limits.has(batch)) limits.set(batch, limitsOf(await office.sheet(batch)));
  return limits.get(batch);
}

// The acts after a row, page by page until one isn't full; of more than so many the newest, after a
// gap.
async function actsBehind(after, most) {
  let { rows, acts } = await office.acts(after);
  if (rows - after > most) ({ rows, acts } = await office.acts(rows - most));
  const all = [...acts];
  while (acts.length === PAGE) {
    ({ rows, acts } = await office.acts(all.at(-1).row));
    all.push(...acts);
  }
  return { rows, acts: all };
}

// A pack as it is shown, of what its act says and of the tare of its batch and day.
function packOf({ number, run: { batch }, lane, gross, signal, pile }, tare, bounds) {
  const net = gross - tare;
  return { number, batch, lane, gross, net, class: classOf(net, bounds), signal, pile };
}

// The tare of a pack's batch on its day, asked by that pack where it isn't known yet.
async function tareFor(tares, { number, run, day }) {
  const key = `${run.batch} ${day}`;
  if (!tares.has(key)) {
    const pack = await packOfAct(number);
    tares.set(key, pack.gross - pack.net);
  }
  return tares.get(key);
}

// ---- what is new, for a page that is kept fresh

// Asks the acts again and again. At first, and where more came than a page can use, it begins among
// the newest rows.
export class Follower {
  constructor() {
    this.asked = Promise.resolve();
    this.forget();
  }

  forget() {
    Object.assign(this, { seen: 0, tail: [], isGap: true, weighings: new Weighings(),
      tares: new Map() });
  }

  // What is new: the rows of the book, packs, and what `Weighings.news` says besides. Packs that
  // aren't wanted are left out. Of two who ask at once the second gets what came since.
  news(most, isWanted = () => true) {
    const next = () => this.ask(most, isWanted);
    this.asked = this.asked.then(next, next);
    return this.asked;
  }

  async ask(most, isWanted) {
    const { seen, tail } = this;
    const { rows, acts } = await actsBehind(seen - tail.length, most + tail.length);
    const isGap = acts[0]?.row > seen - tail.length + 1;
    atRows(rows);
    if (rows < seen || (!isGap && !isSame(acts.slice(0, tail.length), tail))) {
      forgetBook();
      this.forget();
      return { ...await this.ask(most, isWanted), isOther: true };
    }
    if (isGap) this.forget();
    const fresh = acts.slice(isGap ? 0 : tail.length);
    for (const act of fresh) this.weighings.take(act);
    const apart = seen && fresh.length ? (acts.at(-1).row - seen) / fresh.length : 1;
    Object.assign(this, { seen: acts.at(-1)?.row ?? seen, tail: acts.slice(-SEEN_AGAIN) });
    return this.tell(rows, apart, isWanted);
  }

  // What is new of the acts that were taken. Where an answer is missing it is told the next time.
  async tell(rows, apart, isWanted) {
    if (this.weighings.isUnsure) this.tares.clear();
    const fresh = await this.reckon(this.weighings.fresh.filter(isWanted));
    const news = this.weighings.news();
    for (const [number, pile] of news.moved) {
      if (pile && packs.get(number)) packs.get(number).pile = pile;
    }
    const { isGap } = this;
    this.isGap = false;
    return { ...news, rows, fresh, apart, isGap };
  }

  async reckon(fresh) {
    const found = [];
    for (const told of fresh) {
      told.run.batch ??= (await packOfAct(told.number)).batch;
      const tare = await tareFor(this.tares, told);
      packs.set(told.number, packOf(told, tare, await limitsIn(told.run.batch)));
      found.push(packs.get(told.number));
    }
    return found;
  }
}
