// The lanes and batches of the hall, as a board follows them.

import * as office from "./office.js";
import { Follower } from "./follow.js";
import { packAt, packs } from "./packs.js";

// Rows that are read at first, and at most at once; of more the newest are seen, and counted for
// those that weren't.
const MOST_ROWS_ASKED = 2_048;
const LAST_PACKS = 60;
const MOST_BATCHES = 16;
const MINUTE = 60_000;
// The sheet of a batch of which packs come is asked this often, in milliseconds, and on a fast
// hall: what it says is the forecast, and each question costs as much as a hundred packs.
const SHEET_EVERY = 2_000;
const SHEET_SELDOM = 8_000;
// A rate is shown when packs were counted for so long.
const LEAST_COUNTED = 10_000;

// What is followed: lanes by number, sheets by batch. `apart` is how many packs each one seen of
// the newest stands for.
export class Hall {
  constructor() {
    Object.assign(this, { lanes: new Map(), sheets: new Map(), follower: new Follower(), since: 0,
      apart: 1, counted: 0, isFast: false, stale: new Set(), askedAt: new Map() });
  }

  // Asks what is new. Gives back how many rows the book has.
  async refresh() {
    const news = await this.follower.news(MOST_ROWS_ASKED);
    if (news.isOther) this.forget();
    await this.takeNews(news);
    this.counted = Date.now() - this.since;
    const long = Date.now() - MINUTE;
    for (const lane of this.lanes.values()) {
      lane.times = lane.times.filter(([moment]) => moment > long);
    }
    return { rows: news.rows };
  }

  forget() {
    this.since = 0;
    for (const kept of [this.lanes, this.sheets, this.stale, this.askedAt]) kept.clear();
  }

  async takeNews(news) {
    const isFirst = this.since === 0;
    if (isFirst) this.since = Date.now();
    this.apart = news.apart;
    this.takePacks(news.fresh, isFirst);
    const touched = new Set(news.named);
    for (const [number] of news.moved) this.touch(touched, packs.get(number)?.batch);
    if (news.isGap) await this.askLanes(touched);
    else this.takeLanes();
    if (news.isUnsure) {
      this.touch(touched);
      await Promise.all([...this.lanes.values()].map(askShown));
    }
    await this.askSheets(new Set([...touched, ...this.due()]));
    prune(this.lanes);
  }

  // Has the sheet of a batch asked; where it isn't known which, those of all that are shown.
  touch(touched, batch) {
    for (const each of batch ? [batch] : this.sheets.keys()) touched.add(each);
  }

  // Takes new packs to their lanes; their batches have other sheets than were asked.
  takePacks(found, isFirst) {
    const came = new Map();
    for (const pack of found) {
      const lane = this.laneOf(pack.lane);
      lane.packs.push(pack.number);
      came.set(lane, (came.get(lane) ?? 0) + 1);
      this.stale.add(pack.batch);
    }
    for (const [lane, many] of came) {
      lane.packs.splice(0, lane.packs.length - LAST_PACKS);
      if (!isFirst) lane.times.push([Date.now(), many * this.apart]);
      lane.at = Date.now();
    }
  }

  // The batches of which packs came, and whose sheets were asked long enough ago.
  due() {
    const old = Date.now() - (this.isFast ? SHEET_SELDOM : SHEET_EVERY);
    return [...this.stale].filter((batch) => (this.askedAt.get(batch) ?? 0) <= old);
  }

  laneOf(number) {
    if (!this.lanes.has(number)) {
      this.lanes.set(number, { number, batch: null, packs: [], times: [], at: Date.now() });
    }
    return this.lanes.get(number);
  }

  // What the lanes do, as their acts say.
  takeLanes() {
    for (const [number, { batch }] of this.follower.weighings.lanes) {
      if (batch !== null) this.laneOf(number).batch = batch || null;
    }
  }

  // At first, and after a gap, it is asked.
  async askLanes(touched) {
    for (const { number, batch } of await office.allLanes()) {
      if (batch || this.lanes.has(number)) this.laneOf(number).batch = batch;
      if (batch) touched.add(batch);
    }
    await Promise.all([...this.lanes.values()].map(askShown));
    this.touch(touched);
  }

  async askSheets(batches) {
    for (const batch of batches) this.askedAt.set(batch, Date.now());
    for (const sheet of await Promise.all([...batches].map(office.sheet))) {
      if (!sheet.refused) this.sheets.set(sheet.batch, sheet);
    }
    for (const batch of batches) this.stale.delete(batch);
    const running = [...this.lanes.values()].map((lane) => lane.batch);
    const old = [...this.sheets.keys()].filter((batch) => !running.includes(batch));
    const tooMany = Math.max(0, this.sheets.size - MOST_BATCHES);
    for (const batch of old.slice(0, tooMany)) {
      this.sheets.delete(batch);
      this.askedAt.delete(batch);
    }
  }

  // Packs a minute of a lane, or null as long as they weren't counted for long enough.
  rateOf(lane) {
    if (this.counted < LEAST_COUNTED) return null;
    const seen = lane.times.reduce((sum, [, many]) => sum + many, 0);
    return seen * MINUTE / Math.min(MINUTE, this.counted);
  }

  rateOfBatch(batch) {
    const rates = [...this.lanes.values()].filter((lane) => lane.batch === batch)
      .map((lane) => this.rateOf(lane));
    return rates.includes(null) ? null : rates.reduce((sum, rate) => sum + rate, 0);
  }
}

// The shown packs of a lane are asked again where a tare has changed the first or the last of them.
async function askShown(lane) {
  const ends = [lane.packs[0], lane.packs.at(-1)].filter((number) => number);
  const before = ends.map((number) => packs.get(number)?.net);
  const now = await Promise.all(ends.map((number) => packAt(number, true)));
  if (now.every((pack, at) => pack?.net === before[at])) return;
  await Promise.all(lane.packs.map((number) => packAt(number, true)));
}

// Forgets packs that no lane shows, so that a board that runs for months doesn't grow.
const MOST_KEPT = 25_000;

function prune(lanes) {
  if (packs.size <= MOST_KEPT) return;
  const shown = new Set([...lanes.values()].flatMap((lane) => lane.packs));
  for (const number of packs.keys()) {
    if (packs.size <= MOST_KEPT / 2) break;
    if (!shown.has(number)) packs.delete(number);
  }
}
