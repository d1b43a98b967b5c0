// What needs a person now, in words and in order: what keeps packs from leaving, what would fail,
// what stands still, what will be full. Drawn above the board, spoken and sounded once.

import { say } from "./words.js";
import { ago, count, duration, grams, mass } from "./numbers.js";
import { icon, make, put } from "./page.js";
import { laneWords, settings } from "./settings.js";
import { forecastWords } from "./forecastwords.js";
import { sound } from "./sound.js";

export const NEARLY_FULL = 9_500;
const SHOWN = 3;
// Texts from so many letters on are smaller where several stand beside one another: the second size
// from where two lines of a wall are full, the third from where three of a small screen are.
const LONG = [48, 76, 92];
// A name of so many letters fills a line by itself, and leaves as many of the next one.
const LONG_NAME = 22;
const LEFT = 16;

function sizeOf(text) {
  const isNamed = text.split(/[ :]/)[0].length > LONG_NAME;
  const letters = text.length + (isNamed ? LEFT : 0);
  return LONG.filter((most) => letters > most).length;
}

export const share = (sheet, { allowed }) =>
  (allowed ? sheet.nonstandard / allowed : sheet.nonstandard);

export const isNear = (sheet, forecast) =>
  share(sheet, forecast) * 100 >= settings.alarms.allowance;

export function isSoonFull(sheet, minutes) {
  return sheet.population > NEARLY_FULL || minutes < settings.alarms.full;
}

function batchAlarm({ sheet, forecast, minutes, pack }) {
  const { batch } = sheet;
  const { average } = forecast;
  const [, , told, why] = forecastWords(forecast, sheet);
  if (sheet.verdict) return [];
  if (forecast.kind === "held") {
    const by = pack ? "heldBy" : "heldBySome";
    return [["alarm", "held", say(by, { batch, pack: count(pack ?? 0) })]];
  }
  if (forecast.kind === "fail" && forecast.fails[0] === "average" && average.each !== null) {
    return [["alarm", "warn", say("failAverage", { batch, short: mass(average.short),
      next: average.next, each: grams(average.each) })]];
  }
  if (forecast.kind === "fail") return [["alarm", "warn", say("failOther", { batch, told, why })]];
  if (sheet.state === "running" && isSoonFull(sheet, minutes)) {
    return [["warn", "clock", say("fullSoon", { batch,
      time: Number.isFinite(minutes) ? duration(minutes) : "–" })]];
  }
  if (forecast.kind === "edge") return [["warn", "warn", say("failOther", { batch, told, why })]];
  if (forecast.kind === "ok" && isNear(sheet, forecast)) {
    return [["warn", "warn", say("allowanceNear", { batch, used: count(sheet.nonstandard),
      allowed: count(forecast.allowed) })]];
  }
  return [];
}

function countryAlarm({ sheet, forecast }) {
  if (!forecast.country?.isOver || forecast.kind === "early" || sheet.verdict) return [];
  const { used, allowed } = forecast.country;
  return [["warn", "warn", say("countryOver", { batch: sheet.batch, used: count(used),
    allowed: count(allowed), name: settings.country.name })]];
}

function laneAlarm({ number, batch, silence, idle }) {
  const lane = laneWords(number);
  if (idle) {
    return [["warn", "idle", say(batch ? "idleSince" : "idleNone", { lane, batch, why: idle })]];
  }
  if (batch && silence > settings.alarms.silence) {
    return [["warn", "idle", say("silent", { lane, time: ago(silence) })]];
  }
  return [];
}

// Rows left, and for how long at the rate of now, in packs a minute of all lanes.
function bookAlarm({ left, isFull, rate }) {
  if (isFull || left === 0) return [["alarm", "reject", say("bookFull")]];
  const hours = rate ? left / rate / 60 : Infinity;
  if (hours < settings.alarms.hours) {
    const words = { left: count(left), hours: count(Math.floor(hours)) };
    return [["warn", "clock", say("rowsHours", words)]];
  }
  const isLow = left < settings.alarms.rows;
  return isLow ? [["warn", "clock", say("rowsLow", { left: count(left) })]] : [];
}

// All alarms: [how loud, sign, text], those to act on first.
export function alarmsOf({ book, batches, lanes }) {
  const all = [...bookAlarm(book), ...batches.flatMap(batchAlarm), ...batches.flatMap(countryAlarm),
    ...lanes.flatMap(laneAlarm)];
  return loudFirst(all);
}

// Those to act on before those to look at; the order of each stays.
export function loudFirst(all) {
  const isLoud = ([kind]) => kind === "alarm";
  return [...all.filter(isLoud), ...all.filter((alarm) => !isLoud(alarm))];
}

// An alarm is the same as long as its sign and the words before its first figure are.
const keyOf = ([kind, sign, text]) => `${kind} ${sign} ${text.split(/[:,]/)[0]}`;

// Draws alarms into a list. What is new is spoken and, where it is to be acted on, sounded once.
export class AlarmBar {
  constructor(list, spoken) {
    Object.assign(this, { list, spoken, known: new Set(), shown: "" });
  }

  draw(all, isSounding) {
    const line = ([kind, sign, text]) =>
      make("li", { className: kind, "data-long": sizeOf(text) },
        icon(sign), make("span", {}, text));
    const lines = all.slice(0, SHOWN).map(line);
    if (all.length > SHOWN) {
      lines.push(make("li", { className: "more none" },
        make("span", {}, say("more", { count: all.length - SHOWN }))));
    }
    if (all.length === 0) lines.push(line(["none", "pass", say("noAlarm")]));
    const shown = lines.map((one) => one.textContent).join();
    if (shown !== this.shown) this.list.replaceChildren(...lines);
    this.shown = shown;
    const fresh = all.filter((alarm) => !this.known.has(keyOf(alarm)));
    if (fresh.length) put(this.spoken, fresh.map(([, , text]) => text).join(". "));
    if (isSounding && fresh.some(([kind]) => kind === "alarm")) sound();
    this.known = new Set(all.map(keyOf));
  }
}

