// The board for a wall: a strip for each batch with its lanes, and above them what needs a person.
// The parts are made once for a set of batches and lanes; afterwards only texts and figures are put
// anew, so that nothing moves.

import { CODE, addWords, say, word } from "./words.js";
import { AlarmBar, alarmsOf, isNear, isSoonFull, loudFirst } from "./alarms.js";
import { Hall } from "./lanes.js";
import { MOST_PACKS, MOST_ROWS } from "./rules.js";
import { count, duration, grams, nominalOf } from "./numbers.js";
import { icon, loadStyles, make, meter, put, shape } from "./page.js";
import { keepText, readText } from "./store.js";
import { lanes as askPlan, list as askList } from "./office.js";
import { addNames } from "./names.js";
import { evidenceAlarms } from "./evidenceshown.js";
import { forecastOf } from "./forecast.js";
import { forecastWords } from "./forecastwords.js";
import { idleWords } from "./standing.js";
import { makeLane, putLane } from "./boardlane.js";
import { packAt, packs } from "./packs.js";
import { settings } from "./settings.js";

addWords((await import(`./board_${CODE}.js`)).default);

// How often the files beside the pages are asked for anew, in milliseconds.
const FILES_EVERY = 5_000;

// How often what is new is asked, in milliseconds: a change of a lane is seen within a second.
// Where so many rows come a second that nobody reads them it is more seldom, since each look costs
// as much.
const OFTEN = 600;
const SELDOM = 3_000;
const MANY = 100;

export let every = OFTEN;

const hall = new Hall();
const files = { at: 0, plan: { lanes: [], left: null, isFull: false }, left: null, rows: 0 };
const parts = { batches: new Map(), lanes: new Map(), built: "" };
let place;

// ---- what there is to show

// The batches on lanes, in the order of the lanes; a lane that stopped keeps its last one.
function batchesShown() {
  const byNumber = [...hall.lanes.values()].sort((one, other) => one.number - other.number);
  const shown = new Map();
  for (const lane of byNumber) {
    const last = lane.batch ?? packs.get(lane.packs.at(-1))?.batch ?? lane.planned;
    const sheet = hall.sheets.get(last);
    if (sheet) shown.set(last, [...shown.get(last) ?? [], lane]);
  }
  return shown;
}

function viewOf(sheet) {
  const forecast = forecastOf(sheet, settings.country.share || null);
  const rate = hall.rateOfBatch(sheet.batch);
  const minutes = rate ? forecast.left / rate : Infinity;
  return { sheet, forecast, minutes, pack: hall.holding?.get(sheet.batch) };
}

function laneState(lane) {
  const planned = files.plan.lanes.find(({ number }) => number === lane.number);
  return { number: lane.number, batch: lane.batch ?? planned?.batch,
    silence: (Date.now() - lane.at) / 1000, waits: planned?.changes && !lane.batch,
    idle: planned ? idleWords(planned.state, lane.batch) : "" };
}

// Rows left: as the files say less what was weighed since; without them as many as a book may have.
function leftOf(rows) {
  const { plan, left } = files;
  const since = rows - files.rows;
  if (left !== null) return { left: Math.max(0, left - since), isSure: true, isFull: plan.isFull };
  return { left: plan.left ?? MOST_ROWS - rows, isSure: plan.left !== null, isFull: plan.isFull };
}

async function askFiles(rows) {
  if (Date.now() - files.at < FILES_EVERY) return;
  files.at = Date.now();
  const [plan, list] = await Promise.all([askPlan(), askList()]);
  Object.assign(files, { plan, left: list.left, rows: list.rows ?? rows });
}

// The inadequate pack that holds a batch, where it is among the last ones of a lane.
async function askHolding(shown) {
  hall.holding = new Map();
  for (const [batch, lanes] of shown) {
    if (!hall.sheets.get(batch).held) continue;
    const found = lanes.flatMap((lane) => lane.packs).map((number) => packs.get(number))
      .filter((pack) => pack?.class === "inadequate" && pack.batch === batch
        && pack.signal === "pass");
    for (const { number } of found) {
      const pack = await packAt(number, true);
      if (["passed", "sampled"].includes(pack?.pile)) hall.holding.set(batch, number);
    }
  }
}

// ---- the parts

function makeMeter(name, sign = "") {
  const part = { name: make("dt"), value: make("dd"), row: make("div") };
  put(part.name, name);
  part.row.append(part.name, sign ? make("dd", { className: "b-clock" }, icon(sign)) : "",
    part.value);
  return part;
}

// Names have up to 32 letters: the longer ones are smaller.
const lengthOf = (name) => (name.length > 22 ? 2 : name.length > 13 ? 1 : 0);

function makeStrip(sheet) {
  const part = { sign: make("span"), word: make("strong"), more: make("span"),
    says: make("div", { className: "b-says" }), allowance: makeMeter(say("allowanceOf")),
    country: makeMeter(settings.country.name), packs: makeMeter("", "clock"),
    above: makeMeter(say("aboveEach")), lanes: make("div", { className: "b-lanes" }) };
  part.says.append(part.sign, make("div", {}, part.word, part.more));
  const goods = `${sheet.product} · ${nominalOf(sheet)}`;
  const meters = [part.allowance, ...settings.country.share ? [part.country] : [], part.packs,
    part.above].map(({ row }) => row);
  const block = make("div", { className: "b-batch" },
    make("h2", { className: "b-name", "data-long": lengthOf(sheet.batch) },
      make("a", { href: `#batch/${sheet.batch}` }, sheet.batch)),
    make("p", { className: "b-goods" }, goods), part.says,
    make("dl", { className: "b-meters" }, meters));
  part.strip = make("article", { className: "strip" }, make("div", {}, block, part.lanes));
  parts.batches.set(sheet.batch, part);
  return part;
}

function formOf(batches) {
  if (batches <= 2) return String(batches);
  if (batches <= 4) return "3";
  return batches <= 8 ? "dense" : "packed";
}

// Lanes lie below one another as long as their rows are high enough, so that what they weighed has
// the whole width; only then beside one another.
function columns(form, lanes) {
  const rows = { 1: 6, 2: 3, 3: 3, dense: 3, packed: 1 }[form];
  return Math.min(4, Math.ceil(lanes / rows));
}

function buildStrips(shown) {
  const now = JSON.stringify([...shown].map(([batch, lanes]) =>
    [batch, lanes.map(({ number }) => number)]));
  if (now === parts.built) return;
  parts.built = now;
  parts.batches.clear();
  parts.lanes.clear();
  const form = shown.size ? formOf(shown.size) : "none";
  place.section.dataset.form = form;
  const isTwo = form === "dense" || form === "packed";
  place.strips.dataset.rows = isTwo ? Math.ceil(shown.size / 2) : Math.max(1, shown.size);
  const strips = [...shown].map(([batch, lanes]) => {
    const part = makeStrip(hall.sheets.get(batch));
    part.lanes.dataset.cols = columns(form, lanes.length);
    for (const lane of lanes) {
      parts.lanes.set(lane.number, makeLane(lane, hall.sheets.get(batch)));
      part.lanes.append(parts.lanes.get(lane.number).cell);
    }
    return part.strip;
  });
  const none = [make("p", { className: "none-yet" }, say("emptyBoard"))];
  place.strips.replaceChildren(...(strips.length ? strips : none));
}

// ---- texts and figures

// A bar is made anew only where it would be another one.
function putBar(row, kind, used, whole) {
  const now = `${kind} ${used} ${whole}`;
  if (row.dataset.bar === now) return;
  row.dataset.bar = now;
  row.querySelector(".meter")?.remove();
  row.append(meter(used, whole, kind));
}

function putKind(place, kind) {
  if (place.className !== kind) place.className = kind;
}

function putMeter(part, kind, value, used, whole) {
  putKind(part.row, kind);
  put(part.value, value);
  if (whole !== null) putBar(part.row, kind, used, whole);
}

function levelOf({ sheet, forecast, minutes }) {
  if (sheet.verdict) return "";
  if (["held", "fail"].includes(forecast.kind)) return "alarm";
  if (forecast.kind === "edge") return "warn";
  const isLow = isNear(sheet, forecast) || isSoonFull(sheet, minutes);
  return forecast.kind === "ok" && isLow ? "warn" : "";
}

// What stands in large: the verdict of a closed batch, else the forecast.
function saysOf({ sheet, forecast }) {
  if (!sheet.verdict) return forecastWords(forecast, sheet);
  const [first, ...reasons] = sheet.verdict.split(" ");
  const why = reasons.map(word).join(", ");
  if (first === "withheld") return ["fail", "reject", word(first), why];
  return [first === "released" ? "ok" : "early", "pass", word(first), why];
}

function putBatch(view) {
  const { sheet, forecast, minutes } = view;
  const part = parts.batches.get(sheet.batch);
  const [kind, sign, told, more] = saysOf(view);
  putKind(part.strip, `strip ${levelOf(view)}`);
  putKind(part.says, `b-says ${kind}`);
  if (part.sign.dataset.sign !== sign) part.sign.replaceChildren(icon(sign));
  part.sign.dataset.sign = sign;
  put(part.word, told);
  put(part.more, more);
  const isPlanned = forecast.kind !== "early" && forecast.kind !== "empty";
  const used = forecast.over > 1 ? "alarm"
    : forecast.over === 1 || (isPlanned && isNear(sheet, forecast)) ? "warn" : "";
  putMeter(part.allowance, used, say("ofAllowed", { used: count(sheet.nonstandard),
    allowed: count(forecast.allowed) }), sheet.nonstandard, forecast.allowed);
  if (forecast.country) putCountry(part.country, forecast.country, isPlanned);
  const time = Number.isFinite(minutes) ? duration(minutes) : "–";
  const { population } = sheet;
  putMeter(part.packs, isSoonFull(sheet, minutes) ? "warn" : "", time, population, MOST_PACKS);
  put(part.packs.name, say("packsOf", { count: count(population), most: count(MOST_PACKS) }));
  const full = say("fullIn", { time });
  if (part.packs.row.title !== full) part.packs.row.title = full;
  const { above } = forecast.average;
  const isShort = forecast.fails.includes("average") && isPlanned;
  putMeter(part.above, isShort ? "alarm" : "", `${grams(above, 2, true)} g`, 0, null);
}

function putCountry(part, { used, allowed, isOver }, isPlanned) {
  putMeter(part, isOver && isPlanned ? "warn" : "",
    say("ofAllowed", { used: count(used), allowed: count(allowed) }), used, allowed);
}

function putFoot({ left, isSure }, rows) {
  put(place.left, say(isSure ? "rowsLeft" : "rowsAtMost", { left: count(left) }));
  const isLow = left < settings.alarms.rows;
  putKind(place.rows, `left ${isLow ? "warn" : ""}`);
  // a row is too little to be seen: the bar has thousandths
  const used = Math.round(rows / Math.max(1, rows + left) * 1000);
  putBar(place.rows, isLow ? "warn" : "", used, 1000);
  const apart = Math.round(hall.apart);
  put(place.note, apart > 1 ? say("someShown", { apart }) : say("forecastNote"));
}

// ---- the page

const isSounding = () => (readText("hall.sound") ?? String(settings.alarms.sound)) === "true";

function soundButton() {
  const button = make("button", { type: "button", className: "second" });
  const show = () => {
    const isOn = isSounding();
    button.setAttribute("aria-pressed", isOn);
    button.replaceChildren(icon(isOn ? "sound" : "silent"), say(isOn ? "soundOn" : "soundOff"));
  };
  button.addEventListener("click", () => {
    keepText("hall.sound", String(!isSounding()));
    show();
  });
  show();
  return button;
}

function legend() {
  const key = (kind, d, words) => make("span", {}, shape("svg",
    { viewBox: "0 0 24 10", "aria-hidden": "true" }, shape("path", { class: kind, d })), words);
  return make("span", { className: "keys" }, key("l-nominal", "M0 5H24", say("nominal")),
    key("l-t1", "M0 5H24", "T1"), key("l-t2", "M0 5H24", "T2"),
    key("m-reject", "M8 1l8 8m0 -8l-8 8", word("rejected")));
}

export async function build(section) {
  await loadStyles("figures.css", "forecast.css", "board.css");
  const spoken = make("p", { className: "unseen", role: "alert" });
  section.dataset.form = "none";
  place = { section, strips: make("div", { className: "strips" }), left: make("span"),
    rows: make("span", { className: "left" }), note: make("span", { className: "note" }),
    alarms: make("ol", { className: "alarms" }) };
  place.rows.append(place.left);
  place.strips.append(make("p", { className: "none-yet" }, say("loading")));
  place.bar = new AlarmBar(place.alarms, spoken);
  section.append(make("h1", { className: "unseen" }, say("board")),
    make("div", {}, place.alarms, spoken), place.strips, make("footer", { className: "foot" },
      legend(), place.note, place.rows, soundButton()));
}

let underWay = null;

export function refresh() {
  underWay ??= drawNew().finally(() => { underWay = null; });
  return underWay;
}

const seen = { rows: 0, at: 0 };

// How long until the next look, by the rows that came since the last one.
function paceOf(rows) {
  const [came, gone] = [rows - seen.rows, (Date.now() - seen.at) / 1000];
  const isFast = seen.at > 0 && came / gone > MANY;
  Object.assign(seen, { rows, at: Date.now() });
  hall.isFast = isFast;
  return isFast ? SELDOM : OFTEN;
}

function putLanes(states) {
  for (const state of states) {
    const [part, lane] = [parts.lanes.get(state.number), hall.lanes.get(state.number)];
    if (part) putLane(part, lane, state, hall.rateOf(lane));
  }
}

async function drawNew() {
  const { rows } = await hall.refresh();
  every = paceOf(rows);
  await askFiles(rows);
  await askPlanned();
  const shown = batchesShown();
  await askHolding(shown);
  addNames("batches", [...shown.keys()]);
  buildStrips(shown);
  const views = [...shown.keys()].map((batch) => viewOf(hall.sheets.get(batch)));
  views.forEach(putBatch);
  const lanes = [...hall.lanes.values()].map(laneState);
  putLanes(lanes);
  const book = leftOf(rows);
  putFoot(book, rows);
  const rate = [...hall.lanes.values()].reduce((all, lane) => all + (hall.rateOf(lane) ?? 0), 0);
  const alarms = alarmsOf({ book: { ...book, rate }, batches: views, lanes });
  place.bar.draw(loudFirst([...alarms, ...evidenceAlarms()]), isSounding());
}

// A lane of the plan that stands without ever having weighed is shown too.
async function askPlanned() {
  for (const { number, batch } of files.plan.lanes) hall.laneOf(number).planned = batch;
  const wanted = files.plan.lanes.map(({ batch }) => batch).filter((batch) => batch);
  await hall.askSheets(new Set(wanted.filter((batch) => !hall.sheets.has(batch))));
}

export const show = refresh;
