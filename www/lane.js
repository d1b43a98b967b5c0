// The station of a lane, on a tablet: the signal of the last pack, why, and what to do;
// the last ten packs; how the batch stands; and the void of a pack that has left the gate.

import * as office from "./office.js";
import { MOST_PACKS, limitsOf } from "./rules.js";
import { CODE, addWords, say, time, word } from "./words.js";
import { ago, count, grams, mass, nominalOf, quantity } from "./numbers.js";
import { Follower } from "./follow.js";
import { packAt, packs } from "./packs.js";
import { icon, loadStyles, make, meter, put, shape } from "./page.js";
import { signalTag } from "./parts.js";
import { keepText, readText } from "./store.js";
import { forecastOf } from "./forecast.js";
import { forecastWords } from "./forecastwords.js";
import { idleWords } from "./standing.js";
import { laneWords, settings } from "./settings.js";

addWords((await import(`./lane_${CODE}.js`)).default);

const KEPT = "hall.lane";
const SHOWN = 10;
const MOST_ROWS = 512;
const SHEET_EVERY = 1_500;
const LATE = 8_000;

// How often how the lanes stand is asked, in milliseconds.
const PLAN_EVERY = 5_000;

// How often what is new is asked, in milliseconds: a packer waits for the signal.
export const every = 400;

// `last` has the numbers of the last packs.
const state = { lane: 0, batch: null, unsettled: null, last: [], rows: 0, sheet: null, askedAt: 0,
  since: 0, plan: null, planAt: 0 };
const follower = new Follower();
let place;

// ---- what is new

async function takeRows() {
  const news = await follower.news(MOST_ROWS, ({ lane }) => lane === state.lane);
  if (news.fresh.length) state.since = Date.now();
  const fresh = news.fresh.map(({ number }) => number);
  state.last = [...news.isOther ? [] : state.last, ...fresh].slice(-SHOWN);
  state.rows = news.rows;
  state.isNew = true;
  // a draw or a tare may have changed the packs that are shown; others may come meanwhile
  if (news.isUnsure || news.isGap) {
    await Promise.all(state.last.map((number) => packAt(number, true)));
  }
}

// The last packs, as they now lie.
function lastPacks() {
  return state.last.map((number) => packs.get(number)).filter((pack) => pack);
}

async function askSheet() {
  const batch = state.batch ?? lastPacks().at(-1)?.batch;
  if (!batch) return;
  const isOther = state.sheet?.batch !== batch;
  if (!isOther && (!state.isNew || Date.now() - state.askedAt < SHEET_EVERY)) return;
  state.askedAt = Date.now();
  state.isNew = false;
  const sheet = await office.sheet(batch);
  if (!sheet.refused) state.sheet = sheet;
}

// Whether the lane changes its batch, and what it says of that.
async function askPlan() {
  if (Date.now() - state.planAt < PLAN_EVERY) return;
  state.planAt = Date.now();
  const { lanes } = await office.lanes();
  state.plan = lanes.find(({ number }) => number === state.lane) ?? null;
}

async function ask() {
  await askPlan();
  const { rows, batch, unsettled } = await office.lane(state.lane);
  if (rows < state.rows) Object.assign(state, { rows: 0, last: [], sheet: null });
  Object.assign(state, { batch, unsettled });
  if (rows !== state.rows) await takeRows();
  await askSheet();
}

// ---- the signal

// Where the pack lies between T2 and nominal, and the nine before it: a ruler that never moves.
function gauge(pack, kind, { nominal, t1, t2, error }) {
  const [low, high] = [t2 - error / 3, nominal + 1.4 * error];
  const across = (net) =>
    Math.round(8 + (Math.max(low, Math.min(high, net)) - low) / (high - low) * 584);
  const name = (net, words) => [shape("path", { class: "g-line", d: `M${across(net)} 34v22` }),
    shape("text", { x: across(net), y: 74, "text-anchor": "middle" }, words)];
  const before = lastPacks().slice(0, -1).map(({ net }) => `M${across(net)} 38v14`).join("");
  return shape("svg", { class: `gauge ${kind}`, viewBox: "0 0 600 80", "aria-hidden": "true" },
    shape("path", { class: "g-rule", d: "M8 45H592" }),
    shape("path", { class: "g-low", d: `M8 45H${across(t1)}` }), name(t2, `T2 ${quantity(t2)}`),
    name(t1, `T1 ${quantity(t1)}`), name(nominal, `Qn ${quantity(nominal)}`),
    shape("path", { class: "g-before", d: before }),
    shape("path", { class: "g-now", d: `M${across(pack.net)} 36l-13 -24h26z` }));
}

function draw(kind, sign, told, what, below = []) {
  const key = JSON.stringify([kind, told, what, lastPacks().at(-1)]);
  if (place.signal.dataset.shown === key) return;
  place.signal.dataset.shown = key;
  place.signal.className = `st-signal ${kind}`;
  place.signal.replaceChildren(icon(sign), make("p", { className: "st-word" }, told),
    make("p", { className: "st-what" }, what[0] ? make("strong", {}, what[0]) : "", what[1]),
    ...below);
}

function putSignal() {
  const late = Date.now() - office.link.at;
  const pack = lastPacks().at(-1);
  if (office.link.at && late > LATE) {
    return draw("offline", "warn", say("OFFLINE"),
      ["", say("offline", { time: ago(late / 1000) })]);
  }
  if (!state.rows) return undefined;
  if (!state.batch) {
    return draw("wait", "idle", say("IDLE"), state.plan?.changes
      ? [idleWords(state.plan.state, null), say("waitsText")] : ["", say("idleText")]);
  }
  const silence = (Date.now() - state.since) / 1000;
  if (!pack || pack.batch !== state.batch || silence > settings.alarms.silence) {
    const since = pack ? say("waitsSince", { time: time(state.since) }) : "";
    return draw("wait", "idle", say("WAIT"), ["", since]);
  }
  return putPack(pack, limitsOf(state.sheet ?? { quantity: pack.net }));
}

function putPack(pack, limits) {
  const [first, cause] = pack.signal.split(" ");
  const figures = { net: grams(pack.net), t1: grams(limits.t1), t2: grams(limits.t2) };
  const net = make("p", { className: "st-net" }, make("strong", {}, `${grams(pack.net, 1)} g`),
    make("span", {}, say("packNamed", { pack: count(pack.number) })));
  const isPass = first === "pass";
  const why = isPass ? say("gateOpens") : say(`why ${cause}`);
  const more = isPass ? "" : `${say(`more ${cause}`, figures)} ${say("shut")}`;
  const kind = isPass ? "pass" : "reject";
  const told = say(isPass ? "PASS" : "REJECT");
  draw(kind, kind, told, isPass ? ["", why] : [why, more],
    state.sheet ? [gauge(pack, kind, limits), net] : [net]);
  put(place.spoken, say("spokenSignal", { word: told, pack: pack.number, net: grams(pack.net, 1),
    why: isPass ? "" : why }));
}

// ---- the last packs and the batch

function putLast() {
  const line = (pack) => make("tr", { className: pack.pile },
    make("td", { className: "right" }, count(pack.number)),
    make("td", { className: "right" }, grams(pack.net, 1)),
    make("td", {}, pack.pile === "voided" ? word("voided") : signalTag(pack.signal)));
  const shown = lastPacks();
  const empty = Array.from({ length: SHOWN - shown.length },
    () => make("tr", {}, make("td", { colSpan: 3 }, "\u00a0")));
  const heads = [["pack", "right"], ["net", "right"], ["signal", ""]]
    .map(([key, side]) => make("th", { scope: "col", className: side }, say(key)));
  place.last.replaceChildren(make("table", {},
    make("caption", { className: "unseen" }, say("lastTen")),
    make("thead", {}, make("tr", {}, heads)),
    make("tbody", {}, shown.reverse().map(line), empty)));
}

function putProgress() {
  const { sheet } = state;
  if (!sheet) return;
  const forecast = forecastOf(sheet, settings.country.share || null);
  const [kind, sign, told, more] = forecastWords(forecast, sheet);
  const part = (name, value, small, ...bar) => make("div", {}, make("dt", {}, say(name)),
    make("dd", {}, value, make("small", {}, small)), ...bar);
  const { above, aboveAll } = forecast.average;
  place.says.className = `b-says ${kind}`;
  place.says.replaceChildren(icon(sign), make("div", {}, make("strong", {}, told),
    make("span", {}, more)));
  place.progress.replaceChildren(
    part("packsThere", count(sheet.population), "", meter(sheet.population, MOST_PACKS)),
    part("lightOf", say("ofAllowed", { used: count(sheet.nonstandard),
      allowed: count(forecast.allowed) }), "", meter(sheet.nonstandard, forecast.allowed,
      forecast.over ? "warn" : "")),
    part("overNominal", `${grams(above, 2, true)} g`, mass(aboveAll, true)));
}

function putHead() {
  const { sheet } = state;
  put(place.number, laneWords(state.lane));
  put(place.batch, state.batch ?? "–");
  const goods = sheet?.batch === state.batch && sheet;
  put(place.goods, goods ? `${goods.product} · ${nominalOf(goods)}` : "");
}

// ---- the page

// The last pack that passed and has left the gate: the one at the gate can't be voided yet.
function voidable() {
  return lastPacks().reverse()
    .find(({ number, pile }) => pile === "passed" && number !== state.unsettled);
}

// A button that opens a dialog about the pack that can be voided; the dialog is loaded by then.
function buildVoid() {
  place.dialog = make("dialog");
  place.void = make("button", { type: "button", className: "second st-void", disabled: true },
    icon("void"), say("voidNone"));
  place.void.addEventListener("click", async () => {
    const dialogs = await import("./void.js").catch(() => null);
    const pack = voidable();
    if (dialogs && pack) dialogs.open(place.dialog, pack);
    if (!dialogs) put(place.spoken, say("OFFLINE"));
  });
}

// A button that calls for help, where the archive is there; it is loaded after the station.
function buildHelp() {
  place.help = make("button", { type: "button", className: "st-help second", hidden: true });
  place.helpSaid = make("p", { className: "st-told", role: "status" });
  place.helper = import("./help.js").then(({ HelpButton }) =>
    new HelpButton(place.help, place.helpSaid), () => null);
}

async function putHelp() {
  (await place.helper)?.refresh(state.lane);
}

// A button that opens a dialog with the batches, where the lane changes its batch.
function buildChange() {
  place.other = make("dialog");
  place.change = make("button", { type: "button", className: "second st-change", hidden: true },
    icon("next"), say("changeBatch"));
  place.change.addEventListener("click", () => openChange());
}

async function openChange(scanned) {
  const dialogs = await import("./change.js").catch(() => null);
  if (dialogs) await office.following(() => dialogs.open(place.other, state.lane, scanned));
  else put(place.spoken, say("OFFLINE"));
  state.planAt = 0;
}

// A scanner types at this page as soon as it is known that the lane changes its batch.
async function hearScans() {
  if (place.isHeard || !state.plan?.changes) return;
  place.isHeard = true;
  const dialogs = await import("./change.js").catch(() => null);
  if (!dialogs) place.isHeard = false;
  else dialogs.hearScans(() => place.section.isConnected && state.plan?.changes, openChange);
}

function putChange() {
  place.change.hidden = !state.plan?.changes;
  hearScans();
}

function putVoid() {
  const found = voidable();
  place.void.disabled = !found;
  const text = found ? say("voidLast", { pack: count(found.number) }) : say("voidNone");
  if (place.void.textContent !== text) place.void.replaceChildren(icon("void"), text);
}

async function chooser() {
  const lanes = await office.allLanes();
  const shown = lanes.filter(({ number, batch }) =>
    batch || Object.hasOwn(settings.lanes, number) || number <= 4);
  place.section.replaceChildren(make("div", { className: "which" },
    make("h1", {}, say("whichLane")), make("p", { className: "quiet" }, say("whichHint")),
    make("ul", { className: "lanes" }, shown.map(({ number, batch }) => make("li", {},
      make("a", { className: "button second", href: `#lane/${number}` },
        make("strong", {}, laneWords(number)), make("span", {}, batch ?? "")))))));
}

function buildStation() {
  const part = (name, className, ...more) => make(name, { className }, ...more);
  Object.assign(place, { signal: part("section", "st-signal wait"), last: make("div"),
    progress: part("dl", "facts3"), says: part("div", "b-says early"),
    spoken: make("p", { className: "unseen", role: "status" }), number: part("h1", "st-no"),
    batch: make("strong"), goods: make("span") });
  place.signal.setAttribute("aria-label", say("signal"));
  buildVoid();
  buildChange();
  buildHelp();
  place.section.replaceChildren(part("div", "st-head", place.number,
    part("p", "st-batch", place.batch, place.goods), place.helpSaid,
    place.help, place.change,
    make("a", { href: "#lane" }, say("otherLane")), make("a", { href: "#board" }, say("board"))),
  part("div", "station", place.signal,
    part("section", "panel st-last", make("h2", {}, say("lastTen")), place.last, place.void),
    part("div", "panel st-progress", place.says, place.progress)),
  place.spoken, place.dialog, place.other);
  putHead();
  draw("wait", "idle", say("WAIT"), ["", say("loading")]);
  putLast();
}

export async function build(section) {
  await loadStyles("parts.css", "tables.css", "forecast.css", "lane.css");
  place = { section };
}

export async function show(about) {
  const wanted = Number(about);
  if (!(wanted >= 1 && wanted <= 16)) {
    state.lane = 0;
    const kept = Number(readText(KEPT));
    if (about === "" && kept >= 1 && kept <= 16 && !place.asked) location.hash = `#lane/${kept}`;
    else await chooser();
    place.asked = true;
    return;
  }
  place.asked = true;
  keepText(KEPT, String(wanted));
  if (wanted !== state.lane) {
    Object.assign(state, { lane: wanted, last: [], rows: 0, sheet: null, since: Date.now(),
      plan: null, planAt: 0 });
    follower.forget();
    buildStation();
  }
  await refresh();
}

export async function refresh() {
  if (!state.lane) return void await office.summary();
  try {
    await ask();
  } finally {
    putHead();
    putSignal();
    putLast();
    putProgress();
    putVoid();
    putChange();
    putHelp();
  }
}
