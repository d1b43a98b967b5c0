// One batch, whole: its charts with a cursor for the mouse and the keyboard, what is given away in
// grams, percent and money, and what was rejected and why.

import { MOST_PACKS, limitsOf } from "./rules.js";
import { RULES, groupSize } from "./subgroups.js";
import { CODE, addWords, say, word } from "./words.js";
import { count, fixed, grams, mass, nominalOf, percent } from "./numbers.js";
import { causesOf, isCounted, meanAndS } from "./control.js";
import { groupsOf, subgroupPanels } from "./groupchart.js";
import { icon, loadStyles, make, meter, put, shape, whenSized } from "./page.js";
import { facts, notice, signalTag, table, verdictTag } from "./parts.js";
import { priceOf, settings } from "./settings.js";
import { BatchPage } from "./loader.js";
import { drawChart } from "./chart.js";
import { forecastOf } from "./forecast.js";
import { forecastWords } from "./forecastwords.js";

addWords((await import(`./batch_${CODE}.js`)).default);

const FEW = 10;
const WINDOWS = [MOST_PACKS, 2_000, 500, 100];
const FAR = 50;
const money = (sum) => `${fixed(sum, 2)} ${settings.currency}`;

// ---- figures

function givenAway(sheet, { average: { aboveAll } }) {
  const price = priceOf(sheet.product);
  if (price === null) return say("noPrice", sheet);
  const density = sheet.unit === "ml" ? sheet.density / 1e6 : 1;
  return say("money", { sum: money(aboveAll / 1e6 / density * price), price: money(price),
    unit: sheet.unit === "ml" ? "l" : "kg" });
}

function headFacts(sheet, packs) {
  const limits = limitsOf(sheet);
  const forecast = forecastOf(sheet);
  const { above, aboveAll } = forecast.average;
  const { mean, s } = meanAndS(packs.filter(isCounted).map(({ net }) => net));
  const figure = (value, spelled) => (sheet.population ? spelled(value) : "–");
  return facts([
    [say("counted"), count(sheet.population),
      say("weighed", { count: count(sheet.piles.readings) })],
    [say("meanS"), figure(mean, (value) => `${grams(value, 2)} · ${grams(s, 2)}\u00a0g`),
      `T1 ${grams(limits.t1, 1)} · T2 ${grams(limits.t2, 1)} g`],
    [say("light"), say("ofAllowed", { used: count(sheet.nonstandard),
      allowed: count(forecast.allowed) }), say("share", { most: percent(.025, 1),
      share: percent(sheet.nonstandard / Math.max(1, sheet.population)) })],
    [say("inadequateName"), count(sheet.inadequate), say("below", { limit: grams(limits.t2, 1) })],
    [say("givenEach"), figure(above, (value) => `${grams(value, 2, true)} g`),
      say("ofNominal", { share: percent(above / limits.nominal, 2, true) })],
    [say("givenAll"), mass(aboveAll, true), givenAway(sheet, forecast)],
  ]);
}

function titleOf(sheet) {
  const [kind, sign, told, more] = forecastWords(forecastOf(sheet), sheet);
  const loud = { ok: "ok", edge: "warn", early: "calm" }[kind] ?? "alarm";
  const says = make("span", { className: `tag ${loud}` }, icon(sign),
    make("span", {}, more ? `${told} (${more})` : told));
  return make("div", { className: "title" }, make("div", {}, make("h2", {}, sheet.batch),
    make("p", { className: "quiet" },
      `${sheet.product} · ${nominalOf(sheet)} · ${word(sheet.state)}`)),
  sheet.verdict ? verdictTag(sheet.verdict) : says, make("p", { className: "right" },
    make("a", { className: "button second", href: `#sheet/${sheet.batch}` }, icon("print"),
      say("printSheet"))));
}

// ---- the chart and its cursor

class Cursor {
  constructor(sheet, packs) {
    const groups = groupsOf(packs, groupSize(packs.filter(isCounted).length));
    Object.assign(this, { sheet, packs, groups, at: packs.length - 1, view: [0, packs.length] });
    this.build();
  }

  build() {
    const fact = (key, values) => {
      const part = { name: make("dt", {}, say(key, values)), value: make("dd"),
        more: make("dd", { className: "quiet" }) };
      part.row = make("div", {}, part.name, part.value, part.more);
      return part;
    };
    this.parts = { pack: fact("pack"), net: fact("net"), signal: fact("signal"),
      lane: fact("lane"), group: fact("group", this.groups) };
    this.range = make("input", { type: "range", id: "cursor", "aria-label": say("cursor") });
    this.place = make("div", { className: "chart-place" });
    this.windows = make("div", { className: "choice", role: "group", "aria-label": say("window") },
      WINDOWS.filter((many, at) => at === 0 || many < this.packs.length).map((many, at) => {
        const button = make("button", { type: "button", "aria-pressed": at === 0 },
          at === 0 ? say("all") : count(many));
        button.addEventListener("click", () => this.show(many, button));
        return button;
      }));
    this.whole = make("section", { className: "panel chart-panel" },
      make("div", { className: "chart-head" },
        make("dl", { className: "reading" }, Object.values(this.parts).map(({ row }) => row)),
        this.windows), this.place, make("div", { className: "under-plot" }, this.range),
      make("p", { className: "plot-hint quiet" }, say("cursorHint")), keys());
    this.listen();
    whenSized(this.place, (wide) => this.draw(wide));
    this.put();
  }

  listen() {
    this.place.addEventListener("pointermove", (event) => {
      const { chart, view: [from, to] } = this;
      const x = event.clientX - this.place.getBoundingClientRect().left;
      if (!chart || x < chart.left || x > chart.right) return;
      const share = (x - chart.left) / (chart.right - chart.left);
      this.move(Math.round(from + share * (to - from) - .5));
    });
    this.range.addEventListener("input", () => this.move(Number(this.range.value)));
    this.range.addEventListener("keydown", (event) => {
      const far = { PageUp: FAR, PageDown: -FAR }[event.key];
      if (!far) return;
      event.preventDefault();
      this.move(this.at + far);
    });
  }

  draw(wide) {
    const began = performance.now();
    this.wide = wide;
    const below = (...at) => subgroupPanels(this.groups, ...at);
    this.chart = drawChart({ ...this, wide, below });
    this.line = shape("path", { class: "cursor" });
    this.ring = shape("circle", { class: "m-cursor", r: 6 });
    this.chart.picture.append(this.line, this.ring);
    this.place.replaceChildren(this.chart.picture);
    this.place.dataset.took = (performance.now() - began).toFixed(1);
    Object.assign(this.range, { min: this.view[0], max: this.view[1] - 1, value: this.at });
    this.put();
  }

  // Shows so many packs around the cursor.
  show(many, pressed) {
    const wide = Math.min(many, this.packs.length);
    const from = Math.max(0, Math.min(this.packs.length - wide, Math.round(this.at - wide / 2)));
    this.view = [from, from + wide];
    for (const button of this.windows.children) {
      button.setAttribute("aria-pressed", button === pressed);
    }
    this.draw(this.wide);
  }

  // Stays where another one of the same batch was; at its end it follows the newest pack.
  goOn(other) {
    if (other.at < other.packs.length - 1) this.at = other.at;
    const isAll = other.view[1] - other.view[0] === other.packs.length;
    if (!isAll) this.view = other.view;
    [...this.windows.children].forEach((button, at) => {
      const isPressed = other.windows.children[at]?.getAttribute("aria-pressed") ?? "false";
      button.setAttribute("aria-pressed", isPressed);
    });
    this.at = Math.max(this.view[0], Math.min(this.view[1] - 1, this.at));
  }

  move(at) {
    this.at = Math.max(this.view[0], Math.min(this.view[1] - 1, at));
    this.range.value = this.at;
    this.put();
  }

  put() {
    const pack = this.packs[this.at];
    const { parts, groups, chart } = this;
    const group = groups.groups.find(({ last }) => last >= this.at) ?? groups.groups.at(-1);
    put(parts.pack.value, count(pack.number));
    put(parts.pack.more, say("packOf", { place: count(this.at + 1),
      count: count(this.packs.length) }));
    put(parts.net.value, grams(pack.net));
    put(parts.net.more, grams(pack.net - limitsOf(this.sheet).nominal, 3, true));
    parts.signal.value.replaceChildren(signalTag(pack.signal));
    put(parts.signal.more, word(pack.pile));
    put(parts.lane.value, String(pack.lane));
    put(parts.group.value, group ? `${grams(group.mean, 2)} · ${grams(group.s, 2)}` : "–");
    put(parts.group.more, group?.rule ? say(`rule ${group.rule}`) : "");
    this.range.setAttribute("aria-valuetext", say("cursorSays", { pack: pack.number,
      net: grams(pack.net), signal: word(pack.signal), pile: word(pack.pile) }));
    if (!chart) return;
    const x = chart.x(this.at);
    this.line.setAttribute("d", `M${x} ${chart.nets.top}V${chart.bottom}`);
    this.ring.setAttribute("cx", x);
    this.ring.setAttribute("cy", chart.up(pack.net));
  }
}

function keys() {
  const key = (kind, d, words, width = 2) => make("li", {}, shape("svg",
    { viewBox: "0 0 30 14", "aria-hidden": "true" },
    shape("path", { class: kind, d, "stroke-width": width })), words);
  return make("ul", { className: "keys" }, key("m-pass", "M15 7h0", word("passed"), 6),
    key("m-reject", "M11 3l8 8m0 -8l-8 8", word("rejected")),
    key("m-void", "M11 3h8v8h-8zm0 8l8 -8", word("voided")),
    key("m-beyond", "M10 2h10l-5 9z", say("beyond")), key("l-mean", "M1 7H29", say("meanOf")),
    key("l-nominal", "M1 7H29", say("nominal")), key("l-t1", "M1 7H29", "T1"),
    key("l-t2", "M1 7H29", "T2"), key("l-event", "M15 0V14", say("tareChange")),
    key("l-limit", "M1 7H29", say("ucl")), key("m-out", "M15 1l6 10h-12z", say("byRule")));
}

// ---- run rules, rejects

function ruleNotice({ groups, marked }) {
  if (marked.length === 0) return [];
  const rules = RULES.map(({ name }) => [name, marked.filter(({ rule }) => rule === name).length])
    .filter(([, many]) => many).map(([name, many]) => `${say(`rule ${name}`)} ${count(many)}×`);
  return [notice("warn", "warn", say("outGroups", { marked: count(marked.length),
    all: count(groups.length), rules: rules.join(", ") }),
  make("p", {}, say("outWhere", { from: count(marked[0].first + 1),
    to: count(marked.at(-1).last + 1) })))];
}

function rejectTable(sheet, list) {
  const { nominal } = limitsOf(sheet);
  const heads = ["pack", "lane", "net", "belowBy", "signal", "pile"].map((key) => say(key));
  const row = (pack) => [count(pack.number), String(pack.lane), grams(pack.net),
    grams(pack.net - nominal, 3, true), signalTag(pack.signal), word(pack.pile)];
  return table(say("rejects"), heads, list.map(row), ["right", "right", "right", "right", "", ""]);
}

function rejectPanel(sheet, packs) {
  const list = packs.filter(({ pile }) => pile === "rejected" || pile === "voided");
  const place = make("div", { className: "scroll" });
  if (list.length === 0) {
    place.append(make("h2", {}, say("rejects")), say("noRejects"));
    return make("section", { className: "panel" }, place);
  }
  place.append(rejectTable(sheet, list.slice(0, FEW)));
  const more = make("button", { type: "button", className: "second", hidden: list.length <= FEW },
    say("showAll", { count: count(list.length) }));
  more.addEventListener("click", () => {
    place.replaceChildren(rejectTable(sheet, list));
    more.hidden = true;
  });
  return make("section", { className: "panel" }, place, make("p", { className: "more" }, more));
}

function causePanel(packs) {
  const causes = causesOf(packs);
  const most = Math.max(1, ...causes.map(([, many]) => many));
  const name = (cause) => (cause === "stayed" ? say("stayed") : word(cause));
  return make("section", { className: "panel" }, make("h2", {}, say("perReason")),
    make("ul", { className: "reasons" }, causes.map(([cause, many]) => make("li", {},
      make("span", {}, name(cause)), make("strong", {}, count(many)), meter(many, most)))));
}

// ---- the page

// The cursor that was drawn last, with which a batch that grows goes on.
let last = null;

function draw(place, sheet, packs) {
  const head = [titleOf(sheet), make("div", { className: "panel" }, headFacts(sheet, packs))];
  if (packs.length === 0) {
    place.replaceChildren(...head, notice("", "idle", say("noPacksText")));
    return;
  }
  const cursor = new Cursor(sheet, packs);
  const isFocused = document.activeElement === last?.range;
  if (last?.sheet.batch === sheet.batch) cursor.goOn(last);
  last = cursor;
  place.replaceChildren(...head, cursor.whole, ...ruleNotice(cursor.groups),
    make("div", { className: "two" }, rejectPanel(sheet, packs), causePanel(packs)));
  if (isFocused) cursor.range.focus();
}

const page = new BatchPage("batch", draw);

export async function build(section) {
  await loadStyles("parts.css", "tables.css", "figures.css", "charts.css", "batch.css");
  page.build(section);
}

export const show = (batch) => page.show(batch);
export const refresh = () => page.refresh();
