// Reports of a day, a week, a month, over shifts, products or lanes: what was packed and given away
// and where, why packs were rejected, verdicts and refused acts. The archive sums them; each figure
// says from which rows it is. Without an archive the page says so.

import { LANGUAGE, addWords, say } from "./words.js";
import { count, day, fixed, grams, mass } from "./numbers.js";
import { drawDays } from "./reportchart.js";
import { icon, loadStyles, make, meter } from "./page.js";
import { facts, notice, table, verdictTag } from "./parts.js";
import { Missing, reach } from "./office.js";
import { FIGURES, batchLink, moneyOf, rowsOf } from "./reportwords.js";
import { archivePage } from "./soon.js";

const BY = ["shift", "day", "week", "month", "product", "lane", "hall", "book"];
const CAUSES = ["told_allowance", "told_inadequate", "told_held", "told_full", "stayed"];

addWords({
  reportFrom: ["From", "Von"],
  reportTo: ["To", "Bis"],
  reportBy: ["One line for each", "Eine Zeile je"],
  reportOf: ["Report", "Bericht"],
  linesBy: ["One line for each: {by}", "Eine Zeile je {by}"],
  nothingWeighed: ["Nothing was weighed in these days.", "In diesen Tagen wurde nichts gewogen."],
  summedBehind: ["Rows {summed} of {rows} of {book} are in these figures.",
    "Zeilen {summed} von {rows} von {book} sind in diesen Zahlen."],
  givenMatrix: ["Given away by product and lane: g a pack, % of what is declared",
    "Verschenkt nach Ware und Linie: g je Packung, % des Angegebenen"],
  rejectWhy: ["Why packs were rejected", "Warum Packungen ausgeschleust wurden"],
  givenDays: ["Given away by day, %", "Verschenkt je Tag, %"],
  verdictList: ["Verdicts of {closed} batches", "Urteile über {closed} Chargen"],
  verdictSome: ["{count} of them are listed", "{count} davon stehen hier"],
  refusedActs: ["Refused acts", "Abgelehnte Vorgänge"],
  allLanes: ["All lanes", "Alle Linien"],
  allGoods: ["All products", "Alle Waren"],
  badDays: ["These are no days.", "Das sind keine Tage."],
});

const state = { by: "day", first: "", last: "" };
const percent = (share, isSigned = true) => (share === null ? "–"
  : `${fixed(share, 2, isSigned)} %`);

async function ask(path) {
  const answer = await reach(`archive/${path}`);
  if (![200, 422].includes(answer.status)) throw new Missing(String(answer.status));
  return { isGood: answer.status === 200, said: JSON.parse(answer.text) };
}

const wordsOf = (form) => new URLSearchParams({ first: state.first, last: state.last, form,
  language: LANGUAGE ? "de" : "en" });

function headFacts({ total, currency, closed }) {
  const share = (part) => say("ofPacks", { share: percent(100 * part / total.readings,
    false) });
  return make("div", { className: "panel" }, facts([
    [say("f.packed"), mass(total.net), say("f.packs", { count: count(total.population) })],
    [say("f.over"), mass(total.over, true), percent(total.share)],
    [say("f.money"), moneyOf(total, currency), total.money === null ? say("f.noPrice") : ""],
    [say("f.nonstandard"), count(total.nonstandard), share(total.nonstandard)],
    [say("f.rejected"), count(total.rejected), share(total.rejected)],
    [say("f.closed"), count(closed), say("f.verdicts", { released: count(total.released),
      withheld: count(total.withheld) })],
    [say("f.stops"), count(total.stops), say("f.stood",
      { minutes: count(total.stopped / 60_000) })],
    [say("f.refused"), count(total.refused), ""],
  ]));
}

function cell(line, aim) {
  if (!line || line.share === null) return "–";
  const isOver = aim > 0 && line.share > aim;
  return make("span", { className: isOver ? "r-over" : "" }, grams(line.each, 2, true), " ",
    make("small", {}, percent(line.share)), isOver ? icon("warn") : null);
}

function matrixPanel(report) {
  const of = new Map(report.matrix.map((one) => [`${one.product}/${one.lane}`, one]));
  const lanes = [...new Set(report.matrix.map((one) => one.lane))].filter((lane) => lane);
  const goods = [...new Set(report.matrix.map((one) => one.product))].filter((name) => name);
  const line = (product, name) => [name, ...lanes.map((lane) => cell(of.get(`${product}/${lane}`),
    report.aim)), cell(product ? of.get(`${product}/0`) : report.total, report.aim),
  moneyOf(product ? of.get(`${product}/0`) : report.total, report.currency)];
  const heads = [say("product"), ...lanes.map((lane) => say("laneOf", { lane })), say("allLanes"),
    say("f.money")];
  const rows = [...goods.map((name) => line(name, name)), line("", say("allGoods"))];
  return make("section", { className: "panel scroll r-goods" },
    table(say("givenMatrix"), heads, rows, ["", ...heads.slice(1).map(() => "right")]));
}

function halves(report) {
  const most = Math.max(1, ...CAUSES.map((name) => report.total[name]));
  const causes = CAUSES.map((name) => make("li", {}, make("span", {}, say(`f.${name}`)),
    make("strong", {}, count(report.total[name])), meter(report.total[name], most)));
  const place = make("div", { className: "r-days" });
  drawDays(place, report.days, report.aim);
  return make("div", { className: "r-halves" },
    make("section", { className: "panel" }, make("h2", {}, say("rejectWhy")),
      make("ul", { className: "reasons" }, causes)),
    make("section", { className: "panel" }, make("h2", {}, say("givenDays")), place));
}

// Each line of the report, and from which rows it is.
function linesPanel(report) {
  const heads = [say(`by.${report.by}`), ...FIGURES.map(([name]) => say(`f.${name}`)),
    say("fromRows")];
  const row = (name, line) => [name, ...FIGURES.map(([key, spell]) => (key === "money"
    ? moneyOf(line, report.currency) : line[key] === null ? "–" : spell(line[key]))),
  make("small", {}, rowsOf(line.rows, report.halls))];
  const rows = report.lines.map((line) => row(say(line.name), line));
  const title = say("linesBy", { by: say(`by.${report.by}`) });
  return make("section", { className: "panel scroll r-lines" }, table(title, heads,
    [...rows, row(say("total"), report.total)], ["", ...FIGURES.map(() => "right"), ""]));
}

function batchPanel(report) {
  if (report.batches.length === 0) return "";
  const some = report.batches.length < report.closed
    ? ` · ${say("verdictSome", { count: count(report.batches.length) })}` : "";
  const heads = ["batch", "product", "dayOf", "packs", "f.mean_over", "verdict", "bookOf"];
  const rows = report.batches.map((one) => [batchLink(one, report.halls), one.product,
    day(one.day), count(one.packs), one.over === null ? "–" : grams(one.over, 2, true),
    verdictTag(one.verdict), one.book]);
  return make("section", { className: "panel scroll" },
    table(say("verdictList", { closed: count(report.closed) }) + some,
      heads.map((name) => say(name)), rows, ["", "goods", "keep", "right", "right", "", "keep"]));
}

function refusedPanel({ refused }) {
  if (refused.length === 0) return "";
  return make("section", { className: "panel" }, table(say("refusedActs"),
    ["actOf", "person", "howMany"].map((name) => say(name)),
    refused.map((one) => [one.act, one.person, count(one.count)]), ["", "", "right"]));
}

function draw(place, report) {
  const behind = report.behind.map((one) => notice("", "clock", say("summedBehind",
    { ...one, rows: count(one.rows), summed: count(one.summed) })));
  if (report.total.readings === 0) {
    place.replaceChildren(...behind, notice("", "idle", say("nothingWeighed")),
      refusedPanel(report));
    return;
  }
  place.replaceChildren(...behind, headFacts(report), matrixPanel(report), halves(report),
    linesPanel(report), batchPanel(report), refusedPanel(report));
}

let place = null;
let links = null;

async function load() {
  const { isGood, said } = await ask(`reports/${state.by}?${wordsOf("json")}`);
  if (isGood) draw(place, said);
  else place.replaceChildren(notice("warn", "warn", say("badDays")));
  for (const link of links) link.href = `archive/reports/${state.by}?${wordsOf(link.dataset.form)}`;
}

function field(name, label) {
  const input = make("input", { id: `r-${name}`, type: "date", value: state[name],
    required: true });
  input.addEventListener("change", () => {
    state[name] = input.value;
    load();
  });
  return make("p", { className: "field" }, make("label", { for: input.id }, say(label)), input);
}

function periods() {
  const buttons = BY.map((name) => {
    const button = make("button", { type: "button", "aria-pressed": String(name === state.by) },
      say(`by.${name}`));
    button.addEventListener("click", () => {
      state.by = name;
      for (const one of buttons) one.setAttribute("aria-pressed", String(one === button));
      load();
    });
    return button;
  });
  return make("div", { className: "choice", role: "group", "aria-label": say("reportBy") },
    buttons);
}

const today = () => new Date(Date.now() - new Date().getTimezoneOffset() * 60_000)
  .toISOString().slice(0, 10);

async function drawPage(section) {
  await loadStyles("tables.css", "figures.css", "charts.css", "forms.css", "reports.css");
  state.last = today();
  state.first = `${state.last.slice(0, 8)}01`;
  links = ["csv", "xlsx", "pdf"].map((form) => make("a", { className: "button second",
    "data-form": form, download: "" }, form.toUpperCase()));
  place = make("div", { className: "stack", role: "region", "aria-live": "polite",
    "aria-label": say("reportOf") });
  section.append(make("h1", {}, say("reports")), make("div", { className: "r-bar no-print" },
    field("first", "reportFrom"), field("last", "reportTo"), periods(),
    make("p", { className: "right" }, links)), place);
  await load();
}

export const { build, refresh } = archivePage("reports", "halls", drawPage);
