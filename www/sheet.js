// The sheet of a batch, to be printed on A4: the reference test whole, limits, tares, the five
// checks, every pack that doesn't count. The weights of the samples stand in the batch's paper,
// which the front may serve or a person chooses. The verdict is the book's; what is rounded has a
// sign.

import * as office from "./office.js";
import { CODE, addWords, say, time, word } from "./words.js";
import { askArchive } from "./archived.js";
import { allowedOf, failsOf, limitsOf } from "./rules.js";
import { contentsCheck } from "./sample.js";
import { count, day, fixed, grams, nominalOf, percent } from "./numbers.js";
import { icon, loadStyles, make, whenSized } from "./page.js";
import { notice } from "./parts.js";
import { BatchPage } from "./loader.js";
import { drawChart } from "./chart.js";
import { measuredOf } from "./measured.js";
import { readPaper } from "./paper.js";
import { samplesMeasured, samplesOfPaper, tareOf, testOf } from "./reference.js";
import { tareChanges } from "./control.js";

addWords((await import(`./sheet_${CODE}.js`)).default);

const CHART_WIDE = 694;
const COLUMNS = 4;

async function fromHere(sheet, packs) {
  const sample = await office.sample(sheet.batch);
  return samplesMeasured(sample, measuredOf(sheet.batch), tareOf(packs), sheet.mode);
}

const fromPaper = (paper, packs) => samplesOfPaper(paper, tareOf(packs));

// ---- the five checks

// What the book says of a check: of a closed batch by its verdict, before that of all packs alone.
function resultOf(sheet, name, found) {
  if (sheet.verdict) return sheet.verdict.includes(name) ? "fails" : "holds";
  return found === null ? "open" : found ? "holds" : "fails";
}

function contentsRow(sheet, plan) {
  const { first, second } = sheet;
  if (!first) return [say("notMeasured"), null];
  const isDone = first.measured === first.count && (!second || second.measured === second.count);
  const figures = { d1: first.defective, first: first.count, d2: second?.defective,
    both: first.defective + (second?.defective ?? 0) };
  const told = contentsCheck(plan, first.defective, second ? second.defective : null);
  const isOpen = !isDone || told === "open";
  return [say(second ? "fContents2" : "fContents", figures), isOpen ? null : told === "accepts"];
}

function checkRows(sheet, { plan, mean }) {
  const limits = limitsOf(sheet);
  const figures = { ...plan, ...sheet, k: fixed(plan.k / 1000, 3), nominal: grams(limits.nominal),
    mean: mean && grams(mean.mean), s: mean && grams(mean.s), limit: mean && grams(mean.limit),
    count: count(sheet.population), allowed: count(allowedOf(sheet.population)),
    average: grams(sheet.net / Math.max(1, sheet.population)),
    nonstandard: count(sheet.nonstandard), inadequate: count(sheet.inadequate),
    share: percent(sheet.nonstandard / Math.max(1, sheet.population)) };
  const fails = failsOf(sheet);
  const [contents, accepted] = contentsRow(sheet, plan);
  const needs = say("nContents", figures) + (plan.second ? say("nContents2", figures) : "");
  const row = (name, on, found, needed, result) =>
    [say(`c${name}`), say(on), found, needed, resultOf(sheet, name.toLowerCase(), result)];
  const all = (name) => row(name, "onAll", say(`f${name}`, figures), say(`n${name}`, figures),
    !fails.includes(name.toLowerCase()));
  return [row("Contents", "onSample", contents, needs, accepted),
    row("Mean", "onSample", mean ? say("fMean", figures) : say(sheet.first ? "noWeights"
      : "notMeasured"), mean ? say("nMean", figures) : "", mean ? mean.accepts : null),
    all("Average"), all("Allowance"), all("Inadequate")];
}

function checkTable(sheet, test) {
  const sign = { holds: "pass", fails: "reject", open: "dot" };
  const rows = checkRows(sheet, test).map(([name, on, found, needed, result]) => make("tr", {},
    make("th", { scope: "row" }, name, make("small", {}, on)), make("td", {}, found),
    make("td", {}, needed), make("td", { className: "sh-result" }, icon(sign[result]),
      say(result))));
  const heads = ["check", "found", "needed", "result"]
    .map((key) => make("th", { scope: "col" }, say(key)));
  return make("table", { className: "sh-checks" }, make("caption", {}, say("five")),
    make("thead", {}, make("tr", {}, heads)), make("tbody", {}, rows));
}

// Whether a paper's figures say otherwise than the verdict; that would be a fault.
function isOtherwise(sheet, { mean }) {
  const first = sheet.verdict?.split(" ")[0];
  if (!mean || (first !== "released" && first !== "withheld")) return false;
  return mean.accepts === sheet.verdict.split(" ").includes("mean");
}

// ---- facts

function lines(pairs) {
  return make("dl", { className: "lines" }, pairs.map(([name, value]) => make("div", {},
    make("dt", {}, name), make("dd", {}, value))));
}

function tareLines({ paper }, packs) {
  if (paper) return paper.tares.map(([date, tare]) => [day(date), `${grams(tare)} g`]);
  if (packs.length === 0) return [];
  const first = packs[0];
  const changes = [{ place: 0, tare: first.gross - first.net }, ...tareChanges(packs)];
  return changes.map(({ place, tare }) => [say("tareSince",
    { tare: grams(tare), pack: count(packs[place].number) }), ""]);
}

function goodsLines(sheet) {
  const { nominal, error, t1, t2 } = limitsOf(sheet);
  const amount = nominalOf(sheet);
  const volume = sheet.unit === "ml" ? [[say("densityOf"), grams(sheet.density)]] : [];
  return [[say("nominalLong"), sheet.unit === "ml" ? `${amount} = ${grams(nominal)} g`
    : `${grams(nominal)} g`], ...volume, [say("error"), `${grams(error)} g`],
  ["T1 = Qn − TNE", `${grams(t1)} g`], ["T2 = Qn − 2·TNE", `${grams(t2)} g`]];
}

function factBlocks(sheet, samples, packs) {
  const piles = ["readings", "passed", "sampled", "rejected", "voided"]
    .map((pile) => [word(pile), count(sheet.piles[pile])]);
  return make("div", { className: "sh-facts" }, lines(goodsLines(sheet)),
    make("div", {}, make("h3", {}, say("tares")), lines(tareLines(samples, packs)),
      make("p", { className: "sh-note" }, say("tareNote"))),
    lines([...piles, [say("onAll"), count(sheet.population)]]));
}

// ---- weights

function weightCells(one, at, which, { plan, t1, isDestroy }) {
  if (!one) return [];
  const kind = `right${which === "first" && at < plan.means ? " mean" : ""}`;
  const isLight = one.contents !== null && one.contents < t1;
  const spell = (mass) => (mass === null ? "–" : grams(mass));
  const cell = (text, more = "") => make("td", { className: `${kind}${more}` }, text);
  return [cell(String(one.pack)), cell(spell(one.gross)), isDestroy ? cell(spell(one.empty)) : [],
    cell((isLight ? "▼ " : "") + spell(one.contents), isLight ? " light" : "")].flat();
}

function weightTable(which, samples, about) {
  const list = samples[which];
  if (list.length === 0) return [];
  const high = Math.ceil(list.length / COLUMNS);
  const columns = Array.from({ length: Math.min(COLUMNS, list.length) }, (_, x) => x);
  const rows = Array.from({ length: high }, (_, y) => make("tr", {}, columns.flatMap((x) =>
    weightCells(list[x * high + y], x * high + y, which, about))));
  const names = ["packNo", "grossG", ...(about.isDestroy ? ["emptyG"] : []), "contentsG"];
  const heads = columns.flatMap(() => names.map((key) =>
    make("th", { scope: "col", className: "right" }, say(key))));
  const drawnBy = samples.words[which === "first" ? 0 : 1];
  return [make("table", { className: `sh-weights ${about.isDestroy ? "by4" : "by3"}` },
    make("caption", {}, say("weights", { which: say(`which ${which}`) }),
      drawnBy ? make("small", {}, say("drawWord", { word: drawnBy })) : null),
    make("thead", {}, make("tr", {}, heads)), make("tbody", {}, rows))];
}

function outList(packs) {
  const outs = packs.filter(({ pile }) => pile === "rejected" || pile === "voided");
  if (outs.length === 0) return make("p", { className: "sh-note" }, say("noOuts"));
  const cause = ({ pile, signal }) => (pile === "voided" ? word("voided")
    : signal === "pass" ? word("rejected") : word(signal));
  return make("section", { className: "sh-outs" }, make("h3", {}, say("outs",
    { count: count(outs.length) })), make("ol", {}, outs.map((pack) => make("li", {},
    make("span", {}, String(pack.number)), make("span", {}, `${grams(pack.net)} g`),
    make("span", {}, cause(pack))))));
}

// ---- the pages

function verdictBox(sheet) {
  const [first, ...reasons] = (sheet.verdict ?? "none").split(" ");
  const sign = { released: "pass", withheld: "reject" }[first] ?? "dot";
  const why = reasons.length ? `: ${reasons.map(word).join(", ")}` : "";
  const text = sheet.verdict ? word(first) + why : say("noVerdict");
  const kind = { released: "ok", withheld: "alarm" }[first] ?? "";
  return make("p", { className: `big-verdict ${kind}` }, icon(sign), text);
}

function headOf(sheet) {
  return make("header", { className: "sh-head" }, make("div", {},
    make("p", { className: "quiet" }, `${say("sheetTitle")} · ${say("system")}`),
    make("h2", {}, sheet.batch),
    make("p", {}, `${sheet.product} · ${nominalOf(sheet)} ℮ · `
      + word(sheet.state))), verdictBox(sheet));
}

function footOf(sheet, { paper }, evidence) {
  const now = Date.now();
  const date = new Date(now).toLocaleDateString("sv");
  const closing = paper ? `${say("closedAt", { row: paper.row })}. ` : "";
  return make("footer", { className: "sh-foot" },
    make("p", {}, `${say("rounded")} ${sheet.verdict ? "" : say("notClosed")}`),
    make("p", {}, `${closing}${sheet.verdict ? say("proveIt", sheet) : ""} `
      + (evidence ? "" : say("needArchive"))),
    make("div", { className: "sh-sign" },
      make("p", {}, say("printed", { day: day(date), time: time(now), row: count(sheet.rows) })),
      make("p", { className: "sign" }, say("signed"))));
}

// The chart as it is printed, drawn anew just before that: a small screen has a narrower one.
let drawForPaper = () => {};
addEventListener("beforeprint", () => drawForPaper());

function chartOf(sheet, packs) {
  const place = make("div", { className: "sh-chart" });
  if (packs.length === 0) return place;
  let drawn = 0;
  const draw = (wide) => {
    if (wide === drawn) return;
    drawn = wide;
    place.replaceChildren(drawChart({ sheet, packs, view: [0, packs.length], wide }).picture);
  };
  drawForPaper = () => draw(CHART_WIDE);
  drawForPaper();
  whenSized(place, (wide) => draw(Math.min(CHART_WIDE, wide)));
  return place;
}

function sheetOf(sheet, packs, samples, evidence) {
  const test = testOf(sheet, samples);
  const { plan } = test;
  const { t1 } = limitsOf(sheet);
  const about = { plan, t1, isDestroy: sheet.mode === "destroy" };
  const planWords = say("planRow", { ...plan, count: count(sheet.population),
    mode: say(`mode ${sheet.mode ?? "keep"}`), k: fixed(plan.k / 1000, 3) });
  const hasWeights = samples.first.some(({ gross }) => gross !== null);
  return [isOtherwise(sheet, test) ? notice("alarm", "reject", say("differs")) : "",
    make("article", { className: "paper" }, headOf(sheet),
      make("p", { className: "sh-plan" }, planWords), factBlocks(sheet, samples, packs),
      checkTable(sheet, test), make("h3", {}, say("chartHead")),
      chartOf(sheet, packs), hasWeights ? [
        weightTable("first", samples, about), weightTable("second", samples, about),
        make("p", { className: "sh-note" }, say("lightMark", { t1: grams(t1) }))] : [],
      outList(packs), evidence ?? [], footOf(sheet, samples, evidence))];
}

// A field for the paper of a batch, where the front serves none.
function paperField(sheet, take) {
  const bad = make("span", { className: "bad-word", role: "status" });
  const input = make("input", { type: "file", id: "sheet-paper", accept: ".txt,text/plain" });
  input.addEventListener("change", async () => {
    const paper = readPaper(await input.files[0].text());
    if (paper?.batch === sheet.batch) take(paper);
    else bad.textContent = say("notItsPaper", sheet);
  });
  return make("p", { className: "no-print chooser" },
    make("label", { for: "sheet-paper" }, say("choosePaper", sheet)), input, bad);
}

// What the archive adds; nothing where none answers.
async function archived(sheet, packs) {
  const newest = await askArchive("newest");
  if (!newest) return null;
  const { proofsOf } = await import("./sheetproofs.js");
  return proofsOf(sheet, newest, packs[0]?.number ?? Infinity);
}

async function draw(place, sheet, packs) {
  const text = sheet.verdict ? await office.paper(sheet.batch) : "";
  const served = readPaper(text);
  const paper = served?.batch === sheet.batch ? served : null;
  const evidence = await archived(sheet, packs);
  const printer = make("button", { type: "button" }, icon("print"), say("print"));
  printer.addEventListener("click", () => print());
  const put = (samples) => place.replaceChildren(
    make("p", { className: "no-print sheet-bar" }, printer),
    sheet.verdict && sheet.first && !samples.paper
      ? paperField(sheet, (chosen) => put(fromPaper(chosen, packs))) : "",
    ...sheetOf(sheet, packs, samples, evidence));
  put(paper ? fromPaper(paper, packs) : await fromHere(sheet, packs));
}

const page = new BatchPage("sheet", draw);

export async function build(section) {
  await loadStyles("parts.css", "tables.css", "figures.css", "charts.css", "sheet.css");
  page.build(section);
}

export const show = (batch) => page.show(batch);
export const refresh = () => page.refresh();
