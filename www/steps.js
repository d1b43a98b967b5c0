// The next step of a batch: a title, why, what is good to know, and one button that does it.

import { say } from "./words.js";
import { count, grams as spell, mass } from "./numbers.js";
import { STEPS, nextOf, stepOf } from "./tasks.js";
import { drawn, isReady, makeField, makeSaid, readAll, sendAct } from "./acts.js";
import { icon, make, meter } from "./page.js";
import { tag, verdictTag } from "./parts.js";
import { forecastOf } from "./forecast.js";
import { forecastWords } from "./forecastwords.js";
import { planOf } from "./rules.js";

export function stepList(next) {
  const now = stepOf(next);
  return make("ol", { className: "steps" }, STEPS.map((name, at) => {
    const kind = at < now ? "done" : at === now ? "now" : "later";
    return make("li", { className: kind, "aria-current": kind === "now" ? "step" : null },
      make("span", { className: "dot" }, kind === "done" ? icon("pass") : String(at + 1)),
      make("span", {}, say(`step ${name}`),
        kind === "done" ? make("span", { className: "unseen" }, ` ${say("stepDone")}`) : null));
  }));
}

// How the batch stands: what an act that can't be taken back is judged by.
function standing(sheet) {
  const forecast = forecastOf(sheet);
  const [kind, sign, told] = forecastWords(forecast, sheet);
  const loud = { ok: "ok", early: "calm", edge: "warn" }[kind] ?? "alarm";
  const { above, aboveAll } = forecast.average;
  const plan = planOf(sheet.population, sheet.mode);
  const facts = [[say("wouldNow"), tag(loud, sign, told)],
    [say("countsNow"), count(sheet.population)],
    [say("overNow"),
      `${spell(above, 2, true)}\u00a0g · ${mass(aboveAll, true).replace(" ", "\u00a0")}`],
    [say("lightNow"), say("ofAllowed", { used: count(sheet.nonstandard),
      allowed: count(forecast.allowed) })]];
  if (sheet.first) {
    const d1 = sheet.first.defective;
    facts.push([say("defectsNow"), sheet.second
      ? say("c2r2", { ...plan, both: d1 + sheet.second.defective })
      : say("c1r1", { ...plan, d1 })]);
  }
  return make("dl", { className: "lines before" }, facts.map(([name, value]) =>
    make("div", {}, make("dt", {}, name), make("dd", {}, value))));
}

function modes(sheet) {
  const isSmall = sheet.population < 100;
  return make("div", { className: "picks", role: "radiogroup", "aria-label": say("field.mode") },
    ["keep", "destroy"].filter((mode) => mode === "keep" || !isSmall).map((mode, at) =>
      make("label", {}, make("input", { type: "radio", name: "mode", value: mode,
        checked: at === 0 }), make("span", {}, make("strong", {}, say(`${mode}Whole`)),
        say(`${mode}Hint`)))));
}

// A form of one button that sends an act; more fields may stand in it.
function stepForm(name, act, told, ...fields) {
  const said = makeSaid();
  const form = make("form", { id: `step-${name}`, noValidate: true }, fields,
    make("p", { className: "acts" }, make("button", {}, say(`${name}Do`)),
      make("span", { className: "quiet" }, say("cannot"))), said);
  form.addEventListener("submit", async (event) => {
    event.preventDefault();
    const values = form.isBusy ? null : act(form);
    if (!values || !isReady(said)) return;
    form.isBusy = true;
    told(await sendAct(said, values));
    form.isBusy = false;
  });
  return form;
}

function wordForm(name, sheet, told, ...fields) {
  const field = makeField(drawn, `step-${name}`);
  field.append(make("span", { className: "hint" }, say("wordHint")));
  return stepForm(name, (form) => {
    const values = readAll(form, [drawn]);
    const mode = form.elements.mode ? { mode: form.elements.mode.value } : {};
    return values && { act: name, batch: sheet.batch, ...mode, ...values };
  }, told, ...fields, field);
}

const button = (text, kind, act) => {
  const made = make("button", { type: "button", className: kind }, text);
  made.addEventListener("click", act);
  return made;
};

const simple = (name) => (sheet, { told }) => [standing(sheet),
  stepForm(name, () => ({ act: name, batch: sheet.batch }), told)];

const BODIES = {
  weigh: (sheet) => [standing(sheet)],
  closed: (sheet) => [verdictTag(sheet.verdict), make("p", { className: "acts" },
    make("a", { className: "button", href: `#sheet/${sheet.batch}` }, say("toSheet")),
    make("a", { className: "button second", href: `#batch/${sheet.batch}` }, say("toChart")))],
  end: simple("end"),
  close: simple("close"),
  draw: (sheet, { told }) => [wordForm("draw", sheet, told, modes(sheet))],
  second: (sheet, { told }) => [standing(sheet), wordForm("second", sheet, told)],
  held: (sheet, { openAct }) => [standing(sheet), make("p", { className: "acts" },
    button(say("act.void"), "", () => openAct("void")),
    button(say("act.tare"), "second", () => openAct("tare", { product: sheet.product })))],
  measure: (sheet) => {
    const part = partOf(sheet);
    const link = (page, kind) => make("a", { className: `button ${kind}`,
      href: `#${page}/${sheet.batch}` }, say(page));
    return [meter(part.measured, part.count), make("p", { className: "acts" },
      link("measure", "go-measure"), link("picks", "second"))];
  },
};

export const partOf = (sheet) => sheet.second ?? sheet.first;

// The panel of a step. `acts` has what its buttons do: `told` gets the outcome of an act, `openAct`
// opens the form of another one.
export function stepPanel(sheet, isOnLane, acts) {
  const next = nextOf(sheet, isOnLane);
  const plan = planOf(sheet.population, sheet.mode ?? "keep");
  const part = partOf(sheet);
  const figures = { ...sheet, ...plan, count: count(sheet.population), done: part?.measured,
    all: part?.count, d1: sheet.first?.defective };
  const text = next === "close" && !sheet.population ? "closeEmpty"
    : next === "draw" && !plan.second ? "drawAll" : `${next}Text`;
  return make("section", { className: `panel step ${next}` },
    make("h2", {}, next === "held" ? icon("held") : null, say(`${next}Title`, figures)),
    make("p", { className: "lead" }, say(text, figures)), BODIES[next](sheet, acts));
}

