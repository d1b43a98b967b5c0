// The acts of a desk: their fields, how one is sent, and what became of it.

import * as grams from "./grams.js";
import { addNames, names } from "./names.js";
import { CODE, addWords, say } from "./words.js";
import { give, onChange, outcome, why } from "./requests.js";
import { pending, told } from "./kept.js";
import { lacks, myDesk, onDesk } from "./mydesk.js";
import { make, put } from "./page.js";
import { verdictTag } from "./parts.js";
import { fixed, grams as spell } from "./numbers.js";
import { outcomeWords } from "./outcomes.js";

addWords((await import(`./acts_${CODE}.js`)).default);

// The acts of a desk, as the menu has them.
export const ACT_NAMES = ["day", "product", "product_ml", "tare", "open", "open_at", "end", "draw",
  "second", "close", "void", "measure"];
const PRODUCT_ACTS = ["product", "product_ml"];
// A measured pack that differs by more than this part of its weight on the lane is asked twice.
const FAR_PART = 0.05;

export const amount = (name, unit, [least, most]) => ({ name, kind: "amount", unit, least, most });
export const weight = (name, least, most) => amount(name, "g", [least, most]);
export const drawn = { name: "word", kind: "number", most: grams.MAX_WORD };
export const gross = weight("gross", 0, grams.MAX_GROSS);
export const empty = { ...weight("empty", 0, grams.MAX_TARE), optional: true };

export const isFarOff = (typed, recorded) => Math.abs(recorded - typed) > FAR_PART * recorded;

export function farOff(typed, recorded) {
  return say("farOff", { gross: spell(recorded), typed: spell(typed) });
}

// ---- fields

// What was typed into a field, as the book wants it; null where the book would refuse it.
export function read(field, text) {
  if (field.kind === "choice") return text;
  if (field.kind === "name") return grams.isName(text.trim()) ? text.trim() : null;
  if (field.kind === "day") return grams.isDay(text) ? text : null;
  if (field.kind === "text") return text.trim().length <= field.most ? text.trim() : null;
  if (field.kind === "number") return grams.readNumber(text, field.most);
  const size = grams.readAmount(text, field.unit);
  return size !== null && size >= field.least && size <= field.most ? size : null;
}

export function fault(field) {
  const limit = (value) => (field.kind === "amount" ? fixed(value / 1000, 0) : String(value));
  return say(`bad.${field.kind}`,
    { least: limit(field.least ?? 0), most: limit(field.most ?? 0), unit: field.unit });
}

function makeInput(field, id) {
  if (field.kind === "choice") {
    return make("select", { id, name: field.name },
      field.choices.map((choice) => make("option", { value: choice }, say(choice))));
  }
  const input = make("input", { id, name: field.name, autocomplete: "off",
    type: field.kind === "day" ? "date" : "text", "aria-describedby": `${id}-bad` });
  if (field.list) input.setAttribute("list", field.list);
  if (!["name", "text"].includes(field.kind)) {
    input.inputMode = field.kind === "amount" ? "decimal" : "numeric";
  }
  if (field === drawn) input.value = grams.drawWord();
  return input;
}

export function makeField(field, prefix) {
  const id = `${prefix}-${field.name}`;
  return make("p", { className: "field" },
    make("label", { for: id }, say(`field.${field.label ?? field.name}`)),
    makeInput(field, id), make("span", { id: `${id}-bad`, className: "bad-word" }));
}

// The values of a form's fields, or null with the first faulty one in focus.
export function readAll(form, fields) {
  const values = {};
  let first = null;
  for (const field of fields) {
    const input = form.elements[field.name];
    const isLeft = field.optional && input.value.trim() === "";
    const value = isLeft ? undefined : read(field, input.value);
    input.setAttribute("aria-invalid", value === null);
    put(form.querySelector(`#${input.id}-bad`), value === null ? fault(field) : "");
    if (value === null) first ??= input;
    if (!isLeft) values[field.name] = value;
  }
  first?.focus();
  return first ? null : values;
}

// ---- sending

export const makeSaid = () => make("output", { className: "said", role: "status" });

export function tell(said, kind, text) {
  said.className = `said ${kind}`;
  put(said, text);
}

// Whether this page can act; where it can't, why stands in `said`.
export function isReady(said) {
  const lack = lacks();
  if (lack) tell(said, "refused", say(lack));
  return !lack;
}

// Sends an act, and shows what became of it. Gives back its outcome.
export async function sendAct(said, act) {
  tell(said, "", say("underWay"));
  const entry = await outcome(myDesk(), give(myDesk(), act));
  const { done } = entry.found;
  tell(said, done ? "done" : "refused", await outcomeWords(entry));
  if (done?.verdict) {
    tell(said, "", "");
    said.append(verdictTag(done.verdict));
  }
  if (done) {
    addNames("batches", [act.batch]);
    addNames("products", [act.product, PRODUCT_ACTS.includes(act.act) && act.name]);
  }
  return entry;
}

// ---- what this browser was answered

// The units of the members of an act, whose values are whole thousandths; of goods by volume the
// nominal quantity is in ml.
const UNITS = { gross: "g", empty: "g", tare: "g", nominal: "g", density: "g/l" };

// What was typed; another program may have written into the store.
function reasonOf(text) {
  try {
    return JSON.parse(text);
  } catch {
    return text;
  }
}

// An act in words, as it was kept.
export function actWords({ act, members }) {
  const [, values, reason] = /^(.*?)(?:,"reason":(".*"))?$/s.exec(members);
  const spelled = values.split(",").slice(1).map((member) => {
    const [, name, value] = /^"(\w+)":"?([^"]*)"?$/.exec(member) ?? ["", "", member];
    const unit = act === "product_ml" && name === "nominal" ? "ml" : UNITS[name];
    return unit ? `${spell(Number(value))} ${unit}` : value;
  });
  if (reason) spelled.push(reasonOf(reason));
  return [say(`act.${act}`), spelled.join(", ")];
}

// What stands of the act that waits for an answer: how loud, and the words.
function pendingWords() {
  const desk = myDesk();
  const [head] = desk ? pending(desk) : [];
  if (!head) return ["", ""];
  const tries = head.tries ? ` (${head.tries})` : "";
  const state = why.get(desk) === "500" ? "diskFailed" : why.has(desk) ? "asksAgain" : "asked";
  return [state, say(state, { request: head.request, tries })];
}

// A line that says it, as long as one waits.
export function pendingLine() {
  const line = make("p", { role: "status" });
  const show = () => {
    const [kind, text] = pendingWords();
    line.className = `pending ${kind}`;
    put(line, text);
  };
  onChange(show);
  onDesk(show);
  show();
  return line;
}

export const toldActs = (most) => (myDesk() ? told(myDesk()).slice(0, most) : []);

export function nameLists() {
  return Object.entries(names()).map(([kind, known]) => make("datalist", { id: kind },
    known.map((name) => make("option", { value: name }))));
}
