// The forms of the acts of a desk: their fields, and what is looked at before one is sent, since an
// act can't be taken back.

import * as grams from "./grams.js";
import * as office from "./office.js";
import { say, word } from "./words.js";
import { amount, drawn, empty, farOff, gross, isFarOff, isReady, makeField, makeSaid, readAll,
  sendAct, tell, weight } from "./acts.js";
import { day as spellDay, grams as spell } from "./numbers.js";
import { make } from "./page.js";

const FAR_DAYS = 31;
const MOST_REASON = 200;

const batch = { name: "batch", kind: "name", list: "batches" };
const product = { name: "product", kind: "name", list: "products" };
const pack = { name: "pack", kind: "number", most: grams.MAX_NUMBER };
// The book passes it over; the front writes it down with the act and the person.
const reason = { name: "reason", kind: "text", most: MOST_REASON, optional: true };
const mode = { name: "mode", kind: "choice", choices: ["keep", "destroy"] };

// The fields of each act, and what is looked at before it is sent. Goods by volume have acts of
// their own, `product_ml` and `open_at`.
export const ACTS = {
  day: { fields: [{ name: "day", kind: "day" }], look: lookAtDay },
  product: { fields: [{ name: "name", kind: "name" }, weight("nominal", ...grams.NOMINAL)] },
  product_ml: { fields: [{ name: "name", kind: "name" },
    { ...amount("nominal", "ml", grams.NOMINAL), label: "nominal_ml" }] },
  tare: { fields: [product, { name: "day", kind: "day", label: "from" },
    weight("tare", 0, grams.MAX_TARE), reason], hint: "tareReach" },
  open: { fields: [{ name: "batch", kind: "name" }, product] },
  open_at: { fields: [{ name: "batch", kind: "name" }, product,
    amount("density", "g/l", grams.DENSITY)] },
  end: { fields: [batch], look: lookAtBatch },
  draw: { fields: [batch, mode, drawn] },
  second: { fields: [batch, drawn] },
  close: { fields: [batch, reason], look: lookAtBatch },
  void: { fields: [pack, reason], look: lookAtPack },
  measure: { fields: [pack, gross, empty], look: lookAtGross },
};

// ---- what is looked at first: a text, after which the same has to be sent a second time

const UNSEEN = say("unseen");

async function lookAtDay({ day }) {
  const days = Math.round(grams.daysAway(day));
  return days > FAR_DAYS ? say("farDay", { day: spellDay(day), days }) : null;
}

async function lookAtBatch(act) {
  const sheet = await office.sheet(act.batch);
  if (sheet.refused) return null;
  return say("aboutBatch", { ...sheet, state: word(sheet.state) });
}

async function lookAtPack(act) {
  const found = await office.pack(act.pack);
  const [whole, net] = found ? [found.gross, found.net].map((mass) => spell(mass)) : [];
  return found && say("aboutPack", { ...found, gross: whole, net, pile: word(found.pile) });
}

async function lookAtGross(act) {
  const found = await office.pack(act.pack);
  return found && isFarOff(act.gross, found.gross) ? farOff(act.gross, found.gross) : null;
}

// Makes a form that sends an act, when it is entered the second time where there is something to
// look at first. `then` gets the outcome.
export function makeForm(name, { fields, look, hint }, prefix, then) {
  const said = makeSaid();
  const form = make("form", { id: prefix, noValidate: true, "aria-label": say(`act.${name}`) },
    fields.map((field) => makeField(field, prefix)),
    hint ? make("p", { className: "quiet" }, say(hint)) : null,
    make("p", { className: "acts" }, make("button", {}, say("send"))), said);
  let agreed = "";
  form.addEventListener("input", () => { agreed = ""; });
  form.addEventListener("submit", async (event) => {
    event.preventDefault();
    const values = !form.busy && readAll(form, fields);
    if (!values || !isReady(said)) return;
    const typed = Object.values(values).join();
    const first = look && agreed !== typed ? await lookFirst(look, values) : null;
    agreed = first === UNSEEN ? "" : typed;
    if (first) return void tell(said, "look", first);
    agreed = "";
    form.busy = true;
    const entry = await sendAct(said, { act: name, ...values });
    form.busy = false;
    if (entry.found.done) clear(form);
    then?.(entry);
  });
  return form;
}

// What is to be seen before an act is sent; without an answer nothing is sent.
async function lookFirst(look, values) {
  const seen = await look(values).catch(() => UNSEEN);
  return seen && seen !== UNSEEN ? `${seen} ${say("again")}` : seen;
}

function clear(form) {
  for (const input of form.querySelectorAll("input:not([type=date])")) input.value = "";
  const word64 = form.elements.word;
  if (word64) word64.value = grams.drawWord();
  form.querySelector("input")?.focus();
}
