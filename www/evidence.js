// Evidence beside the book: how a tare was determined, that a scale was checked, a density, and
// what measuring may be wrong by. The archive keeps each record with its person and hour, chained
// to the one before. Without an archive the page says so.

import { addWords, say } from "./words.js";
import { FIELDS, KINDS, readEntry, soFar } from "./entered.js";
import { deskChoice } from "./mydesk.js";
import { dueWords } from "./evidenceshown.js";
import { grams } from "./evidencewords.js";
import { addListed } from "./names.js";
import { isReady, makeSaid, nameLists, sendAct, tell } from "./acts.js";
import { loadStyles, make, put } from "./page.js";
import { spellDay } from "./evidencekinds.js";
import { notice, table, tag } from "./parts.js";
import { Missing, reach } from "./office.js";
import { archivePage } from "./soon.js";

// How a record may stand, what needs a person first.
const SIGNS = { bad: ["alarm", "reject"], more: ["warn", "early"], old: ["warn", "clock"],
  good: ["ok", "pass"] };
const RANKS = Object.keys(SIGNS);
const CREATED = 201;

addWords({
  newest: ["Newest of each", "Das Neueste von jedem"],
  enterEvidence: ["Enter evidence", "Nachweis eintragen"],
  keepEvidence: ["Keep it", "Festhalten"],
  ofWhat: ["Of what: a product, or the number of a lane",
    "Wovon: eine Ware, oder die Nummer einer Linie"],
  noEvidence: ["No evidence yet. Begin with the scales.",
    "Noch keine Nachweise. Mit den Waagen beginnen."],
  overdue: ["To be seen to", "Zu erledigen"],
  cantRead: ["This can't be read: {field}.", "Das lässt sich nicht lesen: {field}."],
});

async function ask(path, options) {
  const answer = await reach(`archive/${path}`, options);
  if (![200, CREATED, 403, 422].includes(answer.status)) throw new Missing(String(answer.status));
  return { status: answer.status, said: answer.status === 403 ? {} : JSON.parse(answer.text) };
}

const post = (kind, subject, body) => ask(`evidence/${kind}/${encodeURIComponent(subject)}`,
  { method: "POST", headers: { "Content-Type": "application/json" }, body: JSON.stringify(body) });

// Calls for help are kept as evidence is; they stand among what is to be seen to.
const isProof = ({ kind }) => kind !== "call";

// What a record found, in figures.
function foundWords({ kind, body }) {
  const figures = { mean: body.mean, spread: body.deviation, limit: body.limit, used: body.used,
    density: body.density };
  const spelled = Object.entries(figures).map(([name, value]) => [name, grams(value)]);
  return say(`told.${kind}`, Object.fromEntries(spelled));
}

// The newest of each, what needs a person first: what isn't in order, then what is `due` anew.
function newestTable(records, due) {
  if (records.length === 0) return [make("h2", {}, say("newest")), say("noEvidence")];
  const isOld = ({ kind, subject }) =>
    due.some((one) => one.why === "old" && one.kind === kind && one.subject === subject);
  const standing = (one) => (one.body.result === "good" && isOld(one) ? "old" : one.body.result);
  const rank = (one) => RANKS.indexOf(standing(one));
  const heads = ["kind", "subject", "when", "who", "result"].map((name) => say(`head.${name}`));
  const sorted = [...records].sort((one, other) => rank(one) - rank(other));
  return [table(say("newest"), heads, sorted.map((one) => [
    [say(`kind.${one.kind}`), make("small", {}, foundWords(one))], one.subject,
    spellDay(one.moment), one.person, tag(...SIGNS[standing(one)], say(`result.${standing(one)}`)),
  ]))];
}

// What is typed of a list so far, so that a wrong value is seen at once.
function countWords(text) {
  const { bad, count: many, mean, spread } = soFar(text);
  if (bad) return say("soFarBad", { line: bad });
  const figures = { many, mean: grams(mean), spread: grams(spread) };
  return many > 1 ? say("soFar", figures) : "";
}

function fieldOf(kind, [name, , isLong]) {
  const id = `e-${kind}-${name}`;
  const input = make(isLong ? "textarea" : "input",
    { id, name, autocomplete: "off", rows: isLong ? 10 : null, className: "e-field" });
  const field = make("p", { className: "field" }, make("label", { for: id }, say(`enter.${name}`)),
    input);
  if (name === "empties") {
    const said = make("span", { className: "hint", role: "status" });
    input.addEventListener("input", () => put(said, countWords(input.value)));
    field.append(said);
  }
  return field;
}

// A record that came of what was typed; of a good tare the act is offered.
function outcome(said, record) {
  const { kind, subject, body, digest } = record;
  const result = say(`result.${body.result}`);
  tell(said, body.result === "good" ? "done" : "refused", `${result}. ${foundWords(record)}`);
  if (kind !== "tare" || body.result !== "good") return;
  const day = new Date().toISOString().slice(0, 10);
  const button = make("button", { type: "button" }, say("enterTare", { tare: grams(body.tare) }));
  button.addEventListener("click", async () => {
    if (!isReady(said)) return;
    button.remove();
    const reason = `evidence ${digest.slice(0, 16)}`;
    await sendAct(said, { act: "tare", product: subject, day, tare: body.tare, reason });
  });
  said.after(button);
}

function formOf(kind, refresh) {
  const said = makeSaid();
  const subject = make("input", { id: `e-${kind}`, name: "subject", autocomplete: "off",
    list: kind === "scale" ? null : "products" });
  const form = make("form", { noValidate: true, "aria-label": say(`kind.${kind}`) },
    make("p", { className: "field" }, make("label", { for: `e-${kind}` }, say("ofWhat")), subject),
    FIELDS[kind].map((field) => fieldOf(kind, field)),
    make("p", { className: "acts" }, make("button", {}, say("keepEvidence"))), said);
  form.addEventListener("submit", async (event) => {
    event.preventDefault();
    // what an earlier record offered
    for (const offer of form.querySelectorAll("button[type=button]")) offer.remove();
    const texts = FIELDS[kind].map(([name]) => [name, form.elements[name].value]);
    const { faulty, body } = readEntry(kind, subject.value, Object.fromEntries(texts));
    if (faulty) {
      form.elements[faulty].focus();
      return void tell(said, "refused", say("cantRead", { field: say(`enter.${faulty}`) }));
    }
    const answer = await post(kind, subject.value.trim(), body).catch(() => null);
    if (answer?.status === CREATED) {
      outcome(said, answer.said);
      await refresh();
    } else {
      const why = answer ? say("notKept", { why: answer.said.detail ?? 403 }) : say("noArchive");
      tell(said, "refused", why);
    }
  });
  return form;
}

function choice(forms) {
  const select = make("select", { id: "e-kind" },
    KINDS.map((kind) => make("option", { value: kind }, say(`kind.${kind}`))));
  const show = () => KINDS.forEach((kind) => { forms[kind].hidden = kind !== select.value; });
  select.addEventListener("change", show);
  show();
  return make("p", { className: "field" },
    make("label", { for: "e-kind" }, say("head.kind")), select);
}

async function draw(section) {
  await loadStyles("tables.css", "forms.css", "evidence.css");
  await addListed();
  const [newest, due] = [make("div", { className: "scroll" }), make("div", { role: "status" })];
  const show = async () => {
    const records = (await ask("newest")).said.filter(isProof);
    const { evidence, books } = (await ask("alarms")).said;
    newest.replaceChildren(...newestTable(records, evidence));
    const said = [...evidence.map(dueWords), ...books.map(({ book, what }) => `${book}: ${what}`)];
    due.replaceChildren(...(said.length ? [notice("alarm", "warn", say("overdue"),
      make("ul", {}, said.map((text) => make("li", {}, text))))] : []));
  };
  const forms = Object.fromEntries(KINDS.map((kind) => [kind, formOf(kind, show)]));
  const panel = (...parts) => make("section", { className: "panel" }, parts);
  section.append(make("h1", {}, say("evidence")), due, make("div", { className: "evidence" },
    panel(make("h2", {}, say("enterEvidence")), deskChoice("e-desk"), choice(forms),
      Object.values(forms)), panel(newest)), ...nameLists());
  await show();
}

export const { build, refresh } = archivePage("evidence", "newest", draw);
