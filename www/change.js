// Another batch for a lane that changes it: a dialog with the open batches that have no lane, a
// field for a name, and scans that a scanner types at the lane's page. The lane's adapter says it
// to the hall; what became of it is shown as soon as the book or the hall says so.

import { Missing, allLanes, lane as askLane, lanes as askPlan, list, reach, sheet as askSheet }
  from "./office.js";
import { addWords, say } from "./words.js";
import { laneWords } from "./settings.js";
import { loadStyles, make, put } from "./page.js";
import { names } from "./names.js";
import { refusal } from "./refusals.js";

addWords({
  changeTitle: ["Another batch for {lane}", "Andere Charge für {lane}"],
  changeHint: ["Packs that are weighed from now on are of the new batch. Change it when the belt "
    + "before the scale is empty.",
  "Was ab jetzt gewogen wird, gehört zur neuen Charge. Wechseln, wenn das Band vor der Waage leer "
    + "ist."],
  changeNone: ["No open batch is without a lane. Open one at a desk, or type a name.",
    "Keine offene Charge ist ohne Linie. Am Platz eine eröffnen oder einen Namen eingeben."],
  changeName: ["Scan or type the name", "Namen scannen oder eingeben"],
  changeShape: ["A name is 1 to 32 of A-Z a-z 0-9 - _ .",
    "Ein Name hat 1 bis 32 von A-Z a-z 0-9 - _ ."],
  changeDo: ["Change the batch", "Charge wechseln"],
  changeBack: ["Back", "Zurück"],
  changeWay: ["{batch}: under way ..", "{batch}: unterwegs .."],
  changeDone: ["{lane} weighs {batch} now.", "{lane} wiegt jetzt {batch}."],
  changeRefused: ["{batch} was refused, and {lane} has no batch now: packs are turned aside. {why}",
    "{batch} wurde abgelehnt, und {lane} hat jetzt keine Charge: Packungen werden ausgeschleust. "
      + "{why}"],
  changeKept: ["No hall reads {lane} now. The next one begins with {batch}.",
    "Gerade liest keine Halle {lane}. Die nächste beginnt mit {batch}."],
  changeForeign: ["You may not change this lane. Whoever runs the hall gives the right.",
    "Sie dürfen diese Linie nicht ändern. Das Recht gibt, wer die Halle betreibt."],
  changeAway: ["Nobody hears changes of {lane} now. Nothing was changed; call the office.",
    "Niemand hört gerade Wechsel von {lane}. Nichts wurde geändert; das Büro rufen."],
  changeDisk: ["The batch can't be kept on the lane's disk. Nothing was changed; call the office.",
    "Die Charge lässt sich auf der Platte der Linie nicht festhalten. Nichts wurde geändert; das "
      + "Büro rufen."],
  changeUnsure: ["{batch} may have reached {lane}, and it isn't known yet what became of it. Look "
    + "at the lane.",
  "{lane} hat {batch} vielleicht gehört, und noch ist nicht bekannt, was daraus wurde. Die Linie "
    + "ansehen."],
});

const NAME = /^[A-Za-z0-9][A-Za-z0-9._-]{0,31}$/;
const SCAN = /^batch ([^ \t\r]{1,32})$/;
// How often it is asked what became of a change, and for how long, in milliseconds; a refusal that
// was reported before it isn't its own.
const EVERY = 100;
const PATIENCE = 5_000;
const FRESH = 400;
// A scanner types faster than this, in milliseconds between two letters.
const PAUSE = 1_000;
const MOST_OFFERED = 24;
// What a refusal at which a lane waits keeps, by its number, as a sheet has it.
const KEPT = { 15: "state", 19: "product" };

const pause = (time) => new Promise((go) => setTimeout(go, time));

// ---- what is said, and what became of it

function answered({ status }, values) {
  if (status === 403) return ["refused", say("changeForeign")];
  if (status === 400) return ["refused", say("changeShape")];
  if (status === 500) return ["refused", say("changeDisk")];
  return ["refused", say("changeAway", values)];
}

// The refusal in words, with what the book keeps of the batch.
async function whyRefused(batch, number) {
  const about = await askSheet(batch).catch(() => ({ refused: true }));
  return refusal(number, about.refused ? batch : about[KEPT[number]]);
}

// What the book or the hall says of a change; nothing as long as neither does.
async function became(lane, batch, isOld, values) {
  const now = await askLane(lane);
  if (now.batch === batch) return ["done", say("changeDone", values)];
  if (now.batch || !isOld) return null;
  const told = (await askPlan()).lanes.find(({ number }) => number === lane);
  const [, of, , number] = /^waits batch (\S+) (refused) ([0-9]+) /.exec(told?.state ?? "") ?? [];
  if (of !== batch) return null;
  return ["refused", say("changeRefused", { ...values, why: await whyRefused(batch, +number) })];
}

async function follow(lane, batch, values) {
  const began = Date.now();
  while (Date.now() - began < PATIENCE) {
    const isOld = Date.now() - began > FRESH;
    const told = await became(lane, batch, isOld, values).catch(() => null);
    if (told) return told;
    await pause(EVERY);
  }
  return ["look", say("changeUnsure", values)];
}

// Says a batch to a lane. Gives back how loud, and in words what became of it.
export async function change(lane, batch) {
  const values = { lane: laneWords(lane), batch };
  if (!NAME.test(batch)) return ["refused", say("changeShape")];
  const headers = { "Content-Type": "application/json" };
  const body = JSON.stringify({ batch });
  try {
    const answer = await reach(`lane/${lane}/batch`, { method: "POST", headers, body });
    if (answer.status !== 200) return answered(answer, values);
    if (!JSON.parse(answer.text).heard) return ["look", say("changeKept", values)];
  } catch (fault) {
    if (!(fault instanceof Missing)) throw fault;
    return ["look", say("changeUnsure", values)];
  }
  return follow(lane, batch, values);
}

// ---- which batches are offered

// Those that are open and that no lane has: of the list; without one, those this browser knows.
async function offered() {
  const [lanes, listed] = await Promise.all([allLanes(), list()]);
  const taken = new Set(lanes.map(({ batch }) => batch));
  const open = listed.batches.filter(({ state }) => state === "running")
    .map(({ batch, product }) => ({ batch, product }));
  if (listed.text) return open.filter(({ batch }) => !taken.has(batch)).slice(0, MOST_OFFERED);
  const known = names().batches.filter((batch) => !taken.has(batch)).slice(0, MOST_OFFERED);
  const sheets = await Promise.all(known.map(askSheet));
  return sheets.filter((one) => !one.refused && one.state === "running");
}

function choice(batches, chosen) {
  if (batches.length === 0) return make("p", { className: "quiet" }, say("changeNone"));
  return make("div", { className: "picks change", role: "radiogroup",
    "aria-labelledby": "change-title" }, batches.map(({ batch, product }) => {
    const input = make("input", { type: "radio", name: "batch", value: batch });
    input.addEventListener("change", () => chosen(batch));
    return make("label", {}, input, make("strong", {}, batch), make("span", {}, product));
  }));
}

// ---- the dialog

// What a person typed or scanned: a name, or the line of a scanner.
const nameOf = (text) => SCAN.exec(text.trim())?.[1] ?? text.trim();

// Opens the dialog of a lane; with a batch, that one is said at once.
export async function open(dialog, lane, scanned = "") {
  await loadStyles("forms.css", "dialog.css");
  const said = make("output", { className: "said", role: "status" });
  const name = make("input", { id: "change-name", name: "name", autocomplete: "off",
    spellcheck: false, value: scanned });
  const go = make("button", {}, say("changeDo"));
  const back = make("button", { type: "button", className: "second" }, say("changeBack"));
  const picks = make("div");
  const form = make("form", { noValidate: true, method: "dialog" }, picks,
    make("p", { className: "field" }, make("label", { for: "change-name" }, say("changeName")),
      name), said, make("div", { className: "ends" }, back, go));
  const send = async () => {
    const batch = nameOf(name.value);
    if (go.disabled) return;
    go.disabled = true;
    said.className = "said";
    put(said, say("changeWay", { batch }));
    const [kind, text] = await change(lane, batch);
    said.className = `said ${kind}`;
    put(said, text);
    go.disabled = false;
    name.select();
  };
  back.addEventListener("click", () => dialog.close());
  form.addEventListener("submit", (event) => {
    event.preventDefault();
    send();
  });
  dialog.replaceChildren(make("h2", { id: "change-title" },
    say("changeTitle", { lane: laneWords(lane) })),
  make("p", { className: "quiet" }, say("changeHint")), form);
  dialog.setAttribute("aria-labelledby", "change-title");
  if (!dialog.open) dialog.showModal();
  name.focus();
  if (scanned) await send();
  const batches = await offered().catch(() => []);
  picks.replaceChildren(choice(batches, (batch) => {
    name.value = batch;
    go.focus();
  }));
}

// ---- scans

// Hears what a scanner types at a page while nobody types into a field: `batch NAME` and Enter.
export function hearScans(isWanted, scanned) {
  let typed = "";
  let at = 0;
  document.addEventListener("keydown", (event) => {
    const isOther = event.ctrlKey || event.altKey || event.metaKey;
    if (isOther || !isWanted() || event.target.closest?.("input, select, textarea, dialog")) return;
    if (Date.now() - at > PAUSE) typed = "";
    at = Date.now();
    if (event.key.length === 1) typed = (typed + event.key).slice(-40);
    const isScan = typed.startsWith("batch");
    // a key of a scan presses no button
    if (isScan && [" ", "Enter"].includes(event.key)) event.preventDefault();
    if (event.key !== "Enter") return;
    const found = SCAN.exec(typed);
    typed = "";
    if (found) scanned(found[1]);
  });
}
