// The desk: what waits for a person, batch by batch and one step at a time; every other act behind
// one menu with a search; what the book answered. Measuring is a page of its own, as the pick list.

import * as office from "./office.js";
import { ACT_NAMES, actWords, nameLists, pendingLine, toldActs } from "./acts.js";
import { addListed, names } from "./names.js";
import { CODE, addWords, say, word } from "./words.js";
import { count, day, nominalOf } from "./numbers.js";
import { deskChoice, onDesk } from "./mydesk.js";
import { icon, loadStyles, make, put } from "./page.js";
import { redraw } from "./parts.js";
import { isTask, nextOf } from "./tasks.js";
import { laneWords } from "./settings.js";
import { partOf, stepList, stepPanel } from "./steps.js";
import { onChange } from "./requests.js";
import { outcomeWords } from "./outcomes.js";

// The texts of the desk and of its steps, in the language of the page.
addWords((await import(`./desk_${CODE}.js`)).default);

// How often the list of what is in force is asked for anew, in milliseconds.
const LIST_EVERY = 10_000;
const TOLD = 12;
const BATCH_UNKNOWN = 14;
const MOST_TASKS = 40;
const MOST_CLOSED = 8;

const state = { batch: "", changing: [], listedAt: 0, rows: 0, mode: "", shown: "",
  list: { batches: [], text: "", day: null }, sheets: new Map(), onLane: new Set() };
let place;

// ---- which batches there are

// Those of the list; without one, those that this browser knows and those on lanes.
function batchNames() {
  const listed = state.list.batches.filter(({ state: one }) => one !== "closed")
    .map(({ batch }) => batch);
  const known = [...listed, ...state.onLane, ...names().batches];
  return [...new Set(known)].slice(0, MOST_TASKS);
}

async function askAll() {
  const lanes = await office.allLanes();
  state.onLane = new Set(lanes.map(({ batch }) => batch).filter((batch) => batch));
  putChanging(lanes);
  const wanted = batchNames();
  if (state.batch && !wanted.includes(state.batch)) wanted.push(state.batch);
  // a closed batch never changes
  const open = wanted.filter((batch) => state.sheets.get(batch)?.state !== "closed");
  for (const sheet of await Promise.all(open.map(office.sheet))) {
    if (!sheet.refused) state.sheets.set(sheet.batch, sheet);
  }
}

const nextFor = (sheet) => nextOf(sheet, state.onLane.has(sheet.batch));

// ---- the lists at the left

function taskLine(sheet) {
  const next = nextFor(sheet);
  const isHeld = next === "held";
  return make("li", {}, make("a", { href: `#desk/${sheet.batch}`,
    className: isHeld ? "task alarm" : "task",
    "aria-current": sheet.batch === state.batch ? "true" : null },
  make("strong", {}, sheet.batch), make("span", { className: "what" },
    icon(isHeld ? "held" : "next"), make("span", {}, say(`next ${next}`, { ...partOf(sheet) })))));
}

const plainLine = (sheet, text) => make("li", {},
  make("a", { href: `#desk/${sheet.batch}` }, sheet.batch), make("span", {}, text));

function putLists() {
  const all = [...state.sheets.values()];
  const waits = all.filter((sheet) => isTask(nextFor(sheet)))
    .sort((one, other) => (nextFor(other) === "held") - (nextFor(one) === "held"));
  const none = [make("li", { className: "quiet none" }, say("nothingWaits"))];
  redraw(place.tasks, waits.length ? waits.map(taskLine) : none);
  redraw(place.runs, all.filter((sheet) => nextFor(sheet) === "weigh")
    .map((sheet) => plainLine(sheet, count(sheet.population))));
  redraw(place.closed, all.filter(({ verdict }) => verdict).slice(0, MOST_CLOSED)
    .map((sheet) => plainLine(sheet, word(sheet.verdict.split(" ")[0]))));
  for (const [list, head] of [[place.runs, place.runsHead], [place.closed, place.closedHead]]) {
    head.hidden = list.children.length === 0;
  }
}

// The lanes that change their batch, each with what it weighs and a button for another.
function putChanging(lanes) {
  const now = JSON.stringify(state.changing.map((number) => lanes[number - 1]?.batch ?? null));
  if (place.changing.dataset.shown === now) return;
  place.changing.dataset.shown = now;
  place.changingHead.hidden = state.changing.length === 0;
  place.changing.replaceChildren(...state.changing.map((number) => {
    const button = make("button", { type: "button", className: "second" }, say("changeLane"));
    button.addEventListener("click", async () => {
      const dialogs = await import("./change.js").catch(() => null);
      if (dialogs) await office.following(() => dialogs.open(place.dialog, number));
      else put(place.said, say("noForm"));
    });
    return make("li", {}, make("span", {}, make("strong", {}, laneWords(number)), " ",
      lanes[number - 1]?.batch ?? say("noBatch")), button);
  }));
}

// ---- the middle: a step, a mode, or the form of an act

function titleOf(sheet) {
  return make("div", { className: "title" }, make("div", {}, make("h1", {}, sheet.batch),
    make("p", { className: "quiet" },
      `${sheet.product} · ${nominalOf(sheet)} · ${word(sheet.state)}`)),
  make("p", { className: "right" },
    make("a", { href: `#batch/${sheet.batch}` }, say("batch")),
    make("a", { href: `#sheet/${sheet.batch}` }, say("sheet"))));
}

// What of a batch changes its step: while that stays the panel stays, with what was typed.
const keyOf = (sheet) => JSON.stringify([sheet.batch, nextFor(sheet), sheet.first, sheet.second,
  sheet.population, sheet.state]);

async function told() {
  await office.following(askAll);
  putLists();
  const sheet = state.sheets.get(state.batch);
  // what the act was answered stays above the next step
  const said = place.work.querySelector(".said:not(:empty)");
  if (sheet && said) put(place.said, said.textContent);
  putWork(true);
}

function putWork(isAnew = false) {
  if (state.mode) return;
  const sheet = state.sheets.get(state.batch);
  const key = sheet ? keyOf(sheet) : `none ${state.batch}`;
  place.desk.classList.toggle("has-work", Boolean(sheet));
  if (key === state.shown && !isAnew) return;
  state.shown = key;
  if (!sheet) {
    const text = make("p", { className: "quiet" });
    place.work.replaceChildren(make("h1", { className: "unseen" }, say("desk")), text);
    if (!state.batch || !state.rows) put(text, say("chooseTask"));
    else outcomeWords({ found: { refused: BATCH_UNKNOWN } }).then((words) => put(text, words));
    return;
  }
  place.work.replaceChildren(titleOf(sheet), stepList(nextFor(sheet)),
    stepPanel(sheet, state.onLane.has(sheet.batch), { told, openAct }));
}

const loadForms = () => import("./forms.js").catch(() => null);

async function openAct(name, values = {}) {
  const mode = `act ${name}`;
  state.mode = mode;
  place.desk.classList.add("has-work");
  const forms = await loadForms();
  if (state.mode !== mode) return;
  if (!forms) {
    state.mode = "";
    put(place.said, say("noForm"));
    return;
  }
  const { ACTS, makeForm } = forms;
  const form = makeForm(name, ACTS[name], `act-${name}`, () => {
    office.following(askAll).then(putLists);
    putNames();
  });
  for (const [field, value] of Object.entries(values)) form.elements[field].value = value;
  const date = form.querySelector("input[type=date]");
  if (date) date.value = state.list.day ?? "";
  put(place.said, "");
  place.work.replaceChildren(make("div", { className: "title" },
    make("h1", {}, say(`act.${name}`))), make("section", { className: "panel step" }, form));
  form.querySelector("input, select").focus();
}

// ---- the menu of all acts

function buildMenu() {
  const search = make("input", { id: "find-act", type: "search", autocomplete: "off" });
  const none = make("p", { className: "quiet", hidden: true }, say("noAct"));
  const lines = ACT_NAMES.map((name) => {
    const button = make("button", { type: "button", className: "second", id: `open-${name}` },
      say(`act.${name}`));
    button.addEventListener("click", () => openAct(name));
    return { name, button, line: make("li", {}, button) };
  });
  const filter = () => {
    const wanted = search.value.trim().toLowerCase();
    for (const { name, line } of lines) {
      line.hidden = !`${name} ${say(`act.${name}`)}`.toLowerCase().includes(wanted);
    }
    none.hidden = lines.some(({ line }) => !line.hidden);
  };
  search.addEventListener("input", filter);
  const form = make("form", { role: "search", className: "find-act" },
    make("label", { for: "find-act" }, say("findAct")), search);
  form.addEventListener("submit", (event) => {
    event.preventDefault();
    const first = lines.find(({ line }) => !line.hidden);
    if (first) openAct(first.name);
  });
  return make("section", { className: "menu" }, make("h2", {}, say("otherActs")), form,
    make("ul", { className: "acts-list" }, lines.map(({ line }) => line)), none);
}

// ---- the page

let tellings = 0;

async function putTold() {
  tellings += 1;
  const telling = tellings;
  const entries = toldActs(TOLD);
  const outcomes = await Promise.all(entries.map(outcomeWords));
  // another telling may have begun meanwhile, and knows more
  if (telling !== tellings) return;
  redraw(place.told, entries.map((entry, at) => {
    const [act, what] = actWords(entry);
    const isDone = Boolean(entry.found.done);
    return make("li", { className: isDone ? "done" : "refused" },
      make("span", { className: "t-act" }, icon(isDone ? "pass" : "reject"), act), " ",
      make("span", {}, what), ". ", make("span", {}, outcomes[at]));
  }));
}

function putNames() {
  place.names.replaceChildren(...nameLists());
}

async function askList() {
  state.listedAt = Date.now();
  const [listed, { lanes }] = await Promise.all([addListed(), office.lanes()]);
  state.list = listed;
  state.changing = lanes.filter(({ changes }) => changes).map(({ number }) => number);
  put(place.listed, state.list.text);
  place.force.hidden = !state.list.text;
  put(place.day, state.list.day ? say("bookDay", { day: day(state.list.day) }) : "");
  putNames();
}

export async function build(section) {
  await loadStyles("parts.css", "forms.css", "desk.css");
  const list = (className) => make("ol", { className });
  place = { pending: pendingLine(), told: list("told-list"),
    tasks: list("tasks"), runs: list("plain-list"), closed: list("plain-list"),
    work: make("div", { className: "work" }), names: make("div"), listed: make("pre"),
    said: make("p", { className: "said done", role: "status" }),
    day: make("p", { className: "quiet" }),
    changing: list("plain-list changing"), dialog: make("dialog"),
    changingHead: make("h3", { hidden: true }, say("changingLanes")),
    runsHead: make("h3", {}, say("runs")), closedHead: make("h3", {}, say("closedLately")) };
  place.force = make("details", { className: "in-force" }, make("summary", {}, say("inForce")),
    place.listed);
  place.desk = make("div", { className: "desk" });
  place.desk.append(
    make("div", { className: "left" }, deskChoice("my-desk"), place.day,
      make("h2", {}, say("waits")), place.tasks, place.changingHead,
      place.changing, place.runsHead, place.runs, place.closedHead,
      place.closed, buildMenu()),
    make("div", { className: "middle" }, place.pending, place.said, place.work),
    make("aside", { className: "told", "aria-label": say("told") }, make("h2", {}, say("told")),
      place.told, place.force));
  section.append(place.desk, place.names, place.dialog);
  // the forms are there before the first one is opened, also where the link breaks by then
  for (const sign of ["focusin", "pointerover"]) {
    place.desk.addEventListener(sign,
      ({ target }) => target.closest(".menu, .held") && loadForms());
  }
  onChange(putTold);
  onDesk(putTold);
  putTold();
  putNames();
  await askList();
}

export async function show(batch) {
  if (batch !== state.batch) state.mode = "";
  state.batch = batch;
  put(place.said, "");
  putWork(true);
  await refresh(true);
}

export async function refresh(isAnew = false) {
  if (Date.now() - state.listedAt > LIST_EVERY) await askList();
  const { rows } = await office.summary();
  if (rows < state.rows) state.sheets.clear();
  if (rows === state.rows && !isAnew) return;
  state.rows = rows;
  await askAll();
  putLists();
  putWork();
}
