// Measuring a sample by the keyboard alone: a pack, its weight, Enter, the next pack. What is typed
// is judged while it is typed; a weight that is far off is asked for twice. Beside it stands how
// the sample is doing: defective packs against the numbers of the plan, mean, s and limit.

import * as office from "./office.js";
import { CODE, addWords, say, time, word } from "./words.js";
import { contentsOf, figuresOf, partOf, readHours, readOrder, squares, taskOf }
  from "./sampletask.js";
import { count, grams, nominalOf } from "./numbers.js";
import { defectsOf } from "./sample.js";
import { deskChoice } from "./mydesk.js";
import { empty, farOff, fault, gross, isFarOff, isReady, makeSaid, pendingLine, read, sendAct }
  from "./acts.js";
import { icon, loadStyles, make, put } from "./page.js";
import { notice, tag } from "./parts.js";
import { keepMeasured, measuredOf } from "./measured.js";
import { packAt } from "./packs.js";

addWords((await import(`./measuring_${CODE}.js`)).default);

const MEASURED_ALREADY = 30;
const LAST = 5;

function whereWords(task, pack) {
  const found = task.order?.get(pack.number);
  const hour = task.hours.get(pack.number);
  const lane = found ? say("mOrder", { ...found, place: count(found.place),
    all: count(task.laneCounts.get(found.lane)) }) : say("mLane", pack);
  return hour ? `${lane}, ${time(hour, true)}` : lane;
}

class Measuring {
  constructor(task) {
    Object.assign(this, { task, agreed: "" });
    this.build();
  }

  build() {
    const input = (id) => make("input", { id, inputMode: "decimal", autocomplete: "off",
      "aria-describedby": "m-judge" });
    const text = (className = "") => make("p", { className });
    Object.assign(this, { squares: make("div"), number: text("m-no"), at: text("m-at"),
      where: text("quiet"), onLane: text("quiet"), gross: input("m-gross"),
      empty: input("m-empty"), judged: make("p", { id: "m-judge", role: "status" }),
      far: make("div", { className: "m-far", role: "alert" }), said: makeSaid(),
      figures: make("dl", { className: "lines" }), last: make("ol", { className: "m-last" }) });
    this.form = this.makeForm();
    this.leave = make("a", { className: "button second m-leave",
      href: `#desk/${this.task.sheet.batch}` }, say("mLeave"), make("kbd", {}, "Esc"));
    const head = make("div", { className: "m-head" }, make("div", {},
      make("p", { className: "label" }, say("pack")), this.number), this.at);
    this.place = make("section", { className: "measuring", "aria-label": say("act.measure") },
      make("div", { className: "panel" }, this.squares, head, this.where, this.onLane, this.form,
        this.said),
      make("div", {}, make("section", { className: "panel" }, make("h2", {}, say("mSoFar")),
        this.figures), make("section", { className: "panel" }, make("h2", {}, say("mLast")),
        this.last), this.leave));
  }

  makeForm() {
    const isDestroy = this.task.mode === "destroy";
    const form = make("form", { id: "measuring", noValidate: true },
      make("div", { className: "m-line" },
        make("div", {}, make("label", { for: "m-gross" }, say("mGross")), this.gross),
        isDestroy ? make("div", {}, make("label", { for: "m-empty" }, say("mEmpty")), this.empty)
          : null,
        make("button", {}, say("mRecord"), make("kbd", {}, "Enter"))),
      this.judged, this.far);
    form.addEventListener("submit", (event) => {
      event.preventDefault();
      office.following(() => this.record());
    });
    form.addEventListener("input", () => this.judge());
    return form;
  }

  // The next pack that isn't known to be measured.
  get next() {
    const { turn, known, passed, numbers } = this.task;
    if (partOf(this.task).measured === numbers.length) return undefined;
    return turn.find((number) => !known.has(number) && !passed.has(number));
  }

  async show() {
    const { next, task } = this;
    this.putSample();
    this.form.hidden = next === undefined;
    const all = task.numbers.length;
    if (next === undefined) {
      put(this.number, "✓");
      put(this.at, say("mDone", { all }));
      for (const place of [this.where, this.onLane]) put(place, "");
      this.leave.focus();
      return;
    }
    this.pack = await packAt(next);
    put(this.number, count(next));
    put(this.at, say("mPlace", { at: task.numbers.indexOf(next) + 1, all }));
    this.putWhere();
    put(this.onLane, say("mOnLane", { gross: grams(this.pack.gross) }));
    this.gross.value = this.empty.value = "";
    this.judge();
    this.gross.focus();
  }

  putWhere() {
    const { task, pack } = this;
    if (!pack || this.form.hidden) return;
    const isForMean = !task.isSecond && task.numbers.indexOf(pack.number) < task.plan.means;
    put(this.where, whereWords(task, pack) + (isForMean ? ` · ${say("mForMean")}` : ""));
  }

  // How the sample is doing.
  putSample() {
    const { task } = this;
    this.squares.replaceChildren(squares(task, this.next));
    this.figures.replaceChildren(...figuresOf(task).map(([name, value, more]) => make("div", {},
      make("dt", {}, name), make("dd", {}, value),
      more ? make("dd", { className: "m-more" }, more) : null)));
    const shown = task.numbers.filter((number) => contentsOf(task, number) !== null).slice(-LAST);
    this.last.replaceChildren(...shown.reverse().map((number) => {
      const contents = contentsOf(task, number);
      const isLight = contents < task.limits.t1;
      return make("li", {}, make("span", {}, count(number)),
        make("span", {}, `${grams(task.known.get(number)[0])} g`),
        tag(isLight ? "alarm" : "calm", isLight ? "reject" : "pass", grams(contents, 1)));
    }));
  }

  // Others may measure the same sample: what is typed stays, as long as a pack is left.
  async renew() {
    if (this.isBusy) return;
    await this.askSheet();
    if (this.next === undefined && !this.form.hidden) await this.show();
    else this.putSample();
  }

  async askSheet() {
    const sheet = await office.sheet(this.task.sheet.batch);
    if (!sheet.refused) this.task.sheet = sheet;
  }

  typed() {
    const whole = read(gross, this.gross.value);
    if (this.task.mode !== "destroy") return whole === null ? null : [whole, 0];
    const left = read(empty, this.empty.value);
    return whole === null || left === null ? null : [whole, left];
  }

  judge() {
    this.agreed = "";
    this.far.replaceChildren();
    this.gross.removeAttribute("aria-invalid");
    const typed = this.typed();
    this.judged.className = "m-judge";
    if (!typed) return void put(this.judged, say("mType"));
    const { limits: { t1 } } = this.task;
    const contents = contentsOf(this.task, this.pack.number, typed);
    const isLight = defectsOf([contents], t1) === 1;
    this.judged.className = `m-judge ${isLight ? "bad" : "good"}`;
    this.judged.replaceChildren(icon(isLight ? "reject" : "pass"), make("span", {},
      `${say("mContents", { net: grams(contents) })} · `
      + say(isLight ? "mLight" : "mGood", { limit: grams(t1) })));
  }

  async record() {
    const typed = this.typed();
    if (this.isBusy || this.form.hidden) return;
    if (!typed) {
      this.gross.setAttribute("aria-invalid", "true");
      this.judged.className = "m-judge bad";
      put(this.judged, fault(gross));
      return;
    }
    if (!isReady(this.said)) return;
    if (isFarOff(typed[0], this.pack.gross) && this.agreed !== typed.join()) {
      this.agreed = typed.join();
      this.far.replaceChildren(notice("warn", "warn", farOff(typed[0], this.pack.gross),
        make("p", {}, say("mFarText"))));
      return;
    }
    this.isBusy = this.gross.readOnly = true;
    await this.send(typed).finally(() => { this.isBusy = this.gross.readOnly = false; });
  }

  async send([whole, left]) {
    const { task, pack: { number } } = this;
    const act = { act: "measure", pack: number, gross: whole };
    if (task.mode === "destroy") act.empty = left;
    const { found } = await sendAct(this.said, act);
    const isKept = found.refused === MEASURED_ALREADY;
    if (!found.done && !isKept) return;
    const weights = isKept ? read(gross, String(found.kept)) : whole;
    if (isKept && task.mode === "destroy") task.passed.add(number);
    else keepMeasured(task.sheet.batch, number, weights, isKept ? 0 : left);
    task.known = measuredOf(task.sheet.batch);
    task.passed.add(number);
    await this.askSheet();
    await this.show();
  }
}

// ---- the page

const page = { about: "", mode: null, rows: 0, opening: null, isOpen: false };

export async function build(section) {
  await loadStyles("parts.css", "forms.css", "measuring.css");
  Object.assign(page, { batch: make("h1"), goods: make("p", { className: "quiet" }),
    place: make("div") });
  section.append(make("div", { className: "title" }, make("div", {}, page.batch, page.goods),
    deskChoice("my-desk")), pendingLine(), page.place);
  document.addEventListener("keydown", ({ key }) => {
    if (key === "Escape" && section.isConnected) page.place.querySelector(".m-leave")?.click();
  });
}

// Measures the sample of a batch; where none waits, it says so.
async function open(batch) {
  const sheet = await office.sheet(batch);
  put(page.goods, sheet.refused ? ""
    : `${sheet.product} · ${nominalOf(sheet)} · ${word(sheet.state)}`);
  if (!sheet.first || sheet.verdict) {
    page.place.replaceChildren(notice("", "idle", say("mNothing"), make("p", {},
      make("a", { className: "button second m-leave", href: `#desk/${batch}` }, say("desk")))));
    return;
  }
  const mode = new Measuring(await taskOf(sheet));
  if (page.about !== batch) return;
  page.place.replaceChildren(mode.place);
  page.mode = mode;
  await mode.show();
  const isWanted = () => mode.place.isConnected;
  for (const read of [readOrder, readHours]) {
    office.following(() => read(mode.task, isWanted)).then(() => mode.putWhere());
  }
}

export async function show(batch) {
  Object.assign(page, { about: batch, mode: null, isOpen: false });
  put(page.batch, batch);
  page.place.replaceChildren();
  page.opening = open(batch);
  await page.opening.finally(() => { page.opening = null; });
  page.isOpen = true;
}

export async function refresh() {
  if (page.opening) return;
  // no answer came as it was opened
  if (!page.isOpen) return void await show(page.about);
  const { rows } = await office.summary();
  if (rows !== page.rows) await page.mode?.renew();
  page.rows = rows;
}
