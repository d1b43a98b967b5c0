// Which desk this page acts as: chosen once, kept for the tab and the browser, and held by one page
// of a browser at a time.

import { CODE, addWords, say } from "./words.js";
import { canKeep, isMine, onChange, take } from "./requests.js";
import { forgetLost, lost, pending } from "./kept.js";
import { keepText, readText } from "./store.js";
import { make, put } from "./page.js";
import { notice } from "./parts.js";

addWords((await import(`./mydesk_${CODE}.js`)).default);

const DESKS = [101, 164];
const KEPT = "hall.desk";
const listeners = new Set();
const state = { desk: 0, waits: false, chosen: false };

export const myDesk = () => state.desk;
export const onDesk = (listener) => listeners.add(listener);

function changed() {
  for (const listener of listeners) listener();
}

function choose(desk) {
  Object.assign(state, { desk, waits: false, chosen: true });
  const waits = (is) => () => {
    state.waits = is;
    changed();
  };
  changed();
  if (desk && canKeep()) take(desk, waits(true), waits(false));
}

function keptDesk() {
  const kept = Number(readText(KEPT, sessionStorage) ?? readText(KEPT) ?? 0);
  return kept >= DESKS[0] && kept <= DESKS[1] ? kept : 0;
}

// Why this page can't act now: the name of a text, or nothing.
export function lacks() {
  if (!canKeep()) return "noRoom";
  if (!state.desk) return "chooseDesk";
  return isMine(state.desk) ? "" : "otherPage";
}

// Says which acts of the desk this browser kept and can't read, until a person has looked.
function putLost(place) {
  const { desk } = state;
  // reading them sets aside what can't be read
  if (desk) pending(desk);
  const texts = desk ? lost(desk) : [];
  const now = `${desk} ${texts.join()}`;
  if (place.dataset.shown === now) return;
  place.dataset.shown = now;
  place.replaceChildren();
  if (texts.length === 0) return;
  const button = make("button", { type: "button", className: "second" }, say("looked"));
  button.addEventListener("click", () => {
    forgetLost(desk);
    changed();
  });
  place.append(notice("alarm", "warn", say("lostActs", { desk }),
    texts.map((text) => make("p", { className: "mono" }, say("lostText", { text }))), button));
}

// A choice of the desk, under an id of its own.
export function deskChoice(id) {
  const numbers = Array.from({ length: DESKS[1] - DESKS[0] + 1 }, (_, at) => DESKS[0] + at);
  const choice = make("select", { id }, make("option", { value: 0 }, say("choose")),
    numbers.map((number) => make("option", { value: number }, String(number))));
  const other = make("strong", { className: "bad-word", role: "status" });
  choice.addEventListener("change", () => {
    keepText(KEPT, choice.value, sessionStorage);
    keepText(KEPT, choice.value);
    choose(Number(choice.value));
  });
  if (!state.chosen) choose(keptDesk());
  const unread = make("div", { className: "unread", role: "status" });
  const show = () => {
    choice.value = String(state.desk);
    put(other, state.waits ? say("otherPage") : "");
    putLost(unread);
  };
  onDesk(show);
  onChange(show);
  show();
  return make("div", { className: "desk-choice" }, make("label", { for: id }, say("myDesk")),
    choice, other, unread);
}
