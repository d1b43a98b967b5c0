// A call for help from a lane, where the archive of the hall is there: it keeps who called and
// when, and the board shows the call until somebody has come.

import { addWords, say } from "./words.js";
import { icon, put } from "./page.js";
import { askArchive } from "./archived.js";
import { reach } from "./office.js";

addWords({
  callHelp: ["Call for help", "Hilfe rufen"],
  helpCame: ["Help has come", "Hilfe ist da"],
  helpCalled: ["Help is called: it stands on the board.",
    "Hilfe ist gerufen: es steht auf der Tafel."],
  helpNoDesk: ["Only who has a desk may call from here. Whoever runs the hall gives one.",
    "Rufen darf hier nur, wer einen Platz hat. Den gibt, wer die Halle betreibt."],
  helpLost: ["The call wasn't kept: the archive doesn't answer.",
    "Der Ruf ist nicht festgehalten: das Archiv antwortet nicht."],
});

const CREATED = 201;
// How often it is asked whether this lane still calls, in milliseconds.
const EVERY = 5_000;

// Says that a lane calls, or calls no more. Gives back the name of a text where that failed.
async function tell(lane, isOpen) {
  const headers = { "Content-Type": "application/json" };
  const body = JSON.stringify({ open: Number(isOpen), reason: "lane" });
  const path = `archive/evidence/call/${lane}`;
  const answer = await reach(path, { method: "POST", headers, body }).catch(() => null);
  if (answer?.status === CREATED) return "";
  return answer?.status === 403 ? "helpNoDesk" : "helpLost";
}

// The button of a lane, which is hidden where no archive answers.
export class HelpButton {
  constructor(button, said) {
    Object.assign(this, { button, said, lane: 0, at: -Infinity, isOpen: false });
    button.addEventListener("click", () => this.press());
  }

  // Asks now and then whether the lane calls.
  async refresh(lane) {
    if (lane === this.lane && Date.now() - this.at < EVERY) return;
    Object.assign(this, { lane, at: Date.now() });
    const told = await askArchive("alarms");
    this.button.hidden = !told;
    if (!told) return;
    const isIts = ({ kind, subject }) => kind === "call" && subject === String(lane);
    this.show(told.evidence.some(isIts));
  }

  show(isOpen) {
    const text = say(isOpen ? "helpCame" : "callHelp");
    if (this.button.textContent === text) return;
    this.isOpen = isOpen;
    this.button.className = `st-help ${isOpen ? "calls" : "second"}`;
    this.button.replaceChildren(icon(isOpen ? "pass" : "warn"), text);
  }

  async press() {
    if (this.isBusy) return;
    this.isBusy = true;
    const isOpen = !this.isOpen;
    const fault = await tell(this.lane, isOpen);
    this.isBusy = false;
    if (!fault) this.show(isOpen);
    put(this.said, fault ? say(fault) : isOpen ? say("helpCalled") : "");
  }
}
