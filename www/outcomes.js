// What became of an act, as a sentence. The sentences of refusals are loaded when one is shown;
// the other words are those of all who act as a desk.

import "./mydesk.js";
import { say, word } from "./words.js";

async function refusalWords(number, kept) {
  const refusals = await import("./refusals.js").catch(() => null);
  return refusals ? refusals.refusal(number, kept) : say("refusedBy", { number });
}

export async function outcomeWords({ found }) {
  if (found.done) {
    const { row, verdict } = found.done;
    return say("done", { row }) + (verdict ? ` ${say("verdict")}: ${word(verdict)}` : "");
  }
  if (found.refused) return refusalWords(found.refused, found.kept);
  if (found.doubt) return say("doubt", { kept: found.doubt });
  return found.foreign ? say("notYours") : say("broken", { word: found.broken });
}
