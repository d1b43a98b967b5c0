// The void of the last pack of a lane: a dialog that asks for a reason, and sends the act. The book
// keeps that the pack is voided; the reason goes with the act, and the archive keeps it with the
// person.

import { CODE, addWords, say } from "./words.js";
import { count, grams } from "./numbers.js";
import { deskChoice, lacks, myDesk, onDesk } from "./mydesk.js";
import { give, outcome } from "./requests.js";
import { loadStyles, make, put } from "./page.js";
import { outcomeWords } from "./outcomes.js";

addWords((await import(`./void_${CODE}.js`)).default);

const REASONS = ["torn", "twice", "label", "other"];

function reasonChoice(chosen) {
  return make("div", { className: "picks", role: "radiogroup", "aria-labelledby": "void-title" },
    REASONS.map((reason) => {
      const input = make("input", { type: "radio", name: "reason", value: reason });
      input.addEventListener("change", () => chosen(reason));
      return make("label", {}, input, make("strong", {}, say(reason)));
    }));
}

// Opens the dialog about a pack.
export async function open(dialog, pack) {
  await loadStyles("forms.css", "dialog.css");
  const said = make("p", { className: "said", role: "status" });
  const go = make("button", { type: "button", disabled: true }, say("doVoid"));
  const back = make("button", { type: "button", className: "second" }, say("back"));
  let reason = "";
  const isReady = () => {
    go.disabled = !reason || Boolean(lacks());
    put(said, reason && lacks() ? say(lacks()) : "");
  };
  onDesk(isReady);
  back.addEventListener("click", () => dialog.close());
  go.addEventListener("click", async () => {
    go.disabled = true;
    put(said, say("underWay"));
    const mark = give(myDesk(), { act: "void", pack: pack.number, reason });
    const entry = await outcome(myDesk(), mark);
    said.className = `said ${entry.found.done ? "done" : "refused"}`;
    put(said, await outcomeWords(entry));
    put(back, say("back"));
    back.focus();
  });
  dialog.replaceChildren(make("h2", { id: "void-title" },
    say("voidTitle", { pack: count(pack.number) })),
  make("p", { className: "quiet" }, say("voidHint", { net: grams(pack.net, 1) })),
  reasonChoice((chosen) => {
    reason = chosen;
    isReady();
  }), deskChoice("void-desk"), make("p", { className: "quiet" }, say("voidKept")), said,
  make("div", { className: "ends" }, back, go));
  dialog.setAttribute("aria-labelledby", "void-title");
  dialog.showModal();
}
