// What the archive adds to a sheet: the newest evidence on the goods and the scales, who did what
// with the batch, and when, the tares of its goods as they were set, and the fingerprint of the
// book at its closing.

import { CODE, addWords, say } from "./words.js";
import { actsOf, askArchive } from "./archived.js";
import { count, day as spellDate, grams } from "./numbers.js";
import { make } from "./page.js";
import { readMass } from "./grams.js";
import { spellDay } from "./evidencekinds.js";

addWords((await import(`./sheetproofs_${CODE}.js`)).default);

const isOf = ({ product }) => ({ kind, subject }) => kind === "scale"
  || (kind !== "call" && subject === product);

const line = (name, value) => make("div", {}, make("dt", {}, name), make("dd", {}, value));

const proofLine = ({ kind, subject, moment, person, body }) =>
  line(`${say(`kind.${kind}`)}, ${subject}`,
    `${say(`result.${body.result}`)}, ${spellDay(moment)}, ${person}`);

const personOf = ({ person }) => person ?? say("nobodyKnown");
const hourOf = ({ high }) => (high ? spellDay(high) : "–");

// An act with its hour, its person and, where there is one, its reason.
function actLine(act) {
  const why = act.reason ? `: ${act.reason}` : "";
  return line(say(`did.${act.kind}`), `${hourOf(act)}, ${personOf(act)}${why}`);
}

// What was measured, by person: so many packs, from when to when.
function measuredLines(acts) {
  return [...Map.groupBy(acts, personOf)].map(([person, own]) =>
    line(say("didMeasure", { count: own.length }),
      `${hourOf(own[0])} – ${hourOf(own.at(-1))}, ${person}`));
}

function actLines(acts) {
  const own = acts.filter(({ kind }) => ["open", "end", "draw", "second", "void"].includes(kind));
  const of = (kind) => acts.filter((act) => act.kind === kind);
  return [...own.map(actLine), ...measuredLines(of("measure")), ...of("close").map(actLine)];
}

// The tares of a product that a book was given up to its last row that is shown, oldest first; of
// many the newest.
const MOST_TARES = 8;
async function taresSet({ product, rows }, book) {
  const all = [];
  for (let page = null; page?.length !== 0; all.push(...page)) {
    const words = { book, product, kind: "tare", after: all.at(-1)?.row ?? 0 };
    page = await askArchive(`acts?${new URLSearchParams(words)}`) ?? [];
  }
  return all.filter(({ row }) => row <= rows).slice(-MOST_TARES);
}

// A tare by the words of its act, which end with the day and the grams.
function tareLine(act) {
  const [day, tare] = act.line.split(" ").slice(-2);
  const why = act.reason ? `: ${act.reason}` : "";
  return line(say("tareSet", { day: spellDate(day), tare: grams(readMass(tare)) }),
    `${hourOf(act)}, ${personOf(act)}${why}`);
}

// The fingerprint of the rows up to the closing, as the witness has it; nothing as long as it
// hasn't.
async function fingerprintOf(acts) {
  const closing = acts.find(({ kind }) => kind === "close");
  const line = closing
    && await askArchive(`witness/${encodeURIComponent(closing.book)}/${closing.row}`);
  if (!line) return [];
  return [make("div", { className: "sh-print" },
    make("h3", {}, say("fingerprintOf", { ...line, book: closing.book, rows: count(line.rows) })),
    make("p", { className: "mono" }, line.audit.match(/.{8}/g).join(" ")),
    make("p", { className: "sh-note" }, say("fingerprintHow", { ...line, book: closing.book })))];
}

const part = (name, lines, none) => make("div", {}, make("h3", {}, say(name)), lines.length
  ? make("dl", { className: "lines" }, lines) : make("p", { className: "sh-note" }, say(none)));

// All of it for a batch whose packs begin at a row, beside the newest evidence of each.
export async function proofsOf(sheet, newest, firstPack) {
  const acts = await actsOf(sheet, firstPack);
  const tares = acts.length ? await taresSet(sheet, acts[0].book) : [];
  return make("section", { className: "sh-evidence" },
    part("proofs", newest.filter(isOf(sheet)).map(proofLine), "noProofs"),
    part("whoWhen", actLines(acts), "noActs"),
    tares.length ? part("taresSet", tares.map(tareLine)) : [], await fingerprintOf(acts));
}
