// The words and figures of reports, in both languages.

import { addWords, say } from "./words.js";
import { count, fixed, grams } from "./numbers.js";
import { make } from "./page.js";
import { settings } from "./settings.js";

addWords({
  "by.shift": ["Shift", "Schicht"],
  "by.day": ["Day", "Tag"],
  "by.week": ["Week", "Woche"],
  "by.month": ["Month", "Monat"],
  "by.product": ["Product", "Ware"],
  "by.lane": ["Lane", "Linie"],
  "by.hall": ["Hall", "Halle"],
  "by.book": ["Book", "Buch"],
  total: ["Total", "Gesamt"],
  "hour unknown": ["hour unknown", "Stunde unbekannt"],
  fromRows: ["From rows", "Aus Zeilen"],
  ofPacks: ["{share} of the packs", "{share} der Packungen"],
  dayOf: ["Day", "Tag"],
  bookOf: ["Book", "Buch"],
  verdict: ["Verdict", "Urteil"],
  actOf: ["Act", "Vorgang"],
  person: ["Person", "Person"],
  howMany: ["How many", "Wie viele"],
  "f.packed": ["Packed", "Gepackt"],
  "f.packs": ["{count} packs", "{count} Packungen"],
  "f.readings": ["Weighed", "Gewogen"],
  "f.rejected": ["Rejected", "Ausgeschleust"],
  "f.voided": ["Voided", "Gestrichen"],
  "f.population": ["Count", "Zählen"],
  "f.mean": ["Mean, g", "Mittel, g"],
  "f.deviation": ["s, g", "s, g"],
  "f.each": ["Given away a pack, g", "Verschenkt je Packung, g"],
  "f.share": ["Given away, %", "Verschenkt, %"],
  "f.over": ["Given away", "Verschenkt"],
  "f.money": ["In money", "In Geld"],
  "f.noPrice": ["not every product has a price", "nicht jede Ware hat einen Preis"],
  "f.nonstandard": ["Non-standard", "Untermaß"],
  "f.closed": ["Batches", "Chargen"],
  "f.verdicts": ["{released} released, {withheld} withheld",
    "{released} freigegeben, {withheld} zurückgehalten"],
  "f.rate": ["Packs a minute of a lane", "Packungen je Minute und Linie"],
  "f.stops": ["Stops", "Stillstände"],
  "f.stood": ["{minutes} min in all", "{minutes} min insgesamt"],
  "f.released": ["Released", "Freigegeben"],
  "f.withheld": ["Withheld", "Zurückgehalten"],
  "f.refused": ["Refused acts", "Abgelehnte Vorgänge"],
  "f.mean_over": ["Average over nominal, g", "Mittel über Nennmenge, g"],
  "f.told_allowance": ["light, and one in forty used up", "zu leicht, 1 von 40 verbraucht"],
  "f.told_inadequate": ["inadequate, below T2", "unzulässig, unter T2"],
  "f.told_held": ["its batch was held", "ihre Charge war gesperrt"],
  "f.told_full": ["its batch was full", "ihre Charge war voll"],
  "f.stayed": ["passed, but the gate stayed shut", "gut, aber das Tor blieb zu"],
});

const thousandths = (places) => (value) => grams(value, places);

// The figures of a line, and how each is written.
export const FIGURES = [
  ["readings", count], ["rejected", count], ["voided", count], ["population", count],
  ["mean", thousandths(3)], ["deviation", thousandths(3)], ["each", thousandths(2)],
  ["share", (value) => fixed(value, 2)], ["money", null], ["nonstandard", count],
  ["rate", (value) => fixed(value, 1)], ["stops", count], ["released", count],
  ["withheld", count], ["refused", count],
];

// Money, where each product has a price.
export const moneyOf = (line, currency = settings.currency) => (!line || line.money === null
  ? "–" : `${fixed(Number(line.money), 2)} ${currency}`);

// From which rows a figure is.
export const rowsOf = (rows, halls) => rows.map((one) => `${halls.length > 1 ? `${one.hall} ` : ""}`
  + `${one.book} ${count(one.first)}–${count(one.last)}`).join(", ");

// A batch of any book: its page and its sheet as they were.
export function batchLink({ hall, book, batch }, halls = []) {
  const name = halls.length > 1 ? `${hall}~${book}` : book;
  const link = (page, text) => make("a", { href: `#${page}/${batch}/${name}` }, text);
  return make("span", {}, link("batch", batch), " ",
    make("small", {}, link("sheet", say("sheet"))));
}
