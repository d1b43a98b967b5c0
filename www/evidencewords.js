// The words of the page of evidence, in both languages.

import { addWords } from "./words.js";
import { grams as spell } from "./numbers.js";

addWords({
  "head.kind": ["What", "Was"],
  "head.subject": ["Of", "Von"],
  "head.when": ["When", "Wann"],
  "head.who": ["Who", "Wer"],
  "head.result": ["Is", "Ist"],
  "result.old": ["too old: do it again", "zu alt: neu machen"],
  soFar: ["{many} so far: mean {mean} g, s {spread} g",
    "{many} bisher: Mittel {mean} g, s {spread} g"],
  soFarBad: ["Line {line} is no weight.", "Zeile {line} ist kein Gewicht."],
  "enter.subject": ["of what", "wovon"],
  "enter.pairs": ["Weight and what was shown, g, one pair a line",
    "Gewicht und Anzeige, g, ein Paar je Zeile"],
  "enter.limit": ["Greatest error, g", "Größter Fehler, g"],
  "enter.nominal": ["Nominal quantity, g or ml", "Nennmenge, g oder ml"],
  "enter.empties": ["10 or 25 empties, g, one a line", "10 oder 25 leere, g, eine je Zeile"],
  "enter.method": ["Method", "Verfahren"],
  "enter.temperature": ["Temperature, °C", "Temperatur, °C"],
  "enter.readings": ["In air, g a litre, one a line", "In Luft, g je Liter, eine je Zeile"],
  "enter.parts": ["Each error with its name, g, one a line: scale 0.5",
    "Jeder Fehler mit Namen, g, einer je Zeile: Waage 0,5"],
  "told.scale": ["Each within {limit} g is wanted.", "Jede soll innerhalb von {limit} g liegen."],
  "told.tare": ["Mean {mean} g, s {spread} g; over a tenth of the quantity s may be {limit} g.",
    "Mittel {mean} g, s {spread} g; über einem Zehntel der Menge darf s {limit} g sein."],
  "told.density": ["{density} g a litre in air; it counts at 20 °C.",
    "{density} g je Liter in Luft; sie zählt bei 20 °C."],
  "told.uncertainty": ["{used} g of {limit} g, a fifth of the tolerable error.",
    "{used} g von {limit} g, einem Fünftel des zulässigen Fehlers."],
  enterTare: ["Enter {tare} g as the tare from today on", "{tare} g als Tara ab heute eintragen"],
  notKept: ["It wasn't kept: {why}", "Es wurde nicht festgehalten: {why}"],
  noArchive: ["The archive doesn't answer: nothing was kept.",
    "Das Archiv antwortet nicht: nichts wurde festgehalten."],
});

export const grams = (thousandths) => (thousandths === undefined ? "" : spell(thousandths));
