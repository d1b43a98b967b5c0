// What the archive adds to a sheet, in German.

export default {
  proofs: "Nachweise, der neueste von jedem",
  noProofs: "Das Archiv hat keine Nachweise zu dieser Ware oder ihren Waagen.",
  whoWhen: "Wer und wann",
  noActs: "Das Archiv hat zu dieser Charge keine Handlungen.",
  nobodyKnown: "nicht bekannt",
  "did.open": "eröffnet",
  "did.end": "beendet",
  "did.draw": "Probe gezogen",
  "did.second": "zweite Probe gezogen",
  "did.void": "Packung gestrichen",
  "did.close": "abgeschlossen",
  fingerprintOf: "Fingerabdruck der Zeilen 1 bis {rows} des Buchs {book}",
  fingerprintHow:
    "Genommen {utc}. hall audit --book {book}.book --rows {rows} muss dasselbe sagen.",
  taresSet: "Taren der Ware, wie sie gesetzt wurden",
  tareSet: "ab {day}: {tare} g",
  didMeasure: "{count} Packungen nachgewogen",
};
