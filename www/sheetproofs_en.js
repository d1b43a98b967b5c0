// What the archive adds to a sheet, in English.

export default {
  proofs: "Evidence, the newest of each",
  noProofs: "The archive has no evidence on this product or its scales.",
  whoWhen: "Who and when",
  noActs: "The archive has no acts on this batch.",
  nobodyKnown: "not known",
  "did.open": "opened",
  "did.end": "ended",
  "did.draw": "sample drawn",
  "did.second": "second sample drawn",
  "did.void": "pack voided",
  "did.close": "closed",
  fingerprintOf: "Fingerprint of rows 1 to {rows} of book {book}",
  fingerprintHow: "Taken {utc}. hall audit --book {book}.book --rows {rows} has to say the same.",
  taresSet: "Tares of the product as they were set",
  tareSet: "from {day} on: {tare} g",
  didMeasure: "{count} packs measured",
};
