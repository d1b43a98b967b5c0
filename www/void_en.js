// What the void of a pack asks and says, in English.

export default {
  voidTitle: "Void pack {pack}?",
  voidHint: "{net} g, passed. It then no longer counts, and stays in the book as voided. Why?",
  voidKept: "The book has the void; the reason is kept by the archive, with your name.",
  torn: "The bag is torn",
  twice: "It was weighed twice",
  label: "Wrong label or date",
  other: "Another reason",
  doVoid: "Void the pack",
  back: "Back",
  underWay: "Under way ..",
};
