// What the void of a pack asks and says, in German.

export default {
  voidTitle: "Packung {pack} streichen?",
  voidHint: "{net} g, durchgelassen. Sie zählt dann nicht mehr und bleibt als gestrichen im Buch. "
    + "Warum?",
  voidKept: "Das Buch hat die Streichung; den Grund hält das Archiv fest, mit Ihrem Namen.",
  torn: "Der Beutel ist gerissen",
  twice: "Sie wurde doppelt gewogen",
  label: "Falsches Etikett oder Datum",
  other: "Ein anderer Grund",
  doVoid: "Packung streichen",
  back: "Zurück",
  underWay: "Unterwegs ..",
};
