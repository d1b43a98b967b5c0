// What a page says that acts as a desk, and what became of an act, in English.

export default {
  myDesk: "My desk",
  choose: "choose",
  chooseDesk: "Choose your desk first.",
  otherPage: "Another page of this browser has this desk. Go on there, or close it.",
  lostActs:
    "This browser kept acts of desk {desk} that can't be read. Whether they were done isn't "
    + "known: look at the batches, and do again what is missing.",
  lostText: "Kept was: {text}",
  looked: "I have looked",
  noRoom: "This browser keeps nothing for the page, or the link isn't https: acts can't be sent.",
  // what became of an act
  done: "Done: row {row}.",
  doubt: "Another page works at this desk, at request {kept}. Whether this act was done isn't "
    + "known: look at the batch, and do it again only if it is missing.",
  notYours: "This desk isn't yours: choose your own, or ask whoever runs the hall.",
  broken: "The office didn't take this as an act ({word}). Nothing was done. Load the page anew.",
  verdict: "Verdict",
  refusedBy: "The book refused this act ({number}). Load the page anew to read why.",
};
