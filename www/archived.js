// What the archive of the hall has beside the book: hours, who did what and why, calls for help.
// Where no archive answers there is nothing, and nobody waits for it.

import { reach } from "./office.js";

// The answer to a question; nothing where no archive gives one.
export async function askArchive(path) {
  const answer = await reach(`archive/${path}`).catch(() => null);
  return answer?.status === 200 ? JSON.parse(answer.text) : null;
}

// The acts on a batch, in the book that this hall has. A batch of the same name in another book was
// opened after the first pack of this one, or has rows that this book hasn't; where that doesn't
// tell them apart there are none.
export async function actsOf({ batch, rows }, firstPack) {
  const all = await askArchive(`acts?batch=${encodeURIComponent(batch)}`) ?? [];
  const isIts = (acts) => acts[0].row < firstPack && acts.at(-1).row <= rows;
  const found = [...Map.groupBy(all, ({ book }) => book).values()].filter(isIts);
  return found.length === 1 ? found[0] : [];
}

// The hour of a row of a book, in ms of UTC; nothing where it isn't known.
export async function hourOf(book, row) {
  const story = await askArchive(`packs/${encodeURIComponent(book)}/${row}`);
  return story?.hour?.high ?? null;
}
