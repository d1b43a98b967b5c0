// A page that needs the archive of the hall. As long as none answers it says so, and what to do
// instead; it looks again now and then, and comes as soon as one does.

import { addWords, say } from "./words.js";
import { Missing, reach, summary } from "./office.js";
import { loadStyles, make } from "./page.js";
import { notice } from "./parts.js";

addWords({
  needsArchive: ["This page needs the archive of the hall, and none answers.",
    "Diese Seite braucht das Archiv der Halle, und keines antwortet."],
  archiveSoon: ["Where one is set up, the page comes as soon as it answers. Without one:",
    "Ist eines eingerichtet, kommt die Seite, sobald es antwortet. Ohne Archiv:"],
  "instead reports": [
    "A report of one book: hall report --book BOOK, or the register by hall export.",
    "Ein Bericht eines Buchs: hall report --book BUCH, oder das Register mit hall export."],
  "instead evidence": ["Keep the papers of tares and scales as before; the book has the tares.",
    "Die Zettel zu Taren und Waagen wie bisher aufheben; die Taren stehen im Buch."],
  "instead search": ["A batch of this book stands under Batch and Sheet, by its name.",
    "Eine Charge dieses Buchs steht unter Charge und Blatt, mit ihrem Namen."],
});

// How often it is looked for an archive, in milliseconds.
const EVERY = 5_000;

// The page `name`, which `draw` draws into its section of what the archive answers at `path`.
export function archivePage(name, path, draw) {
  let place = null;
  let isDrawn = false;
  let at = 0;

  const instead = () => place.replaceChildren(make("h1", {}, say(name)), notice("", "dot",
    say("needsArchive"), make("p", {}, `${say("archiveSoon")} ${say(`instead ${name}`)}`)));

  async function tryIt() {
    at = Date.now();
    const answer = await reach(`archive/${path}`).catch(() => null);
    if (answer?.status !== 200) return void (place.firstChild || instead());
    place.replaceChildren();
    try {
      await draw(place, JSON.parse(answer.text));
      isDrawn = true;
    } catch (fault) {
      if (!(fault instanceof Missing)) throw fault;
      instead();
    }
  }

  return {
    async build(section) {
      place = section;
      await loadStyles("parts.css");
      await tryIt();
    },
    async refresh() {
      await summary();
      if (!isDrawn && Date.now() - at > EVERY) await tryIt();
    },
  };
}
