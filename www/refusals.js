// Each refusal of the book as a sentence with what to do.

import { CODE, fill, word } from "./words.js";

// By number from 1, in the language of the page: the name in the book, and what to do.
const { default: REFUSALS } = await import(`./refusals_${CODE}.js`);

export function refusal(number, kept) {
  const [name, sentence] = REFUSALS[number - 1] ?? [String(number), "{kept}"];
  return `${fill(sentence, { kept: word(String(kept ?? "")) })} (${number} ${name})`;
}
