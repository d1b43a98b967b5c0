// Every page's texts in English and in German. A page adds its own; those of words_en.js and
// words_de.js are shared.

import { keepText, readText } from "./store.js";

const KEPT = "hall.lang";

const wish = () => readText(KEPT) ?? navigator.language;
export const LANGUAGE = wish().toLowerCase().startsWith("de") ? 1 : 0;
export const CODE = ["en", "de"][LANGUAGE];

// The shared texts, in the language of the page.
const WORDS = { ...(await import(`./words_${CODE}.js`)).default };

// More texts: in both languages, or in that of the page alone. A key has one text on all pages.
export function addWords(more) {
  const isOther = (key) => Object.hasOwn(WORDS, key) && textOf(WORDS[key]) !== textOf(more[key]);
  const twice = Object.keys(more).filter(isOther);
  if (twice.length) console.error(`other texts have these keys: ${twice}`);
  Object.assign(WORDS, more);
}

export function fill(text, values) {
  return text.replace(/\{(\w+)\}/g, (_, name) => values[name] ?? "");
}

const textOf = (found) => (Array.isArray(found) ? found[LANGUAGE] : found);
const wordsOf = (key) => (Object.hasOwn(WORDS, key) ? textOf(WORDS[key]) : null);

export function say(key, values = {}) {
  return fill(wordsOf(key) ?? key, values);
}

// A word of the book, or several, in the language of the page.
export function word(text) {
  return wordsOf(text) ?? text.split(" ").map((part) => wordsOf(part) ?? part).join(" ");
}

export function changeLanguage() {
  keepText(KEPT, LANGUAGE ? "en" : "de");
  location.reload();
}

export function time(moment, isShort = false) {
  const form = isShort ? { hour: "2-digit", minute: "2-digit" } : undefined;
  return new Date(moment).toLocaleTimeString(LANGUAGE ? "de" : "en-GB", form);
}
