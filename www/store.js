// What this browser keeps, read without trust: a text that isn't what was written, by another
// program or an older page, counts as nothing.

// The value that is kept under a key; `otherwise` where there is none of its kind.
export function readKept(key, otherwise, store = localStorage) {
  try {
    const value = JSON.parse(store.getItem(key) ?? "null");
    return isLike(value, otherwise) ? value : otherwise;
  } catch {
    return otherwise;
  }
}

function isLike(value, otherwise) {
  if (value === null || Array.isArray(value) !== Array.isArray(otherwise)) return false;
  return typeof value === typeof otherwise;
}

// Keeps a value. Says whether there was room for it.
export function keep(key, value, store = localStorage) {
  try {
    store.setItem(key, JSON.stringify(value));
    return true;
  } catch {
    return false;
  }
}

// A plain text, as a wish for a language; nothing where the store can't be read.
export function readText(key, store = localStorage) {
  try {
    return store.getItem(key);
  } catch {
    return null;
  }
}

export function keepText(key, text, store = localStorage) {
  try {
    store.setItem(key, text);
  } catch {
    // the page goes on without
  }
}
