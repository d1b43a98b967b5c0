// Grams, millilitres and grams a litre on the page, whole thousandths of these in the book; days,
// names and numbers as the book checks them.

export const MAX_GROSS = 30_000_000;
export const MAX_TARE = 5_000_000;
export const NOMINAL = [5_000, 10_000_000];
export const DENSITY = [500_000, 2_000_000];
export const MAX_NUMBER = 4_294_967_295n;
export const MAX_WORD = 18_446_744_073_709_551_615n;

// The thousandths of `262.12`, `262,12` or, where the unit is g, `262.12 g`; null where it is no
// such text.
export function readAmount(text, unit) {
  const parts = /^\s*(\d{1,8})(?:[.,](\d{1,3}))?\s*(\S*)\s*$/.exec(text);
  if (!parts || (parts[3] && parts[3] !== unit)) return null;
  return Number(parts[1]) * 1000 + Number((parts[2] ?? "").padEnd(3, "0"));
}

// The milligrams of a mass that the book printed, which may be negative.
export function readMass(text) {
  const parts = /^(-?)(\d+)(?:\.(\d{1,3}))?$/.exec(text);
  const size = Number(parts[2]) * 1000 + Number((parts[3] ?? "").padEnd(3, "0"));
  return parts[1] ? -size : size;
}

export function isName(text) {
  return /^[A-Za-z0-9][A-Za-z0-9._-]{0,31}$/.test(text);
}

// The whole number of a text of digits up to a limit; null where it is none.
export function readNumber(text, limit) {
  if (!/^\s*\d{1,20}\s*$/.test(text)) return null;
  const number = BigInt(text.trim());
  return number <= limit ? number : null;
}

export function isDay(text) {
  if (!/^\d{4}-\d\d-\d\d$/.test(text) || text < "1970") return false;
  const date = new Date(`${text}T00:00:00Z`);
  return !Number.isNaN(date.getTime()) && date.toISOString().startsWith(text);
}

// How many days a day is away from today, by the clock of this machine.
export function daysAway(text) {
  return Math.abs(Date.parse(`${text}T12:00:00Z`) - Date.now()) / 86_400_000;
}

export function drawWord() {
  return crypto.getRandomValues(new BigUint64Array(1))[0];
}
