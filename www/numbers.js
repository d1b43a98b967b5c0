// Numbers as they are read: masses are whole milligrams in the book and grams here, with a comma in
// German; thousands stand apart by a narrow blank in both languages; a minus is a real one.

import { LANGUAGE } from "./words.js";

const POINT = LANGUAGE ? "," : ".";
const THIN = "\u202f";

const grouped = (digits) => digits.replace(/\B(?=(\d{3})+$)/g, THIN);

export function fixed(number, places, isSigned = false) {
  const spelled = Math.abs(number).toFixed(places);
  const [whole, part] = spelled.split(".");
  const plus = isSigned ? "+" : "";
  const sign = Number(spelled) === 0 ? (isSigned ? "±" : "") : number < 0 ? "−" : plus;
  return sign + grouped(whole) + (part ? POINT + part : "");
}

export const count = (number) => fixed(number, 0);

// Milligrams as grams with these places.
export function grams(milligrams, places = 3, isSigned = false) {
  return fixed(milligrams / 1000, places, isSigned);
}

// A nominal quantity, without zeros that say nothing.
export function quantity(milligrams) {
  const behind = milligrams % 1000 === 0 ? 0 : milligrams % 100 === 0 ? 1 : 3;
  return grams(milligrams, behind);
}

// The nominal quantity of a batch with its unit, which stays beside it.
export const nominalOf = (sheet) => `${quantity(sheet.quantity)}\u00a0${sheet.unit}`;

export function percent(part, places = 2, isSigned = false) {
  return `${fixed(part * 100, places, isSigned)} %`;
}

// A mass in the unit in which it is read best. What is small is given to the milligram.
export function mass(milligrams, isSigned = false) {
  const size = Math.abs(milligrams);
  if (size >= 1e9) return `${fixed(milligrams / 1e9, 2, isSigned)} t`;
  if (size >= 1e7) return `${fixed(milligrams / 1e6, 2, isSigned)} kg`;
  return `${fixed(milligrams / 1000, size < 1e5 ? 3 : 0, isSigned)} g`;
}

const two = (number) => String(number).padStart(2, "0");
const UNITS = LANGUAGE ? ["min", "h", "Tage"] : ["min", "h", "days"];

export function duration(minutes) {
  const whole = Math.max(0, Math.round(minutes));
  if (whole < 90) return `${whole} ${UNITS[0]}`;
  if (whole < 48 * 60) return `${Math.floor(whole / 60)} ${UNITS[1]} ${two(whole % 60)}`;
  return `${Math.round(whole / 1440)} ${UNITS[2]}`;
}

// How long ago, in seconds.
export const ago = (seconds) =>
  (seconds < 120 ? `${Math.round(seconds)} s` : duration(seconds / 60));

// A day of the book in the language of the page.
export function day(text) {
  const [year, month, date] = text.split("-");
  return LANGUAGE ? `${date}.${month}.${year}` : text;
}
