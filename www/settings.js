// The settings of a hall, which the front serves as settings.json where there are any: names,
// limits of alarms, prices and a rule of the country. What isn't there, or isn't as it has to be,
// is as here; docs/OPERATING.md says what each is for.

import { reach } from "./office.js";
import { say } from "./words.js";

const DEFAULTS = {
  hall: "",
  lanes: {},
  alarms: { silence: 120, rows: 50_000, hours: 2, full: 15, allowance: 90, sound: true },
  prices: {},
  currency: "€",
  country: { share: 0, name: "" },
};

const isNumber = (value, most) => Number.isFinite(value) && value >= 0 && value <= most;
const isText = (value) => typeof value === "string" && value.length <= 64;
const isRecord = (value) => typeof value === "object" && value !== null && !Array.isArray(value);

// The members of a record whose values are of a kind, by names of its own alone.
function only(record, isGood) {
  if (!isRecord(record)) return {};
  return Object.fromEntries(Object.entries(record).filter(([, value]) => isGood(value)));
}

// The settings that a text says, whatever it is.
export function readSettings(text) {
  let said = {};
  try {
    said = JSON.parse(text);
  } catch {
    // as without a file
  }
  if (!isRecord(said)) said = {};
  const alarms = only(said.alarms, (value) => isNumber(value, 1e6));
  const sound = said.alarms?.sound !== false;
  const country = isRecord(said.country) ? said.country : {};
  const isShare = isNumber(country.share, 100);
  return {
    hall: isText(said.hall) ? said.hall : DEFAULTS.hall,
    lanes: only(said.lanes, isText),
    alarms: { ...DEFAULTS.alarms, ...alarms, sound },
    prices: only(said.prices, (value) => isNumber(value, 1e6)),
    currency: isText(said.currency) ? said.currency : DEFAULTS.currency,
    // hundredths of a percent, so that the share is a whole number
    country: { share: isShare ? Math.round(country.share * 100) : 0,
      name: isText(country.name) ? country.name : "" },
  };
}

export const settings = readSettings("{}");

export async function loadSettings() {
  const answer = await reach("settings.json").catch(() => null);
  if (answer?.status === 200) Object.assign(settings, readSettings(answer.text));
}

// A lane by its number, and its name where it has one.
export function laneWords(number) {
  const name = Object.hasOwn(settings.lanes, number) ? ` ${settings.lanes[number]}` : "";
  return say("laneOf", { lane: number }) + name;
}

// What a kilogram or litre of a product costs; nothing where it isn't set.
export function priceOf(product) {
  return Object.hasOwn(settings.prices, product) ? settings.prices[product] : null;
}
