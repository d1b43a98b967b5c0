// A forecast in words, the same on the board, at a lane and at a desk: how loud, a sign, a word and
// why. Money and names are no part of it.

import { count, grams, mass } from "./numbers.js";
import { say, word } from "./words.js";

const inadequateWords = (number) =>
  say(number === 1 ? "countsInadequate" : "countInadequate", { count: count(number) });

export const needWords = ({ next, each }) =>
  (each === null ? "" : say("nextNeed", { next: count(next), each: grams(each) }));

const WHY = {
  average: ({ average }) => say("short", { short: mass(average.short) }),
  allowance: ({ over, mend }) => say("tooMany", { over: count(over), mend: count(mend) }),
  inadequate: (_, { inadequate }) => inadequateWords(inadequate),
};

// Each check that would fail, with its figures.
export function whyWords(forecast, sheet) {
  return forecast.fails.map((check) => WHY[check](forecast, sheet));
}

const checksOf = ({ fails }) => fails.map(word).join(", ");

// [how loud, the sign, the word in large, why in small]
export function forecastWords(forecast, sheet) {
  const why = whyWords(forecast, sheet);
  const fails = () => say("wouldFail", { checks: checksOf(forecast) });
  const isFailing = forecast.kind === "fail" && forecast.fails.includes("average");
  if (isFailing) why.push(needWords(forecast.average));
  const told = {
    empty: () => ["early", "early", say("noPacks"), ""],
    early: () => ["early", "early", say("tooEarly"),
      why.join(" · ") || say("fewPacks", { count: count(sheet.population) })],
    // what holds it comes first
    held: () => ["held", "held", word("held"), why.reverse().join(" · ")],
    edge: () => ["edge", "warn", fails(), why.join(" · ")],
    fail: () => ["fail", "warn", fails(), why.join(" · ")],
    ok: () => ["ok", "pass", say("wouldRelease"), ""],
  };
  return told[forecast.kind]();
}
