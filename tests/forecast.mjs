// Reckons by the pages' own pure modules what tests/forecast.py compares: reads JSON on standard
// input, a list of sheets and a list of papers, and writes what the pages would say of each.
//
// usage: node forecast.mjs < CASES        in a folder with the modules of www/

import { readPaper } from "./paper.js";
import { readSheet } from "./answers.js";
import { contentsCheck, defectsOf } from "./sample.js";
import { limitsOf } from "./rules.js";
import { forecastOf } from "./forecast.js";
import { samplesOfPaper, testOf } from "./reference.js";

let text = "";
for await (const piece of process.stdin) text += piece;
const { sheets, papers } = JSON.parse(text);

function ofSheet(said) {
  const sheet = readSheet("B", said, 0);
  const { kind, fails, allowed, over, mend, left, average } = forecastOf(sheet);
  return { kind, fails, allowed, over, mend, left, short: average.short, next: average.next,
    each: average.each, aboveAll: average.aboveAll };
}

function ofPaper([said, sheetText]) {
  const sheet = readSheet("B", sheetText, 0);
  const samples = samplesOfPaper(readPaper(said));
  const contents = (list) => list.map((one) => one.contents).filter((one) => one !== null);
  const { plan, mean } = testOf(sheet, samples);
  const { t1 } = limitsOf(sheet);
  const [first, second] = [samples.first, samples.second].map(contents);
  const isMeasured = second.length > 0;
  const [d1, d2] = [defectsOf(first, t1), defectsOf(second, t1)];
  return { first, second, d1, d2, mean, words: samples.words, plan,
    told: [sheet.first?.defective ?? null, sheet.second?.defective ?? null],
    check: contentsCheck(plan, d1, isMeasured ? d2 : null) };
}

console.log(JSON.stringify({ sheets: sheets.map(ofSheet), papers: papers.map(ofPaper) }));
