// Draws the chart of a batch: nets one by one with their mean of 30, and the histogram, by one
// scale across. Shapes and words say what colours say; packs of a kind are one path, so that ten
// thousand of them are drawn at once.

import { addWords, say } from "./words.js";
import { count, grams } from "./numbers.js";
import { histogram, isCounted, meanAndS, runningMeans, tareChanges } from "./control.js";
import { limitsOf } from "./rules.js";
import { shape } from "./page.js";

addWords({
  individuals: ["Net of each pack, g", "Netto jeder Packung, g"],
  byNet: ["Packs by net", "Nach Netto"],
  tareFrom: ["tare {tare} g", "Tara {tare} g"],
  chartTitle: ["Nets of batch {batch} in order of weighing",
    "Nettos der Charge {batch}, wie gewogen"],
  chartSays: ["{count} packs that count, mean {mean} g, s {s} g, {rejected} rejected",
    "{count} Packungen, die zählen, Mittel {mean} g, s {s} g, {rejected} ausgeschleust"],
});

const round = (number) => Math.round(number * 10) / 10;

const SHAPES = {
  reject: (x, y) => `M${x - 4} ${y - 4}l8 8m0 -8l-8 8`,
  void: (x, y) => `M${x - 4} ${y - 4}h8v8h-8zm0 8l8 -8`,
  sample: (x, y) => `M${x} ${y - 4}l4 4l-4 4l-4 -4z`,
  beyond: (x, y) => `M${x - 5} ${y - 5}h10l-5 9z`,
  above: (x, y) => `M${x - 4} ${y + 3}h8l-4 -7z`,
  out: (x, y) => `M${x} ${y - 6}l6 10h-12z`,
};

export const mark = (kind, points) => (points.length === 0 ? [] : [shape("path",
  { class: `m-${kind}`, d: points.map(([x, y]) => SHAPES[kind](x, y)).join("") })]);
export const text = (x, y, words, kind = "", anchor = "start") =>
  shape("text", { x, y, class: kind, "text-anchor": anchor }, words);
export const dots = (points, width, opacity = 1) => shape("path", { class: "m-pass",
  "stroke-width": width, "stroke-opacity": opacity,
  d: points.map(([x, y]) => `M${x} ${y}h0`).join("") });
export const across = (kind, left, right, y) =>
  shape("path", { class: kind, d: `M${left} ${y}H${right}` });

// A part of the figure: its scale up, and its frame.
export function panel(box, low, high) {
  const { left, right, top, bottom } = box;
  const held = (value) => Math.max(low, Math.min(high, value));
  return {
    up: (value) => round(bottom - (held(value) - low) / (high - low) * (bottom - top)),
    frame: shape("path", { class: "axis", d: `M${left} ${top}V${bottom}H${right}` }),
  };
}

// Whole numbers for an axis, about as many as wanted.
function steps(low, high, wanted) {
  const rough = Math.max(1, (high - low) / wanted);
  const power = 10 ** Math.floor(Math.log10(rough));
  const step = [1, 2, 5, 10].map((part) => part * power).find((part) => part >= rough);
  const first = Math.ceil(low / step) * step;
  const length = Math.floor((high - first) / step) + 1;
  return Array.from({ length }, (_, at) => first + at * step);
}

// Where everything lies, for a figure of this size.
function frameOf({ sheet, packs, view: [from, to], wide, isOnly }) {
  const limits = limitsOf(sheet);
  const bars = isOnly ? 84 : Math.min(190, wide * .16);
  const high = isOnly ? 300 : 620;
  const [left, right] = [64, wide - bars - 62];
  const counted = packs.filter(isCounted).map(({ net }) => net);
  const { mean, s } = counted.length ? meanAndS(counted) : { mean: limits.nominal, s: 0 };
  // the scale holds what is usual, and is that of the whole batch
  const low = limits.t2 - .5 * limits.error;
  const top = Math.max(limits.nominal + 1.2 * limits.error, mean + 4 * s);
  const nets = { left, right, top: 34, bottom: isOnly ? high - 40 : high * .52 };
  return { limits, bars, high, left, right, nets, low, top, ...panel(nets, low, top),
    bottom: isOnly ? nets.bottom : high - 46, end: right + bars + 18,
    x: (place) => round(left + (place - from + .5) / Math.max(1, to - from) * (right - left)) };
}

function limitLines({ limits, left, end, up }) {
  const line = ([kind, name, net]) => [across(`l-${kind}`, left, end, up(net)),
    text(left - 8, up(net) + 4, grams(net, 1), "strong", "end"),
    text(end + 5, up(net) + 4, name, "strong")];
  return [["nominal", "Qn", limits.nominal], ["t1", "T1", limits.t1], ["t2", "T2", limits.t2]]
    .map(line);
}

function packMarks(shown, { up, x, low, top, nets }, isOnly) {
  const isIn = ({ net }) => net >= low && net <= top;
  const at = (pack) => [x(pack.place), up(pack.net)];
  const of = (pile) => shown.filter((pack) => isIn(pack) && pack.pile === pile).map(at);
  const size = Math.max(2, Math.min(7, 2400 / shown.length + 1.8));
  const isPassed = (pack) => (isOnly ? pack.pile === "passed" : isCounted(pack));
  const passed = shown.filter((pack) => isIn(pack) && isPassed(pack)).map(at);
  return [
    dots(passed, round(size), shown.length > 3000 ? .5 : .85),
    isOnly ? mark("sample", of("sampled")) : [],
    mark("void", of("voided")), mark("reject", of("rejected")),
    mark("beyond", shown.filter(({ net }) => net < low).map(({ place }) => [x(place),
      nets.bottom - 6])),
    mark("above", shown.filter(({ net }) => net > top).map(({ place }) => [x(place),
      nets.top + 5])),
  ];
}

function meanLine(packs, [from, to], { x, up }) {
  const means = runningMeans(packs).filter(([place]) => place >= from && place < to);
  const apart = Math.max(1, Math.floor(means.length / 900));
  const points = means.filter((_, at) => at % apart === 0)
    .map(([place, net]) => `${x(place)} ${up(net)}`);
  return points.length < 2 ? [] : [shape("path", { class: "l-mean", d: `M${points.join("L")}` })];
}

// Packs by net: bars beside the chart, by the same scale.
function histogramBars(shown, { low, top, up, right, bars, nets }, isOnly) {
  const many = isOnly ? 24 : 40;
  const heights = histogram(shown, low, top, many);
  const most = Math.max(1, ...heights);
  const [step, start] = [(top - low) / many, right + 14];
  const bar = (number, at) => {
    const [y0, y1] = [up(low + (at + 1) * step) + .5, up(low + at * step) - .5];
    const width = Math.max(1, round(number / most * (bars - 8)));
    return number ? `M${start} ${y0}h${width}V${y1}H${start}z` : "";
  };
  return [shape("path", { class: "bars", d: heights.map(bar).join("") }),
    shape("path", { class: "axis", d: `M${start} ${nets.top}V${nets.bottom}` }),
    text(start, nets.top - 22, say("byNet"), "strong")];
}

// The words of a tare have so much room; where the next one lies closer, its line stands alone.
const TARE_WIDE = 120;

function tareLines(packs, [from, to], { x, nets, bottom }) {
  let free = 0;
  return tareChanges(packs).filter(({ place }) => place >= from && place < to)
    .map(({ place, tare }) => {
      const at = x(place);
      const isFree = at >= free;
      if (isFree) free = at + TARE_WIDE;
      return [shape("path", { class: "l-event", d: `M${at} ${nets.top}V${bottom}` }), isFree
        ? text(at + 5, nets.top - 4, say("tareFrom", { tare: grams(tare) }), "t-event") : []];
    });
}

function packNumbers(packs, [from, to], { x, bottom }, wide) {
  return steps(from + 1, to, wide > 900 ? 10 : 5).filter((number) => packs[number - 1])
    .map((number) => [
      shape("path", { class: "axis", d: `M${x(number - 1)} ${bottom}v5` }),
      text(x(number - 1), bottom + 18, count(number), "", "middle")]);
}

// Draws what lies between two places of a batch. Gives back the picture with its scales, for the
// cursor. `below` draws what stands below the nets, by their frame; without it they stand alone.
export function drawChart({ sheet, packs, view, wide, below = null }) {
  const isOnly = below === null;
  const frame = frameOf({ sheet, packs, view, wide, isOnly });
  const shown = packs.slice(...view);
  const { left, nets, high, end, up, limits } = frame;
  const counted = shown.filter(isCounted).map(({ net }) => net);
  const { mean, s } = counted.length ? meanAndS(counted) : { mean: 0, s: 0 };
  const picture = shape("svg", { class: "figure", viewBox: `0 0 ${wide} ${high}`, width: wide,
    height: high, role: "img" },
  shape("title", {}, say("chartTitle", sheet)),
  shape("desc", {}, say("chartSays", { count: count(counted.length), mean: grams(mean, 2),
    s: grams(s, 2), rejected: count(shown.filter(({ pile }) => pile === "rejected").length) })),
  shape("rect", { class: "below", x: left, y: up(limits.t1), width: end - left,
    height: nets.bottom - up(limits.t1) }),
  frame.frame, limitLines(frame), packMarks(shown, frame, isOnly), meanLine(packs, view, frame),
  histogramBars(shown, frame, isOnly), tareLines(packs, view, frame),
  packNumbers(packs, view, frame, wide), text(left, nets.top - 22, say("individuals"), "strong"),
  below ? below(view, frame) : []);
  return { picture, ...frame };
}
