// A lane on the board: its last signal, packs a minute, its last nets against nominal, T1 and T2,
// how many of them were rejected and why the newest.

import { count, grams } from "./numbers.js";
import { icon, make, put, shape, whenSized } from "./page.js";
import { laneWords, settings } from "./settings.js";
import { limitsOf } from "./rules.js";
import { packs } from "./packs.js";
import { say, word } from "./words.js";

// ---- the last nets, small, for a glance

const MOST = 60;
const round = (number) => Math.round(number * 10) / 10;

// From which size on the lines have their names.
const NAMED = { wide: 420, high: 90 };

function scales(limits, wide, high) {
  const { nominal, t2, error } = limits;
  // fixed for the product, so that nothing moves as packs come
  const [low, top] = [t2 - .45 * error, nominal + 1.3 * error];
  const edge = Math.max(4, high * .04);
  const isNamed = high > NAMED.high && wide > NAMED.wide;
  const letters = Math.round(Math.max(15, Math.min(28, high / 8)));
  const right = wide - (isNamed ? letters * 2 + 8 : edge);
  const held = (net) => Math.min(top, Math.max(low, net));
  return {
    isNamed, right,
    up: (net) => round(edge + (top - held(net)) / (top - low) * (high - 2 * edge)),
    across: (at) => round(edge + (at + .5) * (right - edge * 2) / MOST),
    size: Math.max(2.2, Math.min(9, high / 26, wide / 45)),
    letters,
  };
}

function lines({ nominal, t1, t2 }, { up, right, isNamed, letters }, high) {
  const line = (kind, net) => shape("path", { class: kind, d: `M0 ${up(net)}H${right}` });
  const name = ([words, net]) => shape("text", { class: "strong", x: right + 6,
    y: up(net) + letters * .36, "font-size": letters }, words);
  return [
    shape("rect", { class: "below", x: 0, y: up(t1), width: right,
      height: Math.max(0, high - up(t1)) }),
    line("l-nominal", nominal), line("l-t1", t1), line("l-t2", t2),
    isNamed ? [["Qn", nominal], ["T1", t1], ["T2", t2]].map(name) : [],
  ];
}

const cross = ({ x, y }, size) => `M${x - size} ${y - size}l${2 * size} ${2 * size}`
  + `m0 ${-2 * size}l${-2 * size} ${2 * size}`;

// Puts the last packs into a picture: four attributes, whatever came.
function putPacks({ line, dots, crosses, last }, { across, up, size }, packs) {
  const points = packs.slice(-MOST).map(({ net, signal }, at, shown) => ({
    x: across(at + MOST - shown.length), y: up(net), isPass: signal === "pass" }));
  const [passed, rejected] = [true, false].map((isPass) =>
    points.filter((point) => point.isPass === isPass));
  line.setAttribute("d", points.length > 1
    ? `M${points.map(({ x, y }) => `${x} ${y}`).join("L")}` : "");
  dots.setAttribute("d", passed.map(({ x, y }) => `M${x} ${y}h0`).join(""));
  crosses.setAttribute("d", rejected.map((point) => cross(point, size)).join(""));
  const { x, y } = points.at(-1) ?? { x: -99, y: 0 };
  last.setAttribute("transform", `translate(${x} ${y})`);
}

// Draws the limits of a batch into a place of this size. Gives back what puts packs between them,
// as often as some come.
function spark(place, limits, wide, high) {
  const scale = scales(limits, wide, high);
  const { size } = scale;
  const path = (kind, width) => shape("path", { class: kind, "stroke-width": width });
  const parts = { line: path("l-net", size / 3), dots: path("m-pass", size * 1.1),
    crosses: path("m-reject", size / 2.2),
    last: shape("circle", { class: "m-cursor", r: size * 1.5 }) };
  place.replaceChildren(shape("svg",
    { viewBox: `0 0 ${wide} ${high}`, width: wide, height: high, "aria-hidden": "true" },
    lines(limits, scale, high), Object.values(parts)));
  return (packs) => putPacks(parts, scale, packs);
}

// ---- the parts, and their texts

const shownOf = (lane) =>
  lane.packs.map((number) => packs.get(number)).filter((pack) => pack);

// The parts of a lane of a batch, in `cell`; their texts are put by `putLane`.
export function makeLane(lane, sheet) {
  const part = { lane, limits: limitsOf(sheet), signal: make("span"), net: make("span"),
    rate: make("strong"), spark: make("div", { className: "w-spark sized" }), drawn: "",
    out: make("span", { className: "w-out none" }), outs: make("strong"), cause: make("span") };
  part.net.className = "w-net";
  part.out.append(part.outs, part.cause);
  part.spoken = make("span", { className: "unseen" });
  part.cell = make("section", { className: "w-lane", "aria-label": laneWords(lane.number) },
    make("div", {}, part.spoken,
      make("h3", { className: "w-no", "aria-hidden": "true" }, String(lane.number)), part.signal,
      part.spark, part.net,
      make("span", { className: "w-rate" }, part.rate, make("small", {}, ` ${say("aMinute")}`),
        part.out)));
  whenSized(part.spark, (wide, high) => {
    part.draw = spark(part.spark, part.limits, wide, high);
    part.drawn = "";
    putSpark(part, shownOf(part.lane));
  });
  return part;
}

function signalOf(lane, state) {
  if (state.waits) return [state.idle ? "warn" : "idle", "idle", say("waitsShort")];
  if (state.idle) return ["warn", "idle", say("idleShort")];
  if (!lane.batch) return ["idle", "idle", say("idleShort")];
  const last = packs.get(lane.packs.at(-1));
  if (!last || state.silence > settings.alarms.silence) {
    return ["warn", "idle", last ? say("silentShort") : say("idleShort")];
  }
  if (last.signal === "pass") return ["", "pass", word("pass")];
  return [last.signal === "reject held" ? "held" : "reject", "reject", word(last.signal)];
}

function putSpark(part, shown) {
  if (!part.draw) return;
  const now = `${shown.length} ${shown.at(-1)?.number} ${shown[0]?.net} ${shown.at(-1)?.net}`;
  if (now === part.drawn) return;
  part.drawn = now;
  part.draw(shown);
}

// How many of the packs that are shown were rejected, and why the newest of them: that stays to be
// seen when a later pack has passed. Gives back the same in a sentence.
function putOuts(part, shown) {
  const outs = shown.filter(({ signal }) => signal !== "pass");
  const all = count(shown.length);
  part.out.classList.toggle("none", outs.length === 0);
  put(part.outs, count(outs.length));
  put(part.cause, outs.length ? word(outs.at(-1).signal) : "");
  const told = outs.length === 0 ? say("noneOut", { all })
    : say("outOf", { all, count: count(outs.length), cause: word(outs.at(-1).signal) });
  if (part.out.title !== told) part.out.title = told;
  return told;
}

// Puts what a lane does, as its `state` says, and its packs a minute, or null where they aren't
// known yet.
export function putLane(part, lane, state, rate) {
  part.lane = lane;
  const shown = shownOf(lane);
  const [kind, sign, told] = signalOf(lane, state);
  const isOther = part.signal.dataset.told !== sign + told;
  if (isOther) part.signal.replaceChildren(icon(sign), make("span", {}, told));
  part.signal.dataset.told = sign + told;
  if (part.signal.className !== `w-signal ${kind}`) part.signal.className = `w-signal ${kind}`;
  const last = packs.get(lane.packs.at(-1));
  const net = last ? grams(last.net, 1) : "–";
  const perMinute = rate === null ? "–" : count(rate);
  put(part.net, last ? `${net} g` : "–");
  put(part.rate, perMinute);
  put(part.spoken, say("spoken", { lane: laneWords(lane.number), batch: state.batch ?? "",
    signal: told, net, rate: perMinute, out: putOuts(part, shown) }));
  putSpark(part, shown);
}
