// A bar for each day: what was given away, in percent of what was declared.

import { fixed } from "./numbers.js";
import { shape, whenSized } from "./page.js";
import { say } from "./words.js";

const [LEFT, RIGHT, TOP, BOTTOM, HIGH] = [44, 12, 14, 168, 200];

export function drawDays(place, days, aim) {
  const shown = days.filter((one) => one.share !== null);
  if (shown.length === 0) return;
  const most = Math.max(.1, aim, ...shown.map((one) => one.share));
  const least = Math.min(0, ...shown.map((one) => one.share));
  const up = (value) => Math.round(BOTTOM - (value - least) / (most - least) * (BOTTOM - TOP));
  whenSized(place, (wide) => {
    const step = (wide - LEFT - RIGHT) / shown.length;
    const every = Math.ceil(shown.length * 48 / Math.max(1, wide - LEFT - RIGHT));
    const bars = shown.map((one, at) => shape("rect", { class: "t-bar",
      x: LEFT + step * (at + .15), width: step * .7, y: up(Math.max(0, one.share)),
      height: Math.abs(up(one.share) - up(0)) }));
    const dates = shown.map((one, at) => (at % every ? [] : shape("text", { x: LEFT
      + step * (at + .5), y: BOTTOM + 18, "text-anchor": "middle" }, one.day.slice(5))));
    const lines = [...new Set([0, most, least])].map((value) => [
      shape("path", { class: "grid", d: `M${LEFT} ${up(value)}H${wide - RIGHT}` }),
      shape("text", { x: LEFT - 8, y: up(value) + 4, "text-anchor": "end" }, fixed(value, 1))]);
    const goal = aim ? shape("path", { class: "l-limit", d: `M${LEFT} ${up(aim)}H${wide - RIGHT}` })
      : [];
    place.replaceChildren(shape("svg", { class: "figure", viewBox: `0 0 ${wide} ${HIGH}`,
      role: "img", "aria-label": say("givenDays") }, lines, bars, goal, dates));
  });
}
