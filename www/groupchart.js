// Draws x-bar and s of the subgroups of a batch with their limits, below the chart of its nets.

import { across, dots, mark, panel, text } from "./chart.js";
import { addWords, say } from "./words.js";
import { markRules, subgroups } from "./subgroups.js";
import { grams } from "./numbers.js";
import { shape } from "./page.js";

addWords({
  xbar: ["x̄ of {size} packs, g", "x̄ von {size} Packungen, g"],
  spread: ["s of {size} packs, g", "s von {size} Packungen, g"],
  centre: ["mean", "Mittel"],
});

// One panel of subgroups: its points, its line and its limits.
function groupPanel(box, shown, pick, range, lines, out, title, frame) {
  const { up, frame: axis } = panel(box, ...range);
  const points = shown.map((group) => [frame.x(group.place), up(pick(group))]);
  const limit = ([kind, name, value], at, all) => {
    // where two limits lie close together the figure of the mean gives way
    const isClose = kind === "l-centre" && Math.abs(up(value) - up(all[0][2])) < 13;
    return [across(kind, box.left, box.right, up(value)), isClose ? [] : [
      text(box.left - 8, up(value) + 4, grams(value, 1), "", "end"),
      text(box.right + 6, up(value) + 4, name)]];
  };
  return [axis, text(box.left, box.top - 8, title, "strong"), lines.map(limit),
    points.length > 1
      ? shape("path", { class: "l-net", d: `M${points.map((point) => point.join(" ")).join("L")}` })
      : [],
    dots(points, 4.5), mark("out", shown.map((group, at) => [group, points[at]])
      .filter(([group]) => out(group)).map(([, point]) => point))];
}

// Draws x-bar and s below the nets of a batch.
export function subgroupPanels({ groups, bounds, size }, [from, to], frame) {
  if (groups.length === 0) return [];
  const { left, right, nets, high } = frame;
  const shown = groups.filter(({ place }) => place >= from && place < to);
  const xs = { left, right, top: nets.bottom + 34, bottom: nets.bottom + 34 + high * .17 };
  const ss = { left, right, top: xs.bottom + 30, bottom: high - 46 };
  const reach = Math.max(1.6 * 3 * bounds.sigma,
    ...shown.map(({ mean }) => 1.05 * Math.abs(mean - bounds.centre)));
  const means = [["l-limit", "UCL", bounds.high], ["l-centre", say("centre"), bounds.centre],
    ["l-limit", "LCL", bounds.low]];
  const spreads = [["l-limit", "UCL", bounds.sHigh], ["l-centre", say("centre"), bounds.spread],
    ["l-limit", "LCL", bounds.sLow]];
  const widest = Math.max(bounds.sHigh * 1.18, ...shown.map(({ s }) => s * 1.05));
  return [
    groupPanel(xs, shown, ({ mean }) => mean, [bounds.centre - reach, bounds.centre + reach], means,
      ({ rule }) => rule, say("xbar", { size }), frame),
    groupPanel(ss, shown, ({ s }) => s, [0, widest], spreads, ({ isWide }) => isWide,
      say("spread", { size }), frame)];
}

export function groupsOf(packs, size) {
  const groups = subgroups(packs, size);
  groups.marked = groups.groups.length ? markRules(groups.groups, groups.bounds) : [];
  return groups;
}
