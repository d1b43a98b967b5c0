// Small parts of which the pages are made.

import { say } from "./words.js";

const ATTRIBUTES = ["role", "for", "list", "scope", "headers"];

// An element with properties, `data-*` and `aria-*` attributes, and what stands in it.
export function make(name, properties = {}, ...children) {
  const made = document.createElement(name);
  for (const [key, value] of Object.entries(properties)) {
    if (value === null || value === undefined) continue;
    if (key.includes("-") || ATTRIBUTES.includes(key)) made.setAttribute(key, value);
    else made[key] = value;
  }
  made.append(...children.flat(9).filter((child) => child !== null && child !== undefined));
  return made;
}

export function shape(name, attributes = {}, ...children) {
  const made = document.createElementNS("http://www.w3.org/2000/svg", name);
  for (const [key, value] of Object.entries(attributes)) made.setAttribute(key, value);
  made.append(...children.flat(9));
  return made;
}

// Puts a text where it differs, so that nothing is drawn or spoken twice.
export function put(place, text) {
  if (place.textContent !== String(text)) place.textContent = text;
}

export const ICONS = {
  pass: "M4 12.8l5.2 5.2L20 6.8",
  reject: "M5 5l14 14M19 5L5 19",
  warn: "M12 3.2L22 20.5H2zM12 9.5v5M12 17.2v.6",
  held: "M8 2.5h8l5.5 5.5v8L16 21.5H8L2.5 16V8zM7 12h10",
  idle: "M8.5 5v14M15.5 5v14",
  clock: "M12 2.5a9.5 9.5 0 1 0 0 19a9.5 9.5 0 1 0 0-19M12 6.5V12l4 2.5",
  theme: "M12 3a9 9 0 1 0 0 18a9 9 0 1 0 0-18M12 3v18M12 7l5-2M12 12h9M12 17l5 2",
  early: "M6 3h12M6 21h12M7 3c0 5 5 6 5 9s-5 4-5 9M17 3c0 5-5 6-5 9s5 4 5 9",
  sound: "M4 9v6h4l5 4V5L8 9zM16.5 8.5a5 5 0 0 1 0 7M19 6a9 9 0 0 1 0 12",
  silent: "M4 9v6h4l5 4V5L8 9zM16.5 9.5l5 5M21.5 9.5l-5 5",
};

export function icon(name) {
  return shape("svg", { class: `icon i-${name}`, viewBox: "0 0 24 24", "aria-hidden": "true" },
    shape("path", { d: ICONS[name] }));
}

// How much of what is allowed is used: the bar ends at what is allowed, and what is over it lies
// past a tick. The words beside it say the same.
export function meter(used, allowed, kind = "") {
  const whole = Math.max(used, allowed, 1);
  const wide = (part) => Math.round(part / whole * 1000) / 10;
  const inside = wide(Math.min(used, allowed));
  const bar = (name, x, width) => shape("rect", { class: name, x, width, height: 8 });
  const over = used <= allowed ? []
    : [bar("over", inside, 100 - inside), bar("tick", Math.max(0, inside - .6), .8)];
  return shape("svg", { class: `meter ${kind}`, viewBox: "0 0 100 8", "aria-hidden": "true",
    preserveAspectRatio: "none" }, bar("track", 0, 100), bar("fill", 0, inside), over);
}

// Fills every element that names its text.
export function fillTexts(root) {
  for (const place of root.querySelectorAll("[data-text]")) put(place, say(place.dataset.text));
  for (const place of root.querySelectorAll("[data-label]")) {
    place.setAttribute("aria-label", say(place.dataset.label));
  }
}

// Loads sheets of style once each; done when they are there.
export function loadStyles(...names) {
  const isThere = (name) => document.querySelector(`link[href="${name}"]`);
  return Promise.all(names.filter((name) => !isThere(name)).map((name) => new Promise((done) => {
    const link = make("link", { rel: "stylesheet", href: name });
    link.addEventListener("load", done);
    link.addEventListener("error", done);
    document.head.append(link);
  })));
}

// Draws a figure anew whenever its place has another size.
export function whenSized(place, draw) {
  let last = "";
  new ResizeObserver(() => {
    const [wide, high] = [place.clientWidth, place.clientHeight];
    if (`${wide} ${high}` === last || wide === 0) return;
    last = `${wide} ${high}`;
    draw(wide, high);
  }).observe(place);
}
