// Shows the page that the address names, keeps it fresh, and says how old it is.

import { CODE, LANGUAGE, changeLanguage, say, time } from "./words.js";
import { fillTexts, icon, make, put } from "./page.js";
import { bookOf, following, link, oldBook } from "./office.js";
import { keepText, readText } from "./store.js";
import { loadSettings, settings } from "./settings.js";

// Each page stands in the file of its name, or of another one, and is loaded when it is first shown.
const PAGES = ["board", "lane", "batch", "desk", "sheet", "reports", "evidence", "search",
  "measure", "picks"];
const FILES = new Map([["measure", "measuring"]]);
// Pages that are a part of another one, to which the head leads.
const PART_OF = new Map([["measure", "desk"], ["picks", "desk"]]);
// The name that a page had before.
const FORMER = new Map([["chart", "batch"]]);
const built = new Map();
const EVERY = 2_000;
const LATE = 8_000;
const THEMES = ["light", "dark"];

// The page of an address and what it is about, as `#batch/MORNING`.
function asked() {
  const [name, about] = location.hash.slice(1).split("/");
  const page = FORMER.get(name) ?? name;
  return { page: PAGES.includes(page) ? page : "board", about: about ?? "" };
}

async function load(name) {
  if (!built.has(name)) {
    const section = make("section", { id: name, "aria-label": say(name) });
    built.set(name, import(`./${FILES.get(name) ?? name}.js`).then(async (page) => {
      await page.build(section);
      return { page, section };
    }));
    built.get(name).catch(() => built.delete(name));
  }
  return built.get(name);
}

async function show() {
  const { page: name, about } = asked();
  for (const place of document.querySelectorAll("nav a")) {
    if (place.hash === `#${PART_OF.get(name) ?? name}`) place.setAttribute("aria-current", "page");
    else place.removeAttribute("aria-current");
  }
  document.title = `hall: ${say(name)}`;
  const { page, section } = await load(name);
  if (asked().page !== name) return;
  document.body.className = `on-${name}`;
  const main = document.getElementById("content");
  if (main.firstChild !== section) main.replaceChildren(section);
  await page.show?.(about);
}

function showAge() {
  const [age, alarm] = ["age", "alarm"].map((id) => document.getElementById(id));
  const gone = Date.now() - link.at;
  const key = link.at === 0 ? "never" : gone > LATE ? "stale" : "fresh";
  const values = { time: time(link.at), seconds: Math.round(gone / 1000) };
  age.className = `age ${key}`;
  document.body.classList.toggle("is-stale", key !== "fresh");
  put(age, say(link.why === "401" ? "login" : key, values));
  put(document.getElementById("clock"), time(Date.now(), true));
  // said once to a screen reader, and not at each second
  put(alarm, key === "stale" ? say("staleSince", values) : "");
}

// Asks what is new for the page that is shown, again and again.
async function keepFresh() {
  const shown = await following(async () => {
    const { page } = await load(asked().page);
    await page.refresh();
    return page;
  });
  setTimeout(keepFresh, shown?.every ?? EVERY);
}

function setTheme(theme) {
  if (THEMES.includes(theme)) document.documentElement.dataset.theme = theme;
}

function buildHead() {
  const language = document.getElementById("language");
  put(language, say("otherLanguage"));
  language.lang = LANGUAGE ? "en" : "de";
  language.addEventListener("click", changeLanguage);
  const theme = document.getElementById("theme");
  theme.append(icon("theme"));
  theme.addEventListener("click", () => {
    const set = document.documentElement.dataset.theme;
    const isDark = set ? set === "dark" : matchMedia("(prefers-color-scheme: dark)").matches;
    const next = isDark ? "light" : "dark";
    keepText("hall.theme", next);
    setTheme(next);
  });
  put(document.getElementById("where"), settings.hall);
}

document.documentElement.lang = CODE;
setTheme(readText("hall.theme"));
fillTexts(document);
await loadSettings();
buildHead();
// what was read of one book is no other's
const isOther = () => bookOf(location.hash) !== oldBook;
addEventListener("hashchange", () => (isOther() ? location.reload() : following(show)));
// the address may have changed meanwhile
if (isOther()) location.reload();
showAge();
setInterval(showAge, 500);
await following(show);
keepFresh();
