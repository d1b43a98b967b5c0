// What is looked for in a page, whatever it is about: texts that are cut or lie over one another,
// letters that can't be read on their ground, parts without a name. tests/screen_pages.py puts it
// into the page; each function gives a list of faults in words.

window.hallChecks = (() => {
  const shown = (one) => one.checkVisibility({ visibilityProperty: true, opacityProperty: true });
  const ASIDE = ".unseen, .skip, noscript, datalist, option, [aria-hidden=true] .unseen";
  const isAside = (one) => one.closest(ASIDE);
  const named = (one) => `${one.tagName.toLowerCase()}.${one.getAttribute("class") ?? ""}`
    + ` ${(one.textContent ?? "").trim().slice(0, 60)}`;

  // Each text that is seen, with its element and its boxes.
  function texts() {
    const found = [];
    const walker = document.createTreeWalker(document.body, NodeFilter.SHOW_TEXT);
    while (walker.nextNode()) {
      const node = walker.currentNode;
      const one = node.parentElement;
      if (!node.data.trim() || !one || isAside(one) || !shown(one)) continue;
      if (["TITLE", "DESC", "SCRIPT", "STYLE"].includes(one.tagName.toUpperCase())) continue;
      const range = document.createRange();
      range.selectNodeContents(node);
      const isSeen = ({ width, height }) => width > 1 && height > 1;
      const boxes = [...range.getClientRects()].filter(isSeen);
      if (boxes.length) found.push({ one, boxes, text: node.data.trim() });
    }
    return found;
  }

  const clips = (one) => {
    const { overflowX, overflowY } = getComputedStyle(one);
    return { x: ["hidden", "clip"].includes(overflowX), y: ["hidden", "clip"].includes(overflowY) };
  };
  const scrolls = (one) => ["auto", "scroll"].includes(getComputedStyle(one).overflowX);

  function isCut({ one, boxes }) {
    for (const box of boxes) {
      for (let up = one; up && up !== document.body; up = up.parentElement) {
        if (scrolls(up)) break;
        const { x, y } = clips(up);
        const room = up.getBoundingClientRect();
        if (x && (box.left < room.left - 1.5 || box.right > room.right + 1.5)) return true;
        // letters are lower than their line: an eighth of it may be cut
        const slack = box.height / 8 + 1;
        if (y && (box.top < room.top - slack || box.bottom > room.bottom + slack)) return true;
        if (up.parentElement === document.body
          && (box.right > innerWidth + 1 || box.left < -1)) return true;
      }
    }
    return false;
  }

  const cut = () => texts().filter(isCut).map(({ one }) => `cut: ${named(one)}`);

  // Texts that are wider than their own part, so that they may lie over what is beside it.
  const spilled = () => texts().filter(({ one, boxes }) => {
    const { left, right } = one.getBoundingClientRect();
    return boxes.some((box) => box.left < left - 1.5 || box.right > right + 1.5);
  }).map(({ one }) => `spilled: ${named(one)}`);

  // What is seen of a text's box within all that scrolls or clips round it; nothing where it lies
  // outside, or below a dialog that keeps the rest of the page from being used.
  function seenPart(one, { left, right, top, bottom }) {
    const dialog = document.querySelector("dialog:modal");
    if (dialog && !dialog.contains(one)) return null;
    const part = { left, right, top, bottom };
    for (let up = one; up && up !== document.body; up = up.parentElement) {
      const { overflowX, overflowY } = getComputedStyle(up);
      if (overflowX === "visible" && overflowY === "visible") continue;
      const room = up.getBoundingClientRect();
      Object.assign(part, { left: Math.max(part.left, room.left), top: Math.max(part.top, room.top),
        right: Math.min(part.right, room.right), bottom: Math.min(part.bottom, room.bottom) });
    }
    return part.right - part.left > 2 && part.bottom - part.top > 2 ? part : null;
  }

  // Boxes without the upper and lower quarter of their lines, which may touch.
  const core = ({ left, right, top, bottom }) => ({ left: left + 1, right: right - 1,
    top: top + (bottom - top) / 4, bottom: bottom - (bottom - top) / 4 });
  const meet = (a, b) => a.left < b.right && b.left < a.right
    && a.top < b.bottom && b.top < a.bottom;
  const seenTexts = () => texts().flatMap(({ one, boxes }) => boxes
    .map((box) => ({ one, box: seenPart(one, box) })).filter(({ box }) => box));

  function overlapping() {
    const all = seenTexts().map(({ one, box }) => ({ one, box: core(box) }));
    return all.flatMap((a, at) => all.slice(at + 1)
      .filter((b) => a.one !== b.one && meet(a.box, b.box))
      .map((b) => `overlapping: ${named(a.one)} and ${named(b.one)}`));
  }

  // Texts below a part that isn't theirs and has a ground of its own.
  const isGround = (one) => rgba(getComputedStyle(one).backgroundColor)[3] > 0.5;
  function covered() {
    return seenTexts().filter(({ one, box: { left, right, top, bottom } }) => {
      let over = document.elementFromPoint((left + right) / 2, (top + bottom) / 2);
      for (; over && !over.contains(one) && !one.contains(over); over = over.parentElement) {
        if (over instanceof HTMLElement && isGround(over)) return true;
      }
      return false;
    }).map(({ one }) => `covered: ${named(one)}`);
  }

  // Letters of less than 11 px; on a sheet for A4 of less than 7 points. Those of a picture have
  // the size at which it is drawn: their box is an eighth higher.
  const sizeOf = ({ one, boxes }) => (one instanceof SVGElement ? boxes[0].height / 1.15
    : parseFloat(getComputedStyle(one).fontSize));
  const leastFor = ({ one }) => (one.closest(".paper") ? 9.3 : 11);
  const tiny = () => texts().filter((text) => sizeOf(text) < leastFor(text))
    .map((text) => `letters of ${sizeOf(text).toFixed(1)} px: ${named(text.one)}`);

  // ---- contrast, as WCAG 2 reckons it

  // A colour as the browser draws it, whatever it is spelled in.
  const canvas = new OffscreenCanvas(1, 1).getContext("2d", { willReadFrequently: true });
  function rgba(colour) {
    canvas.clearRect(0, 0, 1, 1);
    canvas.fillStyle = colour;
    canvas.fillRect(0, 0, 1, 1);
    const [r, g, b, a] = canvas.getImageData(0, 0, 1, 1).data;
    return [r, g, b, a / 255];
  }
  const over = ([r, g, b, a], under) =>
    [r, g, b].map((part, at) => part * a + under[at] * (1 - a));
  function light(colour) {
    const [r, g, b] = colour.map((part) => {
      const share = part / 255;
      return share <= 0.03928 ? share / 12.92 : ((share + 0.055) / 1.055) ** 2.4;
    });
    return 0.2126 * r + 0.7152 * g + 0.0722 * b;
  }
  function ground(one) {
    const layers = [];
    for (let up = one; up; up = up.parentElement) {
      const colour = rgba(getComputedStyle(up).backgroundColor);
      if (colour[3] > 0) layers.push(colour);
      if (colour[3] === 1) break;
    }
    return layers.reverse().reduce((under, layer) => over(layer, under), [255, 255, 255]);
  }
  function ratioOf(one) {
    const style = getComputedStyle(one);
    const isDrawn = one instanceof SVGElement;
    const under = ground(one);
    const letters = over(rgba(isDrawn ? style.fill : style.color), under);
    const [high, low] = [light(letters), light(under)].sort((a, b) => b - a);
    return (high + 0.05) / (low + 0.05);
  }
  function leastOf(one) {
    const { fontSize, fontWeight } = getComputedStyle(one);
    const size = parseFloat(fontSize);
    return size >= 24 || (size >= 18.66 && Number(fontWeight) >= 700) ? 3 : 4.5;
  }
  function pale() {
    const elements = new Set(texts().map(({ one }) => one));
    return [...elements].filter((one) => !one.closest(":disabled") && ratioOf(one) < leastOf(one))
      .map((one) => `contrast ${ratioOf(one).toFixed(2)}: ${named(one)}`);
  }

  // ---- labels and roles

  function nameOf(one) {
    const by = one.getAttribute("aria-labelledby");
    const labels = [...(one.labels ?? [])].map((label) => label.textContent);
    return [one.getAttribute("aria-label"), by && document.getElementById(by)?.textContent,
      ...labels, one.textContent, one.querySelector("title")?.textContent]
      .find((text) => text?.trim()) ?? "";
  }
  const all = (selector) => [...document.querySelectorAll(selector)];
  const seen = (selector) => all(selector).filter(shown);
  const GROUPS = ["search", "radiogroup", "group", "region"];
  const RULES = {
    "no name": () => seen("a, button, input, select, textarea, summary, [role=img], nav, dialog"
      + GROUPS.map((role) => `, [role=${role}]`).join("")).filter((one) => !nameOf(one)),
    "an id twice": () => all("[id]")
      .filter((one) => all(`[id="${CSS.escape(one.id)}"]`).length > 1),
    "names nothing": () => all("[aria-labelledby], [aria-describedby], label[for], [list]")
      .filter((one) => ["aria-labelledby", "aria-describedby", "for", "list"]
        .some((key) => one.getAttribute(key)
          && !document.getElementById(one.getAttribute(key)))),
    "out of the order of Tab": () => all("[tabindex]").filter((one) => one.tabIndex > 0),
    "a table without a caption": () => seen("table").filter((one) => !one.caption?.textContent),
    "a head without a scope": () => seen("th").filter((one) => !one.scope),
    "not in a list": () => seen("li")
      .filter((one) => !["OL", "UL"].includes(one.parentElement.tagName)),
    "no item": () => seen("ol, ul").flatMap((one) => [...one.children])
      .filter((one) => one.tagName !== "LI"),
    "not in a list of terms": () => seen("dt, dd").filter((one) => !one.closest("dl")),
    "a dead link": () => all("a[href]")
      .filter((one) => !/^(#|archive\/)\w+/.test(one.getAttribute("href"))),
    "a role that isn't known": () => all("[role]")
      .filter((one) => !["alert", "status", "img", ...GROUPS].includes(one.getAttribute("role"))),
    "a small place to press": () =>
      seen("button, .button, select, input:not([type=radio],[type=range])")
        .filter((one) => one.getBoundingClientRect().height < 24),
  };
  function unnamed() {
    const faults = Object.entries(RULES).flatMap(([rule, find]) =>
      find().map((one) => `${rule}: ${named(one)}`));
    if (all("main").length !== 1) faults.push("not one main");
    if (all("h1").length < 1) faults.push("no first heading");
    if (!/^(en|de)$/.test(document.documentElement.lang)) faults.push("no language");
    if (document.documentElement.scrollWidth > innerWidth + 1) {
      faults.push(`the page is ${document.documentElement.scrollWidth} wide for ${innerWidth}`);
    }
    return faults;
  }

  const finds = [cut, spilled, overlapping, covered, tiny, pale, unnamed];
  return { all: () => finds.flatMap((find) => find()) };
})();
